#!/usr/bin/env python3
"""The gate: its steps, of which the first that fails ends the run.

usage: .ci/run [--half HALF] [--without NAME].. [--since COMMIT]
HALF is `proved`, the crates, the Rust crate and Coq, or `around`, what is built and tested around these; otherwise both
halves run. NAME is a tool or Debian's package of it, as PACKAGES has them, or `kit`, `browser`, `wasm32`. After COMMIT,
for which the gate passed, only the steps that read what has changed since are run.

.ci/isolated starts this in a copy of the tree, and as root installs Debian's packages of missing tools. If one is still
missing, or too old, that no --without names, no step runs, and the gate fails. Each half has rows of steps, which run
at the same time; what all these built is tested after them, each step at the same time as the others. Each step runs by
itself too, as it is printed, with WORK as any folder, and BUILT as WORK/built. A step that needs a named tool isn't
run; a step without a part that needs one fails, unless that is named in WITHOUT, where the steps get all names. With
UPSTREAM, upstream's crate in a folder that all may read and that isn't temporary, upstream's tests and dependents are
tried too. The last lines say how long each step took, by the clock and in minutes of a processor, what was left out,
and which step failed.
"""
import argparse
import concurrent.futures
import glob
import os
import re
import shutil
import signal
import subprocess
import sys
import tempfile
import threading
import time
import traceback

# Debian's packages of the tools: commands, modules of Debian's Python, and paths.
MODULES = {it: f"python3-{it}" for it in """hypothesis pip venv hatchling build installer pandas packaging selenium
    jsonschema markdown""".split()} | {"ensurepip": "python3-venv"}
PACKAGES = {it: it for it in """git clang valgrind cmake meson cbindgen jq pkg-config mypy pypy3 shellcheck pyflakes3
    chromium npm esbuild lintian rpm makepkg zsh fish strace""".split()} | MODULES | {
    "coqc": "coq", "ocamlopt": "ocaml", "cargo": "cargo-web", "rustc": "rustc-web", "rustfmt": "rustfmt-web",
    "cargo-clippy": "rust-web-clippy", "cc": "gcc", "c++": "g++", "nm": "binutils",
    "bwrap": "bubblewrap", "man": "man-db", "cram3": "python3-cram", "chromedriver": "chromium-driver",
    "node": "nodejs", "tsc": "node-typescript", "dpkg-buildpackage": "dpkg-dev",
    "dh": "debhelper", "dh_python3": "dh-python", "llvm-config": "llvm-dev", "go": "golang-go",
    "nix-instantiate": "nix-bin",
    "/usr/share/gocode/src/github.com/containerd/containerd/platforms": "golang-github-containerd-containerd-dev",
    "/usr/share/doc/librust-proptest+std-dev": "librust-proptest+std-dev",
    "/usr/share/misc/config.sub": "autotools-dev", "/usr/share/doc/nodejs/api/process.md*": "nodejs-doc",
    **{f"/usr/share/cargo/registry/{crate}": f"librust-{package}-dev" for crate, package in (
        ("clap-4.0.32", "clap-4"), ("clap_complete-4.0.7", "clap-complete"), ("serde_json-1.0.87", "serde-json"),
        ("cfg-expr-0.10.3", "cfg-expr"), ("cc-1*", "cc"), ("syn-1*", "syn"))},
}
# The oldest versions that will do, also of what is in /usr/bin, where Debian's packages are built. An older tool is a
# missing one.
OLDEST = {"rustc": "1.68", "cargo": "1.68", "cmake": "3.19", "node": "18.0", "clang": "14.0"}
GROUPS = {"kit": ["rt"], "browser": ["chromium", "chromedriver", "selenium"]}


parser = argparse.ArgumentParser(prog=".ci/run", description=__doc__,
                                 formatter_class=argparse.RawDescriptionHelpFormatter)
parser.add_argument("--half", choices=("proved", "around"))
parser.add_argument("--without", metavar="NAME", action="append", default=[])
parser.add_argument("--since", metavar="COMMIT", default="")
parser.add_argument("--prepare", action="store_true", help=argparse.SUPPRESS)
OPTIONS = parser.parse_args()
WITHOUT = {*OPTIONS.without, *os.environ.get("WITHOUT", "").split()}
WITHOUT |= {tool for name in WITHOUT for tool in GROUPS.get(name, [])} | {
    tool for tool, package in PACKAGES.items() if package in WITHOUT}

TOP = os.path.dirname(os.path.dirname(os.path.realpath(__file__)))
WORK = os.environ["WORK"]  # a folder that is closed to others, as .ci/isolated makes it
BUILT, CARGO_HOME, WASM = f"{WORK}/built", f"{WORK}/cargo", f"{WORK}/rust"

# Each step: what it is for, its command, the tools without which it isn't run, and the rooms that it reads, if it isn't
# always run. A package's page is a room of its own. What is neither a page nor in a room is read by each. The halves
# are what is proved, and what is around it, of which the rows run at the same time. The second row of the latter has
# what is built for others.
ROOM = re.compile(
    r"crates/|packages/(?:(\w+/README\.md)$|(\w+)/)|checks/(coq|upstream|comparisons)/|docs/|[A-Z]+\.md$")
FIRST = [
    ("lists of names and the Rust source are what they are made from; what was reviewed of the statement is as it "
     "was", "tools/write --check", "rustfmt"),
    ("upstream's answers contradict each change of one cell of the table of names", "checks/upstream/cells", "",
     "upstream"),
    ("no script has a warning", "checks/gate/scripts", "shellcheck pyflakes3",
     "crates rust names c command python javascript debian coq upstream comparisons"),
    ("nothing that another user of the machine plants reaches the gate", "checks/gate/planted", "", ""),
]
PROOFS = ("all proofs, must-fail edits, tests and proved programs", "rt ci", "rt", "crates")
ROWS = {"proved": [[PROOFS], [
    ("Coq proves the laws of the definitions, and of the Rust source, which is the proved source and what rustc "
     "compiles; six edits of them, others on each day, are refused at their lemmas; bad input",
     'checks/theorem mir source no_alloc ${UPSTREAM:+upstream "$UPSTREAM"} --keep "$WORK/theorem" && '
     'checks/coq/edits "$WORK/theorem" 6 && checks/coq/test', "cargo coqc rustc",
     "crates rust coq"),
], [
    ("the Rust crate, as its users build it: tests, samples of the documentation, public surface, features, "
     "a dependent",
     "packages/rust/test", "cargo", "rust rust/README.md coq"),
    ("the definitions, as Coq extracts them, say what upstream and the Rust crate answer; bad input",
     "checks/specification quick && checks/upstream/extracted/test", "cargo coqc ocamlopt",
     "crates rust coq upstream"),
    ("they, and the table of names, say what upstream's own crate answers",
     'if [ "$UPSTREAM" ]; then tools/port "$UPSTREAM"; '
     'else echo "left out: upstream\'s crate (UPSTREAM isn\'t set)"; fi',
     "cargo coqc ocamlopt", "crates rust coq upstream"),
]], "around": [[
    ("the crate of other tools' names: each row, shape and rule, laws over generated strings, samples of the "
     "documentation, the schema of the table",
     "packages/names/test", "cargo", "rust names names/README.md"),
    ("the command `target-lexicon`: arguments, output and statuses", "packages/command/test", "cargo cram3 jq",
     "rust names command"),
    ("the library for C, header, packages and samples, as C and C++ users have them", "packages/c/test", "cargo cc",
     "rust names c c/README.md"),
], [
    ("the command `target-lexicon`, and a program to compare with, are built for the next steps",
     'packages/command/tests/folders "$WORK/command" only && '
     'cd "$WORK/command/packages/target/release" && cp lines target-lexicon "$BUILT/bin"', "cargo"),
    ("what is released is made, and works in clean folders; its library, module, package and page are for the next "
     "steps",
     'umask 077; checks/gate/planted tools/release "$WORK/release" "$WORK/web" && '
     'tar xzf "$WORK"/release/target-lexicon-c-*.tar.gz -C "$BUILT" --strip-components=1', "cargo cc",
     "rust rust/README.md names c command python python/README.md javascript javascript/README.md comparisons"),
    ("what other tools say of names and targets; suggestions keep the machine, at a sixth of the edits, others on each "
     "day", "checks/compare elsewhere && checks/compare llvm && checks/compare suggestions --share 6", "cargo cc",
     "rust names c comparisons"),
    ("the Python package: each answer, wheels, types, samples",
     'packages/python/test "$BUILT/lib/libtarget_lexicon.so" "$BUILT/bin/lines"',
     "cargo cc hatchling", "rust names c python python/README.md"),
    ("a list of misspelled names takes at most ten times as long as one of right names",
     'packages/command/tests/cost "$BUILT/bin/target-lexicon"', "cargo valgrind", "rust names command"),
    ("the page and the package for JavaScript answer as the command does, in Node and in a browser",
     'packages/javascript/test "$WORK/web" --command "$BUILT/bin/target-lexicon"', "cargo wasm32",
     "rust names c javascript javascript/README.md"),
], [
    ("Debian's packages are built, and lintian finds no error",
     "DEB_BUILD_OPTIONS=noopt checks/gate/planted packages/debian/build debian -d", "cargo cc dpkg-buildpackage",
     "rust names c command python debian"),
]]}
LAST = {"proved": [
    ("each allocation fails in turn", "checks/gate/fail_allocations", "rt cc", "crates"),
    ("names, rules and tables are upstream's, by its kept answers", "checks/compare answers", "cargo",
     "crates rust upstream"),
    ("the mode json: the proved program answers as Rust's serde_json does",
     "/usr/bin/python3 checks/compare json --inputs 200",
     "rt cargo hypothesis", "crates"),
], "around": [
    ("links, names, samples, counts and versions of the pages, and the pictures", "checks/gate/pages", "cargo"),
    ("the program `triples` and the command `target-lexicon`: stored rows, unusual streams, large inputs, samples "
     "of the pages", "checks/gate/rows/run", "cargo coqc cram3 ocamlopt"),
    ("no message and no output has what isn't printable ASCII of a hostile string", "checks/gate/visible", "cargo cc",
     "rust names c command python"),
    ("SECURITY's other promises", "checks/gate/security", "cargo cc strace"),
]}

running, passed, left_out, failed = set(), [], [], []
HALVES = [half for half in ROWS if OPTIONS.half in (None, half)]
ENVIRONMENT = {**os.environ, "WORK": WORK, "BUILT": BUILT, "WASM_RUST": WASM, "PYTHONDONTWRITEBYTECODE": "1",
               "WITHOUT": " ".join(sorted(WITHOUT)),
               # Nobody debugs the test programs, or compiles them again.
               "CARGO_PROFILE_DEV_DEBUG": "0", "CARGO_INCREMENTAL": "0"}


def changed():
    """The rooms of what differs from the commit of --since; None if each step is run."""
    if not OPTIONS.since:
        return None
    rooms = []
    for words in (f"diff --no-renames --name-only {OPTIONS.since} --", "ls-files --others --exclude-standard"):
        listed = subprocess.run(["git", *words.split()], cwd=TOP, capture_output=True, text=True)
        if listed.returncode:
            parser.error(f"git: {listed.stderr.strip()}")
        rooms += map(ROOM.match, listed.stdout.splitlines())
    return {it[1] or it[2] or it[3] or it[0].strip("/") for it in rooms} if all(rooms) else None


def missing():
    """The tools that aren't there, and that aren't named."""
    steps = [*FIRST, *(step for half in HALVES for row in [*ROWS[half], LAST[half]] for step in row)]
    tools = dict.fromkeys([*PACKAGES, *(tool for step in steps for tool in step[2].split())])
    return [tool for tool in tools if tool not in WITHOUT and (not has(tool) or too_old(tool))]


def too_old(tool):
    """What is too old of a tool: the path and the version of each of its commands that is; empty if none is."""
    paths = {*filter(os.path.exists, (shutil.which(tool) or "", f"/usr/bin/{tool}"))} if tool in OLDEST else ()
    said = {path: subprocess.run([path, "--version"], capture_output=True, text=True).stdout for path in sorted(paths)}
    versions = {path: re.search(r"\d+\.\d+", text) for path, text in said.items()}
    return [f"{path} is {it[0]}, and {OLDEST[tool]} is needed" for path, it in versions.items()
            if it and [*map(int, it[0].split("."))] < [*map(int, OLDEST[tool].split("."))]]


def has(tool):
    """Whether there is a command, a module or a path, or for `wasm32` rustc's `std`."""
    if tool == "wasm32":
        folder = f"$(PATH={WASM}/bin:$PATH rustc --print target-libdir --target wasm32-unknown-unknown)"
        command = f'ls "{folder}"/libcore-*.rlib'
    elif tool in MODULES:
        command = f"/usr/bin/python3 -I -c 'import {tool}'"
    else:
        return bool(glob.glob(tool) if tool.startswith("/") else shutil.which(tool))
    return subprocess.run(["bash", "-c", command], capture_output=True).returncode == 0


def run(step):
    """Runs a step, and prints its output at the end. Returns whether it passed or was left out."""
    purpose, command, tools, *reads = step
    absent = sorted(WITHOUT.intersection(tools.split()))
    is_as_before = bool(reads and CHANGED is not None and not CHANGED.intersection(reads[0].split()))
    if absent:
        left_out.append(f"{command} (without {' '.join(absent)})")
    elif is_as_before:
        left_out.append(f"{command} (nothing that it reads differs from {OPTIONS.since})")
    if absent or is_as_before or failed:
        return not failed
    path = f"{WASM}/bin:{ENVIRONMENT['PATH']}" if "wasm32" in tools else ENVIRONMENT["PATH"]
    print(f"step: {command}   # {purpose}\n", end="", flush=True)
    begun, minutes = time.monotonic(), 0
    with tempfile.TemporaryFile("w+", errors="replace") as file:
        process = subprocess.Popen(command, shell=True, cwd=TOP, env={**ENVIRONMENT, "PATH": path},
                                   stdin=subprocess.DEVNULL, stdout=file, stderr=subprocess.STDOUT,
                                   start_new_session=True)
        running.add(process)
        while not (ended := os.wait4(process.pid, os.WNOHANG))[0]:
            time.sleep(0.1)
            if time.monotonic() - begun > 60 * (minutes + 1):
                minutes += 1
                print(f"-- {command}: for {minutes} min\n", end="", flush=True)
        running.discard(process)
        stop([process])  # what it left running
        file.seek(0)
        output = file.read()
    process.returncode = os.waitstatus_to_exitcode(ended[1])
    status = process.returncode or int("BAD EDIT" in output)  # one that must fail, and that `rt ci` couldn't try
    seconds, used = time.monotonic() - begun, (ended[2].ru_utime + ended[2].ru_stime) / 60
    print(f"{command}, after {seconds / 60:.0f} min ({used:.1f} CPU minutes):\n{output}", end="", flush=True)
    left_out.extend(f"within {command}: {line}" for line in output.splitlines() if re.search("left out[:,] ", line))
    if status == 0:
        passed.append((command, seconds, used))
    elif not failed:
        failed.append((command, status))
        stop(running)
    return status == 0


def in_turn(steps):
    return all(map(run, steps))


def stop(processes):
    """Ends what these have started."""
    for process in list(processes):
        try:
            os.killpg(process.pid, signal.SIGTERM)
        except ProcessLookupError:
            pass


def end_with_input():
    """Ends the gate when what started it closes its input."""
    sys.stdin.read()
    failed.append(("a signal", 143))
    stop(running)


def main():
    tools = missing()
    if tools:
        old = "".join(f" ({it})" for tool in tools for it in too_old(tool))
        failed.append((f"missing: {' '.join(tools)}{old}. "
                       f"Install these, or name what may be left out, as with --without {tools[0]}", 2))
        return
    with open("/proc/meminfo", encoding="utf-8") as file:
        memory = next(int(line.split()[1]) // 1000000 for line in file if line.startswith("MemAvailable"))
    if memory >= 5 * os.cpu_count():  # rt expects a proof to take 10 GB instead of 5, and would leave processors idle
        ENVIRONMENT.setdefault("RT_JOBS", str(os.cpu_count()))
    os.makedirs(f"{BUILT}/bin")
    # With Debian's crates cargo needs no network.
    if has("/usr/share/cargo/registry/clap-4.0.32") and subprocess.run(
        ["tools/debian_crates", CARGO_HOME], cwd=TOP).returncode == 0:
        ENVIRONMENT["CARGO_HOME"] = CARGO_HOME
    with concurrent.futures.ThreadPoolExecutor(max(6, os.cpu_count())) as pool:
        if not in_turn(FIRST) or not all([*pool.map(in_turn, [row for half in HALVES for row in ROWS[half]])]):
            return
        if PROOFS[1] not in [it[0] for it in passed] and "cargo" not in WITHOUT:
            ENVIRONMENT["WITHOUT"] += " rt"  # as checks/built.py says
            left_out.append(
                "all proofs; the pages were tried with the Rust crate's program instead of the proved `triples`")
        for program in glob.glob(f"{TOP}/crates/triples/out/triples") + glob.glob(
            f"{TOP}/crates/oom_probe/out/oom_probe"):
            shutil.copy(program, f"{BUILT}/bin")  # where `rt ci` left none, the checks ask `rt run`
        list(pool.map(run, [step for half in HALVES for step in LAST[half]]))


if OPTIONS.prepare:
    packages = sorted({PACKAGES[tool] for tool in missing() if tool in PACKAGES})
    if not packages and "wasm32" in missing():
        subprocess.run(["packages/javascript/debian_rust", WASM], cwd=TOP)
    print("missing packages:", *packages or ["none"])
    sys.exit()
CHANGED = changed()
begun = time.monotonic()
threading.Thread(target=end_with_input, daemon=True).start()
try:
    main()
except Exception:
    traceback.print_exc()
    failed.append(("the gate itself", 1))
stop(running)
print(f"the steps of .ci/run, after {(time.monotonic() - begun) / 60:.0f} min")
for command, seconds, used in passed:
    print(f"{seconds:6.0f} s {used:5.1f} CPU min  {command}")
print(f"{sum(used for command, _, used in passed if command != PROOFS[1]):.1f} CPU minutes, apart from {PROOFS[1]}")
for what in left_out:
    print(f"left out: {what}")
for command, code in failed:
    print(f"FAILED, with status {code}: {command}")
print(f"{len(passed)} passed, {len(failed)} failed", flush=True)
os._exit(failed[0][1] & 255 or 1 if failed else 0)
