"""Builds the program of the definitions, which Coq extracts, and that over a crate, and runs them."""
import contextlib
import fcntl
import hashlib
import json
import os
import re
import resource
import shutil
import signal
import subprocess
import sys
import tempfile
from pathlib import Path

HERE = Path(__file__).resolve().parent
ROOT = HERE.parents[2]
sys.path[:0] = [str(ROOT / "checks"), str(ROOT / "checks/coq")]
import built  # noqa: E402
import definitions  # noqa: E402

BUILD = HERE / "target"
WRITTEN_FOR = "8.16"
# The tools of the definitions' program, and Debian's packages of them.
TOOLS = {"coqc": "coq", "ocamlopt": "ocaml"}
MANIFEST = """[package]
name = "program"
version = "0.0.0"
edition = "2021"

[features]
port = []

[profile.release]
opt-level = 1

[dependencies]
{dependency}

[[bin]]
name = "program"
path = "{folder}/program.rs"

[workspace]
"""
FEATURES = ["std", "arch_zkasm", "arch_z80"]
SECONDS = 600


class Wrong(Exception):
    """Why nothing can be compared."""


def ran(words, why, **more):
    """What a command that must succeed prints."""
    done = subprocess.run(words, capture_output=True, text=True, errors="replace", **more)
    if done.returncode:
        raise Wrong(f"{why}: {(done.stderr or done.stdout).strip()[-2000:]}")
    return done.stdout


# ---- the definitions

def show_functions(mli):
    """OCaml functions that show each value of the definitions as Rust's `{:?}` does, from the types of spec.mli."""
    def shown(of):
        words = of.split()
        return {"int": "string_of_int", "int list": "show_text"}.get(
            of, f"(show_option show_{words[0]})" if words[1:] == ["option"] else f"show_{of}")

    found = [
        "open Spec",
        "let str l = String.of_seq (Seq.map Char.unsafe_chr (List.to_seq l))",
        "let show_text l = Printf.sprintf \"%S\" (str l)",
        "let show_option f = function Some x -> \"Some(\" ^ f x ^ \")\" | None -> \"None\"",
        "let show_result f g = function Result__Ok x -> \"Ok(\" ^ f x ^ \")\"",
        "  | Result__Err e -> \"Err(\" ^ g e ^ \")\""]
    for name, body in re.findall(r"^type (\w+) =\s+(.*?)\n\n", mli, re.M | re.S):
        if "__" not in body:
            continue
        title = name[0].upper() + name[1:]
        if body.startswith("{"):
            fields = [it.split(" : ") for it in " ".join(body.strip("{ }").split()).split("; ")]
            parts = " ^ \", \" ^ ".join(f"\"{it.partition('__')[2]}: \" ^ {shown(of)} x.{it}" for it, of in fields)
            found.append(f"let show_{name} x = \"{title} {{ \" ^ {parts} ^ \" }}\"")
            continue
        arms = []
        for it, of in re.findall(r"^\| (\w+)(?: of (.*))?$", body, re.M):
            variant = it.partition("__")[2]
            arms.append(f"{it} x -> \"{variant}(\" ^ {shown(of)} x ^ \")\"" if of else f"{it} -> \"{variant}\"")
        found.append(f"let show_{name} = function {' | '.join(arms)}")
    return "".join(f"{it}\n" for it in found)


def definitions_program(root=ROOT):
    """The program of the definitions, which is built if anything of it has changed."""
    for tool, package in TOOLS.items():
        if not shutil.which(tool):
            raise Wrong(f"{tool} isn't on the path; Debian's package {package} has it")
    version = ran(["coqc", "--version"], "coqc says no version").split()[5]
    with tempfile.TemporaryDirectory(prefix="definitions-") as name:
        folder = Path(name)
        definitions.write(root, folder)
        for it in (ROOT / "checks/coq/Kit.v", HERE / "Extract.v", HERE / "main.ml"):
            shutil.copy(it, folder)
        texts = [it.read_bytes() for it in (*sorted(folder.iterdir()), Path(__file__))]
        key = hashlib.sha256(b"\0".join([version.encode(), *texts])).hexdigest()[:16]
        if (program := BUILD / f"definitions-{key}").exists():
            return program
        other = "" if version.startswith(WRITTEN_FOR) else f" (these are for Coq {WRITTEN_FOR}, and this is {version})"
        for file in "Kit", "Specs", "Extract":
            ran(["coqc", "-q", "-w", "none", f"{file}.v"], f"coqc doesn't accept {file}.v{other}", cwd=folder)
        (folder / "shown.ml").write_text(show_functions((folder / "spec.mli").read_text()))
        files = ["spec.mli", "spec.ml", "shown.ml", "main.ml"]
        ran(["ocamlopt", "-w", "-a", "-inline", "200", *files, "-o", "definitions"], "ocamlopt fails", cwd=folder)
        BUILD.mkdir(exist_ok=True)
        for it in BUILD.glob("definitions-*"):
            it.unlink(missing_ok=True)
        shutil.copy(folder / "definitions", BUILD / f"new-{os.getpid()}")
        os.replace(BUILD / f"new-{os.getpid()}", program)
    return program


# ---- a crate

@contextlib.contextmanager
def crate_program(crate, is_ours=False, has_words=False):
    """The program over the Rust crate, or over one with upstream's calls: that of a folder, or upstream's, which cargo
    fetches. With words, also the words in quotes of the crate's source, and of what its macros write."""
    if not shutil.which("cargo"):
        raise Wrong("cargo isn't on the path; Debian's package cargo-web has it")
    if crate and not os.path.isfile(f"{crate}/Cargo.toml"):
        raise Wrong(f"{crate} isn't the folder of a crate")
    name, features = ("target-lexicon-verified", []) if is_ours else ("target-lexicon", FEATURES)
    source = f'path = "{os.path.realpath(crate)}"' if crate else 'version = "=0.13.5"'
    target, texts = BUILD / name, []
    target.mkdir(parents=True, exist_ok=True)
    with tempfile.TemporaryDirectory(prefix="specification-") as folder:
        with open(target / "lock", "w") as lock:  # one run at a time builds here
            fcntl.flock(lock, fcntl.LOCK_EX)
            dependency = f'{name} = {{ {source}, features = {json.dumps(features)} }}'
            (target / "Cargo.toml").write_text(MANIFEST.format(dependency=dependency, folder=HERE))
            program = shutil.copy(build(crate, target, ["--features=port"] * is_ours), f"{folder}/program")
            if has_words:
                texts = [it.read_text(encoding="utf-8") for it in Path(crate).glob("src/**/*.rs")]
                texts.append(cargo(target, True, "rustc", f"--package={name}", "--", "-Zunpretty=expanded").stdout)
        yield program, sorted({word for text in texts for word in re.findall(r'"([\w.+-]{1,40})"', text)})


def cargo(target, is_offline, *words):
    start = [*built.CARGO, *["--offline"] * ("--offline" not in built.CARGO)] if is_offline else built.CARGO[:1]
    environment = {**os.environ, "RUSTFLAGS": f"{os.environ.get('RUSTFLAGS', '')} --cap-lints=allow",
                   "RUSTC_BOOTSTRAP": "1" if words[0] == "rustc" else ""}
    return subprocess.run([*start, *words[:1], "--release", "--quiet", f"--manifest-path={target}/Cargo.toml",
                           f"--target-dir={target}", *words[1:]], stdin=subprocess.DEVNULL, capture_output=True,
                          text=True, errors="replace", env=environment)


def build(crate, target, words):
    """The path of the program that cargo builds. What isn't here is fetched."""
    for is_offline in [True, False] if crate else [False]:
        done = cargo(target, is_offline, "build", "--message-format=json", *words)
        if done.returncode == 0 or "offline" not in done.stderr:
            break
    messages = [json.loads(line) for line in done.stdout.splitlines() if line.startswith("{")]
    if done.returncode == 0:
        return next(it["executable"] for it in messages if it.get("executable"))
    errors = [it["message"] for it in messages if it.get("reason") == "compiler-message"
              and it["message"]["level"] == "error"]
    shown = "".join(it["rendered"] for it in errors) + done.stderr
    if linker := re.search("linker `(.*?)` not found", shown):
        raise Wrong(f"cargo needs a linker, and `{linker[1]}` isn't on the path; Debian's package gcc has it")
    if absent := re.search(r"(?s)failed to get `(.*?)` as a dependency.*\[\d+\] (.*?)\n", done.stderr):
        raise Wrong(f"cargo can't fetch `{absent[1]}`, which {crate} depends on: {absent[2]}")
    if "--features=port" in words:
        raise Wrong(f"the program isn't built for {crate}\n{shown}")
    feature = re.search(r"(?s)depends on `target-lexicon.*?with features?:? `(.*?)`", done.stderr)
    lacks = [f"no feature {feature[1]}"] if feature else [
        f"{os.path.basename(span['file_name'])} can't be built with it: {it['message']}" for it in errors
        for span in it["spans"] if span["is_primary"] and span["file_name"].startswith(str(HERE))]
    if lacks:
        raise Wrong("\n  ".join([f"{crate} doesn't have what target-lexicon 0.13.5 has, so that it isn't compared:",
                                 *dict.fromkeys(lacks)]))
    raise Wrong(f"the program isn't built for {crate}\n{shown}")


# ---- running

RUNNING, STOPPED = set(), []


def stop():
    """Ends what runs, and lets nothing begin."""
    STOPPED.append(True)
    for process in list(RUNNING):
        process.kill()


def answers(program, lines, seconds=SECONDS):
    """What a program, which is its words, answers to each line. A call that doesn't return ends after so many seconds
    of the processor, or ten times these by the clock."""
    with subprocess.Popen(program, stdin=subprocess.PIPE, stdout=subprocess.PIPE, stderr=subprocess.PIPE) as process:
        RUNNING.add(process)
        if STOPPED:
            process.kill()
        resource.prlimit(process.pid, resource.RLIMIT_CPU, (seconds, seconds + 1))
        try:
            output, error = process.communicate("".join(f"{it}\n" for it in lines).encode(), timeout=10 * seconds)
        except subprocess.TimeoutExpired:
            process.kill()
            output, error = process.communicate()
        RUNNING.discard(process)
    found = output.decode().split("\n")[:-1]
    if process.returncode or len(found) != len(lines):
        at = f"at the line {lines[len(found)][:300]!r} " if len(found) < len(lines) else ""
        if process.returncode in (-signal.SIGKILL, -signal.SIGXCPU):
            raise Wrong(f"{at}a call doesn't return: {program[0]} is ended after {seconds} s of the processor, or ten "
                        "times these by the clock (--limit)")
        raise Wrong(f"{at}{program[0]} ended with status {process.returncode}: "
                    f"{error.decode(errors='replace').strip()[-1000:]}")
    return found
