"""The programs that checks run: those of the tree BUILT, which the gate makes, or as `rt run` or cargo builds them."""
import glob
import os
import subprocess
import sys

ROOT = os.path.dirname(os.path.dirname(os.path.realpath(__file__)))
BUILT = os.environ.get("BUILT", "")
# The tools that the caller names, as checks/gate/left_out says.
WITHOUT = os.environ.get("WITHOUT", "").split()
# cargo takes crates from Debian's packages where these are installed, and then needs no network.
DEBIAN_CRATES = f"{ROOT}/tools/debian.toml"
CARGO = [f"{ROOT}/tools/cargo"]
if os.path.isdir("/usr/share/cargo/registry"):
    CARGO += ["--config", DEBIAN_CRATES, "--offline"]
COMMANDS = f"{ROOT}/packages/command"
COMMANDS_TARGET = f"{ROOT}/packages/target"


def left_out(tool, what):
    """Says that a check leaves something out. Returns whether that is a failure."""
    return subprocess.run([f"{ROOT}/checks/gate/left_out", tool, what]).returncode != 0


def made(check, command, folder, status, **environment):
    """Runs a command that makes a program. If that fails, the check ends with the status."""
    print(f"{check}: {' '.join(command)}, in {folder}", flush=True)
    ran = subprocess.run(command, cwd=folder, env={**os.environ, **environment}, stdin=subprocess.DEVNULL,
                         stdout=subprocess.DEVNULL,
                         stderr=subprocess.PIPE, text=True, errors="replace")
    if ran.returncode:
        print(*ran.stderr.splitlines()[-10:], f"{check}: that failed", sep="\n")
        sys.exit(status)


def cargo_program(check, name, status=1):
    """The path of a program of packages/command, which has a workspace of its own: `target-lexicon`, or `lines` for
    comparisons."""
    if BUILT and os.path.exists(f"{BUILT}/bin/{name}"):
        return f"{BUILT}/bin/{name}"
    environment = {}
    if os.path.isdir("/usr/share/cargo/registry/clap-4.0.32"):
        environment["CARGO_HOME"] = f"{COMMANDS_TARGET}/debian"
        made(check, [f"{ROOT}/tools/debian_crates", environment["CARGO_HOME"]], COMMANDS, status)
    made(check, [CARGO[0], "build", "--quiet", "--release", "--locked", "--all-features"], COMMANDS, status,
         **environment)
    return f"{os.environ.get('CARGO_TARGET_DIR', COMMANDS_TARGET)}/release/{name}"


def c_library(folder):
    """Where the library for C is installed: the tree BUILT, or else one in this folder."""
    if BUILT and os.path.exists(f"{BUILT}/lib/libtarget_lexicon.so"):
        return BUILT
    subprocess.run([f"{ROOT}/packages/c/install", f"{folder}/tree"], check=True, stdout=subprocess.DEVNULL)
    return f"{folder}/tree"


def program_there(name):
    """The path of a program of a proved crate that is built, and no older than a source of a crate; or none."""
    if BUILT and os.path.exists(f"{BUILT}/bin/{name}"):
        return f"{BUILT}/bin/{name}"
    path, sources = f"{ROOT}/crates/{name}/out/{name}", glob.glob(f"{ROOT}/crates/*/src/**/*.rt", recursive=True)
    return path if os.path.exists(path) and os.path.getmtime(path) >= max(map(os.path.getmtime, sources)) else None


def program(check, name, status=1, words=()):
    """The path of a program: of a proved crate, if there is one of its name, otherwise of packages/command. Without rt
    it is the Rust crate's, which lacks modes of the proved one.

    `rt run`, which decides whether it must be built, runs it with these words.
    """
    if BUILT and os.path.exists(f"{BUILT}/bin/{name}"):
        return f"{BUILT}/bin/{name}"
    if not os.path.isdir(f"{ROOT}/crates/{name}"):
        return cargo_program(check, name, status)
    if "rt" in WITHOUT:
        return cargo_program(check, "lines", status)
    made(check, ["rt", "run", "--", *words], f"{ROOT}/crates/{name}", status)
    return f"{ROOT}/crates/{name}/out/{name}"
