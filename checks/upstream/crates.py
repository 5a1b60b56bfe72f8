"""The programs that are compared with upstream's crate, and how they are compared: the proved one, and one over the
Rust crate with its modes."""
import glob
import json
import os
import re
import subprocess

import built

SOURCES = f"{built.ROOT}/checks/comparisons"
LINE_MODES = ("print", "show", "settle", "matrix")


def write(path, text):
    with open(path, "w", encoding="utf-8", newline="") as file:
        file.write(text)


def read(path):
    with open(path, encoding="utf-8") as file:
        return file.read()


# ---- building

def cargo(crate, command, *words, package=SOURCES, flags="", given=None):
    """Runs a command of cargo for a package over upstream's crate. If that is in a folder, nothing is fetched. Returns
    the output."""
    patch = [*built.CARGO, *["--offline"] * ("--offline" not in built.CARGO), "--config",
             f'patch.crates-io.target-lexicon.path="{os.path.realpath(crate or "")}"']
    words = [*(patch if crate else built.CARGO[:1]), command, "--quiet", f"--manifest-path={package}/Cargo.toml",
             *words]
    ran = subprocess.run(words, env={**os.environ, "RUSTFLAGS": f"--cap-lints allow {flags}"}, input=given,
                         stdout=subprocess.PIPE, text=True)
    if ran.returncode:
        raise RuntimeError(f"that failed: {' '.join(words)}")
    return ran.stdout


def rust_program(crate, name, flags=""):
    """The path of a program of the package."""
    cargo(crate, "build", "--release", f"--bin={name}", flags=flags)
    return program_path(name)


def program_path(name):
    return f"{os.environ.get('CARGO_TARGET_DIR', f'{SOURCES}/target')}/release/{name}"


def sources(crate):
    """The text of the files of upstream's crate."""
    packages = [] if crate else json.loads(cargo(crate, "metadata", "--format-version=1"))["packages"]
    upstreams = (os.path.dirname(it["manifest_path"]) for it in packages
                 if (it["name"], it["version"]) == ("target-lexicon", "0.13.5"))
    folder = crate or next(upstreams)
    return "\n".join(map(read, sorted(glob.glob(f"{folder}/**/*.rs", recursive=True))))


def quoted_texts(crate, form):
    """The texts of a form that upstream's crate has in quotes."""
    return sorted(set(re.findall(f'"({form})"', sources(crate))))


def programs(*names):
    """The paths of these programs, by who answers: `proved`, the program `triples`, and `cargo`, that over the Rust
    crate with its modes."""
    found = {"the proved program": built.program("compare", "triples", 2)} if "proved" in names else {}
    return found | ({"the Rust crate": built.cargo_program("compare", "lines", 2)} if "cargo" in names else {})


def programs_there():
    """The proved program, by its name, if it is built and no older than its sources. Otherwise it says so, and there is
    none."""
    path = built.program_there("triples")
    if not path:
        print("the proved program isn't built, or is older than its sources, so it isn't compared; `rt run` in "
              "crates/triples proves and builds it", flush=True)
    return {"the proved program": path} if path else {}


def answers(command, given):
    """What a command writes for an input, both as bytes."""
    ran = subprocess.run(command, input=given, stdout=subprocess.PIPE)
    if ran.returncode:
        raise RuntimeError(f"{command} ended with status {ran.returncode}, and wrote {ran.stdout[:200]}")
    return ran.stdout
