"""What hatchling asks of this package: the shared library in the wheel, its platform's tag, and the library's sources
in the sdist.

The library is the file that the variable TARGET_LEXICON_LIBRARY names. Without that variable cargo builds it, from the
sources in the repository or, in an sdist, below the folder `native`. If the variable is `system`, the wheel has no
library: then the package loads the one that is installed. An editable wheel has only the path of the sources, beside
which the library is written.
"""
import os
import re
import shutil
import struct
import subprocess
import sysconfig
import tempfile

from hatchling.builders.hooks.plugin.interface import BuildHookInterface

NO_CARGO = """the shared library of this package isn't built: cargo doesn't run ({error}).
Install Rust, which has cargo, or set the variable TARGET_LEXICON_LIBRARY to PATH/libtarget_lexicon.so of a built
library for C (libtarget_lexicon 0.5)."""
CARGO_FAILED = "the shared library of this package isn't built: cargo ended with status {status}, and wrote why above."

LICENCES = ("LICENSE", "COPYRIGHT")
# The table of the names that other tools have for targets.
TABLES = ("names.json", "names.csv", "names.schema.json", "targets.csv")
# What an sdist has of the repository, below `native`: what cargo builds the library from, what the tests read, and the
# licence.
SOURCES = ("Cargo.toml", "Cargo.lock", *(f"packages/names/{name}" for name in ("Cargo.toml", "src", *TABLES)),
           *(f"packages/{package}/{name}" for package in ("c", "rust") for name in ("Cargo.toml", "build.rs", "src")))
LISTS = ("packages/c/include", *(f"tools/names/{name}" for name in ("names.tsv", "answers.tsv", "names_table.py")),
         "checks/upstream/known_triples.txt", "checks/target_lines.py", "checks/gate/failing_allocator.c")


class CustomBuildHook(BuildHookInterface):
    def initialize(self, version, build_data):
        own = os.path.join(self.root, "native")
        self.top = own if os.path.isdir(own) else os.path.normpath(os.path.join(self.root, "..", ".."))
        included = build_data["force_include"]
        if self.target_name == "sdist":
            if self.top != own:
                included.update({os.path.join(self.top, path): f"native/{path}" for path in SOURCES + LISTS + LICENCES})
            return
        licences = f"target_lexicon-{self.metadata.version}.dist-info/licenses"
        included.update({os.path.join(self.top, name): f"{licences}/{name}" for name in LICENCES})
        if version == "editable":
            for name in TABLES:
                shutil.copyfile(os.path.join(self.top, "packages", "names", name),
                                os.path.join(self.root, "src", "target_lexicon", name))
        else:
            included.update({os.path.join(self.top, "packages", "names", name): f"target_lexicon/{name}"
                             for name in TABLES})
        given = os.environ.get("TARGET_LEXICON_LIBRARY")
        if given == "system":
            return
        library, platform = given_library(given) if given else self.built_library()
        build_data["pure_python"] = False
        build_data["tag"] = f"py3-none-{platform}"
        # Python would take a file whose name ends with `.so` for a module.
        path = f"target_lexicon/libtarget_lexicon.so.{self.metadata.version.rpartition('.')[0]}"
        if version == "editable":
            new = os.path.join(self.root, "src", f"{path}.new")
            shutil.copyfile(library, new)
            os.replace(new, os.path.join(self.root, "src", path))  # a running program keeps the one that it has
            return
        included[library] = path

    def built_library(self):
        """The library that cargo builds, and the platform that it is for: this one, or that of CARGO_BUILD_TARGET."""
        target = os.environ.get("CARGO_BUILD_TARGET", "")
        self.folder = tempfile.TemporaryDirectory()  # which stays until the wheel is written
        work = self.folder.name
        words = [os.environ.get("CARGO", "cargo"), "build", "--quiet", "--release", "--locked", "--offline",
                 "--target-dir", work, "--manifest-path", os.path.join(self.top, "packages", "c", "Cargo.toml")]
        try:
            # Above the folder that pip builds in, others may have put settings of cargo.
            status = subprocess.run(words, check=False, cwd=os.path.abspath(os.sep)).returncode
        except OSError as error:
            raise SystemExit(NO_CARGO.format(error=error)) from None
        if status:
            raise SystemExit(CARGO_FAILED.format(status=status))
        paths = [os.path.join(work, target, "release", it)
                 for it in ("libtarget_lexicon.so", "libtarget_lexicon.dylib", "target_lexicon.dll")]
        path = next(it for it in paths if os.path.exists(it))
        platform = linux_platform(read(path))
        if not platform and target:
            raise SystemExit(f"there is no name for the platform of {target}: build the wheel on such a machine")
        return path, platform or re.sub(r"\W", "_", sysconfig.get_platform())


def read(path):
    with open(path, "rb") as it:
        return it.read()


def given_library(name):
    """The library that the variable names, and the platform that it is for."""
    path = os.path.realpath(name)
    try:
        content = read(path)
    except OSError as error:
        raise SystemExit(f"TARGET_LEXICON_LIBRARY can't be read: {error}") from None
    platform = linux_platform(content)
    if not platform or b"\0lexicon_settle_lines\0" not in content:
        raise SystemExit("TARGET_LEXICON_LIBRARY isn't libtarget_lexicon for Linux on x86-64 or 64-bit Arm")
    return path, platform


# ---- the platform that a library is for

MACHINES = {62: "x86_64", 183: "aarch64"}
MANYLINUX_LIBRARIES = {b"libc.so.6", b"libgcc_s.so.1", b"libm.so.6", b"libpthread.so.0", b"libdl.so.2", b"librt.so.1",
                       b"ld-linux-x86-64.so.2", b"ld-linux-aarch64.so.1"}


def linux_platform(content):
    """The tag of the Linux platforms that a shared library is for, by what it needs of the C library, or None.

    A library that needs other ones than the C library is for `linux_x86_64`, for which nothing is promised. What it
    needs are strings in the file that end in a zero byte. Others may look the same: then the tag is of fewer platforms
    than would do.
    """
    machine = MACHINES.get(struct.unpack_from("<H", content, 18)[0]) if content[:6] == b"\x7fELF\x02\x01" else None
    if machine is None:
        return None
    libraries = {it for it in re.findall(rb"(?<=\0)[^\0]+\.so[.\d]*(?=\0)", content)
                 if not it.startswith(b"libtarget_lexicon.so")}
    versions = re.findall(rb"GLIBC_(\d+)\.(\d+)[^\0]*\0", content)
    if not libraries <= MANYLINUX_LIBRARIES or b"GLIBC_PRIVATE\0" in content:
        return f"linux_{machine}"
    major, minor = max([(2, 17), *((int(major), int(minor)) for major, minor in versions)])
    return f"manylinux_{major}_{minor}_{machine}"
