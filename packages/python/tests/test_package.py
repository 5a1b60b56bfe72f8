"""What was built and installed: the files, how the library is found, the command's answers, the samples of the page,
and the types."""
import doctest
import email
import filecmp
import importlib
import inspect
import json
import os
import pathlib
import pkgutil
import platform
import pydoc
import re
import shutil
import subprocess
import sys
import tarfile
import tempfile
import unittest
import venv
import zipfile

import target_lexicon
import lists
from target_lexicon import ParseError, Triple

HERE = os.path.dirname(os.path.abspath(__file__))
PRINTS = "import target_lexicon; print(target_lexicon.Triple('arm64-linux'), target_lexicon.LIBRARY_PATH)"
# The version of the library's calls: the first two numbers; and the name of the library.
CALLS = target_lexicon.__version__.rpartition(".")[0]
NAME = f"libtarget_lexicon.so.{CALLS}"
INFO = f"target_lexicon-{target_lexicon.__version__}.dist-info"
# The folder that has the installed package; and the command that lies beside the program, or None.
PACKAGES = os.path.dirname(os.path.dirname(target_lexicon.__file__))
COMMAND = shutil.which("target-lexicon", path=os.path.dirname(lists.PROGRAM)) if lists.PROGRAM else None
# The Python that this one was made of has hatchling, which builds.
BASE_PYTHON = getattr(sys, "_base_executable", sys.executable)
PIP = ["-m", "pip", "--disable-pip-version-check"]
BUILD = ["--no-deps", "--no-build-isolation", "--no-index", "--no-cache-dir"]
# Pythons that have other packages: Debian's with pandas; the one on the path, which may have pydantic.
DEBIAN_PYTHON, PATH_PYTHON = "/usr/bin/python3", shutil.which("python3") or sys.executable
# Where Rust's programs have what they need; and what makes them compile in a fifth of the time: without optimization,
# code that is never called asks for `rust_eh_personality`.
RUST = {name: value for name, value in os.environ.items()
        if name in ("HOME", "RUSTUP_HOME", "RUSTUP_TOOLCHAIN", "CARGO_HOME")}
RUST.update(CARGO_PROFILE_RELEASE_LTO="off", CARGO_PROFILE_RELEASE_OPT_LEVEL="0",
            RUSTFLAGS="-Clink-arg=-Wl,--defsym=rust_eh_personality=0")


def built(suffix):
    found, = (os.path.join(lists.BUILT, it) for it in os.listdir(lists.BUILT) if it.endswith(suffix))
    return found


def run(*command, input=None, **variables):
    """Runs a command with only these variables, besides the path of programs."""
    environment = {"PATH": os.environ["PATH"], "PYTHONDONTWRITEBYTECODE": "1", **variables}
    return subprocess.run(command, input=input, capture_output=True, text=True, env=environment, check=False)


def write_tool(path, line):
    with open(path, "w", encoding="utf-8") as file:
        file.write(f"#!/bin/sh\n{line}\n")
    os.chmod(path, 0o755)


def has(python, code):
    return os.path.exists(python) and run(python, "-c", code).returncode == 0


class Folder(unittest.TestCase):
    def setUp(self):
        folder = tempfile.TemporaryDirectory(prefix="target-lexicon-")
        self.addCleanup(folder.cleanup)
        self.folder = folder.name

    def passes(self, *command, **variables):
        ran = run(*command, **variables)
        self.assertEqual(ran.returncode, 0, ran.stdout + ran.stderr)
        return ran.stdout


class Built(Folder):
    def test_installed_and_nothing_else(self):
        package = os.path.dirname(target_lexicon.__file__)
        self.assertTrue(package.startswith(sys.prefix) and sys.prefix != sys.base_prefix)
        self.assertEqual(target_lexicon.LIBRARY_PATH, os.path.join(package, NAME))
        self.assertTrue(filecmp.cmp(target_lexicon.LIBRARY_PATH, lists.LIBRARY, shallow=False))
        self.assertNotIn("TARGET_LEXICON_LIBRARY", os.environ)
        with zipfile.ZipFile(built(".whl")) as wheel:
            names = [os.path.basename(it) for it in wheel.namelist() if it.startswith("target_lexicon/")]
        self.assertEqual(sorted(it for it in os.listdir(package) if it != "__pycache__"), sorted(names))
        tables = ["names.json", "names.csv", "names.schema.json", "targets.csv"]
        self.assertEqual(filecmp.cmpfiles(package, os.path.join(lists.ROOT, "packages/names"), tables, shallow=False),
                         (tables, [], []))
        self.assertEqual(lists.other_tools()["version"], target_lexicon.__version__)

    def test_wheel_says_what_it_is(self):
        name = os.path.basename(built(".whl"))
        platforms = rf"(linux|manylinux_2_\d+)_{platform.machine()}"
        self.assertRegex(name, rf"^target_lexicon-{target_lexicon.__version__}-py3-none-{platforms}\.whl$")
        with zipfile.ZipFile(built(".whl")) as wheel:
            said, metadata = (email.message_from_bytes(wheel.read(f"{INFO}/{it}")) for it in ("WHEEL", "METADATA"))
            self.assertIn(b"LLVM Exceptions to the Apache 2.0 License", wheel.read(f"{INFO}/licenses/LICENSE"))
            self.assertIn(b"Copyright", wheel.read(f"{INFO}/licenses/COPYRIGHT"))
        self.assertEqual((said["Root-Is-Purelib"], said["Tag"]), ("false", name[:-4].split("-", 2)[2]))
        self.assertEqual((metadata["License-Expression"] or metadata["License"], metadata["Requires-Dist"]),
                         ("Apache-2.0 WITH LLVM-exception", None))

    def test_built_again_it_is_the_same(self):
        """To the byte, for a time."""
        command = os.path.join(lists.PACKAGE, "build"), lists.LIBRARY, self.folder
        self.passes(*command, PYTHON=BASE_PYTHON)
        names = sorted(os.listdir(lists.BUILT))
        self.assertEqual(filecmp.cmpfiles(self.folder, lists.BUILT, names, shallow=False), (names, [], []))
        self.passes(*command, PYTHON=BASE_PYTHON, SOURCE_DATE_EPOCH="1700000000")
        with zipfile.ZipFile(os.path.join(self.folder, os.path.basename(built(".whl")))) as wheel:
            self.assertEqual({it.date_time for it in wheel.infolist()}, {(2023, 11, 14, 22, 13, 20)})

    def test_sdist_gives_the_same_wheel(self):
        with tarfile.open(built(".tar.gz")) as archive:
            archive.extractall(self.folder)
        source, = (os.path.join(self.folder, it) for it in os.listdir(self.folder))
        command = [BASE_PYTHON, *PIP, "wheel", *BUILD, "-w", self.folder, source]
        for variables, said in (({"PATH": self.folder}, r"isn't built: cargo doesn't run(?s:.*)Install Rust"),
                                ({"CARGO": shutil.which("false")}, "isn't built: cargo ended with status 1"),
                                ({"TARGET_LEXICON_LIBRARY": "/nowhere"}, "can't be read: .*No such file"),
                                ({"TARGET_LEXICON_LIBRARY": "/bin/ls"}, "isn't libtarget_lexicon for Linux")):
            ran = run(*command, **variables)
            self.assertRegex(ran.stdout + ran.stderr, said)
            self.assertNotEqual(ran.returncode, 0)
        self.passes(*command, TARGET_LEXICON_LIBRARY="system")
        with zipfile.ZipFile(os.path.join(self.folder,
                                          f"target_lexicon-{target_lexicon.__version__}-py3-none-any.whl")) as wheel:
            self.assertFalse([it for it in wheel.namelist() if NAME in it])
        self.passes(*command, TARGET_LEXICON_LIBRARY=lists.LIBRARY)
        self.assertTrue(filecmp.cmp(os.path.join(self.folder, os.path.basename(built(".whl"))), built(".whl"),
                                    shallow=False))
        variables = {**{it: os.environ[it] for it in os.environ if it.startswith("LEXICON_TEST_")},
                     "LEXICON_TEST_ROOT": os.path.join(source, "native")}
        self.passes(sys.executable, "-c",
                    "import test_triples, test_values, test_lines; test_lines.lists.generated_lines(400)",
                    PYTHONPATH=os.path.join(source, "tests"), **variables)

    @unittest.skipUnless(shutil.which("cargo") and shutil.which("git"), "no cargo and git")
    def test_pip_installs_by_cargo(self):
        """From git, of an sdist, of a wheel, and of sources that stay where they are; each has a library of its own."""
        top = os.path.join(self.folder, "top")
        for part in "packages/python", "packages/c", "packages/rust", "packages/names":
            shutil.copytree(os.path.join(lists.ROOT, part), os.path.join(top, part),
                            ignore=shutil.ignore_patterns("target", "__pycache__", NAME))
        for name in "Cargo.toml", "Cargo.lock", "LICENSE", "COPYRIGHT":
            shutil.copy(os.path.join(lists.ROOT, name), top)
        for words in ["init", "--quiet"], ["add", "."], ["commit", "--quiet", "-m", "sources"]:
            self.passes("git", "-C", top, "-c", "user.name=test", "-c", "user.email=test@example.invalid", *words)
        sources = os.path.join(top, "packages", "python")
        self.passes(BASE_PYTHON, *PIP, "wheel", *BUILD, "-w", self.folder, sources, **RUST)
        wheel, = (os.path.join(self.folder, it) for it in os.listdir(self.folder) if it.endswith(".whl"))
        environment = os.path.join(self.folder, "environment")
        venv.create(environment, system_site_packages=True, with_pip=True)
        python = os.path.join(environment, "bin", "python")
        for words, variables, home in (
            ([f"git+file://{top}#subdirectory=packages/python"], RUST, environment),
            ([built(".tar.gz")], RUST, environment),
            ([wheel], {"PATH": self.folder}, environment), (["-e", sources], RUST, sources),
        ):
            self.passes(python, *PIP, "install", *BUILD, "--force-reinstall", *words, **variables)
            printed, library = self.passes(python, "-I", "-c", PRINTS).split()
            self.assertEqual((printed, library.startswith(home)), ("aarch64-unknown-linux", True))


class Platforms(Folder):
    def test_tags(self):
        """The tag of the platforms that a library is for, by the strings in it: versions of the C library, and names of
        libraries."""
        rows = {"libc.so.6 GLIBC_2.2.5": "manylinux_2_17",
                "GLIBC_2.9 libm.so.6 GLIBC_2.34 libtarget_lexicon.so.0.5": "manylinux_2_34",
                "GLIBC_2.38 GLIBC_2.4 GLIBC_2.18": "manylinux_2_38", "GLIBC_3.1": "manylinux_3_1",
                "GLIBC_2.17 GLIBC_PRIVATE": "linux",
                "libc.so.6 libother.so": "linux", "libc.so.7": "linux", "libc.musl-x86_64.so.1": "linux"}
        program = "import hatch_build as it, sys; print(*(it.linux_platform(bytes.fromhex(i)) for i in sys.argv[1:]))"
        for machine, name in (62, "_x86_64"), (183, "_aarch64"), (40, None):
            begin = b"\x7fELF\x02\x01".ljust(18, b"\0") + machine.to_bytes(2, "little")
            files = [begin + f" {strings} ".replace(" ", "\0").encode() for strings in rows]
            self.assertEqual(self.passes(BASE_PYTHON, "-c", program, *(it.hex() for it in files),
                                         PYTHONPATH=lists.PACKAGE).split(),
                             [f"{tag}{name}" if name else "None" for tag in rows.values()])

    @unittest.skipUnless(shutil.which("readelf"), "no readelf")
    def test_of_the_wheel(self):
        versions = [tuple(map(int, it))
                    for it in re.findall(r"Name: GLIBC_(\d+)\.(\d+)",
                                         run("readelf", "--version-info", lists.LIBRARY).stdout)]
        self.assertTrue(versions)
        self.assertRegex(built(".whl"), rf"-manylinux_%d_%d_{platform.machine()}\.whl$" % max([(2, 17), *versions]))


class FindsTheLibrary(Folder):
    def test_the_package_the_variable_the_loader(self):
        """In this order, and errors that say what is wrong."""
        package = os.path.join(self.folder, "target_lexicon")
        shutil.copytree(os.path.dirname(target_lexicon.__file__), package,
                        ignore=shutil.ignore_patterns(NAME, "__pycache__"))

        def prints(**variables):
            ran = run(sys.executable, "-c", PRINTS, PYTHONPATH=self.folder, **variables)
            return ran.stdout or ran.stderr.splitlines()[-1]
        needs = rf"^ImportError: .* needs the .* libtarget_lexicon {re.escape(CALLS)}: .*TARGET_LEXICON_LIBRARY"
        self.assertRegex(prints(), needs)
        self.assertIn("can't be within a zip ", run(sys.executable, "-c", PRINTS, PYTHONPATH=built(".whl")).stderr)
        for tool in "gcc", "cc", "ld", "ldconfig", "objdump":
            write_tool(os.path.join(self.folder, tool), f"echo {tool} >> {self.folder}/ran")
        self.assertRegex(prints(PATH=self.folder), needs)
        self.assertFalse(os.path.exists(os.path.join(self.folder, "ran")), "importing runs a program of the path")
        self.assertRegex(prints(TARGET_LEXICON_LIBRARY="/nowhere/libtarget_lexicon.so"), needs)
        self.assertEqual(prints(TARGET_LEXICON_LIBRARY="libc.so.6"),
                         f"ImportError: libc.so.6 isn't libtarget_lexicon {CALLS}: it doesn't have lexicon_version")
        self.assertEqual(prints(TARGET_LEXICON_LIBRARY=lists.LIBRARY), f"aarch64-unknown-linux {lists.LIBRARY}\n")
        library = shutil.copy(lists.LIBRARY, os.path.join(self.folder, NAME))
        self.assertEqual(prints(LD_LIBRARY_PATH=self.folder), f"aarch64-unknown-linux {NAME}\n")
        for file, old, new, said in (("_values.py", '    XCOFF = "xcoff"\n', '    XCOFF = "xcoff"\n    ELF2 = "elf2"\n',
                                      "has other names than this package"),
                                     ("_library.py", '("_reason", c_char_p)]',
                                      '("_reason", c_char_p), ("more", c_char_p)]',
                                      "is of another build than this package"),
                                     ("_library.py", '("end", c_size_t), ("_reason", c_char_p)]', '("end", c_size_t)]',
                                      "is of another build than this package"),
                                     ("_library.py", f'VERSION = "{CALLS}.', 'VERSION = "9.9.',
                                      r"isn't libtarget_lexicon 9\.9: its version is")):
            path = pathlib.Path(package, file)
            text = path.read_text(encoding="utf-8")
            for changed, expected in (text.replace(old, new), said), (text, "^aarch64-unknown-linux "):
                path.write_text(changed, encoding="utf-8")
                self.assertRegex(prints(TARGET_LEXICON_LIBRARY=library), expected)
        shutil.copy(lists.LIBRARY, os.path.join(package, NAME))
        self.assertEqual(prints(TARGET_LEXICON_LIBRARY="/nowhere"),
                         f"aarch64-unknown-linux {os.path.join(package, NAME)}\n")


class Command(unittest.TestCase):
    @unittest.skipUnless(COMMAND, "the command target-lexicon isn't beside PROGRAM")
    def test_answers_are_those_of_the_command(self):
        """Facts, canonical strings, and names of other tools, or that there are none."""
        targets = ["arm64-apple-ios17.1", "avr", "x86_64-aple-linux", "x86_64-unknown-uefi", "armv6k-nintendo-3ds",
                   "thumbv7m-none-eabi",
                   "x86_64-w64-windows-gnu", "x86_64-pc-linx", "x86_64-\u00e9\U0001f600-x", "", "x86_64-linux-elf-gnu",
                   "x86_64-w64-mingw32", "i686-linux-gnu"]
        names = ["linux/arm64", "amd64", "linux-x64-musl", "js/wasm", "linux/amd46", "x86_64-linux-gnu", "",
                 "x86_64-w64-mingw32", "gnu-\u00e9"]

        def canonical(call):
            return lambda it: {"canonical": call(it).canonical}
        tools = lists.other_tools()["tools"]
        calls = {"facts": lambda it: Triple(it).to_dict(), "settle": canonical(Triple),
                 "settle --libc musl": canonical(lambda it: Triple(it).complete("musl")),
                 "settle --from llvm": canonical(Triple.read),
                 **{f"settle --from {it['tool']}": canonical(lambda name, tool=it["tool"]: Triple.read(name, tool))
                    for it in tools if it["read"]},
                 "translate --from oci --to rust --libc musl": lambda it: {
            "name": target_lexicon.translate(it, "oci", "rust", "musl")},
                 **{f"translate --to {it['tool']}": lambda text, tool=it["tool"]: {"name": Triple(text).name_in(tool)}
                    for it in tools if it["written"]}}
        for words, call in calls.items():
            given = names if "--from" in words and "llvm" not in words else targets
            ran = run(COMMAND, *words.split(), "-0", "--json", input="".join(f"{it}\0" for it in given))
            for target, answer in zip(given, json.loads(ran.stdout)):
                try:
                    own = call(target)
                except ParseError as error:
                    own = {"start": len(error.text[:error.start].encode()), "part": error.part}
                self.assertEqual({name: answer.get(name) for name in own}, own, (words, target))
                self.assertIs("error" in answer, "part" in own or None in own.values()
                              and words.startswith("translate"))


class Samples(Folder):
    def test_examples_of_the_page(self):
        """As `python -m doctest` runs them."""
        results = doctest.testfile(os.path.join(lists.PACKAGE, "README.md"), module_relative=False, encoding="utf-8")
        self.assertEqual(results.failed, 0)
        self.assertGreater(results.attempted, 10)

    @unittest.skipUnless(has(PATH_PYTHON, "import pydantic; assert int(pydantic.VERSION.split('.')[0]) == 2"),
                         "pydantic 2 isn't there; Debian 12 doesn't have it")
    def test_models(self):
        self.assertEqual(self.passes(PATH_PYTHON, os.path.join(HERE, "with_pydantic.py"), PYTHONPATH=PACKAGES),
                         "all well\n")

    @unittest.skipUnless(has(DEBIAN_PYTHON, "import pandas"), "no pandas")
    def test_columns_of_pandas(self):
        program = """import pandas, target_lexicon
it = pandas.Series(['arm64-linux', None, float('nan'), pandas.NA, 'linx'], dtype=object)
frame = pandas.DataFrame(target_lexicon.facts_all(it)).convert_dtypes()
known, width = len(frame.dropna(how='all')), frame.pointer_width
print(target_lexicon.settle_all(it), known, width.dtype, frame.is_unix.dtype, width[0])"""
        self.assertEqual(self.passes(DEBIAN_PYTHON, "-c", program, PYTHONPATH=PACKAGES),
                         "['aarch64-unknown-linux', None, None, None, None] 1 Int64 boolean 64\n")

    def test_what_few_programs_need_is_not_imported(self):
        """Modules that would make the import take longer."""
        slow = {"argparse", "ctypes.util", "json", "platform", "pydantic", "sysconfig"}
        begin = f"import sys; sys.path.append({PACKAGES!r}); import target_lexicon; target_lexicon.Triple('avr')"
        program = f"{begin}; print({slow!r} & {{*sys.modules}})"
        self.assertEqual(self.passes(sys.executable, "-I", "-S", "-c", program), "set()\n")

    def test_doc_strings(self):
        count, runner = 0, doctest.DocTestRunner()
        for module in [target_lexicon, *(importlib.import_module(f"target_lexicon.{it.name}")
                                         for it in pkgutil.iter_modules(target_lexicon.__path__))]:
            for test in doctest.DocTestFinder(exclude_empty=True).find(module, globs=vars(target_lexicon).copy()):
                results = runner.run(test)
                self.assertEqual(results.failed, 0)
                count += results.attempted
        self.assertGreater(count, 15)

    def test_help(self):
        """Each public class and call has some, without private types, quotes of quotes, references, or what
        enumerations have of `str`."""
        self.assertLess(len(pydoc.plain(pydoc.render_doc(target_lexicon)).splitlines()), 4000)
        self.assertLessEqual({"ARM", "parse"}, {*dir(target_lexicon.Architecture)})
        self.assertNotIn("casefold", dir(target_lexicon.Architecture))
        self.assertEqual(pydoc.plain(pydoc.render_doc(Triple.replace)).count(" = KEEP"), 6)
        self.assertIn("class ParseError in module target_lexicon\n", pydoc.plain(pydoc.render_doc(ParseError)))
        for name in target_lexicon.__all__:
            value = getattr(target_lexicon, name)
            if inspect.isclass(value) or inspect.isfunction(value):
                self.assertTrue(value.__doc__, name)
                self.assertNotRegex(pydoc.plain(pydoc.render_doc(value)), r""": '.*\b_[A-Z]|"'|ForwardRef""")
            classes = [it for it in getattr(value, "__mro__", ()) if it.__module__.startswith("target_lexicon")]
            for word, member in (it for of in classes for it in vars(of).items()):
                if not word.startswith("_") and (callable(member) or isinstance(member, (property, classmethod))):
                    self.assertTrue(getattr(member, "__doc__", None), f"{name}.{word}")


class OtherTools(Folder):
    @unittest.skipUnless(shutil.which("pypy3"), "no pypy3")
    def test_pypy(self):
        """PyPy moves the objects that aren't of ctypes, so a pointer into one of them would be seen."""
        given = {name: value for name, value in os.environ.items() if name.startswith("LEXICON_TEST_")}
        ran = run("pypy3", "-m", "unittest", "test_triples.Values", "test_values", "test_names.Names",
                  "test_lines.Threads", PYTHONPATH=f"{PACKAGES}:{HERE}", **given)
        self.assertRegex(ran.stderr, r"Ran [23]\d tests in (?s:.*)\nOK")

    @unittest.skipUnless(shutil.which("mypy"), "no mypy")
    def test_mypy(self):
        mypy = ["mypy", "--strict", "--no-error-summary", "--cache-dir", self.folder, "--python-executable",
                sys.executable]
        if run(*mypy, "-c", "x = 1").returncode != 0:
            self.skipTest("this mypy can't ask this Python for its folders")
        ran = run(*mypy, "-c", "from target_lexicon import Dialect, Triple\n" + "\n".join(
            f"Triple.read('x', {it})" for it in ("'podman'", "'yarn'", "str()", "'go'", "Dialect.GO",
                                                 "Dialect(str())")))
        self.assertEqual((ran.stdout.count("error: "), ran.stdout.count("expected \"Union[Dialect, Literal[")), (3, 3),
                         ran.stdout)
        for checked in ["-p", "target_lexicon"], [os.path.join(HERE, "typed_sample.py")]:
            ran = run(*mypy, "--python-version", "3.9", *checked)
            self.assertEqual((ran.stdout + ran.stderr, ran.returncode), ("", 0))
