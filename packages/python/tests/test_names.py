"""Names of other tools: each row of their table, what the calls are given, and refusals."""
import copy
import itertools
import pickle
import re
import typing
import unittest

import target_lexicon
import lists
from target_lexicon import ChosenLibc, CustomVendor, Dialect, ParseError, Triple, _dialects

UNKNOWN, WITHOUT = "Unknown name: ", "No triple has this name: "
NAMES = lists.names()
NO_DEBIAN = "No name in the other dialect: linux/arm64: it depends on the C library: say glibc or musl"


class Table(unittest.TestCase):
    """That the package's table says what the library answers."""

    def test_dialects(self):
        tools = lists.other_tools()["tools"]
        self.assertEqual([it.value for it in Dialect], [it["tool"] for it in tools])
        others = set(_dialects.OTHER_NAMES)
        self.assertEqual(others, {name for it in tools for name in it["also"]})
        self.assertEqual(set(typing.get_args(_dialects.DialectName)), {*Dialect, *others})
        for way in "read", "written":
            self.assertEqual({it["tool"] for it in tools if it[way]}, {it.tool for it in NAMES if getattr(it, way)})
        self.assertEqual(set(typing.get_args(_dialects.ChosenLibcName)), {*ChosenLibc})
        self.assertIs(Dialect("docker"), Dialect.OCI)

    def test_rows(self):
        """What is read and written, by the name and the member of a dialect; and why what isn't read isn't."""
        counts = dict.fromkeys(("read", "written", "other", "without"), 0)
        for row in NAMES:
            for tool in row.tool, Dialect(row.tool):
                if row.read:
                    triple = Triple.read(row.name, tool)
                    self.assertEqual((triple, triple.canonical), (Triple(row.triple), row.triple), row)
                if row.written:
                    self.assertEqual(Triple(row.triple).name_in(tool), row.name)
            if row.triple is None:
                with self.assertRaises(ParseError) as caught:
                    Triple.read(row.name, row.tool)
                self.assertEqual(str(caught.exception),
                                 f"{WITHOUT}{row.name}\n  {row.name}\n  {'^' * len(row.name)} {row.reason}")
            for name in row.other_names:
                triple = Triple.read(name.replace("*", "13", 1).replace("*", "2"), row.tool)
                self.assertEqual(triple if "*" not in name else triple.replace(version=Triple(row.triple).version),
                                 Triple(row.triple), row)
            self.assertTrue(row.written or not row.other_names)
            for name, count in ("read", row.read), ("written", row.written), ("other", len(row.other_names)), (
                "without", row.triple is None):
                counts[name] += count
            if row.read:
                self.assertIn((row.tool, Triple(row.triple), None),
                              [it[:3] for it in target_lexicon.meanings(row.name)])
        self.assertTrue(all(it > 100 for it in counts.values()), counts)

    def test_rows_that_state_a_version(self):
        """The name of such a triple with a version is one of the rows that state it."""
        table = [it for it in lists.other_tools()["names"] if it["states_version_of"] and it["triple"]
                 and it["name"].count("*") == 2]
        for row in table:
            of = re.match(r"\w+", row["states_version_of"])[0].lower()
            version = ({"glibc": 2, "musl": 1}.get(of, 13), 5)
            same = [it["name"] for it in table if (it["tool"], it["triple"]) == (row["tool"], row["triple"])]
            versions = {of: version, "macos" if of == "ios" else "ios": (99,)}
            name = Triple(row["triple"].replace("*", "")).name_in(row["tool"], **versions)
            self.assertIn(name, [it.replace("*", str(version[0]), 1).replace("*", "5") for it in same])
        self.assertGreater(len(table), 40)

    def test_first_parts(self):
        rows = [it for it in lists.other_tools()["parts"] if it["place"] == "first"]
        for row in rows:
            name = row["part"].rstrip("!")  # which says that the architecture states hard floats
            self.assertRaises(ParseError, Triple, f"{name}-unknown-linux-gnu")
            if name == row["part"]:
                self.assertEqual(Triple.read(f"{name}-unknown-linux-gnu"),
                                 Triple(f"{row['read_as']}-unknown-linux-gnu"))
        self.assertGreater(len(rows), 20)


class Names(unittest.TestCase):
    def refusal(self, *arguments):
        with self.assertRaises(ParseError) as caught:
            Triple.read(*arguments)
        return caught.exception

    def test_read(self):
        vendor = "a" * 500
        for arguments, text in ((("x86_64-w64-mingw32",), "x86_64-pc-windows-gnu"),
                                (("amd64-acme-freebsd14", None), "x86_64-acme-freebsd"),
                                ((f"amd64-{vendor}-freebsd13",), f"x86_64-{vendor}-freebsd"),
                                (("linux/arm64", "docker"), "aarch64-unknown-linux"),
                                (("@swc/core-linux-x64-gnu", "npm"), "x86_64-unknown-linux-gnu")):
            self.assertEqual(str(Triple.read(*arguments)), text)

    def test_refused(self):
        """Without a dialect the refusals are those of parsing, and the part is as it is in the string."""
        for text, dialect, field, part, start, suggestion in (
            ("", None, "architecture", "", 0, None), ("amd64-w64-linx", None, "operating_system", "linx", 10, "linux"),
            ("amd64-pc-freebsd13-gn\u00fc", None, "environment", "gn\u00fc", 19, None),
            ("linux/amd64\0", "go", None, "linux/amd64\0", 0, "linux/amd64"),
            ("linux/amd46", "go", None, "linux/amd46", 0, "linux/amd64"), ("amd63", "debian", None, "amd63", 0, None),
            ("linux/\u00e9", Dialect.OCI, None, "linux/\u00e9", 0, None),
            ("linux/\udcff", None, None, "\udcff", 6, None), ("linux/\udcff", "go", None, "\udcff", 6, None),
        ):
            error = self.refusal(text, dialect)
            self.assertEqual((error.field, error.part, error.start, error.end, error.suggestion, error.reason),
                             (field, part, start, start + len(part), suggestion, None), text)
        self.assertEqual(self.refusal("amd63", "debian").line, f"{UNKNOWN}amd63")

    def test_written(self):
        for text, arguments, name in (("aarch64-linux-musl", ("npm",), "linux-arm64-musl"),
                                      (f"x86_64-{'a' * 500}-linux-gnu", (Dialect.DEBIAN,), "amd64"),
                                      ("avr", ("go",), None),
                                      (f"x86_64-{'a' * 500}", (Dialect.GNU,), None),
                                      ("x86_64-linux-gnu", ("python",), "linux_x86_64"),
                                      ("aarch64-apple-darwin", ("python",), None)):
            triple = Triple(text)
            self.assertEqual((triple.name_in(*arguments), triple.reason_without_name(*arguments) is None),
                             (name, name is not None), text)
        versions = {"glibc": (2, 17), "musl": [1, 2], "android": (24,), "macos": (2, 17)}
        for text, name in (("x86_64-linux-gnu", "manylinux_2_17_x86_64"), ("x86_64-linux", None),
                           ("armv7-linux-musleabihf", "musllinux_1_2_armv7l"), ("aarch64-apple-darwin", None),
                           ("aarch64-linux-android", "android_24_arm64_v8a"), ("x86_64-unknown-freebsd", None)):
            triple = Triple(text)
            self.assertEqual((triple.name_in("python", **versions),
                              triple.reason_without_name("python", **versions) is None), (name, name is not None), text)
        mac = Triple("aarch64-apple-darwin")
        self.assertRegex(mac.reason_without_name("python", **versions), "macOS 10.x or later$")
        self.assertRegex(Triple("x86_64-pc-windows").reason_without_name("rust"), "say msvc, mingw or gnullvm$")
        for wrong in ((2, 17, 1), (), (1, 2, 3, 4), (2, 256), (-1,), (65536,)):
            for call in Triple("x86_64-linux-gnu").name_in, Triple("x86_64-linux-gnu").reason_without_name:
                self.assertRaises(ValueError, call, "python", glibc=wrong)

    def test_completed(self):
        for text, libc, completed in (("aarch64-linux", "glibc", "aarch64-unknown-linux-gnu"),
                                      ("armv7-acme-linux", ChosenLibc.MUSL, "armv7-acme-linux-musleabihf"),
                                      ("x86_64-linux-gnu", "musl", "x86_64-unknown-linux-gnu"),
                                      ("x86_64-pc-windows", "msvc", "x86_64-pc-windows-msvc"),
                                      ("x86_64-pc-windows", "mingw", "x86_64-pc-windows-gnu"),
                                      ("x86_64-pc-windows", "gnullvm", "x86_64-pc-windows-gnullvm")):
            triple = Triple(text)
            self.assertEqual((str(triple.complete(libc)), triple), (completed, Triple(text)))

    def test_translated(self):
        for words, translated in ((("linux/arm64/v8", "oci", "rust", "glibc"), "aarch64-unknown-linux-gnu"),
                                  (("arm64", "debian", "go"), "linux/arm64"),
                                  (("linux/amd64", Dialect.OCI, Dialect.DEBIAN, ChosenLibc.MUSL), "musl-linux-amd64"),
                                  (("x86_64-w64-mingw32", None, "node"), "win32-x64-gnu")):
            self.assertEqual(target_lexicon.translate(*words), translated)
        versions = {"glibc": (2, 17), "macos": [11], "freebsd": (14, 1)}
        self.assertEqual([target_lexicon.translate(it, "oci", "python", **versions)
                          for it in ("linux/amd64", "darwin/arm64", "freebsd/amd64", "windows/amd64")],
                         ["manylinux_2_17_x86_64", "macosx_11_0_arm64", "freebsd_14_1_release_amd64", "win_amd64"])
        freebsd = Triple("x86_64-unknown-freebsd")
        self.assertEqual((freebsd.name_in("python", glibc=(2, 17)), freebsd.name_in("python", freebsd=(14, 1), ios=None)),
                         (None, "freebsd_14_1_release_amd64"))
        self.assertRaisesRegex(TypeError, "there are no versions of 'gnu'", freebsd.name_in, "python", gnu=(2, 17))
        self.assertRaisesRegex(ValueError, "one or two numbers", freebsd.name_in, "python", glibc=(2, 17, 1))
        no_go = "No name in the other dialect: avr-none: the tool has no name for this machine on any system"
        for words, line, needs_libc in ((("linux/arm64", "oci", "debian"), NO_DEBIAN, True),
                                        (("avr-none", None, "go"), no_go, False)):
            with self.assertRaises(target_lexicon.TranslationError) as caught:
                target_lexicon.translate(*words)
            for error in caught.exception, pickle.loads(pickle.dumps(caught.exception)), copy.deepcopy(
                caught.exception):
                self.assertEqual((str(error), error.text, error.source, error.target, error.needs_libc,
                                  line.endswith(f": {error.reason}")), (line, *words, needs_libc, True))
                # It is what any refused name raises, about the whole of it.
                self.assertIsInstance(error, ParseError)
                self.assertEqual((error.line, error.part, error.start, error.end, error.field, error.dialect,
                                  error.suggestion),
                                 (line, words[0], 0, len(words[0]), None, words[1], None))
        for name in "linux/\udcff", "js/wasm", "linux/amd46":
            with self.assertRaises(ParseError) as caught:
                target_lexicon.translate(name, "go", "oci")
            self.assertEqual(str(caught.exception), str(self.refusal(name, "go")))

    def test_meanings(self):
        def meant(text):
            return [(it.dialect, str(it.triple) if it.triple else it.reason) for it in target_lexicon.meanings(text)]
        vendor = f"x86_64-{'a' * 500}-linux"
        self.assertEqual(meant(vendor)[0], (None, vendor))
        for nobody in "", "foo/bar", "\0", "linux/\u00e9", "x" * 100_000:
            self.assertEqual(meant(nobody), [])
        self.assertEqual([[(it.level, it.by_words) for it in target_lexicon.meanings(name)]
                          for name in ("linux/amd64/v3", "linux/amd64", "linux-x64-v3")],
                         [[("v3", False)], [(None, False)] * 2, [("v3", True)]])

    def test_changes(self):
        for text, changes in (("amd64-unknown-freebsd13.2",
                               [(0, 5, "amd64", "x86_64"), (14, 25, "freebsd13.2", "freebsd")]), ("", []),
                              ("x86_64-unknown-linux-gnu", []),
                              ("amd64-\u00e9-macos13", [(0, 5, "amd64", "x86_64"), (8, 15, "macos13", "macosx13")]),
                              (f"arm64-apple-macos{'0' * 500}",
                               [(12, 517, f"macos{'0' * 500}", f"macosx{'0' * 500}")])):
            self.assertEqual(target_lexicon.changes(text), changes)
        self.assertRaises(ParseError, target_lexicon.changes, "amd64-\udcff")

    def test_targets_in_a_text(self):
        text = "\u00e9 `avr-none`: \U0001f600 \udcff x86_64-linxu, foo"
        self.assertEqual([(it, text[it.start:it.end] == it.text) for it in target_lexicon.targets_in(text)],
                         [(("avr-none", 3, 11), True), (("x86_64-linxu", 18, 30), True)])
        self.assertEqual((target_lexicon.targets_in(""), len(target_lexicon.targets_in("- avr\n" * 50_000))),
                         ([], 50_000))
        for call, wrong in itertools.product((target_lexicon.targets_in, target_lexicon.check),
                                             (None, b"avr", 1, ["avr"])):
            self.assertRaisesRegex(TypeError, "the text must be a str, not ", call, wrong)

    def test_what_is_wrong_in_a_text(self):
        text = ("\u00e9 platform: [linux/amd64, linux/amd46, \udcff linux/foo]\n\u00e9 target: arm64-apple-darwn22\n"
                "target: x86_64-unknown-linux-gnuu\nx: armv7-unknown-linux-gnueabhif\n")
        found = target_lexicon.check(text)
        self.assertEqual([(it.text, it.part, it.suggestion, it.field, it.is_unclear) for it in found],
                         [("linux/amd46", "linux/amd46", "linux/amd64", None, False),
                          ("linux/foo", "linux/foo", None, None, True),
                          ("arm64-apple-darwn22", "darwn22", "darwin22", "operating_system", False),
                          ("x86_64-unknown-linux-gnuu", "gnuu", "gnu", "environment", False),
                          ("armv7-unknown-linux-gnueabhif", "gnueabhif", "gnueabihf", "environment", False)])
        self.assertEqual([text[it.start:it.end] for it in found], [it.part for it in found])
        self.assertEqual(([], 500), (target_lexicon.check("0.5.0\ndist"),
                                     len(target_lexicon.check("target: x86_64-linux-gnuu\n" * 500))))

    def test_wrong_arguments(self):
        linux = Triple("x86_64-linux")
        dialects = [lambda it: Triple.read("linux/amd64", it), linux.name_in, linux.reason_without_name,
                    lambda it: target_lexicon.translate("x", it, "go"),
                    lambda it: target_lexicon.translate("x", "go", it), lambda it: ParseError("x", dialect=it)]
        libcs = [linux.complete, lambda it: target_lexicon.translate("amd64", "debian", "go", it)]
        for calls, what, names, wrong in ((dialects, "dialect", Dialect,
                                           ("Go", "", "none", "g\u00f6", target_lexicon.Architecture.ARM)),
                                          (libcs, "C library", ChosenLibc, ("gnu", "", "Glibc"))):
            for call, value in itertools.product(calls, wrong):
                with self.assertRaisesRegex(
                    ValueError, f"the {what} must be one of {', '.join(names)}(, docker, npm)?, not ") as caught:
                    call(value)
                self.assertNotIsInstance(caught.exception, ParseError)
            for call, value in itertools.product(calls, (1, b"go", Dialect)):
                self.assertRaisesRegex(TypeError, f"the {what} must be of type {names.__name__} or str", call, value)
        for call in linux.name_in, linux.complete, lambda it: target_lexicon.translate("amd64", "debian", it):
            self.assertRaises(TypeError, call, None)
        self.assertRaisesRegex(ValueError, "did you mean glibc or mingw\\?$", linux.complete, "gnu")
        for value, meant in (("Go", "go"), ("golang", "go"), ("deb", "debian"), ("rustc", "rust"), ("dotent", "dotnet"),
                             ("Docker", "docker")):
            self.assertRaisesRegex(ValueError, f", not {value}; did you mean {meant}\\?$", linux.name_in, value)

    def test_messages_escape_what_a_terminal_may_obey(self):
        hostile = "\x1b]0;a\u0301\u3164\x07"
        for call in Dialect, target_lexicon.Vendor, CustomVendor, lambda it: target_lexicon.translate(
            f"@{it}/linux-x64", "node", "debian"):
            self.assertRaisesRegex(ValueError, r"\A[ -~\n]*\\x1b[ -~\n]*\Z", call, hostile)
