"""Triples as values: fields, facts, equality, order, copies, other forms, explanations, refusals, and wrong
arguments."""
import copy
import ctypes
import itertools
import json
import pickle
import platform
import struct
import sys
import unittest

import target_lexicon
from target_lexicon import Architecture, CustomVendor, Environment, OperatingSystem, Origin, ParseError, Triple, Vendor

LONG = f"x86_64-{'a' * 500}-linux"  # longer than the first buffer
TEXTS = ["unknown", "x86_64-unknown-linux-gnu", "arm64-apple-macosx13.2", "arm64-apple-macosx", "arm64-apple-macosx0",
         "x86_64-acme-linux", "x86_64-acmf-linux", "armv6k-nintendo-horizon-gnu", "armv6k-nintendo-3ds",
         "riscv32imc-esp-espidf-elf", "clever-unknown-unknown-none", "x86_64-darwin65535.255.255", LONG]

class Refused(unittest.TestCase):
    def refusal(self, call, *arguments):
        with self.assertRaises(ParseError) as caught:
            call(*arguments)
        return caught.exception


class Values(Refused):
    def test_facts(self):
        """In a dictionary, by their names, and in a column. tests/test_package.py compares them with those of the
        command in Rust."""
        for text in (*TEXTS, "thumbv7em-none-eabihf", "x86_64-pc-windows-msvc", "avr-acme-unknown-macho",
                     "i386-unknown-openbsd", "m68k-linux-gnu"):
            triple = Triple(text)
            answers = triple.to_dict()
            self.assertEqual((answers["version"], answers["printed"]),
                             (triple.version and "%d.%d.%d" % triple.version, str(triple)))
            for name in [it for it in answers if it not in ("version", "printed")]:
                answer = getattr(triple, name)
                self.assertEqual(answers[name], answer if isinstance(answer, (bool, int, type(None))) else str(answer),
                                 name)
            self.assertEqual([it._asdict() for it in target_lexicon.facts_all([text])], [answers])
            self.assertEqual((json.loads(json.dumps(answers)), Triple.from_dict(answers)), (answers, triple))
        self.assertEqual((Triple(LONG).llvm_target, Triple(LONG).multiarch_tuple,
                          len(Triple(LONG).rustc_cfg["target_vendor"])), (LONG, None, 500))
        self.assertEqual(Triple("arm64-apple-ios17.1").version, (17, 1, 0))

    def test_host(self):
        host = Triple.host()
        self.assertEqual((host.pointer_width, host.endianness, host.operating_system),
                         (8 * struct.calcsize("P"), sys.byteorder, platform.system().lower()))

    def test_equality_and_order(self):
        triples = sorted(map(Triple, TEXTS))
        self.assertEqual([str(it) for it in triples], sorted(str(Triple(it)) for it in TEXTS))
        for (number, one), (place, other) in itertools.product(enumerate(triples), enumerate(triples)):
            self.assertEqual((one == other, one != other, hash(one) == hash(other)),
                             (number == place, number != place, number == place))
            self.assertEqual((one < other, one <= other, one > other, one >= other),
                             (number < place, number <= place, number > place, number >= place))
        self.assertEqual(hash(Triple("x86_64-acme-linux")), hash(Triple("x86_64-acme-linux-unknown-elf")))
        self.assertNotEqual(Triple("x86_64-linux"), "x86_64-unknown-linux")
        self.assertIs(Triple("x86_64").__lt__("x86_64"), NotImplemented)

    def test_copies_and_forms(self):
        for triple in map(Triple, TEXTS):
            self.assertIs(copy.copy(triple), triple)
            self.assertIs(copy.deepcopy([triple])[0], triple)
            pickled = [pickle.loads(pickle.dumps(triple, it)) for it in range(pickle.HIGHEST_PROTOCOL + 1)]
            for again in *pickled, eval(repr(triple), vars(target_lexicon)):
                self.assertEqual((again, str(again), again.vendor, again.version),
                                 (triple, str(triple), triple.vendor, triple.version))
        for value in CustomVendor("acme"), target_lexicon.explain("x86_64-linux"), target_lexicon.Keep.KEEP:
            self.assertEqual((pickle.loads(pickle.dumps(value)), copy.deepcopy(value)), (value, value))
        triple = Triple("x86_64-acme-linux")
        self.assertEqual(f"{triple!r}|{triple:20}|{triple.vendor:>6}",
                         "Triple('x86_64-acme-linux')|x86_64-acme-linux   |  acme")
        self.assertEqual(json.dumps({"targets": [triple]}, default=str), '{"targets": ["x86_64-acme-linux"]}')
        self.assertEqual([str(getattr(Triple("arm64-apple-ios17"), it)) for it in Triple.__match_args__],
                         ["aarch64", "apple", "ios", "unknown", "macho", "(17, 0, 0)"])

    def test_immutable_and_final(self):
        triple = Triple("x86_64-acme-linux")
        for name in "architecture", "vendor", "version", "endianness", "other":
            self.assertRaises(AttributeError, setattr, triple, name, None)
        triple.__init__("arm-linux")
        self.assertEqual(str(triple), "x86_64-acme-linux")
        self.assertRaisesRegex(TypeError, "Triple is final", type, "Other", (Triple,), {})

    def test_a_triple_owns_what_it_points_to(self):
        it = Triple("x86_64-acme-linux-gnu")
        for triple in (it, it.settle(), it.replace(environment=Environment.MUSL),
                       it.replace(vendor=CustomVendor("acme")), it.complete("musl"),
                       target_lexicon.explain(str(it)).triple, pickle.loads(pickle.dumps(it)),
                       Triple("armv7-acme-horizon-newlib").settle()):
            begin, of = ctypes.addressof(triple._owner), triple._struct
            self.assertTrue(begin <= of.custom_vendor <= of.custom_vendor + of.custom_vendor_size <= begin
                            + len(triple._owner))
        vendors = [Triple(f"x86_64-vendor{number}-linux").replace(environment=Environment.GNU).settle()
                   for number in range(5000)]
        self.assertTrue(all((str(it), it.vendor) == (f"x86_64-vendor{number}-linux-gnu", f"vendor{number}")
                            for number, it in enumerate(vendors)))

    def test_canonical_forms(self):
        for text, canonical, comes_back in (("x86_64-linux-elf", "x86_64-unknown-linux", True),
                                            ("armv7-nintendo-horizon-newlib", "armv7-nintendo-horizon", False),
                                            (LONG, LONG, True)):
            triple, settled = Triple(text), Triple(canonical)
            self.assertEqual((triple.settle(), triple.canonical, triple.comes_back()), (settled, canonical, comes_back))
            self.assertEqual((triple.same_target(settled), triple.same_target(Triple("avr"))), (True, False))

    def test_replace(self):
        mac, linux = Triple("arm64-apple-macosx13.2"), Triple("x86_64-unknown-linux-gnu")
        macho = Triple("aarch64-unknown-linux-macho")
        for triple, fields, text in (
            (mac, {}, "aarch64-apple-macosx13.2.0"), (mac, {"version": [14]}, "aarch64-apple-macosx14.0.0"),
            (mac, {"version": None}, "aarch64-apple-macosx"),
            (mac, {"operating_system": OperatingSystem.IOS}, "aarch64-apple-ios"),
            (mac, {"operating_system": "ios", "version": (17, 1, 2)}, "aarch64-apple-ios17.1.2"),
            (mac, {"architecture": Architecture.X86_64}, "x86_64-apple-macosx13.2.0"),
            (mac, {"vendor": CustomVendor("acme")}, "aarch64-acme-macosx13.2.0"),
            (macho, {"operating_system": OperatingSystem.WINDOWS}, "aarch64-unknown-windows-macho"),
            (macho, {"binary_format": None}, "aarch64-unknown-linux"),
            (linux, {"architecture": "arm64"}, "aarch64-unknown-linux-gnu"),
            (linux, {"vendor": "acme"}, "x86_64-acme-linux-gnu"),
            (linux, {"vendor": "pc"}, "x86_64-pc-linux-gnu"),
            (linux, {"operating_system": "windows"}, "x86_64-unknown-windows-gnu"),
            (linux, {"environment": "musl"}, "x86_64-unknown-linux-musl"),
            (linux, {"binary_format": "coff"}, "x86_64-unknown-linux-gnu-coff"),
            (mac, {"version": (65535, 255, 255)}, "aarch64-apple-macosx65535.255.255"),
        ):
            for call in triple.replace, triple.__replace__:
                self.assertEqual((str(call(**fields)), call(**fields)), (text, Triple(text)))
        if sys.version_info >= (3, 13):
            self.assertEqual(str(copy.replace(linux, environment=Environment.MUSL)), "x86_64-unknown-linux-musl")
        self.assertEqual((Triple.from_fields(), Triple.from_dict({})), (Triple("unknown"), Triple("unknown")))
        self.assertEqual(Triple.from_dict({"operating_system": OperatingSystem.IOS, "vendor": "acme", "version": [17]}),
                         Triple("unknown-acme-ios17"))

    def test_wrong_fields(self):
        linux, darwin = Triple("x86_64-unknown-linux-gnu"), Triple("x86_64-apple-darwin")
        for name, value in (("architecture", Vendor.UNKNOWN), ("vendor", OperatingSystem.UNKNOWN), ("vendor", None),
                            ("operating_system", None), ("environment", 3), ("environment", Environment),
                            ("binary_format", b"elf")):
            self.assertRaisesRegex(TypeError, f"{name} must be of type", linux.replace, **{name: value})
        for name, value, meant in (("environment", "mulsl", "musl"), ("operating_system", "widnows", "windows"),
                                   ("architecture", "amd64", "x86_64"), ("architecture", "ARM64", "aarch64"),
                                   ("operating_system", "ios17.2", "ios"), ("operating_system", "win32", "windows"),
                                   ("operating_system", "gnuu", None), ("binary_format", "pe", None)):
            hint = f"; did you mean {meant!r}\\?" if meant else ""
            self.assertRaisesRegex(ValueError, f"^no {name} has the name {value!r}{hint}$", linux.replace,
                                   **{name: value})
        self.assertRaises(ParseError, linux.replace, vendor="No")
        self.assertRaisesRegex(ValueError, "the operating system linux has no version", linux.replace, version=(1,))
        for version in (), (1, 2, 3, 4), (-1,), (65536,), (1, 256), (1, 2, 256), (2 ** 70,):
            self.assertRaises(ValueError, darwin.replace, version=version)
        for version in "13", b"13", 13, {13}, iter([13]), {"major": 13}:
            for call in (lambda it: darwin.replace(version=it), lambda it: darwin.name_in("python", macos=it)):
                said = rf"^a version must be a tuple of numbers such as \(11, 0\), not {type(version).__name__}$"
                self.assertRaisesRegex(TypeError, said, call, version)
        for number in 1.5, "13", None:
            self.assertRaisesRegex(TypeError, f"^the numbers of a version must be int, not {type(number).__name__}$",
                                   darwin.replace, version=(number,))
        for values in ({"cpu": "arm"}, {"architecture": "arm65"}, {"operating_system": "ios17"}, {"vendor": "ACME"},
                       {"binary_format": "pe"}, {"operating_system": "ios", "version": "1_7"},
                       {"operating_system": "linux", "version": "1"}, {"operating_system": "ios", "version": "x"}):
            self.assertRaises(ValueError, Triple.from_dict, values)
        for call in (Triple, lambda: Triple("x86_64", "linux"), lambda: linux.replace(cpu=1),
                     lambda: linux.__replace__(cpu=1), lambda: linux.same_target("x86_64"),
                     lambda: Triple.from_dict({"architecture": None}), lambda: Triple.from_dict("")):
            self.assertRaises(TypeError, call)

    def test_explanations(self):
        it = target_lexicon.explain("arm64-aple-ios17.2")
        self.assertEqual([(name, *source, source.end) for name, source in it.sources], [
            ("architecture", "aarch64", Origin.ALIAS, "arm64", 0, 5), ("vendor", "aple", Origin.GIVEN, "aple", 6, 10),
            ("operating_system", "ios", Origin.ALIAS, "ios17.2", 11, 18),
            ("environment", "unknown", Origin.NOT_GIVEN, None, None, None),
            ("binary_format", "macho", Origin.IMPLIED, None, None, None)])
        self.assertEqual((it.triple, it.suggestion, it.note),
                         (Triple(it.text), "apple", "`aple` is a custom vendor; did you mean `apple`?"))
        self.assertEqual({source[2:4] for _, source in target_lexicon.explain("armv6k-nintendo-3ds").sources},
                         {("armv6k-nintendo-3ds", 0)})
        self.assertEqual(target_lexicon.explain("x86_64-acme-linux").note, "`acme` is a custom vendor")
        linux = target_lexicon.explain("x86_64-linux-elf")
        self.assertEqual((linux.binary_format[2:], linux.suggestion, linux.note), (("elf", 13), None, None))


class Refusals(Refused):
    def test_messages(self):
        for text, message in {
            "x86_64-foo-bar": "Unrecognized operating system: bar\n  x86_64-foo-bar\n             ^^^",
            "": "Unrecognized architecture: \n  \n  ^ it is empty",
            "x86_64-": "Unrecognized vendor: \n  x86_64-\n         ^ it is empty",
            "x86_64-pc-l\u00e9\tx": "Unrecognized operating system: l\\xe9\\tx\n"
                                   "  x86_64-pc-l\\xe9\\tx\n            ^^^^^^^^",
            "x86_64-linux-elf-gnu": "Unrecognized field: gnu\n  x86_64-linux-elf-gnu\n                   ^^^\n"
                                    "  note: its words name x86_64-unknown-linux-gnu",
            "arm64-apple-iso17": "Unrecognized operating system: iso17\n"
                                 "  arm64-apple-iso17\n              ^^^^^ did you mean `ios17`?",
            "x86_64-pc-linux-gnuu-elf": "Unrecognized environment: gnuu\n"
                                        "  x86_64-pc-linux-gnuu-elf\n                  ^^^^ did you mean `gnu`?",
            "x86_64-\udcff": "Lone surrogate: \\udcff\n  x86_64-\\udcff\n         ^^^^^^",
        }.items():
            for call in Triple, target_lexicon.explain:
                error = self.refusal(call, text)
                self.assertEqual((str(error), error.text, text[error.start:error.end]), (message, text, error.part))

    def test_parts(self):
        """Positions are those of the `str`, and the line has the whole part as it is."""
        for text, field, part, start, line in (
            ("x86_64-pc-linux-gn\u00fc\U0001f600-x", "environment", "gn\u00fc\U0001f600", 16,
             "Unrecognized environment: gn\u00fc\U0001f600"),
            ("x86_64-unknown-linux\0-gnu", "operating_system", "linux\0", 15, "Unrecognized operating system: linux\0"),
            ("a" * 100, "architecture", "a" * 100, 0, f"Unrecognized architecture: {'a' * 100}"),
            ("x86_64-linux-elf-gnu", None, "gnu", 17, "Unrecognized field: gnu"),
            ("x86_64-\udcff\ud800-linux", None, "\udcff", 7, "Lone surrogate: \udcff"),
        ):
            error = self.refusal(Triple, text)
            self.assertEqual((error.field, error.part, error.start, error.line), (field, part, start, line))
            str(error).encode()
        for call in CustomVendor, Architecture.parse:
            self.assertEqual(self.refusal(call, "x86_64-\udcff").part, "\udcff")

    def test_names_of_other_tools(self):
        """A message says which call reads the string, and that call does; or why none does."""
        note = "\n  note: it is a name of another tool: use "
        for text, calls in (("linux/amd64", ["Triple.read(text, 'go')", "Triple.read(text, 'oci')"]),
                            ("amd64-portbld-freebsd13.2", ["Triple.read(text)"]),
                            ("win_amd64", ["Triple.read(text, 'python')"])):
            for call in Triple, target_lexicon.explain, Architecture.parse:
                error = self.refusal(call, text)
                self.assertTrue(str(error).endswith(note + " or ".join(calls)), error)
            for call in calls:
                self.assertIsInstance(eval(call, {"Triple": Triple, "text": text}), Triple)
        self.assertRegex(str(self.refusal(Triple, "js/wasm")),
                         r"\n  note: it is a name of go without a triple: a module for Go's own JavaScript; .*$")
        self.assertRegex(str(self.refusal(Triple, "macosx_11_0_universal2")),
                         r"\n  note: it is a name of python without a triple: several machines$")
        self.assertNotIn("note:", str(self.refusal(Triple, "linux/amd46")))
        for text, dialect, said in (("linux/arm", "debian", "it is a name of go and oci"), ("x\ud800", "go", None),
                                    ("linux/amr64", None, "its words say linux, and no single machine known here"),
                                    ("avr\u2013none", None, "in ASCII it is `avr-none`")):
            error = str(self.refusal(Triple.read, text, dialect))
            self.assertEqual(error.partition("\n  note: ")[2], said or "")

    def test_errors_are_values(self):
        errors = {ParseError("x86_64-foo-bar", "operating_system", 11):
                      "Unrecognized operating system: bar\n  x86_64-foo-bar\n             ^^^",
                  ParseError("x86_64-foo-bar", start=7, part="foo"):
                      "Unrecognized field: foo\n  x86_64-foo-bar\n         ^^^",
                  ParseError("linux/amd46", dialect="go"):
                      "Unknown name: linux/amd46\n  linux/amd46\n  ^^^^^^^^^^^ did you mean `linux/amd64`?",
                  ParseError("\udcff"): "Lone surrogate: \\udcff\n  \\udcff\n  ^^^^^^"}
        caught = [self.refusal(Triple, "x86_64-foo-bar"), self.refusal(Triple.read, "js/wasm", "go")]
        for error, message in [*errors.items(), *((it, str(it)) for it in caught)]:
            for again in error, pickle.loads(pickle.dumps(error)), copy.deepcopy(error), eval(
                repr(error), vars(target_lexicon)):
                self.assertEqual((str(again), again.args, again.reason, again.line),
                                 (message, error.args, error.reason, error.line))
        self.assertEqual((repr(caught[1]), caught[1].dialect),
                         ("ParseError('js/wasm', None, 0, 'js/wasm', 'go')", "go"))
        for arguments in (("x", "cpu"), ("x", None, 2, "x"), ("x", None, -1), ("x", None, 0, "y"),
                          ("x", None, 0, "x", "podman")):
            self.assertRaises(ValueError, ParseError, *arguments)
        self.assertRaises(TypeError, ParseError, b"x")

    def test_wrong_types(self):
        triple = Triple("x86_64-acme-linux")
        self.assertIs(Triple(triple), triple)
        self.assertRaises(TypeError, target_lexicon.explain, triple)
        for value in None, 3, b"x86_64", bytearray(b"x86_64"), ["x86_64"], object():
            for call in (Triple, Triple.parse, Triple.read, target_lexicon.explain, target_lexicon.changes,
                         target_lexicon.meanings):
                self.assertRaisesRegex(TypeError, f"must be a str, not {type(value).__name__}", call, value)

    def test_subclass_of_str(self):
        """No method of it is asked."""
        def asked(*_):
            raise AssertionError("the text of a subclass was asked")
        methods = "encode startswith __contains__ __eq__ __hash__ __str__ __len__ __getitem__ __iter__"
        Text = type("Text", (str,), dict.fromkeys(methods.split(), asked))
        self.assertEqual(Triple(Text("x86_64-linux")), Triple("x86_64-linux"))
        self.assertRaises(ParseError, Triple, Text("x86_64-\u00e9"))
        self.assertEqual(target_lexicon.translate(Text("linux/arm64"), "oci", "go"), "linux/arm64")
        texts = [Text("x86_64-linux\n"), Text("arm64-linux"), Text("avr\nx"), "avr"]
        keys = [None, "aarch64-unknown-linux", None, "avr-unknown-unknown"]
        self.assertEqual((target_lexicon.settle_all(texts), [it.canonical for it in target_lexicon.facts_all(texts)]),
                         (keys, keys))

    def test_huge_texts(self):
        size = 20_000_000
        for text in "a" * size, "-" * size, "x86_64-" + "\u00e9" * size, "x86_64-pc-linux-" + "x-" * (size // 2):
            for error in self.refusal(Triple, text), self.refusal(Triple.read, text), self.refusal(
                Triple.read, text, "go"):
                self.assertLess(len(str(error)), 1000)
                self.assertTrue(text[error.start:error.end] == error.part)
        text = f"x86_64-{'a' * size}-linux"
        self.assertTrue(str(Triple(text)) == text)  # without a difference of the strings, which would take hours
        self.assertEqual((len(Triple(text).settle().vendor), len(target_lexicon.explain(text).vendor.part)),
                         (size, size))
