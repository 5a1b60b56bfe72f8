"""Every value of every enumeration, compared with the library and its header for C."""
import json
import pickle
import unittest

import target_lexicon
import lists
from target_lexicon import CustomVendor, OperatingSystem, Origin, ParseError, Triple, Vendor, _library

# The enumerations by the beginnings of their constants in C. Those of fields and the family have no number for no
# answer.
FIELDS = ("ARCHITECTURE", "VENDOR", "OPERATING_SYSTEM", "ENVIRONMENT", "BINARY_FORMAT")
OTHERS = ("ENDIANNESS", "CALLING_CONVENTION", "DATA_MODEL", "C_LIBRARY", "FLOAT_ABI", "ARM_PROFILE", "SIGNEDNESS",
          "DIALECT", "CHOSEN_LIBC")
ENUMERATIONS = {it: getattr(target_lexicon, it.title().replace("_", "")) for it in (*FIELDS, "FAMILY", *OTHERS)}


class Values(unittest.TestCase):
    def test_numbers_are_those_of_the_header(self):
        for prefix, of in ENUMERATIONS.items():
            numbers = {"NONE": 0} if prefix in OTHERS else {"CUSTOM": 255} if prefix == "VENDOR" else {}
            numbers.update((it.name, it.number + (prefix in OTHERS)) for it in of)
            self.assertEqual(numbers, lists.header_numbers(prefix))
        self.assertEqual({it.name: it.number for it in Origin}, lists.header_numbers("ORIGIN"))
        self.assertIn(f"#define LEXICON_MAX_GROWTH {_library.MAX_GROWTH}\n",
                      lists.read("packages/c/include/target_lexicon.h"))

    def test_names_are_those_of_the_library(self):
        before = ["x86_64", "pc", "linux", "gnu"]
        for field, prefix in enumerate(FIELDS):
            of = ENUMERATIONS[prefix]
            for number, member in enumerate(of):
                name = member.value.encode()
                self.assertEqual((_library.name(field, number), _library.number(field, name)), (name, (0, number)))
                self.assertIs(of.parse(member.value), member)
                self.assertIs(of(member.value), member)
                self.assertIs(getattr(Triple("-".join([*before[:field], member])), prefix.lower()), member)
                self.assertIs(getattr(Triple.from_fields(**{prefix.lower(): member}), prefix.lower()), member)
            self.assertIsNone(_library.name(field, len(of)))

    def test_parse(self):
        self.assertEqual((target_lexicon.Architecture.parse("arm64"), OperatingSystem.parse("darwin23.6")),
                         ("aarch64", OperatingSystem.DARWIN))
        self.assertEqual(Vendor.parse("acme"), CustomVendor("acme"))
        for prefix in FIELDS:
            of = ENUMERATIONS[prefix]
            for text in "", "Acme", "x86-64", "\0":
                with self.assertRaises(ParseError) as caught:
                    of.parse(text)
                self.assertEqual((caught.exception.field, caught.exception.part, caught.exception.start),
                                 (prefix.lower(), text, 0))
            for value in None, 3, b"gnu", of:
                self.assertRaises(TypeError, of.parse, value)

    def test_members_are_strings(self):
        """As those of StrEnum are."""
        for of in *ENUMERATIONS.values(), Origin:
            for it in of:
                self.assertEqual((it, hash(it), f"{it}", f"{it:>20}", type(str(it))),
                                 (it.value, hash(it.value), it.value, f"{it.value:>20}", str))
                self.assertEqual((json.dumps({it: [it]}), repr(it)),
                                 (json.dumps({it.value: [it.value]}), f"{of.__name__}.{it.name}"))
                self.assertIs(pickle.loads(pickle.dumps(it)), it)
        self.assertEqual(sorted({Vendor.PC, CustomVendor("acme")}), ["acme", "pc"])

    def test_custom_vendors(self):
        vendor = Triple("x86_64-acme-linux").vendor
        self.assertEqual((vendor, vendor.text, vendor.value, vendor.number, repr(vendor)),
                         (CustomVendor("acme"), "acme", "acme", 255, "CustomVendor('acme')"))
        self.assertEqual((hash(vendor), json.dumps({vendor: vendor}), type(str(vendor))),
                         (hash("acme"), '{"acme": "acme"}', str))
        self.assertNotIsInstance(vendor, Vendor)
        for name in "text", "other":
            self.assertRaises(AttributeError, setattr, vendor, name, None)
        self.assertRaisesRegex(ValueError, r"pc is a known vendor: Vendor\.PC", CustomVendor, "pc")
        for text in "", "PC", "linux", "x86_64", "a-b", "\u0430cme", "a\0":
            self.assertRaises(ParseError, CustomVendor, text)
        self.assertRaisesRegex(ParseError, r"^Unrecognized vendor: linux\n  linux\n  \^{5}$", CustomVendor, "linux")
        for value in None, b"acme", 3:
            self.assertRaises(TypeError, CustomVendor, value)

    def test_a_vendor_is_the_string_that_was_parsed(self):
        class Other(str):
            def __str__(self):
                return "a-b\x1b"

        for vendor in CustomVendor(Other("acme")), Vendor.parse(Other("acme")):
            self.assertEqual((vendor, vendor.text, type(vendor)), ("acme", "acme", CustomVendor))
