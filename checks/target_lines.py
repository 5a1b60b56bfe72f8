#!/usr/bin/env python3
"""The words of the comparisons, and lines that are made of them, always the same.

usage: checks/target_lines.py COUNT

It writes COUNT lines of the names of tools/names/names.tsv.
"""
import collections
import os
import random
import string
import sys

ROOT = os.path.dirname(os.path.dirname(os.path.realpath(__file__)))
sys.path.append(f"{ROOT}/tools/names")
from names_table import FIELDS, table_of

# The names by their fields, systems that may have a version, all names and texts that are none, and known triples.
Names = collections.namedtuple(
    "Names", "architectures vendors systems environments formats versioned each foreign known")

VENDOR_CHARACTERS = string.ascii_lowercase + string.digits + "_."

# Parts of a version: numbers at and around the limits 255 and 65535, other spellings of digits, and texts that are no
# numbers.
VERSION_PARTS = """0 1 2 9 10 13 99 100 199 200 249 250 254 255 256 260 299 300 999 1000 6553 9999 10000 59999 65534
    65535 65536 65540 65599 65600 66000 70000 99999 100000 4294967296 18446744073709551616 00 007 000255 0000256
    00065535 +0 +7 +255 +65535 + ++1 a 1a a1 0x1 1e1 1_0 \u0663 \uff11""".split() + ["", " 1", "1 "]

UNUSUAL_TEXTS = ["", "-", "--", "\r", "\t", "\0", "\x0b", "\x1b[0m", "\x7f", " ", "\xa0", ".", "_", "+", "\\", '"',
                 "\u00e9",
                 "e\u0301", "\u0131", "\u017f", "\u4e2d\u6587", "\u0438", "\u200b", "\u2010", "\u2028", "\ufeff",
                 "\uff41", "\U0001f600", "x" * 300, "-" * 40, "3ds"]


def read(path):
    with open(f"{ROOT}/{path}", encoding="utf-8") as file:
        return file.read()


def table_names():
    """The names of the table, some texts that are none, and the known triples."""
    table, _, _, wrong = table_of(read("tools/names/names.tsv"))
    assert not wrong, wrong
    fields = {field: [row.name for row in table if row.field == field] for field in (*FIELDS, "alias")}
    fields["architecture"] += fields.pop("alias")
    versioned = [row.name for row in table if row.family == "Darwin"]
    each = [name for names in fields.values() for name in names]
    known = read("checks/upstream/known_triples.txt").split()
    return Names(*fields.values(), versioned, each, ["zilog", "bar", "gnux"], known)


def changed_text(rng, text):
    """The text with one change: of a character, or of a part."""
    at = rng.randrange(len(text) + 1)
    parts = text.split("-")
    which = rng.randrange(len(parts))
    choice = rng.randrange(8)
    if choice == 0:
        return text[:at] + text[at + 1:]
    if choice == 1:
        return text[:at] + rng.choice(string.printable[:95]) + text[at:]
    if choice == 2:
        return text[:at] + rng.choice(VENDOR_CHARACTERS) + text[at + 1:]
    if choice == 3:
        return text[:at] + text[at:at + 2][::-1] + text[at + 2:]
    if choice == 4:
        return text[:at] + text[at:at + 1].swapcase() + text[at + 1:]
    if choice == 5:
        return text[:at] + rng.choice(UNUSUAL_TEXTS) + text[at:]
    return "-".join(parts[:which] + (parts[which:which + 1] * 2 if choice == 6 else []) + parts[which + 1:])


def line(rng, names):
    """A line of one of several kinds."""
    one, kind = rng.choice, rng.randrange(10)
    if kind < 4:  # fields in their order, with some left out
        vendor, word = one(names.vendors), one(string.ascii_lowercase) + "".join(
            rng.choices(VENDOR_CHARACTERS, k=rng.randrange(9)))
        columns = names.architectures, ["", "", "unknown", vendor,
                                        word], ["", *names.systems], ["", *names.environments], [
            "", "", "", one(names.formats)]
        return "-".join(filter(None, map(one, columns)))
    if kind < 6:  # parts of any field, in any order
        parts = [*names.each, *names.foreign, *["", "unknown", "none", "acme"] * 9]
        return "-".join([one([one(names.architectures), one(parts)]), *rng.choices(parts, k=rng.randrange(6))])
    if kind < 8:  # a known triple with one change, or two
        once = changed_text(rng, one(names.known))
        return one([once, changed_text(rng, once)])
    if kind < 9:  # a system with a version, at or around a limit
        head, system = one(["aarch64-apple-", "x86_64-",
                            "arm64-unknown-"]), one([one(names.versioned), one(names.systems)])
        version = ".".join(one(["23", part]) for part in rng.choices(VERSION_PARTS, k=rng.randrange(5)))
        return head + system + version + one(["", "-sim", "-macho", "-macabi-elf", "-x"])
    parts = rng.choices(UNUSUAL_TEXTS * 3 + names.each, k=one([1, 2, 3, 4, 5, 8, 30]))
    return one(["-", "-", "", "--"]).join(parts)


def lines(names, n):
    """n lines without a line feed: the known triples, all names, others of each kind, and some of these again."""
    rng, found = random.Random("lines"), [*names.known, *names.each, *names.foreign][:n]
    found += [line(rng, names) for _ in range((n - len(found)) * 9 // 10)]
    found += rng.choices(found or [""], k=n - len(found))
    rng.shuffle(found)
    return found


def main():
    sys.stdout.buffer.write("".join(f"{line}\n" for line in lines(table_names(), int(sys.argv[1]))).encode())


if __name__ == "__main__":
    main()
