#!/usr/bin/env python3
"""The lines of the input of main.ml and program.rs, always the same; of the large kinds each `step`-th."""
import itertools
import random

import target_lines

NAMES = target_lines.table_names()
LENGTHS = [15, 16, 17, 32, 63, 64, 65, 128, 200, 255, 256, 257, 1023, 1024, 1025, 4096, 65535, 65536]
TOGETHER = "unknown none linux pc esp espidf nintendo horizon eabi gnu elf wasm ios1.2 foo".split() + [""]
FIRSTS = "arm armv6k riscv32imc clever x86_64".split()
# A word in each place of a triple.
PLACES = ["*", "*-pc-linux-gnu", "x86_64-*", "x86_64-*-linux", "x86_64-pc-*-gnu", "x86_64-pc-linux-*",
          "x86_64-pc-linux-gnu-*"]
SPECIAL = ["armv6k-nintendo-3ds", "riscv32imc-esp-espidf"]
MORE = """3ds esp foo Foo 3com \u00e9 apple1 iosfoo ios. darwin+ darwin23.6 ios+017 ios65535 ios65536 ios1.256
    ios1.2.3.4""".split() + [""]


def versions():
    limits = {it for limit in (255, 65535) for it in (0, 1, 9, 10, limit - 1, limit, limit + 1, 10 * limit + 5)}
    digits = {f"{n[:i]}{d}{n[i + 1:]}" for n in ("12345", "123") for i in range(len(n)) for d in "0123456789"}
    for it in sorted({*map(str, limits), *digits, *target_lines.VERSION_PARTS}):
        yield from (it, f"1.{it}", f"1.2.{it}", f"{it}.1.2", f"0000{it}", f"+{it}")


def of_words(found):
    """The lines of words that a crate's source has."""
    return [*(f"word\t{it}" for it in found), *(f"string\t{form.replace('*', it)}" for it in found for form in PLACES)]


def words():
    rng = random.Random("words")
    known = [*NAMES.each, *MORE]
    yield from known
    for it in known * 40:
        yield target_lines.changed_text(rng, it)
    yield from ("".join(it) for c in map(chr, range(33, 127))
                for it in ((c, "q9"), ("q", c, "9"), ("q9", c), ("esp", c), c))
    yield from (f"{it}{c}" for it in known for c in ("q", "-", ""))
    yield from (it[1:] for it in known)
    yield from ("q" * n for n in LENGTHS)
    yield from (f"{system}{it}" for it in versions() for system in ("", *NAMES.versioned))


def strings(step):
    known = [*NAMES.each, *MORE, *(f"{it}1.2" for it in NAMES.versioned)]
    lists = [[known], [known] * 2, [known] * 3, [FIRSTS, *[TOGETHER] * 3], [FIRSTS, *[TOGETHER] * 4]]
    for parts in lists:
        for it in itertools.islice(itertools.product(*parts), 0, None, step if len(parts) > 2 else 1):
            yield "-".join(it)
    others = sorted({part for it in SPECIAL for part in it.split("-")[1:]}
                    | {"horizon", "espressif", "newlib", "elf", "unknown"})
    for count in range(4):
        yield from ("-".join(it) for it in itertools.product([it.split("-")[0] for it in SPECIAL], *[others] * count))
    for n in LENGTHS:
        yield from (form.replace("*", "q" * n) for form in (
            "*", "*-linux", "x86_64-*", "x86_64-*-linux-gnu-elf", "x86_64-pc-*", "x86_64-PC*-linux"))
        zeros = "0" * n
        yield from (f"arm64-apple-ios{zeros}17.1", f"arm64-apple-ios1.{zeros}256", f"x86_64{'-' * min(n, 40)}linux")
    yield from target_lines.lines(NAMES, 3_000_000 // step)


def triples(step):
    custom = ["esp", "rtems", "foo", "q-9", "pc", "", "Foo", "a_b.c", "q" * 40, "Q" * 40]
    vendors = ["unknown", *NAMES.vendors, *(f"={it}" for it in custom)]
    systems = [*NAMES.systems, *(f"{it}{v}" for it in NAMES.versioned for v in ("0", "10.14.6", "65535.255.255"))]
    # those near an exception of round trips
    yield from map(list, itertools.product(*(it.split() for it in (
        "x86_64 armv6k armv7 riscv32imc clever clever1.0 avr wasm32", "unknown nintendo espressif pc =esp =foo =a-b",
        "unknown none horizon espidf linux ios wasi", "unknown none newlib gnu eabi kernel android",
        " ".join(NAMES.formats)))))
    fields = [NAMES.architectures, dict.fromkeys(vendors), systems, NAMES.environments, NAMES.formats]
    for it in itertools.islice(itertools.product(*fields), 0, None, step):
        yield list(it)


def pairs(step):
    """Triples with itself, with the one before, and with each field of that; with other versions, and with vendors that
    differ at the end."""
    last = ["unknown"] * 5
    for one, other in itertools.product(("", "0", "1.2", "1.2.3", "1.3", "65535.255.255"), repeat=2):
        yield from ([part for v in (one, other) for part in ("x86_64", "apple", f"{system}{v}", "unknown", "macho")]
                    for system in NAMES.versioned)
    for n, (one, other) in itertools.product(LENGTHS, itertools.product(("", "a", "b"), repeat=2)):
        yield [part for end in (one, other) for part in ("x86_64", f"={'q' * n}{end}", "linux", "gnu", "elf")]
    for it in itertools.islice(triples(step), 0, None, 97):
        yield from (it + other for other in (it, last, *([*it[:i], last[i], *it[i + 1:]] for i in range(5))))
        last = it


def lines(step):
    models = "LP32 ILP32 LLP64 LP64 ILP64".split()
    for kind, of in (("model", models), ("word", words()), ("string", strings(step)), ("triple", triples(step)),
                     ("pair", pairs(step))):
        for it in of:
            parts = it if isinstance(it, list) else [it]
            if not any(c in part for c in "\n\r\t" for part in parts):
                yield "\t".join([kind, *parts])

