"""What the comparisons with other tools share: the answers of the Python package, and a report of what was asked and
what differs."""
import collections
import json
import os
import re
import subprocess
import sys

import built

sys.path.append(f"{built.ROOT}/tools/names")
from tool_names import products


# A row of packages/names/elsewhere.tsv.
Row = collections.namedtuple("Row", "dialect name triple ways note level", defaults=["", ""])


def rows_of_names():
    """The rows of packages/names/elsewhere.tsv, one for each name of a line or a rule."""
    with open(f"{built.ROOT}/packages/names/elsewhere.tsv", encoding="utf-8") as file:
        lines = [line.rstrip("\n").split("\t") for line in file if not line.startswith("#")]
    return [Row(dialect, name, meaning, *rest)
            for dialect, names, triple, *rest in (line for line in lines if len(line) > 3)
            for name, meaning in products(names, triple)]


def output(*command, **more):
    return subprocess.run(command, capture_output=True, text=True, errors="replace", **more).stdout


class Report:
    def __init__(self, options, folder):
        self.asked, self.failed, self.most = [], [], None if options.all else 5
        self.tree = built.c_library(folder)
        os.environ["TARGET_LEXICON_LIBRARY"] = f"{self.tree}/lib/libtarget_lexicon.so"
        sys.path.insert(0, f"{built.ROOT}/packages/python/src")
        import target_lexicon
        self.target_lexicon = target_lexicon

    def parsed(self, texts):
        """The triples of those strings that parse."""
        keys = zip(texts, self.target_lexicon.settle_all(texts))
        return {text: self.target_lexicon.Triple(text) for text, key in keys if key}

    def read(self, name, dialect=None):
        """The triple that a name of a dialect means, or a string that is spelled like a triple; or None."""
        try:
            return self.target_lexicon.Triple.read(name, dialect)
        except self.target_lexicon.ParseError:
            return None

    def has(self, name, there):
        """Notes whether a tool is there, and returns it. Without it the comparison fails, unless WITHOUT names the
        tool."""
        if there:
            self.asked.append(name)
        else:
            self.failed += [name] * built.left_out(name, "what it says")
        return there

    def fact(self, what, rows, but=None):
        """A fact about rows, in each of which the last two values must be equal; a row that matches `but` is a known
        difference."""
        rows = list(rows)
        wrong = [row for row in rows if row[-2] != row[-1]]
        found = [row for row in wrong if not (but and re.search(but, str(row)))]
        known = f", except {len(wrong) - len(found)} with {but.replace('|', ' or ')}" if but else ""
        print(f"{'FAILED' if found else 'holds '} {what} ({len(rows)}{known})", flush=True)
        for row in found[:self.most]:
            print("   ", *row)
        self.failed += [what] * bool(found)

    def conclude(self):
        """Prints who was asked, and returns the status."""
        print(f"asked: {', '.join(dict.fromkeys(self.asked))}")
        print(f"{len(self.failed)} facts don't hold")
        return 2 if not self.asked else 1 if self.failed else 0


def rustc_specs():
    """rustc's description of each target."""
    words = ["rustc", "-Z", "unstable-options", "--print", "all-target-specs-json"]
    return json.loads(output(*words, env={**os.environ, "RUSTC_BOOTSTRAP": "1"}))


def rustc_answers(specs):
    """What rustc says of each target."""
    return {name: {"order": it.get("target-endian", "little"), "width": str(it["target-pointer-width"]),
                   "machine": it["arch"],
                   "format": it.get("binary-format", "elf").replace("-", ""), "llvm": it["llvm-target"],
                   "emulated TLS": str(it.get("tls-model") == "emulated")} for name, it in specs.items()}


def order_and_width(triple):
    """The byte order of a triple, and the width of its pointers."""
    return triple and (str(triple.endianness), triple.pointer_width)
