"""Compares the mode `json` of the proved program and of the Rust crate, on inputs that Hypothesis makes: the proved
program reads JSON by Rattle's serde_json, and one that cargo builds by Rust's.

The inputs are lists of triples and other values, deep ones, numbers at the limits, escapes, broken texts, and all of
these with other bytes. Of an input with two answers Hypothesis prints the smallest that it finds. Needs Debian's
python3-hypothesis, so /usr/bin/python3.
"""
import collections
import json
import subprocess
import sys

import target_lines
from upstream import crates

try:
    import hypothesis
    from hypothesis import strategies as st
except ImportError as error:
    sys.exit(f"json: {error}: install python3-hypothesis, and run /usr/bin/python3 checks/compare json")

KNOWN = target_lines.table_names().known
NUMBERS = ["-0", "0e99999999", "1.7976931348623157e308", "1.7976931348623158e308", "1.797693134862315808e308", "1e309",
           "-1e400", "5e-324",
           "1e-99999999999999999999", "1e99999999999999999999", "18446744073709551616", "9" * 308, "9" * 309,
           "1" + "0" * 400 + "e-400"]
PIECES = ['\\"', "\\\\", "\\/", "\\b", "\\n", "\\u0000", "\\u002d", "\\u00E9", "\\ud83d\\ude00", "\\ud83d", "\\ude00",
          "\\x", "\\u12", '"',
          "\\", "\t", "\0", "\x7f", "01", "+1", ".5", "1.", "1e", "-", "NaN", "Infinity", "nul", "'a'", "[", "]", "{",
          "}", ",", ":", "//",
          "\ufeff", "\xa0"]
BYTES = [b"\xff", b"\x80", b"\xc0\x80", b"\xc3", b"\xe2\x82", b"\xed\xa0\xbd\xed\xb8\x80", b"\xf4\x90\x80\x80",
         b"\xf0\x80\x80\x80"]

# What stands for the text HERE: strings of pieces, numbers, deep lists, and pieces. Around it, values as Python writes
# them.
HERE = "HERE"
TEXT = st.sampled_from(KNOWN) | st.text()
STRING = st.lists(st.sampled_from(PIECES) | TEXT, max_size=4).map(lambda pieces: f'"{"".join(pieces)}"')
NUMBER = st.sampled_from(NUMBERS) | st.from_regex(r"-?(0|[1-9][0-9]{0,20})(\.[0-9]{1,20})?([eE][+-]?[0-9]{1,3})?",
                                                  fullmatch=True)
DEEP = st.builds(lambda deep, inner: "[" * deep + inner + "]" * deep, st.integers(124, 130),
                 st.sampled_from(["", "1", '"x"', "{}"]))
KEY = st.just(HERE) | TEXT
VALUE = st.recursive(KEY | st.none() | st.booleans(),
                     lambda inner: st.lists(inner, max_size=4) | st.dictionaries(KEY, inner, max_size=4),
                     max_leaves=6)
TRIPLES = st.lists(st.sampled_from(KNOWN), max_size=12)
LIST = st.builds(lambda before, value, after: before + value + after, TRIPLES, st.lists(VALUE, max_size=1), TRIPLES)
WRITTEN = st.builds(json.dumps, LIST | LIST | VALUE, ensure_ascii=st.booleans(),
                    indent=st.sampled_from([None, None, "\r\t "]))
WHOLE = st.builds(lambda text, new: text.replace(f'"{HERE}"', new).encode(), WRITTEN,
                  STRING | NUMBER | DEEP | st.sampled_from(PIECES))
NEW = st.sampled_from([*BYTES, *(piece.encode() for piece in PIECES)]) | st.binary(max_size=2)
CHANGED = st.builds(lambda given, at, cut, new: given[:at % (len(given) + 1)] + new
                    + given[at % (len(given) + 1) + cut:],
                    WHOLE, st.just(0) | st.integers(0, 500), st.just(0) | st.integers(0, 3), NEW)


class WrongAnswer(Exception):
    pass


def kind_of(answer):
    kinds = {"[": "printed", "e": "with a wrong element", "f": answer[len("fault: Input is "):-1]}
    return kinds[answer[0]]


def add_arguments(parser):
    parser.add_argument("--inputs", type=int, default=2000)
    parser.add_argument("--seed", type=int, default=1)


def main(options, folder):
    compared = crates.programs("proved", "cargo")
    kinds = collections.Counter()

    def compare(given):
        runs = [subprocess.run([program, "json"], input=given, capture_output=True) for program in compared.values()]
        found = [(run.returncode, run.stdout) for run in runs]
        kinds[kind_of(found[0][1].decode(errors="replace"))] += 1
        if len(set(found)) > 1:
            lines = [f"\n    {name}: {answer!r:.300}" for name, answer in zip(compared, found)]
            raise WrongAnswer(f"json: the answers to {given!r:.500} differ{''.join(lines)}")

    settings = hypothesis.settings(max_examples=options.inputs, deadline=None, database=None,
                                   suppress_health_check=list(hypothesis.HealthCheck))
    hypothesis.configuration.set_hypothesis_home_dir(f"{folder}/hypothesis")
    try:
        hypothesis.seed(options.seed)(settings(hypothesis.given(WHOLE | CHANGED)(compare)))()
    except WrongAnswer as error:
        print(error)
        return 1
    counts = ", ".join(f"{count:,} {kind}" for kind, count in kinds.most_common())
    print(f"json: {sum(kinds.values()):,} inputs ({counts}), none differ")
    return 0
