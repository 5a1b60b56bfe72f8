"""Generated lines compared with the program `triples`, columns, threads, and memory."""
import concurrent.futures
import os
import shutil
import subprocess
import sys
import tempfile
import unittest

import target_lexicon
import lists
from target_lexicon import ParseError, Triple, _library

LINES = 20_000
CALLS = 200_000
LONG = "a" * 500
# Targets that aren't read, or not at once, and their canonical strings.
UNUSUAL = {"x86_64-\udcff-linux": None, "x86_64-\u00e9": None, f"arm64-{LONG}-linux": f"aarch64-{LONG}-linux",
           "arm64-acme-linux": "aarch64-acme-linux", "": None,
           "arm64-linux\n": None, "\n": None, "arm\r\n-linux": None, "arm64-linux\0": None}


def answer(mode, text):
    """What the program writes for a line in a mode."""
    try:
        it = Triple(text)
    except ParseError as error:
        return f"error: {error.line}"
    if mode == "show":
        facts = it.endianness, it.pointer_width, it.default_calling_convention, it.data_model
        return " ".join([str(it), *("-" if fact is None else str(fact) for fact in facts)])
    return it.canonical if mode == "settle" else str(it)


def resident():
    """The bytes of memory that this process has."""
    with open("/proc/self/statm", encoding="ascii") as it:
        return int(it.read().split()[1]) * 4096


class Lines(unittest.TestCase):
    @classmethod
    def setUpClass(cls):
        cls.lines = lists.generated_lines(LINES)
        cls.triples = {line: Triple(line) for line, key in zip(cls.lines, target_lexicon.settle_all(cls.lines)) if key}
        assert len(cls.lines) == LINES and len(cls.triples) > LINES // 5

    @unittest.skipUnless(lists.PROGRAM, "PROGRAM isn't given")
    def test_beside_the_program(self):
        for mode in "show", "settle", "print":
            ran = subprocess.run([lists.PROGRAM, mode], input="".join(f"{it}\n" for it in self.lines).encode(),
                                 capture_output=True, check=True)
            expected = ran.stdout.decode().split("\n")[:-1]
            self.assertEqual(len(expected), LINES)
            differ = [(line, it) for line, it in zip(self.lines, expected) if answer(mode, line) != it]
            self.assertEqual(differ[:5], [])

    def test_forms_agree(self):
        """Each triple is what its fields and its explanation give; equality and keys are the library's."""
        last = Triple("unknown")
        for line, it in self.triples.items():
            fields = (it.architecture, it.vendor, it.operating_system, it.environment, it.binary_format, it.version)
            self.assertEqual((Triple.from_fields(*fields), target_lexicon.explain(line).triple), (it, it))
            self.assertIs(it.replace(binary_format=None).binary_format, it.implied_format)
            self.assertIs(it.comes_back(), Triple(str(it)) == it)
            settled = it.settle()
            self.assertEqual((settled.settle(), Triple(it.canonical)), (settled, settled))
            self.assertEqual((it == last, it.same_target(last), it.same_target(settled)),
                             (_library.equal(it._struct, last._struct), settled == last.settle(), True))
            last = it

    def test_columns(self):
        keys = [self.triples[it].canonical if it in self.triples else None for it in self.lines]
        self.assertTrue(target_lexicon.settle_all(iter(self.lines * 2)) == keys * 2)
        for line, facts in zip(self.lines, target_lexicon.facts_all(self.lines)):
            self.assertEqual(facts._asdict(), self.triples[line].to_dict() if line in self.triples
                             else dict.fromkeys(facts._fields))


class Columns(unittest.TestCase):
    CALLS = (target_lexicon.settle_all, target_lexicon.facts_all)

    def test_unusual_cells(self):
        for call in self.CALLS:
            keys = [it and getattr(it, "canonical", it) for it in call([*UNUSUAL, "avr"] * 2)]
            self.assertEqual(keys, [*UNUSUAL.values(), "avr-unknown-unknown"] * 2)
            for target in UNUSUAL:
                self.assertEqual(call([target]), call(["avr", target])[1:])
            # A missing cell is as a target that is refused, so that each row has its answer.
            missing = [None, float("nan"), type("NAType", (), {})()]
            self.assertEqual((call([*missing, "arm64"]), call([])), (call(["", "", "", "arm64"]), []))
        triples = [*map(Triple, ("arm64-linux", "x86_64-acme-linux", "armv6k-nintendo-horizon-gnu"))]
        self.assertEqual(target_lexicon.settle_all([*triples, None] * 2), [*(it.canonical for it in triples), None] * 2)
        names = [*triples, "arm64", None, "amd46", "\udcff", "arm64"]
        self.assertEqual(target_lexicon.settle_all(names, dialect="debian")[3:],
                         ["aarch64-unknown-linux-gnu", None, None, None, "aarch64-unknown-linux-gnu"])
        self.assertRaisesRegex(ValueError, "the dialect must be", target_lexicon.settle_all, [None], "raise", "")
        found = [it._asdict() for it in target_lexicon.facts_all(["avr", *triples], "coerce")[1:]]
        self.assertEqual(found, [it.to_dict() for it in triples])

    def test_wrong_types(self):
        for call in self.CALLS:
            for value in 3, 1.5, b"x86_64", ["x86_64"]:
                for before in 1, 5000:  # more than are answered at once
                    column = [*["x86_64"] * before, value]
                    with self.assertRaises(TypeError) as caught:
                        call(column)
                    said = f"a target must be a str, not {type(value).__name__}: index {before} has {value!r}"
                    self.assertEqual(str(caught.exception), said)
                    self.assertTrue(call(column, errors="coerce") == call([*column[:-1], None]))
            for wrong in "ignore", None, "":
                self.assertRaisesRegex(ValueError, f"^errors must be 'raise' or 'coerce', not {wrong!r}$", call,
                                       ["avr"], wrong)
            for errors in "raise", "coerce":
                for wrong in "avr", b"avr", {"avr": 1}, memoryview(b"avr!").cast("B", (2, 2)):  # of two dimensions
                    self.assertRaisesRegex(TypeError, "such as one column, not a", call, wrong, errors)

    def test_long_columns(self):
        """More different targets than are answered at once, and than are remembered."""
        targets = [f"arm64-apple-ios{number % 250}.{number // 250 % 250}.{number // 62500}" for number in range(70000)]
        expected = [f"aarch64{it[5:]}" for it in targets]
        self.assertTrue(target_lexicon.settle_all(targets + targets[::-1] + ["avr-\n"]) == expected + expected[::-1]
                        + [None])
        self.assertTrue([it.canonical for it in target_lexicon.facts_all(targets[:5000])] == expected[:5000])


class Threads(unittest.TestCase):
    """Each call has memory of its own. With one struct or buffer for all calls, these fail: threads are switched within
    calls."""

    def setUp(self):
        self.addCleanup(sys.setswitchinterval, sys.getswitchinterval())
        sys.setswitchinterval(1e-6)

    def run_at_once(self, work, values):
        """The answers to all values, in the order of these. Each has a thread of its own."""
        with concurrent.futures.ThreadPoolExecutor(len(values)) as pool:
            return list(pool.map(work, values))

    def test_each_call_has_its_own_memory(self):
        def work(lines):
            return [(answer("show", it), answer("settle", it)) for it in lines]
        lines = lists.generated_lines(400)
        orders = [lines[first:] + lines[:first] for first in range(0, 320, 40)] * 3
        self.assertTrue(self.run_at_once(work, orders) == list(map(work, orders)))

    def test_each_column_has_its_own_memory(self):
        columns = [[f"x86_64-apple-ios{number}.{line % 250}.{line // 250}" for line in range(2000)]
                   for number in range(8)]
        for call in Columns.CALLS:
            self.assertTrue(self.run_at_once(call, columns) == list(map(call, columns)))

    def test_a_triple_is_asked_by_all_at_once(self):
        for number in range(50):
            it = Triple(f"x86_64-vendor{number}-linux")
            answers = self.run_at_once(lambda it: (answer("show", str(it)), str(it.vendor), it.canonical, hash(it)),
                                       [it] * 4)
            self.assertEqual(set(answers), {(answers[0][0], f"vendor{number}", str(it), hash(it))})


@unittest.skipUnless(sys.implementation.name == "cpython", "not CPython, which frees memory at once")
class Memory(unittest.TestCase):
    def test_many_calls_keep_nothing(self):
        texts = ["x86_64-unknown-linux-gnu", "arm64-apple-macosx13.2", "x86_64-foo-bar", "armv6k-nintendo-horizon-gnu"]

        def calls(first, count):
            for number in range(first, first + count, 5):
                for text in *texts[:3], f"x86_64-vendor{number}-linux":
                    answer("show", text)
                it = Triple(texts[3])
                self.assertNotEqual(it, it.settle())
                target_lexicon.explain(texts[number % 2])
                target_lexicon.settle_all(texts)
                target_lexicon.facts_all(texts)
                hash(it.replace(vendor=target_lexicon.CustomVendor(f"acme{number}")).vendor)
        calls(0, 50000)
        before = resident()
        calls(50000, CALLS)
        self.assertLess(resident() - before, 1_000_000)


@unittest.skipUnless(sys.implementation.name == "cpython" and sys.platform == "linux", "not CPython on Linux")
@unittest.skipUnless(shutil.which("cc"), "no cc")
@unittest.skipIf(sys.version_info >= (3, 12), "CPython from 3.12 on spoils its heap when it raises without memory")
class WithoutMemory(unittest.TestCase):
    def test_each_allocation_fails_in_turn(self):
        with tempfile.TemporaryDirectory() as folder:
            allocator = os.path.join(folder, "failing_allocator.so")
            source = os.path.join(lists.ROOT, "checks", "gate", "failing_allocator.c")
            subprocess.run(["cc", "-shared", "-fPIC", "-O1", "-o", allocator, source], check=True)
            program = os.path.join(os.path.dirname(os.path.abspath(__file__)), "without_memory.py")
            ran = subprocess.run([sys.executable, program], capture_output=True, text=True, check=False, timeout=300,
                                 env={**os.environ, "LD_PRELOAD": allocator, "PYTHONMALLOC": "malloc"})
        self.assertRegex(ran.stderr, r"^\d+ trials\n$")
        self.assertGreater(int(ran.stderr.split()[0]), 1000)
        self.assertGreater(ran.stdout.count("!"), 1000)
