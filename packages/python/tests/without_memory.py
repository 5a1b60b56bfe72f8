"""Makes each allocation of the package's calls fail in turn. Each call must then raise a MemoryError or give its usual
answer.

It runs with checks/gate/failing_allocator.c in LD_PRELOAD and PYTHONMALLOC=malloc. It writes each other outcome to
standard error, and last the number of trials. The allocator writes to standard output.

From 3.10 on, CPython itself may end any function that raises with a SystemError, if there is no memory. So that of a
call whose string is refused is let pass there.
"""
import copy
import ctypes
import gc
import pickle
import sys

import target_lexicon
from target_lexicon import Architecture, CustomVendor, Environment, OperatingSystem, ParseError, Triple, Vendor

# A call that allocates more often than this many times isn't tried to its end.
MOST = 2000
fail_allocation = ctypes.CDLL(None).fail_allocation
fail_allocation.argtypes, fail_allocation.restype = [ctypes.c_ulong], ctypes.c_ulong

LINUX, CUSTOM, OTHER = Triple("x86_64-unknown-linux-gnu"), Triple("x86_64-acme-linux"), Triple(
    "armv6k-nintendo-horizon-gnu")
PICKLES = list(map(pickle.dumps, (LINUX, CUSTOM)))
LONG = f"x86_64-{'a' * 500}-linux"
COLUMN = ["arm64-linux-gnu", "x86_64-acme-linux", "x86_64-pc-linx", "avr"]


def fresh():
    """Two triples that nothing was asked of yet."""
    return Triple.from_fields(Architecture.X86_64), Triple.from_fields(Architecture.AARCH64, CustomVendor("acme"))


def refusal(call, *arguments):
    """What is said of a refusal."""
    try:
        return call(*arguments)
    except ParseError as error:
        return str(error), error.line, error.field, error.suggestion, error.reason, error.start, error.end


CALLS = {
    "parse": lambda: Triple("arm64-apple-ios17"),
    "parse a custom vendor": lambda: Triple("x86_64-acme-linux-gnu"),
    "print": lambda: list(map(str, fresh())),
    "print a long one": lambda: str(Triple(LONG)),
    "show": lambda: [repr(LINUX), repr(OTHER), f"{CUSTOM:>30}", repr(CUSTOM.vendor)],
    "compare": lambda: [fresh()[0] == fresh()[0], fresh()[0] < fresh()[1], fresh()[0] >= fresh()[1],
                        hash(fresh()[1]) == hash(fresh()[1])],
    "facts": lambda: [(it.endianness, it.pointer_width, it.data_model, it.family, it.object_format) for it in fresh()],
    "all facts": lambda: [it.to_dict() for it in fresh()],
    "canonical": lambda: [LINUX.canonical, CUSTOM.settle(), OTHER.settle(), OTHER.comes_back(),
                          LINUX.same_target(OTHER)],
    "from fields": lambda: Triple.from_fields(Architecture.X86_64, Vendor.APPLE, OperatingSystem.IOS, version=(17, 1)),
    "replace": lambda: [LINUX.replace(environment=Environment.MUSL), LINUX.replace(vendor=CustomVendor("acme"))],
    "explain": lambda: [str(target_lexicon.explain("arm64-aple-ios17.2")),
                        target_lexicon.explain("x86_64-linux").sources],
    "read": lambda: [Triple.read("linux/arm64", "oci"), Triple.read("x86_64-w64-mingw32")],
    "name": lambda: [LINUX.name_in("go"), OTHER.name_in(target_lexicon.Dialect.OCI)],
    "translate": lambda: [target_lexicon.translate("linux/arm64", "oci", "debian", "glibc"), LINUX.complete("musl"),
                          CUSTOM.complete("glibc")],
    "changes": lambda: target_lexicon.changes("amd64-unknown-freebsd13.2"),
    "values": lambda: [Architecture.parse("arm64"), Vendor.parse("acme"), CustomVendor("acme")],
    "copy": lambda: [*map(pickle.loads, PICKLES), copy.deepcopy(OTHER)],
    "refusal": lambda: refusal(Triple, "x86_64-pc-linx"),
    "refusal of an explanation": lambda: refusal(target_lexicon.explain, "x86_64-pc-l\u00e9nx"),
    "refusal of a name": lambda: [refusal(Triple.read, "linux/amd46", "go"), refusal(Triple.read, "js/wasm", "go")],
    "refusal of a surrogate": lambda: refusal(Triple, "x86_64-\udcff"),
    "canonical strings": lambda: target_lexicon.settle_all(COLUMN),
    "facts of a column": lambda: target_lexicon.facts_all(COLUMN),
}


def allocations():
    """How many allocations there were since one was chosen to fail; from now on none does."""
    try:
        return fail_allocation(0)
    except Exception:  # pylint: disable=broad-exception-caught
        return fail_allocation(0) + MOST  # the chosen one was of this call


def tried(call, number):
    """What comes of a call while the allocation with this number fails, and whether it came to that one."""
    try:
        fail_allocation(number)
        outcome = call()
    except Exception as error:  # pylint: disable=broad-exception-caught
        outcome = error
    return outcome, allocations() >= number


def main():
    gc.disable()
    trials = 0
    for name, call in CALLS.items():
        accepted = (MemoryError, SystemError) if name.startswith("refusal") and sys.version_info >= (
            3, 10) else MemoryError
        usual = [call() for _ in range(3)][-1]
        for number in range(1, MOST):
            outcome, got_there = tried(call, number)
            if outcome != usual and not isinstance(outcome, accepted):
                print(f"{name}, allocation {number}: {outcome!r:.200}", file=sys.stderr)
            elif call() != usual:
                print(f"{name}, allocation {number}: another answer afterwards", file=sys.stderr)
            trials += 1
            if not got_there:
                break
    print(f"{trials} trials", file=sys.stderr)


main()
