"""Compares what the Python package says of rustc's targets with what LLVM, clang and rustc say.

The targets are those of the installed rustc that parse. llvm.cpp asks LLVM for the byte order, the pointer width and
the object format of each, for the version and the profile of 32-bit Arm, emulated TLS, COMDAT, variants of its
architecture, and versions. The macros that clang defines give the first two, and the sizes of C's arithmetic types.
rustc's descriptions of targets have the byte order, the pointer width and the object format, and a name for LLVM, which
is read as a string spelled like a triple. What a driver asks is compared with rustc's descriptions and with clang: C
libraries, floating-point arguments, and layouts of types. What a tool doesn't know isn't compared.

Debian's packages: llvm-14-dev g++ clang; and rustc.
"""
import concurrent.futures
import shutil
import subprocess

from upstream import crates
from comparisons import driver
from comparisons.tools import Report, output, rustc_answers, rustc_specs

# Where pointers have 32 bits here, and registers 64; clang 14 compiles for ILP32 on AArch64 as for LP64.
NARROW = "gnux32|gnu_ilp32"
# What LLVM is asked of each target.
KINDS = ("order", "width", "format", "version of Arm", "profile of Arm", "emulated TLS", "COMDAT")

def our_answers(triple):
    sizes = (triple.short_size, triple.int_size, triple.long_size, triple.long_long_size, triple.float_size,
             triple.double_size)
    return {"order": str(triple.endianness or "-"), "width": str(triple.pointer_width or "-"),
            "format": str(triple.object_format),
            "sizes": " ".join(map(str, sizes)) if triple.int_size else "-",
            "version of Arm": str(triple.arm_version or "-"), "profile of Arm": str(triple.arm_profile or "-"),
            "emulated TLS": str(triple.has_emulated_tls), "COMDAT": str(triple.has_comdat)}


def llvm_asked(folder):
    """What asks LLVM about strings. It returns the answers of each."""
    flags = output("llvm-config", "--cxxflags", "--ldflags", "--libs", "--system-libs").split()
    subprocess.run(["c++", f"{crates.SOURCES}/llvm.cpp", "-o", f"{folder}/llvm", *flags], check=True)
    kinds = (*KINDS, "machine", "version of macOS", "system", "version")

    def asked(strings):
        lines = output(f"{folder}/llvm", input="".join(f"{string}\n" for string in strings)).splitlines()
        return {string: dict(zip(kinds, line.split(), strict=True))
                for string, line in zip(strings, lines, strict=True)}
    return asked


def clang_answer(target):
    """What clang's macros say of a target, or nothing if clang doesn't know it."""
    macros = driver.macros_of(target)
    if "__BYTE_ORDER__" not in macros:
        return {}
    order = {"__ORDER_LITTLE_ENDIAN__": "little", "__ORDER_BIG_ENDIAN__": "big"}[macros["__BYTE_ORDER__"]]
    sizes = " ".join(macros[f"__SIZEOF_{name}__"] for name in ("SHORT", "INT", "LONG", "LONG_LONG", "FLOAT", "DOUBLE"))
    return {"order": order, "width": str(8 * int(macros["__SIZEOF_POINTER__"])), "sizes": sizes}


def main(options, folder):
    report = Report(options, folder)
    targets = output("rustc", "--print", "target-list").split()
    parsed = report.parsed(targets)
    print(f"{len(targets)} targets, {len(parsed)} parsed; {output('rustc', '--version').strip()}", flush=True)

    def compare(who, triples, theirs, **but):
        """Compares each kind of answer that a tool has, if there are two; `but` has the known differences of a kind."""
        ours = {name: our_answers(triple) for name, triple in triples.items() if triple}
        for kind in dict.fromkeys(kind for answer in theirs.values() for kind in answer):
            rows = [(name, answer[kind], theirs.get(name, {}).get(kind, "-")) for name, answer in ours.items()]
            report.fact(f"{who} has the same {kind}", (row for row in rows if "-" not in row[1:]), but.get(kind))

    with concurrent.futures.ThreadPoolExecutor() as pool:
        if report.has("llvm-config", shutil.which("llvm-config") and shutil.which("c++")):
            # LLVM 14 knows neither UEFI nor visionOS, nor the TLS of OpenHarmony.
            asked = llvm_asked(folder)
            theirs = {name: {kind: it[kind] for kind in KINDS} for name, it in asked([*parsed]).items()}
            compare("LLVM", parsed, theirs, width=NARROW, format="uefi|visionos", **{"emulated TLS": "ohos"},
                    COMDAT="visionos")
            driver.check_versions(report, [*parsed], asked)
            driver.check_clang(report, asked, folder)
        if report.has("clang", shutil.which("clang")):
            compare("clang", parsed, dict(zip(parsed, pool.map(clang_answer, parsed))), width="gnu_ilp32",
                    sizes="gnu_ilp32")
        report.has("rustc", True)
        specs = rustc_specs()
        theirs = rustc_answers(specs)
        by_llvm_name = {it["llvm"]: {kind: it[kind] for kind in ("order", "width")} for it in theirs.values()}
        theirs = {name: {kind: it[kind] for kind in ("order", "width", "format", "emulated TLS")}
                  for name, it in theirs.items()}
        # rustc doesn't say that this target's objects are Wasm.
        compare("rustc", parsed, theirs, format="wali")
        compare("rustc, of its names for LLVM,", {name: report.read(name) for name in by_llvm_name}, by_llvm_name)
    driver.check(report, list(parsed), specs)
    return report.conclude()
