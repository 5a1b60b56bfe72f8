"""Compares what the Rust crate says of C libraries, floating-point arguments and types of C with what rustc and clang
say, the rules of `linker` with rustc's, versions of macOS with LLVM's, and what the
sample driver in C says of clang's triples with clang."""
import concurrent.futures
import functools
import re
import shutil
import subprocess

import built
from comparisons.tools import output, rustc_specs

# Where clang 14 knows less: visionOS, what `wchar_t` is on UEFI, and that Arm is hard-float by its system or with
# uClibc.
LAYOUTS, FLOATS = "visionos|uefi", "freebsd|3ds|uclibceabihf"
# A compiler of GNU's without GNU's options, and a linker of its own.
LINKERS = "msp430-none-elf|x86_64-unknown-l4re-uclibc"
# Of clang's triples: those of rustc, and these machines with these systems.
MACHINES = ("x86_64 i686 aarch64 armv7",
            "i386 aarch64_be armv6 armeb thumbv7a mips mipsel mips64 mips64el powerpc powerpc64 powerpc64le riscv32 "
            "riscv64 s390x sparc sparc64 m68k")
SYSTEMS = (
    "windows windows-macho unknown-uefi pc-windows-msvc pc-windows-msvc19.33.31629 w64-mingw32 apple-darwin22.6 "
    "apple-macos13.1 apple-ios16.2",
    "linux-gnu none-linux-musl linux-android21 unknown-freebsd14.0 unknown-netbsd9.3 unknown-netbsd-eabihf "
    "unknown-openbsd7.3 unknown-elf")
# Where clang 14 knows less: that ILP32 has narrow pointers, and visionOS. With Mach-O on Windows it has a Mac's types,
# and links as MSVC does. It takes other processors of Arm for the two names of macOS, needs a system to say how frames
# are unwound, and is given Windows for UEFI.
ILP32, SIGNS, LINKED = "gnu_ilp32|x86_64-windows-macho", "xros", "windows-macho"
MACROS = "(aarch64|armv7)-apple-darwin|unknown-unknown|-unknown-elf|-unknown-uefi"
SOURCE = """
int long_double_size = sizeof(long double), long_double_alignment = _Alignof(long double);
int wchar_size = sizeof(__WCHAR_TYPE__), wchar_alignment = _Alignof(__WCHAR_TYPE__);
#ifdef __ARM_PCS_VFP
int is_hard = 1;
#else
int is_hard = 0;
#endif
"""


def library_of_rustc(spec):
    """The C library by the environment of rustc's target, or nothing if that says none."""
    env, system = spec.get("env", ""), spec.get("os", "none")
    if system == "android":
        return "bionic"
    return {"gnu": {"windows": "mingw", "vxworks": "system"}.get(system, "glibc"), "ohos": "musl", "msvc": "msvc",
            "musl": "musl",
            "newlib": "newlib", "relibc": "relibc", "uclibc": "uclibc"}.get(env)


def clang_answer(target):
    text = output("clang", "-target", target, "-x", "c", "-", "-S", "-emit-llvm", "-o", "-", input=SOURCE)
    return dict(re.findall(r"^@(\w+) = .*global i\d+ (\d+)", text, re.M))


def our_answers(targets):
    program = built.cargo_program("compare", "lines", 2)
    lines = output(program, "driver", input="".join(f"{target}\n" for target in targets)).splitlines()
    return {target: line.split() for target, line in zip(targets, lines, strict=True)}


def check_versions(report, targets, asked):
    """Compares the versions of macOS. `asked` returns what LLVM says of each string."""
    systems = [f"darwin{major}{minor}" for major in range(1, 25)
               for minor in ("", ".6")] + [f"macosx{version}" for version in ("10.7", "10.15.7", "11", "15.2")]
    ours = our_answers([*targets, *(f"x86_64-apple-{it}" for it in systems)])
    theirs = asked([*ours])
    report.fact("LLVM's version of macOS is the same",
                ((string, it[9], theirs[string]["version of macOS"]) for string, it in ours.items()
                 if theirs[string]["machine"] != "-"))


@functools.cache
def macros_of(target):
    """The macros that clang defines; none if it doesn't know the target."""
    ran = subprocess.run(["clang", "-target", target, "-dM", "-E", "-x", "c", "/dev/null"], capture_output=True,
                         text=True, check=False)
    return dict(re.findall(r"^#define (\S+) ?(.*)", ran.stdout, re.M)) if ran.returncode == 0 else {}


def clang_facts(target):
    """What the sample driver says of a target, from clang itself."""
    macros = macros_of(target)
    if "__BYTE_ORDER__" not in macros:
        return None
    linked = subprocess.run(["clang", "-target", target, "-###", "-x", "c", "/dev/null", "-o", "it"],
                            capture_output=True, text=True, check=False).stderr
    size = {name: macros[f"__SIZEOF_{name.upper()}__"] for name in ("int", "long", "pointer")}
    return {"C types": "int {int}, long {long}, pointer {pointer} bytes".format(**size),
            "char": "unsigned" if "__CHAR_UNSIGNED__" in macros else "signed",
            "linker": linker_of(linked), "macros": macros}


def linker_of(linked):
    """LLVM's linker with the interface of that which clang calls; the empty string if another compiler links."""
    last = linked.strip().splitlines()[-1]
    forms = {"lld-link": '"-out:', "wasm-ld": "wasm-ld",
             "ld64.lld": '"-platform_version"|"-macosx_version_min"|"-arch" "', "": r'^\s*"[^"]*(gcc|cc)"',
             "ld": '"-bpT:|-b(?:32|64)"'}
    return next((name for name, form in forms.items() if re.search(form, last)), "ld.lld")


def check_clang(report, asked, folder):
    """Asks the sample driver in C, as one passes -target to it, and clang, of the same triples. `asked` returns what
    LLVM says of each."""
    if not report.has("clang", shutil.which("clang")):
        return
    subprocess.run(["cc", "-std=c99", f"{built.ROOT}/packages/c/samples/driver.c", f"-I{report.tree}/include",
                    f"{report.tree}/lib/libtarget_lexicon.a",
                    "-o", f"{folder}/driver"], check=True)
    everywhere = f"{MACHINES[0]} {MACHINES[1]}".split()
    triples = sorted({it["llvm-target"] for it in rustc_specs().values()}
                     | {f"{it}-{of}" for it in MACHINES[0].split() for of in SYSTEMS[0].split()} |
                     {f"{it}-{of}" for it in everywhere for of in SYSTEMS[1].split()})
    ours = {}
    for triple in triples:
        said = output(f"{folder}/driver", triple)
        if not said.startswith("error: "):
            ours[triple] = {key.strip(): value.strip() for key, value in re.findall(r"^  (.{8}) (.*)", said, re.M)}
    versions = asked([*ours])
    with concurrent.futures.ThreadPoolExecutor() as pool:
        theirs = {triple: it for triple, it in zip(ours, pool.map(clang_facts, ours)) if it}
        for_llvm = dict(zip(theirs, pool.map(lambda it: macros_of(ours[it]["for LLVM"]), theirs)))
    report.fact(f"the driver in C answers of {len(theirs)} of clang's {len(triples)} triples, of 300 at least",
                [(len(theirs) >= 300, True)])
    for kind, but in {"C types": ILP32, "char": SIGNS, "linker": LINKED}.items():
        answered = [(triple, ours[triple].get(kind, "-"), it[kind]) for triple, it in theirs.items() if kind != "linker"
                    or it[kind]]
        report.fact(f"and clang has the same {kind}", (row for row in answered if row[1] != "-"), but)
    report.fact("clang defines the same macros for the string for LLVM, where it drops no version", (
        (triple, sorted(name for name in {*it["macros"], *for_llvm[triple]}
                        if it["macros"].get(name) != for_llvm[triple].get(name))[:5], [])
        for triple, it in theirs.items() if versions[triple]["version"] == "-"
        and ("apple" in triple or versions[triple]["system"] == "-")), MACROS)


def check(report, targets, specs):
    """`specs` are rustc's descriptions of the targets."""
    ours = our_answers(targets)
    libraries = {target: library_of_rustc(specs[target]) for target in ours}
    report.fact("the C library is that of rustc's environment", (
        (target, it[0], libraries[target]) for target, it in ours.items() if libraries[target]))
    report.fact("and is the system's own, or not stated, where rustc has none", (
        (target, it[0] in ("system", "-"), True) for target, it in ours.items() if not libraries[target]))
    arm = {target for target in ours if specs[target]["arch"] == "arm"}
    report.fact("rustc passes floating-point arguments in the same way on Arm", (
        (target, ours[target][1], specs[target].get("llvm-floatabi")) for target in arm if ours[target][1] != "-"))
    report.fact("rustc's linker has the interface of the example", (
        (target, it[6], specs[target].get("linker-flavor", "gnu-cc").split("-")[0]) for target, it in ours.items()),
                LINKERS)
    report.fact("and its programs have the same names", (
        (target, it[7], f"program{specs[target].get('exe-suffix', '')}") for target, it in ours.items()))
    report.fact("and LLVM gets the same string", ((target, it[8], specs[target]["llvm-target"])
                                                  for target, it in ours.items()))
    if not report.has("clang", shutil.which("clang")):
        return
    with concurrent.futures.ThreadPoolExecutor() as pool:
        theirs = {target: it for target, it in zip(ours, pool.map(clang_answer, ours)) if it}
    report.fact("clang passes floating-point arguments in the same way on Arm", (
        (target, ours[target][1], ("soft", "hard")[int(theirs[target]["is_hard"])])
        for target in arm & {*theirs} if ours[target][1] != "-"), FLOATS)
    for i, kind in enumerate(("long_double", "wchar")):
        report.fact(f"clang has the same size and alignment of {kind}", (
            (target, ours[target][2 + 2 * i:4 + 2 * i], [it[f"{kind}_size"], it[f"{kind}_alignment"]])
            for target, it in theirs.items() if ours[target][2 + 2 * i] != "-"), LAYOUTS)
