"""Asks what the Rust crate suggests for edits of one letter and of two letters of each known name, of each name of a
dialect, and of rustc's targets: it must have its place, and keep machine, width, byte order and float ABI. Only letters
are put that some name has there, and three others; of two letters only some edits are asked. With --share N only each
N-th edit is asked, others on each day."""
import datetime
import subprocess

import built
from comparisons.tools import output, rows_of_names

# The triples in which a name is edited: of an architecture, and of each later field on machines that have other ABIs.
FIELDS = {"architecture": ["{}-unknown-none"], "alias": ["{}-unknown-none"],
          "operating_system": ["x86_64-unknown-{}", "armv7-unknown-{}"],
          "environment": [f"{machine}-unknown-linux-{{}}"
                          for machine in ("armv7", "aarch64", "mips64", "powerpc", "riscv64", "x86_64")],
          "binary_format": ["x86_64-unknown-linux-gnu-{}"]}
# What an environment says that only some machines have.
ONLY = {"eabi": "armv7 powerpc", "hf": "armv7", "abi64": "mips64", "x32": "x86_64", "ilp32": "aarch64",
        "spe": "powerpc"}

# More words for machines.
WORDS = {"386": "i386", "x86": "i386", "ia32": "i386", "mipsle": "mipsel", "mips64le": "mips64el",
         "loong64": "loongarch64", "aarch64be": "aarch64_be", "armv7b": "armeb"}


def fits(text, name):
    machine = text.split("-")[0]
    return all(machine in machines for end, machines in ONLY.items() if name.endswith(end))


def names():
    """Each name: its kind, itself, and the triple that it means."""
    for line in open(f"{built.ROOT}/tools/names/names.tsv", encoding="utf-8"):
        field, _, name, *_ = line.split("\t") if "\t" in line else ("", "", "")
        for text in FIELDS.get(field, []):
            text = text.format(name)
            if fits(text, name):
                yield f"field {field}", text, text
    for target in output("rustc", "--print", "target-list").split():
        yield "triple", target, target
    for dialect, name, triple, ways, *_ in rows_of_names():
        if dialect == "first":
            yield "word", name.rstrip("!"), f"{triple}-unknown"
        elif ways in ("r", "w", "rw") and triple != "-" and "*" not in name and dialect not in (
            "second", "hard", "later"):
            yield dialect, name, triple
    yield from (("word", name, f"{machine}-unknown") for name, machine in WORDS.items())


def add_arguments(parser):
    parser.add_argument("--share", metavar="N", type=int, default=1, help="ask each N-th edit, others on each day")


def main(options, _folder):
    program = built.cargo_program("compare", "lines", 2)
    known = output(program, "print", input="".join(f"{triple}\n" for _, _, triple in names())).splitlines()
    # A string that parses is what it prints as, and so is known.
    lines = [f"{kind}\t{name}\t{triple}\n" for (kind, name, triple), it in zip(names(), known)
             if not it.startswith("error: ")]
    first = datetime.date.today().toordinal() % options.share
    ran = subprocess.run([program, "suggestions", str(options.share), str(first)], input="".join(lines), text=True,
                         capture_output=True, check=True)
    print(ran.stdout, end="")
    found = sum(int(line.split()[-2]) for line in ran.stdout.splitlines() if line.endswith(" wrong"))
    return 1 if found or not ran.stdout else 0
