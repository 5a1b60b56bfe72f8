"""Counts with valgrind the instructions and the mispredicted branches of each row of docs/speed.tsv, here and in
upstream's crate, and times each call.

Lines are 20,000 of rustc's targets in turn, or the same with an `x` at the end; upstream's program writes straight into
its output. The calls are those of speed.rs, with these targets in an order by chance; a refused field is one of theirs
with an `X` at the end. On x86-64 both are compiled with no branch across 32 bytes: on some processors such a branch
takes longer. How long equal code takes still differs by where the linker puts it, by half where that is a nanosecond.
So with `--store` nanoseconds are medians of programs whose functions and tables the linker shuffles, and the figures
are written into the file; then run tools/pictures/speed. Its last line names the calls that take more than 1.05 of
upstream's time and a tenth of a nanosecond. The status is 1 if a query takes more instructions than upstream's.
"""
import functools
import os
import platform
import random
import re
import shutil
import statistics
import subprocess

import built
from upstream import crates

LINES = 20000
LAYOUTS = 9
FIGURES = f"{built.ROOT}/docs/speed.tsv"


def add_arguments(parser):
    parser.add_argument("parts", nargs="*", metavar="PART",
                        help="the parts that are counted, such as `query`, if not all")
    parser.add_argument("--store", action="store_true")


@functools.cache
def counted(command, path):
    """The instructions and the mispredicted branches of a program, and what it prints."""
    with open(path, "rb") as given:
        ran = subprocess.run(["valgrind", "--tool=callgrind", "--branch-sim=yes", "--callgrind-out-file=/dev/null",
                              *command], stdin=given, capture_output=True)
    count, missed = (re.search(pattern, ran.stderr) for pattern in (rb"Collected : (\d+)", rb"Mispredicts: +([\d,]+)"))
    if ran.returncode or not count or not missed:
        raise RuntimeError(f"valgrind doesn't run {command}: {ran.stderr[-300:]}")
    return int(count[1]), int(missed[1].replace(b",", b"")), ran.stdout


def of_line(command, path):
    return [number / LINES for number in counted(tuple(command), path)[:2]]


def of_call(program, who, call, path):
    """The same of a call, without what the program itself takes."""
    *own, _ = counted((program, who, "none"), path)
    *numbers, calls = counted((program, who, call), path)
    return [(number - other) / int(calls) for number, other in zip(numbers, own)]


def in_layouts(upstream, folder, flags):
    """Programs as `speed` is, in each of which the linker puts functions and tables in another order."""
    for seed in range(1, LAYOUTS + 1):
        crates.cargo(upstream, "rustc", "--release", "--bin=speed", "--", f"-Clink-arg=-Wl,--shuffle-sections=*={seed}",
                     flags=flags)
        yield shutil.copy(crates.program_path("speed"), f"{folder}/speed{seed}")


def times_of_call(programs, who, call, path):
    found = []
    for program in programs:
        with open(path, "rb") as given:
            ran = subprocess.run([program, "times", who, call], stdin=given, check=True, capture_output=True, text=True)
        found.append([float(it) for it in ran.stdout.split()])
    return [statistics.median(it) for it in zip(*found)]


def main(options, folder):
    head, *rows = [line.split("\t") for line in crates.read(FIGURES).splitlines() if not line.startswith("#")]
    rows = [dict(zip(head, row, strict=True)) for row in rows]
    targets = subprocess.run(["rustc", "--print", "target-list"], check=True, capture_output=True,
                             text=True).stdout.splitlines()
    lines = (targets * (LINES // len(targets) + 1))[:LINES]
    for end in "", "x":
        crates.write(f"{folder}/lines{end}", "".join(f"{line}{end}\n" for line in lines))
    shuffled = random.Random(1).sample(targets, len(targets))
    crates.write(f"{folder}/targets", "".join(f"{line}\n" for line in shuffled))
    flags = f"-L native={os.path.realpath(built.c_library(folder))}/lib -l static=target_lexicon"
    if platform.machine() == "x86_64":
        flags += " -C llvm-args=--x86-branches-within-32B-boundaries"
    layouts = list(in_layouts(options.upstream, folder, flags)) if options.store else []
    with_calls, lines_of = crates.rust_program(options.upstream, "speed",
                                                 flags), crates.rust_program(options.upstream, "lines_upstream")
    status, dearer = 0, []
    for row in rows:
        part, call = row["part"], row["call"].replace("`", "")
        if options.parts and part not in options.parts:
            continue
        ours = "kit" if part == "program" else "cargo"
        if part in ("program", "Rust"):
            path = f"{folder}/lines{'x' if 'x' in row['lines'] else ''}"
            program = built.program("compare", "triples",
                                    2) if part == "program" else crates.rust_program(options.upstream, "lines_ours")
            numbers = of_line([program, call], path)
            theirs = row["upstream"] != "-" and of_line([lines_of, call], path)
        else:
            call += f", {row['lines']}" if part != "C" and row["lines"] != "targets" else ""
            who = "c" if part == "C" else "ours"
            numbers = of_call(with_calls, who, call, f"{folder}/targets")
            theirs = row["upstream"] != "-" and of_call(with_calls, "upstream", call, f"{folder}/targets")
            if theirs:
                times = times_of_call(layouts or [with_calls], who, call, f"{folder}/targets")
                row["ns"], row["upstream_ns"] = [f"{it:.1f}" for it in times]
                dearer += [call] * (times[0] > 1.05 * times[1] + 0.1)
        row[ours] = f"{numbers[0]:.0f}"
        found = {"missed": numbers[1]} | ({"upstream_missed": theirs[1]} if theirs else {})
        row.update({column: f"{number:.1f}" for column, number in found.items() if row[column] != "-"})
        if theirs:
            row["upstream"] = f"{theirs[0]:.0f}"
            status |= part == "query" and round(numbers[0]) > round(theirs[0])
        print(*row.values(), sep="\t", flush=True)
    if options.store:
        print("more than 1.05 of upstream's time:", "; ".join(dearer) or "none")
        comments = [line for line in crates.read(FIGURES).splitlines() if line.startswith("#")]
        crates.write(FIGURES, "".join(f"{line}\n" for line in [
            *comments, "\t".join(head), *("\t".join(row.values()) for row in rows)]))
    return int(status)
