"""Upstream's answers that checks/upstream/answers.tsv keeps. Each row has a kind, what was asked, and what program.rs
answers, with tabs between them. Of the kind `all` what was asked is the architecture: with all systems, environments
and formats that are words of the file. Of the kind `order` it is a field: in which order the names that are words are
declared, which no definition says."""
import re
from collections import namedtuple
from pathlib import Path

PATH = Path(__file__).resolve().parents[1] / "answers.tsv"
Row = namedtuple("Row", "kind asked answer")
FIELDS = ("architecture", "vendor", "operating_system", "environment", "binary_format")


def rows():
    with PATH.open(encoding="utf-8", newline="\n") as file:
        return [Row(*line.rstrip("\n").split("\t", 2)) for line in file if not line.startswith("#")]


def values(of, field):
    """The words of these rows that are names of a field, by its number, without a version; with the value of each."""
    found = {it.asked: it.answer.split("\t")[field] for it in of if it.kind == "word"}
    return {word: value for word, value in found.items() if value != "-" and not re.search(r"Some\(|Custom\(", value)}


def lines(of):
    """The lines of the input of these rows."""
    takes_all = any(it.kind in ("all", "order") for it in of)
    names = [" ".join(values(of, field)) if takes_all else "" for field in range(len(FIELDS))]
    taken = {"all": lambda _: names[2:], "order": lambda field: [names[FIELDS.index(field)]]}
    return ["\t".join([it.kind, it.asked, *taken.get(it.kind, lambda _: [])(it.asked)]) for it in of]
