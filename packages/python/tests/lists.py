"""What the test program was given, and the lists of this repository that the tests go by."""
import collections
import importlib.resources
import json
import os
import re
import sys

#: The repository or what an sdist has of it, the shared library, and the folder with the wheel and the sdist; and the
#program `triples`, or None.
ROOT, LIBRARY, BUILT = (os.environ[f"LEXICON_TEST_{it}"] for it in ("ROOT", "LIBRARY", "BUILT"))
PROGRAM = os.environ.get("LEXICON_TEST_PROGRAM") or None
#: The folder of the package, which an sdist has at its top.
PACKAGE = os.path.dirname(os.path.dirname(os.path.abspath(__file__)))


def read(path):
    with open(os.path.join(ROOT, path), encoding="utf-8") as it:
        return it.read()


def other_tools():
    """The table of other tools' names that the package has."""
    return json.loads(importlib.resources.files("target_lexicon").joinpath("names.json").read_text(encoding="utf-8"))


def names():
    """The rows of that table, with the numbers 13 and 2 where it has stars."""
    version = {1: "13.0.0", 2: "13.2.0"}
    rows = other_tools()["names"]
    for row in rows:
        stars, row["name"] = row["name"].count("*"), row["name"].replace("*", "13", 1).replace("*", "2")
        row["triple"] = row["triple"] and row["triple"].replace("*", version.get(stars, "*"))
    Name = collections.namedtuple("Name", rows[0])
    return [Name(**row) for row in rows]


def header_numbers(prefix):
    """The enumerators of the headers that begin so: for each the number."""
    headers = "".join(read(f"packages/c/include/target_lexicon{it}.h") for it in ("", "_values"))
    return {name: int(number) for name, number in re.findall(rf"LEXICON_{prefix}_(\w+) = (\d+)", headers)}


def generated_lines(count):
    """The known triples, and lines that checks/target_lines.py makes."""
    sys.path.append(os.path.join(ROOT, "checks"))
    import target_lines

    known = read("checks/upstream/known_triples.txt").split()
    return known + target_lines.lines(target_lines.table_names(), count - len(known))
