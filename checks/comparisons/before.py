"""Lists for which names `target-lexicon what` answers otherwise than another build of it, such as that of the commit
before: each name of the table and each known triple, and with a letter left out, doubled, swapped or another one. What
differs is in classes, of which each shows ten, or with --all each; read them. The status is 0."""
import collections
import json
import random
import re
import subprocess

import built
from comparisons.tools import rows_of_names

LETTERS = "abcdefghijklmnopqrstuvwxyz0123456789_-."


def add_arguments(parser):
    parser.add_argument("before", metavar="COMMAND", help="the other build")


def edits(name, chance):
    """The edits of one letter, of those with another letter some."""
    for at, letter in enumerate(name):
        yield name[:at] + name[at + 1:]
        yield name[:at] + letter + name[at:]
        yield name[:at] + name[at + 1:at + 2] + letter + name[at + 2:]
        yield name[:at] + chance.choice(LETTERS) + name[at + chance.randrange(2):]


def answers(command, names):
    lines = subprocess.run([command, "what", "--json-lines", "-f", "-"], input="\n".join(names), capture_output=True,
                           text=True).stdout.splitlines()
    for answer in map(json.loads, lines):
        means = [f"{it['canonical']} {it['level'] or ''}".strip() for it in answer.get("meanings", [])]
        known, hint = answer.get("known"), answer.get("suggestion")
        if means:
            yield "means", ", ".join(means)
        elif known:
            yield re.split(" say|[:;]", known)[0], known
        else:
            yield ("hint", hint) if hint else ("unknown", "nothing")


def main(options, _folder):
    chance = random.Random(1)
    names = [row.name for row in rows_of_names() if "*" not in row.name and "," not in row.name]
    names += open(f"{built.ROOT}/checks/upstream/known_triples.txt", encoding="utf-8").read().split()
    asked = dict.fromkeys(it for name in names if name.isascii() for it in (name, *edits(name, chance)))
    asked = [it for it in asked if it.strip() and it[0] not in "#@" and "," not in it]
    classes = collections.defaultdict(list)
    both = [answers(it, asked) for it in (options.before, built.cargo_program("compare", "target-lexicon", 2))]
    for name, before, now in zip(asked, *both):
        if before != now:
            classes[before[0], now[0]].append(f"  {name}: {before[1]} -> {now[1]}")
    print(f"{len(asked)} names, of which {sum(map(len, classes.values()))} differ")
    for (before, now), lines in sorted(classes.items(), key=lambda it: -len(it[1])):
        print(f"{before} -> {now}: {len(lines)}", *lines[:None if options.all else 10], sep="\n")
    return 0
