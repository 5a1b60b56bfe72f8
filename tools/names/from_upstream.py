"""What upstream's answers say that the table of names has: its values and their rules, read from the answers to words,
and to strings with a name in each place that tells a rule. So no cell is both the source of the definitions and their
only witness: tools/names/write takes no table that checks/upstream/answers.tsv contradicts, and tools/port asks another
crate.
"""
import functools
import re
import sys
from collections import namedtuple
from pathlib import Path

sys.path.append(str(Path(__file__).resolve().parents[2] / "checks"))
from upstream.extracted import kept
from names_table import FIELDS, RULES, UPSTREAM

# What the answers don't say is added there first.
NOT_KNOWN = "# `{}` isn't among the answers of RULES in tools/names/names_table.py, where it comes first"

# Strings with a name of a field, whose answers say the rules of the name.
PROBES = {
    "architecture": ("{}-unknown-linux", "{}-unknown-unknown", "{}-unknown-none"),
    "vendor": ("x86_64-{}-linux",),
    "operating_system": ("x86_64-unknown-{}", "wasm32-unknown-{}", "armv7a-unknown-{}", "x86_64-unknown-{}-eabi",
                         "x86_64-unknown-{}-android"),
    "environment": ("x86_64-unknown-linux-{}", "x86_64-unknown-none-{}", "x86_64-unknown-wasi-{}",
                    "x86_64-unknown-unknown-{}-elf", "i686-unknown-linux-{}"),
    "binary_format": ("x86_64-unknown-linux-gnu-{}",),
}
Answer = namedtuple("Answer", "format printed order width convention model")


class Answers:
    """Upstream's answers, by the kind and the text of a question; `ask` has those to questions that aren't there."""

    def __init__(self, rows, ask=lambda questions: ()):
        self.ask, self.found = ask, {}
        self.add(rows)

    def add(self, rows):
        self.found |= {it[:2]: it.answer.split("\t") for it in rows}

    @functools.cache
    def words(self, field):
        """The words that are names of a field, by its number, each with its family, or none, and its variant. One with
        a version is left out."""
        read = ((text, family_and_variant(said[field])) for (kind, text), said in self.found.items() if kind == "word")
        return {text: value for text, value in read if value}

    def order(self, field):
        """The names of a field in the order of their declarations."""
        return self.found.get(("order", field), [""])[0].split()

    def before(self, field, name):
        names = self.order(field)
        return names[names.index(name) - 1]

    @functools.cache
    def probe(self, field, name):
        """What prints in the place of a name, its rules, and a string that is asked for these and has no answer."""
        strings = [("string", it.format(name)) for it in PROBES[field]]
        self.add(self.ask([it for it in strings if it not in self.found]))
        missing = next((text for kind, text in strings if (kind, text) not in self.found), "")
        said = [] if missing else [self.found[it] for it in strings]
        return said and said[0][5].split("-")[0], said and rules_there(field, name, said), missing


def probes(answers):
    """The strings that are asked of all names of upstream's."""
    return [it.format(word) for at, field in enumerate(FIELDS) for word in answers.words(at) for it in PROBES[field]]


@functools.cache
def family_and_variant(value):
    """The family, or none, and the variant of a value without a version, as `{:?}` shows it; nothing of any other."""
    shown = re.fullmatch(r"(\w+)(?:\((\w+)\))?", value)
    if not shown:
        return None
    if shown[2] == "None":
        return "Darwin", shown[1]
    return (shown[1], shown[2]) if shown[2] else ("", shown[1])


def rules_there(field, name, said):
    """The rules of a name that the answers to its probes say."""
    of = [Answer(format.lower(), printed.split("-"), *rest[:4]) for _, _, _, _, format, printed, *rest in said]
    omits = [it.printed[1] != "unknown" or name not in (it.printed[0], *it.printed[2:]) for it in of]
    known = lambda answer: "none" if answer == "-" else answer
    shown = lambda is_shown: "shown" if is_shown else "omitted"
    if field == "architecture":
        linux, unknown, none = of
        return {"order": known(linux.order.lower()), "width": known(linux.width.lstrip("U")), "format": unknown.format,
                "implied": shown(unknown.format in ("unknown", unknown.printed[-1])),
                "convention": known(unknown.convention), "vendor": shown(none.printed[1] != "none"),
                "system": shown(unknown.printed[1:3] == ["unknown", "unknown"])}
    if field == "operating_system":
        there, wasm, arm, eabi, _ = of
        by_field = "by_environment" if there.format != eabi.format else "by_architecture"
        vendors = ["omitted"] * omits[0] + ["by_architecture"] * omits[2] + ["by_environment"] * omits[4]
        return {"format": there.format if there.format == wasm.format == eabi.format else by_field,
                "convention": known(there.convention) if there.convention == wasm.convention else "by_architecture",
                "model_64": "LLP64" if there.model == "LLP64" else "by_convention",
                "model_32": "ILP32" if arm.model == "ILP32" and arm.convention != "SystemV" else "by_convention",
                "vendor": [*vendors, "shown"][0]}
    if field == "environment":
        linux, none, wasi, unknown, small = of
        width = {("U64", "U32"): "by_architecture"}.get((linux.width, small.width), small.width.lstrip("U"))
        vendors = ["omitted"] * (linux.printed[1] != "unknown") + ["shown"] * (wasi.printed[1] == "unknown")
        return {"width": width, "format": none.format,
                "vendor": [*vendors, "by_system"][0], "implied": shown("elf" in unknown.printed)}
    return {}


def wanted_lines(answers, values, specials):
    """The lines of the table for what only the answers have, or have with other rules; and what of the table they
    contradict."""
    strings = [text for kind, text in answers.found if kind == "string"]
    for at, field in enumerate(FIELDS):
        theirs = answers.words(at)
        ours = {it.name: it for it in values if it.field == field or field == "architecture" and it.field == "alias"}
        number = sum(it.field == field for it in ours.values())
        for word, (family, variant) in sorted(theirs.items()):
            own, rules, missing = answers.probe(field, word)
            rules = {} if family == "Darwin" else rules
            if missing:
                yield f"# nothing is answered to `{missing}`: `checks/compare answers --write` asks it"
            elif field == "architecture" and own != word:
                if word not in ours:
                    about = f"Parsed as `{own}`, and never printed."
                    yield from lines_of("alias", variant, word, "", family, about, {})
                elif ours[word].field != "alias":
                    yield f"# `{word}` is an alias of `{own}` there"
            elif word not in ours:
                yield f"# declared after `{answers.before(field, word)}`:"
                yield from lines_of(field, variant, word, str(number), family, "WHAT IT IS.", rules)
                number += 1
            elif rules != ours[word].rules:
                yield from lines_of(field, variant, word, ours[word].number, family, ours[word].about, rules)
        declared = [it for it in answers.order(field) if it in ours and ours[it].field != "alias"]
        if declared != [it for it in ours if it in declared]:
            yield f"# the lines of the {field} are in another order there: {' '.join(declared)}"
        for name, it in ours.items():
            family, variant = theirs.get(name, ("", "no name"))
            is_asked = ("word", name) in answers.found or it.number and int(it.number) < UPSTREAM[field][0]
            if is_asked and (family, variant) != (it.family, it.variant):
                yield f"# `{name}` of the {field} {it.variant} is {variant} there"
    yield from special_lines(answers, strings, values, specials)


def special_lines(answers, strings, values, specials):
    """The lines for strings of which vendor or system are none of their parts."""
    names = {(field, *value): word for at, field in enumerate(FIELDS) for word, value in answers.words(at).items()}
    names |= {(it.field, it.family, it.variant): it.name for it in values if it.field != "alias"}
    ours, theirs = {"\t".join([it[0], *(of.name for of in it[1:])]) for it in specials}, set()
    for text in strings:
        said = answers.found["string", text]
        if len(said) < 3:
            continue
        fields = [names.get((field, *found)) if (found := family_and_variant(value)) else None
                  for field, value in zip(FIELDS, said)]
        if [name for name in fields[1:3] if name and name != "unknown" and name not in text.split("-")]:
            theirs.add("\t".join([text, *map(str, fields[:3])]))
    yield from (f"special\t{it}" for it in sorted(theirs - ours))
    yield from (f"# there it isn't: special\t{it}" for it in sorted(ours - theirs))


def lines_of(field, variant, name, number, family, about, rules):
    """The line of the table, with the rules whose answer isn't the default, after those that the table can't have."""
    words = {f"{rule}={answer}": answer in RULES[field][rule] for rule, answer in rules.items()
             if answer != RULES[field][rule][0]}
    yield from (NOT_KNOWN.format(word) for word, is_known in words.items() if not is_known)
    words = " ".join(word for word, is_known in words.items() if is_known)
    yield "\t".join([field, variant, name, number, family, about, words]).rstrip("\t")


def faults(values, specials):
    """What of the table the kept answers contradict."""
    return [f"names.tsv: upstream's answers, which checks/upstream/answers.tsv keeps, say otherwise: {it}"
            for it in wanted_lines(Answers(kept.rows()), values, specials)]
