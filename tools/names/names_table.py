"""The table of names, tools/names/names.tsv: its values by field and by Rust type, what is wrong in it, columns of
lines, and words in lines."""
import hashlib
import re
from collections import namedtuple
from pathlib import Path

TYPES = {"vendor": "KnownVendor", "operating_system": "OperatingSystem", "environment": "Environment",
         "binary_format": "BinaryFormat"}
FIELDS = ("architecture", *TYPES)

TABLE, ANSWERS = (Path(__file__).with_name(it) for it in ("names.tsv", "answers.tsv"))
# A name has the form of a vendor (`has_vendor_form` in specs/Vendor.antt), so it has no dash (`is_dash_free`).
NAME = re.compile(r"[a-z][a-z0-9_.]*")
VARIANT = re.compile(r"[A-Z][A-Za-z0-9_]*")
SPECIAL = re.compile(r"[a-z0-9_.]+(-[a-z0-9_.]+)+")
LONGEST_SPECIAL = 255
# So much longer may an alias print, with an implied format.
ALIAS_GROWTH = 6
# The one whose parts parse as a triple with a custom vendor, which the exception `PrintsTheEspIdfString` is about.
WITH_CUSTOM_VENDOR = "riscv32imc-esp-espidf"
# How many values of a field the table first had, and a checksum of their names, in the order of their numbers.
UPSTREAM = {"architecture": (107, "a141708f0cf0b4e1"), "vendor": (15, "35e14047bd8121b2"),
            "operating_system": (40, "03073d1aaf018aed"),
            "environment": (35, "c4961a463ba6aac0"), "binary_format": (6, "4a7f083dc9f45cae")}

# The rules of a field, which are what follows from a value alone, each with its answers. The default is the first one.
# `by_architecture` and `by_environment` say that the value of that field has the answer.
# ELF is a default, and Mach-O what systems like Darwin imply.
FORMATS = tuple(it for it in re.findall(r"^binary_format\t\w+\t(\S+)", TABLE.read_text(encoding="utf-8"), re.M)
                if it not in ("elf", "macho"))
# Only systems like Darwin have Apple's convention.
CONVENTIONS = tuple(it for it in re.findall(r"^calling_convention\t(\w+)", ANSWERS.read_text(encoding="utf-8"), re.M)
                    if it != "AppleAarch64")
RULES = {
    "architecture": {
        "order": ("little", "big", "none"), "width": ("64", "32", "16", "none"), "format": ("elf", *FORMATS),
        "convention": ("none", *CONVENTIONS), "vendor": ("shown", "omitted"), "implied": ("shown", "omitted"),
        "system": ("shown", "omitted")},
    "operating_system": {
        "format": ("elf", *FORMATS, "by_architecture", "by_environment"),
        "convention": ("none", *CONVENTIONS, "by_architecture"),
        "model_64": ("by_convention", "LLP64"), "model_32": ("by_convention", "ILP32"),
        "vendor": ("shown", "omitted", "by_architecture", "by_environment")},
    "environment": {
        "width": ("by_architecture", "32"), "format": ("unknown", "elf", *FORMATS[1:]),
        "vendor": ("by_system", "omitted", "shown"), "implied": ("shown", "omitted")},
}

# A line of the table, in which an alias has no number; a variant of a Rust type, with the type of its field, if it has
# one; and a Rust type, with its name in definitions, its variants, and those of them without and with a field.
Value = namedtuple("Value", "field variant name number family about rules")
Variant = namedtuple("Variant", "variant name holds about")
Type = namedtuple("Type", "name word variants plain held")
# A family of architectures, as the variant of `Architecture` and as a word, and what one of its members is.
Family = namedtuple("Family", "variant word about")
# A special string, with the values of its first three fields.
Special = namedtuple("Special", "text architecture vendor operating_system")

COLUMNS = 118


class Mistake(Exception):
    """What is wrong with a line, and what it should be."""


def columns(line, names, least=0, more=False):
    """The columns of a line, or those that are split already. `names` says what they are, and only the first `least`
    must be there, or all; `more` may follow."""
    found = line if isinstance(line, list) else line.split("\t")
    if not (least or len(names)) <= len(found) or len(found) > len(names) and not more or "" in found[:1]:
        raise Mistake(f"a line has {', '.join(names)}, with tabs between them: this one has {len(found)} "
                      f"column{'s' * (len(found) != 1)}")
    return found


def read_lines(name, text, wrong, read):
    """Reads each line of a file, and notes what is wrong with one, after its place."""
    for number, line in enumerate(text.splitlines(), 1):
        try:
            read(line)
        except Mistake as mistake:
            wrong.append(f"{name}:{number}: {mistake}")


def table_of(text):
    """The values of the table, those of a field in the order of upstream's declarations, its special strings, its
    families of architectures, and what is wrong in it."""
    values, specials, families, wrong = [], [], [], []

    def read(line):
        if line.startswith("special\t"):
            specials.append(special_of(values, specials, line))
        elif line.startswith("family\t"):
            families.append(family_of(families, line))
        elif not line.startswith("#"):
            add_value(values, families, line)
    read_lines("names.tsv", text, wrong, read)
    wrong = wrong or [f"names.tsv: {it}" for it in number_faults(values)]
    wrong = wrong or [f"names.tsv: the family `{it.variant}` has no architecture" for it in families
                      if it.variant not in {of.family for of in values}]
    wrong = wrong or [f"names.tsv: {fault}, and `{law}` has no case for it: it needs a new one"
                      for fault, law in law_faults(values)]
    return values, specials, families, wrong


def family_of(earlier, line):
    """The family of a line."""
    _, variant, word, _, _, about = columns(line, ["family", "a variant", "the same in lower case", "nothing",
                                                   "nothing", "what one of its architectures is"])
    if not VARIANT.fullmatch(variant) or word != variant.lower() or not re.fullmatch(r"An? .*\.", about):
        raise Mistake(f"`{variant}` is no variant, `{word}` isn't it in lower case, or what an architecture of it is "
                      "doesn't begin with `A` and end with a dot")
    if variant in [it.variant for it in earlier]:
        raise Mistake(f"the family `{variant}` is there twice")
    return Family(variant, word, about)


def special_of(values, earlier, line):
    """The special string of a line, whose values are in earlier lines."""
    _, text, *names = columns(line, ["special", "a string", "an architecture", "a vendor", "an operating system"])
    fields = ("architecture", "vendor", "operating_system")
    known = [{it.name: it for it in values if it.field == field} for field in fields]
    for field, name, of in zip(fields, names, known):
        if name not in of or name in ("unknown", "none") or of[name].family == "Darwin":
            raise Mistake(f"`{name}` is no {field.replace('_', ' ')} of an earlier line, or it is `unknown`, `none` or "
                          "has a version")
    row = Special(text, *(of[name] for name, of in zip(names, known)))
    if not SPECIAL.fullmatch(text):
        raise Mistake(f"the string `{text}` isn't made of names and dashes")
    for fault, law in special_faults(row, values):
        raise Mistake(f"the string `{text}` {fault}, and the law `{law}` has no case for it: it needs a new one")
    if text in [it.text for it in earlier] or row[1:] in [it[1:] for it in earlier]:
        raise Mistake(f"the string `{text}`, or its triple, is there twice")
    return row


def special_faults(row, values):
    """What laws don't allow of a special string, with the first of these laws."""
    names = "-".join(it.name for it in row[1:])
    if len(row.text) > min(len(names), LONGEST_SPECIAL):
        yield f"is longer than `{names}` or {LONGEST_SPECIAL} bytes", "printed_strings_grow_at_most"
    if row.architecture.rules["width"] != "32":
        yield f"has the architecture `{row.architecture.name}`, whose pointers don't have 32 bits", "queries_kept"
    if row.operating_system.rules["format"] != "elf":
        yield f"has the system `{row.operating_system.name}`, which doesn't imply ELF", "round_is_normal_step"
    known = {field: {it.name for it in values if it.field == field} for field in FIELDS}
    first, second, *others = row.text.split("-")
    is_custom = second not in set().union(*known.values()) and re.match("[a-z]", second)
    others_parse = all(it in set().union(*(known[field] for field in FIELDS[2:])) for it in others)
    if first in known["architecture"] and is_custom and others_parse and row.text != WITH_CUSTOM_VENDOR:
        yield f"parses by its parts too, with the custom vendor `{second}`", "round_is_normal_step"


def law_faults(values):
    """What laws and contracts don't allow of the rules, with the first of these."""
    rules = {(it.field, it.name): it.rules for it in values if it.field != "alias"}
    machines = {it.name: it.rules for it in values if it.field == "architecture"}
    no_system, unknown_system = rules["operating_system", "none"], rules["operating_system", "unknown"]
    none, unknown, newlib = (rules["environment", it] for it in ("none", "unknown", "newlib"))
    for name, of in machines.items():
        for rule, call in (("order", "endianness"), ("width", "pointer_width")):
            if (of[rule] == "none") != (name == "unknown"):
                yield f"`{name}` has {rule}={of[rule]}, but just `unknown` has none", f"Architecture::{call}"
    if unknown_system["vendor"] != "shown":
        yield "the system `unknown` omits an unknown vendor, whose name parses as a vendor", "round_is_normal_step"
    if unknown["width"] != newlib["width"]:
        yield "the environments `unknown` and `newlib` have different widths", "queries_kept"
    for name, of in machines.items():
        if of["system"] == "shown":
            continue
        convention = lambda system: of["convention"] if system["convention"] == "by_architecture" else system["convention"]
        if convention(unknown_system) != convention(no_system) or none["width"] != unknown["width"] or any(
                unknown_system[it] != no_system[it] for it in ("model_64", "model_32")):
            yield (f"`{name}` omits an unknown system, and its queries differ with the system `none`", "queries_kept")
        if "omitted" in (of["implied"], none["implied"]) and of["format"] != "unknown":
            yield (f"`{name}` omits an unknown system, and with the environment `none` its implied format",
                   "round_is_normal_step")
        if (no_system["format"], unknown["format"]) != ("by_environment", "unknown"):
            yield f"`{name}` omits an unknown system, and the system `none` implies a format", "round_is_normal_step"
    for it in values:
        aliased = next((of for of in values if (of.variant, of.family) == (it.variant, it.family)), it)
        of = aliased.rules.get("format") if it.field == "alias" else None
        if of and len(aliased.name) + len(f"-{of}") * (of != "unknown") > len(it.name) + ALIAS_GROWTH:
            yield f"`{it.name}` prints more than {ALIAS_GROWTH} bytes longer", "printed_strings_grow_at_most"


def add_value(earlier, families, line):
    """Adds the value of a line to the earlier ones. Its family is one of those."""
    cells = columns(line, ["a field", "a variant", "a name", "a number", "a family", "what it is", "rules"], 4)
    value = Value(*cells, *[""] * (7 - len(cells)))
    value = value._replace(rules=rules_of(value))
    is_architecture = value.field in ("architecture", "alias")
    names = ("architecture", "alias") if is_architecture else (value.field,)
    is_there = (value.variant, value.family) in [(it.variant, it.family) for it in earlier if it.field == names[0]]
    if value.field not in (*FIELDS, "alias"):
        raise Mistake(f"`{value.field}` is no field: {', '.join(FIELDS)} or alias")
    if not NAME.fullmatch(value.name):
        raise Mistake(f"the name `{value.name}` has a character that no name may have: it begins with a-z, and has "
                      "a-z, 0-9, `_` and `.`")
    if not VARIANT.fullmatch(value.variant):
        raise Mistake(
            f"`{value.variant}` is no variant: it begins with a capital letter, and has letters, digits and `_`")
    if value.family and not (is_architecture and value.family in [it.variant for it in families]
                             or (value.field, value.family) == ("operating_system", "Darwin")):
        raise Mistake(f"`{value.family}` is no family of the field: one of architectures has an earlier line `family`")
    if value.name in [it.name for it in earlier if it.field in names]:
        raise Mistake(f"the name `{value.name}` is there twice")
    if is_there != (value.field == "alias"):
        raise Mistake(f"the variant `{value.variant}` is in the field twice" if is_there
                      else "the alias comes before its architecture")
    earlier.append(value)


def rules_of(value):
    """The answer of a value to each rule of its field."""
    known, found = {} if value.family == "Darwin" else RULES.get(value.field, {}), {}
    for word in value.rules.split():
        rule, _, answer = word.partition("=")
        if rule in found or answer not in known.get(rule, ())[1:]:
            raise Mistake(f"`{word}` is there twice, or is no rule of the field with an answer other than the default: "
                          "RULES in names_table.py has them; a system like Darwin has none")
        found[rule] = answer
    return {rule: found.get(rule, answers[0]) for rule, answers in known.items()}


def number_faults(values):
    """What is wrong with the numbers of a field."""
    for field in FIELDS:
        of_field = {it.number: it.name for it in values if it.field == field}
        wanted = [str(it) for it in range(sum(it.field == field for it in values))]
        if of_field.keys() != set(wanted):
            free = ", ".join(it for it in wanted if it not in of_field)
            yield (f"the numbers of the field `{field}` are 0 to {wanted[-1]}, each once, and none has {free}: a new "
                   "value has the last of these")
            continue
        count, checksum = UPSTREAM[field]
        if hashlib.sha256(" ".join(map(of_field.get, wanted[:count])).encode()).hexdigest()[:16] != checksum:
            yield f"one of the first {count} names of the field `{field}`, or its number, has changed"


class Table:
    """The values by field, in the order of their numbers, and by Rust type, in that of their declarations."""

    def __init__(self, values, specials, families):
        self.values, self.specials, self.families = values, specials, families
        declared = {field: [it for it in values if it.field == field] for field in (*FIELDS, "alias")}
        self.field = {field: sorted(of, key=lambda it: int(it.number or 0)) for field, of in declared.items()}
        self.types = {}
        self.add("Architecture", "architecture", architectures(declared["architecture"]))
        self.members = {family: [it for it in declared["architecture"] if it.family == family.variant]
                        for family in families}
        for family, members in self.members.items():
            self.add(f"{family.variant}Architecture", family.word, variants_of(members))
        for field, name in TYPES.items():
            self.add(name, "known_vendor" if field == "vendor" else field, variants_of(declared[field]))
        self.add("Vendor", "vendor", variants_of(declared["vendor"]))

    def add(self, name, word, variants):
        held = [it for it in variants if it.holds]
        self.types[name] = Type(name, word, variants, [it for it in variants if not it.holds], held)


def architectures(values):
    """A variant for each architecture without a family, and one for each family, in the order of their first lines."""
    found = {}
    for it, plain in zip(values, variants_of(values)):
        sub = f"{it.family}Architecture"
        variant = Variant(it.family, "", sub, f"One of the architectures of [`{sub}`].") if it.family else plain
        found.setdefault(variant.variant, variant)
    return list(found.values())


def variants_of(values):
    return [Variant(it.variant, it.name, "Option<DeploymentTarget>" * (it.family == "Darwin"), it.about)
            for it in values]


def filled(words, between, indent=""):
    """The words in lines; what is between two words ends a line too."""
    lines = [indent + words[0]]
    for word in words[1:]:
        if len(f"{lines[-1]}{between}{word}{between}") > COLUMNS:
            lines[-1] += between.rstrip()
            lines.append(indent + word)
        else:
            lines[-1] += between + word
    return lines
