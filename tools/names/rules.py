"""What code and definitions say of the rules that follow from a value alone, which are a column of names.tsv.

Both are written from the same rows, in two ways: the code has each value in an arm, so that none is forgotten, and
the definitions have a line for each that isn't the default. The proofs compare the two, and from_upstream.py compares
what the rows say with upstream.

Values keep the order in which they stand, and a new one is the last of its arm: a proof names a goal by the first.
"""
import re
from collections import namedtuple

from names_table import CONVENTIONS

# The families of architectures with queries of their own.
WITH_QUERIES = ("Arm", "Aarch64")
ORDERS = {"big": "Big", "little": "Little"}
WIDTHS = {"16": "U16", "32": "U32", "64": "U64"}
# The widest line of code that `rt fmt` leaves on one.
CODE_COLUMNS = 100

# A pattern of code, with the patterns within it.
Pattern = namedtuple("Pattern", "name inner", defaults=[[]])


def having(values, rule, answer):
    return [it for it in values if it.rules.get(rule) == answer]


def place(names, text):
    """Where the first of these names that is there stands in a text, or its end."""
    found = (re.search(rf"(?<![\w.:]){re.escape(it)}(?![\w.:])", text) for it in names)
    return next((it.start() for it in found if it), len(text))


def grouped(values, all_values, names, text):
    """The first value of each family, and its members among the values, or None if that is the whole family. A value
    without a family is its own. They are in the order in which the text has them, by their names."""
    found = {}
    for it in sorted(values, key=lambda it: place(names(it), text)):
        found.setdefault(it.family or it.variant, []).append(it)
    for family, members in found.items():
        is_whole = members[0].family and len(members) == sum(it.family == family for it in all_values)
        yield members[0], None if is_whole else members


def families_with(table, rule, *others):
    """The families whose architectures don't all have the same answer to each of these rules."""
    found = {(it.family, name, it.rules[name]) for it in table.field["architecture"] for name in (rule, *others)
             if it.family}
    named = [(family, name) for family, name, _ in found]
    return sorted({family for family, name in named if named.count((family, name)) > 1})


# ---- code

def code_patterns(values, all_values, type_name, text):
    def names(it):
        member = [f"{it.family}Architecture::{it.variant}", f"Architecture::{it.family}(_)"]
        return member if it.field == "architecture" and it.family else [f"{type_name}::{it.variant}"]

    for first, members in grouped(values, all_values, names, text):
        if first.field != "architecture" or not first.family:
            yield Pattern(f"{type_name}::{first.variant}{'(_)' * bool(first.family)}")
        elif members is None:
            yield Pattern(f"Architecture::{first.family}(_)")
        else:
            inner = [f"{first.family}Architecture::{it.variant}" for it in members]
            yield Pattern(f"Architecture::{first.family}", inner)


def laid_out(pattern, indent):
    """A pattern in lines, laid out as `rt fmt` does it."""
    one = f"{pattern.name}({' | '.join(pattern.inner)})" if pattern.inner else pattern.name
    if len(one) + indent <= CODE_COLUMNS:
        return [one]
    first, *others = pattern.inner
    return [f"{pattern.name}(", f"    {first}", *(f"        | {it}" for it in others), ")"]


def either(patterns, indent, inner=""):
    """Patterns of which one fits, in lines; those after the first pattern's are indented by `inner` more."""
    parts = [laid_out(it, indent + len(inner) + 2) for it in patterns]
    one = " | ".join(part[0] for part in parts)
    if all(len(part) == 1 for part in parts) and len(one) + indent <= CODE_COLUMNS - 3:
        return [one]
    others = ([f"{inner}| {part[0]}", *(f"{inner}{line}" for line in part[1:])] for part in parts[1:])
    return [*parts[0], *(line for part in others for line in part)]


def arm(patterns, answer, indent=12):
    """An arm for some values, if there are any. The answer may have several lines."""
    patterns = list(patterns)
    if not patterns:
        return []
    lines, (first, *more) = either(patterns, indent), [answer] if isinstance(answer, str) else answer
    if len(lines) == 1 and not more and len(f"{lines[0]} => {first},") + indent > CODE_COLUMNS:
        return [f"{lines[0]} =>", f"    {first},"]
    lines = [*lines[:-1], f"{lines[-1]} => {first}", *more]
    return [*lines[:-1], f"{lines[-1]},"]


def block(begin, *arms):
    return [begin, *(f"    {it}" for it in arms), "}"]


def is_one_of(what, patterns):
    return ["matches!(", f"    {what},", *(f"    {it}" for it in either(list(patterns), 16, "    ")), ")"]


class Code:
    """The arms of the values of each field, by their answers to a rule."""

    def __init__(self, table, text):
        self.field, self.text = table.field, text
        self.darwin = [Pattern(f"OperatingSystem::{it.variant}(_)")
                       for it in self.field["operating_system"] if it.family]
        self.plain = [it for it in table.field["architecture"] if it.family not in WITH_QUERIES]

    def machines(self, rule, answer, values=None):
        all_values = self.field["architecture"]
        return code_patterns(having(values or all_values, rule, answer), all_values, "Architecture", self.text)

    def systems(self, rule, answer):
        values = self.field["operating_system"]
        return code_patterns(having(values, rule, answer), values, "OperatingSystem", self.text)

    def environments(self, rule, answer):
        values = self.field["environment"]
        return code_patterns(having(values, rule, answer), values, "Environment", self.text)

    def formats(self, patterns, indent, names):
        variants = {it.name: it.variant for it in self.field["binary_format"]}
        return [line for it in names for line in arm(patterns("format", it), f"BinaryFormat::{variants[it]}", indent)]

    def conventions(self, patterns, indent):
        answers = {it: f"Ok(CallingConvention::{it})" for it in CONVENTIONS}
        return [line for it, answer in answers.items() for line in arm(patterns("convention", it), answer, indent)]

    def orders(self, patterns, answer):
        found = {answer.format(order): list(patterns(it)) for it, order in ORDERS.items()}
        first = lambda it: place([found[it][0].name], self.text) if found[it] else 0
        return [line for it in sorted(found, key=first) for line in arm(found[it], it)]

    def own_orders(self, family):
        members = [it for it in self.field["architecture"] if it.family == family]
        name = f"{family}Architecture::{{}}".format
        patterns = lambda order: [Pattern(name(it.variant)) for it in having(members, "order", order)]
        return self.orders(patterns, "Endianness::{}")


def own(call):
    return [f"Architecture::{it}(sub) => {call}," for it in WITH_QUERIES]


def architecture_orders(of):
    plain = of.orders(lambda order: of.machines("order", order, of.plain), "Ok(Endianness::{})")
    return [*arm(of.machines("order", "none"), "Err(())"), *own("Ok(sub.endianness())"), *plain]


def architecture_widths(of):
    width = lambda it: arm(of.machines("width", it, of.plain), f"PointerWidth::{WIDTHS[it]}")
    none = arm(of.machines("width", "none"), "return Err(())")
    return [*none, *width("16"), *own("sub.pointer_width()"), *width("32"), *width("64")]


def system_formats(of):
    formats = [it.name for it in of.field["binary_format"]]
    by_environment = of.formats(of.environments, 16, [it for it in reversed(formats) if it != "unknown"])
    by_machine = of.formats(of.machines, 16, [it for it in reversed(formats) if it != "elf"])
    return [
        *arm(of.systems("format", "by_environment"),
             block("match self.environment {", *by_environment, "_ => BinaryFormat::Unknown,")),
        *of.formats(of.systems, 12, ["xcoff"]), *arm(of.darwin, "BinaryFormat::Macho"),
        *of.formats(of.systems, 12, [it for it in formats if it not in ("elf", "xcoff")]),
        *arm(of.systems("format", "by_architecture"),
             block("match self.architecture {", *by_machine, "_ => BinaryFormat::Elf,")),
        *of.formats(of.systems, 12, ["elf"])]


def system_conventions(of):
    by_machine = block("match self.architecture {", *of.conventions(of.machines, 16), "_ => Err(()),")
    on_darwin = block("match self.architecture {", "Architecture::Aarch64(_) => Ok(CallingConvention::AppleAarch64),",
                      "_ => Ok(CallingConvention::SystemV),")
    return [*arm(of.darwin, on_darwin), *of.conventions(of.systems, 12),
            *arm(of.systems("convention", "by_architecture"), by_machine),
            *arm(of.systems("convention", "none"), "Err(())")]


def omitted_vendors(of):
    rule = "vendor", "omitted"
    return [*arm(of.systems("vendor", "by_environment"), is_one_of("self.environment", of.environments(*rule))),
            *arm(of.systems(*rule), "true"),
            *arm(of.systems("vendor", "by_architecture"), is_one_of("self.architecture", of.machines(*rule)))]


def one_of(field, rule, answer, indent):
    return lambda of: either(getattr(of, field)(rule, answer), indent, "    ")


IN_CODE = {
    "the byte orders of Architecture": architecture_orders,
    "the byte orders of ArmArchitecture": lambda of: of.own_orders("Arm"),
    "the byte orders of Aarch64Architecture": lambda of: of.own_orders("Aarch64"),
    "the pointer widths of Architecture": architecture_widths,
    "the pointer widths of Environment": lambda of: arm(of.environments("width", "32"), "Ok(PointerWidth::U32)"),
    "the formats of systems": system_formats,
    "the conventions of systems": system_conventions,
    "what omits an unknown vendor": omitted_vendors,
    "the architectures that omit an unknown system": one_of("machines", "system", "omitted", 12),
    "the environments that show the vendor": lambda of: arm(of.environments("vendor", "shown"), "true"),
    "the systems with LLP64": one_of("systems", "model_64", "LLP64", 12),
    "the systems with ILP32": one_of("systems", "model_32", "ILP32", 12),
    "the architectures that omit an implied format": one_of("machines", "implied", "omitted", 12),
    "the environments that omit an implied format": one_of("environments", "implied", "omitted", 12),
}


def code(table, standing):
    """The lists of rules in the code. `standing` has the text of each list as it stands."""
    return {name: write(Code(table, standing.get(name, ""))) for name, write in IN_CODE.items()}


def answers(goals, unfolded):
    """The proofs of the arms of a `match`, in each of which the definition computes."""
    lines = [line for it in goals for line in (
        f"pub returns-in-{it} : goal.returns-in-{it}", f"unfolding {unfolded}", f"returns-in-{it} c = search rules", "")]
    return lines[:-1]


# ---- definitions

class Definitions:
    """The lines of the values of each field, by their answers to a rule."""

    def __init__(self, table, text):
        self.field, self.text = table.field, text
        self.formats = {it.name: f"binary_format.{it.variant}" for it in reversed(table.field["binary_format"])}
        self.conventions = {it: f"Some convention.{it}" for it in CONVENTIONS}

    def patterns(self, field, rule, answer, without=()):
        def names(it):
            member = [f"{it.family.lower()}.{it.variant}", f"(architecture.{it.family} _)"]
            return member if it.family else [f"{field}.{it.variant}"]

        values = self.field[field]
        chosen = [it for it in having(values, rule, answer) if it.family not in without]
        for first, members in grouped(chosen, values, names, self.text):
            if not first.family:
                yield f"{field}.{first.variant}"
            elif members is None:
                yield f"(architecture.{first.family} _)"
            else:
                yield from (f"(architecture.{first.family} {first.family.lower()}.{it.variant})" for it in members)

    def lines(self, form, field, rule, answers, without=()):
        """The lines of the values with each of these answers, in a form with the value and what the answer becomes."""
        return [form.format(it, of) for answer, of in answers.items()
                for it in self.patterns(field, rule, answer, without)]

    def members(self, family, rule, answer):
        """The names of such members of a family."""
        names = [f"{family.lower()}.{it.variant}" for it in having(self.field["architecture"], rule, answer)
                 if it.family == family]
        return sorted(names, key=lambda it: place([it], self.text))


def endianness_lines(of):
    lines = lambda answers: of.lines("architecture_endianness {} = {}", "architecture", "order", answers, WITH_QUERIES)
    own = [f"architecture_endianness (architecture.{it} sub) = Some ({it.lower()}_endianness sub)"
           for it in WITH_QUERIES]
    return [*lines({"none": "None"}), *own, *lines({"big": "Some Big"})]


def format_lines(of):
    given = {it: name for it, name in of.formats.items() if it != "elf"}
    answers = {"by_environment": "format_without_system e", **given, "by_architecture": "wasm_or_elf a"}
    return of.lines("non_darwin_format a {} e = {}", "operating_system", "format", answers)


def vendor_lines(of):
    found, omitted = [], {"omitted": "true"}
    for it in of.patterns("operating_system", "vendor", "by_environment"):
        found += of.lines(f"omits_unknown_vendor a {it} {{}} = {{}}", "environment", "vendor", omitted)
    found += of.lines("omits_unknown_vendor a {} e = {}", "operating_system", "vendor", omitted)
    for it in of.patterns("operating_system", "vendor", "by_architecture"):
        found += of.lines(f"omits_unknown_vendor {{}} {it} e = {{}}", "architecture", "vendor", omitted, ("Arm",))
        found.append(f"omits_unknown_vendor (architecture.Arm sub) {it} e = is_bare_arm sub")
    return found


def rule_lines(name, field, rule, answers):
    return lambda of: of.lines(f"{name} {{}} = {{}}", field, rule, answers(of) if callable(answers) else answers)


def formats_but(name):
    return lambda of: {it: variant for it, variant in of.formats.items() if it != name}


SHOWN, OMITTED = {"shown": "true"}, {"omitted": "true"}
IN_DEFINITIONS = {
    "arm_endianness": lambda of: [f"arm_endianness {it} = Big" for it in of.members("Arm", "order", "big")],
    "aarch64_endianness": lambda of: [
        f"aarch64_endianness aarch64.{it.variant} = {ORDERS[it.rules['order']]}"
        for it in of.field["architecture"] if it.family == "Aarch64"],
    "architecture_endianness": endianness_lines,
    "architecture_width": rule_lines("architecture_width", "architecture", "width",
                                     {"none": "None", "16": "Some U16", "32": "Some U32"}),
    "is_ilp32": rule_lines("is_ilp32", "environment", "width", {"32": "true"}),
    "format_without_system": rule_lines("format_without_system", "environment", "format", formats_but("unknown")),
    "wasm_or_elf": rule_lines("wasm_or_elf", "architecture", "format", formats_but("elf")),
    "non_darwin_format": format_lines,
    "wasm_convention": rule_lines("wasm_convention", "architecture", "convention", lambda of: of.conventions),
    "other_convention": lambda of: of.lines(
        "other_convention a {} = {}", "operating_system", "convention",
        of.conventions | {"by_architecture": "wasm_convention a"}),
    "has_llp64": rule_lines("has_llp64", "operating_system", "model_64", {"LLP64": "true"}),
    "has_ilp32": rule_lines("has_ilp32", "operating_system", "model_32", {"ILP32": "true"}),
    "is_bare_arm": lambda of: [f"is_bare_arm {it} = true" for it in of.members("Arm", "vendor", "omitted")],
    "omits_unknown_vendor": vendor_lines,
    "omits_system": rule_lines("omits_system", "architecture", "system", OMITTED),
    "is_hermit_or_linux_kernel": rule_lines("is_hermit_or_linux_kernel", "environment", "vendor", SHOWN),
    "environment_implies_format": rule_lines("environment_implies_format", "environment", "implied", OMITTED),
    "architecture_implies_format": rule_lines("architecture_implies_format", "architecture", "implied", OMITTED),
}


def definitions(table, standing):
    """The lists of rules in the definitions. `standing` has the text of each as it stands."""
    return {name: write(Definitions(table, standing.get(name, ""))) for name, write in IN_DEFINITIONS.items()}
