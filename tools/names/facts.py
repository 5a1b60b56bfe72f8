"""The lists of the facts of a triple, from the lines `fact` of tools/names/answers.tsv, in each language."""
import re
from dataclasses import dataclass

from names_table import COLUMNS, Mistake, columns, filled

GROUPS = {"queries": "queries()", "formats": "formats()", "driver": "facts()"}
# The variables of which an answer may be a member: their types in the library for C.
PARTS = {"sizes": "TypeSizes", "long_double": "LayoutNumbers", "wchar": "LayoutNumbers"}
# The structs of the library for C: of each group the name, what it has, and what its answers are computed from besides
# the triple.
STRUCTS = {
    "queries": ("QueryFacts", "What the queries of a triple answer.", [
        "let data_model = triple.data_model().map_or(0, |it| 1 + it as u8);",
        "let sizes = || TYPE_SIZES[usize::from(data_model)];"]),
    "formats": ("FormatFacts", "Binary formats, and the family of the architecture.", []),
    "driver": ("DriverFacts", "What a compiler's driver asks.", [
        "let (long_double, wchar) = (|| triple.long_double_layout().into(), || triple.wchar_layout().into());"]),
}
# What C++ and Python know without asking the library.
KNOWN = "has_custom_vendor"
# What else may have no answer, with a line `none`.
OTHERS = ("version", "multiarch_tuple")


@dataclass
class Fact:
    name: str
    type: str
    group: str
    answer: str
    about: str
    numbers: list
    enums: dict
    constants: dict

    @property
    def words(self):
        """The type of a kind of answers, `BinaryFormat` or `Family`; None of others."""
        return {"format": "BinaryFormat", "family": "Family", **self.enums}.get(self.type)

    @property
    def is_optional(self):
        return self.type not in ("bool", "format", "family")

    @property
    def part(self):
        return self.answer.partition(".")[::2] if self.type == "bytes" else None

    @property
    def camel(self):
        return re.sub("_(.)", lambda it: it[1].upper(), self.name)

    @property
    def c_about(self):
        enum = {"format": "enum lexicon_binary_format", "family": "enum lexicon_family", "bool": "", "bytes": "",
                "number": ""}.get(self.type, f"enum lexicon_{self.type}")
        return f"/* {f'{enum}: ' * bool(enum)}{self.about[0].lower() + self.about[1:].rstrip('.').replace('`', '')} */"

    @property
    def number(self):
        """The answer as a number of C. A variable is one already."""
        if self.words and self.is_optional:
            return self.answer if self.answer.isidentifier() else f"{self.answer}.map_or(0, |it| 1 + it as u8)"
        return {"bool": "{}", "format": "binary_format_number({})", "family": "family_number({})",
                "number": "{}.unwrap_or(0)"}[self.type].format(self.answer)

    @property
    def json(self):
        """The answer as the command writes it."""
        if self.part:
            return f"{self.part[0]}.map(|it| it.{self.part[1]}).into()"
        if self.words and self.is_optional:
            return f"{self.answer}.map(|it| it.name()).into()"
        return {"bool": "{}.into()", "format": "{}.to_string().into()", "family": "family({}).into()",
                "number": "{}.into()"}[self.type].format(self.answer)

    @property
    def cpp(self):
        facts = f"{GROUPS[self.group]}.{self.name}"
        if not self.is_optional and self.words:
            return f"{self.words} {self.name}() const {{ return static_cast<{self.words}>({facts}); }}"
        if self.type == "bool":
            return f"bool {self.name}() const {{ return {facts}; }}"
        of = self.words or "unsigned"
        begin, answer = f"std::optional<{of}> {self.name}() const {{", f"return detail::answer<{of}>({facts});"
        return f"{begin} {answer} }}" if len(begin + answer) < COLUMNS - 4 else f"{begin}\n  {answer}\n}}"

    def javascript(self, number):
        """The answer from a number of C: the name from a list, whether it is true, or none where it is 0."""
        if self.words:
            names = {"family": "FAMILIES", "format": "formats"}.get(self.type) or self.constants[self.type]
            return f"{names}[{number}]"
        return f"{number} === 1" if self.type == "bool" else f"{number} || null"

    @property
    def typescript(self):
        of = self.words or {"bool": "boolean"}.get(self.type) or " | ".join(self.numbers) or "number"
        return f"{self.camel}: {of}{' | null' * self.is_optional};"


def add_fact(found, line, enums, constants):
    _, name, type_, group, answer, about = columns(line, ["`fact`", "a name", "a type", "a group", "the answer in Rust",
                                                          "what it is"])
    type_, *numbers = type_.split()
    types = ("bool", "format", "family", "bytes", "number", *enums)
    if type_ not in types:
        raise Mistake(f"`{type_}` is no type of a fact: {', '.join(types)}")
    if group not in GROUPS:
        raise Mistake(f"`{group}` is no group of facts: {', '.join(GROUPS)}")
    if type_ == "bytes" and answer.partition(".")[0] not in PARTS:
        raise Mistake(f"`bytes` is a member of {', '.join(PARTS)}, not {answer}")
    if name in (it.name for it in found):
        raise Mistake(f"the fact {name} is there already")
    found.append(Fact(name, type_, group, answer, about, numbers, enums, constants))


def add_reason(found, line, facts):
    _, names, reason = columns(line, ["`none`", "facts", "the reason"])
    unknown = {*names.split()} - {*OTHERS, *(it.name for it in facts)}
    if unknown:
        raise Mistake(f"there is no fact {', '.join(sorted(unknown))}")
    found.append((names.split(), reason))


def lists(facts, reasons):
    """The lists in each language, and why facts have no answer. C has the facts by groups, and the others have them in
    their order."""
    by_groups = [it for group in GROUPS for it in facts if it.group == group]
    numbers = {it.name: f"n[{number}]" for number, it in enumerate(by_groups)}
    found = {
        "the facts for C": [f"{'bool' if it.type == 'bool' else 'uint8_t'} {it.name}; {it.c_about}"
                            for it in by_groups],
        "the size of the facts": [f"pub(crate) const FACT_COUNT: usize = {len(facts)};"],
        "the facts for C++": [it.cpp for it in facts if it.name != KNOWN],
        "the facts for the command": [f'("{it.name}", {it.json}),' for it in facts],
        "the reasons for the command": [f"""{' | '.join(f'"{name}"' for name in names)} => "{reason}","""
                                        for names, reason in reasons],
        "the names of facts for Python": filled([f'"{it.name}",' for it in by_groups], " "),
        "the size of the facts for JavaScript": [f"const FACTS_SIZE = {len(facts)};"],
        "the facts for JavaScript": [
            "/** What a compiler asks, from the bytes of the struct of facts and the names of binary formats. */",
            "const factsOf = (n, formats) => ({", *(
            f"  {it.camel}: {it.javascript(numbers[it.name])}," for it in facts), "});"],
        "the facts for TypeScript": ["/** What a compiler asks of a triple; null where there is no answer. */",
                                     "export interface Facts {",
                                     *(line for it in facts for line in (f"  /** {it.about} */", f"  {it.typescript}")),
                                     "}"],
    }
    return found


def groups_of_c(facts):
    """The file of the groups of facts in the library for C."""
    lines = ["// @generated by tools/names/write. Don't edit it here.",
             "//! The facts of a triple by their groups. Each number is 0 where there is no answer.",
             "use crate::facts::{LayoutNumbers, TypeSizes, TYPE_SIZES};",
             "use crate::numbers::{binary_format_number, family_number};",
             "use target_lexicon::{Architecture, PointerWidth, TripleRef};", "use target_names::TargetInfo;"]
    for group, (name, about, before) in STRUCTS.items():
        of = [it for it in facts if it.group == group]
        parts = list(dict.fromkeys(it.part[0] for it in of if it.part))
        # The parts are computed last, so that they are copied straight into the struct.
        answers = [*(f"{it.name}: {it.number}," for it in of if not it.part), *(f"{it}: {it}()," for it in parts)]
        lines += ["", f"/// {about}", "#[repr(C)]", f"pub struct {name} {{", *(f"    {it}" for it in members(of)), "}",
                  "", f"impl From<&TripleRef<'_>> for {name} {{",
                  "    #[inline(always)]", f"    fn from(triple: &TripleRef<'_>) -> {name} {{",
                  *(f"        {it}" for it in before), f"        {name} {{",
                  *(f"            {it}" for it in answers), "        }", "    }", "}"]
    return "\n".join([*lines, ""])


def members(facts):
    """The members of a group in Rust, of which one that has several answers comes once."""
    types = dict((it.part[0], PARTS[it.part[0]]) if it.part else (it.name, "bool" if it.type == "bool" else "u8")
                 for it in facts)
    return [f"pub {name}: {of}," for name, of in types.items()]
