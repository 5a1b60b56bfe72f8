"""The lists of what the library for C answers by numbers, from tools/names/answers.tsv, in each language."""
import re
from dataclasses import dataclass

import facts
from names_table import Mistake, columns, filled, read_lines

PATH = "tools/names/answers.tsv"
ENUMS = {"endianness": "Endianness", "calling_convention": "CallingConvention", "data_model": "DataModel",
         "c_library": "CLibrary",
         "float_abi": "FloatAbi", "arm_profile": "ArmProfile", "signedness": "Signedness", "chosen_libc": "ChosenLibc"}
JAVASCRIPT = {"endianness": "ENDIANNESS", "calling_convention": "CONVENTIONS", "data_model": "MODELS",
              "c_library": "C_LIBRARIES",
              "float_abi": "FLOAT_ABIS", "arm_profile": "ARM_PROFILES", "signedness": "SIGNEDNESS",
              "chosen_libc": "CHOSEN_LIBCS"}
# The types of the crate of names.
TYPES = {"c_library": "The C library of a target.", "float_abi": "How floating-point arguments are passed.",
         "signedness": "Whether C's `char` has a sign.",
         "arm_profile": "The profile of a 32-bit Arm architecture: for what its processors are made.",
         "chosen_libc": "A C library of Linux or Windows, which gives a triple its environment: on Windows an ABI too."}


@dataclass
class Answer:
    variant: str
    number: int
    name: str
    about: str

    @property
    def constant(self):
        return re.sub(r"(?<=[a-z0-9])(?=[A-Z])|(?<=[A-Z])(?=[A-Z][a-z])", "_", self.variant).upper()


def answers_of(text, wrong):
    """The answers of each kind; the facts; and why they have no answer: of each reason the facts, and the reason."""
    found, of_facts, reasons = {}, [], []

    def read(line):
        kind = line.split("\t")[0]
        if kind == "fact":
            facts.add_fact(of_facts, line, ENUMS, JAVASCRIPT)
        elif kind == "none":
            facts.add_reason(reasons, line, of_facts)
        elif not line.startswith("#"):
            add_answer(found, line)

    read_lines("answers.tsv", text, wrong, read)
    with_reason = {name for names, _ in reasons for name in names}
    wrong += [f"answers.tsv: the fact {it.name} may have no answer: a line `none` says why" for it in of_facts
              if it.is_optional and it.name not in with_reason]
    return found, of_facts, reasons


def add_answer(found, line):
    kind, variant, value, name, *about = columns(line, ["a kind", "an answer", "its number", "its name", "what it is"],
                                                 4)
    answers = found.setdefault(kind, [])
    if kind not in ENUMS and kind != "status":
        raise Mistake(f"`{kind}` is no kind: {', '.join(ENUMS)}, status, fact or none. A new one is a line of ENUMS "
                      "and JAVASCRIPT in tools/names/answers.py too")
    if value != str(len(answers) + 1):
        raise Mistake(f"the next number of {kind} is {len(answers) + 1}, not `{value}`")
    answers.append(Answer(variant, int(value), name, *about or [""]))


def lists(answers):
    statuses = answers["status"]
    conventions = answers["calling_convention"]
    found = {
        "the names of CallingConvention": [f'CallingConvention::{it.variant} => "{it.name}",' for it in conventions],
        "convention_name": [f'convention_name convention.{it.variant} = codes "{it.name}"' for it in conventions],
        "the statuses for C": [f"LEXICON_{it.constant} = {it.number}, /* {it.about} */" for it in statuses],
        "the statuses for the library": [f"pub(crate) const {it.constant}: Status = {it.number};" for it in statuses
                                         if it.number > 6],
        "the statuses for Python": [f"{it.constant} = {it.number}" for it in statuses if it.number > 5],
        "the statuses for JavaScript": [f"const {', '.join(f'{it.constant} = {it.number}' for it in part)};"
                                        for part in (statuses[5:12], statuses[12:])],
        "the answers for JavaScript": [f"const {JAVASCRIPT[kind]} = [null, {', '.join(quoted(kind, answers))}];"
                                       for kind in ENUMS],
    }
    for kind, of in ENUMS.items():
        prefix = f"LEXICON_{kind.upper()}_"
        comments = [f" /* {it.about.rstrip('.')} */" * bool(it.about) for it in answers[kind]]
        found |= {
            f"the answers of {kind} for C": [f"{prefix}{it.constant} = {it.number},{comment}"
                                             for it, comment in zip(answers[kind], comments)],
            f"the names of {kind} for C": filled([f'"{it.name}",' for it in answers[kind]], " ", "  "),
            f"the answers of {kind} for C++": filled([f"{it.variant} = {it.number}," for it in answers[kind]], " "),
            f"the answers of {kind} for TypeScript": [f"export type {of} = {' | '.join(quoted(kind, answers))};"],
        }
    return found


def types_of_names(answers):
    """The types of the crate of names, in Rust."""
    for kind, about in TYPES.items():
        name, of = ENUMS[kind], answers[kind]
        yield from ["", f"/// {about}", *["#[non_exhaustive]"] * (kind != "chosen_libc"),
                    "#[derive(Clone, Copy, Debug, PartialEq, Eq, Hash)]", f"pub enum {name} {{",
                    *(line for it in of for line in (f"    /// {it.about}", f"    {it.variant},")), "}", "",
                    f"impl {name} {{", "    /// The name.", "    ///", "    /// # Examples", "    ///", "    /// ```",
                    f'    /// assert_eq!(target_names::{name}::{of[0].variant}.name(), "{of[0].name}");', "    /// ```",
                    "    #[must_use]", "    #[inline]",
                    "    pub const fn name(self) -> &'static str {", "        match self {",
                    *(f'            {name}::{it.variant} => "{it.name}",' for it in of), "        }", "    }", "}"]


def quoted(kind, answers):
    return [f'"{it.name}"' for it in answers[kind]]
