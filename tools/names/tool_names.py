"""Names of other tools, from packages/names/elsewhere.tsv."""
import itertools
import re
from dataclasses import dataclass, field

from names_table import Mistake, columns, filled, read_lines

PATH = "packages/names/elsewhere.tsv"
DAY = re.compile(r"\d{4}-\d\d-\d\d")
WAYS = {"rw": "Both", "r": "Read", "w": "Written", "-": "NoTriple", "several": "Several"}
DIALECT, ONLY_WRITTEN = "# dialect ", "# only written: "
# What words say that are no names here, and the field in which none of them may be one.
OTHERS = {"other-machine": "architecture", "other-system": "operating_system", "other-abi": "environment"}
# The rules of a dialect: for each field of `Rules` its value for each choice. The first choice goes without saying. A
# dialect may have other names too.
RULES = {"machine": {"order": "MachineRule::Order", "version": "MachineRule::Version", "rustc": "MachineRule::Rustc",
                     "alpine": "MachineRule::Alpine", "i686": "MachineRule::I686", "packages": "MachineRule::Packages"},
         "abi": {"kept": "AbiRule::Kept", "dropped": "AbiRule::Dropped", "linux": "AbiRule::KeptOnLinux",
                 "windows": "AbiRule::KeptOnLinuxAndWindows", "systems": "AbiRule::KeptOnSystems"},
         **{word: {"no": "false", "yes": "true"} for word in ("versions", "tags", "spelled", "platforms", "itself")}}

# The columns of the lines that begin with `#` and one of these words.
COLUMNS = {"why": ["the name of a reason", "the reason"], "note": ["the name of a note", "the note"],
           "refusal": ["a constant", "the reason"],
           "reason": ["a variant of `WriteError`", "the reason"],
           "versions": ["the starts or ends of names", "the least number", "the most", "what it is"],
           "source": ["a source", "its version", "Debian's package", "a file, a command in backquotes or an address",
                      "the day"], "from": ["a source"]}


@dataclass
class Source:
    """Where names can be seen: its name, its version, Debian's package of it, a file, a command in backquotes or a
    page's address, and the day on which that was asked, or on which its rows were written from knowledge of the
    page."""
    name: str
    version: str
    package: str
    where: str
    day: str

    @property
    def days(self):
        """The day as one on which somebody looked, as checks/compare elsewhere does; or on which nobody did."""
        is_recalled = self.where.startswith("https:")
        return {"seen": None if is_recalled else self.day, "recalled": self.day if is_recalled else None}


@dataclass
class Dialect:
    """A dialect: its rules, its other names, what is said of it, the patterns of names of each source, and its rows. A
    row is a name, what it means or why it has no triple, and its way. `notes` are those for who reads a name, and
    `levels` those of machines that triples can't state. `lines` are the rows as the file has them: name, triple, ways
    and note, or the reason."""
    name: str
    rules: dict
    other_names: list
    about: str = ""
    sources: dict = field(default_factory=dict)
    rows: list = field(default_factory=list)
    lines: list = field(default_factory=list)
    notes: list = field(default_factory=list)
    levels: list = field(default_factory=list)

    @property
    def variant(self):
        return self.name.capitalize()

    @property
    def constant(self):
        return self.name.upper()

    @property
    def is_read(self):
        return any(way in ("Both", "Read") for _, _, way in self.rows)

    @property
    def is_written(self):
        return any(way in ("Both", "Written") for _, _, way in self.rows)


@dataclass
class Elsewhere:
    """The dialects in the order of their numbers, the rows of `first` and `later`, the words of config.sub, and why a
    name isn't read that is only written. `said` is what words say in names that no tool has. `whys` has the reasons
    that rows without a triple cite, by their names."""
    dialects: dict = field(default_factory=dict)
    words: dict = field(default_factory=lambda: {it: {} for it in ("maker", "kernel", "system", "notmachine",
                                                                   "notsystem", "othermaker", "novendor",
                                                                   "otherword")})
    said: dict = field(default_factory=dict)
    parts: dict = field(default_factory=lambda: {"first": [], "second": [], "hard": [], "later": []})
    only_written: str = ""
    versions: list = field(default_factory=list)
    reasons: list = field(default_factory=list)
    refusals: list = field(default_factory=list)
    notes: dict = field(default_factory=dict)
    sources: dict = field(default_factory=dict)
    whys: dict = field(default_factory=dict)


def tables_of(text, known, wrong):
    """The tables. `known` are the names of values: of each field, of architectures for "", and of later parts for
    "-"."""
    found, cited = Elsewhere(), set()
    read_lines("elsewhere.tsv", text, wrong, lambda line: read_line(found, line, known, cited))
    wrong += [f"elsewhere.tsv: no row cites the reason {it}: remove its line `# why`, or write it as the note of a row"
              for it in sorted(found.whys.keys() - cited)]
    for it in found.dialects.values():
        wrong += [f"elsewhere.tsv: the dialect {it.name} has no {what}"
                  for what, there in (("line that says what it is, after `# dialect`", it.about), ("row", it.rows))
                  if not there]
        if sum(not patterns for patterns in it.sources.values()) != 1:
            wrong.append(f"elsewhere.tsv: the dialect {it.name} needs one line `# from` with a source and no patterns")
    parts = [meaning.split("-") for _, meaning, way in found.dialects["rust"].rows if way in ("Both", "Read")]
    found.words["custom"] = sorted({it[1] for it in parts if len(it) > 2}.difference(*known.values()))
    return found


def read_line(found, line, known, cited):
    last = next(reversed(found.dialects.values()), None)
    if line.startswith(DIALECT):
        add_dialect(found, *line.removeprefix(DIALECT).split())
    elif line.startswith(ONLY_WRITTEN):
        found.only_written = line.removeprefix(ONLY_WRITTEN)
    elif word := re.match(rf"# ({'|'.join(COLUMNS)})(?=\t| *$)", line):
        add_line(found, last, word[1], line.split("\t")[1:])
    elif re.match(rf"# ({'|'.join(COLUMNS)}) ", line) and (last or found.sources):
        raise Mistake("after the first word of such a line comes a tab, and tabs are between its columns")
    elif (words := line.split("\t"))[0] == "word":
        said, of_line = columns(words[1:], ["what words say", "words"])
        add_words(found.said, of_line, said)
        check_no_name(of_line, known[OTHERS[said]] if said in OTHERS else ())
    elif words[0] in found.words:
        add_words(found.words[words[0]], *columns(words[1:], ["words"]))
        check_no_name(words[1], known["operating_system"] if words[0] == "system" else ())
    elif not line.startswith("#"):
        dialect, names, triple, ways, *rest = columns(line, ["a dialect", "its names", "a triple", "the ways", "a note",
                                                             "a level"], 4)
        note, level = (*rest, "", "")[:2]
        for name, meaning, of_name in products(names, triple, level):
            add_row(found, [dialect, name, meaning, ways, *[note] * bool(note)], known, cited)
            if level:
                found.dialects[dialect].levels.append((name, of_name))
    elif last and not last.about:
        last.about = line[2:]


def products(names, *columns):
    """The names of a row, each with its other columns: those of a rule are its products. Braces have words, and after
    `=` what a word means, if it isn't itself."""
    for name in names.split(", "):
        words = [[word.partition("=") for word in it.split(" ")] for it in re.findall(r"{(.*?)}", name)]
        for chosen in itertools.product(*words):
            of_words, of_meanings = iter(chosen), {f"{{{number}}}": meaning or word
                                                   for number, (word, _, meaning) in enumerate(chosen, 1)}
            one = re.sub("{.*?}", lambda it: next(of_words)[0], name)
            yield one, *(one if it == "=" else re.sub(r"{\d}", lambda it: of_meanings.get(it[0], it[0]), it)
                         for it in columns)


def add_dialect(found, name="", *rules):
    rules = dict(rule.partition("=")[::2] for rule in rules)
    others = [it for it in rules.pop("names", "").split(",") if it]
    taken = {*found.dialects, *(other for other, _ in other_names(found)), *found.parts, *found.words}
    # It is there for its rows even if something is wrong.
    found.dialects.setdefault(name, Dialect(name, {word: rules.get(word, next(iter(choices)))
                                                   for word, choices in RULES.items()}, others))
    for it in [name, *others]:
        if it in taken:
            raise Mistake(f"`{it}` is the name of another dialect or list")
        if not re.fullmatch("[a-z][a-z0-9]*", it):
            raise Mistake(
                f"the name of a dialect is part of names in each language: lower-case letters and digits, not `{it}`")
    for word, choice in rules.items():
        if word not in RULES:
            raise Mistake(f"there is no rule `{word}`, only {', '.join(RULES)} and names")
        if choice not in RULES[word]:
            raise Mistake(f"`{word}={choice}` is no rule: {word} is {' or '.join(RULES[word])}")


def add_line(found, last, word, cells):
    """Adds what a line says that begins with `#`, this word and a tab."""
    first, *rest = columns(cells, COLUMNS[word], word == "from", more=word == "from")
    if word in ("why", "note"):
        texts = found.whys if word == "why" else found.notes
        if first in texts or rest[0] in texts.values():
            raise Mistake(f"this {'reason' if word == 'why' else word}, or its name, is there already")
        texts[first] = rest[0]
    elif word in ("reason", "refusal"):
        (found.reasons if word == "reason" else found.refusals).append((first, *rest))
    elif word == "versions":
        least, most, about = rest
        if not (least + most).isdigit():
            raise Mistake(f"the least and the most number are in digits, not `{least}` and `{most}`")
        found.versions += [(text, int(least), int(most), about) for text in first.split(", ")]
    elif word == "source":
        if first in found.sources:
            raise Mistake(f"the source {first} is there already")
        if not DAY.fullmatch(rest[-1]):
            raise Mistake(f"the day is one such as 2026-11-28, not `{rest[-1]}`")
        found.sources[first] = Source(first, *("" if it == "-" else it for it in rest))
    elif first not in found.sources:
        raise Mistake(f"the source {first} needs a line `# source`")
    elif not last:
        raise Mistake("a line `# from` comes after the line `# dialect` of its dialect")
    else:
        last.sources[first] = rest


def add_words(known, words, said=""):
    for word in words.split(" "):
        if not word or word in known:
            raise Mistake(f"a list has each word once, with a space between two, and not `{word}`")
        known[word] = word if said == "=" else said


def check_no_name(words, names):
    """Refuses a word of a list of what has no name here, if it is one of the names by now."""
    for word in words.split(" "):
        if word in names:
            raise Mistake(f"the list is of what has no name, but tools/names/names.tsv has `{word}`: say what it means")


def is_known_by_now(name, why, reason, known):
    """Whether the reason is that a name isn't known, and the table of names has it. `why` is the reason's name."""
    words = re.split("[-/ ]", name) if re.search("[-/ ]", name) else name.split("_")
    if "architecture is no known name" in reason:
        return any(it in known[""] and it != "unknown" for it in words)
    if re.search("(system|environment) is no known name", reason):
        return all(it in known["-"] for it in words[1:2] * (len(words) == 2) + words[2:])
    system = re.fullmatch(r"triples have no system (\w+)\b.*", reason)
    return (system[1] if system else why) in known["-"]


def add_row(found, cells, known, cited):
    dialect, name, triple, ways, *note = cells
    of = found.dialects.get(dialect)
    if not of and dialect not in found.parts:
        raise Mistake(f"`{dialect}` is no dialect yet: its rows follow a line `# dialect {dialect}`")
    if ways not in WAYS or not of and ways != "r":
        raise Mistake(f"the ways are {', '.join(WAYS) if of else 'r'}, not `{ways}`")
    if (ways == "-") != (triple == "-"):
        raise Mistake("a row has a triple and ways, or `-` for both, and the name of a reason as its note")
    if ways == "-" and "".join(note) not in found.whys:
        raise Mistake(f"the note is the name of a line `# why`, not `{''.join(note)}`: {', '.join(found.whys)}")
    if ways == "-" and is_known_by_now(name, note[0], found.whys[note[0]], known):
        raise Mistake(
            f"`{name}` has no triple for this reason: {found.whys[note[0]]}. But tools/names/names.tsv has it: "
                      "write the triple, or another reason")
    for it in triple.split("+") if ways != "-" else []:
        check_triple(it, known, of, name)
    if of:
        check_row(of.lines, name, triple, ways)
        cited.update(note if ways == "-" else [])
        note = [found.whys[it] for it in note] if ways == "-" else note
        if note and note[0].startswith("+"):
            if note[0][1:] not in found.notes:
                raise Mistake(f"the note after `+` is the name of a line `# note`, not `{note[0][1:]}`")
            note = [found.notes[note[0][1:]]]
            of.notes.append((name, *note))
        of.lines.append((name, triple, ways, *note))
        of.rows.append((name, note[0] if ways == "-" else triple.replace("*", ""), WAYS[ways]))
        return
    if name in (it for it, _, _ in found.parts[dialect]):
        raise Mistake(f"`{name}` is there already")
    if dialect != "hard" and name.rstrip("!") in known["" if dialect == "first" else "-"]:
        raise Mistake(f"`{name}` is a known name, which is never read as another one")
    found.parts[dialect].append((name, triple, WAYS[ways]))


def check_triple(triple, known, of, name):
    """Each part is a known name, or a part of the name if its triple may be itself. That the triple is canonical is
    tried by the tests of packages/names."""
    first, *later = triple.split("-")
    if of and of.rules["itself"] == "yes":
        later = [part for part in later if part not in name.split("-")]
    if first not in (known[""] if of else known[""] | known["-"]):
        raise Mistake(f"`{first}` of {triple} is no known name of tools/names/names.tsv")
    for part in later:
        if not {part, re.sub(r"[\d.]+$|\*$", "", part)} & known["-"]:
            raise Mistake(f"`{part}` of {triple} is no known name of tools/names/names.tsv")


def check_row(lines, name, triple, ways):
    """No name has two meanings, and no triple two names that are written."""
    if ("*" in triple) != ("*" in name and bool(re.search("macosx|ios", triple))):
        raise Mistake(
            "a triple of macOS or iOS has a star if and only if its name has one, and no other triple has one")
    same = [it for it in lines if it[0] == name]
    if same and (ways != "w" or same[0][2] not in ("-", "r")):
        raise Mistake(f"`{name}` means {same[0][1]} already: only rows `w` share a name, after a row `r` or `-` that "
                      "says what it means or why it isn't read")
    written = [it[0] for it in lines if it[1] == triple and "w" in it[2]]
    if written and "w" in ways:
        raise Mistake(f"{triple} has the name `{written[0]}` already: one of the two is only read, `r`")


def other_names(tables):
    """The other names of dialects, with their dialects."""
    return [(name, it) for it in tables.dialects.values() for name in it.other_names]


def names_that_are_read(tables):
    return {name for it in tables.dialects.values() for name, _, way in it.rows if way in ("Both", "Read")
            and "*" not in name}


# The place of each list of rules, and the forms of a text by how it ends.
PLACES = {"first": "First", "second": "Second", "hard": "AfterHardFloats", "later": "AfterFirst"}
FORMS = {"*": "Dropped", "+": "MacOs", "!": "HardFloats", "-": "PairWithin"}


def spelling_rules(tables, lists):
    """The rules of these lists, those that look at more than a part before the others."""
    rows = [(PLACES[it], text, names) for is_wide in (True, False) for it in lists
            for text, names, _ in tables.parts[it] if (it == "hard" or "-" in text) == is_wide]
    form = lambda text: FORMS.get(text[-1:], "Pair" if "-" in text else "Whole")
    return [f'    ({place}, "{text[:-1] if text[-1:] in FORMS else text}", {form(text)}, "{names}"),'
            for place, text, names in rows]


NO_SYSTEM = "triples have no system "


def all_reasons(tables):
    reasons = {tables.only_written, *(f"{NO_SYSTEM}{word}" for word in tables.words["system"])}
    reasons |= {meaning for it in tables.dialects.values() for _, meaning, way in it.rows if way == "NoTriple"}
    return reasons | {text for _, text in tables.reasons + tables.refusals}


def lists(tables):
    dialects, others = list(tables.dialects.values()), other_names(tables)
    names = ", ".join(f'"{it.name}"' for it in dialects)
    words = [it.name for it in dialects]
    written = ", ".join(f'"{it.name}"' for it in dialects if it.is_written)
    only_read = [it for it in dialects if not it.is_written]
    python_names = ", ".join(f'"{name}": "{it.name}"' for name, it in others)
    said = [(", ".join(f"`{name}`" for name in [it.name, *it.other_names]), it.about) for it in dialects]
    return {
        "the dialects for C": [
            f"LEXICON_DIALECT_{it.constant} = {number}, /* {it.about.rstrip('.').replace('`', '')} */"
            for number, it in enumerate(dialects, 1)],
        "the dialects for C++": filled([f"{it.variant} = {number}," for number, it in enumerate(dialects, 1)], " "),
        "the dialects' names for C": filled([f'"{it}",' for it in words], " ", "  "),
        "the other names of dialects for C": [f'  {{"{name}", LEXICON_DIALECT_{it.constant}}},' for name, it in others],
        "the dialects that are only read": [
            "fn is_only_read(dialect: Dialect) -> bool {",
            f"    matches!(dialect, {' | '.join(f'Dialect::{it.variant}' for it in only_read)})", "}"],
        "the other names of dialects for the command": [
            f"const OTHER_NAMES: [(&str, Dialect); {len(others)}] = [{rust_pairs(others)}];"],
        "the dialects for the manual": [
            f"the tool whose names are read or written: {', '.join(words[:-1])} or {words[-1]}.",
            f"{' and '.join(f'{name} is {it.name}' for name, it in others)}.",
            f"Names of {' and '.join(it.name for it in only_read)} are only read."],
        "the dialects' names for Python": [
            f"DialectName = {literal([*words, *(name for name, _ in others)])}", f"OTHER_NAMES = {{{python_names}}}"],
        "the other names of dialects for JavaScript": [
            "const OTHER_NAMES = { " + ", ".join(f'{name}: "{it.name}"' for name, it in others) + " };"],
        "the dialects for the documentation": [
            "", "| Dialect | Its names |", "|---|---|",
            *(f"| {names} | {about} |" for names, about in said)],
        "the dialects for JavaScript": [
            "/** The tools whose names of targets are known, by their numbers, which begin with 1; and those whose "
            "names are written. */",
            f"export const DIALECTS = Object.freeze([{names}]);", f"const WRITTEN = [{written}];"],
        "the dialects for TypeScript": [
            "/** The dialects, in the order of their numbers in target_lexicon.h, which begin with 1. */",
            f"export const DIALECTS: readonly [{names}];",
            "", "/**", " * A tool, or a group of tools, that names targets in its own way.",
            *(f" * - {names}: {about}" for names, about in said), " */",
            "export type Dialect = (typeof DIALECTS)[number] | " + " | ".join(f'"{name}"' for name, _ in others) + ";"],
    }


def rust_pairs(others):
    return ", ".join(f'("{name}", Dialect::{it.variant})' for name, it in others)


def literal(names):
    return "Literal[" + ", ".join(f'"{it}"' for it in names) + "]"


def table_rules(it):
    said = [f"{word}: {values[it.rules[word]]}" for word, values in RULES.items()]
    return f"Rules {{ {', '.join(said)} }}"


def row_orders(it):
    """The numbers of the rows without a star in the order of their names, of which the first row has the name; and
    those of the others."""
    numbers = {}
    for number, (name, _, _) in enumerate(it.rows):
        numbers.setdefault(name, number)
    by_name = [numbers[name] for name in sorted(numbers, key=str.encode) if "*" not in name]
    return [[f"{number}," for number in of] for of in (by_name, [number for name, number in numbers.items()
                                                                 if "*" in name])]


def files(tables, types):
    """The table of names, which says of the dialects what isn't the same for all, and these types."""
    words, dialects, others = tables.words, tables.dialects.values(), other_names(tables)
    texts = lambda name, of: ["", f"pub(crate) static {name}: &[&str] = &[",
                              *filled([f'"{it}",' for it in words[of]], " ", "    "), "];"]
    lines = [
        "// @generated by tools/names/write from packages/names/elsewhere.tsv. Don't edit it here.",
        "//! The dialects, the rules and rows of each in their order, and the words of config.sub.",
        "use crate::dialect::{Table, Way::*};", "use crate::shape::{AbiRule, MachineRule, Rules};", "",
        "/// A tool, or a group of tools, that names targets in its own way.", "///", "/// # Examples", "///",
        "/// ```",
        "/// use target_lexicon::TripleRef;", "/// use target_names::Dialect;", "///",
        '/// let triple = TripleRef::from_str("x86_64-unknown-linux-gnu").unwrap();',
        '/// assert_eq!(Dialect::Debian.write(&triple).unwrap().as_str(), "amd64");',
        '/// assert_eq!("go".parse(), Ok(Dialect::Go));', "/// ```",
        "#[non_exhaustive]", "#[derive(Clone, Copy, Debug, PartialEq, Eq, Hash)]", "pub enum Dialect {",
        *(line for it in dialects for line in (f"    /// {it.about}", f"    {it.variant},")), "}", "",
        "impl Dialect {", "    /// All dialects, in the order of the variants.", "    ///", "    /// # Examples",
        "    ///", "    /// ```",
        "    /// use target_lexicon::triple;", "    /// use target_names::Dialect;", "    ///",
        '    /// let triple = triple!("aarch64-apple-darwin");',
        "    /// let names = Dialect::ALL.iter().filter_map(|it| it.write(&triple));",
        '    /// assert!(names.map(|it| it.to_string()).any(|it| it == "darwin/arm64"));', "    /// ```",
        "    pub const ALL: &'static [Dialect] = &[", *(f"        Dialect::{it.variant}," for it in dialects), "    ];",
        "}", "",
        f"pub(crate) const DIALECT_NAMES: [&str; {len(dialects)}] = [",
        *filled([f'"{it.name}",' for it in dialects], " ", "    "), "];",
        f"pub(crate) const OTHER_NAMES: [(&str, Dialect); {len(others)}] = [{rust_pairs(others)}];", "",
        f'pub(crate) const ONLY_WRITTEN: &str = "{tables.only_written}";', "",
        "/// Why a triple has no name in a dialect. `Display` says it, and what would help.",
        "#[derive(Clone, Copy, Debug, PartialEq, Eq, Hash)]", "#[non_exhaustive]", "pub enum WriteError {",
        *(line for name, text in tables.reasons for line in (f"    /// {text[0].upper()}{text[1:]}.", f"    {name},")),
        "}", "",
        "/// The reasons, in the order of the variants.",
        f"pub(crate) const WRITE_REASONS: [&str; {len(tables.reasons)}] = [",
        *(f'    "{text}",' for _, text in tables.reasons), "];", *types, "",
        "/// Why a string isn't read that has such a system, by its name.",
        "macro_rules! systems {", "    ($($word:literal)*) => {",
        f'        &[$(($word, concat!("{NO_SYSTEM}", $word))),*]', "    };", "}", "",
        "/// Why a name isn't read that no row refuses.", "pub(crate) mod refusals {",
        *(f'    pub(crate) const {name}: &str = "{text}";' for name, text in tables.refusals), "}", "",
        "/// Why config.sub refuses a string, which is no name.",
        f"pub(crate) const OF_CONFIG_SUB: [&str; {len(tables.refusals) - 1}] = [",
        *(f"    refusals::{name}," for name, _ in tables.refusals if name != "SEVERAL"), "];", "",
        "/// A text that patterns begin or end with, the least first number of a version, and the most.",
        "pub(crate) static VERSION_RANGES: &[(&str, u16, u16)] = &[",
        *(f'    ("{text}", {least}, {most}),' for text, least, most, _ in tables.versions), "];", "",
        f"pub(crate) static TABLES: [Table; {len(dialects)}] = [",
    ]
    for it in dialects:
        lines += [f"    Table {{ rules: {table_rules(it)}, rows: &[",
                  *(f'        ("{name}", "{meaning}", {way}),' for name, meaning, way in it.rows), "    ],"]
        for word, of in (("notes", it.notes), ("levels", it.levels)):
            lines += [f"    {word}: &[", *(f'        ("{name}", "{of_name}"),' for name, of_name in of), "    ],"]
        for word, numbers in zip(("by_name", "patterns"), row_orders(it)):
            lines += [f"    {word}: &[", *(filled(numbers, " ", "        ") if numbers else []), "    ],"]
        lines += ["    },"]
    lines += ["];", *texts("MAKERS", "maker"), *texts("KERNELS", "kernel"), *texts("NOT_MACHINES", "notmachine"),
              *texts("NOT_SYSTEMS", "notsystem"), *texts("OTHER_MAKERS", "othermaker"),
              *texts("NO_VENDORS", "novendor"), *texts("OTHER_WORDS", "otherword"),
              *texts("CUSTOM_VENDORS_OF_RUSTC", "custom"), "",
              "pub(crate) static SYSTEMS: &[(&str, &str)] = systems![",
              *filled([f'"{it}"' for it in words["system"]], " ", "    "), "];", "",
              "/// What words say, in the order of the bytes of the words.",
              "pub(crate) static WORDS: &[(&str, &str)] = &[",
              *filled([f'("{word}", "{said}"),' for word, said in sorted(tables.said.items())], " ", "    "), "];", ""]
    return {"packages/names/src/table.rs": "\n".join(lines)}
