"""What the types that MIR names are in Coq, and what is called by a path of MIR."""
import re

from mir_grammar import ANY, Unknown, split, std_trait

BITS = {"u8": "8", "u16": "16", "u32": "32", "u64": "64", "usize": "usize_bits"}
TEXTS = ("str", "std::string::String")
PLAIN = {"bool": "bool", "char": "ℕ", "()": "unit", "std::fmt::Error": "unit", "std::fmt::Formatter": "Formatter",
         "std::cmp::Ordering": "comparison", "std::ops::Range<usize>": "(ℕ × ℕ)",
         "std::str::Split<char>": "(list (list ℕ))", "std::num::ParseIntError": "unit",
         "H": "Fed", "__H": "Fed",  # a hasher, whatever it makes of what it is fed
         **dict.fromkeys(BITS, "ℕ"), **dict.fromkeys(TEXTS, "(list ℕ)")}
STD = {"option": [("None", 0), ("Some", 1)], "Result": [("Result__Ok", 1), ("Result__Err", 1)],
       "ControlFlow": [("ControlFlow__Continue", 1), ("ControlFlow__Break", 1)],
       "comparison": [("Eq", 0), ("Gt", 0), ("Lt", 0)]}
WRAPPERS = r"&(?!mut )(.*)|std::boxed::Box<(.*)>|std::borrow::Cow<(.*)>"


def wrapped(type):
    """The type of what a reference, a box or a `Cow` has, or none."""
    m = re.fullmatch(WRAPPERS, type)
    return m and next(filter(None, m.groups()))


def strip(type):
    """A type without what refers to it or owns it: these are its value."""
    while inner := wrapped(type):
        type = inner
    return type


def referred(type):
    """What a reference of this type refers to, or the pointer of a box."""
    return strip(re.sub(r"^(&mut |\*const )", "", strip(type)))


def arguments(type):
    return split(type[type.index("<") + 1:-1])


class Types:
    """The types of Coq. One of the crate has the same variants, or fields in order, in Coq; rustc's order is kept."""

    def __init__(self, crate, declared, known):
        self.crate, self.declared, self.titles, self.constructors, self.fields = crate, declared, {}, {**STD}, {}
        self.enums, self.records = {}, {}
        self.numbers = {}  # the fields of numbers, with their type
        for title, text in re.findall(r"^Inductive (\w+)[^:\n]*: Type :=\n(.*?)\.\n", known, re.M | re.S):
            cases = re.findall(r"\| (\w+)(?: : ([^|]*?))?(?=\n|$)", text)
            self.enums[title] = [(name, max(0, len(of.split("→")) - 1)) for name, of in cases]
        for title, text in re.findall(r"^Record (\w+) : Type := \{\n(.*?)\n?\}\.", known, re.M | re.S):
            self.records[title] = re.findall(r"^  (\w+) :", text, re.M)

    def title(self, path):
        """The name in Coq of a type of the crate."""
        if path not in self.titles:
            parts, name = self.declared.get(path), path.split("::")[-1]
            if parts is None:
                raise Unknown(f"the type {path}")
            title = next((it for it in ("Rs" + name, name) if it in self.enums or it in self.records), None) \
                or self.declare(path, name, parts)
            if title in self.titles.values():
                raise Unknown(f"the type {path}, whose name in Coq is another one")
            is_enum = title in self.enums
            own = [(f"{title}__{it[0]}", it[1]) if is_enum else f"{title}__{it}" for it in parts]
            known = self.enums[title] if is_enum else self.records[title]
            if sorted(own) != sorted(known) or not is_enum and own != known:
                raise Unknown(f"the type {path}, which isn't declared as {title} is in Coq")
            (self.constructors if is_enum else self.fields)[title] = own
            self.titles[path] = title
        return self.titles[path]

    def ranges(self):
        """What Rust's types say of the numbers in each record: Coq's have no greatest number."""
        for title in sorted({title for title, _ in self.numbers}):
            below = [f"{field} it < 2 ^ {BITS[of]}" for (it, field), of in sorted(self.numbers.items()) if it == title]
            yield f"Definition mir_range_{title} (it : {title}) : Prop := {' ∧ '.join(below)}.\n"

    def declare(self, path, _name, _parts):
        raise Unknown(f"the type {path}, which Coq doesn't have")

    def head(self, type):
        """The name in Coq of a type with constructors or fields."""
        type = referred(type)
        if m := re.match(r"std::(option::Option|result::Result|ops::ControlFlow)<", type):
            return "option" if m[1] == "option::Option" else m[1].split("::")[1]
        return PLAIN.get(type) or self.title(type)

    def coq(self, type):
        type = referred(type)
        if type in PLAIN:
            return PLAIN[type]
        if m := re.fullmatch(r"\[(.*?)(; [\w:]+)?\]", type):
            return f"(list {self.coq(m[1])})"
        if type[0] == "(":
            first, *others = map(self.coq, split(type[1:-1]))
            for it in others:
                first = f"({first} × {it})"
            return first
        if re.match(r"std::(option::Option|result::Result)<", type):
            return f"({self.head(type)} {' '.join(map(self.coq, arguments(type)))})"
        return self.title(type)


def of_call(path):
    """The trait, or none, the type or the module, and the name of what is called."""
    if m := re.fullmatch(rf"<({ANY}*) as ([\w:]+)(<{ANY}*>)?>::(\w+)(?:::<{ANY}*>)?", path):
        owner, trait, parameters, name = m.groups()
        if parameters and not trait.startswith("std::"):
            raise Unknown(f"the call of {path}, of a trait with parameters")
        return std_trait(trait) if trait.startswith("std::") else trait, owner, name
    if m := re.fullmatch(rf"([\w:]*<impl ({ANY}*)>)::(\w+)(?:::<{ANY}*>)?", path):
        return None, m[1] if path.startswith("std::") else m[2], m[3]  # the crate may have a module `str`
    owner, _, name = re.sub(rf"::<{ANY}*?>", "", path).rpartition("::")
    return None, owner, name
