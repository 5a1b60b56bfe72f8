"""Writes definitions of crates/*/specs, and laws of crates/*/src/laws.rt, as Coq: those that are asked for, and what
they need.

A definition becomes a Definition or a Fixpoint whose clauses are one `match`, a record a Record, and a proposition a
Type, as in the specs; a law becomes the Definition `law_` and its name. Coq checks the types. What the kit's library
means is in Kit.v, where library.txt has no clause, and else written from its clauses. What isn't understood is an error
with its file and line.
"""
import functools
import re
import sys
from pathlib import Path

sys.path.insert(0, str(Path(__file__).resolve().parents[1]))
from reading import (  # noqa: E402
    CRATES, LIBRARY, ROOT, TOKEN, Definition, Laws, Module, Names, Parser, Untranslated, at, code_types, families,
    parts)

TYPES = {"ℕ": "ℕ", "List": "list", "Option": "option", "Bool": "bool", "Text": "string"}
CONSTRUCTORS = {"Bool__true": "true", "Bool__false": "false", "Option__Some": "Some", "Option__None": "None"}
# Words of Coq, and names of its library and of Kit.v that definitions use.
TAKEN = set("""fun let in if then else match with end forall exists return as fix cofix for where Type Prop Set list
    option bool string map length fst snd codes at using struct mod values prod sum pair nil cons inl inr left right
    true false tt Some None True False""".split())


def split_arrows(text):
    """The types between the arrows that are outside of brackets."""
    found, depth = [[]], 0
    for token in TOKEN.findall(text):
        depth += (token in "({") - (token in ")}")
        if token == "→" and not depth:
            found.append([])
        else:
            found[-1].append(token)
    return [" ".join(it) for it in found]


def replaced(it, wholes):
    """An expression in which each of these patterns is the variable that it is bound to."""
    if isinstance(it, tuple):
        return ("whole", wholes[str(it)]) if str(it) in wholes else tuple(replaced(part, wholes) for part in it)
    if isinstance(it, list):
        return [replaced(part, wholes) for part in it]
    return {name: replaced(part, wholes) for name, part in it.items()} if isinstance(it, dict) else it


def mentions(it, name):
    return it in (("var", name), ("whole", name)) or any(mentions(part, name) for part in parts(it))


class Coq:
    """The Coq source. What is needed is written first. A Coq name is that of one definition, as proofs have it bare."""

    def __init__(self, root=ROOT):
        self.names, self.code = Names(root), code_types(root)
        laws = [law for crate in CRATES for law in Laws(crate, root).definitions.values()]
        for module in {law.module for law in laws}:
            self.names.check_names(module)
        self.laws = {law.name: law for law in laws}
        if second := next((law for law in laws if law is not self.laws[law.name]), None):
            raise Untranslated(f"{second.place()}: {second.name}: another crate has a law of this name")
        self.titles, self.done, self.out, self.variables = {}, set(), [], set()
        self.records, self.types_of = {}, {}  # the fields of each record of values; the types of variables

    def source(self, wanted):
        """The laws with these names, and the definitions `crate/Module.name`."""
        for name in wanted:
            crate, _, path = name.rpartition("/")
            if crate:
                *folders, last = path.split(".")
                module = self.names.module(("Rattle", crate, "specs", *folders))
                if not module or last not in {**module.definitions, **module.typed}:
                    raise Untranslated(f"no definition has the name {name}")
                self.need(module.definitions[last]) if last in module.definitions else self.need_type(module, last)
            elif name not in self.laws:
                raise Untranslated(f"no law has the name {name}")
            else:
                self.need(self.laws[name])
        others = {*self.titles.values(), *self.names.module(LIBRARY).definitions} - TAKEN
        others |= {it for of, name in self.titles if of for it in getattr(of.definitions.get(name), "locals", ())}
        if both := [it for it in self.variables if it in others or re.fullmatch(r"(a|whole)\d+", it)]:
            raise Untranslated(f"a variable has the name of another one, or of a definition, {min(both)}")
        text = "(* Written by checks/theorem from the definitions of crates/*/specs. *)\nRequire Import Kit.\n"
        last = None
        for file, part in self.out:
            text += (f"\n(* {file} *)\n" if file != last else "") + f"\n{part}"
            last = file
        return text

    def add(self, file, text):
        self.out.append((file, text))

    # ---- names

    def title(self, key, name):
        if key not in self.titles:
            title = name if name not in TAKEN else f"{key[0].path[-1]}_{name}"
            if title in {*self.titles.values(), *TAKEN}:
                raise Untranslated(f"two definitions have the name {name}")
            self.titles[key] = title
        return self.titles[key]

    def local(self, name):
        """A variable's name in Coq: what ends with ' is no name of the definitions."""
        self.variables.add(name)
        return name + "'" if name in TAKEN or name == "N" else name

    # ---- types

    def type_of(self, module, name):
        """The module and the declaration of a type: of this module, of one that it takes names from, of the code, or of
        the library."""
        if name in module.typed:
            return module, module.typed[name]
        if isinstance(module, Laws) and name in self.code:
            return None, self.code[name]
        if name in module.uses:
            path = module.uses[name]
            if "declared" in path and path[-1] in self.code:
                return None, self.code[path[-1]]
            other = self.names.module(tuple(path[:-1])) if path[0] == "Rattle" and path[1] in CRATES else None
            if other:
                return self.type_of(other, path[-1])
        library = self.names.module(LIBRARY)
        return (library, library.typed[name]) if name in library.typed else None

    def need_type(self, module, name):
        if name in TYPES:
            return TYPES[name]
        owner, found = self.type_of(module, name) or (None, None)
        if not found:
            raise Untranslated(f"no type has the name {name}")
        key = (owner, name)
        title = self.title(key, name)
        if key not in self.done:
            self.done.add(key)
            with at(f"{found.file}:{found.line}: {name}"):
                getattr(self, f"write_{found.kind}")(owner or module, title, found)
        return title

    def write_data(self, module, title, found):
        parameters = [name for _, name, _ in found.parameters]
        lines = [f"  | {title}__{it} : {self.type(module, of, set(parameters))}" for it, of in found.items]
        binders = "".join(f" ({it} : Type)" for it in parameters)
        given = "".join(f"Arguments {title}__{it} {' '.join('{%s}' % name for name in parameters)}.\n"
                        for it, _ in found.items if parameters)
        self.add(found.file, f"Inductive {title}{binders} : Type :=\n" + "\n".join(lines) + f".\n{given}")

    def write_enum(self, module, title, found):
        lines = [f"  | {title}__{it} : " + (f"{self.code_type(module, of)} → " if of else "") + title
                 for it, of in found.items]
        self.add(found.file, f"Inductive {title} : Type :=\n" + "\n".join(lines) + ".\n")

    def write_struct(self, module, title, found):
        self.write_fields(title, "", [(it, self.code_type(module, of)) for it, of in found.items], found.file, True)

    def write_record(self, module, title, found):
        scope, binders, outer = set(), "", self.types_of
        self.types_of = {name: of for _, name, of in found.parameters}
        for bracket, name, of in found.parameters:
            is_value = bracket == "("
            binders += f" ({self.local(name)} : {self.type(module, of, scope)})" if is_value else f" {{{name} : Type}}"
            scope.add(name)
        fields = []
        for name, of in found.items:
            fields.append((name, self.type(module, of, scope, {it: f"{title}__{it}" for it, _ in fields})))
        self.write_fields(title, binders, fields, found.file, found.is_data)
        self.types_of = outer

    def write_fields(self, title, binders, fields, file, is_data):
        if is_data:
            self.records[title] = [it for it, _ in fields]
        body = ";\n".join(f"  {title}__{it} : {of}" for it, of in fields)
        self.add(file, f"Record {title}{binders} : Type := {{\n{body}\n}}.\n")

    def code_type(self, module, text):
        """A type of the code."""
        text = text.strip()
        if it := re.fullmatch(r"Option<(.*)>", text):
            return f"(option {self.code_type(module, it[1])})"
        if text in ("u8", "u16", "u32", "u64", "usize"):
            return "ℕ"
        if text not in self.code:
            raise Untranslated(f"the type {text} of the code")
        fake = Module.__new__(Module)
        fake.typed, fake.uses, fake.path = {}, {text: ["declared", text]}, ("code",)
        return self.need_type(fake, text)

    def type(self, module, text, scope, fields=()):
        """A type is an expression too."""
        parser = Parser(re.sub(r"Unit \{0\}", "⊤", re.sub(r"Type 0|Type ℓ", "Type", text)))
        found = self.expression(Definition(module, "", ""), parser.expression(), set(scope) | set(fields), dict(fields))
        if parser.peek():
            raise Untranslated(f"{parser.peek()!r} is left of {text}")
        return found

    # ---- expressions

    def expression(self, d, it, scope, renamed=None):
        go = functools.partial(self.expression, d, scope=scope, renamed=renamed)
        kind = it[0]
        if kind == "whole" or kind == "str":
            return it[1]
        if kind == "num":
            return str(it[1])
        if kind == "nil":
            return "[]"
        if kind == "tuple":
            return "(" + ", ".join(map(go, it[1])) + ")"
        if kind == "if":
            return f"(if {go(it[1])} then {go(it[2])} else {go(it[3])})"
        if kind in ("lam", "all", "any") and it[1] in scope - {"_"}:  # an alias of a pattern could be of the other one
            raise Untranslated(f"a second variable {it[1]}")
        if kind == "lam":
            return f"(λ {self.local(it[1])}, {self.expression(d, it[2], scope | {it[1]}, renamed)})"
        if kind in ("all", "any"):
            type, self.types_of[it[1]] = self.type(d.module, it[2], scope), it[2]
            body = self.expression(d, it[3], scope | {it[1]}, renamed)
            name = self.local(it[1])
            return f"(∀ {name} : {type}, {body})" if kind == "all" else f"{{{name} : {type} & {body}}}"
        if kind == "op":
            return f"({go(it[2])} {it[1]} {go(it[3])})"
        if kind == "app":
            return "(" + " ".join(map(go, [it[1], *it[2]])) + ")"
        if kind == "record":
            return self.record_of(it, go)
        if kind == "get":
            return self.field_of(d, it, scope, go)
        if renamed and it[1] in renamed:
            return renamed[it[1]]
        if it[1] in scope:
            return self.local(it[1])
        if it[1] in ("_", "⊤", "⊥", "zero", "Type", "Unit"):
            return {"⊤": "True", "⊥": "False", "zero": "0", "Unit": "True"}.get(it[1], it[1])
        return self.named(d, self.names.resolve(d, it), it[1])

    def field_of(self, d, it, scope, go):
        """A field, an item of a pair, or a name after a namespace."""
        root = it
        while root[0] == "get":
            root = root[1]
        what = self.names.resolve(d, it) if root[0] != "var" or root[1] not in scope else ("", "")
        if what[0]:
            return self.named(d, what, it[2])
        of = go(it[1])  # first, so that its type is written
        if it[2].isdigit():
            return f"({['fst', 'snd'][int(it[2])]} {of})"
        owners = [title for title, fields in self.records.items() if it[2] in fields]
        if len(owners) > 1 and it[1][0] == "var" and it[1][1] in self.types_of:
            owners = [self.need_type(d.module, self.types_of[it[1][1]])]
        if len(owners) != 1:
            raise Untranslated(f"the field {it[2]} is of {' or '.join(owners) or 'no record'}")
        return f"({owners[0]}__{it[2]} {of})"

    def record_of(self, it, go):
        of = it[1] and go(it[1])
        titles = [title for title, fields in self.records.items() if set(fields) >= set(it[2])
                  and (it[1] or len(fields) == len(it[2]))]
        title = self.result if self.result in titles else next(iter(titles), None)
        if not title:
            raise Untranslated(f"no record has the fields {', '.join(it[2])}")
        fields = [f"{title}__{name} := " + (go(it[2][name]) if name in it[2] else f"{title}__{name} {of}")
                  for name in self.records[title]]
        return "{| " + "; ".join(fields) + " |}"

    def named(self, d, what, name):
        kind, found = what
        if kind == "constructor":
            owner, _, variant = found.partition("__")
            if owner in self.code and variant not in dict(self.code[owner].items):
                raise Untranslated(f"{owner} has no variant {variant}")
            if found not in CONSTRUCTORS:
                self.need_constructor(d, owner)
            return CONSTRUCTORS.get(found, found)
        if kind == "definition":
            return self.need(found)
        return found.name if kind == "built in" else self.need_type(d.module, name)

    def need_constructor(self, d, owner):
        if owner in self.code and owner not in [name for of, name in self.done if of]:
            self.code_type(d.module, owner)
        elif owner not in [name for _, name in self.done]:
            self.need_type(d.module, owner)

    # ---- definitions

    def need(self, d):
        key, is_law = (d.module, d.name), isinstance(d.module, Laws)
        title = self.title(key, f"law_{d.name}" if is_law else d.name)
        if key not in self.done:
            self.done.add(key)
            self.types_of, outer = {}, self.types_of
            with at(f"{d.place()}: {d.name}"):
                if is_law and d.is_of_code:
                    raise Untranslated("it is a law of the code")
                self.define(d, title)
            self.types_of = outer
        return title

    def define(self, d, title):
        heads = split_arrows(d.type)
        implicit = [name for it in heads if it[0] == "{" for name in it[1:it.index(":")].split()]
        scope, result, heads = set(implicit), heads[-1], [it for it in heads[:-1] if it[0] != "{"]
        types = [self.type(d.module, it, scope) for it in heads]
        count = len(d.clauses[0][0])
        result = "".join(f"({it}) → " for it in types[count:]) + self.type(d.module, result, scope)
        self.result = result  # of two records with the same fields it is that one
        names, columns = [], []  # the arguments; those that are matched
        for i in range(count):
            found = {patterns[i] if self.is_variable(d, patterns[i]) else None
                     for patterns, _ in d.clauses} - {("var", "_")}
            if len(found) == 1 and None not in found:
                names.append(self.local(next(iter(found))[1]))
            else:
                names.append(f"a{i}")
                columns += [i] if found else []
        arms, is_recursive = [], any(mentions(body, d.name) for _, body in d.clauses)
        for i, (patterns, body) in enumerate(d.clauses):
            with at(f"{d.place(i)}: {d.name}"):
                arms.append(self.arm(d, patterns, body, heads, columns, scope))
        matched = f"match {', '.join(names[i] for i in columns)} with"
        if len(columns) > 3:  # in turn: a `match` of all would have a branch for each way to combine the cases
            no = ", ".join("_" for _ in columns)
            code = "\n  ".join([*(f"({matched} {left} => Some {body} | {no} => None end) ??"
                                  for left, body in arms[:-1]),
                                f"{matched} {arms[-1][0]} => {arms[-1][1]} end"])
        elif columns:
            code = "\n".join([matched, *(f"  {left} => {body}" for left, body in arms), "  end"])
        elif len(arms) == 1:
            code = arms[0][1]
        else:
            raise Untranslated("several clauses without patterns")
        binders = "".join(f" {{{it} : Type}}" for it in implicit) + "".join(
            f" ({it} : {of})" for it, of in zip(names, types))
        self.add(d.module.file,
                 f"{'Fixpoint' if is_recursive else 'Definition'} {title}{binders} : {result} :=\n  {code}.\n")

    def arm(self, d, patterns, body, heads, columns, scope):
        """The patterns of these columns, and the body."""
        inner, wholes = set(scope), {}
        self.types_of |= {it[1]: of for it, of in zip(patterns, heads) if self.is_variable(d, it)}
        inner |= {it[1] for i, it in enumerate(patterns) if i not in columns}
        codes = [self.pattern(d, patterns[i], inner, wholes) for i in columns]
        if wholes:
            body = replaced(body, wholes)
            codes = [self.pattern(d, patterns[i], inner, wholes, body) for i in columns]
        return "| " + ", ".join(codes), self.expression(d, body, inner)

    def is_variable(self, d, it):
        return it[0] == "var" and it[1] not in ("zero", "suc") and self.names.resolve(d, it)[0] != "constructor"

    def pattern(self, d, it, scope, wholes, used=None, inside=False):
        """A pattern. A list inside of it that the body has again, `used`, gets a name: Coq must see that it is a part
        of the argument."""
        go = functools.partial(self.pattern, d, scope=scope, wholes=wholes, used=used, inside=True)
        if self.is_variable(d, it):
            if it[1][0].isupper() or "__" in it[1]:
                raise Untranslated(f"a variable {it[1]}, which could be a constructor or a field")
            scope.add(it[1])
            return self.local(it[1])
        if it[:2] == ("op", "∷"):
            code = f"({go(it[2])} ∷ {go(it[3])})"
            name = wholes.setdefault(str(it), f"whole{len(wholes)}") if inside else None
            return f"({code} as {name})" if inside and used is not None and mentions(used, name) else code
        if it[0] == "tuple":
            return "(" + ", ".join(map(go, it[1])) + ")"
        if it[0] == "app":
            return "(" + " ".join([self.expression(d, it[1], scope), *map(go, it[2])]) + ")"
        return self.expression(d, it, scope)


# ---- what is proved

# The files, in order; Specs is written.
FILES = "Kit Specs Names Texts Exceptions Rounds Upstream Growth Queries".split()

# Laws that aren't proved here, and why.
LEFT_OUT = {
    "results_are_computed": "it is of errors of the code, one of which is a lack of memory",
    "rows_are_sorted_and_complete": "it is of the table in which the code searches",
    "texts_are_put_in_order": "it is of the buffers that the code writes into",
    "lists_read_back": "it is of JSON values of the kit's serde_json",
}
# What other parts need of the definitions.
NEEDED = [f"lexicon_fields/{it}" for it in (
    "ArchitectureQueries.is_thumb ArchitectureQueries.is_clever OperatingSystem.is_like_darwin Vendor.is_custom "
    "PointerWidth.width_bits PointerWidth.width_name Endianness.endianness_name "
    "Architecture.sub_architecture_of").split()] + [
    f"lexicon_fields/SubArchitecture.as_{it.lower()}" for it in families()] + [
    f"target_lexicon/{it}" for it in (
        "GreedyReading.reading GreedyReading.finished_sources Explanation.AreSourcesOf Explanation.whole_text_sources "
        "Explanation.placed_from Explanation.with_source Refusal.refusal_line Printing.upstream_string_of "
        "DataModel.sizes_of DataModel.size_bits DataModel.model_name CallingConvention.convention_name").split()]
# What is proved and isn't a law of laws.rt: it is of no code.
PROPOSITIONS = {"upstream_round_trips_are_known": "target_lexicon/UpstreamRounds.UpstreamRoundTripsAreKnown"}


def write(root, folder):
    """Writes Specs.v. Returns the theorems with their statements."""
    coq = Coq(root)
    laws = [name for name, law in coq.laws.items() if not law.is_of_code and name not in LEFT_OUT]
    folder.joinpath("Specs.v").write_text(coq.source([*laws, *PROPOSITIONS.values(), *NEEDED]), encoding="utf-8")
    return {name: f"Specs.law_{name}" for name in laws} | {name: f"Specs.{of.rpartition('.')[2]}"
                                                           for name, of in PROPOSITIONS.items()}
