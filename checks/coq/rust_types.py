"""The items of a crate, and what of them is written before the functions: types, equalities and constants.

A type that the definitions have with the same declaration is that one; any other has its name with `Rs` before it."""

import copy
import re

from rust_grammar import BYTES, STR, T, UNIT, Parser, Unknown, both

WIDTH = {"u8": 8, "u16": 16, "u32": 32, "u64": 64, "usize": 64}
# The traits that may be implemented beside those of the crate, each with its methods; and those whose methods no
# function calls that is translated, so that they aren't read.
TRAITS = {"Default": ["default"], "Display": ["fmt"], "Eq": [], "From": ["from"], "FromStr": ["from_str"],
          "PartialEq": ["eq"], "TryFrom": ["try_from"]}
UNCALLED = "Deserialize Error Hash Ord PartialOrd Serialize".split()
# Names of methods that std has for types of the crate: one of these in a trait or a type of its own could hide it.
HIDING = """borrow borrow_mut as_ref clamp clone clone_into cmp default eq fmt from ge gt hash into le lt max min ne
    partial_cmp to_owned to_string try_from try_into type_id""".split()
# What may be imported from std, and names that have std's meaning: nothing of the crate may have one.
STD_NAMES = """alloc::borrow::Cow alloc::boxed::Box alloc::string::String alloc::string::ToString alloc::vec
    core::cmp::Ordering core::fmt core::fmt::self core::fmt::Write::_ core::hash::Hash core::hash::Hasher
    core::mem::discriminant core::ops::Range core::str::FromStr core::str::from_utf8""".split()
COMPAT = """pub ( crate ) trait Chunks < T > { fn first_chunk < const N : usize > ( & self ) -> Option < & [ T ; N ] > ;
    fn last_chunk < const N : usize > ( & self ) -> Option < & [ T ; N ] > ; } impl < T > Chunks < T > for [ T ] {
    fn first_chunk < const N : usize > ( & self ) -> Option < & [ T ; N ] > {
    self . get ( .. N ) ? . try_into ( ) . ok ( ) }
    fn last_chunk < const N : usize > ( & self ) -> Option < & [ T ; N ] > {
    self . get ( self . len ( ) . checked_sub ( N ) ? .. ) ? . try_into ( ) . ok ( ) } }""".split()
# Macros that a body may use which isn't read: none makes an impl, which would be one of the whole crate.
MACROS = "cfg! concat! env! include! matches! unreachable! vec! write!".split()
RESERVED = """Option Some None Result Ok Err Range Box Cow CowStr String ToString Into AsRef Clone Copy Debug Drop core
    alloc std from_utf8 matches unreachable cfg vec panic include concat self Self""".split()
BUILT_IN = {"str": "(list ℕ)", "Formatter": "Formatter", "Ordering": "comparison", "char": "ℕ", "Error": "unit",
            "bool": "bool"}


def generics(p):
    """Skips what is between < and >: only lifetimes, so that no type has the name of another one."""
    if p.peek() == "<" and {*p.skip("<")} - {",", ":", "+"} and p.strict:
        raise p.unknown("a parameter that is a type")


def unread(p, words):
    """What is passed over has no impl and no macro of the crate, which would hold outside of it too."""
    found = [it for it, after in zip(words, [*words[1:], ""])
             if it == "impl" and after != "Into" or it[-1:] == "!" != it and it not in MACROS]
    if found and p.strict:
        raise p.unknown(f"{found[0]} within what isn't read")


class Function:
    """A function; `owner` is its type, and `trait` the trait that it is of, whose own body it has if it `is_default`.
    Its signature and body are read when it is needed."""

    def __init__(self, prefix, owner, name, parser, at, trait="", is_default=False):
        self.owner, self.name, self.parser, self.at, self.trait = owner, name, parser, at, trait
        self.is_default = is_default
        self.title = "_".join(filter(None, (prefix, owner, name)))
        self.impure = self.fuel = self.recursive = self.done = self.running = False
        self.problem, self.is_seen, self.module = None, True, None

    def renamed(self, prefix, name):
        it = Function(prefix, self.owner, name, self.parser, self.at, self.trait, self.is_default)
        it.is_seen, it.module = self.is_seen, self.module
        return it

    def read(self):
        def own(t):
            return T(self.owner) if t == T("Self") else tuple(own(x) if isinstance(x, tuple) else x for x in t)
        p = self.parser
        p.at = self.at
        generics(p)
        p.next("(")
        self.mutable = set()

        def parameter():
            if not p.certain():
                raise p.unknown("a parameter that a feature drops")
            reference, mutable = p.has("&"), p.has("mut")
            name = p.next()
            if mutable and not reference:
                self.mutable.add(name)
            if name == "self":
                return name, ("mut", T(self.owner)) if reference and mutable else T(self.owner)
            p.next(":")
            return name, own(p.type())
        self.parameters = p.many(")", parameter)
        self.result = own(p.type()) if p.has("->") else UNIT
        self.muts = [name for name, type in self.parameters if type[0] == "mut"]
        return p.block()


class Crate:
    """The items of a crate. Of two functions of a type with one name Rust takes the type's own one: the one of a trait
    has the trait's name before its own."""

    def __init__(self, files, features, prefix="rs", parser=Parser, root=None):
        """`files` are pairs of a name and a text. With a root each module of them is read too. The names of what is
        written begin with `prefix`."""
        self.prefix, self.root, self.inert, self.inline = prefix, root, False, ()
        self.enums, self.structs, self.functions, self.constants, self.aliases, self.derived = {}, {}, {}, {}, {}, {}
        self.traits, self.macros, self.imports, self.owners, self.modules = {}, {}, [], [], []
        for name, text in files:
            self.items(parser(text, name, features), "")
        for place, path in self.imports if root else []:
            self.imported_is_known(place, path)
        for place, owner in self.owners if root else []:
            if owner not in self.enums and owner not in self.structs and owner not in self.traits:
                raise Unknown(f"an impl for {owner}, which is no type of the crate", place)

    def items(self, p, end):
        while p.peek() != end:
            self.item(p)
        p.next()

    def add(self, table, name, value, parser):
        if parser.strict and not re.fullmatch("[A-Z][A-Za-z0-9_]*", name):
            raise parser.unknown(f"the name {name} of an item")
        taken = parser.strict and (name in {*RESERVED, *WIDTH, *BUILT_IN, *TRAITS, *UNCALLED} or any(
            name in it for it in (self.enums, self.structs, self.constants, self.aliases, self.traits)))
        table[name] = value if name not in table and not taken else self.refuse(parser, f"a second {name}")

    def refuse(self, p, what):
        raise p.unknown(what)

    def item(self, p):
        kept, derived = p.attributes()
        kept = both([kept, None if self.inert else True])
        p.visibility()
        kind = p.next()
        if kind == "use":
            self.imports += [(p.place(), it) for it in self.imported(p, ()) if kept]
            p.next(";")
        elif kind == "extern":
            if p.next() != "crate" or p.next() not in ("alloc", "std") or p.peek() != ";":
                raise p.unknown("another crate")
            p.next(";")
        elif kind == "mod":
            self.module(p, kept)
        elif kind in ("impl", "trait"):
            self.implementation(p, kind, kept)
        elif kind == "macro_rules!":
            name, body = p.next(), p.skip(p.peek())
            p.has(";")
            if p.strict and (name in RESERVED or (p.file, name) in self.macros):
                raise p.unknown(f"the macro {name}")
            self.macros[p.file, name] = body
        elif kind.endswith("!"):
            words = p.skip(p.peek())
            p.has(";")
            if kept is not False:
                self.expanded(p, kind[:-1], words)
        elif kept is None:
            raise p.unknown("what another feature changes")
        elif kind == "fn":
            self.function(p, None, "", kept)
        elif kind in ("const", "static", "type"):
            name, type = p.next(), p.type() if kind != "type" and p.has(":") else None
            p.next("=")
            if kind == "type":
                self.add(self.aliases, name, p.type(), p)
            elif kept:
                self.add(self.constants, name, (type, p, p.at), p)
            start = p.at
            p.to({";"})
            unread(p, p.tokens[start:p.at])
            p.next(";")
        elif kind in ("enum", "struct"):
            name = p.next()
            generics(p)
            is_tuple = kind == "struct" and p.has("(")
            parts = p.many(")", lambda: self.part(p, "tuple")) if is_tuple else None
            if parts is not None or p.has(";"):
                if not all(it[0] for it in parts or []):
                    raise p.unknown("a field that a feature drops")
                parts = [(True, str(i), it[2]) for i, it in enumerate(parts or [])]
                p.has(";")
            else:
                p.next("{")
                parts = p.many("}", lambda: self.part(p, kind))
            if kept:
                self.add(self.enums if kind == "enum" else self.structs, name, [it[1:] for it in parts if it[0]], p)
                self.derived[name] = derived
        else:
            raise p.unknown(f"an item that begins with {kind!r}")

    def part(self, p, kind):
        """A variant with the types of its arguments, or a field with its type; and whether the configuration has it."""
        kept = p.certain()
        p.visibility()
        name = p.next() if kind != "tuple" else None
        if kind == "enum" and p.strict and not re.fullmatch("[A-Z][A-Za-z0-9_]*", name):
            raise p.unknown(f"the variant {name}")
        if kind == "enum":
            return kept, name, p.many(")", p.type) if p.has("(") else []
        if name:
            p.next(":")
        return kept, name, p.type()

    def module(self, p, kept):
        """Reads a module, in the file where rustc looks for it. Of one with another feature only impls are allowed of
        traits that nothing calls."""
        name, before = p.next(), self.inert
        if p.strict and (not re.fullmatch(r"[a-z][a-z0-9_]*", name) or name in {*RESERVED, *WIDTH, *BUILT_IN}):
            raise p.unknown(f"the module {name}")
        self.inert |= kept is None
        if p.peek() == "{":
            self.inline += (name,)
            p.skip("{") if kept is False else (p.next(), self.items(p, "}"))
            self.inline = self.inline[:-1]
        elif p.next(";") and self.root and kept is not False:
            if self.inline:
                raise p.unknown(f"the file of {name}, a module within another one of this file")
            folder, of = (self.root / p.file).parent, p.file.rpartition("/")[2].removesuffix(".rs")
            folder = folder if of in ("lib", "mod") else folder / of
            found = [it for it in (folder / f"{name}.rs", folder / name / "mod.rs") if it.exists()]
            if len(found) != 1:
                raise p.unknown(f"{len(found)} files of the module {name}")
            of = type(p)(found[0].read_text(encoding="utf-8"), str(found[0].relative_to(self.root)), p.features)
            if name == "compat":  # it has types that are parameters, and is what it was when Rust.v was written
                words = of.tokens[of.tokens.index("pub"):]
                if words[:len(COMPAT)] != COMPAT or words[len(COMPAT):][:6] != "# [ cfg ( test )".split():
                    raise of.unknown("code that isn't that of checks/coq/rust_types.py")
                self.traits["Chunks"] = []
            else:
                self.items(of, "")
        self.modules.append(name)
        self.inert = before

    def implementation(self, p, kind, kept):
        """An impl or a trait. One of a trait whose calls nothing that is translated has is skipped."""
        generics(p)
        owner, trait = p.type(), ""
        if kind == "trait":
            trait = owner[1]
            p.to({"{"})
            if owner[2] and p.strict:
                raise p.unknown("a parameter that is a type")
        elif p.has("for"):
            trait, is_reference = "_".join([owner[1], *(it[1] for it in owner[2])]), p.peek() == "&"
            if p.strict and owner[1] in UNCALLED:
                p.to({"{"})
                unread(p, p.skip("{"))
                return
            if p.strict and owner[1] not in TRAITS and owner[1] not in self.traits:
                raise p.unknown(f"an impl of the trait {owner[1]}")
            owner = p.type()
            if p.strict and is_reference:
                raise p.unknown(f"an impl for a reference to {owner[1]}")
        if p.strict and (kept is None or owner[0] != "T"):
            raise p.unknown(f"an impl for {owner[1]}" + " with another feature" * (kept is None))
        self.owners += [(p.place(), owner[1])] * bool(kept)
        p.next("{")
        own, of = [], trait.partition("_")[0]
        while not p.has("}"):
            part_kept = p.certain() and kept
            is_seen = p.visibility()
            if p.has("type"):
                if p.peek() not in ("Err", "Error") and p.strict:
                    raise p.unknown(f"the type {p.peek()} of a trait")
                p.to({";"})
                p.next(";")
                continue
            p.has("const")
            p.next("fn")
            if p.strict and kind == "impl" and p.peek() not in TRAITS.get(of, [p.peek()]):
                raise p.unknown(f"{p.peek()} of the trait {of}")
            own.append((p.peek(), p, p.at, part_kept))
            self.function(p, None if kind == "trait" else owner[1], trait, part_kept and kind == "impl", False, is_seen)
        if kind == "trait":
            self.add(self.traits, trait, own, p)
        for name, parser, at, part_kept in self.traits.get(trait, []) if kind == "impl" else []:
            if name not in [it[0] for it in own]:  # the trait's own body
                end, parser.at = parser.at, at
                self.function(parser, owner[1], trait, kept and part_kept, True)
                parser.at = end

    def function(self, p, owner, trait, kept, is_default=False, is_seen=True):
        """That of a trait of another type has this in its name."""
        name = p.next()
        title = name + trait.removeprefix(trait.split("_")[0])
        f = Function(self.prefix, owner, title, p, p.at, trait, is_default)
        f.is_seen, f.module = is_seen or bool(trait), (p.file, self.inline)
        p.to({"{", ";"})
        if p.has(";"):
            return
        p.skip("{")
        unread(p, p.tokens[f.at:p.at])
        if not kept:
            return
        hides = name in HIDING and trait.split("_")[0] not in TRAITS or name in RESERVED and not owner
        if p.strict and (hides or not re.fullmatch("[a-z][a-z0-9_]*", name)):
            raise p.unknown(f"a function called {name}")
        before = self.functions.get((owner, title))
        if before and bool(trait) != bool(before.trait):
            own, other = (before, f) if trait else (f, before)
            self.functions[owner, title] = own
            f = other.renamed(self.prefix, f"{other.trait}_{title}")
            before = self.functions.get((owner, f.name))
        if before:
            before.twice = True
        self.functions[owner, f.name] = before or f

    def of_trait(self, owner, trait, name):
        """The function of a trait, whether or not the type has its own of that name."""
        name += trait.removeprefix(trait.split("_")[0])
        found = [self.functions.get((owner, it)) for it in (f"{trait}_{name}", name)]
        return next((it for it in found if it and it.trait == trait), None)

    def expanded(self, p, name, words):
        """Reads the items that a macro of one repeated rule makes, `($(..)*) => {$(..)*};`."""
        def of(tokens):
            q = copy.copy(p)
            q.set_tokens([(it, p.lines[p.at]) for it in [*tokens, ""]])
            q.at = 0
            return q
        q = of(self.macros.get((p.file, name)) or self.refuse(p, f"the macro {name}"))
        wanted, _, body, _ = q.skip("("), q.next("=>"), q.skip("{"), q.has(";")
        if [it for of in (wanted, body) for it in (*of[:2], *of[-2:])] != "$ ( ) * $ ( ) *".split() or q.peek():
            raise p.unknown(f"the macro {name}, which has another form")
        at, found = 0, []
        while at < len(words):
            values, q = {}, of(wanted[2:-2])
            while q.peek():
                if q.has("$"):
                    variable, _, kind = q.next(), q.next(":"), q.next()
                    end = at + 1
                    if kind == "expr":
                        end = words.index(q.peek(), at) if q.peek() in words[at:] else len(words)
                    elif kind == "ty" and words[end:end + 1] == ["<"]:
                        end = words.index(">", at) + 1
                    elif kind not in ("ident", "literal", "ty"):
                        raise p.unknown(f"what {name} takes, {kind}")
                    values[variable], at = words[at:end], end
                elif q.next() != (words[at:at + 1] or [""])[0]:
                    raise p.unknown(f"words that {name} has no rule for")
                else:
                    at += 1
            q = of(body[2:-2])
            while token := q.next():
                found += [token] if token != "$" else values.get(q.next()) or self.refuse(p, f"what {name} repeats")
        self.items(of(found), "")

    def imported(self, p, before):
        """The paths of a `use`."""
        path = before
        while True:
            if p.has("{"):
                return [it for found in p.many("}", lambda: self.imported(p, path)) for it in found]
            path += (p.next(),) if path or not p.has("::") else ("", p.next())
            if not p.has("::"):
                break
        if p.has("as"):
            if p.next() != "_":
                raise p.unknown("another name of what is imported")
            path += ("_",)
        return [path]

    def imported_is_known(self, place, path):
        """That a name is of std, and one that has its meaning; or that of the one item of the crate that has it."""
        if path[0] in ("core", "alloc", "std"):
            if "::".join(path) not in STD_NAMES:
                raise Unknown(f"the import of {'::'.join(path)}", place)
            return
        *modules, name = path[:-1] if path[-1] == "_" else path
        items = {**self.enums, **self.structs, **self.constants, **self.aliases, **self.traits}
        if {*modules} - {"crate", "super", "self", *self.modules} or not modules or (
                name not in items and (None, name) not in self.functions and name not in self.modules):
            raise Unknown(f"the import of {'::'.join(path)}, which isn't read", place)


class Types:
    """Writes types, equalities and constants, each before what needs it."""

    def __init__(self, crate, known):
        self.crate, self.known, self.out, self.done, self.titles = crate, known, [], {}, {}

    def real(self, type):
        is_alias = type and type[0] == "T" and type[1] in self.crate.aliases
        return self.real(self.crate.aliases[type[1]]) if is_alias else type

    def type(self, it):
        if it[0] == "tuple":
            return "(" + " × ".join(map(self.type, it[1])) + ")" if it[1] else "unit"
        if it[0] in ("slice", "mut", "into"):
            return f"(list {self.type(it[1])})" if it[0] == "slice" else self.type(it[1])
        _, name, args = it
        if name in WIDTH or name in BUILT_IN:
            return BUILT_IN.get(name, "ℕ")
        if name == "Result":
            return f"(Result {' '.join(map(self.type, args or (UNIT, UNIT)))})"
        if name in ("Option", "Range"):
            return f"(option {self.type(args[0])})" if name == "Option" else "(ℕ × ℕ)"
        return self.type(self.crate.aliases[name]) if name in self.crate.aliases else self.need_type(name)

    def parts(self, table, name):
        found = table.get(name)
        if found is None or isinstance(found, Unknown):
            raise found or Unknown(f"the type {name}")
        return found

    def need_type(self, name):
        if name in self.titles:
            return self.titles[name]
        self.parts({**self.crate.enums, **self.crate.structs}, name)
        for title in (name, "Rs" + name):
            self.titles[name] = title
            if name in self.crate.enums:
                arms = [f"  | {title}__{it} : " + "".join(f"{self.type(t)} → " for t in of) + title
                        for it, of in self.crate.enums[name]]
                code = f"Inductive {title} : Type :=\n" + "\n".join(arms) + ".\n"
            else:
                fields = ";\n".join(f"  {title}__{it} : {self.type(of)}" for it, of in self.crate.structs[name])
                code = f"Record {title} : Type := {{\n{fields}\n}}.\n"
            if code in self.known:
                return title
        self.out.append(code)
        return title

    def fields(self, type):
        if not type or type[0] != "T":
            raise Unknown(f"a field of {type}")
        return dict(self.parts(self.crate.structs, type[1]))

    def equal(self, type, x, y):
        """The equality that `==` is: a type's own one, or the structural one if it derives that."""
        type = self.real(type)
        if type is None or type[0] == "T" and type[1] in WIDTH or type == T("char"):
            return f"({x} == {y})"
        if type in (STR, BYTES) or type == T("bool"):
            return f"({'bytes_eq' if type in (STR, BYTES) else 'Bool.eqb'} {x} {y})"
        if type[0] == "T" and type[1] in ("Option", "Result"):
            parts = " ".join(f"(λ x y, {self.equal(it, 'x', 'y')})" for it in type[2])
            return f"({type[1].lower()}_eqb {parts} {x} {y})"
        if type == UNIT:
            return "true"
        if type[0] != "T":
            raise Unknown(f"== of {type}")
        if found := self.crate.of_trait(type[1], "PartialEq", "eq"):
            f = self.need(type[1], found.name)
            if f.impure or f.fuel:
                raise Unknown(f"{f.title} may panic")
            return f"({f.title} {x} {y})"
        title = f"{self.crate.prefix}_{type[1]}_eqb"
        if title not in self.done:
            self.done[title], name = title, self.need_type(type[1])
            if "PartialEq" not in self.crate.derived.get(type[1], []):
                raise Unknown(f"{type[1]} has no equality")
            if type[1] in self.crate.enums:
                arms, variants = [], self.crate.enums[type[1]]
                for it, of in variants:
                    test = " && ".join(self.equal(t, f"x{i}", f"y{i}") for i, t in enumerate(of)) or "true"
                    sides = [f"{name}__{it}" + "".join(f" {side}{i}" for i in range(len(of))) for side in "xy"]
                    arms.append(f"  | {sides[0]}, {sides[1]} => {test}")
                arms += ["  | _, _ => false"] if len(arms) > 1 else []
                code = "match x, y with\n" + "\n".join(arms) + "\n  end"
            else:
                code = " && ".join(self.equal(t, f"({name}__{it} x)", f"({name}__{it} y)")
                                   for it, t in self.crate.structs[type[1]]) or "true"
            self.out.append(f"Definition {title} (x y : {name}) : bool :=\n  {code}.\n")
        return f"({title} {x} {y})"
