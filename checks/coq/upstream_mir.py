"""What upstream's own crate needs of the reader of MIR, and ours doesn't: types that Coq doesn't have, closures that
capture, formatting, iterators, and more of std."""
import copy
import re
from collections import namedtuple

import mir
import mir_body
import mir_std
import mir_types
from mir_body import Con, Mut
from mir_grammar import ANY, Unknown, split
from mir_types import BITS, TEXTS, strip

Shown = namedtuple("Shown", "code")  # what `format_args!` has: an argument's code, or that of all pieces
FORMATTING = ("std::fmt::rt::Argument::new_display", "std::fmt::Arguments::new", "std::fmt::format",
              "std::fmt::Formatter::write_fmt")
# These iterators are the lists of what is left.
ITERATORS = ("<std::str::Split<char> as std::iter::Iterator>::next", "<std::str::Chars as std::iter::Iterator>::next")


def without_generics(path):
    """The path of a function of std without arguments of generics."""
    return re.sub(rf"::<(?!impl ){ANY}*?>", "", path)


class Types(mir_types.Types):
    def declare(self, path, name, parts):
        """Declares a type that Coq doesn't have."""
        title = "Mir" + name
        if parts and isinstance(parts[0], tuple):
            self.enums[title] = [(f"{title}__{name}", count) for name, count in parts]
            arms = [f"  | {title}__{name} : {''.join(f'{self.coq(type)} → ' for type in types)}{title}"
                    for name, count in parts for types in [self.made_of(f"{path}::{name}", count)]]
            code = f"Inductive {title} : Type :=\n" + "\n".join(arms) + ".\n"
        else:
            self.records[title] = [f"{title}__{name}" for name in parts]
            types = self.made_of(path, len(parts))
            fields = ";\n".join(f"  {title}__{name} : {self.coq(type)}" for name, type in zip(parts, types))
            code = f"Record {title} : Type := {{\n{fields}\n}}.\n"
        self.crate.out.append((title, None, code))
        return title

    def made_of(self, path, count):
        """The types of a constructor's arguments: those of its function, or of what a value is made of."""
        for it in self.crate.functions:
            if it.path == path:
                return [type for _, type in it.parameters]
            if m := re.search(rf" = {path} {{ (.*) }};", it.text):
                parts = [re.fullmatch(r"\w+: (?:copy|move) _(\d+)", part) for part in split(m[1])]
                if all(parts):
                    return [it.types[int(part[1])] for part in parts]
        if count:
            raise Unknown(f"the parts of {path}")
        return []


class Body(mir_body.Body):
    std = mir_std.STD | mir_std.patterns({
        "std::hint::must_use::<*>": "{0}",
        "std::option::Option::<*>::unwrap": "? {0}",
        "std::result::Result::<*>::is_ok": "(result_is_ok {0})",
        "<std::borrow::Cow<str> as std::ops::Deref>::deref": "{0}",
        "<str as std::borrow::ToOwned>::to_owned": "{0}",
        "std::str::<impl str>::starts_with::<&str>": "(starts_with N.eqb {0} {1})",
        "std::str::<impl str>::split::<char>": "(slice_split (λ c, c == {1}) {0})",
        "std::str::<impl str>::chars": "(chars {0})",
        "std::char::methods::<impl char>::is_ascii_lowercase": "(u8_is_ascii_lowercase {0})",
        "std::char::methods::<impl char>::is_ascii_digit": "(char_is_ascii_digit {0})",
        "std::result::Result::<*>::map_err::<*>": "(map_err {1} {0})",
        "<std::str::Chars as std::iter::Iterator>::any::<*>": "! (existsb {1} {0})",
    })

    def begun(self):
        env = super().begun()
        if captured := getattr(self.f, "captured", None):
            env[1] = Con("{closure}", [Mut(n, ()) if type.startswith("&mut &mut ") else env[n] for n, type in captured])
        return env

    def __init__(self, crate, function, pure):
        super().__init__(crate, function, pure)
        self.joins = {}  # the blocks that are local functions: their names, and the variables that these take
        self.flow()
        self.live_at()

    def successors(self, b):
        end = self.blocks[b][1]
        found = end[2].values() if end[0] == "switch" else [end[-1]] if end[0] in ("goto", "assert", "call") else []
        return [it for it in dict.fromkeys(found) if self.blocks[it] != ([], ("unreachable",))]

    def flow(self):
        """The dominators of each block, and the blocks that several go on to, unless there is a loop."""
        order, seen = [], set()

        def visit(b):
            seen.add(b)
            for it in self.successors(b):
                if it not in seen:
                    visit(it)
            order.append(b)
        visit(0)
        self.rank = {b: i for i, b in enumerate(reversed(order))}
        before = {b: [a for a in self.rank if b in self.successors(a)] for b in self.rank}
        self.dominators = {0: {0}}
        for b in sorted(self.rank, key=self.rank.get)[1:]:
            self.dominators[b] = set.intersection(*[self.dominators.get(a, set()) for a in before[b]]) | {b}
        self.parent = {b: max(self.dominators[b] - {b}, key=self.rank.get, default=b) for b in self.rank}
        has_loop = any(self.rank[b] <= self.rank[a] for b in self.rank for a in before[b])
        self.merges = {b for b in self.rank if len(before[b]) > 1 and not has_loop}

    def live_at(self):
        """Which locals are live at each block, which it writes, and which are borrowed mutably."""
        self.live, self.writes, self.borrowed = {}, {}, set()

        def reads(it, found):
            """The locals of the places in an expression."""
            if isinstance(it, tuple) and len(it) == 2 and isinstance(it[0], int) and isinstance(it[1], list):
                found |= {it[0]} | {step[1] for step in it[1] if step[0] == "[]"}
            elif isinstance(it, (tuple, list)):
                for part in it:
                    reads(part, found)
            return found
        for b in sorted(self.rank, key=self.rank.get, reverse=True):
            statements, end = self.blocks[b]
            if end[0] == "call":
                statements = [*statements, (end[1], end[3])]
            used, killed, self.writes[b] = set(), set(), set()
            for to, value in statements:
                used |= reads([value, to] if to[1] else value, set()) - killed
                killed |= set() if to[1] else {to[0]}
                self.writes[b] |= set() if ("*",) in to[1] else {to[0]}
                if value[:1] == ("mut",) and ("*",) not in value[1][1]:
                    self.borrowed.add(value[1][0])
            if end[0] in ("switch", "assert"):
                used |= reads(end[1:], set()) - killed
            used |= {0} - killed if end[0] == "return" else set()
            self.live[b] = used | set().union(*[self.live.get(it, set()) for it in self.successors(b)]) - killed

    def varying(self, b, among, env):
        """The locals and cells that are live at b and that the blocks `among` may change; and all that these change, of
        which the others aren't known at b."""
        def is_mutable(local):
            return self.f.types[local].startswith("&mut ")
        changed = set().union(*[self.writes[it] for it in among]) | self.borrowed
        live = self.live[b] | (self.borrowed if any(map(is_mutable, self.live[b])) else set())
        names = [n for n in sorted(live & changed) if not is_mutable(n)]
        return [n for n in names if n in env or n in self.live[b]] + self.cells, changed

    def end(self, b, env):
        """What a block ends with. What several blocks go on to is a local function, which is opaque in proofs."""
        outer, joined = self.joins, []
        children = [it for it in self.merges if self.parent[it] == b]
        for it in sorted(children, key=self.rank.get, reverse=True):  # the last one is outermost
            among = {y for y in self.rank if b in self.dominators[y] and it not in self.dominators[y]}
            names, changed = self.varying(it, among, env)
            inner = {k: v for k, v in env.items() if k not in changed} | {n: self.new(f"v{n}".replace("*", ""))
                                                                         for n in names}
            title = self.new("block")
            binders = "".join(f" ({inner[n]} : {self.types.coq(self.type_at(n))})" for n in names) or " (_ : unit)"
            joined.append((f"local (λ{binders},\n{self.go(it, inner)}) (λ {title},\n", ")"))
            self.joins = {**self.joins, it: (title, names)}
        self.before += joined
        code = super().end(b, env)
        self.joins = outer
        return code

    def go(self, b, env):
        if b not in self.joins:
            return super().go(b, env)
        title, names = self.joins[b]
        if missing := [n for n in names if n not in env]:
            raise Unknown(f"_{missing[0]}, which isn't set wherever it is read")
        return f"{title} {' '.join([self.code(env[n]) for n in names] or ['tt'])}"

    def aggregate(self, path, args, names=None):
        return Con(path, args) if path.startswith("{closure@") else super().aggregate(path, args, names)

    def rvalue(self, it, env):
        if it[0] == "array":
            items = [self.operand(part, env) for part in it[1]]
            if items and all(isinstance(it, Shown) for it in items):
                return Con("", items)
            return "[" + "; ".join(map(self.code, items)) + "]"
        return super().rvalue(it, env)

    def called(self, path, operands, to, env):
        trait, owner, _ = mir_types.of_call(path)
        plain = without_generics(path)
        if trait in ("std::Fn", "std::FnMut", "std::FnOnce") and owner.startswith("{closure@"):
            closure, arguments = (self.operand(it, env) for it in operands)
            return self.own(*self.captures(self.read(closure, env), arguments, env), env)
        if plain in ITERATORS:
            iterator = self.operand(operands[0], env)
            name = self.named(self.code(self.read(iterator, env)), "left")
            self.store(*iterator, f"(tl {name})", env)
            return f"(hd_error {name})"
        if plain in FORMATTING:
            return self.formatted(plain, path, [self.operand(it, env) for it in operands], env)
        return super().called(path, operands, to, env)

    def captures(self, closure, arguments, env):
        """A closure's function, and the values of its parameters."""
        it = self.crate.closure(closure.name)
        if len(it.captured) != len(closure.args):
            raise Unknown(f"what {closure.name} captures")
        captured = [self.read(value, env) if type.startswith("&mut &mut ") else value
                    for (_, type), value in zip(it.captured, closure.args)]
        return it, captured + arguments.args

    def formatted(self, plain, path, values, env):
        """What std's macros of formatting call, for strings, numbers and the crate's types without options."""
        if plain == "std::fmt::rt::Argument::new_display":
            type, value = strip(path[path.index("new_display::<") + 14:-1]), self.code(self.read(values[0], env))
            if type in TEXTS or type in BITS:
                return Shown(f"text_piece {value if type in TEXTS else f'(decimal {value})'}")
            if it := self.crate.find(("std::Display", type, "fmt")):
                return Shown(f"{self.crate.write(it)} fuel {value}")
            raise Unknown(f"the text of {type}")
        if plain == "std::fmt::Arguments::new":  # a template: a length and its bytes, 192 for an argument, and 0
            template, pieces, arguments = [*map(int, values[0][1:-1].split("; "))], [], [*values[1].args]
            while template[0]:
                size = template.pop(0)
                if size != 192 and size > 127:
                    raise Unknown(f"the option {size} of formatting")
                pieces.append(arguments.pop(0).code if size == 192 else
                              f"text_piece [{'; '.join(map(str, template[:size]))}]")
                template = template[0 if size == 192 else size:]
            if len(template) > 1 or arguments:
                raise Unknown("the end of a template of formatting")
            return Shown(f"write_pieces [{'; '.join(pieces)}]")
        if plain == "std::fmt::format":
            return self.emit(f"displayed ({values[0].code} (formatter_of []))")
        name = self.emit(f"{values[1].code} {self.code(self.read(values[0], env))}")
        self.store(*values[0], f"(snd {name})", env)
        return f"(fst {name})"

    def closure(self, value):
        if self.crate.closure(value.name).captured:
            raise Unknown(f"what {value.name} captures")
        return super().closure(value)


class Crate(mir.Crate):
    Types, Body = Types, Body

    def __init__(self, *of):
        self.closures = {}
        super().__init__(*of)

    def closure(self, type):
        """The function of a closure. Its first parameters are what it captures, or the `&mut` that a `&mut` is of."""
        if type not in self.closures:
            it = self.function_of(type)
            owner = [of for of in self.functions if of.path == it.path[:it.path.index("::{closure#")]]
            captured = dict(re.findall(r"\(\(?\*?_1\)?\.(\d+): ([^()]*)\)", it.text))
            if not owner or re.search(r"^ *\(+\*?_1\b[^=]* = |= &mut \(+\*?_1\b", it.text, re.M) or \
                    sorted(map(int, captured)) != [*range(len(captured))]:
                raise Unknown(f"what {type} captures, or changes of it")
            made = self.closures[type] = copy.copy(it)
            made.captured = [(len(it.types) + i, captured[str(i)]) for i in range(len(captured))]
            made.parameters = [(n, re.sub("^&mut (?=&mut )", "", of)) for n, of in made.captured] + it.parameters[1:]
            made.types = it.types | dict(made.captured) | dict(made.parameters) | {1: f"&{type}"}
            trait, of, name = owner[0].key
            made.key = trait, of, name + re.sub(r"\W+", "_", it.path[it.path.index("::{closure#"):]).rstrip("_")
            self.by[made.key] = [made]
        return self.closures[type]
