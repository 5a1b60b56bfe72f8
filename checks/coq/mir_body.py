"""Writes the body of a function of MIR as Coq, path by path: what several blocks go on to is written after each of
them. A loop is Rust.v's `loop` of what its blocks set. A shared reference is what it refers to, as no type that is
known has a value that changes behind one. A `&mut` is the place that it borrows."""
import functools
import re
from collections import namedtuple

from mir_grammar import Function, Unknown, split, within
from mir_std import METHODS, STD
from mir_types import BITS, TEXTS, arguments, of_call, referred, strip, wrapped

Con = namedtuple("Con", "name args")  # a constructor of values; a tuple has no name, and a closure's isn't Coq's
Mut = namedtuple("Mut", "cell path")  # a mutable borrow
Tag = namedtuple("Tag", "value place")  # a discriminant
BITWISE = {"BitAnd": "N.land", "BitOr": "N.lor", "BitXor": "N.lxor"}
COMPARE = {"Eq": "({0} == {1})", "Ne": "(negb ({0} == {1}))", "Lt": "({0} <? {1})", "Le": "({0} <=? {1})",
           "Gt": "({1} <? {0})", "Ge": "({1} <=? {0})"}
TAGS = {"comparison": {255: ("Lt", 0), 0: ("Eq", 0), 1: ("Gt", 0)}}


def item(type):
    """The type of the items of an array or a slice."""
    if not (m := re.fullmatch(r"\[(.*?)(; [\w:]+)?\]", strip(type))):
        raise Unknown(f"an index of {type}")
    return m[1]


def after(type, step):
    """The type of a projection of a place."""
    if step[0] == "as":
        return type
    return step[2] if step[0] == "." else referred(type) if step[0] == "*" else item(type)


class Body:
    std = STD

    def __init__(self, crate, function, pure):
        self.crate, self.types, self.f, self.pure = crate, crate.types, function, pure
        self.blocks, self.fresh, self.before, self.on_path, self.loop = function.blocks(), 0, [], [], None
        self.visited = set()
        self.cells = [f"*{n}" for n, type in function.parameters if type.startswith("&mut ")]

    def new(self, base):
        self.fresh += 1
        return f"{base}'{self.fresh}"

    # ---- values
    def code(self, value):
        if isinstance(value, str):
            return value
        if isinstance(value, Con) and not value.name:
            return "(" + ", ".join(map(self.code, value.args)) + ")" if value.args else "tt"
        if isinstance(value, Con) and value.name[0] != "{":
            return f"({value.name} {' '.join(map(self.code, value.args))})" if value.args else value.name
        if isinstance(value, Tag):
            cases = self.cases(self.type_of(("copy", value.place)))
            arms = " ".join(f"| {name}{' _' * count} => {tag}" for tag, (name, count) in cases.items())
            return f"(match {self.code(value.value)} with {arms} end)"
        raise Unknown(f"a {type(value).__name__.lower()} as a value")

    def cases(self, type):
        """The constructors of a type by their discriminants."""
        title = self.types.head(type)
        if title not in self.types.constructors:
            raise Unknown(f"the discriminant of {type}")
        return TAGS.get(title) or dict(enumerate(self.types.constructors[title]))

    def emit(self, code, base="it"):
        """The value of an option, which is none for a panic."""
        self.none()
        name = self.new(base)
        self.before.append((f"match {code} with None => None | Some {name} =>\n", " end"))
        return name

    def named(self, code, base):
        name = self.new(base)
        self.before.append((f"let {name} := {code} in\n", ""))
        return name

    def parts(self, value, type):
        """A value as a constructor of its parts."""
        if isinstance(value, Con):
            return value
        plain = referred(type)
        if plain.startswith("("):
            code, items = self.code(value), []
            for _ in split(plain[1:-1])[1:]:
                code, items = f"(fst {code})", [f"(snd {code})", *items]
            return Con("", [code, *items])
        title = self.types.head(plain)
        if title not in self.types.fields:
            raise Unknown(f"the parts of {type}")
        return Con(f"Build_{title}", [f"({it} {self.code(value)})" for it in self.types.fields[title]])

    def step(self, value, step, type, env):
        """A projection of a value of this type."""
        if step[0] == "*":
            return value
        if step[0] == "as":
            if not isinstance(value, Con) or value.name.split("__")[-1] != step[1]:
                raise Unknown(f"a part of a {step[1]} that isn't known")
            return value
        if step[0] == ".":
            if re.match(r"std::ptr::(Unique|NonNull)<", step[2]):  # of a box
                return value
            title = self.types.titles.get(referred(type))
            if step[2] in BITS and title in self.types.fields:
                self.types.numbers[title, self.types.fields[title][step[1]]] = step[2]
            return self.parts(value, type).args[step[1]]
        if step[0] == "slice" or isinstance(value, Mut):
            raise Unknown("an item of a borrow")
        index = str(step[1]) if step[0] == "[c]" else self.code(env[step[1]])
        return self.emit(f"slice_get {self.code(value)} {index}", "x")

    def root(self, place, env):
        """The cell and the path of a place, through mutable references."""
        local, steps = place
        cell, path, type, value = local, [], self.f.types[local], env.get(local)
        for it in steps:
            if it[0] == "*" and strip(type).startswith("&mut "):
                if not isinstance(value, Mut) or path:
                    raise Unknown(f"_{local}, whose reference isn't known")
                cell, path, value = value.cell, list(value.path), None
            else:
                path.append(it)
            type = after(type, it)
        return cell, path

    def type_at(self, cell):
        return self.f.types[int(cell[1:])].removeprefix("&mut ") if isinstance(cell, str) else self.f.types[cell]

    def get(self, place, env):
        return self.at(*self.root(place, env), env)

    def at(self, cell, path, env):
        if cell not in env:
            raise Unknown(f"_{cell}, which isn't set wherever it is read")
        value, type = env[cell], self.type_at(cell)
        for it in path:
            value, type = self.step(value, it, type, env), after(type, it)
        return value

    def read(self, value, env):
        """What a borrow refers to."""
        return self.at(value.cell, value.path, env) if isinstance(value, Mut) else value

    def assign(self, place, new, env):
        cell, path = self.root(place, env)
        if ("*",) in path:
            raise Unknown("an assignment through a pointer")
        self.store(cell, path, new, env)

    def store(self, cell, path, new, env):
        env[cell] = self.update(env.get(cell), self.type_at(cell), list(path), new, env)

    def update(self, value, type, path, new, env):
        if not path:
            return new
        it, rest = path[0], path[1:]
        if it[0] == "*" or it[0] == "as" and isinstance(value, Con):
            return self.update(value, after(type, it), rest, new, env)
        if it[0] == ".":
            name, args = self.parts(value, type)
            return Con(name, [self.update(old, it[2], rest, new, env) if i == it[1] else old
                              for i, old in enumerate(args)])
        if it[0] == "[]" and not rest:
            return self.emit(f"set_at {self.code(value)} {self.code(env[it[1]])} {self.code(new)}", "xs")
        if it[0] == "slice" and not rest:
            return self.emit(f"copy_into {self.code(value)} {it[1]} {it[2]} {self.code(new)}", "xs")
        raise Unknown(f"an assignment to a part of {type}")

    def type_of(self, operand):
        if operand[0] not in ("copy", "move"):
            return operand[-1] if operand[0] == "value" else "?"
        local, steps = operand[1]
        return functools.reduce(after, steps, self.f.types[local])

    def operand(self, it, env):
        kind, what = it[:2]
        if kind in ("copy", "move"):
            return self.get(what, env)
        if kind == "value":
            return what
        if kind == "closure":
            return Con(what, [])
        if kind == "static":
            return self.crate.static(what)
        if kind == "aggregate":
            return self.aggregate(what, [self.operand(part, env) for part in it[2]])
        if what == "std::fmt::Error":
            return "tt"
        constant = self.crate.constants.get(what)
        if m := re.search(r"::(\w+)(?:::<H>)?::promoted\[(\d+)\]$", what):  # which rustc took out of this function
            if not self.f.path.endswith("::" + m[1]):
                raise Unknown(f"the constant of {m[1]}")
            constant = self.f.promoted[m[2]]
        if constant is None and what.rpartition("::")[0] not in self.types.declared:  # no variant is printed as one
            return self.aggregate(what, [])
        is_body = isinstance(constant, Function)
        return self.crate.Body(self.crate, constant, True).whole() if is_body else self.operand(constant, {})

    def aggregate(self, path, args, names=None):
        if m := re.match(r"std::(?:option::Option|(result::Result))(?:::<.*>)?::(None|Some|Ok|Err)$", path):
            return Con("Result__" * bool(m[1]) + m[2], args)
        if re.match(r"std::borrow::Cow(?:::<.*>)?::(Owned|Borrowed)$", path):
            return args[0]
        if m := re.match(r"std::ops::Range(To|From)?(?:::)?<usize>$", path):
            return args[0] if m[1] else Con("", args)
        owner, _, variant = path.rpartition("::")
        if path in self.types.declared and isinstance(self.types.declared[path], list):
            title = self.types.title(path)
            fields = self.types.fields.get(title)
            if fields is None or len(fields) != len(args) or names and names != self.types.declared[path]:
                raise Unknown(f"a value of {path}")
            return Con(f"Build_{title}", args)
        if owner in self.types.declared:
            title = self.types.title(owner)
            if (f"{title}__{variant}", len(args)) in self.types.constructors.get(title, []):
                return Con(f"{title}__{variant}", args)
        raise Unknown(f"a value of {path}")

    # ---- expressions
    def rvalue(self, it, env):
        kind, what = it[:2]
        if kind == "use":
            return self.operand(what, env)
        if kind == "ref":
            return self.get(what, env)
        if kind == "mut":
            cell, path = self.root(what, env)
            if any(step[0] in ("[]", "[c]", "*") for step in path):
                raise Unknown("a mutable borrow of an item, or through a pointer")
            return Mut(cell, tuple(path))
        if kind == "length":
            return f"(length {self.code(self.read(self.operand(what, env), env))})"
        if kind == "not":
            if self.type_of(what) != "bool":
                raise Unknown(f"a complement of {self.type_of(what)}")
            return f"(negb {self.code(self.operand(what, env))})"
        if kind == "discriminant":
            return Tag(self.get(what, env), what)
        if kind == "tuple":
            return Con("", [self.operand(part, env) for part in what])
        if kind == "array":
            return "[" + "; ".join(self.code(self.operand(part, env)) for part in what) + "]"
        if kind == "repeat":
            return f"(List.repeat {self.code(self.operand(what, env))} {it[2]}%nat)"
        if kind == "aggregate":
            return self.aggregate(what, [self.operand(part, env) for part in it[2]], it[3])
        if kind == "cast":
            return self.cast(*it[1:], env)
        return self.binary(*it[1:], env)

    def cast(self, kind, operand, to, env):
        value, of = self.operand(operand, env), self.type_of(operand)
        if kind.startswith("PointerCoercion") and item(referred(of)) == item(referred(to)):  # an array as a slice
            return value
        if kind == "Transmute" and (m := re.fullmatch(r"std::ptr::NonNull<(.*)>", of)) and to == f"*const {m[1]}":
            return value
        if kind != "IntToInt" or of not in (*BITS, "isize") or to not in BITS:  # an ordering's number may be less
            raise Unknown(f"a cast from {of} to {to}")
        narrow = {"u8": 8, "u16": 16, "u32": 32}
        if of == to or of in narrow and narrow[of] <= narrow.get(to, 32):
            return value
        return f"({self.code(value)} mod {2 ** narrow[to] if to in narrow else f'2 ^ {BITS[to]}'})"

    def binary(self, name, left, right, env):
        x, y = self.code(self.operand(left, env)), self.code(self.operand(right, env))
        type = next((it for it in map(self.type_of, (left, right)) if it != "?"), "?")
        if type == "char" and "value" not in (left[0], right[0]):
            raise Unknown("a comparison of two characters, of which only ASCII ones are told apart")
        if name in COMPARE and (type in BITS or type == "char" or type == "isize" and name in ("Eq", "Ne")):
            if name == "Eq" and x.isdigit() and y.isdigit():
                return str(int(x) == int(y)).lower()
            return COMPARE[name].format(x, y)
        if name.endswith("WithOverflow") and type in BITS:  # what overflows is none, as rustc's assertion follows
            return Con("", [self.emit(f"{name[:3].lower()}_in {BITS[type]} {x} {y}", "n"), "false"])
        if name in ("Div", "Rem") and type in BITS and y.isdigit() and int(y):
            return f"({x} {'/' if name == 'Div' else 'mod'} {y})"
        if name == "Shr" and self.type_of(left) in BITS:
            return self.emit(f"shr_in {BITS[self.type_of(left)]} {x} {y}", "n")
        if name in BITWISE and type in BITS:
            return f"({BITWISE[name]} {x} {y})"
        if name == "BitOr" and type == "bool":
            return f"({x} || {y})"
        raise Unknown(f"{name} of {type}")

    # ---- calls
    def called(self, path, operands, to, env):
        values, types = [self.operand(it, env) for it in operands], [self.type_of(it) for it in operands]
        trait, owner, name = key = of_call(path)
        if (it := self.crate.find(key, types)) and it.text:
            if it.result != to:
                raise Unknown(f"the call of {path}, which returns no {it.result}")
            return self.own(it, values, env)
        is_borrow = isinstance(values[0], Mut)
        if path == "<[u8] as std::ops::IndexMut<std::ops::Range<usize>>>::index_mut" and is_borrow:
            low, high = map(self.code, self.parts(values[1], types[1]).args)
            self.emit(f"part_between {self.code(self.read(values[0], env))} {low} {high}")
            return Mut(values[0].cell, (*values[0].path, ("slice", low, high)))
        if path == "std::slice::<impl [u8]>::copy_from_slice" and is_borrow and values[0].path[-1:][0][0] == "slice":
            self.store(*values[0], self.code(values[1]), env)
            return "tt"
        codes = [self.closure(it) if isinstance(it, Con) and it.name[:1] == "{" else self.code(self.read(it, env))
                 for it in values]
        if any(type == "char" and it[0] != "value" for it, type in zip(operands, types)):  # a number is an ASCII one
            raise Unknown("a call with a character that isn't known")
        if form := next((code for pattern, code in self.std.items() if re.fullmatch(pattern, path)), None):
            return self.changed(form.format(*codes), values, types, env)
        if trait == "std::ToString":
            return self.emit(f"displayed ({self.method('std::Display', 'fmt', owner)} {codes[0]} (formatter_of []))")
        if trait in ("std::Try", "std::FromResidual"):
            residual = re.search(r" as std::ops::FromResidual<(.*)>>::from_residual$", path)
            if residual and arguments(owner)[1:] != arguments(residual[1])[1:]:
                raise Unknown(f"the call of {path}, which converts an error")
            return f"({self.types.head(owner).lower()}_{name} {codes[0]})"
        other = re.search(r" as std::cmp::PartialEq<(.*)>>::", path)
        if other and strip(other[1]) != strip(owner) and not {strip(owner), strip(other[1])} <= {*TEXTS}:
            raise Unknown(f"the equality of {owner} and {other[1]}")
        if (trait, name) == ("std::PartialEq", "ne"):
            return f"(negb {self.std_method(trait, 'eq', owner, codes, values, types, env)})"
        if (trait, name) in METHODS and (name != "hash" or types[1] in ("&mut H", "&mut __H")):
            return self.std_method(trait, name, owner, codes, values, types, env)
        raise Unknown(f"the call of {path}")

    def changed(self, code, values, types, env):
        """The value of a call: in what Coq's function returns, it is before what each `&mut` refers to then."""
        borrows = [value for value, type in zip(values, types) if type.startswith("&mut ")]
        if code[0] == "!":  # what is left of an iterator isn't known
            for value in borrows:
                env.pop(value.cell)
            return code[2:]
        if code[0] == "?":  # an option
            code = self.emit(code[2:])
        elif borrows:
            code = self.named(code, "it")
        for value in reversed(borrows):
            self.store(*value, f"(snd {code})", env)
            code = f"(fst {code})"
        return code

    def std_method(self, trait, name, type, codes, values, types, env):
        """A call of a method that std has for references, numbers, strings, tuples and what has cases."""
        leaf = METHODS[trait, name].get(strip(type))
        code = f"({leaf} {' '.join(codes)})" if leaf else f"? {self.method(trait, name, type)} {' '.join(codes)}"
        return self.changed(code, values, types, env)

    def method(self, trait, name, type):
        """A trait's method as a function of Coq: the crate's, or std's, which is by those of the type's parts."""
        if inner := wrapped(type):  # a clone of a reference is the reference
            return "Some" if name == "clone" and type[0] == "&" else self.method(trait, name, inner)
        if it := self.crate.find((trait, type, name), [f"&{type}"] * 2 if name == "eq" else None):
            return f"({self.crate.write(it)} fuel)"
        if leaf := METHODS.get((trait, name), {}).get(type):
            return f"(total {leaf})"
        if type[0] == "(" and name == "cmp":
            first, *others = [self.method(trait, name, it) for it in split(type[1:-1])]
            for it in others:
                first = f"(pair_cmp {first} {it})"
            return first
        if not re.match(r"std::(option::Option|result::Result)<", type):
            raise Unknown(f"{name} of {type}")
        of = " ".join(self.method(trait, name, it) for it in arguments(type))
        return f"({self.types.head(type).lower()}_{name} {of})"

    def own(self, it, values, env):
        """A call of a function of the crate."""
        code = f"{self.crate.write(it, self.pure)}{'' if self.pure else ' fuel'}" + "".join(
            " " + self.code(self.read(value, env)) for value in values)
        return f"({code})" if self.pure else self.changed(f"? {code}", values, [of for _, of in it.parameters], env)

    def closure(self, value):
        """A closure that captures nothing, as a function of Coq."""
        it = self.crate.closure(value.name)
        if len(it.parameters) != 1:
            raise Unknown(f"the arguments of {value.name}")
        name, body = self.new("given"), self.crate.Body(self.crate, it, True)  # which is no name in the body
        return f"(λ {name}, {body.whole({it.parameters[0][0]: name})})"

    # ---- blocks
    def whole(self, more=()):
        """The code of all blocks. Of those that no path reaches rustc may have inferred a type of what is read."""
        code = self.go(0, self.begun() | dict(more))
        left = [b for b, it in self.blocks.items() if b not in self.visited and it != ([], ("unreachable",))]
        if left:
            raise Unknown(f"a block that no path reaches, {left[0]}")
        return code

    def begun(self):
        """The variables at the beginning."""
        env = {n: Con(type, []) for n, type in self.f.types.items() if type.startswith("{closure@")}
        for n, type in self.f.parameters:
            is_mutable = type.startswith("&mut ")
            env[n], env[f"*{n}" if is_mutable else n] = Mut(f"*{n}", ()), f"v{n}"
        if self.f.result == "()":
            env[0] = "tt"
        elif self.types.declared.get(self.f.result) == []:  # a value of no parts, which nothing sets
            env[0] = Con(f"Build_{self.types.title(self.f.result)}", [])
        return env

    def none(self):
        if self.pure:
            raise Unknown("a possible panic in a constant or a closure")
        return "None"

    def returned(self, code):
        """The answer of the function, or of the loop that it ends with."""
        return code if self.pure else f"Some (Return {code})" if self.loop else f"Some {code}"

    def go(self, b, env):
        """The code from a block on; without one it is a panic."""
        if b is None:
            return self.none()
        if self.loop and b == self.loop[0]:
            return f"Some (Next {self.tuple([self.code(env[n]) for n in self.loop[1]])})"
        if b in self.on_path:
            raise Unknown("a loop in another one")
        self.visited.add(b)
        self.on_path.append(b)
        code = self.repeated(b, env) if not self.loop and b in self.reached(b) else self.block(b, dict(env))
        self.on_path.pop()
        return code

    def tuple(self, args):
        return "(" + ", ".join(args) + ")" if len(args) > 1 else args[0] if args else "tt"

    def reached(self, b):
        """The blocks that come after one, and are not before."""
        found, todo = set(), [b]
        while todo:
            end = self.blocks[todo.pop()][1]
            after = end[2].values() if end[0] == "switch" else [end[-1]] if end[0] in ("goto", "assert", "call") else []
            todo += {*after} - found
            found |= {*after}
        return found

    def repeated(self, b, env):
        """A loop, of which a block is the first."""
        self.none()
        changed = {*self.cells}
        for it, (statements, end) in self.blocks.items():
            changed |= {value[1][0] for _, value in statements if value[0] == "mut"}
            if it in self.reached(b) and b in self.reached(it):
                changed |= {to[0] for to, _ in statements} | ({end[1][0]} if end[0] == "call" else set())
        names = [n for n in env if n in changed and not isinstance(env[n], Mut)]
        inner = {n: it for n, it in env.items() if n not in changed} | {n: self.new(f"v{n}".replace("*", ""))
                                                                         for n in names}
        pattern = ("'" if len(names) > 1 else "") + self.tuple([inner[n] for n in names]) if names else "_"
        start = self.tuple([self.code(env[n]) for n in names])
        self.loop = b, names
        body = self.block(b, inner)
        self.loop = None
        return f"match loop fuel (λ {pattern},\n{body}) {start} with\n| Some (inr it) => Some it | _ => None end"

    def block(self, b, env):
        outer, self.before = self.before, []
        for to, value in self.blocks[b][0]:
            if value[0] == "aggregate" and "::" not in value[1] and value[1] != self.type_of(("copy", to)):
                raise Unknown(f"the operator {value[1]}")  # whose value has no type of the crate
            self.assign(to, self.rvalue(value, env), env)
        code = self.end(b, env)
        for begin, end in reversed(self.before):
            code = begin + code + end
        self.before = outer
        return code

    def end(self, b, env):
        kind, *it = self.blocks[b][1]
        if kind == "return":
            code = self.code(self.get((0, []), env))
            for cell in self.cells:
                code = f"({code}, {self.code(env[cell])})"
            return self.returned(code)
        if kind == "goto":
            return self.go(it[0], env)
        if kind == "call":
            self.assign(it[0], self.called(it[1], it[2], self.type_of(("copy", it[0])), env), env)
            return self.go(it[3], env)
        if kind == "assert":  # of rustc's: that an index is within, or a divisor isn't zero
            return self.test(self.code(self.operand(it[1], env)), *((it[2], None) if it[0] else (None, it[2])), env)
        return self.switch(*it, env) if kind == "switch" else self.none()

    def test(self, code, yes, no, env):
        if code in ("true", "false"):
            return self.go(yes if code == "true" else no, env)
        return f"if {code} then {self.go(yes, env)}\nelse {self.go(no, env)}"

    def switch(self, operand, targets, env):
        value, type, other = self.operand(operand, env), self.type_of(operand), targets.get("otherwise")
        if isinstance(value, Tag):
            return self.match(value, targets, other, env)
        code = self.code(value)
        if type == "bool":
            return self.test(code, targets.get(1, other), targets.get(0, other), env)
        if type not in BITS and type != "char":
            raise Unknown(f"a switch of {type}")
        found = self.go(other, env)
        for n, b in reversed([it for it in targets.items() if it[0] != "otherwise"]):
            found = f"if {code} == {within(n, type)} then {self.go(b, env)}\nelse {found}"
        return found

    def match(self, tag, targets, other, env):
        value, cases = tag.value, self.cases(self.type_of(("copy", tag.place)))
        if isinstance(value, Con):  # it is made here, or was matched before
            number = next(i for i, (name, _) in cases.items() if name == value.name)
            return self.go(targets.get(number, other), env)

        def known(it, made):
            """A value, as the matched one is what a case has made."""
            if isinstance(it, Con):
                return Con(it.name, [known(part, made) for part in it.args])
            return made if it == value else it
        arms, (cell, path) = [], self.root(tag.place, env)
        for number, (name, count) in cases.items():
            if number in targets:
                made = Con(name, [self.new("x") for _ in range(count)])
                inner = {n: known(it, made) for n, it in env.items()}
                if self.at(cell, path, env) == value:
                    self.store(cell, path, made, inner)
                arms.append(f"| {self.code(made)} =>\n{self.go(targets[number], inner)}")
        if len(arms) < len(cases):
            arms.append(f"| _ =>\n{self.go(other, env)}")
        return f"match {self.code(value)} with\n" + "\n".join(arms) + " end"
