"""Writes functions of the Rust crate as Coq: a function becomes a Coq function `rs_Type_name` of the same arguments.

A `&mut` argument comes back beside the result. A function in which something may panic (an index, a range, a sum that
may overflow) has an `option` for its result, and one that loops or calls itself takes `fuel`: None is a panic, or too
little fuel. Variables keep their names: an assignment is a `let`. Rust.v says what loops, numbers and the methods of
std mean. What isn't understood is an error with file and line."""
import functools
import re

from rust_grammar import BOOL, BYTES, STR, T, UNIT, USIZE, Node, Unknown
from rust_types import WIDTH, Function, Types

KEYWORDS = """fun let in if then else match with end forall exists return as fix cofix for where at using struct mod N O
    S left right not"""
ORDERING = {"Less": "Lt", "Equal": "Eq", "Greater": "Gt"}
STD = {"Some": "Some", "None": "None", "Ok": "Result__Ok", "Err": "Result__Err"}
OPERATIONS = {"+": "add_in", "-": "sub_in", "*": "mul_in", "<<": "shl_in", ">>": "shr_in"}
BITWISE = {"^": "N.lxor", "&": "N.land", "|": "N.lor"}
# Methods of std without an effect: the kind of the receiver, the function in Rust.v or Kit.v, and the result's type.
OPTION, METHODS = lambda type: T("Option", type), {
    ("str", "len"): ("length", lambda t: USIZE), ("slice", "len"): ("length", lambda t: USIZE),
    ("str", "is_empty"): ("is_empty", lambda t: BOOL), ("slice", "is_empty"): ("is_empty", lambda t: BOOL),
    ("str", "strip_prefix"): ("strip_prefix", lambda t: OPTION(STR)),
    ("str", "split_once"): ("split_once", lambda t: OPTION(("tuple", (STR, STR)))),
    ("str", "get"): ("str_get", lambda t: OPTION(STR)),
    ("slice", "split_first"): ("split_first", lambda t: OPTION(("tuple", (t[1], t)))),
    ("slice", "cmp"): ("bytes_cmp", lambda t: T("Ordering")), ("number", "cmp"): ("N.compare", lambda t: T("Ordering")),
    ("slice", "position"): ("position", lambda t: OPTION(USIZE)), ("slice", "all"): ("forallb", lambda t: BOOL),
    ("number", "is_ascii_lowercase"): ("u8_is_ascii_lowercase", lambda t: BOOL),
    ("Option", "is_some"): ("option_is_some", lambda t: BOOL),
    ("Option", "is_none"): ("option_is_none", lambda t: BOOL),
    ("Option", "ok_or"): ("ok_or", lambda t, u: T("Result", t[2][0], u)),
    ("bool", "then_some"): ("then_some", lambda t, u: OPTION(u)),
}
PATTERNS = {"strip_prefix": STR, "split_once": T("char")}  # the types of their argument
SAME = {("slice", "iter"): None, ("str", "as_bytes"): BYTES, ("str", "as_str"): STR, ("str", "into"): STR,
        ("str", "to_string"): STR}


def bits(name):
    return "usize_bits" if name == "usize" else WIDTH[name]


class Translation(Types):
    def __init__(self, crate, known, names, others=()):
        """`known` is Coq that is read before; its functions in `others` are called in place of those of their names."""
        super().__init__(crate, known)
        self.taken, self.others = {*KEYWORDS.split(), *names}, dict(others)

    def local(self, name):
        return name + "_" if name in self.taken else name

    def constant(self, name):
        type, parser, parser.at = self.parts(self.crate.constants, name)
        if name not in self.done:
            code = Body(self, Function(None, None, name, None, 0)).pure(parser.expression(), {})
            self.done[name] = f"{self.crate.prefix}_{name}"
            self.out.append(f"Definition {self.done[name]} : {self.type(type)} :=\n  {code}.\n")
        return self.others.get(self.done[name], self.done[name]), self.real(type)

    def called(self, f):
        return f.title if f.running else self.others.get(f.title, f.title)

    def need(self, owner, name):
        f = self.crate.functions.get((owner, name))
        if not f or hasattr(f, "twice"):
            raise Unknown(f"the function {owner}::{name}" + " of two traits" * bool(f))
        if f.problem:
            raise f.problem
        if f.running:
            f.impure = f.fuel = f.recursive = True
        if f.done or f.running:
            return f
        try:
            f.running, body = True, f.read()
            while True:  # until it is known whether it may panic, loop or call itself
                before = f.impure, f.fuel, f.recursive
                code = Body(self, f).whole(body)
                if (f.impure, f.fuel, f.recursive) == before:
                    break
        except Unknown as problem:
            f.problem = problem
            raise
        f.running, f.done = False, True
        of = " × ".join(self.type(t) for t in [f.result, *[t for _, t in f.parameters if t[0] == "mut"]])
        of = f"option ({of})" if f.impure else of
        binders = " (fuel : nat)" * f.fuel + "".join(f" ({self.local(it)} : {self.type(t)})" for it, t in f.parameters)
        if f.recursive:
            code = f"match fuel with O => None | S fuel =>\n  {code} end"
        self.out.append(f"{'Fixpoint' if f.recursive else 'Definition'} {f.title}{binders} : {of} :=\n  {code}.\n")
        return f


class Body:
    """The body of a function. `ex` writes an expression; `k` writes what follows it, of its code and its type. `env`
    has the types of variables."""

    def __init__(self, coq, f):
        self.coq, self.crate, self.f, self.effects, self.assigned = coq, coq.crate, f, 0, set()
        self.ret, self.mutable = self.ret_function, set(getattr(f, "mutable", ()))
        self.set_names, self.hidden, self.fresh = set(), set(), 0

    def named(self, env, name):
        """The Coq name of a variable: one that hides another has its own."""
        return env.get("'" + name) or self.coq.local(name)

    def checked(self, name):
        if not re.fullmatch(r"_?(?!r[st]_)[a-z][a-z0-9]*(_[a-z0-9]+)*", name) or name in self.crate.constants:
            raise Unknown(f"the variable {name}")
        return name

    @staticmethod
    def base(it):
        """What a field, an element or a method is of."""
        return Node(it.place, "place", *it[1:]) if it[0] == "path" else it

    def new(self, name):
        """A name that no Rust has."""
        self.fresh += 1
        return f"{name}'{self.fresh}"

    def whole(self, body):
        self.mutable |= set(self.f.muts)
        env = {self.checked(it): self.real(t[1] if t[0] == "mut" else t) for it, t in self.f.parameters}
        code = self.ex(body, env, lambda code, _: self.ret(code))
        if self.set_names & self.hidden:  # a branching would give the wrong one to what follows
            raise Unknown(f"{self.set_names & self.hidden} is assigned to, and hidden by another variable", body.place)
        return code

    def ret_function(self, code):
        code = f"({', '.join([code, *map(self.coq.local, self.f.muts)])})" if self.f.muts else code
        return f"Some {code}" if self.f.impure else code

    def real(self, type):
        return T(self.f.owner) if type == T("Self") else self.coq.real(type)

    def bind(self, code, name, then):
        """What may be None."""
        self.f.impure = True
        self.effects += 1
        return f"match {code} with None => None | Some {name} =>\n  {then} end"

    def join(self, env, k, make):
        """A branching: `make` writes it, of what follows each branch. If that isn't a value, what follows is written
        once, before it."""
        before, outer, types = self.effects, self.assigned, []
        self.assigned = set()
        code = make(lambda code, type: types.append(type) or code)
        type = next((it for it in types if it), None)
        if self.effects == before:
            self.assigned = outer
            return k(code, type)
        changed = sorted(it for it in self.assigned if it in env)
        self.assigned |= outer
        if len(types) < 2:
            return make(k)
        name, value = self.new("next"), self.new("it")
        names = "".join(" " + self.named(env, it) for it in changed)
        body = make(lambda code, _: f"({name} {code}{names})")
        return f"let {name} := λ {value}{names}, {k(value, type)} in\n  {body}"

    def pure(self, it, env):
        before, code = self.effects, self.ex(it, env, lambda code, _: code)
        if self.effects != before:
            raise Unknown("an effect in a constant or a closure", it.place)
        return code

    # ---- expressions

    def ex(self, it, env, k):
        try:
            found = getattr(self, "ex_" + it[0], None)
            if not found:
                raise Unknown(f"the expression {it[0]}")
            return found(it, env, k)
        except Unknown as problem:
            problem.place = problem.place or it.place
            raise
        except (AttributeError, IndexError, KeyError, TypeError, ValueError) as problem:
            raise Unknown(f"this {it[0]} ({problem!r})", it.place) from problem

    def all(self, items, env, k, found=()):
        """Some expressions one after the other; `k` gets their codes and types."""
        found = list(found)
        while items:  # without an effect, nothing must be written around what follows
            before, outer, one, self.assigned = self.effects, self.assigned, [], set()
            around = self.ex(items[0], env, lambda *it: one.append(it) or "")
            changed, self.assigned = [self.named(env, it) for it in self.assigned], outer
            if any(re.search(rf"(?<![\w']){re.escape(it)}(?![\w'])", code) for it in changed for code, _ in found):
                raise Unknown("an operand that a later one assigns to", items[0].place)
            if self.effects != before or around:
                break
            found, items = found + one, items[1:]
        if not items:
            return k(found)
        return self.ex(items[0], env, lambda code, type: self.all(items[1:], env, k, (*found, (code, type))))

    def ex_lit(self, it, env, k):
        text = it[1]
        if "\\" in text:
            raise Unknown(f"the literal {text}")
        if text in ("true", "false"):
            return k(text, BOOL)
        if '"' in text:
            return k(f"(codes {text.removeprefix('b')})", STR if text[0] == '"' else BYTES)
        if "'" in text:
            code = ord(text.removeprefix("b")[1])
            if code > 127:
                raise Unknown(f"the literal {text}")
            return k(str(code), T("u8") if text[0] == "b" else T("char"))
        number, type = re.fullmatch(r"(\w+?)(u8|u16|u32|u64|usize)?", text).groups()
        return k(str(int(number.replace("_", ""), 0)), type and T(type))

    def ex_tuple(self, it, env, k):
        return self.all(it[1], env, lambda found: k(
            "(" + ", ".join(c for c, _ in found) + ")" if found else "tt", ("tuple", tuple(t for _, t in found))))

    def ex_list(self, it, env, k):
        return self.all(it[1], env, lambda found: k(
            "[" + "; ".join(c for c, _ in found) + "]", ("slice", found[0][1] if found else T("u8"))))

    def ex_repeat(self, it, env, k):
        return self.all(it[1:], env, lambda found: k(
            f"(List.repeat {found[0][0]} (N.to_nat {found[1][0]}))", ("slice", found[0][1] or T("u8"))))

    def ex_path(self, it, env, k):
        path = it[1]
        if len(path) == 1 and path[0] in env and it[0] == "path" and path[0] in self.f.muts:
            raise Unknown(f"{path[0]}, which is &mut, as a value")
        if len(path) == 1 and path[0] in env:
            return k(self.named(env, path[0]), env[path[0]])
        if len(path) == 1 and path[0] in self.crate.constants:
            return k(*self.coq.constant(path[0]))
        if len(path) == 1 and path[0] in self.crate.structs and not self.crate.structs[path[0]]:
            return k(f"Build_{self.coq.need_type(path[0])}", T(path[0]))
        name, _, type = self.constructor(path)
        return k(name, type)

    ex_place = ex_path

    def owner(self, path):
        return self.f.owner if path[0] == "Self" and len(path) == 2 else path[-2] if len(path) > 1 else None

    def constructor(self, path):
        """The constructor that a path names, the types of its arguments, and its type."""
        name, owner = path[-1], self.owner(path)
        if len(path) == 1 and name in STD:
            return STD[name], None, None
        if owner == "Ordering":
            return ORDERING[name], [], T("Ordering")
        for it, of in self.coq.parts(self.crate.enums, owner) if owner in self.crate.enums else []:
            if it == name:
                return f"{self.coq.need_type(owner)}__{it}", of, T(owner)
        if owner is None and name in self.crate.structs:  # of a tuple's form
            title, parts = self.coq.need_type(name), self.coq.parts(self.crate.structs, name)
            return f"Build_{title}", [of for _, of in parts], T(name)
        raise Unknown(f"the name {'::'.join(path)}")

    def ex_call(self, it, env, k):
        if it[1][0] != "path":
            raise Unknown("a call of what isn't a name")
        path, args = it[1][1], it[2]
        owner = self.owner(path)
        if (owner, path[-1]) in self.crate.functions:
            return self.call(owner, self.of_self((), owner, path[-1]), args, env, k)
        if owner in WIDTH and path[-1] == "from":
            return self.ex(args[0], env, lambda code, type: k(code, T(owner)) if type and WIDTH.get(
                type[1], 99) <= WIDTH[owner] else self.fail(f"{owner}::from of {type}"))
        if owner in WIDTH and path[-1] in ("from_be_bytes", "from_le_bytes"):
            return self.ex(args[0], env, lambda code, type: k(f"({path[-1]} {code})", T(owner)))
        if "::".join(path[-2:]) in ("Box::new", "String::from", "Cow::Borrowed", "CowStr::Borrowed"):  # it succeeds
            return self.ex(args[0], env, k)
        if path[-1] == "from_utf8" and owner in (None, "String"):
            new = self.new("it")
            return self.ex(args[0], env, lambda code, _: self.bind(
                f"from_utf8 {code}", new, k(new, T("Result", STR, UNIT))))
        name, _, type = self.constructor(path)

        def made(found):
            of = {"Some": OPTION(found[0][1]), "Result__Ok": T("Result", found[0][1], None),
                  "Result__Err": T("Result", None, found[0][1])}.get(name, type)
            return k("(" + " ".join([name, *[c for c, _ in found]]) + ")", of)
        return self.all(args, env, made)

    def fail(self, what):
        raise Unknown(what)

    def call(self, owner, name, args, env, k):
        f = self.coq.need(owner, name)
        if not f.is_seen and f.module != self.f.module:  # Rust takes another of this name, if there is one
            raise Unknown(f"a call of {owner}::{name}, which is private")
        args = [it[1] if it[0] == "borrow" and t[0] == "mut" else it for it, (_, t) in zip(args, f.parameters)]
        args = [self.base(it) if t[0] == "mut" else it for it, (_, t) in zip(args, f.parameters)]
        places = [it for it, (_, t) in zip(args, f.parameters) if t[0] == "mut"]

        def made(found):
            title = self.coq.called(f)
            words = [title, *["fuel"] * f.fuel, *[c for c, _ in found]]
            code = "(" + " ".join(words) + ")" if len(words) > 1 else title
            self.f.fuel |= f.fuel
            type = self.real(f.result)
            if not places and not f.impure:
                return k(code, type)
            names = [self.new("it") for _ in [0, *places]]
            then = k
            for place, new in zip(places, names[1:]):
                then = functools.partial(self.set_then, place, new, env, then)
            pattern = names[0] if not places else "(" + ", ".join(names) + ")"
            self.effects += 1
            if f.impure:
                return self.bind(code, pattern, then(names[0], type))
            return f"let '{pattern} := {code} in\n  {then(names[0], type)}"
        return self.all(args, env, made)

    def set_then(self, place, new, env, then, code, type):
        return self.set(place, new, env, lambda: then(code, type))

    def set(self, place, code, env, then):
        """An assignment to a variable, a field or an element; or to a value that nothing names."""
        self.effects += 1
        if place[0] in ("path", "place") and len(place[1]) == 1:
            name = place[1][0]
            if name not in self.mutable:  # it may be a reference to a part of another one
                raise Unknown(f"an assignment to {name}, which isn't declared with mut")
            self.assigned.add(name)
            self.set_names.add(name)
            return f"let {self.named(env, name)} := {code} in\n  {then()}"
        if place[0] == "field":
            def made(whole, type):
                fields = self.coq.fields(type)
                title = self.coq.need_type(type[1])
                found = [f"{title}__{it} := " + (code if it == place[2] else f"{title}__{it} {whole}") for it in fields]
                return self.set(place[1], "{| " + "; ".join(found) + " |}", env, then)
            return self.ex(self.base(place[1]), env, made)
        if place[0] == "index" and place[2][0] != "range":
            new = self.new("it")
            return self.all([self.base(place[1]), place[2]], env, lambda found: self.bind(
                f"set_at {found[0][0]} {found[1][0]} {code}", new, self.set(place[1], new, env, then)))
        if place[0] in ("repeat", "list"):
            return then()
        raise Unknown(f"an assignment to what is a {place[0]}")

    def ex_assign(self, it, env, k):
        return self.ex(it[2], env, lambda code, _: self.set(it[1], code, env, lambda: k("tt", UNIT)))

    def ex_struct(self, it, env, k):
        type = self.real(T(it[1]))
        title, names = self.coq.need_type(type[1]), list(self.coq.fields(type))
        items = list(it[2].values()) + ([it[3]] if it[3] else [])

        def made(found):
            codes = dict(zip(it[2], [c for c, _ in found]))
            codes = {n: codes[n] if n in codes else f"{title}__{n} {found[-1][0]}" for n in names}
            return k("{| " + "; ".join(f"{title}__{n} := {codes[n]}" for n in names) + " |}", type)
        return self.all(items, env, made)

    def ex_field(self, it, env, k):
        def made(code, type):
            if type and type[0] == "tuple" and len(type[1]) == 2:
                return k(f"({['fst', 'snd'][int(it[2])]} {code})", self.real(type[1][int(it[2])]))
            of = self.coq.fields(type).get(it[2])
            if not of:
                raise Unknown(f"the field {it[2]} of {type[1]}")
            return k(f"({self.coq.need_type(type[1])}__{it[2]} {code})", self.real(of))
        return self.ex(self.base(it[1]), env, made)

    def ex_range(self, it, env, k):
        return self.all(it[1:], env, lambda found: k(f"({found[0][0]}, {found[1][0]})", T("Range", USIZE)))

    def ex_index(self, it, env, k):
        new = self.new("it")
        if it[2][0] != "range":
            return self.all([self.base(it[1]), it[2]], env, lambda found: self.bind(
                f"slice_get {found[0][0]} {found[1][0]}", new, k(new, self.real(found[0][1][1]))))
        _, start, end = it[2]

        def ranged(found):
            (code, type), codes = found[0], [c for c, _ in found[1:]]
            low, high = codes[0] if start else "0", codes[-1] if end else f"(length {code})"
            of = "str" if type == STR else "part"
            return self.bind(f"{of}_between {code} {low} {high}", new, k(new, type))
        return self.all([self.base(it[1]), *[x for x in (start, end) if x]], env, ranged)

    def ex_cast(self, it, env, k):
        def made(code, type):
            if type and WIDTH.get(type[1]) is None:
                raise Unknown(f"{type} as {it[2]}")
            if type and WIDTH[type[1]] <= (32 if it[2] == USIZE else WIDTH[it[2][1]]):  # a `usize` has 32 bits or more
                return k(code, it[2])
            return k(f"({code} mod {'2 ^ usize_bits' if it[2] == USIZE else 2 ** WIDTH[it[2][1]]})", it[2])
        return self.ex(it[1], env, made)

    def ex_not(self, it, env, k):
        return self.ex(it[1], env, lambda code, type: (
            k(f"(negb {code})", BOOL) if type == BOOL else self.fail(f"! of {type}")))

    def ex_op(self, it, env, k):
        sign, left, right = it[1:]
        if sign in ("&&", "||"):
            before, outer = self.effects, set(self.assigned)
            codes = [self.ex(x, env, lambda code, _: code) for x in (left, right)]
            if self.effects == before:
                return k(f"({codes[0]} {sign} {codes[1]})", BOOL)
            self.assigned = outer
            short = Node(it.place, "lit", "true" if sign == "||" else "false")
            return self.ex_if(("if", left, *((short, right) if sign == "||" else (right, short))), env, k)

        def made(found):
            (x, t), (y, u) = found
            type = t or u
            if sign in ("==", "!="):
                return k(self.coq.equal(type, x, y) if sign == "==" else f"(negb {self.coq.equal(type, x, y)})", BOOL)
            if type == BOOL and sign == "|":
                return k(f"({x} || {y})", BOOL)
            if not type or type[1] not in WIDTH or sign in ("<<", ">>") and not t:
                raise Unknown(f"{sign} of {type}")
            if sign in ("<", "<=", ">", ">="):
                return k(f"({x} {sign}? {y})" if sign[0] == "<" else f"({y} {sign.replace('>', '<')}? {x})", BOOL)
            if sign in "/%" and y.isdigit() and int(y):
                return k(f"({x} {'/' if sign == '/' else 'mod'} {y})", type)
            if sign == ">>" and y.isdigit() and int(y) < WIDTH[type[1]] and type != USIZE:
                return k(f"({x} / {2 ** int(y)})", type)
            if sign in BITWISE:
                return k(f"({BITWISE[sign]} {x} {y})", type)
            if sign not in OPERATIONS:
                raise Unknown(f"the operator {sign} of {type}")
            new = self.new("n")
            return self.bind(f"{OPERATIONS[sign]} {bits(type[1])} {x} {y}", new, k(new, type))
        return self.all([left, right], env, made)

    def ex_panic(self, it, env, k):
        self.f.impure = True
        self.effects += 1
        return "None"

    def ex_return(self, it, env, k):
        def made(code, _):
            self.effects += 1
            return self.ret(code)
        return self.ex(it[1], env, made)

    def ex_try(self, it, env, k):
        def made(code, type):
            self.effects += 1
            new = self.new("it")
            if type[1] == "Option":
                return (f"match {code} with None => {self.ret('None')} | Some {new} =>\n"
                        f"  {k(new, self.real(type[2][0]))} end")
            error, of = self.new("error"), self.real(type[2][0]) if type[2] else UNIT
            refused = self.ret(f"(Result__Err {error})")
            return f"match {code} with Result__Err {error} => {refused} | Result__Ok {new} =>\n  {k(new, of)} end"
        return self.ex(it[1], env, made)

    def ex_if(self, it, env, k):
        return self.ex(it[1], env, lambda test, _: self.join(env, k, lambda k: (
            f"(if {test} then {self.ex(it[2], dict(env), k)}\n  else {self.ex(it[3], dict(env), k)})")))

    def ex_match(self, it, env, k):
        return self.ex(it[1], env, lambda code, type: self.join(
            env, k, lambda k: self.arms(code, self.real(type), it[2], env, k)))

    def arms(self, code, type, arms, env, k):
        if any(self.is_test(p) for p, _ in arms):  # one test after the other
            pattern, body = arms[0]
            if len(arms) < 2:
                raise Unknown("a match of literals without a last arm")
            return (f"(if {self.test(pattern, code, type)} then {self.ex(body, dict(env), k)}\n"
                    f"  else {self.arms(code, type, arms[1:], env, k)})")
        found = []
        for pattern, body in arms:
            inner = dict(env)
            found.append(f"  | {self.pattern(pattern, type, inner)} => {self.ex(body, inner, k)}")
        return f"match {code} with\n" + "\n".join(found) + "\n  end"

    def is_test(self, p):
        return p[0] in ("lit", "range") or p[0] == "or" and any(map(self.is_test, p[1]))

    def test(self, p, code, type):
        if p[0] == "or":
            return "(" + " || ".join(self.test(it, code, type) for it in p[1]) + ")"
        if any(it.isidentifier() and it.isupper() for it in p[1:]):  # or a variable, where that isn't imported
            raise Unknown(f"the constant {p[1]} as a pattern")
        value = [self.pure(Node(None, "lit", it), {}) for it in p[1:]]
        if p[0] == "range":
            return f"(({value[0]} <=? {code}) && ({code} <=? {value[1]}))"
        if p[0] != "lit":
            raise Unknown(f"the pattern {p[0]} beside a literal")
        return self.coq.equal(type, code, value[0])

    def pattern(self, p, type, env, again=False):
        if p in (("_",), ("tuple", [])):
            return "_"
        if p[0] == "var":
            if again:  # another way of an `or`
                return self.named(env, p[1])
            self.hidden |= {p[1]} & set(env)
            env.pop("'" + p[1], None)
            if self.checked(p[1]) in env:
                env["'" + p[1]] = self.new(p[1])
            self.mutable = self.mutable | {p[1]} if p[2] else self.mutable - {p[1]}
            env[p[1]] = type
            return self.named(env, p[1])
        if p[0] == "or":
            return "(" + " | ".join(self.pattern(it, type, env, again or i > 0) for i, it in enumerate(p[1])) + ")"
        if p[0] in ("tuple", "list"):
            types = type[1] if p[0] == "tuple" and type and type[0] == "tuple" else [type and type[1]] * len(p[1])
            codes = [self.pattern(it, self.real(t), env, again) for it, t in zip(p[1], types)]
            return "(" + ", ".join(codes) + ")" if p[0] == "tuple" else "[" + "; ".join(codes) + "]"
        if p[0] == "con":
            name, of, _ = self.constructor(p[1])
            if of is None:
                args = type[2] if type and type[0] == "T" else ()
                of = [args[name == "Result__Err"] if len(args) > (name == "Result__Err") else None] * len(p[2])
            words = [name, *[self.pattern(it, self.real(t), env, again) for it, t in zip(p[2], of)]]
            return "(" + " ".join(words) + ")" if p[2] else name
        raise Unknown(f"the pattern {p[0]} inside another")

    def ex_while(self, it, env, k):
        _, pattern, of, body = it
        self.f.impure = self.f.fuel = True
        outer, ret, self.assigned = self.assigned, self.ret, set()
        self.ret = lambda code: f"Some (Return {code})"

        def made():
            changed = [self.named(env, it) for it in sorted(self.assigned) if it in env]
            state = "(" + ", ".join(changed) + ")" if len(changed) > 1 else (changed or ["tt"])[0]
            inner = dict(env)

            def tested(test, type):
                def go(scope):
                    return self.ex(body, scope, lambda *_: f"Some (Next {state})")
                if not pattern:
                    return f"(if {test} then {go(inner)} else Some (Exit {state}))"
                code = self.pattern(pattern, self.real(type), inner)
                return f"match {test} with {code} => {go(inner)} | _ => Some (Exit {state}) end"
            return self.ex(of, env, tested), state
        made()  # to know what is assigned to
        code, state = made()
        self.ret, self.assigned = ret, self.assigned | outer
        self.effects += 1
        variables = f"'{state}" if state[0] == "(" else state if state != "tt" else "_"
        returned = "Some it" if ret == self.ret_function else "Some (Return it)"
        return (f"match loop fuel (λ {variables},\n  {code}) {state} with\n"
                f"  | None => None\n  | Some (inr it) => {returned}\n"
                f"  | Some (inl {state}) => {k('tt', UNIT)}\n  end")

    def ex_block(self, it, env, k):
        _, statements, last = it
        if not statements:
            return self.ex(last, env, k)
        first, rest = statements[0], Node(it.place, "block", statements[1:], last)
        if first[0] == "do":
            return self.ex(first[1], env, lambda *_: self.ex_block(rest, env, k))
        _, pattern, of, other, annotated = first

        def made(code, type):
            inner = dict(env)
            name = self.pattern(pattern, self.real(type or annotated), inner)
            if other:
                self.effects += 1
                no = self.ex(other, dict(env), lambda *_: self.fail("an else that goes on"))
                return f"match {code} with {name} =>\n  {self.ex_block(rest, inner, k)} | _ => {no} end"
            quote = "'" if name[0] == "(" else ""
            return f"let {quote}{name} := {code} in\n  {self.ex_block(rest, inner, k)}"
        if of[0] == "path" and of[1][0] in self.f.muts and pattern[0] != "_":
            raise Unknown(f"another name of {of[1][0]}, which is &mut")
        return self.ex(of, env, made)

    def of_self(self, it, owner, name):
        """The function that a method is, which in a trait's own body is that of the trait."""
        if not self.f.is_default or owner != self.f.owner:
            return name
        found = self.crate.of_trait(owner, self.f.trait, name)
        if not found or it[1:] != (["self"],):
            raise Unknown(f"{owner}::{name} in a body that a trait has for all types")
        return found.name

    def closure(self, it, type, env):
        inner = dict(env)
        name = self.pattern(it[1], type, inner) if it[0] == "closure" else self.fail("a function as a value")
        return f"(λ {name}, {self.pure(it[2], inner)})"

    # ---- methods

    def ex_method(self, it, env, k):
        _, of, name, args, generic = it
        of = self.base(of)
        if name == "copy_from_slice" and of[0] == "index" and of[2][0] == "range":
            place, (start, end), new = self.base(of[1]), of[2][1:], self.new("it")
            return self.all([place, start, end, *args], env, lambda found: self.bind(
                f"copy_into {' '.join(c for c, _ in found)}", new, self.set(place, new, env, lambda: k("tt", UNIT))))

        def made(code, type):
            type = self.real(type) or self.fail(f"the method {name} of a number without a type")
            kind = type[1] if type[0] == "T" and type[1] not in WIDTH else "number" if type[0] == "T" else type[0]
            if type[0] == "T" and (type[1], name) in self.crate.functions:
                return self.call(type[1], self.of_self(of, type[1], name), [of, *args], env, k)
            if kind == "Formatter" and name == "write_str":
                result, after = self.new("it"), self.new("it")
                return self.ex(args[0], env, lambda text, _: (
                    f"let '({result}, {after}) := write_str {code} {text} in\n  "
                    + self.set(of, after, env, lambda: k(result, T("Result", UNIT, UNIT)))))
            if (kind, name) in SAME or kind == "into" and name == "into":
                return k(code, type[1] if kind == "into" else SAME[kind, name] or type)
            if (kind, name) == ("str", "parse"):
                return k(f"(parse_unsigned {2 ** WIDTH[generic[1]] - 1} {code})", T("Result", generic, UNIT))
            if name == "to_string" and type[0] == "T" and (f := self.crate.of_trait(type[1], "Display", "fmt")):
                f, result = self.coq.need(type[1], f.name), self.new("it")
                self.f.fuel |= f.fuel
                shown = f"{self.coq.called(f)}{' fuel' * f.fuel} {code} (formatter_of [])"
                return self.bind(f"displayed ({shown if f.impure else f'Some ({shown})'})", result, k(result, STR))
            if kind == "number" and name == "saturating_add":
                return self.ex(args[0], env, lambda more, _: k(f"(saturating_add {bits(type[1])} {code} {more})", type))
            if kind == "number" and name == "trailing_zeros":
                return k(f"(trailing_zeros {bits(type[1])} {code})", T("u32"))
            if kind == "number" and name == "wrapping_mul":
                return self.ex(args[0], env, lambda more, _: k(f"({name} {bits(type[1])} {code} {more})", type))
            if kind == "slice" and name in ("first_chunk", "last_chunk"):
                return k(f"({name} {generic[1]} {code})", OPTION(type))
            if (kind, name) not in METHODS:
                raise Unknown(f"the method {name} of {type}")
            title, result = METHODS[kind, name]
            if name in ("position", "all"):
                return k(f"({title} {self.closure(args[0], type[1], env)} {code})", result(type))

            def applied(found):
                if name in PATTERNS and self.real(found[0][1]) != PATTERNS[name]:
                    raise Unknown(f"{name} of another pattern")
                return k("(" + " ".join([title, code, *[c for c, _ in found]]) + ")",
                         result(type, *[t for _, t in found if name in ("ok_or", "then_some")]))
            return self.all(args, env, applied)
        return self.ex(of, env, made)


def translate(crate, known, names, others=()):
    """The Coq of all functions and equalities of a crate, and what isn't understood."""
    coq, problems = Translation(crate, known, names, others), {}
    for owner, name in crate.functions:
        try:
            coq.need(owner, name)
        except Unknown as problem:
            problems["::".join(filter(None, (owner, name)))] = problem
    for name, derived in crate.derived.items():
        if "PartialEq" in derived:
            coq.equal(T(name), "x", "y")
    return coq.out, problems
