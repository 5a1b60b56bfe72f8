"""Reads the definitions of crates/*/specs, a small functional language, for what writes them in another one.

A module is a file. Its definitions have clauses, which are patterns and an expression; its records and types have their
parameters, and the types of their fields and constructors. What the definitions take from the kit's library is in
checks/coq/library.txt, where a definition without clauses is one that each other language has anew. What isn't
understood is an error that names it.
"""
import contextlib
import functools
import pathlib
import re

ROOT = pathlib.Path(__file__).resolve().parents[2]
CRATES = ["lexicon_fields", "target_lexicon"]
LIBRARY = ("library",)
BUILT_IN = "_ ⊤ ⊥ zero Type Unit ℕ List Text".split()  # what has a meaning of its own, as library.txt's names have

LEVELS = [["→", "↔"], ["⊎"], ["×"], ["≡", "≢", "<", "≤"], ["||"], ["&&"], ["=="], ["∷", "++"], ["+", "-"],
          ["*", "/", "%"], ["^"]]
TO_THE_LEFT = ("==", "+", "-", "*", "/", "%", "≡", "≢", "<", "≤")
TOKEN = re.compile(r'"(?:\\.|[^"\\])*"|0x[0-9A-Fa-f_]+|\d+|[^\W\d]\w*|\[\]|\+\+|==|&&|\|\||\S')


class Untranslated(Exception):
    """What isn't understood."""


@contextlib.contextmanager
def at(place):
    """Says where something isn't understood, if that isn't said."""
    try:
        yield
    except Untranslated as problem:
        raise problem if re.match(r"\S+:\d+: ", str(problem)) else Untranslated(f"{place}: {problem}") from None


def families():
    """The families of architectures, in the table of names."""
    table = ROOT.joinpath("tools/names/names.tsv").read_text(encoding="utf-8")
    return re.findall(r"^family\t(\w+)", table, re.M)


def relative(file, root):
    return file.relative_to(root) if file.is_relative_to(root) else file


def read(file):
    """The text of a file. Others than these characters are seen otherwise, or as these are."""
    text = file.read_bytes().decode(errors="replace")
    if other := re.search(r"[^\n -~¬×λℕ→↔∷≡≢≤⊎⊤⊥◌⟦⟧]", text):
        raise Untranslated(f"{file}:{text.count(chr(10), 0, other.start()) + 1}: the character {other[0]!a}")
    return text


def chunks(text):
    """The parts of a file, each with the number of its line: each begins at the margin. Comments are left out."""
    found = []
    for number, line in enumerate(text.split("\n"), 1):
        line = re.sub(r"(^|\s)--(\s.*)?$", "", line).rstrip()
        if line and line[0] in " }" and found:
            found[-1] = (found[-1][0] + "\n" + line, found[-1][1])
        elif line:
            found.append((line, number))
    return found

class Parser:
    """Expressions are tuples: var, num, str, nil, get, app, op, tuple, lam, if, record, all, any. Patterns are
    expressions too."""

    def __init__(self, text):
        self.tokens, self.at = [(it[0], it.start(), it.end()) for it in TOKEN.finditer(text)] + [("", -1, -1)], 0

    def peek(self):
        return self.tokens[self.at][0]

    def next(self, wanted=None):
        token = self.peek()
        if wanted and token != wanted:
            raise Untranslated(f"{wanted!r} is expected, and not {token!r}")
        self.at += 1
        return token

    def after(self, word):
        self.next(word)
        return self.expression()

    def group(self, opening, closing):
        """Goes on after a group in brackets. Returns its tokens."""
        begin, depth = self.at, 0
        while True:
            token = self.next()
            depth += (token == opening) - (token == closing)
            if not depth:
                return [it[0] for it in self.tokens[begin + 1:self.at - 1]]
            if not token:
                raise Untranslated(f"no {closing!r}")

    def expression(self, level=0):
        token = self.peek()
        if token == "λ":
            return self.function()
        if token == "if":
            return ("if", self.after("if"), self.after("then"), self.after("else"))
        if token == "(" and re.match(r"\( ([\w ]+) : ", " ".join(it[0] for it in self.tokens[self.at:self.at + 12])):
            return self.quantified()
        if level == len(LEVELS):
            return self.application()
        if token == "¬":
            self.next()
        left = ("op", "→", self.application(), ("var", "⊥")) if token == "¬" else self.expression(level + 1)
        while self.peek() in LEVELS[level]:
            operator = self.next()
            left = ("op", operator, left, self.expression(level + (operator in TO_THE_LEFT)))
        return left

    def function(self):
        self.next("λ")
        names = []
        while self.peek() != ".":
            name, colon, *_ = (*self.group("(", ")"), "") if self.peek() == "(" else (self.next(), ":")
            if colon != ":" or not name.isidentifier():
                raise Untranslated(f"the variable {name} of a function")
            names.append(name)
        return functools.reduce(lambda body, name: ("lam", name, body), reversed(names), self.after("."))

    def quantified(self):
        """`(x y : T) → ..`, which may be followed by another group, or `(x : T) × ..`"""
        group = self.group("(", ")")
        names, type = group[:group.index(":")], " ".join(group[group.index(":") + 1:])
        kind, follows = "any" if self.peek() == "×" else "all", self.peek()
        body = self.expression() if follows == "(" else self.after(follows)
        if follows not in ("→", "×", "(") or follows == "(" and body[0] != "all":
            raise Untranslated(f"{follows} after ({' '.join(group)})")
        return functools.reduce(lambda body, name: (kind, name, type, body), reversed(names), body)

    def application(self):
        head, arguments = self.atom(), []
        while re.match(r'[\w"(\[{⊤⊥]', self.peek()) and self.peek() not in ("then", "else", "in"):
            if self.peek() == "{":  # an implicit argument
                self.group("{", "}")
            else:
                arguments.append(self.atom())
        return ("app", head, arguments) if arguments else head

    def atom(self):
        token = self.next()
        if token == "(":
            items = [self.expression()]
            while self.peek() == ",":
                items.append(self.after(","))
            self.next(")")
            found = ("tuple", items) if len(items) > 1 else items[0]
        elif token == "record":
            found = ("record", None if self.peek() == "{" else self.atom(), self.fields())
        elif token == "[]":
            found = ("nil",)
        elif token[:1] == '"' and not re.fullmatch(r'"[ !#-[\]-~]*"', token):  # an escape, which Coq doesn't have
            raise Untranslated(f"the string {token}")
        elif re.match(r'["\w⊤⊥]', token):
            found = ("str", token) if token[0] == '"' else ("num", int(token, 0)) if token[0].isdigit() else (
                "var", token)
        else:
            raise Untranslated(f"unexpected {token!r}")
        while self.peek() == "." and self.tokens[self.at][1] == self.tokens[self.at - 1][2] == self.tokens[self.at + 1][
            1] - 1:
            self.next()
            found = ("get", found, self.next())
        return found

    def fields(self):
        found = {}
        self.next("{")
        while self.peek() != "}":
            name = self.next()
            found[name] = self.after("=")
            if self.peek() == ";":
                self.next()
        self.next("}")
        return found


class Definition:
    """Its clauses are chunks of text, with the numbers of their lines; `locals` are the definitions after its
    `where`."""

    def __init__(self, module, name, type, local_to=None):
        self.module, self.name, self.type, self.chunks, self.lines = module, name, type, [], []
        self.locals = local_to.locals if local_to else {}

    def place(self, clause=0):
        """The file and the line of a clause."""
        return f"{self.module.file}:{self.lines[clause] if self.lines else 1}"

    @functools.cached_property
    def clauses(self):
        """The patterns and the body of each clause."""
        found = []
        if not self.chunks:
            raise Untranslated(f"{self.place()}: {self.name} has no clause")
        for i, chunk in enumerate(self.chunks):
            with at(f"{self.place(i)}: {self.name}"):
                found.append(self.clause(chunk))
        if len({len(patterns) for patterns, _ in found}) > 1:
            raise Untranslated(f"{self.place()}: {self.name}: its clauses have different numbers of arguments")
        return found

    @staticmethod
    def clause(chunk):
        parser = Parser(chunk)
        head = parser.application()
        clause = (head[2] if head[0] == "app" else [], parser.after("="))
        if parser.peek():
            raise Untranslated(f"{parser.peek()!r} is left")
        return clause


FORMS = {
    "use": r"(?:pub |unfoldable )*use ([^\s{]+?)(\.\{(.*)\})?(?: as (\S+))?$",
    "data": r"(?:pub )?data (\S+)(.*) where\n(.*)",
    "record": r"(?:pub )?record (\w+) ?(.*) ?: Type 0 where\n(.*)",
    "type": r"(?:abbrev |unfoldable |opaque |pub )*(\w+)(?: \{ℓ\})? : (.*)",
}


class Typed:
    """A type: a `record` of fields or a `data` of constructors, each with its type; its parameters with their types and
    brackets."""

    def __init__(self, kind, parameters, items, file, line):
        self.kind, self.parameters, self.items, self.file, self.line = kind, parameters, items, file, line

    @property
    def is_data(self):
        """Whether a record is of values: others are of propositions."""
        return not self.parameters and not any(re.search("[≡≢→↔≤]", type) for _, type in self.items)


def parameters_in(text):
    """The parameters before a colon: bracket, name and type of each."""
    form = r"([({])([\w ]+) : ((?:[^(){}]|\([^()]*\))*)[)}]"
    if (left := re.sub(form, "", text).strip()) not in ("", ": Type 0"):
        raise Untranslated(f"what isn't a parameter: {left}")
    return [(bracket, name, type) for bracket, names, type in re.findall(form, text) for name in names.split()]


class Module:
    """A file: its definitions, its types, their constructors, and the names that it takes from elsewhere."""

    def __init__(self, path, file, root=ROOT):
        self.path, self.file = path, relative(file, root)
        self.definitions, self.constructors, self.uses, self.typed = {}, {}, {}, {}
        for chunk, line in chunks(read(file)):
            found = next(((kind, it) for kind, form in FORMS.items() if (it := re.match(form, chunk, re.S))), None)
            name = re.match(r"[\w-]+", chunk)
            if found:
                getattr(self, f"read_{found[0]}")(found[1], line)
            elif name and name[0] in self.definitions:
                self.read_clause(self.definitions[name[0]], chunk, line)
            elif not re.fullmatch(r"pub mod [\w.]+", chunk):
                raise Untranslated(f"{self.file}:{line}: this isn't understood: {chunk.splitlines()[0]}")

    def new(self, table, name, value):
        """A name, which is nothing else in the module: it would be taken for the other one."""
        if any(name in it and it[name] != value for it in (self.definitions, self.constructors, self.uses, self.typed)):
            raise Untranslated(f"{self.file}: a second {name}")
        table[name] = value

    def read_use(self, it, _line):
        for item in it[3].split(",") if it[2] else [""]:
            words = item.split()
            full = it[1].split(".") + (words[0].split(".") if words else [])
            self.new(self.uses, words[2] if len(words) == 3 else it[4] or full[-1], full)

    def read_data(self, it, line):
        items = self.read_items("data", it, line, r"  (\w+) : (.*)\n")
        for name, _ in items:
            self.new(self.constructors, name, f"{it[1]}__{name}")

    def read_record(self, it, line):
        self.read_items("record", it, line, r"  pub (\w+) : ((?:.*\n(?!  \w))*.*\n)")

    def read_items(self, kind, it, line, form):
        """The constructors or fields of a type, which are all that it has."""
        if not re.fullmatch(f"(?:{form})*", it[3] + "\n"):
            raise Untranslated(f"{self.file}:{line}: a part of {it[1]} isn't understood")
        items = re.findall(form, it[3] + "\n")
        self.new(self.typed, it[1], Typed(kind, parameters_in(it[2]), items, self.file, line))
        return items

    def declare(self, name, type, local_to=None):
        self.new(self.definitions, name, Definition(self, name, type, local_to))
        return self.definitions[name]

    def read_type(self, it, _line):
        self.declare(it[1], it[2])

    def read_clause(self, definition, chunk, line):
        chunk, _, local = chunk.partition("\n  where\n")
        if definition.chunks and (local or definition.locals and definition not in definition.locals.values()):
            raise Untranslated(f"{self.file}:{line}: {definition.name}: several clauses, of which one has a `where`")
        definition.chunks.append(chunk)
        definition.lines.append(line)
        for part, _ in chunks(re.sub(r"^    ", "", local, flags=re.M)):
            if it := re.match(r"(\w+) : (.*)", part, re.S):
                definition.locals[it[1]] = self.declare(f"{definition.name}_{it[1]}", it[2], definition)
            else:
                self.read_clause(definition.locals[re.match(r"\w+", part)[0]], part, line)


class Names:
    """What a name is: a definition, a constructor, a function that library.txt has without clauses, or a module or
    namespace."""

    def __init__(self, root=ROOT):
        self.root = root

    @functools.cache
    def module(self, path):
        file = self.root.joinpath("crates", *path[1:]).with_suffix(".antt")
        if path == LIBRARY:
            found = Module(path, ROOT / "checks/coq/library.txt")
        elif path[0] == "Rattle" and path[1] in CRATES and file.exists():
            found = Module(path, file, self.root)
        else:
            return None
        if path != LIBRARY:
            self.check_names(found)
        return found

    def check_names(self, module):
        """That a name of the library, or an operator, is what it is there."""
        library = self.module(LIBRARY)
        own = {*module.definitions, *module.constructors, *module.typed,
               *(it for of in module.definitions.values() for it in of.locals),
               *(it for it, path in module.uses.items() if path[:2] != ["Rattle", "std"] or path[-1] != it)}
        taken = {*BUILT_IN, *library.definitions, *library.constructors, *library.typed}
        if other := next((it for it in sorted(own) if it in taken or "◌" in it), None):
            raise Untranslated(f"{module.file}: {other} isn't that of the library")

    def lookup(self, path):
        path = tuple(path)
        if "TheVariants" in path:
            at = path.index("TheVariants")
            return ("constructor", f"{path[at - 1]}__{path[-1]}") if path[at + 1:] else ("namespace", path)
        if "declared" in path and path[-1] == path[-2]:  # an enum or a struct of the code
            return "namespace", path[:-1] + ("TheVariants",)
        if path[:2] == ("Rattle", "std"):
            return self.exported(self.module(LIBRARY), path[-1])
        if path[0] != "Rattle" or path[1] not in CRATES:
            return "unknown", ".".join(path)
        if self.module(path):
            return "namespace", path
        if len(path) > 3 and "declared" not in path and self.module(path[:-1]):
            return self.exported(self.module(path[:-1]), path[-1])
        return "unknown", ".".join(path)

    def exported(self, module, name):
        if name in module.definitions:
            found = module.definitions[name]
            return ("built in" if module.path == LIBRARY and not found.chunks else "definition"), found
        if name in module.constructors:
            return "constructor", module.constructors[name]
        if name in module.uses:
            return self.lookup(module.uses[name])
        return ("unknown", name) if module.path == LIBRARY else self.exported(self.module(LIBRARY), name)

    def resolve(self, definition, expression):
        """What a var is, or a name after a namespace."""
        if expression[0] == "get":
            kind, path = self.resolve(definition, expression[1]) if expression[1][0] in ("var", "get") else ("", "")
            return self.lookup(path + (expression[2],)) if kind == "namespace" else ("", "")
        if expression[1] in definition.locals:
            return "definition", definition.locals[expression[1]]
        return self.exported(definition.module, expression[1])


def parts(expression):
    return expression.values() if isinstance(expression, dict) else expression if isinstance(
        expression, (tuple, list)) else ()


def code_types(root=ROOT):
    """The enums and structs of the code: the variants with the types of their arguments, or the fields with theirs."""
    found = {}
    for crate in CRATES:
        for file in sorted((root / "crates" / crate / "src").rglob("*.rt")):
            for it in re.finditer(r"^pub (enum|struct) (\w+)[^{;]*\{\n(.*?)^\}", text := read(file), re.M | re.S):
                form = r"^    (\w+)(?:\((.*)\))?,$" if it[1] == "enum" else r"^    pub (\w+): (.*),$"
                line = text.count("\n", 0, it.start()) + 1
                left = re.sub(rf"{form}|^ *(//|#\[|pub ghost ).*", "", it[3], flags=re.M).strip()
                if left or it[2] in found:
                    raise Untranslated(f"{relative(file, root)}:{line}: {left or 'a second type'} in {it[2]}")
                found[it[2]] = Typed(it[1], [], re.findall(form, it[3], re.M), relative(file, root), line)
    return found


LAW = re.compile(
    r"^pub fn (?P<name>\w+)\((?P<of>[^)]*)\)\n(?P<ensures>.*?)^\{(?:\}|\n.*?^\})$|"
    r"^ghost (?P<use>use [^;\n]*);|^(?:pub )?use [^;]*;", re.M | re.S)
ENSURES = re.compile(r"\s*ensures (?:\w+ )?\{(.*?)\}(?=\s*ensures |\s*\Z)", re.S)


class Laws(Module):
    """The laws of a crate: what the functions of its laws.rt ensure. One with several parts is all of these."""

    def __init__(self, crate, root=ROOT):
        file = root / "crates" / crate / "src/laws.rt"
        self.path, self.file = ("Rattle", crate, "laws"), relative(file, root)
        self.definitions, self.constructors, self.uses, self.typed = {}, {}, {}, {}
        text = re.sub(r"^ *//.*", "", read(file), flags=re.M)
        for it in LAW.finditer(text):
            if it["use"]:
                self.read_use(re.match(FORMS["use"], it["use"]), 0)
            elif it["name"]:
                self.read_law(it, text.count("\n", 0, it.start("name")) + 1)
        left = LAW.sub(lambda it: "\n" * it[0].count("\n"), text)
        if it := re.search(r"^.*\S.*", left, re.M):
            raise Untranslated(f"{self.file}:{left[:it.start()].count(chr(10)) + 1}: this isn't understood: {it[0]}")

    def read_law(self, it, line):
        parts = [f"({' '.join(part.split())})" for part in ENSURES.findall(it["ensures"])]
        if ENSURES.sub("", it["ensures"]).strip() or not parts or it["name"] in self.definitions:
            raise Untranslated(f"{self.file}:{line}: {it['name']} isn't a law of its own, that only ensures something")
        law = self.definitions[it["name"]] = Definition(self, it["name"], "Type 0")
        law.chunks.append(f"{law.name} = {' × '.join(parts)}")
        law.lines.append(line)
        law.is_of_code = bool(it["of"]) or "⟦" in it["ensures"]
