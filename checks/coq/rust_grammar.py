"""The grammar of the Rust that is translated: types, patterns, statements and expressions, as tuples `(kind, part..)`.

What isn't understood is an error with file and line. Lifetimes, visibility and `&` of a value are dropped; `&mut` is
kept, and is an error where it isn't a call's argument."""
import re

from reading import Untranslated

TOKEN = re.compile(r"""(?P<skip>\s+|//[^\n]*)|b?"(?:\\.|[^"\\])*"|b?'(?:\\.|[^'\\])'|(?P<life>'\w+)|\d\w*"""
                   r"""|[A-Za-z_]\w*(?:!(?!=))?"""
                   r"""|\.\.=|\.\.|<<|=>|->|==|!=|<=|>=|&&|\|\||\+=|-=|::|.""", re.S)
LEVELS = ["||", "&&", "== != < > <= >=", "|", "^", "&", "<< >>", "+ -", "* / %"]
CLOSING = {"(": ")", "[": "]", "{": "}", "<": ">"}
FEATURES = ("alloc",)  # those that may change what a function does
OTHERS = ("std", "serde_support")  # those that only add impls of traits that nothing calls
# Attributes that change no answer, and what of `cfg_attr` is one of them.
ATTRIBUTES = "allow doc forbid inline macro_export must_use no_std non_exhaustive repr rustfmt warn".split()
IF = re.compile(r"""docsrs , (feature|doc) .*
    |not \( feature = "alloc" \) , (non_exhaustive|allow \( dead_code , unused_imports \))""".replace("\n    ", ""))
DERIVED = "Clone Copy Debug PartialEq Eq PartialOrd Ord Hash".split()
BINARY = {sign: level for level, signs in enumerate(LEVELS, 1) for sign in signs.split()}


class Unknown(Untranslated):
    """Something that isn't translated; `place` is the file and the line."""

    def __init__(self, what, place=None):
        super().__init__(what)
        self.place = place

    def __str__(self):
        return f"{self.place}: {self.args[0]}" if self.place else self.args[0]


class Node(tuple):
    """An expression, with its place."""

    def __new__(cls, place, *parts):
        self = super().__new__(cls, parts)
        self.place = place
        return self


def T(name, *args):
    return ("T", name, args)


def both(found):
    """Whether all of some conditions hold; None is one that isn't known."""
    return False if False in found else None if None in found else True


def either(found):
    return True if True in found else None if None in found else False


BOOL, STR, USIZE, BYTES, UNIT = T("bool"), T("str"), T("usize"), ("slice", T("u8")), ("tuple", ())


class Parser:
    strict = True

    def __init__(self, text, file, features):
        self.features, self.file, self.at, line = features, file, 0, 1
        found = []
        for it in TOKEN.finditer(text):
            if self.strict and text[it.start():it.start() + 2] == "/*":
                raise Unknown("a comment that isn't of one line", f"{file}:{line}")
            if it.lastgroup is None:
                found.append((it[0], line))
            line += it[0].count("\n")
        self.set_tokens([*found, ("", line)])

    def set_tokens(self, found):
        self.tokens, self.lines = [it for it, _ in found], [line for _, line in found]

    # ---- tokens

    def place(self):
        return f"{self.file}:{self.lines[self.at]}"

    def unknown(self, what):
        return Unknown(what, self.place())

    def node(self, *parts):
        return Node(self.place(), *parts)

    def peek(self, n=0):
        return self.tokens[min(self.at + n, len(self.tokens) - 1)]

    def next(self, wanted=None):
        token = self.peek()
        if wanted is not None and token != wanted:
            raise self.unknown(f"{token!r}, not {wanted!r}")
        self.at += 1
        return token

    def has(self, *tokens):
        if self.tokens[self.at:self.at + len(tokens)] == list(tokens):
            self.at += len(tokens)
            return True
        return False

    def many(self, end, one):
        """What `one` reads, between commas."""
        found = []
        while not self.has(end):
            found.append(one())
            if not self.has(","):
                self.next(end)
                break
        return found

    def skip(self, opening):
        """What is between a bracket and the one that closes it; both are skipped too."""
        start, depth, closing = self.at, 0, CLOSING[opening]
        while True:
            token = self.next()
            if not token:
                raise self.unknown(f"no {closing} is left")
            depth += (token == opening) - (token == closing)
            if not depth:
                return self.tokens[start + 1:self.at - 1]

    def to(self, ends):
        """Skips what is before one of some tokens outside of brackets."""
        while self.peek() not in ends:
            if self.peek() in ("(", "[", "{"):
                self.skip(self.peek())
            elif not self.next():
                raise self.unknown(f"none of {ends} is left")

    def attributes(self):
        """Whether the configuration keeps what follows, or None if each may; and the traits that it derives."""
        kept, derived = True, []
        while self.has("#"):
            is_inner, start = self.has("!"), self.at
            words = self.skip("[")
            if words[0] == "cfg" and not is_inner:
                end, self.at = self.at, start + 3
                kept, self.at = both([kept, self.condition()]), end
            elif words[0] == "derive":
                derived += words[2:-1]
            elif self.strict and words[0] not in ATTRIBUTES and not (
                    words[0] == "cfg_attr" and IF.fullmatch(" ".join(words[2:-1]))):
                raise self.unknown(f"the attribute {words[0]}")
        if self.strict and {*derived} - {*DERIVED, ","}:
            raise self.unknown(f"the derived {' '.join(derived)}")
        return kept, derived

    def certain(self):
        """Whether the configuration keeps a part of an item."""
        kept, derived = self.attributes()
        if kept is None or derived:
            raise self.unknown("what another feature changes")
        return kept

    def condition(self):
        name = self.next()
        if self.has("("):
            found = self.many(")", self.condition)
            return {"not": lambda: None if found[0] is None else not found[0], "all": lambda: both(found),
                    "any": lambda: either(found)}[name]()
        if name in ("test", "doctest", "core_error", "docsrs"):
            return False if name[-4:] == "test" else None
        feature = self.next().strip('"') if name == "feature" and self.has("=") else ""
        if feature not in (*FEATURES, *OTHERS):
            raise self.unknown(f"the configuration {feature or name}")
        return feature in self.features if feature in FEATURES else None

    def visibility(self):
        """Whether the whole crate sees it, and `pub` if others do too."""
        return self.has("pub") and (self.peek() != "(" and "pub" or self.skip("(") == ["crate"])

    def path(self, first):
        """The names of a path that begins with one."""
        found = [first]
        while self.has("::"):
            found.append(self.next())
        return found

    # ---- types and patterns

    def type(self):
        if self.has("&"):
            return ("mut", self.type()) if self.has("mut") else self.type()
        if self.has("("):
            return ("tuple", tuple(self.many(")", self.type)))
        if self.has("["):
            of = self.type()
            if self.has(";"):
                self.expression()
            self.next("]")
            return ("slice", of)
        if self.has("impl", "Into", "<"):
            of = self.type()
            self.next(">")
            return ("into", of)
        name = self.path(self.next())[-1]
        args = self.many(">", lambda: None if self.peek() in (">", ",") else self.type()) if self.has("<") else []
        if not re.fullmatch(r"\w+", name) or name in ("impl", "dyn", "fn"):
            raise self.unknown(f"the type {name}")
        args = [it for it in args if it]
        return args[0] if name in ("Box", "Cow") else T({"String": "str", "CowStr": "str"}.get(name, name), *args)

    def pattern(self):
        self.has("|")
        found = [self.pattern_one()]
        while self.has("|"):
            found.append(self.pattern_one())
        return found[0] if len(found) == 1 else ("or", found)

    def pattern_one(self):
        while self.has("&"):
            pass
        mutable = self.has("mut")
        if self.has("("):
            found = self.many(")", self.pattern)
            return found[0] if len(found) == 1 and self.peek(-2) != "," else ("tuple", found)
        if self.has("["):
            return ("list", self.many("]", self.pattern))
        token = self.next()
        if re.match(r"b?['\"]|\d", token):
            return ("range", token, self.next()) if self.has("..=") else ("lit", token)
        path = self.path(token)
        if not all(re.fullmatch(r"\w+", it) for it in path) or token == "ref" or self.peek() in ("{", "@", ".."):
            raise self.unknown(f"the pattern {'::'.join(path)} {self.peek()}")
        if self.has("("):
            return ("con", path, self.many(")", self.pattern))
        if token == "_":
            return ("_",)
        if len(path) > 1 or token == "None":
            return ("con", path, [])
        return ("lit", token) if token.isupper() else ("var", token, mutable)

    # ---- expressions and statements; without `struct`, a `{` begins a block

    def expression(self, struct=True):
        left = self.range(struct)
        if self.peek() in ("=", "+=", "-="):
            sign = self.next()
            right = self.expression(struct)
            return self.node("assign", left, right if sign == "=" else self.node("op", sign[0], left, right))
        return left

    def range(self, struct):
        left = None if self.peek() == ".." else self.binary(struct)
        if self.has(".."):
            return self.node("range", left, None if self.peek() in ("]", ")", ";", "}") else self.binary(struct))
        return left

    def binary(self, struct, least=1):
        left = self.unary(struct)
        while self.has("as"):
            left = self.node("cast", left, self.type())
        while BINARY.get(self.sign(), 0) >= least:
            sign = self.sign()
            self.at += 1 + (sign == ">>")
            left = self.node("op", sign, left, self.binary(struct, BINARY[sign] + 1))
        return left

    def sign(self):
        """The next token, or the two of a shift."""
        return ">>" if self.peek() == self.peek(1) == ">" else self.peek()

    def unary(self, struct):
        if self.has("!"):
            return self.node("not", self.unary(struct))
        if self.has("&", "mut"):
            return self.node("borrow", self.unary(struct))
        if self.has("*") or self.has("&"):
            return self.unary(struct)
        it = self.primary(struct)
        while True:
            if self.has("."):
                name, of = self.next(), None
                if self.has("::", "<"):
                    of = self.type()
                    self.next(">")
                if self.has("("):
                    it = self.node("method", it, name, self.many(")", self.expression), of)
                else:
                    it = self.node("field", it, name)
            elif self.has("("):
                it = self.node("call", it, self.many(")", self.expression))
            elif self.has("["):
                it = self.node("index", it, self.expression())
                self.next("]")
            elif self.has("?"):
                it = self.node("try", it)
            else:
                return it

    def primary(self, struct):
        token = self.next()
        if re.match(r"b?['\"]|\d", token):
            return self.node("lit", token)
        if token == "(":
            found = self.many(")", self.expression)
            return found[0] if len(found) == 1 and self.peek(-2) != "," else self.node("tuple", found)
        if token in ("[", "vec!"):
            if token == "vec!":
                self.next("[")
            first = [] if self.peek() == "]" else [self.expression()]
            if first and self.has(";"):
                count = self.expression()
                self.next("]")
                return self.node("repeat", first[0], count)
            self.has(",")
            return self.node("list", first + self.many("]", self.expression))
        if token in ("|", "||"):
            pattern = ("tuple", self.many("|", self.pattern_one)) if token == "|" else ("tuple", [])
            return self.node("closure", pattern[1][0] if len(pattern[1]) == 1 else pattern, self.expression())
        if token == "{":
            return self.block(True)
        if token in ("if", "while"):
            pattern = self.pattern() if self.has("let") else None
            if pattern:
                self.next("=")
            of = self.expression(False)
            body = self.block()
            if token == "while":
                return self.node("while", pattern, of, body)
            other = self.node("block", [], self.node("tuple", []))
            if self.has("else"):
                other = self.primary(True) if self.peek() == "if" else self.block()
            if pattern:
                return self.node("match", of, [(pattern, body), (("_",), other)])
            return self.node("if", of, body, other)
        if token == "match":
            of, arms = self.expression(False), []
            self.next("{")
            while not self.has("}"):
                kept, pattern = self.certain(), self.pattern()
                self.next("=>")
                arm = (pattern, self.expression())
                self.has(",")
                arms += [arm] if kept else []
            return self.node("match", of, arms)
        if token == "return":
            return self.node("return", self.node("tuple", []) if self.peek() in (";", ",", "}") else self.expression())
        if token == "matches!":
            self.next("(")
            of = self.expression()
            self.next(",")
            pattern = self.pattern()
            self.has(",")
            self.next(")")
            return self.node("match", of, [(pattern, self.node("lit", "true")), (("_",), self.node("lit", "false"))])
        if token == "unreachable!":
            self.skip("(")
            return self.node("panic")
        if token == "cfg!":
            self.next("(")
            if (found := self.condition()) is None:
                raise self.unknown("what another feature changes")
            found = self.node("lit", str(found).lower())
            self.next(")")
            return found
        if not re.fullmatch(r"\w+", token):
            raise self.unknown(f"an expression that begins with {token!r}")
        path = self.path(token)
        if struct and self.peek() == "{" and path[-1][0].isupper() and not path[-1].isupper():
            fields, base = {}, None
            self.next("{")
            while not self.has("}"):
                if self.has(".."):
                    base = self.expression()
                else:
                    name = self.next()
                    fields[name] = self.expression() if self.has(":") else self.node("path", [name])
                self.has(",")
            return self.node("struct", path[-1], fields, base)
        return self.node("lit", token) if token in ("true", "false") else self.node("path", path)

    def block(self, is_open=False):
        if not is_open:
            self.next("{")
        statements = []
        while not self.has("}"):
            if self.has("let"):
                pattern = self.pattern()
                type = self.type() if self.has(":") else None
                self.next("=")
                value, other = self.expression(), self.block() if self.has("else") else None
                statements.append(self.node("let", pattern, value, other, type))
                self.next(";")
                continue
            start, it = self.at, None
            if self.peek() in ("if", "match", "while", "{"):  # a statement ends with its block
                it = self.primary(True)
                if self.peek() in (".", "?", "}"):
                    self.at, it = start, None
            it = it or self.expression()
            if self.has("}"):
                return self.node("block", statements, it)
            if not self.has(";") and it[0] not in ("if", "match", "while", "block"):
                raise self.unknown(f"a statement before {self.peek()!r}")
            statements.append(self.node("do", it))
        return self.node("block", statements, self.node("tuple", []))
