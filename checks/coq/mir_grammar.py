"""Reads the MIR that rustc prints, and of its HIR what is declared. A form that isn't known is an error.

A place is a local and its projections: ("*",), (".", index, type), ("as", variant), ("[]", local), ("[c]", index)."""
import functools
import re
from collections import namedtuple

from reading import Untranslated


class Unknown(Untranslated):
    """What the reader doesn't know."""


# A character, or brackets with what they enclose, of whatever kind.
ANY = r"[^()\[\]{}<>]"
for _ in range(9):
    ANY = rf"(?:[^()\[\]{{}}<>]|[(\[{{<]{ANY}*[)\]}}>])"
ESCAPES = {"n": "\n", "t": "\t", "r": "\r", "0": "\0", '"': '"', "'": "'", "\\": "\\"}


def plain(text):
    """MIR with the bytes of each text in hexadecimal digits, an ASCII character as its number, and statics and files by
    their names; without lifetimes; and what is of core or alloc is of std, which has it by the same path."""
    def plain_text(m):
        if m[0][0] not in "'\"":  # how the bytes of an allocation look
            return ""
        if m[1]:
            return f"'{ord(m[1])}'"
        parts = re.findall(r"\\x(..)|\\u\{(\w+)\}|\\(.)|([^\\]+)", m[2])
        return '"%s"' % "".join(byte or (of or ESCAPES.get(escape) or chr(int(number, 16))).encode().hex()
                                for byte, number, escape, of in parts)
    text = re.sub(r"""^[^"'\n]*│.*|'([ -&(-\[\]-~])'|"((?:[^"\\\n]|\\.)*)\"""", plain_text, text, flags=re.M)
    statics = dict(re.findall(r"^(alloc\d+) \(static: ([\w:]+),", text, re.M))
    text = re.sub(r"(?<=\{)alloc\d+(?=: )", lambda m: statics.get(m[0], "?"), text)
    text = re.sub(r"<static\(DefId\(0:\d+ ~ \w+\[\w+\]::([\w:]+)\)\)>", r"{\1: }", text)
    text = re.sub(r"(<impl at |\{closure@).*?\b(out|src)/", r"\1\2/", text)
    text = re.sub(r"(?<![\w:])(core|alloc)::", "std::", re.sub(r"&'\w+ ", "&", text))
    return re.sub(r"(::)?<('\w+(, )?)+>", "", re.sub(r"<('\w+, )+(?!')", "<", text))


def split(text):
    """The parts between commas outside of brackets."""
    if not re.fullmatch(rf"{ANY}*", text):
        raise Unknown(f"brackets of {text}")
    return [it.strip() for it in re.findall(rf"(?:(?!,){ANY})+", text)]


def within(number, type):
    """A number that a type has whatever the target: a `usize` may have 32 bits, and of other characters than ASCII's
    only that they are greater is known."""
    if number >= {"usize": 2 ** 32, "isize": 2 ** 31, "char": 128}.get(type, number + 1):
        raise Unknown(f"{number} of a {type}")
    return str(number)


def read(forms, text):
    """What the first form that a text has makes of its parts."""
    for form, make in forms.items():
        if m := re.fullmatch(form, text, re.ASCII):
            return make(*m.groups())
    raise Unknown(f"the form {text}")


def place(text):
    """A local, or a step from another place."""
    if m := re.fullmatch(r"_(\d+)", text):
        return int(m[1]), []
    of, step = read(STEPS, text)
    local, steps = place(of)
    return local, [*steps, step]


def operand(text):
    return read(OPERANDS, text)


def operands(text):
    return [operand(it) for it in split(text)]


PLACE = rf"((?:_\d+|\({ANY}*\))(?:\[[^]]*\])?)"
STEPS = {
    rf"\(\*{PLACE}\)": lambda of: (of, ("*",)),
    rf"\({PLACE} as (\w+)\)": lambda of, variant: (of, ("as", variant)),
    rf"\({PLACE}\.(\d+): (.*)\)": lambda of, index, type: (of, (".", int(index), type)),
    rf"{PLACE}\[_(\d+)\]": lambda of, local: (of, ("[]", int(local))),
    rf"{PLACE}\[(\d+) of \d+\]": lambda of, index: (of, ("[c]", int(index))),
}
OPERANDS = {
    r"(copy|move) (.*)": lambda how, of: (how, place(of)),
    r"const (\d+)_(u8|u16|u32|u64|usize|isize)": lambda number, type: ("value", within(int(number), type), type),
    r"const '(\d+)'": lambda number: ("value", number, "char"),
    r"const (true|false)": lambda word: ("value", word, "bool"),
    r"const \(\)": lambda: ("value", "tt", "()"),
    r'const (b?)"(\w*)"': lambda is_bytes, digits: ("value", f"[{'; '.join(map(str, bytes.fromhex(digits)))}]", (
        f"&[u8; {len(digits) // 2}]" if is_bytes else "&str")),
    r"const ZeroSized: (\{closure@.*\})": lambda type: ("closure", type),
    r"const \{([\w:]+): .*\}": lambda path: ("static", path),
    rf"const (.*?)\(({ANY}*)\)":
        lambda path, parts: ("aggregate", path, [operand(f"const {it}") for it in split(parts)]),
    r"const ([\w<{].*)": lambda path: ("constant", path),
}
BINARY = "Eq Ne Lt Le Gt Ge Div Rem BitAnd BitOr BitXor Shl Shr AddWithOverflow SubWithOverflow MulWithOverflow".split()
RVALUES = {
    rf"({'|'.join(BINARY)})\((.*)\)": lambda name, parts: ("binary", name, *operands(parts)),
    r"Not\((.*)\)": lambda of: ("not", operand(of)),
    r"PtrMetadata\((.*)\)": lambda of: ("length", operand(of)),
    r"discriminant\((.*)\)": lambda of: ("discriminant", place(of)),
    rf"((?:copy|move) {PLACE}) as (.*) \((IntToInt|PointerCoercion\(Unsize, Implicit\)|Transmute)\)":
        lambda of, _, type, kind: ("cast", kind, operand(of), type),
    r"((?:copy|move|const) .*)": lambda of: ("use", operand(of)),
    r"&(?:mut|raw const \(fake\)) (.*)": lambda of: ("mut", place(of)),
    r"&(.*)": lambda of: ("ref", place(of)),
    r"\[(.*); (\d+)\]": lambda of, count: ("repeat", operand(of), int(count)),
    rf"\(({ANY}*)\)": lambda parts: ("tuple", operands(parts)),
    rf"\[({ANY}*)\]": lambda parts: ("array", operands(parts)),
    rf"(.*?) \{{ ({ANY}*) \}}": lambda path, parts: ("aggregate", path, [operand(it.partition(": ")[2]) for it in split(
        parts)], [it.partition(": ")[0] for it in split(parts)]),
    rf"(\w.*::.*?|[A-Z]\w*)\(({ANY}*)\)": lambda path, parts: ("aggregate", path, operands(parts), None),
    r"(\w.*::.*)": lambda path: ("aggregate", path, [], None),
}
STATEMENTS = {rf"{PLACE} = (.*)": lambda to, value: (place(to), read(RVALUES, value))}
TERMINATORS = {
    r"(return|unreachable)": lambda kind: (kind,),
    r"goto -> bb(\d+)": lambda b: ("goto", int(b)),
    r"switchInt\((.*)\) -> \[((?:\d+: bb\d+, )*)otherwise: bb(\d+)\]": lambda of, cases, b: ("switch", operand(of), {
        int(number): int(to) for number, to in re.findall(r"(\d+): bb(\d+)", cases)} | {"otherwise": int(b)}),
    r'assert\((!?)((?:copy|move) .*?), ".*\) -> \[success: bb(\d+), .*\]':
        lambda negated, of, b: ("assert", not negated, operand(of), int(b)),
    r"drop\(.*\) -> \[return: bb(\d+), .*\]": lambda b: ("goto", int(b)),  # no type of the crate implements Drop
    rf"{PLACE} = (.*?)\(({ANY}*)\) -> \[return: bb(\d+), .*\]":
        lambda to, path, parts, b: ("call", place(to), path, operands(parts), int(b)),
    r".*\) -> (?:unwind .*|bb\d+)": lambda: ("panic",),  # a call that doesn't return
}


class Function:
    """A function or a constant, by the path that rustc prints. Its blocks are read when they are needed."""

    def __init__(self, path, parameters, result, text):
        self.path, self.result, self.text, self.promoted = path, result, text, {}
        self.parameters = [(int(n), type) for n, type in (it[1:].split(": ", 1) for it in split(parameters))]
        locals = re.findall(r"^ *let (?:mut )?_(\d+): (.*);$", text, re.M)
        self.types = {0: self.result} | dict(self.parameters) | {int(n): it for n, it in locals}

    def blocks(self):
        """The statements of each block, and what it ends with, without blocks that run after a panic."""
        found = {}
        for number, text in re.findall(r"^    bb(\d+): \{\n(.*?)^    \}", self.text, re.M | re.S):
            *lines, end = re.findall(r"^ *(?!StorageLive\(|StorageDead\()(\S.*?);?$", text, re.M)
            found[int(number)] = [read(STATEMENTS, it) for it in lines], read(TERMINATORS, end)
        return found


ITEM = re.compile(
    r"^(?:const fn|fn|const|static) (?P<name>\S[^\n]*?)"
    r"(?:\((?P<parameters>(?:_1: [^\n]*)?)\) -> (?P<result>[^\n]*) \{\n|"
    r": (?!\d)(?P<type>[^\n]*?) = (?:\{\n|const (?P<value>[^\n]*);\n))"
    r"(?:(?<=\{\n)(?P<body>.*?)^\})?", re.M | re.S)
ALLOCATION = re.compile(r"^alloc\d+ \([^\n]*\) \{(?:\}|\n.*?^\})|^//[^\n]*", re.M | re.S)


def read_mir(text):
    """The functions, and each constant and static by its path."""
    functions, constants, last = [], {}, {}
    text = re.sub(r"^// MIR FOR CTFE\n.*?^\}", "", text, flags=re.M | re.S)  # the same function, as a constant calls it
    if rest := re.sub(ALLOCATION, "", re.sub(ITEM, "", text)).strip():
        raise Unknown(f"the item {rest.splitlines()[0]}")
    for m in re.finditer(ITEM, text):
        name, _, promoted = m["name"].partition("::promoted[")
        if re.search(r"\b(fn\(|dyn )", m["type"] or ""):
            raise Unknown(f"a function as a value, {name}")
        value = operand("const " + m["value"]) if m["value"] else Function(
            name, m["parameters"] or "", m["result"] or m["type"], m["body"])
        if promoted:  # a constant of the function that is printed before
            last[name].promoted[promoted[:-1]] = value
            continue
        last[name] = value
        if m["result"]:
            functions.append(value)
        elif name in constants:
            raise Unknown(f"a second constant {name}")
        else:
            constants[name] = value
    return functions, constants


DEFINED = r"DefId\(\d+:\d+ ~ (\w+)\[\w+\]::(\S+?)\)"
KINDS = "Const Enum ExternCrate Fn Impl Macro Mod Static Struct Trait TyAlias Type Use".split()
# What an item must not have: of another kind of path a constant or an alias of std could be the target's.
REFUSED = {
    r"PatExpr \{ (?!kind: (?:Lit \{|Path\( Resolved\( None, Path \{ res: Def\( Ctor\())": "a constant in a pattern",
    r" Def\( (?!(?:AssocFn|Ctor|Enum|Fn|Macro|Mod|Struct|Trait|Variant)\b|"
    r"(?:(?!DefId).)*DefId\(\d+:\d+ ~ (?:CRATE\[|core\[\w+\]::fmt::Result\)))": "what another target has otherwise",
    r" Provided\(": "a function that a trait has for all types",
    r" disr_expr: (?!None,)": "a number of a variant",
    r" (?:kind: Never|variants: \[\]|DefId\(\S+ ~ core\[\w+\]::convert::Infallible\))": "a type that has no values",
    r" kind: (?:Enum|Struct)\( \w+#.* name: Plain\( (?!')": "a type with parameters",
}
# Where an impl begins, the module that it is in, the type and the trait, if they are paths, its methods, and its place.
Impl = namedtuple("Impl", "begin module owner trait methods place")


def std_trait(path):
    """A trait of std by its last name: the path where it is defined isn't the one that rustc prints."""
    return "std::" + path.split("::")[-1]


def impl(path, crate, block):
    own = re.search(r"^ {24}self_ty: Ty \{ kind: Path\( Resolved\( None, Path \{ res: Def\( (?:Struct|Enum), "
                    + DEFINED, block, re.M)
    of = re.search(r"^ {24}of_trait: (?:None,|Some\( TraitImplHeader \{(?: \w+: [^ ]+)* trait_ref: TraitRef \{ path: "
                   r"Path \{ res: Def\( Trait, " + DEFINED + ")", block, re.M)
    owner = own[2] if own and own[1] == crate else None
    trait = of[2] and (of[2] if of[1] == crate else std_trait(of[2]))
    if not owner and (trait or "std::").startswith("std::"):  # such as of an alias
        raise Unknown(f"the type of {path}")
    at = re.search(r"^ {16}span: (.*?\b((?:out|src)/.+?:\d+:\d+): \d+:\d+) ", block, re.M)
    items = re.search(r"^ {24}items: \[(.*)", block, re.M)[1]
    return Impl(at[2], path.rpartition("{impl#")[0].removesuffix("::"), owner, trait,
                re.findall(r"owner_id: DefId\(\S+ ~ \S+::(\w+)\),", items), at[1])


@functools.lru_cache(2)
def read_hir(text):
    """The fields of each struct, the variants of each enum with their number of fields, and the impls. What is in a
    part of an item, which has 24 spaces before it, is in its line, without places."""
    types, impls, aliases, paths = {}, [], [], set()
    text = re.sub(r"\n {25,}", " ", re.sub(r"\n {17,}(?:hir_id|span|vis_span): .*", "", text))
    generics = {*re.findall(r" name: Plain\(\s+(.*?)#\d+,", text)}
    if others := [it for it in generics if not re.fullmatch(r"'\w+|[A-Z]|__H|impl .*", it)]:
        raise Unknown(f"a parameter of generics, {others[0]}, whose name could be another one's")
    taken = {*BINARY, "Not", "PtrMetadata", *generics}
    for block in re.split(r"^(?=DefId\(0:(?!0 ))", text, flags=re.M)[1:]:  # without the crate's root
        m, kind = re.match(DEFINED + " => OwnerNodes", block), re.search(r"^ {16}kind: (\w+)", block, re.M)
        if not m or not kind or kind[1] not in KINDS:
            raise Unknown(f"an item {block.splitlines()[0]} of kind {kind and kind[1]}")
        (crate, path), kind = m.groups(), kind[1]
        is_function = kind in ("Enum", "Struct") and not re.search(r"(^|::)[A-Z]\w*$", path)  # a constructor may be one
        if re.match(r"(core|alloc|std)::", path) or path in taken or is_function:
            raise Unknown(f"{path}, whose name could be another one's")
        if "#" in re.sub(r"\{\w+#\d+\}", "", path) or path in paths:
            raise Unknown(f"{path}, which isn't the only one of its path")
        paths.add(path)
        flat = f"{' '.join(block.split())} "
        for form, what in REFUSED.items():
            if re.search(form.replace("CRATE", crate), flat):
                raise Unknown(f"{what}, in {path}")
        if kind == "Use" and (to := re.search(r" Single\( (\w+)#", flat)) and to[1] != "_":
            if {*re.findall(r" DefId\(\S+ ~ \S+::(\w+)\),", flat.partition(" segments: ")[0])} - {to[1]}:
                raise Unknown(f"an import under another name, {to[1]}")
        if kind == "TyAlias":
            aliases.append(path)
        elif kind == "Enum":
            parts = flat.split(" Variant { ident: ")[1:]
            types[path] = [(it.partition("#")[0], it.count(" FieldDef {")) for it in parts]
            if others := [name for name, _ in types[path] if not name[0].isupper()]:
                raise Unknown(f"a variant {others[0]} of {path}, whose name could be another one's")
        elif kind == "Struct":
            types[path] = [it.partition("#")[0] for it in flat.split(" FieldDef { ident: ")[1:]]
        elif kind == "Impl":
            impls.append(impl(path, crate, block))
    if twice := {it.split("::")[-1] for it in aliases} & {it.split("::")[-1] for it in types}:
        raise Unknown(f"a type that is another one's alias, {min(twice)}")
    return types, impls
