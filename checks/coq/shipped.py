"""Writes the Rust source that is shipped as Coq, as each configuration has it."""
import functools
import re
from pathlib import Path

from manifest import check_manifest
from reading import Untranslated
from rust import translate
from rust_types import Crate

HERE = Path(__file__).parent

# The files of checks/coq/rust, in order, that are proved of each configuration that is compiled, with its features.
PROOFS = "Finite Table Search Rows Round Read Sources Numbers Print Write Answers Equal Shown Triple Shipped".split()
CONFIGURATIONS = {
    "rust": (("alloc",), [*PROOFS, "Owned", "Canonical", "Settle"]),
    "no_alloc": ((), [*PROOFS, "Canonical"]),
}
# The functions that aren't translated: the host is that of the build, and std formats or escapes what the others show.
LEFT_OUT = {*(f"{it}::host" for it in "Triple Architecture Vendor OperatingSystem Environment BinaryFormat".split()),
            "DefaultToHost::default", "NotPlain::fmt", "ParseTripleError::fmt", "visible"}


def texts(files, root):
    return [(str(it.relative_to(root)), it.read_text(encoding="utf-8")) for it in files]


def titles(code, kinds="Definition|Fixpoint"):
    return re.findall(rf"^(?:{kinds}) (\w+)", code, re.M)


def put(folder, name, needed, origin, code):
    text = f"(* Written by checks/theorem from {origin}. *)\nRequire Import {needed}.\n\n" + "\n".join(code)
    folder.joinpath(f"{name}.v").write_text(text, encoding="utf-8")
    return text


def check(crate, problems, left_out):
    for name, problem in problems.items():
        if name not in left_out:
            raise Untranslated(f"{problem} (in {name})")
    for owner, name in crate.functions:
        if f"{owner}::{name}" in left_out and f"{owner}::{name}" not in problems:
            raise Untranslated(f"{owner}::{name} is left out, and could be written")


def read(root, features):
    """The shipped source as these features have it: lib.rs and each module."""
    check_manifest(root)
    return Crate(texts([root / "packages/rust/src/lib.rs"], root), features, root=root)


@functools.cache
def configurations(root, known):
    """Each configuration's crate and its Coq, of which `known` is read before."""
    before = "".join(HERE.joinpath(it).read_text(encoding="utf-8") for it in ("Kit.v", "rust/Rust.v", "rust/Std.v"))
    found = {}
    for name, (features, _) in CONFIGURATIONS.items():
        crate = read(root, features)
        code, problems = translate(crate, known, titles(before))
        check(crate, problems, LEFT_OUT)
        found[name] = crate, code
    return found


def plain(call):
    """A public call, with the argument of its trait as the translator names it."""
    return re.sub(r"<(?:&|'\w+ )*(\w+).*", r"_\1", call)


def bodies(crate):
    """Each call of a type, of a trait for a type, or of none, and the function that it is."""
    found = {f"{it}: PartialEq": f"rs_{it}_eqb" for it, traits in crate.derived.items() if "PartialEq" in traits}
    for (owner, _), f in crate.functions.items():
        name = f"::{f.name.removeprefix(f'{f.trait}_')}" * (f.trait in crate.traits)
        found[f"{owner}: {f.trait}{name}" if f.trait else "::".join(filter(None, (owner, f.name)))] = f.title
    return found


def listed():
    """The rows of calls.txt: each public call, its body, and its theorem."""
    return [it.split("\t") for it in HERE.joinpath("calls.txt").read_text(encoding="utf-8").splitlines()[1:]]


def check_calls(root):
    """That the listed calls have their bodies, that no other trait has a call of their types, or is the crate's, and
    that these have no other public function of their own, which a program would call in place of a trait's."""
    known = {plain(call): body for call, body, _ in listed()}
    owners = {it.partition(":")[0] for it in known}
    for features, _ in CONFIGURATIONS.values():
        crate = read(root, features)
        own = {f"{of}::{f.name}" for (of, _), f in crate.functions.items() if of in owners and f.is_seen == "pub"}
        found = bodies(crate)
        for it in sorted({*found, *(known if features else ())}):
            is_public = it in {*known, *own} or ": " in it and (it.partition(":")[0] in owners or "::" in it)
            if is_public and known.get(it, "")[:4] != "mir_" and found.get(it, "-") != known.get(it):
                raise Untranslated(f"the call {it} isn't that of calls.txt, which packages/rust/test --write writes")


def write(root, folder, part="rust"):
    """Writes Code.v, the functions that are the same in all configurations, and Configured.v, the others as this one
    has them. Returns the theorems."""
    found = configurations(root, folder.joinpath("Specs.v").read_text(encoding="utf-8"))
    written = {name: code for name, (_, code) in found.items()}
    shared, others = [], set()
    for it in written["rust"]:  # it is the same if its text is, and what this names
        words = {word.removeprefix("Build_").partition("__")[0] for word in re.findall(r"\w+", it)}
        if all(it in code for code in written.values()) and not words & others:
            shared.append(it)
        else:
            others |= {*titles(it, "Definition|Fixpoint|Record|Inductive")}
    _, proofs = CONFIGURATIONS[part]
    own = [it for it in written[part] if it not in shared]
    put(folder, "Code", "Kit Specs Rust Std", "packages/rust/src", shared)
    put(folder, "Configured", "Kit Specs Rust Std Code", f"packages/rust/src as {part} has it", own)
    proved = "".join(HERE.joinpath(f"rust/{it}.v").read_text(encoding="utf-8") for it in proofs)
    return dict.fromkeys(re.findall(r"^Theorem (\w+)", proved, re.M))
