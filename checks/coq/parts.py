"""The parts of what Coq proves, their files, and where one is refused."""
import functools
import re
import shutil
from pathlib import Path

import bridge
import definitions
import derived
import shipped
import source
from reading import Untranslated

COQ = Path(__file__).resolve().parent
# The files that are written, and that checks/coq has none of.
WRITTEN = "Specs Code Configured Source Same Mir Same_mir Compiled Derived UpstreamMir Pairs".split()
# Each part, in order: the parts that it needs; its files in order, whose names are their own in all parts but that of
# Configured; and the function of the root and the folder that writes the files that aren't in checks/coq, and returns
# each theorem with the Coq name of its statement, or none.
PARTS = {"definitions": ([], definitions.FILES, definitions.write)}
for part, (_, proofs) in shipped.CONFIGURATIONS.items():
    needed = ["definitions"] + ["rust"] * (part != "rust")
    PARTS[part] = needed, ["Rust", "Std", "Code", "Configured", *proofs], functools.partial(shipped.write, part=part)
    if part == "rust":
        files = "Mir Bridge Same_mir Compiled Traits Derived Orders Borrowed".split()
        PARTS["mir"] = (needed + ["rust"], files, bridge.write)
        PARTS["source"] = (needed + ["rust"], "Keys Source Halves Same".split(), source.write)


def ordered(parts):
    """These parts and those that they need, in order."""
    wanted = {it for part in parts for it in (*PARTS[part][0], part)}
    return [it for it in PARTS if it in wanted]


def text(folder, file):
    """The text of a file of Coq, in the folder, where it is put if it isn't written."""
    found = [it for it in (COQ / of / f"{file}.v" for of in (".", "definitions", "rust", "mir")) if it.exists()]
    if len(found) > (file not in WRITTEN):
        raise Untranslated(f"{found[-1]} is a second {file}.v")
    if found:
        shutil.copyfile(found[0], folder / f"{file}.v")
    return folder.joinpath(f"{file}.v").read_text(encoding="utf-8")


def told(root, part, name):
    """Where the statement of a theorem is; and the first sentence of its comment, or the calls that it is of."""
    if part == "mir" and name.startswith("mir_"):  # a theorem of the source
        return "", ""
    title = definitions.PROPOSITIONS.get(name, "").rpartition(".")[2]
    forms = {".v": f"Theorem {name} :", ".rt": f"pub fn {name}(", ".antt": f"pub record {title} :"}
    for file in (*root.glob("crates/*/src/laws.rt"), *root.glob("crates/*/specs/*.antt"),
                 *(it for of in ("rust", "mir", "upstream") for it in (COQ / of / f"{it}.v" for it in PARTS[part][1])
                   if it.exists())):
        before, found, _ = file.read_text(encoding="utf-8").partition("\n" + forms[file.suffix])
        if found:
            comment = re.search(r"((?:\n(?:///|--) .*)*|\n\(\* [^)]* \*\))\Z", before)[0]
            sentence = re.split(r"[.;] |\.$", " ".join(re.sub(r"\n(///|--)|\(\*|\*\)", "", comment).split()))[0]
            calls = ", ".join(it for it, _, of in shipped.listed() if of == name)
            place = file.relative_to(root if file.is_relative_to(root) else COQ.parents[1])
            return f"{place}:{before.count(chr(10)) + 2}", ": ".join(filter(None, (sentence, calls)))
    if name in derived.SAID:
        return "checks/coq/derived.py", derived.SAID[name]
    return "checks/coq/source.py", "each function of crates is that of packages/rust/src/proved"


def required(text):
    """The files that a file requires, and others of Coq's library."""
    return re.findall(r"\w+", " ".join(re.findall(r"^Require (?:Import )?([\w\s]+)\.$", text, re.M)))


def place(text, message):
    """Where an error is: the lemma or the definition, and the file of the definition, or nothing."""
    line = re.search(r"line (\d+)", message)
    before = text.splitlines()[:int(line[1]) if line else 0]
    form = r"(?:Lemma|Theorem|Corollary|Definition|Fixpoint|Record|Inductive|Ltac) (\w+)|\(\* (crates/\S+) \*\)"
    found = [it for it in map(re.compile(form).match, before) if it]
    return [next((it[i] for it in reversed(found) if it[i]), "") for i in (1, 2)]
