"""Writes the proved source (`.rt`) as Coq, by the translator of Rust; and that each function is the one that is
shipped.

Ghost parts, the calls of laws and the counter of steps are left out."""
import functools
import re

from reading import Untranslated, families
from rust import translate
from rust_grammar import Parser
from rust_types import Crate
from shipped import HERE, check, configurations, put, texts, titles

# Of the proved source: files that don't become Rust; functions that aren't translated, since they return what the kit's
# allocator does, and that have no function of this name in Rust; and those that have another name there.
NOT_ERASED = "laws steps json json_error list_error macros host parse_error round_trip lib tests".split()
SOURCE_LEFT_OUT = {it: "an allocation" for it in """OperatingSystem::into_str CustomVendor::clone Vendor::from_str
    CustomVendor::owned_copy TripleRef::to_triple Triple::clone TripleRef::to_text VendorRef::to_vendor
    Vendor::clone DefaultToHost::clone DefaultToUnknown::clone Triple::to_text Triple::to_upstream_text Triple::from_str
    Refusal::to_error""".split()} | {"CustomVendor::hash": "a hash", "DefaultToHost::default": "the host"}
NOT_SHIPPED = """VendorError_eqb Architecture_host BinaryFormat_host decimal_text Environment_host OperatingSystem_host
    Vendor_host Triple_write_to Triple_normal TripleRef_normal Triple_round_trip_exception Triple_comes_back
    Triple_settle TripleRef_settle Triple_settles_as TripleRef_write_upstream_to prefix_key
    row_order KEYS ROW_COUNT""".split()
RENAMED = {"VendorRef_from_str": "VendorRef_from_text", **{f"TripleRef_{it}": f"TripleRef_known_{it}" for it in (
    "endianness", "pointer_width", "default_calling_convention", "data_model")}}
# Functions in whose place the layer has one of its own: what Halves.v proves of both, which all others here call.
REPLACED = {
    "first_part": ("∀ text, are_bytes text = true → length text < limit → {} text = {} text",
                   "exact first_part_by_a_loop"),
    "row_of": ("∀ n text, are_bytes text = true → {} (9 + n) text = {} text", "exact row_of_by_halves"),
    "OperatingSystem_from_str": ("∀ text, are_bytes text = true → {} text = {} text", "exact OperatingSystem_by_a_row"),
    **{f"{it}_from_str": ("∀ text, are_bytes text = true → {} text = Some ({} text)", f"exact {it}_by_a_row") for it in
       ("Environment", "BinaryFormat", *(f"{family}Architecture" for family in families()))}}
COUNTER = [it.split() for it in (", steps : & mut Steps", ", steps", "steps . tick ( ) ;", ", & mut Steps :: new ( )")]


class Proved(Parser):
    strict = False

    def __init__(self, *of):
        super().__init__(*of)
        laws = set(re.findall(r"\w+", " ".join(re.findall(r"laws :: ((?:\w+|\{[^}]*\})) ;", " ".join(self.tokens)))))
        kept = []
        while self.peek():
            start = self.at
            ghost = self.next()
            if ghost in ("ghost", "requires", "ensures"):
                is_field = ghost == "ghost" and self.peek() != "use"
                self.to({";", ","} if is_field else {";"} if ghost == "ghost" else {"{"})
                self.skip("{") if ghost != "ghost" else self.next()
            elif counter := next((it for it in COUNTER if self.tokens[start:start + len(it)] == it), None):
                self.at = start + len(counter)
            elif ghost in laws and self.peek() == "(" and self.tokens[start - 1] in (";", "{", "}"):
                self.to({";"})
                self.next(";")
            else:
                kept.append((ghost, self.lines[start]))
        self.set_tokens([*kept, ("", 0)])
        self.at = 0


def write(root, folder):
    """Writes Source.v, the proved source, and Same.v, which says that each function is that of Code.v. Returns that."""
    files = *(folder / f"{it}.v" for it in "Kit Specs Rust Code Configured".split()), HERE / "rust/Keys.v"
    known = "".join(it.read_text(encoding="utf-8") for it in files)
    folders = [root / f"crates/{it}/src" for it in ("lexicon_fields", "target_lexicon")]
    files = [it for of in folders for it in sorted(of.rglob("*.rt")) if it.stem not in NOT_ERASED]
    rust = root / "packages/rust/src"
    erased = Crate(texts([*sorted((rust / "proved").rglob("*.rs")), rust / "fields.rs"], root), {"alloc"})
    shipped = {f"rs_{it}" for it in erased.constants} | {f"rs_{it}_eqb" for it in erased.derived}
    shipped = {*shipped, *(f.title for f in erased.functions.values())} & {*titles(known)}
    others = {f"rt_{it[3:]}": it for it in shipped} | {f"rt_{it}": f"rs_{other}" for it, other in RENAMED.items()}
    crate = Crate(texts(files, root), {"alloc"}, "rt", Proved)
    layer, _ = configurations(root, folder.joinpath("Specs.v").read_text(encoding="utf-8"))["rust"]
    for it in REPLACED:
        replaced = next(of for of in layer.functions if layer.functions[of].title == f"rs_{it}")
        crate.functions["replaced", it] = crate.functions[replaced]
        crate.functions[replaced] = layer.functions[replaced]
        others[f"rt_{it}"] = f"rs_{it}"
    code, problems = translate(crate, known, titles(known), others)
    check(crate, problems, SOURCE_LEFT_OUT)
    ours = titles(put(folder, "Source", "Kit Specs Rust Std Keys Code Configured", "crates", code))
    same = {it: REPLACED.get(it[3:], ("{} = {}", "reflexivity")) for it in ours if it in others}
    statements = {it: statement.format(it, others[it]) for it, (statement, _) in same.items()}
    proofs = [f"Lemma same_{it[3:]} : {statements[it]}. Proof. {proof}. Qed." for it, (_, proof) in same.items()]
    *most, last = [f"same_{it[3:]}" for it in same]
    whole = functools.reduce(lambda rest, it: f"(conj {it} {rest})", reversed(most), last)
    each = "\n  ∧ ".join(f"({it})" for it in statements.values())
    proofs.append(f"Theorem the_proved_source_is_shipped :\n  {each}.\nProof. exact {whole}. Qed.")
    if alone := sorted(shipped - {others.get(it) for it in ours}):
        raise Untranslated(f"the proved source has no function {alone[0][3:]}")
    if alone := [it[3:] for it in ours if it not in others and it[3:] not in NOT_SHIPPED]:
        raise Untranslated(f"packages/rust has no function {', '.join(alone)}")
    put(folder, "Same", "Kit Specs Rust Std Code Finite Table Configured Source Halves", "crates and packages/rust/src",
        proofs)
    return {"the_proved_source_is_shipped": None}
