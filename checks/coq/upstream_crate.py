"""Writes what rustc compiles of upstream's own crate, or of a fork of it, as Coq, and what is proved of it."""
import json
import os
import re
import shutil
import subprocess
import tempfile
from pathlib import Path

import upstream_mir
from bridge import forms, version
from compiled import FLAGS, HERE, NoCompiler, all_of
from mir_grammar import plain

FEATURES = "std", "arch_zkasm", "arch_z80"  # the last two decide nothing of ours
PROOFS = "UpstreamCrate", "UpstreamTriple"  # about this crate
BOTH = "Pairs", "Both"  # and about ours and it; Pairs is written
# Its proofs are of MIR without the values that nothing needs, but with the constants that decide.
PASSES = ",".join(f"-SimplifyConstCondition-{it}" for it in ("after-inst-simplify", "after-const-prop", "final"))
UNPROVED = []  # a part of which something isn't proved, as isn't written what it needs


def write(_root, folder, crate, is_compared=False):
    """Writes UpstreamMir.v, what rustc compiles of a crate like upstream's, and prints which functions it can't write;
    and Pairs.v, if it is compared with ours, which is proved before. Returns the theorems."""
    manifest = crate / "Cargo.toml"
    if not manifest.is_file():
        raise NoCompiler(f"{crate} has no Cargo.toml, so that nothing is proved of a crate there")
    if not shutil.which("cargo"):
        raise NoCompiler("cargo isn't on the path, so that nothing is proved of upstream's crate")
    have = [it for it in FEATURES if re.search(rf"^{it} *=", manifest.read_text(encoding="utf-8"), re.M)]
    with tempfile.TemporaryDirectory(prefix="mir-") as out:
        # A package that needs it: then cargo needs neither what it needs for tests, nor to write into its folder.
        Path(out, "src").mkdir()
        Path(out, "src/lib.rs").touch()
        Path(out, "Cargo.toml").write_text(
            '[package]\nname = "needs"\n[dependencies.target-lexicon]\n'
            f"path = {json.dumps(str(crate))}\nfeatures = {json.dumps(have)}\n[workspace]\n", encoding="utf-8")

        def cargo(*words):
            ran = subprocess.run([HERE.parents[1] / "tools/cargo", "rustc", "--quiet", "--offline", "--lib",
                                  "--package=target-lexicon", f"--target-dir={out}", "--", *FLAGS[:-2],
                                  f"-Zmir-enable-passes={PASSES}", "-Cdebug-assertions=off", *words], cwd=out,
                                 env={**os.environ, "RUSTC_BOOTSTRAP": "1"}, capture_output=True, text=True)
            if ran.returncode:
                raise NoCompiler(f"{crate} doesn't build: {' '.join(ran.stderr.split())[-300:]}")
            return ran.stdout
        hir = cargo("-Zunpretty=hir-tree")
        cargo("--emit=mir")
        mir_of = "".join(it.read_text(encoding="utf-8") for it in Path(out).rglob("target_lexicon-*.mir"))
        with forms():
            found = upstream_mir.Crate(plain(mir_of), hir, folder.joinpath("Specs.v").read_text(encoding="utf-8"))
    unwritten = all_of(found, ())
    for why in dict.fromkeys(unwritten.values()):
        print(f"theorem: not written: {why}: in {', '.join(it for it in unwritten if unwritten[it] == why)}")
    written = sum(it is not None and not title.endswith("_pure") for title, it, _ in found.out)
    print(f"theorem: {written} functions of {crate} are written, as {version()} compiles them")
    folder.joinpath("UpstreamMir.v").write_text(
        "(* Written by checks/theorem from what rustc compiles. *)\nRequire Import Kit Specs Rust UpstreamStd.\n\n"
        + "\n".join(code for _, _, code in found.out), encoding="utf-8")
    files = ["UpstreamStd", *PROOFS, *BOTH[1:] * is_compared]
    if is_compared and not folder.joinpath("Compiled.vo").exists():
        raise NoCompiler("nothing is proved of our crate's MIR, so that upstream's isn't compared with it")
    written = [folder.joinpath(f"{it}.v").read_text(encoding="utf-8") for it in
               ("UpstreamMir", *["Mir", "Compiled"] * is_compared)]
    known, gone, proofs = {*re.findall(r"\w+", "".join(written))}, {}, ""
    for it in files:
        proofs += (text := without(HERE.joinpath(f"upstream/{it}.v").read_text(encoding="utf-8"), known, gone))
        folder.joinpath(f"{it}.v").write_text(text, encoding="utf-8")
    if gone:
        UNPROVED.append("upstream")
        print("theorem: not proved, since what it needs isn't written: "
              f"{', '.join(it for it, kind in gone.items() if kind == 'Theorem')}")
    if is_compared:
        pairs(folder, proofs)
    return dict.fromkeys(re.findall(r"^Theorem (\w+)", proofs, re.M))


def without(text, known, gone):
    """A file of proofs without those that need what `gone` has, or a function or a type of MIR that isn't known. Adds
    these to it."""
    kept = []
    for it in re.split(r"^(?=(?:Definition|Fixpoint|Inductive|Lemma|Ltac|Require|Theorem) )", text, flags=re.M):
        words = re.findall(r"\w+", re.sub(r"\(\*.*?\*\)", "", it, flags=re.S))
        if any(word in gone or re.match("mir_|Mir[A-Z]", word) and word not in known for word in words):
            gone[words[1]] = words[0]
        else:
            kept.append(it)
    return "".join(kept)


def pairs(folder, proofs):
    """Writes Pairs.v: that each function of both crates is the same one, if its types are, and no proof compares it."""
    ours, its = (dict(re.findall(r"^(?:Definition|Fixpoint) (mir_\w+) \(fuel : nat\)(.*) :=$", folder.joinpath(
        f"{it}.v").read_text(encoding="utf-8"), re.M)) for it in ("Mir", "UpstreamMir"))
    others = [it for it in its if it in ours and not re.search(rf"\bIts\.{it}\b", proofs)]
    same = [it for it in others if ours[it] == its[it]]
    print(f"theorem: not compared with ours: {', '.join(it for it in others if it not in same)}")
    lines = [f"(∀ n m{binders}, Mir.{it} n{args} = UpstreamMir.{it} m{args})" for it in same
             for binders in [its[it].rpartition(" : option ")[0]]
             for args in ["".join(re.findall(r"\((v\d+) :", binders)).replace("v", " v")]]
    folder.joinpath("Pairs.v").write_text(
        "(* Written by checks/theorem. *)\nRequire Import Kit Specs Rust.\nRequire Mir UpstreamMir.\n\n"
        "Definition same_functions : Prop :=\n  " + "\n  ∧ ".join(lines) + ".\n", encoding="utf-8")
