"""Lets rustc write what it compiles, its MIR, in each configuration of the crate, and reads that."""
import itertools
import os
import re
import shutil
import subprocess
import tempfile
from pathlib import Path

import mir
import shipped
from manifest import check_manifest
from mir_grammar import ITEM, Unknown, plain, read_hir
from reading import Untranslated

HERE = Path(__file__).parent
CRATES = {"src/lib.rs": ("--crate-name=target_lexicon", "--crate-type=lib"),
          "build.rs": ("--crate-name=build_script_build",)}
# All that decides is in MIR, as the target may decide it: these passes of rustc drop only values that have no bytes.
FLAGS = ("-Funsafe-code", "-Fnon-ascii-idents", "-Funreachable-code", "-Funreachable-patterns", "-Copt-level=0",
         "-Firrefutable-let-patterns", "-Coverflow-checks=on", "-Ztrim-diagnostic-paths=no", "-Zmir-opt-level=0",
         "-Zmir-enable-passes=" + ",".join(f"+{it}" for it in "LowerSliceLenCalls InstSimplify-before-inline RemoveZsts "
                                           "UnreachableEnumBranching SimplifyCfg-final".split()))
# What the build script writes, which is another host as for an older rustc; what answers it isn't proved.
HOST = "Triple {{ architecture: Architecture::{}, vendor: Vendor::{}, operating_system: OperatingSystem::{}, " \
       "environment: Environment::{}, binary_format: BinaryFormat::{} }}"
HOSTS = ["Unknown"] * 5, ["X86_64", "Pc", "Linux", "Gnu", "Elf"]
# The attributes that change no function, or that rustc writes.
ATTRIBUTES = "allow automatically_derived coverage doc forbid inline must_use no_std non_exhaustive " \
             "prelude_import repr rustfmt warn".split()
# The functions that aren't written, or aren't those of the source: all of some traits, and these. calls.txt says why.
UNSAID = ("std::Debug", "std::Eq", "std::Error")
SERDE = ("std::Serialize", "std::Deserialize")
LEFT_OUT = {*shipped.LEFT_OUT, "parse_triple_error::visible", "::first_chunk", "::last_chunk"}  # for an older Rust
# What may decide what is compiled: the features that are tried, and what no build of a user has.
NAME = r'(?:feature = "(?:alloc|std)"|core_error|docsrs|doctest|test)'
PREDICATE = r"(?:IT|(?:all|any)\(IT(?:, IT)*\))".replace("IT", rf"(?:{NAME}|not\({NAME}\))")
CONDITION = rf"#!?\[cfg(_attr)?\({PREDICATE}(?(1), (?:(?!\bcfg)[\w(), =\"])+)\)\]"
# The ways to compile with `alloc`, of which the first is the main one: all features that Cargo.toml lets one have, and
# whether as for an older rustc.
WAYS = [(["alloc", *more], older) for more in ([], ["std"], ["std", "serde_support"]) for older in (False, True)]
RELEASE = "-Cdebug-assertions=off"
# The case of an owned name of a vendor in a function, which isn't there without the feature `alloc`.
OWNED = r"\n\| \(RsCustomVendor__Owned x'\d+\) =>\n[^|]*?(?=\n\|| end)"


class NoCompiler(Untranslated):
    """Why there is no MIR that can be read."""


def rustc(folder, features, older=False, *words, root="src/lib.rs"):
    """MIR and HIR of the crate in a folder with these features, of its build script only MIR, if nothing else decides
    what rustc compiles: in `/` it takes no toolchain that a file above the folder names. For an older one the path
    begins with `./`."""
    if not shutil.which("rustc"):
        raise NoCompiler("rustc isn't on the path, so that nothing is proved of its MIR; all else is")
    with tempfile.TemporaryDirectory(prefix="mir-") as out:
        Path(out, "host.rs").write_text(HOST.format(*HOSTS[older]), encoding="utf-8")
        words = [*CRATES[root], "--edition=2021", *FLAGS, *(f'--cfg=feature="{it}"' for it in features), *words,
                 f".{folder}/{root}" if older else f"{folder}/{root}", *["--cfg=core_error"] * (not older)]
        if "serde_support" in features:
            serde = f"{out}/libserde.rmeta"
            subprocess.run(["rustc", "--crate-name=serde", "--edition=2021", "--crate-type=lib", "--emit=metadata",
                            f"-o{serde}", HERE / "serde.rs"], cwd="/", check=True)
            words.append(f"--extern=serde={serde}")
        for of in (["-Zunpretty=hir-tree", f"-o{out}/hir"],
                   [f"--emit=mir={out}/mir,dep-info={out}/read", f"--out-dir={out}"],
                   ["-Zunpretty=expanded", f"-o{out}/expanded", "-Ztrace-macros"])[root == "build.rs":]:
            ran = subprocess.run(["rustc", *words, *of], cwd="/", capture_output=True, text=True,
                                 env={**os.environ, "RUSTC_BOOTSTRAP": "1", "OUT_DIR": out})
            if ran.returncode or "is unknown and will be ignored" in ran.stderr:  # a pass of MIR
                raise Untranslated(f"rustc doesn't write the MIR of {folder}: {' '.join(ran.stderr.split())[:300]}")
        if root != "build.rs" and re.search(r"\bcfg", ran.stderr.replace(str(folder), "").replace(out, "")):  # a call
            raise Untranslated("a macro has a configuration, which could be another one")
        mir, read, expanded = (Path(out, it).read_text(encoding="utf-8") for it in "mir read expanded".split())
        hir = root != "build.rs" and Path(out, "hir").read_text(encoding="utf-8")
    if names := {*re.findall(r"^# env-dep:([^=\n]*)", read, re.M)} - {"OUT_DIR"}:
        raise Untranslated(f"a variable of the environment, {min(names)}, is read when the crate is compiled")
    files = {Path("/", it.replace("\\ ", " ")) for it in re.findall("^(\\S.*):$", read, re.M)}
    for it in files - {Path(out, "host.rs"), folder / "build.rs"}:
        if not re.fullmatch(r"[\w/]+\.rs", os.path.relpath(it, folder / "src")):
            raise Untranslated(f"the crate is compiled of {it}")
        text = it.read_bytes().decode().replace('#[cfg(feature = "serde_support")]\nmod serde;', "")
        if "\r" in text:  # which ends a line here, and not to rustc
            raise Untranslated(f"{it}: a carriage return")
        if others := [line for line in re.findall(r".*\bcfg.*", text) if not re.fullmatch(CONDITION, line.strip())]:
            raise Untranslated(f"{it}: a configuration that isn't tried decides what is compiled: {others[0]}")
    expanded = re.sub(r"#\[macro_export\]\s+macro_rules! triple\b", "", expanded)  # another could be one of build.rs's
    for it in re.findall(r"(?=#\s*!?\s*\[\s*([^\]]*))", expanded):  # one may begin in what another one has
        if re.match(r"\w*", it)[0] not in ATTRIBUTES and it != "feature(prelude_import)" and not (
                root == "build.rs" and it.startswith('path = "src/')):
            raise Untranslated(f"the attribute {it}")
    return plain(mir), hir


def all_of(crate, left_out=LEFT_OUT):
    """Writes all functions. Returns why some aren't written that aren't left out."""
    unwritten, written = {}, set()
    for it in crate.all():
        if it.key[0] in UNSAID:
            continue
        try:
            crate.write(it)
            written.add(it.path)
        except Unknown as why:
            if "::".join((it.key[1].rpartition("::")[2], it.key[2])) not in left_out:
                unwritten[path(it)] = str(why)
    for it in crate.functions:
        if it.path.partition("::{closure#")[0] in written - {it.path} and it.path not in crate.called:
            unwritten[it.path] = "a closure that nothing calls, of which rustc may have inferred a type"
    return unwritten


def same_without_alloc(root, crate, known):
    """That each function without the feature `alloc` is written as with it, but for owned names of vendors."""
    folder = root.resolve() / "packages/rust"
    found = rustc(folder, [])
    main = compared(*found)
    same(main, rustc(folder, [], True, RELEASE), "without `alloc`, as for an older rustc")
    same_in_build_script(folder, [], main)
    other = crate_of(found, known)
    if unknown := all_of(other):
        raise Untranslated(f"{min(unknown)} isn't known without the feature `alloc`")

    def written(crate):
        """What is written, with numbers of variables in order, once owned names are left out."""
        for code in (*(code for _, _, code in crate.out), *crate.types.ranges()):
            seen = {}
            yield re.sub(r"'(\d+)", lambda m: f"'{seen.setdefault(m[1], len(seen))}", re.sub(OWNED, "", code))
    ours = {*written(crate)}
    if others := [code for code in written(other) if code not in ours]:
        raise Untranslated(f"without the feature `alloc` this is another one: {others[0].splitlines()[0]}")


def compared(mir, hir):
    """What two configurations have in common, in order: types, impls, and the text of functions and constants."""
    types, impls = read_hir(hir)
    others = "|".join(["host::HOST$", *(rf"serde::<impl at {it.begin}: " for it in impls if it.trait in SERDE)])
    return [*map(str, types.items()), *(str(it[:-1]) for it in impls if it.trait not in (*UNSAID, *SERDE)),
            *(m[0] for m in re.finditer(ITEM, mir) if not re.match(others, m["name"]))]


def same(main, written, where):
    """That another configuration has what the main one has, and nothing else."""
    if others := [one or another for one, another in itertools.zip_longest(compared(*written), main) if one != another]:
        raise Untranslated(f"{where}, rustc compiles another item: {others[0].splitlines()[0][:200]}")


def same_in_build_script(folder, features, main):
    """That the functions that the build script has of the crate are the crate's: they could print for cargo."""
    written = rustc(folder, features, True, RELEASE, root="build.rs")[0]
    for m in re.finditer(ITEM, re.sub(r" = (?=<impl proved::triple::Triple>::host\(\))", " = host::", written)):
        if re.match(r"(compat|fields|hash|proved|search)::", m["name"]) and m[0] not in main:
            raise Untranslated(f"the build script has another function {m['name']}")


def source(root, known):
    """The crate as its main configuration has it, which is read first; then the same with debug assertions or without,
    and with features that add."""
    folder = root.resolve() / "packages/rust"
    check_manifest(root)
    found = rustc(folder, *WAYS[0])
    crate = crate_of(found, known)
    for it, why in all_of(crate).items():
        raise Untranslated(f"{why} (in {it})")
    main = compared(*found)
    for features, older in WAYS:
        same(main, rustc(folder, features, older, RELEASE), f"with {' '.join(features)}, older: {older}")
        if older:
            same_in_build_script(folder, features, main)
    return crate


def text_at(place):
    """The text at a place that has one line: of what a `derive` writes, the name of the trait."""
    file, line, begin, last, end = re.fullmatch(r"(.+):(\d+):(\d+): (\d+):(\d+)", place).groups()
    lines = Path("/", file).read_text(encoding="utf-8").split("\n")
    return lines[int(line) - 1][int(begin) - 1:int(end) - 1] if line == last else None


def crate_of(written, known):
    """The crate of what rustc writes, without the constant that the build script decides."""
    if re.search(r" kind: ExternCrate\((?!\n +None,\n +(core|alloc)#)", written[1]):
        raise Untranslated("another crate than core and alloc, by which what isn't read could print for cargo")
    crate = mir.Crate(*written, known)
    for it in crate.impls:
        if it.trait == "std::Debug" and text_at(it.place) != "Debug":
            raise Untranslated(f"{it.begin}: a `Debug` that isn't derived could be other code in what build.rs writes")
    del crate.constants["host::HOST"]
    return crate


def path(it):
    trait, owner, name = it.key
    return f"<{owner} as {trait}>::{name}" if trait else f"{owner}::{name}" if owner else name
