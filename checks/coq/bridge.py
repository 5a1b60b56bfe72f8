"""Writes why the functions of rustc's MIR are those of the source, and the theorems of the source about them.
Coq checks the proofs. That the statements are those of the source's theorems is trusted, as PROOF.md says."""
import contextlib
import re
import subprocess

import compiled
import derived
import shipped
from reading import Untranslated

TRIED = "1.95"  # the version of rustc whose MIR was read; another one's may have other forms
HEAD = """(* Written by checks/theorem. *)
Require Import Kit Specs Rust Std Code Configured Mir Bridge.
Ltac simp ::= cbv beta iota zeta delta [fst snd negb andb orb set_at shr_in result_eqb result_eq
  option_branch option_from_residual result_branch result_from_residual {projections}].
"""
# The proofs that don't go by the tactic.
BY_HAND = {"mir_short_word": "destruct v1 as [|a [|b [|c [|d xs]]]]; [vm_compute; reflexivity..|]; "
                             "rewrite ?long by reflexivity; bridge"}
# The numbers of a version in Rust are in the range that the theorems suppose.
RANGE = """
Theorem mir_versions_in_range : ∀ v, mir_range_DeploymentTarget v → IsVersionInRange v.
Proof. intros v H. unfold mir_range_DeploymentTarget in H. repeat split; apply H. Qed.
"""
# The traits whose functions the source's translator doesn't write, but Derived.v is of.
DERIVED = ("std::Clone", "std::Hash")


def heads(code):
    """Each function of the source: whether it recurs, its parameters, whether it has fuel, its result and body."""
    found = {}
    for m in re.finditer(r"^(Definition|Fixpoint) (rs_\w+)(.*?) :=$(.*?)\.$", code, re.M | re.S):
        binders, _, result = m[3].rpartition(") : ")
        if not binders:
            binders, result = "", m[3].removeprefix(" : ")
        names = [it for part in re.findall(r"\(([\w ]+) :", binders + ")") for it in part.split()]
        found[m[2]] = m[1] == "Fixpoint", [it for it in names if it != "fuel"], "fuel" in names, result, m[4]
    return found


def counterpart(title, it, source):
    """The function of the source that has this one's type and name, or none."""
    trait, owner, name = it.key
    last = owner.split("::")[-1]
    of = re.search(r"_of_(\w+?)(_pure)?$", title)
    names = [f"rs_{last}_{(trait or '').split('::')[-1]}_{name}"] * bool(trait) + [f"rs_{last}_{name}", f"rs_{name}"]
    if trait == "std::PartialEq":
        names = [f"rs_{last}_eq", f"rs_{last}_eqb"] if not of or of[1] == last else [f"rs_{last}_eq_{of[1]}"]
    elif trait in ("std::From", "std::TryFrom"):
        names = [f"rs_{last}_{name}_{of[1] if of else it.parameters[0][1].strip('&').split('::')[-1]}"]
    elif not trait and title != f"mir_{last}_{name}":
        names = [f"rs_{name}"]
    return next((it for it in names if it in source), None)


class Bridge:
    def __init__(self, crate, code):
        self.crate, self.code, self.source, self.lemmas, self.out = crate, code, heads(code), {}, []
        self.about = {"copy_into": ["copy_guard"], "option_eq": ["option_eq_total"]}  # the lemmas that rewrite a word
        projections = {p for fields in crate.types.fields.values() for p in fields}
        projections |= {*re.findall(r"^  (\w+__\w+) :", code, re.M)}
        projections |= {*re.findall(r"^Definition (rs_[A-Z_]+) : ℕ :=\s*\d{5,}\.$", code, re.M)}  # MIR has the number
        self.projections = sorted(projections)

    def lemma(self, name, statement, proof, word, code=""):
        """A lemma about a word, proved by those about the words of this code."""
        known = [f"?{it}" for of in dict.fromkeys(re.findall(r"\w+", code)) for it in self.about.get(of, [])]
        calls = f"rewrite {', '.join(known)}" if known else "idtac"
        self.out.append(f"Ltac calls ::= {calls}.\nLemma {name} : {statement}.\nProof. {proof}. Qed.")
        self.about.setdefault(word, []).append(name)

    def function(self, title, it, code):
        of = counterpart(title, it, self.source)
        if of is None:
            return
        recurs, _, has_fuel, result, body = self.source[of]
        binders = "".join(f" (v{n} : {self.crate.types.coq(type)})" for n, type in it.parameters)
        args = "".join(f" v{n}" for n, _ in it.parameters)
        name = "same" + title.removeprefix("mir")
        if title.endswith("_pure"):
            self.lemma(name, f"∀{binders}, {title}{args} = {of}{args}", f"intros; unfold {title}, {of}; bridge", title,
                       code + body)
        else:
            right = f"{of}{' fuel' * has_fuel}{args}"
            right = right if result.startswith("option (") else f"Some ({right})"
            is_known = any(it == of for _, it in self.lemmas.values())  # this one calls the function of that lemma
            proof = f"intros; unfold {title}{'' if is_known else f', {of}'}; "
            if recurs and not is_known:
                proof = f"intros fuel; induction fuel as [|fuel IH]; intros; [reflexivity|cbn [{title} {of}]]; "
            usual = "first [names_in_turn | bridge]" if title.endswith("_from_str") else "bridge"
            quantified = f"∀ (fuel : nat){binders}, "
            self.lemma(name, f"{quantified}{title} fuel{args} = {right}", proof + BY_HAND.get(title, usual), title,
                       code + body)
            self.lemmas[title] = name, of
            if it.key[2] == "eq" and it.parameters[0][1] == it.parameters[1][1]:
                of_type = self.crate.types.coq(it.parameters[0][1])
                self.lemma(f"{name}_option", f"∀ fuel x y, option_eq ({title} fuel) x y = "
                           f"Some (option_eqb (λ x y : {of_type}, {of} x y) x y)",
                           f"intros fuel [x|] [y|]; cbn; try reflexivity; apply {name}", title)

    def constant(self, title):
        of = "rs" + title.removeprefix("mir")
        self.lemma("same" + title.removeprefix("mir"), f"{title} = {of}", "vm_compute; reflexivity", title)

    def write(self):
        for title in re.findall(r"^Definition (rs_[A-Z_]+) : ℕ :=\s*\d{1,4}\.$", self.code, re.M):  # a length
            number = f"N.to_nat {title}"
            self.lemma(f"{title}_is", f"{number} = ltac:(let n := eval vm_compute in ({number}) in exact n)",
                       "vm_compute; reflexivity", title)
        for title, it, code in self.crate.out:
            if it is None:
                self.constant(title)
            else:
                self.function(title, it, code)
        return HEAD.format(projections=" ".join(self.projections)) + "\n".join(self.out) + "\n"

    def theorems(self, names, proofs):
        """Each theorem of the source of the functions that MIR has: there is what they compute, of which it is true."""
        texts = {file: re.sub(r"\(\*.*?\*\)", "", text, flags=re.S) for file, text in proofs.items()}
        said = [m for text in texts.values() for m in re.finditer(
            r"(?:\A|(?<=\.\s))\s*(Definition|Fixpoint|Inductive|Record) (\S+)(?:(?!\.\s).)*", text, re.S)]
        helpers = {}
        for m in said:  # in order, so that those that one needs come before
            if re.search("|".join([r"\brs_", *(rf"\b{it}\b" for it in helpers)]), m[0]):
                if m[1] != "Definition":
                    raise Untranslated(f"{m[2]} has a function of the source, and isn't a Definition")
                helpers[m[2]] = m[0]
        out = [f"Require Import Kit Specs Rust Code Configured Mir Bridge Same_mir {' '.join(texts)}.\n"]
        for file, text in texts.items():
            for m in re.finditer(r"^Theorem (\w+)(.*?)^ *Proof", text.replace(" Proof.", "\nProof."), re.M | re.S):
                if m[1] in names:
                    out.append(self.theorem(m[1], f"{file}.{m[1]}", m[2], helpers))
        return "\n".join(out)

    def theorem(self, name, of, statement, helpers):
        unfolded = []
        for it in reversed(helpers):
            if re.search(rf"\b{it}\b", statement + "".join(helpers[of] for of in unfolded)):
                unfolded.append(it)
        words = {*re.findall(r"\brs_\w+", statement + "".join(helpers[it] for it in unfolded))}
        unfolded += [it for it in words if it.isupper() or it[3:].isupper()]
        functions = sorted(words - {*unfolded})
        found = {of: [title for title, (_, it) in self.lemmas.items() if it == of] for of in functions}
        if missing := [it for it, titles in found.items() if not titles]:
            raise Untranslated(f"{name} is no theorem of what rustc compiles: no function of MIR is {missing[0]}")
        computes, proof = [], []
        for i, (rs, titles) in enumerate(found.items()):
            _, names, has_fuel, result, _ = self.source[rs]
            right = f"f{i}{' fuel' * has_fuel}{''.join(f' {it}' for it in names)}"
            right = right if result.startswith("option (") else f"Some ({right})"
            for title in titles:
                binders = "".join(f" {it}" for it in names)
                computes.append(f"(∀ fuel{binders}, {title} fuel{binders} = {right})")
                proof.append(f"(conj {self.lemmas[title][0]}")
        types = "".join(f" (f{i} : ltac:(let t := type of {rs} in exact t))" for i, rs in enumerate(found))
        s = f"let S := type of {of} in "
        s += f"let S := eval unfold {', '.join(unfolded)} in S in " if unfolded else ""
        args = " ".join(f"f{i}" for i in range(len(found)))
        s += f"let S := eval pattern {', '.join(found)} in S in match S with ?P {' '.join('_' for _ in found)} => " \
             f"let T := constr:(∃{types}, {' ∧ '.join(computes)} ∧ P {args}) in " \
             "let T := eval cbv beta in T in exact T end"
        return f"Theorem mir_{name} : ltac:({s}).\nProof. exists {', '.join(found)}. " \
               f"exact {' '.join(proof)} {of}{')' * len(proof)}. Qed."


def version():
    return subprocess.run(["rustc", "--version"], cwd="/", capture_output=True, text=True).stdout.strip()


@contextlib.contextmanager
def forms():
    """A form of rustc's that isn't known is an error; one of another version is why nothing is proved of MIR."""
    try:
        yield
    except compiled.NoCompiler:
        raise
    except (Untranslated, AttributeError, IndexError, KeyError, TypeError, ValueError) as why:
        reason = str(why) if isinstance(why, Untranslated) else f"a form that isn't known: {why!r}"
        if version().startswith(f"rustc {TRIED}."):
            raise Untranslated(reason) from None
        raise compiled.NoCompiler(f"{reason}, in what {version()} writes, while the form of {TRIED} is read") from None


@forms()
def write(root, folder, translated=None):
    """Writes Mir.v, Same_mir.v, Compiled.v and Derived.v. Returns the theorems. The types are those of the translated
    source, which is this one if it isn't said."""
    proofs = {it: compiled.HERE.joinpath(f"rust/{it}.v").read_text(encoding="utf-8")
              for it in shipped.CONFIGURATIONS["rust"][1]}
    theorems = re.findall(r"^Theorem (\w+)", "".join(proofs.values()), re.M)
    texts = {it: folder.joinpath(f"{it}.v").read_text(encoding="utf-8") for it in ("Specs", "Code", "Configured")}
    crate = compiled.source(root, "".join(texts.values()))
    without_alloc = shipped.configurations(translated or root, texts["Specs"])["no_alloc"][1]
    compiled.same_without_alloc(root, crate, texts["Specs"] + "\n".join(without_alloc))
    put = lambda name, text: folder.joinpath(f"{name}.v").write_text(text, encoding="utf-8")  # noqa: E731
    put("Mir", "(* Written by checks/theorem from what rustc compiles. *)\n"
        "Require Import Kit Specs Rust Code Configured.\n\n"
        + "\n".join([*(code for _, _, code in crate.out), *crate.types.ranges()]))
    made = Bridge(crate, texts["Code"] + texts["Configured"])
    put("Same_mir", made.write())
    put("Compiled", made.theorems(theorems, proofs) + RANGE)
    put("Derived", derived.write(crate, made.projections))
    others = "".join(compiled.HERE.joinpath(f"mir/{it}.v").read_text(encoding="utf-8") for it in ("Orders", "Borrowed"))
    proved = {*made.lemmas, *re.findall(r"\bmir_\w+__(?:Partial)?Ord__\w+", others)}
    for title, it, _ in crate.out:
        if it and not title.endswith("_pure") and title not in proved and it.key[0] not in DERIVED:
            raise Untranslated(f"it is no function of the source, and no order of Orders.v (in {compiled.path(it)})")
    others = re.findall(r"^Theorem (\w+)", others, re.M)
    proved = dict.fromkeys([*(f"mir_{it}" for it in (*theorems, "versions_in_range")), *derived.SAID, *others])
    listed = {it for _, _, it in shipped.listed() if " " not in it}
    if gone := sorted(listed - {*theorems, *proved}):
        raise Untranslated(f"calls.txt lists {gone[0]}, which is no theorem")
    return proved
