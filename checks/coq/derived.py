"""Writes Derived.v: that each clone is the value, and what each hash feeds a hasher, by checks/coq/mir/Traits.v. Coq
checks the proofs; that the theorems are of each type of MIR that has these traits is computed here."""
import re

HEAD = """(* Written by checks/theorem. *)
Require Import Kit Specs Rust Code Configured Finite Triple Mir Same_mir Traits.
Ltac evaluate ::= cbv beta iota zeta delta [fst snd option_map {projections}]; cbn [app tl].
"""
SAID = {"clones_right": "a clone is the value",
        "vendors_by_name": "an owned vendor is the known one of its name, or the custom one of its text",
        "hashes_right": "values that are equal by `==` feed a hasher the same, and others don't, whatever follows"}
# What the values of types that own a vendor stand for; those of others stand for themselves.
STANDS_FOR = {"CustomVendor": "rs_CustomVendor_as_str", "Vendor": "owned_vendor_value", "Triple": "triple_values",
              **{it: f"(λ it, triple_values (Rs{it}__0 it))" for it in (
                  "NotPlain", "DefaultToHost", "DefaultToUnknown")}}
# The proofs that equal values feed the same, and that others don't, where these don't go by the tactics.
SAME = {
    "CustomVendor": "intros x y E. fed_of fed_CustomVendor mir_CustomVendor__Hash__hash. now rewrite E",
    "Vendor": "intros x y E. destruct x, y; try reflexivity; try discriminate E. rewrite !custom_texts in E. "
              "fed_of fed_Vendor mir_Vendor__Hash__hash. apply (f_equal (cons _)), same_CustomVendor. "
              "now injection E",
    "Triple": "intros [a v s e f] [a' v' s' e' f'] E. unfold triple_values, values_of in E. "
              "injection E as <- V <- <- <-. fed_of fed_Triple mir_Triple__Hash__hash. "
              "now rewrite (same_Vendor v v' V)",
}
OTHERS = {"VendorRef": "assert (∀ v, fed_VendorRef v = fed_Vendor (owner v)) as O by (intros []; "
                       "[fed_of fed_VendorRef mir_VendorRef__Hash__hash|]; reflexivity). intros x y a b H. "
                       "rewrite !O in H. apply feeds_Vendor in H as [H ->]. rewrite !owner_value in H. "
                       "split; [now apply vendor_values_injective|reflexivity]"}


def all_of(name, forms):
    """The theorem that is all lemmas, which are named in order."""
    lemmas = "".join(f"(conj {it} " for it in list(forms)[:-1])
    return f"Theorem {name} :\n  " + "\n  ∧ ".join(forms.values()) + \
        f".\nProof. exact {lemmas}{list(forms)[-1]}{')' * (len(forms) - 1)}. Qed.\n"


def vendors_by_name(constructors):
    """The theorem that without which the values of owned vendors could be those of others."""
    arms = "".join(f"\n  | {it} => RsVendorRef__Known {it[2:].replace('Vendor', 'KnownVendor', 1)}"
                   for it, count in constructors["RsVendor"] if not count)
    texts = " | ".join(f"{it} text" for it, _ in constructors["RsCustomVendor"])
    return "Theorem vendors_by_name : ∀ n v, mir_Vendor_as_vendor_ref n v = Some (match v with" + arms + \
        f"\n  | RsVendor__Custom it => RsVendorRef__Custom (match it with {texts} => text end) end)." \
        "\nProof. intros n []; try reflexivity. match goal with it : RsCustomVendor |- _ => now destruct it end. Qed.\n"


def write(crate, projections):
    """The text of Derived.v, of all functions of the crate that are written."""
    out, clones, hashes = [HEAD.format(projections=" ".join(projections))], {}, {}
    for title, it, code in crate.out:
        if not it or it.key[0] not in ("std::Clone", "std::Hash"):
            continue
        trait, owner, _ = it.key
        of = title.split("__")[0].removeprefix("mir_")
        if trait == "std::Clone":
            if clones:
                out.append(f"Ltac known_clones ::= rewrite ?{', ?'.join(clones)}.")
            out.append(f"Lemma clone_{of} : Clones {title}.\nProof. clones {title}. Qed.")
            clones[f"clone_{of}"] = f"Clones {title}"
            continue
        type = crate.types.coq(owner)
        equal = crate.name(crate.find(("std::PartialEq", owner, "eq"), [f"&{owner}"] * 2))
        known = [it.removeprefix("hashes_") for it in hashes]
        if known:
            rewrites = ", ".join(f"?hash_{it}" for it in known)
            feeds = " | ".join(f"fed_{it} _ ++ _ = _ => apply feeds_{it} in H" for it in known)
            out.append("Ltac known_hashes ::= rewrite ?same_CustomVendor_as_str, ?same_KnownVendor_to_vendor, "
                       f"{rewrites}.\nLtac known_feeds H ::= lazymatch type of H with {feeds} end.")
        value = STANDS_FOR.get(of)
        same = f"{value} x = {value} y" if value else "x = y"
        out.append(f"Definition fed_{of} : {type} → Fed := fed_by {title}.\n"
                   f"Lemma hash_{of} : ∀ n v before, {title} n v before = Some (tt, before ++ fed_{of} v).\n"
                   f"Proof. hashed fed_{of} {title}. Qed.")
        if number := re.search(r"hash_number by_isize\) (\(match v1 with .*? end\)) v2", code):  # of the variant, first
            out.append(f"Definition tag_{of} (v1 : {type}) : ℕ := {number[1]}.\n"
                       f"Lemma head_{of} : ∀ v, fed_{of} v = (by_isize, [tag_{of} v]) ∷ tl (fed_{of} v).\n"
                       f"Proof. intros v. destruct v; fed_of fed_{of} {title}; reflexivity. Qed.")
        others = OTHERS.get(of) or (f"by_case head_{of} tag_{of} fed_{of} {title}" if number else
                                    f"by_parts fed_{of} {title}")
        inner = f"intros [x] [y] E. fed_of fed_{of} {title}. exact (same_Triple x y E)"  # of a triple in it
        equally = SAME.get(of) or (inner if value else "intros x y ->; reflexivity")
        out.append(
            f"Lemma feeds_{of} : ∀ x y a b, fed_{of} x ++ a = fed_{of} y ++ b → {same} ∧ a = b.\n"
            f"Proof. {others}. Qed.\n"
            f"Lemma same_{of} : ∀ x y, {same} → fed_{of} x = fed_{of} y.\nProof. {equally}. Qed.\n"
            f"Lemma equal_{of} : ∀ n x y, {equal} n x y = Some true <-> {same}.\n"
            f"Proof. by_equality same{equal.removeprefix('mir')}. Qed.\n"
            f"Lemma hashes_{of} : Hashes {equal} {title}.\n"
            f"Proof. hashes fed_{of} hash_{of} feeds_{of} equal_{of} same_{of}. Qed.")
        hashes[f"hashes_{of}"] = f"Hashes {equal} {title}"
    return "\n".join([*out, all_of("clones_right", clones), all_of("hashes_right", hashes),
                      vendors_by_name(crate.types.constructors)])
