"""Writes what rustc compiles as Coq, off its MIR: `mir_NAME fuel args`, an option of the result, and of what each
`&mut` argument refers to then. None is a panic, or too little fuel."""
import copy
import re
import sys

from mir_body import Body
from mir_grammar import Unknown, read_hir, read_mir
from mir_types import Types, referred, strip
from reading import Untranslated

sys.setrecursionlimit(10_000)  # a call for each block on a path


class Crate:
    """The functions of a crate, and those that are written as Coq."""
    Types, Body = Types, Body

    def __init__(self, mir, hir, known):
        declared, self.impls = read_hir(hir)
        self.functions, self.constants = read_mir(self.converted(mir, declared))
        self.by, self.out, self.titles, self.called = {}, [], {}, set()
        self.types = self.Types(self, declared, known)
        self.written = {}
        if any(it.trait == "std::Drop" for it in self.impls):
            raise Unknown("an impl of Drop")
        for it in self.impls:
            if (it.trait or "").startswith("std::") and sum(name[0].islower() for name in it.methods) > 1:
                raise Unknown(f"an impl of {it.trait} with another function than the one without which there is none")
        for it in self.functions:
            it.key = self.key(it)
            self.by.setdefault(it.key, []).append(it)

    def converted(self, mir, declared):
        """MIR where each `impl Into` of a type, named as in the source, is this type, which std makes of itself."""
        for name in {*re.findall(r"\bimpl Into<(\w+)>", mir)}:
            paths = [path for path in declared if path.split("::")[-1] == name]
            if len(paths) != 1:
                raise Unknown(f"the type of an `impl Into<{name}>`")
            mir = mir.replace(f"impl Into<{name}>", paths[0])
        return mir

    def key(self, function):
        """The trait, the type and the name of a function: those of its impl."""
        m = re.match(r"(.*?)(?:::)?<impl at (.+?:\d+:\d+): \d+:\d+>::(.*)$", function.path)
        if not m or "{closure#" in m[3]:
            owner, _, name = function.path.rpartition("::")
            return None, owner, name
        found = [it for it in self.impls if it.begin == m[2] and it.module == m[1] and m[3] in it.methods]
        same = [it for it in self.functions if it.path == function.path]  # those of a macro, in the order of the impls
        own = found[same.index(function)] if len(found) == len(same) else None
        if not own or own.owner and re.search(r"^ *debug self => _1;", function.text, re.M) and referred(
                function.parameters[0][1]) != own.owner:
            raise Unknown(f"the impl of {function.path}")
        return own.trait, own.owner or "", m[3]

    def find(self, key, types=None):
        """The function of a key, with these types of arguments, or none."""
        found = self.by.get(key, [])
        if types:  # of another impl, such as of a reference, they are others
            found = [it for it in found if all(a == b or a == "?" and not key[0] for a, (_, b) in zip(
                types, it.parameters))]
        if len(found) > 1:
            raise Unknown(f"{len(found)} functions {key[2]} of {key[1]}")
        return found[0] if found else None

    def function_of(self, type):
        """The function of a closure, whose first parameter is it."""
        found = [it for it in self.functions if it.parameters and strip(it.parameters[0][1].removeprefix(
            "&mut ")) == type]
        if len(found) != 1:
            raise Unknown(f"the closure {type}")
        self.called.add(found[0].path)
        return found[0]

    def closure(self, type):
        """The function of the other parameters of a closure, which captures nothing."""
        it = self.function_of(type)
        if re.search(r"\b_1\b", it.text):
            raise Unknown(f"what {type} captures")
        made = copy.copy(it)
        made.parameters = it.parameters[1:]
        return made

    def all(self):
        """All functions but closures and constructors."""
        for it in self.functions:
            if not it.path.endswith("}") and not {it.path, it.path.rpartition("::")[0]} & {*self.types.declared}:
                yield it

    def name(self, it):
        """What a function is called in Coq."""
        trait, owner, name = it.key
        words = [f"{trait.split('::')[-1]}__" if trait else "", name]
        if len(self.by[it.key]) > 1:
            words.append("_of_" + re.sub(r"\W+", "_", strip(it.parameters[-1][1]).split("::")[-1]))
        last = owner.split("::")[-1]
        if trait or owner in self.types.declared:
            words.insert(0, last + ("__" if trait else "_"))
        title = "mir_" + re.sub(r"\W+", "_", "".join(words))
        if self.titles.setdefault(title, it) is not it:
            raise Unknown(f"a second function {title}")
        return title

    def write(self, it, pure=False):
        """Writes a function, and what it calls before. Returns its name. A pure one has no fuel, and can't panic."""
        at = it.path, it.key, str(it.parameters), pure
        if at in self.written:
            it.recursive = it.recursive or not it.finished
            return self.written[at]
        it.recursive = it.finished = False
        title = self.written[at] = self.name(it) + "_pure" * pure
        try:
            binders = "".join(f" (v{n} : {self.types.coq(type)})" for n, type in it.parameters)
            of = self.types.coq(it.result)
            for _, type in it.parameters:
                of = f"({of} × {self.types.coq(type)})" if type.startswith("&mut ") else of
            code = self.Body(self, it, pure).whole()
        except (Untranslated, AttributeError, IndexError, KeyError, TypeError, ValueError, StopIteration) as why:
            del self.written[at]
            raise Unknown(str(why) if isinstance(why, Untranslated) else f"a form that isn't known: {why!r}") from why
        it.finished = True
        kind = "Fixpoint" if it.recursive else "Definition"
        if it.recursive:
            code = f"match fuel with O => None | S fuel =>\n{code} end"
        fuel, result = ("", of) if pure else (" (fuel : nat)", f"option {of}")
        self.out.append((title, it, f"{kind} {title}{fuel}{binders} : {result} :=\n{code}.\n"))
        return title

    def static(self, path):
        """A static or a constant that is written once."""
        title = "mir_" + path.split("::")[-1]
        if self.written.get(title, path) != path:
            raise Unknown(f"a second constant {title}")
        if title not in self.written:
            self.written[title], it = path, self.constants[path]
            self.out.append((title, None, f"Definition {title} : {self.types.coq(it.result)} :=\n"
                                          f"{self.Body(self, it, True).whole()}.\n"))
        return title
