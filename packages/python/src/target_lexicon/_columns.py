"""Answers for many targets at once, as plain values."""

import ctypes
import reprlib
import struct
from collections.abc import Mapping
from ctypes import byref, c_size_t, c_void_p
from itertools import islice
from operator import getitem, itemgetter
from typing import Any, Callable, Dict, Iterable, List, Literal, Optional, Sequence, Tuple, TypeVar, Union

from . import _library, _names
from ._errors import ParseError
from ._facts import FACTS, Facts
from ._triple import Triple
from ._values import Architecture, BinaryFormat, Environment, OperatingSystem, Vendor

Answer = TypeVar("Answer")
#: What is done with a cell that is neither a string nor missing: see `settle_all`.
Errors = Literal["raise", "coerce"]

# How many targets are answered at once, and how many different ones are remembered within a call.
_AT_ONCE, _REMEMBERED = 1 << 12, 1 << 16

# The names of values by number.
_ARCHITECTURES, _VENDORS, _SYSTEMS, _ENVIRONMENTS, _FORMATS = (
    [it.value for it in of] for of in (Architecture, Vendor, OperatingSystem, Environment, BinaryFormat))

# The plain values of each fact, in the order of the answers; and what gives the numbers of C in this order.
_VALUES = [[getattr(it, "value", it) for it in answers] for answers in FACTS.values()]
_in_order = itemgetter(*map(_names.FACT_NAMES.index, FACTS))
_value_of: Callable[[Sequence[Any], int], Any] = getitem


def settle_all(targets: Iterable[Union[str, Triple, None]], errors: Errors = "raise",
               dialect: Union[_names.Dialect, _names.DialectName, None] = None) -> List[Optional[str]]:
    """The canonical string of each target, or None for one that is refused. Much faster than a loop over `Triple`.

    >>> settle_all(["arm64-linux-gnu", "aarch64-unknown-linux-gnu", "x86_64-pc-linx"])
    ['aarch64-unknown-linux-gnu', 'aarch64-unknown-linux-gnu', None]
    >>> settle_all(["linux/arm64", "linux/amd46"], dialect="oci")  # names of a tool, as Triple.read takes them
    ['aarch64-unknown-linux', None]

    A missing cell of a column, which is None, NaN or `pandas.NA`, is as a target that is refused. Anything else but a
    `str` or a triple raises a TypeError that has it and its index; with `errors="coerce"`, as in pandas, it is as a
    missing cell. A single `str`, a mapping or a table, such as a DataFrame, is a TypeError.
    """
    def keys(names: Sequence[str]) -> List[Optional[str]]:
        return _canonical_texts(names) if dialect is None else [_canonical_name(it, dialect) for it in names]
    return _each(targets, errors, keys, lambda triple: triple.canonical)


def facts_all(targets: Iterable[Union[str, Triple, None]], errors: Errors = "raise") -> List[Facts]:
    """All answers about each target. Of one that is refused every answer is None.

    >>> [it.pointer_width for it in facts_all(["arm64-linux-gnu", "avr", "x86_64-pc-linx"])]
    [64, 16, None]

    Missing cells and wrong types are as in `settle_all`.
    """
    return _each(targets, errors, _facts_of_texts, facts_of)


def _each(targets: Iterable[Any], errors: Errors, answers_of: Callable[[Sequence[str]], List[Answer]],
          answer_of: Callable[[Triple], Answer]) -> List[Answer]:
    """The answer for each target, by a function that answers for many strings, or by one that answers for a triple.
    Neither is asked again for what is remembered."""
    if isinstance(targets, (str, bytes, Mapping)) or getattr(targets, "ndim", 1) != 1:
        raise TypeError(f"the targets must be an iterable of str, such as one column, not a {type(targets).__name__}")
    if errors not in ("raise", "coerce"):
        raise ValueError(f"errors must be 'raise' or 'coerce', not {errors!r}")
    answers: List[Answer] = []
    remembered: Dict[Union[str, Triple], Answer] = {}
    rest = iter(targets)
    while some := list(islice(rest, _AT_ONCE)):
        if len(remembered) > _REMEMBERED:
            remembered.clear()
        if not {str}.issuperset(map(type, some)):
            some = [_plain(it, index, errors) for index, it in enumerate(some, len(answers))]
            remembered.update((it, answer_of(it)) for it in {*some}.difference(remembered) if isinstance(it, Triple))
        new = tuple(set(some).difference(remembered))
        remembered.update(zip(new, answers_of(new)))
        answers += map(remembered.__getitem__, some)
    return answers


def _plain(target: Any, index: int, errors: Errors) -> Union[str, Triple]:
    """A triple, or the target as a `str`, so that no subclass says how it is compared, hashed or searched. A missing
    cell is the empty string, which is refused. Anything else is a TypeError, or the same."""
    if isinstance(target, (str, Triple)):
        return target if isinstance(target, Triple) else str.__str__(target)
    if errors == "coerce" or target is None or isinstance(target, float) and target != target or type(
        target).__name__ == "NAType":
        return ""
    raise TypeError(f"a target must be a str, not {type(target).__name__}: index {index} has {reprlib.repr(target)}")


def _canonical_texts(targets: Sequence[str]) -> List[Optional[str]]:
    """The canonical string of each target, by one call for all of them."""
    lines = "\n".join(targets)
    if lines.count("\n") >= len(targets) > 0:
        # A target that has a line feed is refused, as an empty one is.
        lines = "\n".join("" if "\n" in it else it for it in targets)
    # A lone surrogate isn't UTF-8, so its line is refused.
    utf8 = f"{lines}\n".encode("utf-8", "surrogatepass")
    out = ctypes.create_string_buffer(len(utf8) + _library.MAX_GROWTH * len(targets) + 1)
    _library.check(_library.settle_lines(utf8, len(utf8), out, len(out), None))
    return [line or None for line in out.value.decode().split("\n")[:-1]]


def _canonical_name(name: str, dialect: Union[_names.Dialect, _names.DialectName]) -> Optional[str]:
    """The canonical string of what a name means, or None."""
    try:
        return Triple.read(name, dialect).canonical
    except ParseError:
        return None


class _Answered(ctypes.Structure):
    """A triple and its facts, in one piece of memory."""

    triple: _library.TripleStruct
    facts: _library.FactsStruct
    _fields_ = [("triple", _library.TripleStruct), ("facts", _library.FactsStruct)]


# The numbers that are in it: those of the triple, its custom vendor's pointer and size, and those of the facts.
_NUMBERS = struct.Struct(f"@HBBBBBBBHPN{len(FACTS)}B")

# Calls whose arguments are values of `ctypes`, which takes half the time.
_parse, _facts, _print, _llvm_target, _multiarch_tuple = map(
    _library.undeclared, ("lexicon_parse", "lexicon_facts", "lexicon_print", "lexicon_llvm_target",
                          "lexicon_multiarch_tuple"))


def _facts_of_texts(targets: Sequence[str]) -> List[Facts]:
    """All answers about each target. All calls write into the same memory."""
    answered, error, out, size = _Answered(), _library.ErrorStruct(), _library.TextBuffer(), c_size_t()
    triple, to_facts, to_error = answered.triple, byref(answered.facts), byref(error)
    to_triple, to_out, room = byref(triple), c_void_p(ctypes.addressof(out)), c_size_t(_library.FIRST_SIZE)
    facts_size = c_size_t(ctypes.sizeof(_library.FactsStruct))
    answers: List[Facts] = []
    for text, canonical in zip(targets, _canonical_texts(targets)):
        if canonical is None:
            answers.append(Facts())
            continue
        utf8 = str.encode(text)
        size.value = len(utf8)
        status = _parse(utf8, size, to_triple, to_error) or _facts(to_triple, to_facts,
                                                                   facts_size) or _print(to_triple, to_out, room, None)
        if triple.custom_vendor is not None:
            answers.append(facts_of(Triple(text)))
            continue
        _library.check(status)
        printed = out.value.decode()
        _library.check(_llvm_target(to_triple, to_out, room, None))
        llvm_target = out.value.decode()
        multiarch_tuple = None if _multiarch_tuple(to_triple, to_out, room,
                                                   None) == _names.TRIPLE_WITHOUT_NAME else out.value.decode()
        answers.append(_facts_from(_NUMBERS.unpack_from(answered), None, llvm_target, multiarch_tuple, printed,
                                   canonical))
    return answers


def facts_of(it: Triple) -> Facts:
    """All answers about a triple."""
    numbers = _NUMBERS.unpack(bytes(it._struct) + bytes(it._facts or it._ask()))
    return _facts_from(numbers, str(it.vendor), it.llvm_target, it.multiarch_tuple, str(it), it.canonical)


def _facts_from(numbers: Tuple[Any, ...], vendor: Optional[str], *strings: Optional[str]) -> Facts:
    """All answers, from the numbers and the strings, of which those that end the answers are last. Only a custom vendor
    must be given."""
    architecture, known, system, environment, form, has_version, minor, patch, major, _, _, *facts = numbers
    return Facts._make((
        _ARCHITECTURES[architecture], vendor or _VENDORS[known], _SYSTEMS[system],
        f"{major}.{minor}.{patch}" if has_version else None, _ENVIRONMENTS[environment], _FORMATS[form],
        *map(_value_of, _VALUES, _in_order(facts)), *strings,
    ))
