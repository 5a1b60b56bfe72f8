"""What callers name: a tool whose names of targets are read and written, or a C library."""
from typing import Type, Union

from ._named import NamedValue, shown
from ._names import OTHER_NAMES, ChosenLibc, ChosenLibcName, Dialect, DialectName

#: The number in the library for C of no dialect: the string is spelled like a triple.
NO_DIALECT = 0


def dialect_number(dialect: Union[Dialect, DialectName]) -> int:
    """The number in the library for C of a dialect, given as a member or by its name."""
    return _number(OTHER_NAMES.get(dialect, dialect) if isinstance(dialect, str) else dialect, Dialect, "dialect")


def libc_number(libc: Union[ChosenLibc, ChosenLibcName]) -> int:
    """The number in the library for C of a C library, given as a member or by its name."""
    return _number(libc, ChosenLibc, "C library")


def _number(value: str, of: Type[NamedValue], what: str) -> int:
    if not isinstance(value, str):
        raise TypeError(f"the {what} must be of type {of.__name__} or str, not {type(value).__name__}")
    names = list(of)
    if value not in names:
        word, known = value.lower(), [*names, *(OTHER_NAMES if of is Dialect else ())]
        near = [it for it in known
                if word.startswith(it) or word[1:] and it.startswith(word) or sorted(it) == sorted(word)]
        meant = f"; did you mean {'glibc or mingw' if word == 'gnu' else near[0]}?" if near else ""
        raise ValueError(f"the {what} must be one of {', '.join(known)}, not {shown(value)}{meant}")
    return names.index(of(value)) + 1
