"""What all enumerations have in common, and what all values have that are made from strings."""
from __future__ import annotations

import enum
import functools
from importlib import import_module
from typing import TYPE_CHECKING, Any, List, Optional, Tuple, Type, TypeVar

Value = TypeVar("Value", bound="Immutable")


class NamedType(enum.EnumMeta):
    """What `dir` and `help` list of an enumeration: its members, and its own calls without those of `str`."""

    def __dir__(cls) -> List[str]:
        of_classes = (vars(it) for it in cls.__mro__ if it.__module__.startswith(__package__))
        return sorted({*cls.__members__, *(name for names in of_classes for name in names if not name.startswith("_"))})


class NamedValue(str, enum.Enum, metaclass=NamedType):
    """A value that has a name and a number. It is its name: a `str` that is equal to the name, and sorted and written
    as the name."""

    #: The number of the value in the library for C.
    number: int

    if TYPE_CHECKING:

        @property
        def value(self) -> str:
            """The name."""
            ...

    def __new__(cls, name: str) -> NamedValue:
        member = str.__new__(cls, name)
        member._value_ = name
        member.number = len(cls.__members__)
        return member

    @classmethod
    def _missing_(cls, value: object) -> Optional[NamedValue]:
        """Enumerations of Python would write a name as `repr` does, which escapes less."""
        raise ValueError(f"{value!a} is not a valid {cls.__name__}")

    def __str__(self) -> str:
        return self.value

    def __repr__(self) -> str:
        return f"{type(self).__name__}.{self.name}"


@functools.lru_cache(maxsize=None)
def members(of: Type[NamedValue]) -> Tuple[Any, ...]:
    """The members of an enumeration, by number."""
    return tuple(of)


class Immutable:
    """A value that is made from a string, and never changes."""

    __slots__ = ()

    def __copy__(self: Value) -> Value:
        return self

    def __deepcopy__(self: Value, memo: object) -> Value:
        return self

    @classmethod
    def __get_pydantic_core_schema__(cls, source: Any, handler: Any) -> Any:
        """For pydantic 2: a value is taken as it is, and a string is what the class makes of it. In JSON it is a
        string."""
        schema = import_module("pydantic_core").core_schema
        from_string = schema.chain_schema([schema.str_schema(strict=True),
                                           schema.no_info_plain_validator_function(cls)])
        return schema.no_info_wrap_validator_function(
            lambda value, read: value if type(value) is cls else read(value), from_string,
            serialization=schema.to_string_ser_schema())


#: As many characters as a message shows of a long part, which is as many as the library's show.
_SHOWN = 200


def first_shown(text: str) -> str:
    """The string as a message shows it, of a long one the beginning."""
    first = shown(text[:_SHOWN + 1])
    return first if len(first) <= _SHOWN else f"{first[:_SHOWN]}..."


def last_shown(text: str) -> str:
    """The string as a message shows it, of a long one the end."""
    last = shown(text[-_SHOWN - 1:])
    return last if len(last) <= _SHOWN else f"...{last[-_SHOWN:]}"


def shown(text: str) -> str:
    """The string as a message shows it: every character that isn't printable ASCII is escaped, so that columns are
    characters."""
    text = str.__str__(text)
    if text.isascii() and text.isprintable():
        return text
    return "".join(it if " " <= it <= "~" else it.encode("unicode_escape").decode() for it in text)
