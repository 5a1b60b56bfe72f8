"""What the values of fields have in common, and the custom vendor."""
from __future__ import annotations

from typing import Tuple, Type, TypeVar, Union

from . import _library, _names
from ._errors import ParseError, encoded
from ._named import Immutable, NamedValue, members
from ._names import FIELDS

Value = TypeVar("Value", bound="FieldValue")
KnownVendor = TypeVar("KnownVendor", bound="VendorValue")

# The numbers of the fields, by the names of their classes.
_FIELDS = {name.title().replace("_", ""): number for number, name in enumerate(FIELDS)}
_VENDOR = _FIELDS["Vendor"]


class FieldValue(NamedValue):
    """A value of a field of a triple. Subclasses have the members."""

    @classmethod
    def parse(cls: Type[Value], text: str) -> Value:
        """The value that a string is in this field, outside any triple. A version is parsed and dropped.

        >>> Architecture.parse("arm64")
        Architecture.AARCH64
        >>> OperatingSystem.parse("ios17.2")
        OperatingSystem.IOS
        """
        value: Value = members(cls)[_number_of(_FIELDS[cls.__name__], text)]
        return value


class VendorValue(NamedValue):
    """A known vendor. The subclass has the members."""

    @classmethod
    def parse(cls: Type[KnownVendor], text: str) -> Union[KnownVendor, CustomVendor]:
        """The vendor that a string is, outside any triple.

        >>> Vendor.parse("pc"), Vendor.parse("acme")
        (Vendor.PC, CustomVendor('acme'))
        """
        number = _number_of(_VENDOR, text)
        vendor: Union[KnownVendor, CustomVendor] = CustomVendor._of(
            text) if number == _library.CUSTOM_VENDOR else members(cls)[number]
        return vendor


def _number_of(field: int, text: str) -> int:
    """The number of the value that a string is in the field, or a ParseError."""
    status, number = _library.number(field, encoded(text, "the name of a value"))
    if status == _names.OK:
        return number
    if status != field + 1:
        raise _library.LibraryError(f"unexpected status {status}")
    raise ParseError(text, FIELDS[field])


class CustomVendor(Immutable, str):
    """A vendor that has no name of its own in the library: a string that parses as a vendor, and as nothing else.

    It is a `str`, as known vendors are, and equal to its string. A string that is no vendor raises a ParseError, a
    known vendor a ValueError. `case CustomVendor(text):` of a `match` gives the string.

    >>> Triple("x86_64-acme-linux").vendor == CustomVendor("acme") == "acme"
    True
    """

    __slots__ = ()
    __match_args__ = ("text",)

    def __new__(cls, text: str) -> CustomVendor:
        if _number_of(_VENDOR, text) != _library.CUSTOM_VENDOR:
            raise ValueError(f"{text} is a known vendor: Vendor.{text.upper()}")
        return cls._of(text)

    @classmethod
    def _of(cls, text: str) -> CustomVendor:
        return str.__new__(cls, str.__str__(text))  # a subclass may answer otherwise than the string that was parsed

    @property
    def text(self) -> str:
        """The string."""
        return str.__str__(self)

    @property
    def value(self) -> str:
        """The string, as the `value` of a known vendor is its name."""
        return self.text

    @property
    def number(self) -> int:
        """The number that all custom vendors have in the library for C."""
        return _library.CUSTOM_VENDOR

    def __repr__(self) -> str:
        return f"CustomVendor({self.text!r})"

    def __reduce__(self) -> Tuple[Type[CustomVendor], Tuple[str]]:
        return CustomVendor, (self.text,)
