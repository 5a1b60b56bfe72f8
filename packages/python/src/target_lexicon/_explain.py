"""From which part of a string each field of its triple comes."""

import ctypes
from typing import Iterator, NamedTuple, Optional, Tuple

from . import _library, _names
from ._errors import encoded, range_in, refusal
from ._named import NamedValue
from ._names import FIELDS
from ._triple import Triple, _triple_of


class Origin(NamedValue):
    """Where the value of a field comes from."""

    #: No part of the string is of this field, which is unknown.
    NOT_GIVEN = "not given"
    #: A part of the string, which is the name of the value.
    GIVEN = "given"
    #: The binary format that the other fields imply.
    IMPLIED = "implied"
    #: A part of the string that is another spelling. A special string such as `armv6k-nintendo-3ds` is one part, of all
    #fields.
    ALIAS = "alias"


#: By their numbers in C.
_ORIGINS = tuple(Origin)


class Source(NamedTuple):
    """Where the value of one field comes from. `part` is the part of the string from `start` to `end`; all three may be
    None."""

    value: str
    origin: Origin
    part: Optional[str] = None
    start: Optional[int] = None

    @property
    def end(self) -> Optional[int]:
        """Where the part ends in the string."""
        return None if self.part is None or self.start is None else self.start + len(self.part)

    def __str__(self) -> str:
        word = "given as" if self.origin is Origin.GIVEN else str(self.origin)
        return word if self.part is None else f"{word} `{self.part}`"


class Explanation(NamedTuple):
    """The triple of a string, and from which part each of its fields comes. Its `str` has a line for each field."""

    text: str
    triple: Triple
    architecture: Source
    vendor: Source
    operating_system: Source
    environment: Source
    binary_format: Source

    @property
    def sources(self) -> Tuple[Tuple[str, Source], ...]:
        """The names of the fields, each with its source."""
        return tuple((name, getattr(self, name)) for name in FIELDS)

    @property
    def suggestion(self) -> Optional[str]:
        """The known name that may have been meant by a custom vendor, or None."""
        return _library.vendor_suggestion(self.triple._struct)

    @property
    def note(self) -> Optional[str]:
        """What a reader may have overlooked: that the vendor is a custom one. None if it isn't."""
        if not self.triple.has_custom_vendor:
            return None
        hint = f"; did you mean `{self.suggestion}`?" if self.suggestion else ""
        return f"`{self.vendor.value}` is a custom vendor{hint}"

    def __str__(self) -> str:
        version = ".".join(map(str, self.triple.version or ()))
        values = {name: f"{source.value} {version}" if version and name == "operating_system" else source.value
                  for name, source in self.sources}
        width = max(len(value) for value in values.values() if len(value) <= 40)
        custom = {"vendor": "custom, "} if self.triple.has_custom_vendor else {}
        lines = [f"  {name:16}  {values[name]:{width}}  {custom.get(name, '')}{source}"
                 for name, source in self.sources]
        if self.note:
            lines.append(f"  {'note':16}  {self.note}")
        return "\n".join([self.text, *lines])


def explain(text: str) -> Explanation:
    """The triple of a string, and from which part each of its fields comes. A string that is refused raises a
    `ParseError`.

    >>> print(explain("armv7a-nuttx-eabi"))
    armv7a-nuttx-eabi
      architecture      armv7a   given as `armv7a`
      vendor            nuttx    custom, given as `nuttx`
      operating_system  unknown  not given
      environment       eabi     given as `eabi`
      binary_format     elf      implied
      note              `nuttx` is a custom vendor
    """
    utf8 = encoded(text, "the text of a triple")
    owner = ctypes.create_string_buffer(utf8, len(utf8))
    struct, sources, error = _library.TripleStruct(), _library.SourcesStruct(), _library.ErrorStruct()
    if _library.explain(owner, len(utf8), struct, sources, error) != _names.OK:
        raise refusal(text, utf8, error)
    triple = _triple_of(struct, owner)
    return Explanation(text, triple, *_sources(triple, utf8, sources))


def _sources(triple: Triple, utf8: bytes, sources: _library.SourcesStruct) -> Iterator[Source]:
    for name in FIELDS:
        source, value = getattr(sources, name), str(getattr(triple, name))
        origin = _ORIGINS[source.origin]
        if origin in (Origin.NOT_GIVEN, Origin.IMPLIED):
            yield Source(value, origin)
            continue
        start, part = range_in(utf8, source.start, source.end)
        yield Source(value, origin, part, start)
