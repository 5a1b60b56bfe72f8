"""Why a string is refused."""
from __future__ import annotations

import ctypes
from typing import Optional, Tuple, Union

from . import _library, _names
from ._dialects import dialect_number
from ._named import first_shown, last_shown, shown
from ._names import FIELDS, Dialect, DialectName

# The statuses that the library gives for a refused string in UTF-8: without a dialect, and for a name in one.
_REFUSALS = range(1, _names.UNRECOGNIZED_FIELD + 1), (_names.UNKNOWN_NAME, _names.NAME_WITHOUT_TRIPLE)


class ParseError(ValueError):
    """A string is refused. The message shows where:

    >>> Triple("x86_64-pc-linx")
    Traceback (most recent call last):
    target_lexicon.ParseError: Unrecognized operating system: linx
      x86_64-pc-linx
                ^^^^ did you mean `linux`?
    >>> Triple("linux/amd64")
    Traceback (most recent call last):
    target_lexicon.ParseError: Unrecognized architecture: linux/amd64
      linux/amd64
      ^^^^^^^^^^^
      note: it is a name of another tool: use Triple.read(text, 'go') or Triple.read(text, 'oci')

    `part` is the refused part, from `start` to `end` of the whole `text`. `field` is what was expected there, such as
    `operating_system`. It is None for a part after the binary format, where no field is left, for a lone surrogate, and
    for a name in a dialect. `dialect` is the name of that dialect; otherwise it is None. `suggestion` is the name that
    may have been meant, in a dialect the nearest of its names, or None. `reason` says why no triple means the same as a
    name that a dialect has; otherwise it is None. `line` is the first line of the message with the whole part, and
    nothing escaped.

    One that is made, such as for a test, is like one that is caught. The part goes to the end, unless it is given:

    >>> ParseError("x86_64-pc-linx", "operating_system", 10).suggestion, ParseError("js/wasm", dialect="go").reason
    ('linux', "a module for Go's own JavaScript; rustc's nearest target is wasm32-unknown-unknown")
    """

    # The name by which tracebacks and callers know it.
    __module__ = "target_lexicon"

    def __init__(
        self, text: str, field: Optional[str] = None, start: int = 0, part: Optional[str] = None,
        dialect: Union[Dialect, DialectName, None] = None,
    ) -> None:
        if not isinstance(text, str):
            raise TypeError(f"the text must be a str, not {type(text).__name__}")
        text = str.__str__(text)
        part = text[start:] if part is None else str.__str__(part)
        if field is not None and field not in FIELDS:
            raise ValueError(f"the field must be one of {', '.join(FIELDS)}, or None, not {shown(str(field))}")
        if start < 0 or not text.startswith(part, start):
            raise ValueError(f"the text doesn't have the part {part!a} at {start}")
        self._number = 0 if dialect is None else dialect_number(dialect)
        super().__init__(text, field, start, part, dialect and str(dialect))
        self.text, self.field, self.start, self.part = text, field, start, part
        self.dialect: Optional[str] = self.args[4]

    @property
    def end(self) -> int:
        """Where the refused part ends in the string."""
        return self.start + len(self.part)

    @property
    def reason(self) -> Optional[str]:
        """Why no triple means the same as a name that the dialect has; None for any other refusal."""
        return _library.reason(self._number, self.text.encode()) if self._number else None

    @property
    def suggestion(self) -> Optional[str]:
        """The name that may have been meant by the part, or None if there is none."""
        if self._number:
            utf8 = self.text.encode()
            return _library.name_suggestion(self._number, utf8, len(utf8))
        before, part, after = (it.encode(errors="replace")
                               for it in (self.text[:self.start], self.part, self.text[self.end:]))
        utf8, error = before + part + after, _library.ErrorStruct(self._status, len(before), len(before + part))
        return _library.suggestion(utf8, len(utf8), error)

    @property
    def _status(self) -> int:
        """The status of the library, which is that of bytes that aren't UTF-8 for a lone surrogate."""
        try:
            self.part.encode()
        except UnicodeEncodeError:
            return _names.NOT_UTF8
        if self._number:
            return _names.UNKNOWN_NAME if self.reason is None else _names.NAME_WITHOUT_TRIPLE
        return _names.UNRECOGNIZED_FIELD if self.field is None else FIELDS.index(self.field) + 1

    @property
    def line(self) -> str:
        """The line that the library writes of the error, with the whole part and nothing escaped."""
        return self._line(self.part)

    def _line(self, part: str) -> str:
        status = self._status
        return f"Lone surrogate: {part}" if status == _names.NOT_UTF8 else _library.error_line(status, part)

    def __str__(self) -> str:
        begin, part, end = (last_shown(self.text[:self.start]), first_shown(self.part),
                            first_shown(self.text[self.end:]))
        name, reason = self.suggestion, self.reason
        hint = f" did you mean `{name}`?" if name else f" {reason}" if reason else "" if part else " it is empty"
        note = self._note()
        return (f"{self._line(part)}\n  {begin}{part}{end}\n  {' ' * len(begin)}{'^' * max(1, len(part))}{hint}"
                + (f"\n  note: {note}" if note else ""))

    def _note(self) -> Optional[str]:
        """What the library knows of the string; or else that other tools have it as a name, and by which calls it is
        read, or why no triple means it. None if nobody has it, or if it should only be a value of a later field."""
        if self.start == 0 and self.field in FIELDS[1:]:
            return None
        utf8 = self.text.encode(errors="replace")
        note = _library.note(self._number, utf8, len(utf8))
        if note or self.dialect is not None:
            return note
        dialects, calls = (None, *Dialect), []
        for it in _library.meanings(ctypes.create_string_buffer(utf8, len(utf8)), _library.readers):
            dialect = dialects[it.dialect]
            if it.status != _names.OK:
                return f"it is a name of {dialect} without a triple: {it.note}"
            calls.append(f"Triple.read(text, {dialect.value!r})" if dialect else "Triple.read(text)")
        return f"it is a name of another tool: use {' or '.join(calls)}" if calls else None


def encoded(text: object, what: str) -> bytes:
    """The string in UTF-8. Anything but a `str` is a TypeError, and a lone surrogate is a ParseError."""
    if not isinstance(text, str):
        raise TypeError(f"{what} must be a str, not {type(text).__name__}")
    try:
        return str.encode(text)
    except UnicodeEncodeError as error:
        raise ParseError(text, None, error.start, text[error.start]) from None


def range_in(utf8: bytes, start: int, end: int) -> Tuple[int, str]:
    """Where the bytes begin in the decoded string, and their string."""
    return len(utf8[:start].decode()), utf8[start:end].decode()


def refusal(text: str, utf8: bytes, error: _library.ErrorStruct,
            dialect: Union[Dialect, DialectName, None] = None) -> ParseError:
    """The error that the library wrote of a string, which is a name in the dialect, if there is one."""
    status = error.status
    if status not in _REFUSALS[dialect is not None]:
        raise _library.LibraryError(f"a refusal with the status {status}")
    field = FIELDS[status - 1] if status <= len(FIELDS) else None
    return ParseError(text, field, *range_in(utf8, error.start, error.end), dialect)
