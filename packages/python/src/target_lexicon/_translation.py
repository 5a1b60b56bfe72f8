"""From the name of one tool to that of another, what a name means to each, what is read as other names, the targets in
a text, and what is wrong with them."""
import ctypes
from typing import List, NamedTuple, Optional, Sequence, Tuple, Union

from . import _library, _names
from ._dialects import NO_DIALECT, dialect_number, libc_number
from ._errors import ParseError, encoded, range_in
from ._named import first_shown, shown
from ._names import FIELDS, ChosenLibc, ChosenLibcName, Dialect, DialectName
from ._triple import Triple, _triple_of, versions_struct


class TranslationError(ParseError):
    """What a name means has no name in another dialect. It is a `ParseError`, so that one clause catches all that
    `translate` refuses.

    >>> translate("linux/arm64", "oci", "debian")
    Traceback (most recent call last):
    target_lexicon.TranslationError: No name in the other dialect: linux/arm64: it depends on the C library: say glibc or musl

    `reason` says why, and what would help, and `needs_libc` whether that is `libc`. `text` is the name that is read,
    `source` and `target` are the dialects. The other members are those of a `ParseError` about the whole name.
    """

    __module__ = "target_lexicon"

    def __init__(self, text: str, source: Optional[str], target: str, needs_libc: bool, reason: str) -> None:
        super().__init__(text, dialect=None if source is None else Dialect(source))
        self.source, self.target, self.needs_libc, self._reason = source, target, needs_libc, reason
        self.args = self.text, source, target, needs_libc, reason

    @property
    def reason(self) -> str:
        """Why there is no name in the other dialect."""
        return self._reason

    @property
    def suggestion(self) -> None:
        """None: the name is known."""

    def _line(self, part: str) -> str:
        return f"{_library.error_line(_names.TRIPLE_WITHOUT_NAME, part)}: {shown(self.reason)}"

    def __str__(self) -> str:
        return self._line(first_shown(self.text))


def translate(
    name: str, source: Union[Dialect, DialectName, None], target: Union[Dialect, DialectName],
    libc: Union[ChosenLibc, ChosenLibcName, None] = None, **versions: Optional[Sequence[int]],
) -> str:
    """The name in the dialect `target` of what a name of the dialect `source` means.

    >>> translate("linux/arm64/v8", "oci", "rust", "glibc"), translate("arm64", Dialect.DEBIAN, Dialect.OCI)
    ('aarch64-unknown-linux-gnu', 'linux/arm64')
    >>> translate("linux/amd64", "oci", "python", glibc=(2, 17))
    'manylinux_2_17_x86_64'

    Versions are those of `Triple.name_in`. Where `source` is None, the string is spelled like a triple. Names of
    Debian, GNU and rustc state the C library of Linux, and those of Go, container images and Python don't: from one of
    the latter to one of the former, say `libc`. A name that isn't read raises a `ParseError`, as `Triple.read` does.
    What has no name in `target`, or only with a C library, raises one that is a `TranslationError`.
    """
    from_number = NO_DIALECT if source is None else dialect_number(source)
    numbers = from_number, 0 if libc is None else libc_number(libc), versions_struct(versions), dialect_number(target)
    status, translated, reason = _library.translate(encoded(name, "the name of a target"), *numbers)
    if status == _names.OK:
        return translated
    if status not in (_names.TRIPLE_WITHOUT_NAME, _names.NEEDS_C_LIBRARY):
        Triple.read(name, source)  # which says why it isn't read
        _library.check(status)
    raise TranslationError(name, source and str(source), str(target), status == _names.NEEDS_C_LIBRARY, reason or "")


class Meaning(NamedTuple):
    """What a string means to a tool that has it as a name; or, without a dialect, as one that is spelled like a
    triple, or by its words."""

    dialect: Optional[Dialect]
    #: The canonical triple, or None if no triple means the same.
    triple: Optional[Triple]
    #: Why no triple means the same, or None.
    reason: Optional[str]
    #: The level of the machine that the name says and the triple can't state, such as ``v3`` of ``linux/amd64/v3``, or
    #None. `translate` keeps it.
    level: Optional[str] = None
    #: Whether nobody has the name, and its words say just this.
    by_words: bool = False


def meanings(text: str) -> List[Meaning]:
    """What a name means to each dialect that has it, and then as a string that is spelled like a triple, if it is no
    single word that one has; and last what its words say, if that isn't certain.

    >>> [(str(it.dialect), str(it.triple)) for it in meanings("armhf")]
    [('debian', 'armv7-unknown-linux-gnueabihf'), ('apk', 'armv6-unknown-linux-musleabihf')]
    >>> [(it.dialect, it.triple, it.reason) for it in meanings("plan9/amd64")]
    [(Dialect.GO, None, 'Plan 9 is no known name')]
    >>> str(meanings("x64-osx")[-1].triple), meanings("x64-osx")[-1].by_words
    ('x86_64-apple-darwin', True)

    The list is empty if nobody means a target by the string.
    """
    utf8 = encoded(text, "the name of a target")
    owner = ctypes.create_string_buffer(utf8, len(utf8))
    dialects: Tuple[Optional[Dialect], ...] = (None, *Dialect)
    found = []
    for it in _library.meanings(owner):
        if it.status == _names.OK:
            triple = _triple_of(_library.TripleStruct.from_buffer_copy(it.triple), owner)
            by_words = it.dialect == _library.BY_WORDS
            found.append(Meaning(None if by_words else dialects[it.dialect], triple, None, it.note, by_words))
        else:
            found.append(Meaning(dialects[it.dialect], None, it.note))
    return found


class Change(NamedTuple):
    """A part of a string that `Triple.read` reads as other names: `text[start:end]`, and the names, with dashes between
    them."""

    start: int
    end: int
    part: str
    names: str


def changes(text: str) -> List[Change]:
    """What `Triple.read`, without a dialect, reads as other names. A version that is dropped is such a part.

    >>> [f"{it.part} is read as {it.names}" for it in changes("amd64-unknown-freebsd13.2")]
    ['amd64 is read as x86_64', 'freebsd13.2 is read as freebsd']

    A string that is refused has its changes too.
    """
    utf8 = encoded(text, "the text of a triple")
    found = []
    for start, end, names in _library.changes(utf8):
        first, part = range_in(utf8, start, end)
        found.append(Change(first, first + len(part), part, names))
    return found


class Target(NamedTuple):
    """A target in a text, which has it from `start` to `end`."""

    text: str
    start: int
    end: int


def targets_in(text: str) -> List[Target]:
    """The targets in any text, such as a list, a workflow in YAML, or a page in Markdown, as the command finds them in
    a file.

    >>> targets_in("run: rustup target add `aarch64-apple-darwn`  # for Macs")
    [Target(text='aarch64-apple-darwn', start=24, end=43)]

    They are the words that are a name of a machine and a system, of any tool or as a triple, or are with a name that is
    suggested; and all items of a list.
    """
    utf8, found = _bytes_of(text), []
    index = _Index(utf8)
    for start, end in _library.targets(utf8):
        first, last = index.of(start), index.of(end)
        found.append(Target(text[first:last], first, last))
    return found


class Finding(NamedTuple):
    """A word of a text that is wrong, or isn't understood. With the `suggestion` instead of the `part` of it that is
    wrong, which is `source[start:end]` of the whole text, it is what was perhaps meant."""

    text: str
    part: str
    start: int
    end: int
    suggestion: Optional[str]
    #: The field that the part isn't a name of; None if no tool has the word as a name.
    field: Optional[str]
    #: Whether it only may be a target, and isn't understood.
    is_unclear: bool


def check(text: str) -> List[Finding]:
    """What is wrong in any text, as the command's `check` says of a file: each word that resembles a name of some tool,
    or is spelled like a triple, and is neither; and each that may be a target and isn't understood.

    >>> [(it.text, it.part, it.suggestion) for it in check("platform: [linux/amd64, linux/amd46]")]
    [('linux/amd46', 'linux/amd46', 'linux/amd64')]
    >>> [(it.text, it.is_unclear) for it in check("platform: linux/foo")]
    [('linux/foo', True)]
    """
    utf8, found = _bytes_of(text), []
    index = _Index(utf8)
    for it in _library.findings(utf8):
        word, first, last, end = map(index.of, (it.word.start, it.part.start, it.part.end, it.word.end))
        field = FIELDS[it.status - 1] if it.status <= len(FIELDS) else None
        found.append(Finding(text[word:end], text[first:last], first, last, it.suggestion(utf8), field,
                             it.status == _names.NO_ANSWER))
    return found


def _bytes_of(text: str) -> bytes:
    """A text in UTF-8, with a byte for a lone surrogate, which is in no target."""
    if not isinstance(text, str):
        raise TypeError(f"the text must be a str, not {type(text).__name__}")
    return str.encode(text, errors="replace")


class _Index:
    """The index in a string of each place in its bytes, from the first one to the last."""

    def __init__(self, utf8: bytes) -> None:
        self._utf8, self._at, self._index = utf8, 0, 0

    def of(self, place: int) -> int:
        self._index += len(self._utf8[self._at:place].decode())
        self._at = place
        return self._index
