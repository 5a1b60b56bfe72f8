"""The calls of the library for C, and its structs.

A struct is memory that its Python object owns. Each call gets structs and buffers of its own, so that threads may call
at once, also where no lock of the interpreter keeps them apart. The calls are made without releasing that lock, where
that can be said: each of them takes less time than that would.
"""
from __future__ import annotations

import ctypes
import itertools
import os
import sys
from ctypes import POINTER, Structure, c_bool, c_char, c_char_p, c_size_t, c_uint8, c_uint16, c_uint32, c_void_p
from typing import TYPE_CHECKING, Any, Callable, Iterator, Optional, Sequence, Tuple, Type

from ._names import (
    FACT_NAMES, FIELDS, NEEDS_C_LIBRARY, NO_SUCH_CHANGE, NO_SUGGESTION, OK, TOO_SMALL, TRIPLE_WITHOUT_NAME,
)

#: The version of this package.
VERSION = "0.5.0"

# The part of the version that the library must have too, and the name of its file, which Python takes for no module.
_CALLS_VERSION = VERSION.rpartition(".")[0]
_NAME = f"libtarget_lexicon.so.{_CALLS_VERSION}"
_PACKAGE_FILE = os.path.join(os.path.dirname(os.path.abspath(__file__)), _NAME)

CUSTOM_VENDOR = 255

#: `LEXICON_MAX_GROWTH`: no canonical string is longer by more than its target.
MAX_GROWTH = 22

#: `LEXICON_MAX_MEANINGS` and `LEXICON_BY_WORDS`.
MAX_MEANINGS, BY_WORDS = 32, 255

#: The size of the first buffer for a string, which has room for every printed triple without a long custom vendor.
FIRST_SIZE = 128
TextBuffer = c_char * FIRST_SIZE

# The statuses by which a call says that it has no string.
_WITHOUT_STRING = (TRIPLE_WITHOUT_NAME, NEEDS_C_LIBRARY, NO_SUCH_CHANGE, NO_SUGGESTION)


class Struct(Structure):
    """A struct of C, whose members are numbers."""

    if TYPE_CHECKING:

        def __getattr__(self, name: str) -> int:
            ...


class TripleStruct(Struct):
    """`struct lexicon_triple`. That of a `Triple` isn't changed."""

    _fields_ = [
        ("architecture", c_uint16), ("vendor", c_uint8), ("operating_system", c_uint8), ("environment", c_uint8),
        ("binary_format", c_uint8), ("has_version", c_uint8), ("minor", c_uint8), ("patch", c_uint8),
        ("major", c_uint16),
        ("custom_vendor", c_void_p), ("custom_vendor_size", c_size_t),
    ]


class ErrorStruct(Struct):
    """`struct lexicon_error`."""

    _fields_ = [("status", c_uint32), ("start", c_size_t), ("end", c_size_t), ("_reason", c_char_p)]
    _reason: Optional[bytes]

    @property
    def reason(self) -> Optional[str]:
        """Why a name has no triple, or isn't translated, and what would help."""
        return None if self._reason is None else self._reason.decode()


class SourceStruct(Struct):
    """`struct lexicon_source`."""

    _fields_ = [("origin", c_uint32), ("start", c_size_t), ("end", c_size_t)]


class SourcesStruct(Struct):
    """`struct lexicon_sources`."""

    _fields_ = [(name, SourceStruct) for name in FIELDS]


class FactsStruct(Struct):
    """`struct lexicon_triple_facts`, all of whose members are bytes."""

    _fields_ = [(name, c_uint8) for name in FACT_NAMES]


class VersionStruct(Struct):
    """`struct lexicon_os_version`."""

    _fields_ = [("major", c_uint16), ("minor", c_uint8), ("patch", c_uint8)]


#: Of what names state versions.
VERSIONS_OF = "glibc", "musl", "macos", "ios", "android", "freebsd", "netbsd", "openbsd", "dragonfly", "windows"


class VersionsStruct(Struct):
    """`struct lexicon_versions`."""

    _fields_ = [(name, VersionStruct) for name in VERSIONS_OF]


class PartStruct(Struct):
    """`struct lexicon_part`."""

    _fields_ = [("start", c_size_t), ("end", c_size_t)]


class MeaningStruct(Struct):
    """`struct lexicon_meaning`."""

    _fields_ = [("dialect", c_uint32), ("status", c_uint32), ("triple", TripleStruct), ("_note", c_char_p)]
    triple: TripleStruct
    _note: Optional[bytes]

    @property
    def note(self) -> Optional[str]:
        """The level of the machine, or why there is no triple."""
        return None if self._note is None else self._note.decode()


class FindingStruct(Struct):
    """`struct lexicon_finding`."""

    _fields_ = [("word", PartStruct), ("part", PartStruct), ("status", c_uint32), ("_names", c_void_p),
                ("_names_size", c_size_t), ("_kept", c_size_t)]
    word: PartStruct
    part: PartStruct

    def suggestion(self, text: bytes) -> Optional[str]:
        """What was perhaps meant by the part of the text, or None."""
        names = ctypes.string_at(self._names, self._names_size) if self._names else None
        return None if names is None else (names + text[self.part.end - self._kept:self.part.end]).decode()


# What loads a library, whose calls don't release the interpreter lock. PyPy has only the other one.
_load_file = getattr(ctypes, "PyDLL", ctypes.CDLL)


def _load() -> Tuple[str, ctypes.CDLL]:
    # Not by `ctypes.util.find_library`, which runs the compilers that it finds on the path.
    installed = {"darwin": f"libtarget_lexicon.{_CALLS_VERSION}.dylib", "win32": "target_lexicon.dll"}.get(
        sys.platform, _NAME)
    name = _PACKAGE_FILE if os.path.exists(_PACKAGE_FILE) else os.environ.get("TARGET_LEXICON_LIBRARY") or installed
    try:
        return name, _load_file(name)
    except OSError as error:
        raise ImportError(
            f"target_lexicon needs the shared library libtarget_lexicon {_CALLS_VERSION}: in the package as "
            f"{_PACKAGE_FILE}, which can't be within a zip archive, as the file that the variable "
            f"TARGET_LEXICON_LIBRARY names, or where the loader finds {_NAME} ({error})") from None


#: The file or the name by which the library was loaded, and the library.
LIBRARY_PATH, _LIBRARY = _load()
# The same library, whose calls release that lock: for those that answer for a text of any length.
_RELEASING = ctypes.CDLL(LIBRARY_PATH)


def _declare(name: str, *arguments: Any, result: Any = c_uint32, library: ctypes.CDLL = _LIBRARY) -> Callable[..., Any]:
    try:
        call = library[name]
    except AttributeError:
        raise ImportError(f"{LIBRARY_PATH} isn't libtarget_lexicon {_CALLS_VERSION}: it doesn't have {name}") from None
    call.argtypes = list(arguments)
    call.restype = result
    return _or_memory_error(call)


def _or_memory_error(call: Callable[..., Any]) -> Callable[..., Any]:
    """The call. All its arguments are of its types, so that `ctypes` only fails to convert one if there is no
    memory."""
    def checked(*values: Any) -> Any:
        try:
            return call(*values)
        except ctypes.ArgumentError:
            raise MemoryError from None
    return checked


def _writing(name: str, *arguments: Any) -> Callable[..., Any]:
    """A call that writes a string into a buffer, which follows these arguments. It returns the string, which has no
    zero byte, or None if there is none."""
    call = _declare(name, *arguments, c_void_p, c_size_t, _SIZE)

    def written(*values: Any) -> Optional[str]:
        out = TextBuffer()
        status = call(*values, out, FIRST_SIZE, None)
        if status == TOO_SMALL:
            length = c_size_t()
            call(*values, None, 0, length)
            out = ctypes.create_string_buffer(length.value + 1)
            status = call(*values, out, length.value + 1, None)
        if status == OK:
            return out.value.decode()
        if status not in _WITHOUT_STRING:
            check(status)
        return None
    return written


def undeclared(name: str) -> Callable[..., int]:
    """A call that takes its arguments as they are: each must be a value of `ctypes`."""
    return _or_memory_error(_load_file(LIBRARY_PATH)[name])


_TRIPLE, _ERROR, _SIZE = POINTER(TripleStruct), POINTER(ErrorStruct), POINTER(c_size_t)

_version: Callable[[], bytes] = _declare("lexicon_version", result=c_char_p)
_host: Callable[[], bytes] = _declare("lexicon_host", result=c_char_p)
parse = _declare("lexicon_parse", c_char_p, c_size_t, _TRIPLE, _ERROR)
explain = _declare("lexicon_explain", c_char_p, c_size_t, _TRIPLE, POINTER(SourcesStruct), _ERROR)
settle = _declare("lexicon_settle", _TRIPLE)
settle_lines = _declare("lexicon_settle_lines", c_char_p, c_size_t, c_void_p, c_size_t, _SIZE, library=_RELEASING)
comes_back: Callable[[TripleStruct], bool] = _declare("lexicon_comes_back", _TRIPLE, result=c_bool)
equal = _declare("lexicon_equal", _TRIPLE, _TRIPLE, result=c_bool)
same_target: Callable[[TripleStruct, TripleStruct], bool] = _declare("lexicon_same_target", _TRIPLE, _TRIPLE,
                                                                     result=c_bool)
facts = _declare("lexicon_facts", _TRIPLE, POINTER(FactsStruct), c_size_t)
printed: Callable[[TripleStruct], str] = _writing("lexicon_print", _TRIPLE)
llvm_target: Callable[[TripleStruct], str] = _writing("lexicon_llvm_target", _TRIPLE)
multiarch_tuple: Callable[[TripleStruct], Optional[str]] = _writing("lexicon_multiarch_tuple", _TRIPLE)
rustc_cfg: Callable[[TripleStruct], str] = _writing("lexicon_rustc_cfg", _TRIPLE)
read = _declare("lexicon_read", c_uint32, c_char_p, c_size_t, _TRIPLE, _ERROR)
_NAMED = c_void_p, c_size_t, _SIZE, POINTER(c_char_p)
_write_versioned = _declare("lexicon_write_versioned", c_uint32, _TRIPLE, POINTER(VersionsStruct), *_NAMED)
complete = _declare("lexicon_complete", _TRIPLE, c_uint32)
_translate = _declare("lexicon_translate", c_uint32, c_char_p, c_size_t, c_uint32, POINTER(VersionsStruct), c_uint32,
                      c_void_p, c_size_t, _SIZE, _ERROR)
_change = _writing("lexicon_changes", c_char_p, c_size_t, c_size_t, POINTER(PartStruct))
_meanings, readers = (_declare(f"lexicon_{name}", c_char_p, c_size_t, POINTER(MeaningStruct), c_size_t, _SIZE)
                      for name in ("meanings", "readers"))
_targets, _check = (_declare(f"lexicon_{name}", c_char_p, c_size_t, POINTER(struct), c_size_t, _SIZE,
                             library=_RELEASING)
                    for name, struct in (("targets", PartStruct), ("check", FindingStruct)))
_number = _declare("lexicon_number", c_uint32, c_char_p, c_size_t, POINTER(c_uint32))
_error_text = _writing("lexicon_error_text", c_char_p, c_size_t, _ERROR)
suggestion: Callable[[bytes, int, ErrorStruct], Optional[str]] = _writing("lexicon_suggestion", c_char_p, c_size_t,
                                                                          _ERROR)
vendor_suggestion: Callable[[TripleStruct], Optional[str]] = _writing("lexicon_vendor_suggestion", _TRIPLE)
_OfName = Callable[[int, bytes, int], Optional[str]]
name_suggestion: _OfName = _writing("lexicon_name_suggestion", c_uint32, c_char_p, c_size_t)
note: _OfName = _writing("lexicon_note", c_uint32, c_char_p, c_size_t)
# The name of the value of a field with this number, or None if there is none.
name: Callable[[int, int], Optional[bytes]] = _declare("lexicon_name", c_uint32, c_uint32, result=c_char_p)

#: The target that the library was built for.
HOST = _host().decode()
#: The version of the library, and the commit that it was built from if that is known.
LIBRARY_VERSION = _version().decode()
if not LIBRARY_VERSION.startswith(f"{_CALLS_VERSION}."):
    raise ImportError(f"{LIBRARY_PATH} isn't libtarget_lexicon {_CALLS_VERSION}: its version is {LIBRARY_VERSION}")


def _writes_whole_errors() -> bool:
    """Whether an error of the library has the size of one here, which two builds of a version below 1 needn't have."""
    errors, size = (ErrorStruct * 2)(), ctypes.sizeof(ErrorStruct)
    ctypes.memset(errors, 255, 2 * size)
    parse(b"", 0, TripleStruct(), errors[0])
    return bytes(errors)[size - 1:size + 1] == b"\0\xff"


if not _writes_whole_errors():
    raise ImportError(f"{LIBRARY_PATH} is of another build than this package, whose errors have another size: build "
                      "both of one commit")


class LibraryError(RuntimeError):
    """The library gave a status that it shouldn't. It and this package don't go together."""

    __module__ = "target_lexicon"


def check(status: int) -> None:
    """Raises an error if the status isn't 0."""
    if status != OK:
        raise LibraryError(f"{LIBRARY_PATH}: unexpected status {status}")


def error_line(status: int, part: str) -> str:
    """The line of an error: what was expected, and the part that was refused, which may have any character."""
    return f"{_error_text(None, 0, ErrorStruct(status)).partition(chr(10))[0]}{part}"


def reason(dialect: int, text: bytes) -> Optional[str]:
    """Why a name of a dialect has no triple, or None if it has one, or if it is no name."""
    error = ErrorStruct()
    read(dialect, text, len(text), TripleStruct(), error)
    return error.reason


def write(dialect: int, triple: TripleStruct, versions: Optional[VersionsStruct] = None) -> Tuple[
    Optional[str], Optional[str]]:
    """The name of a triple in a dialect, which has at most 36 bytes; or else why there is none, and what would help."""
    out, why = TextBuffer(), c_char_p()
    status = _write_versioned(dialect, triple, versions, out, FIRST_SIZE, None, why)
    if status == OK:
        return out.value.decode(), None
    if why.value is None:
        check(status)
    return None, (why.value or b"").decode()


def translate(text: bytes, from_dialect: int, libc: int, versions: Optional[VersionsStruct],
              to_dialect: int) -> Tuple[int, str, Optional[str]]:
    """The status, and the name in another dialect, which has at most 36 bytes, if the status is 0; or else why there is
    none."""
    out, error = TextBuffer(), ErrorStruct()
    return _translate(from_dialect, text, len(text), libc, versions, to_dialect, out, FIRST_SIZE, None,
                      error), out.value.decode(), error.reason


def meanings(text: ctypes.Array[c_char], call: Callable[..., int] = _meanings) -> Sequence[MeaningStruct]:
    """What a text means to each that has it as a name, or to the `readers` of what is no triple. The triples are within
    the text."""
    found, count = (MeaningStruct * MAX_MEANINGS)(), c_size_t()
    check(call(text, len(text), found, MAX_MEANINGS, count))
    return found[:count.value]


def changes(text: bytes) -> Iterator[Tuple[int, int, str]]:
    """The range in bytes of each part that is read as other names, and these names."""
    for number in itertools.count():
        part = PartStruct()
        names = _change(text, len(text), number, part)
        if names is None:
            return
        yield part.start, part.end, names


def targets(text: bytes) -> Iterator[Tuple[int, int]]:
    """The range in bytes of each target in a text."""
    # Most texts have fewer, and are then read once.
    return ((it.start, it.end) for it in _each_of(_targets, PartStruct, text, len(text) // 16 + 1))


def findings(text: bytes) -> Sequence[FindingStruct]:
    """What is wrong in a text, or isn't understood."""
    found: Sequence[FindingStruct] = _each_of(_check, FindingStruct, text, 16)
    return found


def _each_of(call: Callable[..., int], struct: Type[Struct], text: bytes, size: int) -> Sequence[Any]:
    """What a call writes into an array, for which this size is tried first."""
    count = c_size_t(size)
    while True:
        size = count.value
        parts = (struct * size)()
        status = call(text, len(text), parts, size, count)
        if status != TOO_SMALL:
            check(status)
            return parts[:count.value]


def number(field: int, text: bytes) -> Tuple[int, int]:
    """The status, and the number of the value of the field that the string is, if the status is 0."""
    found = c_uint32()
    return _number(field, text, len(text), found), found.value


def check_names(field: int, names: Sequence[str]) -> None:
    """Raises an ImportError unless the library has these names in the field, and no others."""
    if name(field, len(names) - 1) != names[-1].encode() or name(field, len(names)) is not None:
        raise ImportError(f"{LIBRARY_PATH} has other names than this package, so they don't go together")
