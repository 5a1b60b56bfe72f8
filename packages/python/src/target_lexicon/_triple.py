"""The triple."""
from __future__ import annotations

import ctypes
import enum
import functools
import operator
from contextlib import suppress
from struct import Struct
from typing import Any, Callable, Dict, Mapping, Optional, Sequence, Tuple, Type, Union, final

from . import _library, _names
from ._dialects import NO_DIALECT, dialect_number, libc_number
from ._errors import ParseError, encoded, refusal
from ._facts import Facts, FactsOfTriple
from ._fields import CustomVendor, FieldValue
from ._named import Immutable, NamedValue, shown
from ._names import FIELDS, ChosenLibc, ChosenLibcName, Dialect, DialectName
from ._values import Architecture, BinaryFormat, Environment, OperatingSystem, Vendor

#: Major, minor and patch.
Version = Tuple[int, int, int]

# The values by number.
_ARCHITECTURES: Tuple[Architecture, ...] = tuple(Architecture)
_VENDORS: Tuple[Vendor, ...] = tuple(Vendor)
_SYSTEMS: Tuple[OperatingSystem, ...] = tuple(OperatingSystem)
_ENVIRONMENTS: Tuple[Environment, ...] = tuple(Environment)
_FORMATS: Tuple[BinaryFormat, ...] = tuple(BinaryFormat)

for _field, _values in enumerate((_ARCHITECTURES, _VENDORS, _SYSTEMS, _ENVIRONMENTS, _FORMATS)):
    _library.check_names(_field, [str(it) for it in _values])

_LARGEST_VERSION = (65535, 255, 255)
# The numbers of a struct, without its pointer and its size; and the same ones as bytes in their order, except those of
# the version.
_numbers_of: Callable[[_library.TripleStruct], Tuple[int, ...]] = Struct("@H7BH").unpack_from
_ordered_bytes: Callable[..., bytes] = Struct(">H7BH").pack


class Keep(enum.Enum):
    """`KEEP` is the argument of `Triple.replace` for what stays as it is."""

    KEEP = "keep"

    def __repr__(self) -> str:
        return self.name


_KEEP = Keep.KEEP


@final
@functools.total_ordering
class Triple(FactsOfTriple, Immutable):
    """A target triple such as `x86_64-unknown-linux-gnu`.

    >>> triple = Triple("arm64-apple-macosx13.2")
    >>> str(triple), triple.architecture, triple.version, triple.pointer_width
    ('aarch64-apple-macosx13.2.0', Architecture.AARCH64, (13, 2, 0), 64)

    A string that is refused raises a `ParseError`, anything but a `str` or a triple a `TypeError`. A triple is
    immutable and hashable. Triples are equal by the values of their fields, and ordered by their printed strings, then
    by the fields; in strings, ios17 comes before ios9. No class derives from this one.
    """

    # The struct of C, and the memory that a custom vendor is in; then what is kept once somebody has asked: the facts,
    # the printed string, the string whose order is that of triples, and the hash, which isn't set before.
    __slots__ = ("_struct", "_owner", "_facts", "_printed", "_order_of_triple", "_hash", "__weakref__")
    _struct: _library.TripleStruct
    _owner: Optional[ctypes.Array[ctypes.c_char]]
    _printed: Optional[str]
    _order_of_triple: Optional[str]
    _hash: int
    __match_args__ = ("architecture", "vendor", "operating_system", "environment", "binary_format", "version")

    def __new__(cls, text: Union[str, Triple]) -> Triple:
        if isinstance(text, Triple):
            return text
        utf8 = text.encode() if type(text) is str and text.isascii() else encoded(text, "the text of a triple")
        struct, error = _library.TripleStruct(), _library.ErrorStruct()
        if _library.parse(utf8, len(utf8), struct, error):
            raise refusal(text, utf8, error)
        owner = None
        if struct.custom_vendor is not None:
            # The struct points into the argument. Parsed again, it points into memory that the triple owns.
            owner = ctypes.create_string_buffer(utf8, len(utf8))
            _library.check(_library.parse(owner, len(utf8), struct, error))
        return _triple_of(struct, owner)

    def __init_subclass__(cls, **arguments: Any) -> None:
        raise TypeError("Triple is final: no class derives from it")

    @classmethod
    def parse(cls, text: Union[str, Triple]) -> Triple:
        """The same as `Triple(text)`."""
        return cls(text)

    @classmethod
    def read(cls, text: str, dialect: Union[Dialect, DialectName, None] = None) -> Triple:
        """The triple that a name of another tool means. The tool is a `Dialect`, or its name; none is guessed.

        >>> Triple.read("linux/arm64", Dialect.OCI), Triple.read("armhf", "debian")
        (Triple('aarch64-unknown-linux'), Triple('armv7-unknown-linux-gnueabihf'))

        Without a dialect the string is spelled like a triple, as clang takes it after `-target`:

        >>> Triple.read("x86_64-w64-mingw32"), Triple.read("amd64-unknown-freebsd13.2")
        (Triple('x86_64-pc-windows-gnu'), Triple('x86_64-unknown-freebsd'))

        What a name doesn't state is unknown. A name that the dialect doesn't have raises a `ParseError`, whose
        `suggestion` is the nearest one. So does a name that no triple means; its `reason` says why. A dialect that
        there isn't raises another ValueError.
        """
        number = NO_DIALECT if dialect is None else dialect_number(dialect)
        utf8 = encoded(text, "the name of a target")
        owner = ctypes.create_string_buffer(utf8, len(utf8))
        struct, error = _library.TripleStruct(), _library.ErrorStruct()
        if _library.read(number, owner, len(utf8), struct, error) != _names.OK:
            raise refusal(text, utf8, error, dialect)
        return _triple_of(struct, owner)

    @classmethod
    def from_fields(
        cls,
        architecture: Union[Architecture, str] = Architecture.UNKNOWN,
        vendor: Union[Vendor, CustomVendor, str] = Vendor.UNKNOWN,
        operating_system: Union[OperatingSystem, str] = OperatingSystem.UNKNOWN,
        environment: Union[Environment, str] = Environment.UNKNOWN,
        binary_format: Union[BinaryFormat, str, None] = None,
        version: Optional[Sequence[int]] = None,
    ) -> Triple:
        """The triple with these fields, as members or by their names. The binary format None is the one that the other
        fields imply.

        >>> Triple.from_fields(Architecture.X86_64, operating_system=OperatingSystem.DARWIN, version=[23, 6])
        Triple('x86_64-unknown-darwin23.6.0')

        A version is a tuple or list of one to three numbers. A system that has no version raises a ValueError if there
        is one.
        """
        if not isinstance(vendor, (Vendor, CustomVendor)):
            if not isinstance(vendor, str) or isinstance(vendor, NamedValue):
                raise TypeError(f"vendor must be of type Vendor, CustomVendor or str, not {type(vendor).__name__}")
            vendor = Vendor.parse(vendor)
        struct = _library.TripleStruct(
            _number(architecture, Architecture, "architecture"),
            vendor.number,
            _number(operating_system, OperatingSystem, "operating_system"),
            _number(environment, Environment, "environment"),
        )
        owner = None
        if isinstance(vendor, CustomVendor):
            text = vendor.text.encode()
            owner = ctypes.create_string_buffer(text, len(text))
            struct.custom_vendor, struct.custom_vendor_size = ctypes.addressof(owner), len(text)
        facts = _facts_of(struct)
        full = _full_version(version)
        if full is not None:
            if not facts.is_like_darwin:
                raise ValueError(f"the operating system {operating_system} has no version")
            struct.has_version = 1
            struct.major, struct.minor, struct.patch = full
        is_implied = binary_format is None
        struct.binary_format = facts.implied_format if is_implied else _number(
            binary_format, BinaryFormat, "binary_format")
        return _triple_of(struct, owner)

    @classmethod
    def from_dict(cls, values: Mapping[str, Any]) -> Triple:
        """The triple of the fields in a dictionary, such as one that `to_dict` gave, or that was read from JSON.

        >>> Triple.from_dict({"architecture": "x86_64", "operating_system": "ios", "version": "17.1"})
        Triple('x86_64-unknown-ios17.1.0')

        The fields are names, and the version is as it is printed; what is left out is as in `from_fields`, and the
        other answers of `to_dict` aren't looked at. Any other key is a ValueError, as is a name that no value has.
        """
        if not isinstance(values, Mapping):
            raise TypeError(f"the fields must be a mapping, not {type(values).__name__}")
        unknown = [it for it in values if it not in Facts._fields]
        if unknown:
            words = ", ".join(shown(str(it)) for it in unknown)
            raise ValueError(f"a triple has no {words}: its fields are {', '.join(FIELDS)} and version")
        architecture, vendor, system, environment = (values.get(it, "unknown") for it in FIELDS[:4])
        form, version = values.get("binary_format"), values.get("version")
        if isinstance(version, str):
            if not all(it.isascii() and it.isdigit() for it in version.split(".")):
                raise ValueError(f"a version is numbers with dots between them, not {version!a}")
            version = [*map(int, version.split("."))]
        return cls.from_fields(architecture, vendor, system, environment, form, version)

    @classmethod
    def host(cls) -> Triple:
        """The triple that this Python runs as: the target that the library was built for, which it has loaded.

        So a 32-bit interpreter on a 64-bit machine has a 32-bit architecture, and one on musl has musl.
        """
        return cls(_library.HOST)

    @property
    def architecture(self) -> Architecture:
        """The architecture, in some families with a sub-architecture."""
        return _ARCHITECTURES[self._struct.architecture]

    @property
    def vendor(self) -> Union[Vendor, CustomVendor]:
        """The vendor."""
        if self._owner is None:
            return _VENDORS[self._struct.vendor]
        return CustomVendor._of(self._vendor_text().decode())

    @property
    def operating_system(self) -> OperatingSystem:
        """The operating system, without its version."""
        return _SYSTEMS[self._struct.operating_system]

    @property
    def environment(self) -> Environment:
        """The environment: the ABI, or the C library."""
        return _ENVIRONMENTS[self._struct.environment]

    @property
    def binary_format(self) -> BinaryFormat:
        """The format of object files that the string gives, or that upstream takes as implied."""
        return _FORMATS[self._struct.binary_format]

    @property
    def version(self) -> Optional[Version]:
        """The version of the operating system: major, minor and patch. None if the string has none."""
        it = self._struct
        return (it.major, it.minor, it.patch) if it.has_version else None

    @property
    def has_custom_vendor(self) -> bool:
        """Whether the vendor is a `CustomVendor`."""
        return self._owner is not None

    @property
    def llvm_target(self) -> str:
        """The string that LLVM and clang take for the target: rustc's `llvm-target` for each of its targets that
        parses.

        >>> Triple("aarch64-apple-darwin").llvm_target, Triple("riscv64gc-unknown-linux-gnu").llvm_target
        ('arm64-apple-macosx', 'riscv64-unknown-linux-gnu')
        """
        return _library.llvm_target(self._struct)

    @property
    def multiarch_tuple(self) -> Optional[str]:
        """Debian's multiarch tuple, as `dpkg-architecture -qDEB_HOST_MULTIARCH` prints it. None if Debian has no
        architecture for the triple.

        >>> Triple("i686-unknown-linux-gnu").multiarch_tuple, Triple("x86_64-unknown-linux").multiarch_tuple
        ('i386-linux-gnu', None)
        """
        return _library.multiarch_tuple(self._struct)

    @property
    def rustc_cfg(self) -> Dict[str, str]:
        """The values of rustc's cfg options, as Cargo's variables such as `CARGO_CFG_TARGET_OS` have them.

        >>> cfg = Triple("wasm32-unknown-emscripten").rustc_cfg
        >>> cfg["target_os"], cfg["target_family"], "unix" in cfg, "windows" in cfg
        ('emscripten', 'unix,wasm', True, False)

        Of several families there is a comma between them, and an option without a value, such as `unix`, is an empty
        string.
        """
        found: Dict[str, str] = {}
        for line in _library.rustc_cfg(self._struct).splitlines():
            name, _, value = line.partition("=")
            value = value.strip('"')
            found[name] = f"{found[name]},{value}" if name in found else value
        return found

    @property
    def canonical(self) -> str:
        """The printed string of the canonical form, which is a key for the target."""
        return str(self.settle())

    def to_dict(self) -> Dict[str, Union[str, int, bool, None]]:
        """All answers, with the names that `target-lexicon facts --json` has.

        >>> it = Triple("arm64-apple-ios17").to_dict()
        >>> it["version"], it["long_size"], it["canonical"]
        ('17.0.0', 8, 'aarch64-apple-ios17.0.0')
        """
        from ._columns import facts_of

        return facts_of(self)._asdict()

    def name_in(self, dialect: Union[Dialect, DialectName],
                **versions: Optional[Sequence[int]]) -> Optional[str]:
        """The name that another tool has for the target, or None if it has none. The tool is a `Dialect`, or its name.

        >>> triple = Triple("aarch64-unknown-linux-gnu")
        >>> triple.name_in(Dialect.DEBIAN), triple.name_in("oci"), Triple("avr-unknown-unknown").name_in("go")
        ('arm64', 'linux/arm64', None)
        >>> versions = {"glibc": (2, 17), "macos": (11, 0)}
        >>> triple.name_in("python", **versions), Triple("aarch64-apple-darwin").name_in("python", **versions)
        ('manylinux_2_17_aarch64', 'macosx_11_0_arm64')

        The vendor doesn't matter, nor what the dialect doesn't name. A version, of one or two numbers, is that of
        glibc, musl, macos, ios, android (its API level), freebsd, netbsd, openbsd, dragonfly or windows (its build),
        which names of Python state, and some of Zig, such as `aarch64-macos.11.0`. None is no version, and one of
        another system or C library than the triple's never applies. That of glibc or of musl, if there isn't one of
        both, says the C library of a triple of Linux that states none.
        """
        return _library.write(dialect_number(dialect), self._struct, versions_struct(versions))[0]

    def reason_without_name(self, dialect: Union[Dialect, DialectName],
                            **versions: Optional[Sequence[int]]) -> Optional[str]:
        """Why `name_in` has no name for these arguments, and what would help. None if it has one.

        >>> triple = Triple("aarch64-unknown-linux")
        >>> triple.reason_without_name("debian"), triple.reason_without_name("debian", glibc=(2, 17))
        ('it depends on the C library: say glibc or musl', None)
        >>> Triple("avr-unknown-none").reason_without_name("go"), triple.reason_without_name("go")
        ('the tool has no name for this machine on any system', None)
        """
        return _library.write(dialect_number(dialect), self._struct, versions_struct(versions))[1]

    def complete(self, libc: Union[ChosenLibc, ChosenLibcName]) -> Triple:
        """The triple with the usual environment of a C library of its system, Linux or Windows, if it states none; any
        other one as it is.

        >>> Triple.read("linux/arm/v7", "oci").complete("glibc")
        Triple('armv7-unknown-linux-gnueabihf')
        >>> Triple("aarch64-unknown-linux").complete(ChosenLibc.MUSL)
        Triple('aarch64-unknown-linux-musl')
        """
        return self._changed(_library.complete, libc_number(libc))

    def settle(self) -> Triple:
        """The canonical form of the triple, which comes back. So its string is a key for the target.

        >>> one, other = Triple("armv7-nintendo-horizon"), Triple("armv7-nintendo-horizon-newlib")
        >>> one == other, one.settle() == other.settle()
        (False, True)
        """
        return self._changed(_library.settle)

    def comes_back(self) -> bool:
        """Whether the printed string parses as this triple.

        >>> Triple("armv6k-nintendo-horizon-gnu").comes_back()
        False
        """
        return _library.comes_back(self._struct)

    def same_target(self, other: Triple) -> bool:
        """Whether both triples have the same canonical form.

        >>> Triple("armv7-nintendo-horizon-newlib").same_target(Triple("armv7-nintendo-horizon"))
        True
        """
        if not isinstance(other, Triple):
            raise TypeError(f"the other triple must be a Triple, not {type(other).__name__}")
        return _library.same_target(self._struct, other._struct)

    def replace(
        self,
        *,
        architecture: Union[Architecture, str, Keep] = _KEEP,
        vendor: Union[Vendor, CustomVendor, str, Keep] = _KEEP,
        operating_system: Union[OperatingSystem, str, Keep] = _KEEP,
        environment: Union[Environment, str, Keep] = _KEEP,
        binary_format: Union[BinaryFormat, str, Keep, None] = _KEEP,
        version: Union[Sequence[int], Keep, None] = _KEEP,
    ) -> Triple:
        """The triple with other values in the fields that are given.

        A binary format that the fields imply becomes the one that the new ones imply; another one stays, unless it is
        given. None is the implied one. A new operating system has no version, unless that is given. An environment is
        one value, so `MUSL` instead of `GNUEABIHF` loses the hard floats; `MUSLEABIHF` keeps them. A field is a member
        or its name, an architecture an alias too, such as `arm64`.

        >>> linux = Triple("x86_64-unknown-linux-gnu")
        >>> linux.replace(environment=Environment.MUSL), linux.replace(environment="musl")
        (Triple('x86_64-unknown-linux-musl'), Triple('x86_64-unknown-linux-musl'))
        >>> linux.replace(operating_system=OperatingSystem.WINDOWS)
        Triple('x86_64-unknown-windows-gnu')
        """
        if binary_format is _KEEP:
            binary_format = None if self.binary_format is self.implied_format else self.binary_format
        if version is _KEEP:
            version = self.version if operating_system is _KEEP else None
        return Triple.from_fields(
            self.architecture if architecture is _KEEP else architecture,
            self.vendor if vendor is _KEEP else vendor,
            self.operating_system if operating_system is _KEEP else operating_system,
            self.environment if environment is _KEEP else environment,
            binary_format,
            version,
        )

    def __replace__(self, /, **fields: Any) -> Triple:
        """What `copy.replace` calls: the same as `replace`."""
        return self.replace(**fields)

    def _changed(self, call: Callable[..., int], *arguments: int) -> Triple:
        """What a call makes of the triple."""
        struct = _library.TripleStruct.from_buffer_copy(self._struct)
        _library.check(call(struct, *arguments))
        return self if _numbers_of(struct) == _numbers_of(self._struct) else _triple_of(struct, self._owner)

    def _ask(self) -> _library.FactsStruct:
        """The facts, which are kept."""
        self._facts = facts = _facts_of(self._struct)
        return facts

    def _vendor_text(self) -> bytes:
        """The string of the custom vendor, which is within `_owner`, or is the library's own if a name of another tool
        means it."""
        struct = self._struct
        # `ctypes.string_at` would be an ArgumentError if there is no memory.
        return b"" if self._owner is None else (ctypes.c_char * struct.custom_vendor_size).from_address(
            struct.custom_vendor or 0).raw

    def _ordered(self) -> str:
        """What triples are ordered by, which is kept: the printed string, which has no zero byte, then the numbers of
        the fields.

        Where both are equal, so are versions and custom vendors, which are printed.
        """
        self._order_of_triple = order = f"{str(self)}\0{_ordered_bytes(*_numbers_of(self._struct)).decode('latin-1')}"
        return order

    def __str__(self) -> str:
        text = self._printed
        if text is None:
            self._printed = text = _library.printed(self._struct)
        return text

    def __format__(self, form: str) -> str:
        return format(str(self), form)

    def __repr__(self) -> str:
        if self.comes_back():
            return f"Triple({str(self)!r})"
        return f"Triple.from_fields({', '.join(map(repr, self.__reduce__()[1]))})"

    def __eq__(self, other: object) -> bool:
        if not isinstance(other, Triple):
            return NotImplemented
        return self is other or _numbers_of(self._struct) == _numbers_of(other._struct) and self._vendor_text(
            ) == other._vendor_text()

    def __hash__(self) -> int:
        try:
            return self._hash
        except AttributeError:
            self._hash = found = hash((_numbers_of(self._struct), self._vendor_text()))
            return found

    def __lt__(self, other: Triple) -> bool:
        try:
            one, two = self._order_of_triple, other._order_of_triple
        except AttributeError:
            return NotImplemented
        if one is None or two is None:
            one, two = one or self._ordered(), two or other._ordered()
        return one < two

    def __reduce__(self) -> Tuple[Any, ...]:
        return Triple.from_fields, (self.architecture, self.vendor, self.operating_system, self.environment,
                                    self.binary_format, self.version)


def _triple_of(struct: _library.TripleStruct, owner: Optional[ctypes.Array[ctypes.c_char]]) -> Triple:
    """The triple of a struct, whose custom vendor, if it has one, is within the owner."""
    self = object.__new__(Triple)
    self._struct = struct
    self._owner = owner if struct.vendor == _library.CUSTOM_VENDOR else None
    self._facts = None
    self._printed = self._order_of_triple = None
    return self


def _facts_of(struct: _library.TripleStruct) -> _library.FactsStruct:
    facts = _library.FactsStruct()
    _library.check(_library.facts(struct, facts, ctypes.sizeof(facts)))
    return facts


def _number(value: Any, of: Type[FieldValue], name: str) -> int:
    """The number of a value of this type, or of the one that has this name; anything else is a TypeError."""
    if isinstance(value, of):
        return value.number
    if not isinstance(value, str) or isinstance(value, NamedValue):
        raise TypeError(f"{name} must be of type {of.__name__} or str, not {type(value).__name__}")
    try:
        return of(value).number
    except ValueError:
        if of is Architecture:
            with suppress(ParseError):
                return Architecture.parse(value).number  # an alias, such as arm64
        meant = ""
        with suppress(ParseError):
            first = (ParseError(value, name).suggestion or value).partition("-")[0]
            meant = f"; did you mean {of.parse(first).value!r}?"
        raise ValueError(f"no {name} has the name {value!a}{meant}") from None


def versions_struct(versions: Mapping[str, Optional[Sequence[int]]]) -> Optional[_library.VersionsStruct]:
    """The versions that names state, each of two numbers, by their C libraries and systems; None if there are none."""
    struct = _library.VersionsStruct()
    for name, version in versions.items():
        if name not in _library.VERSIONS_OF:
            raise TypeError(f"there are no versions of {name!a}: they are of {', '.join(_library.VERSIONS_OF)}")
        major, minor, patch = _full_version(version) or (0, 0, 0)
        if patch:
            raise ValueError(f"a name states one or two numbers of a version, not {version!a}")
        setattr(struct, name, _library.VersionStruct(major, minor))
    return struct if versions else None


def _full_version(version: Optional[Sequence[int]]) -> Optional[Version]:
    """The version with all three numbers, of which what is missing is 0. Only a tuple or a list is one."""
    if version is None:
        return None
    if not isinstance(version, (tuple, list)):
        raise TypeError(f"a version must be a tuple of numbers such as (11, 0), not {type(version).__name__}")
    for number in version:
        if not hasattr(number, "__index__"):
            raise TypeError(f"the numbers of a version must be int, not {type(number).__name__}")
    numbers = tuple(map(operator.index, version))
    if not 1 <= len(numbers) <= 3:
        raise ValueError(f"a version has one to three numbers, not {len(numbers)}")
    major, minor, patch = full = numbers + (0,) * (3 - len(numbers))
    if any(not 0 <= number <= largest for number, largest in zip(full, _LARGEST_VERSION)):
        raise ValueError(f"the numbers of a version are from 0 to {_LARGEST_VERSION}, not {numbers}")
    return major, minor, patch
