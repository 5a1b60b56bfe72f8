# SPDX-License-Identifier: Apache-2.0 WITH LLVM-exception
"""Target triples such as `x86_64-unknown-linux-gnu`: parsing, canonical forms, and the names of other tools.

>>> triple = Triple("wasm32-unknown-wasi")
>>> print(triple, triple.pointer_width, triple.binary_format)
wasm32-wasi 32 wasm

`Triple` has the fields, the facts and the printed string of a triple. `explain` says which part of a string gave which
field. `Triple.read` and `Triple.name_in` know the names of other tools, `translate` leads from one to another, and
`meanings` says whose name a string is. `settle_all` and `facts_all` answer for a column of targets, `targets_in` finds
those in a text, and `check` what is wrong with them.
"""
from ._columns import Errors, facts_all, settle_all
from ._errors import ParseError
from ._explain import Explanation, Origin, Source, explain
from ._facts import ArmProfile, CallingConvention, CLibrary, DataModel, Endianness, Facts, FloatAbi, Signedness
from ._fields import CustomVendor
from ._library import LIBRARY_PATH, LIBRARY_VERSION, LibraryError
from ._library import VERSION as __version__
from ._names import ChosenLibc, ChosenLibcName, Dialect, DialectName
from ._translation import (
    Change, Finding, Meaning, Target, TranslationError, changes, check, meanings, targets_in, translate,
)
from ._triple import Keep, Triple, Version
from ._values import Architecture, BinaryFormat, Environment, Family, OperatingSystem, Vendor

__all__ = [
    "LIBRARY_PATH", "LIBRARY_VERSION", "Architecture", "ArmProfile", "BinaryFormat", "CLibrary", "CallingConvention",
    "Change", "ChosenLibc", "ChosenLibcName", "CustomVendor", "DataModel", "Dialect", "DialectName", "Endianness",
    "Environment", "Errors", "Explanation", "Facts", "Family", "Finding", "FloatAbi", "Keep", "LibraryError", "Meaning",
    "OperatingSystem", "Origin", "ParseError", "Signedness", "Source", "Target", "TranslationError", "Triple", "Vendor",
    "Version", "__version__", "changes", "check", "explain", "facts_all", "meanings", "settle_all", "targets_in",
    "translate",
]
