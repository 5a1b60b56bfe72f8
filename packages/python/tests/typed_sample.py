"""A caller that a type checker reads: each name has its type without a cast."""
from typing import Dict, List, Optional, Tuple, Union

import target_lexicon
from target_lexicon import (Architecture, ChosenLibc, ChosenLibcName, CLibrary, CustomVendor, Dialect, DialectName,
                            Endianness, Errors, ParseError, Triple, Vendor, Version)

triple = Triple("x86_64-linux")
vendor: Union[Vendor, CustomVendor] = triple.vendor
order: Optional[Endianness] = triple.endianness
version: Optional[Version] = triple.version
numbers: Optional[Tuple[int, int, int]] = version
architecture: Architecture = Architecture.parse("arm64")
known: Union[Vendor, CustomVendor] = Vendor.parse(vendor.value)
changed: Triple = triple.replace(architecture=architecture, vendor=known, binary_format=None)
width: Optional[int] = changed.long_size or triple.pointer_width
image: Optional[str] = Triple.read("amd64", "debian").name_in(Dialect.OCI)
package: str = target_lexicon.translate("linux/amd64", "oci", Dialect.DEBIAN, "glibc")
library: Optional[CLibrary] = triple.complete(ChosenLibc.GLIBC).c_library
parts: List[str] = [it.names for it in target_lexicon.changes(package)]
column: List[Optional[str]] = ["avr", None]
keys: List[Optional[str]] = target_lexicon.settle_all(column)
widths: List[Optional[int]] = [it.pointer_width for it in target_lexicon.facts_all(["avr"], errors="coerce")]
names: List[Triple] = sorted({triple: "ld"})
lines: List[str] = [f"{name}: {source}" for name, source in target_lexicon.explain("x86_64-linux").sources]


def keys_in(targets: List[str], source: DialectName, libc: ChosenLibcName, errors: Errors) -> List[Optional[str]]:
    return target_lexicon.settle_all([target_lexicon.translate(it, source, "rust", libc) for it in targets], errors)


def described(error: ParseError) -> Dict[str, Union[str, int, None]]:
    return {"field": error.field, "line": error.line, "start": error.start, "reason": error.reason}
