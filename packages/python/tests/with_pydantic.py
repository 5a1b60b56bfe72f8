"""A model of pydantic 2 with triples and values: from strings and to strings, in Python and in JSON, and refusals."""
from typing import Dict, Union

from target_lexicon import Architecture, CustomVendor, Triple, Vendor
from pydantic import BaseModel, ValidationError


class Release(BaseModel):
    target: Triple
    vendor: Union[Vendor, CustomVendor] = Vendor.PC
    sizes: Dict[Triple, Architecture] = {}


triple, strings = Triple("arm64-linux"), {"target": "aarch64-unknown-linux", "vendor": "acme",
                                          "sizes": {"aarch64-unknown-linux": "arm"}}
release = Release(target=triple, vendor="acme", sizes={"arm64-linux": "arm"})
assert (release.target, type(release.vendor), release.sizes) == (triple, CustomVendor, {triple: Architecture.ARM})
assert Release(target="avr", vendor="pc").vendor is Vendor.PC
assert (release.model_dump(mode="json"), release.model_copy(deep=True)) == (strings, release)
assert Release.model_validate_json(release.model_dump_json()) == Release(**strings) == release
for mode in "validation", "serialization":
    assert Release.model_json_schema(mode=mode)["properties"]["target"]["type"] == "string"
for given, types in (({"target": "x86_64-pc-linx"}, ["value_error"]), ({"target": b"avr"}, ["string_type"]),
                     ({"target": None}, ["string_type"]),
                     ({"target": "avr", "vendor": "ACME"}, ["enum", "value_error"])):
    try:
        raise AssertionError(Release(**given))
    except ValidationError as error:
        assert [it["type"] for it in error.errors()] == types, given
print("all well")
