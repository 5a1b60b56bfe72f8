//! The fields of a triple, as they are named and shown.
use std::borrow::Cow;
use target_lexicon::{Field, OperatingSystemExt as _, TripleRef, VendorRef};

/// The names that fields have in arguments and in answers.
pub const FIELDS: [(&str, Field); 5] = [
    ("architecture", Field::Architecture),
    ("vendor", Field::Vendor),
    ("operating_system", Field::OperatingSystem),
    ("environment", Field::Environment),
    ("binary_format", Field::BinaryFormat),
];

pub fn key_of(field: Field) -> Option<&'static str> {
    let mut fields = FIELDS.iter();
    fields.find(|(_, it)| *it == field).map(|(key, _)| *key)
}

pub fn canonical(triple: TripleRef<'_>) -> TripleRef<'_> {
    triple.settle().expect("a vendor that was parsed is plain")
}

pub fn version(triple: &TripleRef<'_>) -> Option<String> {
    let version = triple.operating_system.version();
    version.map(|it| it.to_string())
}

/// The name of the value of a field. That of a system is without its version.
pub fn name_of<'a>(triple: &TripleRef<'a>, field: Field) -> Cow<'a, str> {
    let name = match (field, triple.vendor) {
        (Field::Vendor, VendorRef::Custom(text)) => return text.into(),
        (Field::Architecture, _) => triple.architecture.to_string(),
        (Field::Vendor, _) => triple.vendor.to_string(),
        (Field::OperatingSystem, _) => triple.operating_system.prefix().to_string(),
        (Field::Environment, _) => triple.environment.to_string(),
        (Field::BinaryFormat, _) => triple.binary_format.to_string(),
    };
    name.into()
}
