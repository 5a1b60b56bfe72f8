//! Where the fields of a triple come from in the string, as numbers.
use crate::values::is_name_in;
use target_lexicon::{Field, Source, Sources};

/// `struct lexicon_source`: where the value of a field comes from. 0 is no part of the string, 1 the part in this range
/// of bytes, 2 the other fields, and 3 the part in this range, which is another spelling than the name of the value.
#[repr(C)]
#[derive(Clone, Copy, Default)]
pub struct FieldSource {
    pub origin: u32,
    pub start: usize,
    pub end: usize,
}

/// `struct lexicon_sources`: where the value of each field comes from.
#[repr(C)]
#[derive(Clone, Copy, Default)]
pub struct FieldSources {
    pub architecture: FieldSource,
    pub vendor: FieldSource,
    pub operating_system: FieldSource,
    pub environment: FieldSource,
    pub binary_format: FieldSource,
}

fn source_numbers(field: Field, source: Source<'_>) -> FieldSource {
    match source {
        Source::NotGiven => FieldSource::default(),
        Source::Implied => FieldSource { origin: 2, ..FieldSource::default() },
        Source::Part(part) => {
            let range = part.range();
            FieldSource { origin: if is_name_in(field, part.text) { 1 } else { 3 }, start: range.start, end: range.end }
        }
    }
}

impl From<Sources<'_>> for FieldSources {
    fn from(sources: Sources<'_>) -> FieldSources {
        FieldSources {
            architecture: source_numbers(Field::Architecture, sources.architecture),
            vendor: source_numbers(Field::Vendor, sources.vendor),
            operating_system: source_numbers(Field::OperatingSystem, sources.operating_system),
            environment: source_numbers(Field::Environment, sources.environment),
            binary_format: source_numbers(Field::BinaryFormat, sources.binary_format),
        }
    }
}
