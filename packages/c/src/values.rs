//! The numbers of values, fields, dialects and C libraries, each by an ordered list: the number is the index, from 0.
use crate::numbers::*;
use crate::text::shown;
use core::fmt::Display;
use core::str::FromStr as _;
use target_lexicon::{Architecture, BinaryFormat, DeploymentTarget, Environment, Field, OperatingSystem, VendorRef};
use target_lexicon::{Named as _, OperatingSystemExt as _};
use target_names::{ChosenLibc, Dialect, NameOf};

/// The number that says that a vendor is a custom one.
pub(crate) const CUSTOM_VENDOR: u8 = 255;

/// The number in the place of a dialect's of what only the words of a string say.
const BY_WORDS: u32 = 255;

/// The number of a vendor.
pub(crate) fn vendor_number(vendor: VendorRef<'_>) -> u8 {
    match vendor {
        VendorRef::Known(known) => known_vendor_number(known),
        VendorRef::Custom(_) => CUSTOM_VENDOR,
    }
}

/// The system of this number with this version, if it may have one.
pub(crate) fn operating_system_at(number: u8, version: Option<DeploymentTarget>) -> Option<OperatingSystem> {
    operating_system_with(number, version).filter(|system| version.is_none() || system.is_like_darwin())
}

/// The field of this number.
pub(crate) fn field_at(number: u32) -> Option<Field> {
    at(number, &[Field::Architecture, Field::Vendor, Field::OperatingSystem, Field::Environment, Field::BinaryFormat])
}

/// The dialect of this number. 0 is none: that of strings that are spelled like triples.
pub(crate) fn dialect_at(number: u32) -> Option<Option<Dialect>> {
    none_or_at(number, Dialect::ALL)
}

/// The number of whose name it is. 0 is that of strings that are spelled like triples.
pub(crate) fn name_of_number(of: NameOf) -> u32 {
    match of {
        NameOf::Dialect(dialect) => (1..).zip(Dialect::ALL).find(|it| *it.1 == dialect).map_or(0, |it| it.0),
        NameOf::Words => BY_WORDS,
        NameOf::Triple | NameOf::Spelling => 0,
    }
}

/// The C library of this number. 0 is none.
pub(crate) fn c_library_at(number: u32) -> Option<Option<ChosenLibc>> {
    use ChosenLibc::{Glibc, Gnullvm, Mingw, Msvc, Musl};
    none_or_at(number, &[Glibc, Musl, Msvc, Mingw, Gnullvm])
}

fn at<T: Copy>(number: u32, values: &[T]) -> Option<T> {
    values.get(usize::try_from(number).ok()?).copied()
}

fn none_or_at<T: Copy>(number: u32, values: &[T]) -> Option<Option<T>> {
    match number.checked_sub(1) {
        Some(index) => at(index, values).map(Some),
        None => Some(None),
    }
}

/// The number of the value that a string is in a field.
pub(crate) fn number_in(field: Field, text: &str) -> Option<u32> {
    Some(match field {
        Field::Architecture => architecture_number(Architecture::from_str(text).ok()?).into(),
        Field::Vendor => vendor_number(VendorRef::from_str(text).ok()?).into(),
        Field::OperatingSystem => operating_system_number(OperatingSystem::from_str(text).ok()?).into(),
        Field::Environment => environment_number(Environment::from_str(text).ok()?).into(),
        Field::BinaryFormat => binary_format_number(BinaryFormat::from_str(text).ok()?).into(),
    })
}

/// The name of a field's value of this number.
pub(crate) fn name_at(field: Field, number: u32) -> Option<&'static str> {
    let number = u8::try_from(number).ok()?;
    Some(match field {
        Field::Architecture => architecture_at(number.into())?.name(),
        Field::Vendor => known_vendor_at(number)?.name(),
        Field::OperatingSystem => operating_system_at(number, None)?.prefix(),
        Field::Environment => environment_at(number)?.name(),
        Field::BinaryFormat => binary_format_at(number)?.name(),
    })
}

/// Whether a string is the name of a value of a field, and not another spelling, as a special string is for all fields.
pub(crate) fn is_name_in(field: Field, text: &str) -> bool {
    match field {
        Field::Architecture => Architecture::from_str(text).map_or(false, |it| is_shown_as(&it, text)),
        Field::OperatingSystem => OperatingSystem::from_str(text).map_or(false, |it| is_shown_as(&it, text)),
        // These have no other spellings.
        Field::Vendor => VendorRef::from_str(text).is_ok(),
        Field::Environment => Environment::from_str(text).is_ok(),
        Field::BinaryFormat => BinaryFormat::from_str(text).is_ok(),
    }
}

/// Whether a value is shown as this string.
fn is_shown_as(value: &impl Display, text: &str) -> bool {
    let mut room = [0; 64];
    let size = shown(value, &mut room);
    room.get(..size) == Some(text.as_bytes())
}

#[cfg(test)]
mod tests {
    use super::*;

    #[test]
    fn each_number_is_that_of_its_value() {
        for field in (0..).map_while(field_at) {
            for (number, name) in (0..).map_while(|it| Some((it, name_at(field, it)?))) {
                assert_eq!(number_in(field, name), Some(number), "{name}");
                assert!(is_name_in(field, name));
            }
            assert!(!is_name_in(field, "armv6k-nintendo-3ds"));
        }
        assert!(!is_name_in(Field::Architecture, "arm64") && !is_name_in(Field::OperatingSystem, "ios17"));
        assert_eq!((vendor_number(VendorRef::Custom("acme")), name_at(Field::Vendor, 255)), (CUSTOM_VENDOR, None));
    }
}
