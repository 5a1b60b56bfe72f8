//! Triples as numbers. Functions that return a wide value are inlined where that saves a hundredth of parsing and
//! printing, or of asking.
use crate::error::Fault;
use crate::numbers::{
    architecture_at, architecture_number, binary_format_at, binary_format_number, environment_at, environment_number,
    known_vendor_at, operating_system_number,
};
use crate::values::{operating_system_at, vendor_number, CUSTOM_VENDOR};
use core::str;
use target_lexicon::OperatingSystemExt as _;
use target_lexicon::{DeploymentTarget, TripleRef, VendorRef};

/// The numbers of a triple's values.
#[repr(C)]
#[derive(Clone, Copy)]
pub struct TripleNumbers {
    pub architecture: u16,
    /// 255 for a custom vendor.
    pub vendor: u8,
    /// The number of the system without its version.
    pub operating_system: u8,
    pub environment: u8,
    pub binary_format: u8,
    /// Whether the system has a version: 1 or 0. Without one the next three are 0, and aren't read.
    pub has_version: u8,
    pub minor: u8,
    pub patch: u8,
    pub major: u16,
}

/// A triple as C has it: the numbers, and the string of a custom vendor, which is empty for a known one.
#[derive(Clone, Copy)]
pub(crate) struct NumberedTriple<'a> {
    pub numbers: TripleNumbers,
    pub custom_vendor: &'a [u8],
}

impl<'a> From<TripleRef<'a>> for NumberedTriple<'a> {
    #[inline(always)]
    fn from(triple: TripleRef<'a>) -> NumberedTriple<'a> {
        // Each case by itself: otherwise a mask makes the zeros, of numbers without a value, as valgrind says.
        match triple.operating_system.version() {
            Some(version) => numbers_with(triple, 1, version),
            None => numbers_with(triple, 0, DeploymentTarget { major: 0, minor: 0, patch: 0 }),
        }
    }
}

fn numbers_with(triple: TripleRef<'_>, has_version: u8, version: DeploymentTarget) -> NumberedTriple<'_> {
    NumberedTriple {
        numbers: TripleNumbers {
            architecture: architecture_number(triple.architecture),
            vendor: vendor_number(triple.vendor),
            operating_system: operating_system_number(triple.operating_system),
            environment: environment_number(triple.environment),
            binary_format: binary_format_number(triple.binary_format),
            has_version,
            minor: version.minor,
            patch: version.patch,
            major: version.major,
        },
        custom_vendor: match triple.vendor {
            VendorRef::Custom(text) => text.as_bytes(),
            VendorRef::Known(_) => b"",
        },
    }
}

impl<'a> NumberedTriple<'a> {
    /// The triple of these numbers, or the fault of the first field that has one.
    #[inline(always)]
    pub(crate) fn triple(&self) -> Result<TripleRef<'a>, Fault> {
        let numbers = &self.numbers;
        let architecture = architecture_at(numbers.architecture).ok_or(Fault::NoSuchValue)?;
        let vendor = match numbers.vendor {
            CUSTOM_VENDOR => custom_vendor(self.custom_vendor)?,
            number => VendorRef::Known(known_vendor_at(number).ok_or(Fault::NoSuchValue)?),
        };
        let version = match numbers.has_version {
            0 => None,
            1 => Some(DeploymentTarget { major: numbers.major, minor: numbers.minor, patch: numbers.patch }),
            _ => return Err(Fault::NoSuchValue),
        };
        Ok(TripleRef {
            architecture,
            vendor,
            operating_system: operating_system_at(numbers.operating_system, version).ok_or(Fault::NoSuchValue)?,
            environment: environment_at(numbers.environment).ok_or(Fault::NoSuchValue)?,
            binary_format: binary_format_at(numbers.binary_format).ok_or(Fault::NoSuchValue)?,
        })
    }
}

/// The custom vendor of a string, if the string parses as one. Few triples have one: where it isn't inlined, the facts
/// of a triple take 3 % fewer instructions.
#[inline(never)]
fn custom_vendor(bytes: &[u8]) -> Result<VendorRef<'_>, Fault> {
    let vendor = str::from_utf8(bytes).map(VendorRef::Custom);
    vendor.ok().filter(VendorRef::is_plain).ok_or(Fault::NoSuchVendor)
}
