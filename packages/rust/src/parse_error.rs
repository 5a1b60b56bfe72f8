//! Why a string doesn't parse as a triple.
use crate::proved::{refusal_prefix, Field};
use crate::ParseErrorExt as _;
use alloc::string::String;
use core::fmt;

/// Why a string doesn't parse as a triple: the first part that has no place, and the field that was expected there.
///
/// # Examples
///
/// ```
/// use target_lexicon::{ParseError, Triple};
///
/// let error = "x86_64-unknown-foo".parse::<Triple>().unwrap_err();
/// assert_eq!(error, ParseError::UnrecognizedOperatingSystem("foo".to_string()));
/// assert_eq!(error.to_string(), "Unrecognized operating system: foo");
/// ```
#[derive(Clone, Debug, PartialEq, Eq)]
pub enum ParseError {
    /// The first part is not an architecture.
    UnrecognizedArchitecture(String),
    /// After the architecture, the part is no vendor and no later field.
    UnrecognizedVendor(String),
    /// After the vendor, the part is no operating system and no later field.
    UnrecognizedOperatingSystem(String),
    /// After the operating system, the part is no environment and no later field.
    UnrecognizedEnvironment(String),
    /// After the environment, the part is no binary format.
    UnrecognizedBinaryFormat(String),
    /// A part follows the binary format.
    UnrecognizedField(String),
}

impl ParseError {
    /// The error for a part that is refused where this field was expected; `None` is no field.
    pub(crate) fn new(expected: Option<Field>, part: String) -> ParseError {
        match expected {
            Some(Field::Architecture) => ParseError::UnrecognizedArchitecture(part),
            Some(Field::Vendor) => ParseError::UnrecognizedVendor(part),
            Some(Field::OperatingSystem) => ParseError::UnrecognizedOperatingSystem(part),
            Some(Field::Environment) => ParseError::UnrecognizedEnvironment(part),
            Some(Field::BinaryFormat) => ParseError::UnrecognizedBinaryFormat(part),
            None => ParseError::UnrecognizedField(part),
        }
    }
}

impl fmt::Display for ParseError {
    fn fmt(&self, f: &mut fmt::Formatter<'_>) -> fmt::Result {
        f.write_str(refusal_prefix(self.expected()))?;
        f.write_str(self.part())
    }
}
