//! Why a string is refused, as numbers.
use crate::names::c_reason;
use crate::values::field_at;
use crate::{
    Status, NAME_WITHOUT_TRIPLE, NEEDS_C_LIBRARY, NO_SUCH_VALUE, NO_SUCH_VENDOR, TRIPLE_WITHOUT_NAME, UNKNOWN_NAME,
};
use core::ptr::null;
use target_lexicon::{Field, Refusal};
use target_names::{NameError, TranslateError, WriteError};

/// `struct lexicon_error`: why a string is refused, the range of the refused part in bytes, and of a name why it isn't
/// translated.
#[repr(C)]
#[derive(Clone, Copy)]
pub struct TextError {
    /// 1 to 5 where a value of the first to the fifth field was expected, 6 where nothing was.
    pub status: u32,
    pub start: usize,
    pub end: usize,
    /// A string with a zero byte after it, or null.
    pub reason: *const u8,
}

/// The status of a part that is refused where nothing was expected.
const UNRECOGNIZED_FIELD: Status = 6;

impl TextError {
    /// An error of the call, and of no part.
    pub(crate) fn without_part(status: Status) -> TextError {
        TextError { status, start: 0, end: 0, reason: null() }
    }

    /// The error of a whole name.
    pub(crate) fn of_name(error: TranslateError, name: &str) -> TextError {
        let (status, reason) = match error {
            TranslateError::Read(NameError::Unknown) => (UNKNOWN_NAME, null()),
            TranslateError::Read(NameError::WithoutTriple(why)) => (NAME_WITHOUT_TRIPLE, c_reason(why)),
            TranslateError::Write(why @ (WriteError::NeedsCLibrary | WriteError::NeedsWindowsAbi)) => {
                (NEEDS_C_LIBRARY, c_reason(why.reason()))
            }
            TranslateError::Write(why) => (TRIPLE_WITHOUT_NAME, c_reason(why.reason())),
        };
        TextError { status, start: 0, end: name.len(), reason }
    }
}

impl From<Refusal<'_>> for TextError {
    fn from(refusal: Refusal<'_>) -> TextError {
        let range = refusal.range();
        let status = refusal.expected.map_or(UNRECOGNIZED_FIELD, |field| 1 + field as Status);
        TextError { status, start: range.start, end: range.end, reason: null() }
    }
}

impl From<TextError> for Status {
    fn from(error: TextError) -> Status {
        error.status
    }
}

/// What was expected where a refusal has this status, if one has. `None` in it is no field.
pub(crate) fn expected_at(status: Status) -> Option<Option<Field>> {
    match status {
        UNRECOGNIZED_FIELD => Some(None),
        _ => field_at(status.checked_sub(1)?).map(Some),
    }
}

/// Why there is no triple of some numbers.
#[derive(Clone, Copy)]
pub(crate) enum Fault {
    /// A number is that of no value.
    NoSuchValue,
    /// No string parses as the custom vendor.
    NoSuchVendor,
}

impl From<Fault> for Status {
    fn from(fault: Fault) -> Status {
        match fault {
            Fault::NoSuchValue => NO_SUCH_VALUE,
            Fault::NoSuchVendor => NO_SUCH_VENDOR,
        }
    }
}
