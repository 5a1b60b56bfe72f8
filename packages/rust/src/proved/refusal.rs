// @generated: erased from crates/target_lexicon/src/refusal.rt by tools/erase. Don't edit it here.
//! Why a string doesn't parse as a triple, with the refused part borrowed from it.

use crate::proved::display::put;
use crate::proved::explanation::TextPart;
use crate::proved::Field;
use core::fmt;
use core::ops::Range;

/// Why a string doesn't parse as a triple: the first part that has no place, and the field that was expected there. The
/// part is borrowed from the string, so that nothing is allocated.
///
/// # Examples
///
/// ```
/// use target_lexicon::{Field, TripleRef};
///
/// let refusal = TripleRef::from_str("x86_64-unknown-foo").unwrap_err();
/// assert_eq!((refusal.expected, refusal.part.text), (Some(Field::OperatingSystem), "foo"));
/// let refusal = TripleRef::from_str("x86_64-linux-gnu-elf-foo").unwrap_err();
/// assert_eq!(refusal.expected, None);
/// ```
#[non_exhaustive]
#[derive(Clone, Copy, Debug, PartialEq, Eq, Hash)]
pub struct Refusal<'a> {
    /// The field that was expected: this one or a later one. After a binary format none was, and it is `None`.
    pub expected: Option<Field>,
    /// The refused part.
    pub part: TextPart<'a>,
}

impl Refusal<'_> {
    /// The range of the refused part in the string, in bytes.
    ///
    /// # Examples
    ///
    /// ```
    /// use target_lexicon::TripleRef;
    ///
    /// let refusal = TripleRef::from_str("x86_64-unknown-foo").unwrap_err();
    /// assert_eq!(refusal.range(), 15..18);
    /// ```
    #[must_use]
    pub const fn range(&self) -> Range<usize> {
        self.part.range()
    }

    /// Writes the line of the refusal, without a line feed, at the front of the buffer if it fits there, and returns
    /// its length. If it doesn't fit, the buffer is unchanged. Nothing is allocated.
    #[inline]
    #[doc(hidden)]
    pub fn write_to(&self, out: &mut [u8]) -> usize {
        let prefix = refusal_prefix(self.expected);
        let part = self.part.text;
        let length = prefix.len() + part.len();
        if length <= out.len() {
            let at = put(out, 0, prefix.as_bytes());
            put(out, at, part.as_bytes());
        }
        length
    }
}

/// The words of a refusal's line before the part, such as `Unrecognized vendor: `.
pub fn refusal_prefix(expected: Option<Field>) -> &'static str {
    match expected {
        Some(Field::Architecture) => "Unrecognized architecture: ",
        Some(Field::Vendor) => "Unrecognized vendor: ",
        Some(Field::OperatingSystem) => "Unrecognized operating system: ",
        Some(Field::Environment) => "Unrecognized environment: ",
        Some(Field::BinaryFormat) => "Unrecognized binary format: ",
        None => "Unrecognized field: ",
    }
}

impl fmt::Display for Refusal<'_> {
    fn fmt(&self, f: &mut fmt::Formatter<'_>) -> fmt::Result {
        f.write_str(refusal_prefix(self.expected))?;
        f.write_str(self.part.text)
    }
}
