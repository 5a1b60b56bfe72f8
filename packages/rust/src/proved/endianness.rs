// @generated: erased from crates/lexicon_fields/src/endianness.rt by tools/erase. Don't edit it here.
//! Byte orders.

/// The order of the bytes of a number in memory.
///
/// # Examples
///
/// ```
/// use target_lexicon::{Architecture, Endianness};
///
/// assert_eq!(Architecture::X86_64.endianness(), Ok(Endianness::Little));
/// ```
#[derive(Clone, Copy, Debug, PartialEq, Eq, Hash)]
pub enum Endianness {
    /// The least significant byte comes first.
    Little,
    /// The most significant byte comes first.
    Big,
}

impl Endianness {
    /// The name of the byte order.
    pub(crate) const fn name(self) -> &'static str {
        match self {
            Endianness::Little => "little",
            Endianness::Big => "big",
        }
    }
}
