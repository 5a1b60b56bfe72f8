// @generated: erased from crates/lexicon_fields/src/pointer_width.rt by tools/erase. Don't edit it here.
//! Pointer widths.

/// The width of a pointer in the default address space.
///
/// # Examples
///
/// ```
/// use target_lexicon::{PointerWidth, TripleRef};
///
/// let triple = TripleRef::from_str("msp430-none-elf").unwrap();
/// assert_eq!(triple.pointer_width(), Ok(PointerWidth::U16));
/// ```
#[derive(Clone, Copy, Debug, PartialEq, Eq, Hash)]
pub enum PointerWidth {
    /// 16 bits.
    U16,
    /// 32 bits.
    U32,
    /// 64 bits.
    U64,
}

impl PointerWidth {
    /// The number of bits in a pointer.
    ///
    /// # Examples
    ///
    /// ```
    /// assert_eq!(target_lexicon::PointerWidth::U32.bits(), 32);
    /// ```
    pub const fn bits(self) -> u8 {
        match self {
            PointerWidth::U16 => 16,
            PointerWidth::U32 => 32,
            PointerWidth::U64 => 64,
        }
    }

    /// The number of bytes in a pointer, of 8 bits each.
    ///
    /// # Examples
    ///
    /// ```
    /// assert_eq!(target_lexicon::PointerWidth::U32.bytes(), 4);
    /// ```
    pub const fn bytes(self) -> u8 {
        match self {
            PointerWidth::U16 => 2,
            PointerWidth::U32 => 4,
            PointerWidth::U64 => 8,
        }
    }

    /// The number of bits in a pointer, in digits.
    pub(crate) const fn name(self) -> &'static str {
        match self {
            PointerWidth::U16 => "16",
            PointerWidth::U32 => "32",
            PointerWidth::U64 => "64",
        }
    }
}
