// @generated: erased from crates/lexicon_fields/src/binary_format.rt by tools/erase. Don't edit it here.
//! The binary formats.

#[cfg(feature = "alloc")]
use alloc::borrow::Cow;
use core::fmt;
use core::str::FromStr;

/// The format of object files.
///
/// # Examples
///
/// ```
/// use target_lexicon::{BinaryFormat, TripleRef};
///
/// let triple = TripleRef::from_str("x86_64-pc-windows-gnu").unwrap();
/// assert_eq!(triple.binary_format, BinaryFormat::Coff);
/// ```
#[non_exhaustive]
#[derive(Clone, Copy, Debug, PartialEq, Eq, Hash)]
pub enum BinaryFormat {
    /// A format that isn't known.
    Unknown,
    /// ELF, of most systems like Unix.
    Elf,
    /// COFF, the format of Windows.
    Coff,
    /// Mach-O, Apple's format.
    Macho,
    /// WebAssembly.
    Wasm,
    /// XCOFF, the format of AIX.
    Xcoff,
}

impl BinaryFormat {
    /// The name. It is always borrowed.
    ///
    /// # Examples
    ///
    /// ```
    /// assert_eq!(target_lexicon::BinaryFormat::Elf.into_str(), "elf");
    /// ```
    #[inline]
    #[cfg(feature = "alloc")]
    pub fn into_str(self) -> Cow<'static, str> {
        Cow::Borrowed(self.name())
    }

    /// The name.
    pub(crate) const fn name(self) -> &'static str {
        match self {
            BinaryFormat::Unknown => "unknown",
            BinaryFormat::Elf => "elf",
            BinaryFormat::Coff => "coff",
            BinaryFormat::Macho => "macho",
            BinaryFormat::Wasm => "wasm",
            BinaryFormat::Xcoff => "xcoff",
        }
    }
}

impl FromStr for BinaryFormat {
    type Err = ();

    #[inline]
    fn from_str(s: &str) -> Result<BinaryFormat, ()> {
        BinaryFormat::from_str(s)
    }
}

impl fmt::Display for BinaryFormat {
    fn fmt(&self, f: &mut fmt::Formatter<'_>) -> fmt::Result {
        f.write_str(self.name())
    }
}
