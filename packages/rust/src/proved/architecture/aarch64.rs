// @generated: erased from crates/lexicon_fields/src/architecture/aarch64.rt by tools/erase. Don't edit it here.
//! The 64-bit Arm architectures.

use crate::proved::endianness::Endianness;
use crate::proved::pointer_width::PointerWidth;
#[cfg(feature = "alloc")]
use alloc::borrow::Cow;
use core::fmt;
use core::str::FromStr;

/// A 64-bit Arm architecture.
///
/// # Examples
///
/// ```
/// use target_lexicon::{Architecture, Aarch64Architecture};
///
/// let architecture: Architecture = "aarch64_be".parse().unwrap();
/// assert_eq!(architecture, Architecture::Aarch64(Aarch64Architecture::Aarch64be));
/// ```
#[non_exhaustive]
#[derive(Clone, Copy, Debug, PartialEq, Eq, Hash)]
pub enum Aarch64Architecture {
    /// Little-endian.
    Aarch64,
    /// Big-endian.
    Aarch64be,
}

impl Aarch64Architecture {
    /// Whether this architecture uses the Thumb instruction set: none does.
    ///
    /// # Examples
    ///
    /// ```
    /// assert!(!target_lexicon::Aarch64Architecture::Aarch64.is_thumb());
    /// ```
    #[inline]
    pub const fn is_thumb(self) -> bool {
        false
    }

    /// The width of a pointer: 64 bits on each. In a triple, the environment can make it 32.
    ///
    /// # Examples
    ///
    /// ```
    /// use target_lexicon::{Aarch64Architecture, PointerWidth};
    ///
    /// assert_eq!(Aarch64Architecture::Aarch64.pointer_width(), PointerWidth::U64);
    /// ```
    #[inline]
    pub const fn pointer_width(self) -> PointerWidth {
        PointerWidth::U64
    }

    /// The byte order.
    ///
    /// # Examples
    ///
    /// ```
    /// use target_lexicon::{Aarch64Architecture, Endianness};
    ///
    /// assert_eq!(Aarch64Architecture::Aarch64be.endianness(), Endianness::Big);
    /// ```
    #[inline]
    pub const fn endianness(self) -> Endianness {
        match self {
            Aarch64Architecture::Aarch64 => Endianness::Little,
            Aarch64Architecture::Aarch64be => Endianness::Big,
        }
    }

    /// The name. It is always borrowed.
    ///
    /// # Examples
    ///
    /// ```
    /// assert_eq!(target_lexicon::Aarch64Architecture::Aarch64be.into_str(), "aarch64_be");
    /// ```
    #[inline]
    #[cfg(feature = "alloc")]
    pub fn into_str(self) -> Cow<'static, str> {
        Cow::Borrowed(self.name())
    }

    #[inline]
    pub(crate) const fn name(self) -> &'static str {
        match self {
            Aarch64Architecture::Aarch64 => "aarch64",
            Aarch64Architecture::Aarch64be => "aarch64_be",
        }
    }
}

impl FromStr for Aarch64Architecture {
    type Err = ();

    #[inline]
    fn from_str(s: &str) -> Result<Aarch64Architecture, ()> {
        Aarch64Architecture::from_str(s)
    }
}

impl fmt::Display for Aarch64Architecture {
    #[inline]
    fn fmt(&self, f: &mut fmt::Formatter<'_>) -> fmt::Result {
        f.write_str(self.name())
    }
}
