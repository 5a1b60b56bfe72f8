// @generated: erased from crates/lexicon_fields/src/vendor_ref.rt by tools/erase. Don't edit it here.
//! The vendors, of which a custom one borrows its string.

use crate::proved::known_vendor::KnownVendor;
use crate::proved::operating_system::OperatingSystem;
use crate::proved::table::fixed_row;
use crate::proved::vendor::Vendor;
use core::fmt;

/// The vendor of a target, of which a custom one borrows its string. It is copied freely and never allocates.
///
/// # Examples
///
/// ```
/// use target_lexicon::VendorRef;
///
/// assert_eq!(VendorRef::from_str("acme"), Ok(VendorRef::Custom("acme")));
/// ```
#[derive(Clone, Copy, Debug, PartialEq, Eq)]
pub enum VendorRef<'a> {
    /// A vendor that has a fixed name.
    Known(KnownVendor),
    /// Any other vendor, as its string: see [`Vendor::Custom`].
    Custom(&'a str),
}

impl<'a> VendorRef<'a> {
    /// The vendor that the string parses as: a known one, or a custom one that borrows the string, if
    /// [`Vendor::Custom`] admits it.
    ///
    /// # Errors
    ///
    /// `()` for every other string.
    #[inline(always)]
    pub(crate) fn from_text(text: &'a str) -> Result<VendorRef<'a>, ()> {
        match fixed_row(text) {
            Some(row) => match row.vendor {
                Some(known) => Ok(VendorRef::Known(known)),
                None => Err(()),
            },
            None => {
                if has_vendor_form(text) && OperatingSystem::parse_darwin_like(text).is_none() {
                    Ok(VendorRef::Custom(text))
                } else {
                    Err(())
                }
            }
        }
    }

    /// The name. That of a custom vendor is its string.
    ///
    /// # Examples
    ///
    /// ```
    /// assert_eq!(target_lexicon::VendorRef::Custom("acme").as_str(), "acme");
    /// ```
    #[must_use]
    pub const fn as_str(&self) -> &'a str {
        match *self {
            VendorRef::Known(known) => known.name(),
            VendorRef::Custom(text) => text,
        }
    }

    /// Whether parsing can produce the vendor: it is known, or custom with a string that [`Vendor::Custom`] admits.
    ///
    /// # Examples
    ///
    /// ```
    /// use target_lexicon::VendorRef;
    ///
    /// assert!(VendorRef::Custom("acme").is_plain());
    /// assert!(!VendorRef::Custom("linux").is_plain());
    /// ```
    #[must_use]
    pub fn is_plain(&self) -> bool {
        match *self {
            VendorRef::Known(_) => true,
            VendorRef::Custom(text) => match VendorRef::from_text(text) {
                Ok(VendorRef::Custom(_)) => true,
                Ok(VendorRef::Known(_)) => false,
                Err(_) => false,
            },
        }
    }

    /// Whether the vendor is a custom one.
    ///
    /// # Examples
    ///
    /// ```
    /// use target_lexicon::VendorRef;
    ///
    /// assert!(VendorRef::Custom("acme").is_custom());
    /// assert!(!VendorRef::from_str("apple").unwrap().is_custom());
    /// ```
    #[must_use]
    pub const fn is_custom(&self) -> bool {
        matches!(self, VendorRef::Custom(_))
    }
}

impl Vendor {
    /// The same vendor, borrowed.
    #[inline]
    pub(crate) fn as_vendor_ref(&self) -> VendorRef<'_> {
        match self {
            Vendor::Unknown => VendorRef::Known(KnownVendor::Unknown),
            Vendor::Amd => VendorRef::Known(KnownVendor::Amd),
            Vendor::Apple => VendorRef::Known(KnownVendor::Apple),
            Vendor::Espressif => VendorRef::Known(KnownVendor::Espressif),
            Vendor::Experimental => VendorRef::Known(KnownVendor::Experimental),
            Vendor::Fortanix => VendorRef::Known(KnownVendor::Fortanix),
            Vendor::Ibm => VendorRef::Known(KnownVendor::Ibm),
            Vendor::Kmc => VendorRef::Known(KnownVendor::Kmc),
            Vendor::Nintendo => VendorRef::Known(KnownVendor::Nintendo),
            Vendor::Nvidia => VendorRef::Known(KnownVendor::Nvidia),
            Vendor::Pc => VendorRef::Known(KnownVendor::Pc),
            Vendor::Rumprun => VendorRef::Known(KnownVendor::Rumprun),
            Vendor::Sun => VendorRef::Known(KnownVendor::Sun),
            Vendor::Uwp => VendorRef::Known(KnownVendor::Uwp),
            Vendor::Wrs => VendorRef::Known(KnownVendor::Wrs),
            Vendor::Custom(custom) => VendorRef::Custom(custom.as_str()),
        }
    }
}

impl fmt::Display for VendorRef<'_> {
    fn fmt(&self, f: &mut fmt::Formatter<'_>) -> fmt::Result {
        f.write_str(self.as_str())
    }
}

/// Whether the string begins with a lower-case letter and has only characters of a vendor.
fn has_vendor_form(s: &str) -> bool {
    match s.as_bytes().split_first() {
        None => false,
        Some((first, others)) => {
            first.is_ascii_lowercase() && others.iter().all(|byte| is_vendor_character(*byte))
        }
    }
}

fn is_vendor_character(byte: u8) -> bool {
    byte.is_ascii_lowercase() || matches!(byte, b'0'..=b'9' | b'_' | b'.')
}
