// @generated: erased from crates/lexicon_fields/src/vendor.rt by tools/erase. Don't edit it here.
//! The vendors, of which a custom one owns its string or has a static one.

use crate::proved::known_vendor::KnownVendor;
use crate::proved::vendor_ref::VendorRef;
#[cfg(feature = "alloc")]
use alloc::{boxed::Box, string::String};
use core::fmt;
use core::hash::{Hash, Hasher};

/// A vendor other than the known ones, as its string.
///
/// # Examples
///
/// ```
/// use target_lexicon::{CustomVendor, Vendor};
///
/// assert_ne!(Vendor::Custom(CustomVendor::Static("pc")), Vendor::Pc);
/// ```
#[cfg_attr(not(feature = "alloc"), non_exhaustive)]
#[derive(Debug, Clone)]
pub enum CustomVendor {
    /// An owned string.
    #[cfg(feature = "alloc")]
    Owned(Box<String>),
    /// A static string.
    Static(&'static str),
}

impl CustomVendor {
    /// The string.
    ///
    /// # Examples
    ///
    /// ```
    /// assert_eq!(target_lexicon::CustomVendor::Static("acme").as_str(), "acme");
    /// ```
    pub fn as_str(&self) -> &str {
        match self {
            #[cfg(feature = "alloc")]
            CustomVendor::Owned(text) => text.as_str(),
            CustomVendor::Static(text) => text,
        }
    }
}

impl PartialEq for CustomVendor {
    fn eq(&self, other: &Self) -> bool {
        self.as_str() == other.as_str()
    }
}

impl Eq for CustomVendor {}

impl Hash for CustomVendor {
    fn hash<H: Hasher>(&self, state: &mut H) {
        self.as_str().hash(state);
    }
}

/// The vendor of a target.
///
/// # Examples
///
/// ```
/// use target_lexicon::{CustomVendor, Vendor};
///
/// let acme = Vendor::Custom(CustomVendor::Static("acme"));
/// assert_eq!((Vendor::Apple.as_str(), acme.as_str()), ("apple", "acme"));
/// ```
#[non_exhaustive]
#[derive(Debug, Clone, PartialEq, Eq, Hash)]
pub enum Vendor {
    /// A vendor that the string doesn't say, or none.
    Unknown,
    /// AMD.
    Amd,
    /// Apple.
    Apple,
    /// Espressif, of the ESP32.
    Espressif,
    /// No vendor: a target that is tried out.
    Experimental,
    /// Fortanix, of enclaves of Intel SGX.
    Fortanix,
    /// IBM.
    Ibm,
    /// Kyoto Microcomputer, of the system SOLID.
    Kmc,
    /// Nintendo.
    Nintendo,
    /// NVIDIA.
    Nvidia,
    /// Computers that are compatible with IBM's PC.
    Pc,
    /// The unikernel Rumprun.
    Rumprun,
    /// Sun Microsystems, now Oracle.
    Sun,
    /// Microsoft's Universal Windows Platform.
    Uwp,
    /// Wind River Systems.
    Wrs,
    /// Any other vendor. Parsing admits a string as one if it begins with a letter from `a` to `z`, has only such
    /// letters, digits, `_` and `.`, and parses as no known vendor and no other field. Code can make a value with any
    /// string.
    Custom(CustomVendor),
}

impl Vendor {
    /// The name. That of a custom vendor is its string.
    ///
    /// # Examples
    ///
    /// ```
    /// assert_eq!(target_lexicon::Vendor::Nvidia.as_str(), "nvidia");
    /// ```
    #[inline]
    pub fn as_str(&self) -> &str {
        match self {
            Vendor::Custom(custom) => custom.as_str(),
            known => known.known_name(),
        }
    }

    /// The name of a known vendor. By itself, rustc makes a table of it, which takes less time than a jump.
    #[inline(never)]
    fn known_name(&self) -> &'static str {
        match self.as_vendor_ref() {
            VendorRef::Known(known) => known.name(),
            VendorRef::Custom(_) => KnownVendor::Unknown.name(),
        }
    }

    /// Whether parsing can produce the vendor: it is known, or custom with a string that [`Vendor::Custom`] admits.
    pub(crate) fn is_plain(&self) -> bool {
        self.as_vendor_ref().is_plain()
    }
}

impl fmt::Display for Vendor {
    fn fmt(&self, f: &mut fmt::Formatter<'_>) -> fmt::Result {
        f.write_str(self.as_str())
    }
}
