//! Conversions, which allocate nothing. None is into a type of upstream's by `From`: with a second one rustc would no
//! longer know what `Vendor::from(string.parse()?)` parses.
use crate::{
    DeploymentTarget, Field, KnownVendor, Refusal, TextPart, Triple, TripleRef, Vendor, VendorRef,
};
use core::fmt;
use core::str::FromStr;

impl<'a> From<&'a Triple> for TripleRef<'a> {
    /// The same triple, borrowed. Nothing is allocated.
    #[inline]
    fn from(triple: &'a Triple) -> Self {
        triple.as_triple_ref()
    }
}

impl<'a> From<&TripleRef<'a>> for TripleRef<'a> {
    /// A copy. So a call that takes `impl Into<TripleRef>` takes either type of triple by reference.
    #[inline]
    fn from(triple: &TripleRef<'a>) -> Self {
        *triple
    }
}

impl<'a> TryFrom<&'a str> for TripleRef<'a> {
    type Error = Refusal<'a>;

    /// The triple that a string parses as: the same as [`TripleRef::from_str`].
    #[inline]
    fn try_from(text: &'a str) -> Result<Self, Refusal<'a>> {
        TripleRef::from_str(text)
    }
}

impl<'a> TryFrom<&'a str> for VendorRef<'a> {
    type Error = Refusal<'a>;

    /// The vendor that a string parses as: the same as [`VendorRef::from_str`].
    #[inline]
    fn try_from(text: &'a str) -> Result<Self, Refusal<'a>> {
        VendorRef::from_str(text)
    }
}

impl<'a> From<&'a Vendor> for VendorRef<'a> {
    /// The same vendor, borrowed. Nothing is allocated.
    #[inline]
    fn from(vendor: &'a Vendor) -> Self {
        vendor.as_vendor_ref()
    }
}

impl From<KnownVendor> for VendorRef<'_> {
    #[inline]
    fn from(known: KnownVendor) -> Self {
        VendorRef::Known(known)
    }
}

impl PartialEq<Triple> for TripleRef<'_> {
    /// Whether the values are the same. Equal ones have the same hash.
    // Not the other way round: if a `Triple` were compared with two types, rustc wouldn't know what
    // `triple == string.parse()?` parses.
    #[inline]
    fn eq(&self, other: &Triple) -> bool {
        *self == other.as_triple_ref()
    }
}

/// The string is no version.
///
/// # Examples
///
/// ```
/// use target_lexicon::{DeploymentTarget, ParseVersionError};
///
/// assert_eq!("14.1".parse(), Ok(DeploymentTarget { major: 14, minor: 1, patch: 0 }));
/// let error: ParseVersionError = "14.256".parse::<DeploymentTarget>().unwrap_err();
/// assert_eq!(error.to_string(), "Not a version: it is one to three numbers, at most 65535.255.255");
/// ```
#[derive(Clone, Copy, Debug, PartialEq, Eq, Hash)]
#[non_exhaustive]
pub struct ParseVersionError;

impl fmt::Display for ParseVersionError {
    #[inline]
    fn fmt(&self, f: &mut fmt::Formatter<'_>) -> fmt::Result {
        f.write_str("Not a version: it is one to three numbers, at most 65535.255.255")
    }
}

impl FromStr for DeploymentTarget {
    type Err = ParseVersionError;

    /// The version that a string such as `10.15.7` or `14` parses as, as after the name of a system.
    #[inline]
    fn from_str(text: &str) -> Result<Self, ParseVersionError> {
        DeploymentTarget::from_text(text).ok_or(ParseVersionError)
    }
}

impl<'a> VendorRef<'a> {
    /// The vendor that the string parses as: a known one, or a custom one that borrows the string, if
    /// [`Vendor::Custom`] admits it.
    ///
    /// # Errors
    ///
    /// [`Refusal`] for every other string.
    ///
    /// # Examples
    ///
    /// ```
    /// use target_lexicon::VendorRef;
    ///
    /// assert_eq!(VendorRef::from_str("acme"), Ok(VendorRef::Custom("acme")));
    /// assert_eq!(VendorRef::from_str("linux").unwrap_err().to_string(), "Unrecognized vendor: linux");
    /// ```
    #[inline]
    pub fn from_str(text: &'a str) -> Result<VendorRef<'a>, Refusal<'a>> {
        match VendorRef::from_text(text) {
            Ok(vendor) => Ok(vendor),
            Err(()) => Err(Refusal {
                expected: Some(Field::Vendor),
                part: TextPart { text, start: 0 },
            }),
        }
    }
}
