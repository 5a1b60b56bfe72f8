//! The calls that allocate.
use crate::{
    CustomVendor, KnownVendor, OperatingSystem, ParseError, Refusal, Triple, TripleRef, Vendor,
    VendorRef,
};
use alloc::borrow::Cow;
use alloc::boxed::Box;
use alloc::string::{String, ToString};
use core::str::FromStr;

impl FromStr for Vendor {
    type Err = ();

    /// The vendor that the string parses as: a known one, or a custom one, if [`Vendor::Custom`] admits the string.
    ///
    /// # Examples
    ///
    /// ```
    /// use target_lexicon::{CustomVendor, Vendor};
    ///
    /// assert_eq!("apple".parse(), Ok(Vendor::Apple));
    /// assert_eq!("acme".parse(), Ok(Vendor::Custom(CustomVendor::Static("acme"))));
    /// assert_eq!("linux".parse::<Vendor>(), Err(()));
    /// ```
    fn from_str(text: &str) -> Result<Self, ()> {
        match VendorRef::from_text(text) {
            Ok(vendor) => Ok(vendor.to_vendor()),
            Err(()) => Err(()),
        }
    }
}

impl FromStr for Triple {
    type Err = ParseError;

    /// The triple that a text parses as.
    ///
    /// # Examples
    ///
    /// ```
    /// use target_lexicon::{ParseError, Triple};
    ///
    /// let triple: Triple = "wasm32-unknown-wasi".parse().unwrap();
    /// assert_eq!(triple.to_string(), "wasm32-wasi");
    /// let error = "x86_64-foo-bar".parse::<Triple>().unwrap_err();
    /// assert_eq!(error, ParseError::UnrecognizedOperatingSystem("bar".into()));
    /// ```
    fn from_str(text: &str) -> Result<Self, ParseError> {
        match TripleRef::from_str(text) {
            Ok(triple) => Ok(triple.to_triple()),
            Err(refusal) => Err(refusal.to_error()),
        }
    }
}

impl OperatingSystem {
    /// The name. It is borrowed if the system has no version.
    ///
    /// # Examples
    ///
    /// ```
    /// use target_lexicon::OperatingSystem;
    ///
    /// assert_eq!(OperatingSystem::Linux.into_str(), "linux");
    /// let system: OperatingSystem = "ios17.0".parse().unwrap();
    /// assert_eq!(system.into_str(), "ios17.0.0");
    /// ```
    #[inline]
    pub fn into_str(self) -> Cow<'static, str> {
        match self.version() {
            None => self.prefix().into(),
            Some(_) => self.to_string().into(),
        }
    }
}

impl TripleRef<'_> {
    /// The same triple, of which a custom vendor owns a copy of its string.
    ///
    /// # Examples
    ///
    /// ```
    /// use target_lexicon::TripleRef;
    ///
    /// let triple = TripleRef::from_str("x86_64-acme-linux").unwrap();
    /// assert_eq!("x86_64-acme-linux".parse(), Ok(triple.to_triple()));
    /// ```
    #[must_use]
    pub fn to_triple(&self) -> Triple {
        Triple {
            architecture: self.architecture,
            vendor: self.vendor.to_vendor(),
            operating_system: self.operating_system,
            environment: self.environment,
            binary_format: self.binary_format,
        }
    }
}

impl VendorRef<'_> {
    /// The same vendor, of which a custom one owns a copy of its string.
    ///
    /// # Examples
    ///
    /// ```
    /// use target_lexicon::{Vendor, VendorRef};
    ///
    /// assert_eq!(VendorRef::from_str("apple").map(|it| it.to_vendor()), Ok(Vendor::Apple));
    /// ```
    #[must_use]
    #[inline]
    pub fn to_vendor(&self) -> Vendor {
        match *self {
            VendorRef::Known(known) => known_vendor(known),
            VendorRef::Custom(text) => custom_vendor(text),
        }
    }
}

// As functions of their own, these two save 1 % of the instructions of `parse`.

#[inline(never)]
fn known_vendor(known: KnownVendor) -> Vendor {
    known.to_vendor()
}

#[inline(never)]
fn custom_vendor(text: &str) -> Vendor {
    Vendor::Custom(CustomVendor::Owned(Box::new(text.into())))
}

impl Refusal<'_> {
    /// The same refusal as upstream's error, with a copy of the part.
    ///
    /// # Examples
    ///
    /// ```
    /// use target_lexicon::{Triple, TripleRef};
    ///
    /// let refusal = TripleRef::from_str("x86_64-foo-bar").unwrap_err();
    /// assert_eq!("x86_64-foo-bar".parse::<Triple>(), Err(refusal.to_error()));
    /// ```
    #[must_use]
    #[inline(never)]
    pub fn to_error(&self) -> ParseError {
        ParseError::new(self.expected, String::from(self.part.text))
    }
}
