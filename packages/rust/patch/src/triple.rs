//! A triple of the other package's fields, with upstream's methods.
use crate::{
    Architecture, BinaryFormat, CDataModel, CallingConvention, Endianness, Environment,
    OperatingSystem, ParseError, PointerWidth, Vendor,
};
use core::fmt;
use core::str::FromStr;
use verified::{TripleRef, VendorRef};

/// A target triple.
#[derive(Clone, Debug, PartialEq, Eq, Hash)]
#[allow(missing_docs)]
pub struct Triple {
    pub architecture: Architecture,
    pub vendor: Vendor,
    pub operating_system: OperatingSystem,
    pub environment: Environment,
    pub binary_format: BinaryFormat,
}

/// The triple of the target that the crate is built for.
// Of what a call returns, rustc wouldn't know that nothing of it must be dropped, which a constant can't.
pub const HOST: Triple = Triple {
    architecture: verified::HOST.architecture,
    vendor: verified::HOST.vendor,
    operating_system: verified::HOST.operating_system,
    environment: verified::HOST.environment,
    binary_format: verified::HOST.binary_format,
};

impl<'a> From<&'a Triple> for TripleRef<'a> {
    /// The same triple, borrowed, for the calls that upstream lacks.
    // None is into a type of upstream's: with a second one rustc wouldn't know what `Triple::from(string.parse()?)`
    // parses.
    #[inline]
    fn from(triple: &'a Triple) -> Self {
        TripleRef {
            architecture: triple.architecture,
            vendor: VendorRef::from(&triple.vendor),
            operating_system: triple.operating_system,
            environment: triple.environment,
            binary_format: triple.binary_format,
        }
    }
}

impl Triple {
    /// This is [`HOST`].
    pub const fn host() -> Self {
        HOST
    }

    /// The triple of which each field is unknown.
    #[inline]
    pub fn unknown() -> Self {
        owned(TripleRef::unknown())
    }

    /// The byte order, or `Err` if it is unknown.
    #[inline]
    pub fn endianness(&self) -> Result<Endianness, ()> {
        TripleRef::from(self).endianness().map_err(|_| ())
    }

    /// The width of a pointer, or `Err` if it is unknown.
    #[inline]
    pub fn pointer_width(&self) -> Result<PointerWidth, ()> {
        TripleRef::from(self).pointer_width().map_err(|_| ())
    }

    /// The calling convention, or `Err` if it is unknown.
    #[inline]
    pub fn default_calling_convention(&self) -> Result<CallingConvention, ()> {
        TripleRef::from(self)
            .default_calling_convention()
            .map_err(|_| ())
    }

    /// The data model of C, or `Err` if it is unknown.
    #[inline]
    pub fn data_model(&self) -> Result<CDataModel, ()> {
        TripleRef::from(self).data_model().map_err(|_| ())
    }
}

#[inline]
fn owned(triple: TripleRef<'_>) -> Triple {
    Triple {
        architecture: triple.architecture,
        vendor: triple.vendor.to_vendor(),
        operating_system: triple.operating_system,
        environment: triple.environment,
        binary_format: triple.binary_format,
    }
}

impl fmt::Display for Triple {
    fn fmt(&self, f: &mut fmt::Formatter<'_>) -> fmt::Result {
        TripleRef::from(self).upstream().fmt(f)
    }
}

impl FromStr for Triple {
    type Err = ParseError;

    fn from_str(text: &str) -> Result<Self, ParseError> {
        match TripleRef::from_str(text) {
            Ok(triple) => Ok(owned(triple)),
            Err(refusal) => Err(refusal.to_error()),
        }
    }
}

/// A triple whose default is [`HOST`].
#[derive(Clone, Debug, PartialEq, Eq, Hash)]
pub struct DefaultToHost(pub Triple);

impl Default for DefaultToHost {
    fn default() -> Self {
        Self(HOST)
    }
}

/// A triple whose default is [`Triple::unknown`].
#[derive(Clone, Debug, PartialEq, Eq, Hash)]
pub struct DefaultToUnknown(pub Triple);

impl Default for DefaultToUnknown {
    fn default() -> Self {
        Self(Triple::unknown())
    }
}
