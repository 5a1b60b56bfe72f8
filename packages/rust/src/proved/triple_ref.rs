// @generated: erased from crates/target_lexicon/src/triple_ref.rt by tools/erase. Don't edit it here.
//! The type [`TripleRef`].

use crate::proved::triple::Triple;
use crate::proved::{
    Architecture, BinaryFormat, Environment, KnownVendor, OperatingSystem, VendorRef,
};

/// A target triple whose custom vendor, if it has one, borrows its string. It is copied freely, and only the calls that
/// make an owned value need an allocator. The fields are those of [`Triple`].
///
/// # Examples
///
/// ```
/// use target_lexicon::{OperatingSystem, TripleRef, VendorRef};
///
/// let triple = TripleRef::from_str("x86_64-acme-linux").unwrap();
/// assert_eq!(triple.vendor, VendorRef::Custom("acme"));
/// assert_eq!(triple.operating_system, OperatingSystem::Linux);
/// ```
#[derive(Clone, Copy, Debug, PartialEq, Eq, Hash)]
pub struct TripleRef<'a> {
    /// The instruction set, with its sub-architecture if it has one.
    pub architecture: Architecture,
    /// The maker of the platform, or a name for a variant of it.
    pub vendor: VendorRef<'a>,
    /// The operating system. `None_` is a target without one.
    pub operating_system: OperatingSystem,
    /// The ABI or C library on the system. `Unknown` on most systems that have only one.
    pub environment: Environment,
    /// The format of object files. The other fields mostly determine it.
    pub binary_format: BinaryFormat,
}

impl<'a> TripleRef<'a> {
    /// The triple whose five fields are `Unknown`.
    ///
    /// # Examples
    ///
    /// ```
    /// use target_lexicon::TripleRef;
    ///
    /// assert_eq!(TripleRef::from_str("unknown"), Ok(TripleRef::unknown()));
    /// ```
    #[must_use]
    pub const fn unknown() -> TripleRef<'a> {
        TripleRef {
            architecture: Architecture::Unknown,
            vendor: VendorRef::Known(KnownVendor::Unknown),
            operating_system: OperatingSystem::Unknown,
            environment: Environment::Unknown,
            binary_format: BinaryFormat::Unknown,
        }
    }
}

impl Triple {
    /// The same triple, borrowed.
    #[inline]
    pub(crate) fn as_triple_ref(&self) -> TripleRef<'_> {
        TripleRef {
            architecture: self.architecture,
            vendor: self.vendor.as_vendor_ref(),
            operating_system: self.operating_system,
            environment: self.environment,
            binary_format: self.binary_format,
        }
    }
}
