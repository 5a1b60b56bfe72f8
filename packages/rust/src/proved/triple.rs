// @generated: erased from crates/target_lexicon/src/triple.rt by tools/erase. Don't edit it here.
//! The type [`Triple`].

use crate::proved::{Architecture, BinaryFormat, Environment, OperatingSystem, Vendor};

/// A target triple, such as `x86_64-unknown-linux-gnu`. It has five fields, of which its printed string shows some.
///
/// # Examples
///
/// ```
/// use target_lexicon::{Architecture, OperatingSystem, PointerWidth, Triple, Vendor};
///
/// let mut triple = Triple::unknown();
/// triple.architecture = Architecture::X86_64;
/// triple.vendor = Vendor::Pc;
/// triple.operating_system = OperatingSystem::Windows;
/// assert_eq!(triple.pointer_width(), Ok(PointerWidth::U64));
/// ```
#[derive(Debug, PartialEq, Eq, Hash, Clone)]
pub struct Triple {
    /// The instruction set, with its sub-architecture if it has one.
    pub architecture: Architecture,
    /// The maker of the platform, or a name for a variant of it.
    pub vendor: Vendor,
    /// The operating system. `None_` is a target without one.
    pub operating_system: OperatingSystem,
    /// The ABI or C library on the system. `Unknown` on most systems that have only one.
    pub environment: Environment,
    /// The format of object files. The other fields mostly determine it.
    pub binary_format: BinaryFormat,
}

impl Triple {
    /// The triple whose five fields are `Unknown`.
    ///
    /// # Examples
    ///
    /// ```
    /// use target_lexicon::{Triple, Vendor};
    ///
    /// assert_eq!(Triple::unknown().vendor, Vendor::Unknown);
    /// ```
    pub const fn unknown() -> Self {
        Triple {
            architecture: Architecture::Unknown,
            vendor: Vendor::Unknown,
            operating_system: OperatingSystem::Unknown,
            environment: Environment::Unknown,
            binary_format: BinaryFormat::Unknown,
        }
    }
}
