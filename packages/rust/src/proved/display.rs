// @generated: erased from crates/target_lexicon/src/display.rt by tools/erase. Don't edit it here.
//! Printing: what is shown of a triple, as pieces, and how these are written. Functions are inlined if they return a
//! wide value, or if that saves a hundredth of printing.

use crate::proved::triple::Triple;
use crate::proved::triple_ref::TripleRef;
use crate::proved::ArmArchitecture;
use crate::proved::{
    version_text, Architecture, BinaryFormat, DeploymentTarget, Environment, KnownVendor,
    OperatingSystem, VendorRef, MAX_VERSION_LENGTH,
};
use core::fmt;

impl fmt::Display for TripleRef<'_> {
    #[inline(always)]
    fn fmt(&self, f: &mut fmt::Formatter<'_>) -> fmt::Result {
        self.pieces(self.shows_unknowns()).fmt(f)
    }
}

impl fmt::Display for Triple {
    fn fmt(&self, f: &mut fmt::Formatter<'_>) -> fmt::Result {
        self.as_triple_ref().fmt(f)
    }
}

impl<'a> TripleRef<'a> {
    /// Writes the printed string at the front of the buffer if it fits there, and returns its length. If it doesn't
    /// fit, the buffer is unchanged: compare the result with `out.len()`. Nothing is allocated.
    ///
    /// # Examples
    ///
    /// ```
    /// use target_lexicon::TripleRef;
    ///
    /// let mut bytes = [0; 8];
    /// let length = TripleRef::from_str("x86_64-linux").unwrap().write_to(&mut bytes);
    /// assert_eq!((length, bytes), ("x86_64-unknown-linux".len(), [0; 8]));
    /// ```
    #[inline]
    pub fn write_to(&self, out: &mut [u8]) -> usize {
        self.pieces(self.shows_unknowns()).write_to(out)
    }

    /// The pieces by upstream's rules, or with the last three fields shown whatever these say.
    #[inline(always)]
    pub(crate) fn pieces(&self, shows_last_three: bool) -> Pieces<'a> {
        if let Some(text) = self.special_string() {
            return Pieces {
                first: text,
                vendor: None,
                operating_system: None,
                version: None,
                environment: None,
                binary_format: None,
            };
        }
        let system = shows_last_three | !self.omits_unknown_system();
        let environment = shows_last_three | self.shows_environment();
        let binary_format = shows_last_three | self.shows_binary_format();
        Pieces {
            first: self.architecture.name(),
            vendor: self.shows_vendor().then_some(self.vendor.as_str()),
            operating_system: system.then_some(self.operating_system.prefix()),
            // a system that is omitted has none
            version: self.operating_system.version(),
            environment: environment.then_some(self.environment.name()),
            binary_format: binary_format.then_some(self.binary_format.name()),
        }
    }

    /// Whether the vendor is shown: unless it is unknown, and the triple omits an unknown one.
    #[inline(always)]
    fn shows_vendor(&self) -> bool {
        if !matches!(self.vendor, VendorRef::Known(KnownVendor::Unknown)) {
            return true;
        }
        match self.environment {
            Environment::HermitKernel | Environment::LinuxKernel => true,
            _ => !self.omits_unknown_vendor(),
        }
    }

    /// Whether an unknown vendor is omitted, unless the environment is a kernel's.
    #[inline(always)]
    fn omits_unknown_vendor(&self) -> bool {
        match self.operating_system {
            OperatingSystem::Linux => matches!(
                self.environment,
                Environment::Android | Environment::Androideabi | Environment::Kernel
            ),
            OperatingSystem::Wasi | OperatingSystem::WasiP1 | OperatingSystem::WasiP2 => true,
            OperatingSystem::None_ => matches!(
                self.architecture,
                Architecture::Msp430
                    | Architecture::Arm(
                        ArmArchitecture::Armv4t
                            | ArmArchitecture::Armv5te
                            | ArmArchitecture::Armebv7r
                            | ArmArchitecture::Armv7a
                            | ArmArchitecture::Armv7r
                            | ArmArchitecture::Armv8r
                            | ArmArchitecture::Thumbv4t
                            | ArmArchitecture::Thumbv5te
                            | ArmArchitecture::Thumbv6m
                            | ArmArchitecture::Thumbv7em
                            | ArmArchitecture::Thumbv7m
                            | ArmArchitecture::Thumbv8mBase
                            | ArmArchitecture::Thumbv8mMain
                    )
            ),
            _ => false,
        }
    }

    /// Whether the system is unknown, and the architecture omits an unknown one.
    #[inline(always)]
    pub(crate) fn omits_unknown_system(&self) -> bool {
        match self.operating_system {
            OperatingSystem::Unknown => matches!(self.architecture, Architecture::Clever(_)),
            _ => false,
        }
    }

    /// Whether the environment is shown: unless it is unknown, or a `Newlib` that vendor and system imply.
    fn shows_environment(&self) -> bool {
        match self.environment {
            Environment::Unknown => false,
            Environment::Newlib => !self.implies_newlib(),
            _ => true,
        }
    }

    /// Whether the binary format is shown: if it isn't the implied one. Without a system a known one always is, except
    /// on some architectures and in some environments.
    #[inline(always)]
    fn shows_binary_format(&self) -> bool {
        if self.binary_format != self.default_binary_format() {
            return true;
        }
        match self.operating_system {
            OperatingSystem::None_ | OperatingSystem::Unknown => {
                !self.architecture_implies_format()
                    && !self.environment_implies_format()
                    && self.binary_format != BinaryFormat::Unknown
            }
            _ => false,
        }
    }

    /// Whether the architecture omits an implied format, also without a system.
    #[inline(always)]
    fn architecture_implies_format(&self) -> bool {
        matches!(
            self.architecture,
            Architecture::ZkAsm | Architecture::Avr | Architecture::Wasm32 | Architecture::Wasm64
        )
    }

    /// Whether the environment omits an implied format, also without a system.
    #[inline(always)]
    fn environment_implies_format(&self) -> bool {
        matches!(
            self.environment,
            Environment::Eabi | Environment::Eabihf | Environment::Sgx
        )
    }

    /// Whether environment and format are both shown as unknown, and the operating system with them.
    fn shows_unknowns(&self) -> bool {
        matches!(
            (self.environment, self.binary_format),
            (Environment::Unknown, BinaryFormat::Unknown)
        ) && self.binary_format != self.default_binary_format()
    }
}

/// What is shown of a triple: the name of the architecture, or the special string; and each other field that is shown,
/// after a dash. The name of the operating system is without its version, which follows it.
#[derive(Clone, Copy)]
pub(crate) struct Pieces<'a> {
    first: &'static str,
    vendor: Option<&'a str>,
    operating_system: Option<&'static str>,
    version: Option<DeploymentTarget>,
    environment: Option<&'static str>,
    binary_format: Option<&'static str>,
}

impl Pieces<'_> {
    /// Writes the string at the front of the buffer if it fits there, and returns its length. If it doesn't fit, the
    /// buffer is unchanged.
    #[inline]
    fn write_to(&self, out: &mut [u8]) -> usize {
        let mut buffer = [0; MAX_VERSION_LENGTH];
        let version = optional_version_text(self.version, &mut buffer);
        let length = self.first.len()
            + piece_length(self.vendor)
            + piece_length(self.operating_system)
            + version.len()
            + piece_length(self.environment)
            + piece_length(self.binary_format);
        if length <= out.len() {
            let at = put(out, 0, self.first.as_bytes());
            let at = put_piece(out, at, self.vendor);
            let at = put_piece(out, at, self.operating_system);
            let at = put(out, at, version.as_bytes());
            let at = put_piece(out, at, self.environment);
            put_piece(out, at, self.binary_format);
        }
        length
    }
}

impl fmt::Display for Pieces<'_> {
    #[inline(always)]
    fn fmt(&self, f: &mut fmt::Formatter<'_>) -> fmt::Result {
        f.write_str(self.first)?;
        write_piece(f, self.vendor)?;
        write_piece(f, self.operating_system)?;
        if let Some(version) = self.version {
            f.write_str(version_text(version, &mut [0; MAX_VERSION_LENGTH]))?;
        }
        write_piece(f, self.environment)?;
        write_piece(f, self.binary_format)
    }
}

/// Writes a dash and the name, if there is one.
#[inline(always)]
fn write_piece(f: &mut fmt::Formatter<'_>, name: Option<&str>) -> fmt::Result {
    match name {
        Some(name) => {
            f.write_str("-")?;
            f.write_str(name)
        }
        None => Ok(()),
    }
}

/// The version's string, which is empty if there is no version.
#[inline(always)]
fn optional_version_text(
    version: Option<DeploymentTarget>,
    buffer: &mut [u8; MAX_VERSION_LENGTH],
) -> &str {
    match version {
        Some(version) => version_text(version, buffer),
        None => "",
    }
}

/// The length of a dash and the name, if there is one.
#[inline]
fn piece_length(name: Option<&str>) -> usize {
    match name {
        Some(name) => 1 + name.len(),
        None => 0,
    }
}

/// Writes a dash and the name, if there is one, as [`put`] writes a string.
#[inline]
fn put_piece(out: &mut [u8], at: usize, name: Option<&str>) -> usize {
    match name {
        Some(name) => {
            let at = put(out, at, b"-");
            put(out, at, name.as_bytes())
        }
        None => at,
    }
}

/// Writes a string after what ends at `at`, into a buffer that has room for it. Returns the end of both.
#[inline]
pub(crate) fn put(out: &mut [u8], at: usize, text: &[u8]) -> usize {
    let end = at + text.len();
    out[at..end].copy_from_slice(text);
    end
}
