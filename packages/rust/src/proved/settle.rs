// @generated: erased from crates/target_lexicon/src/settle.rt by tools/erase. Don't edit it here.
//! Whether a triple comes back, its normal step, and its canonical form.

use crate::proved::exception::RoundTripException;
use crate::proved::triple::Triple;
use crate::proved::triple_ref::TripleRef;
use crate::proved::{BinaryFormat, Environment, KnownVendor, OperatingSystem, Vendor, VendorRef};

impl Triple {
    /// The normal step.
    #[inline]
    pub(crate) fn step(mut self) -> Triple {
        let step = self.as_triple_ref().step();
        let (architecture, operating_system) = (step.architecture, step.operating_system);
        let (environment, binary_format) = (step.environment, step.binary_format);
        if matches!(step.vendor, VendorRef::Known(KnownVendor::Espressif)) {
            self.vendor = Vendor::Espressif;
        }
        self.architecture = architecture;
        self.operating_system = operating_system;
        self.environment = environment;
        self.binary_format = binary_format;
        self
    }
}

impl<'a> TripleRef<'a> {
    /// Whether the triple comes back, as [`TripleExt::comes_back`](crate::TripleExt::comes_back) says.
    ///
    /// # Examples
    ///
    /// ```
    /// use target_lexicon::TripleRef;
    ///
    /// assert!(!TripleRef::from_str("armv7-nintendo-horizon-newlib").unwrap().comes_back());
    /// ```
    #[must_use]
    #[inline]
    pub fn comes_back(&self) -> bool {
        self.round_trip_exception().is_none()
    }

    /// The normal step of any triple. If the vendor is plain, it is the canonical form.
    #[must_use]
    #[doc(hidden)]
    #[inline(always)]
    pub fn step(mut self) -> TripleRef<'a> {
        match self.round_trip_exception() {
            Some(RoundTripException::PrintsAsSpecial) => {
                self.environment = Environment::Newlib;
                self.binary_format = BinaryFormat::Elf;
            }
            Some(RoundTripException::HidesNewlib) => {
                self.environment = Environment::Unknown;
                self.binary_format = elf_if_unknown(self.binary_format);
            }
            Some(RoundTripException::PrintsTheEspIdfString) => {
                self.vendor = VendorRef::Known(KnownVendor::Espressif);
                self.environment = Environment::Newlib;
                self.binary_format = BinaryFormat::Elf;
            }
            Some(RoundTripException::ShowsOnlyNone) => {
                self.operating_system = OperatingSystem::None_;
                self.environment = Environment::Unknown;
            }
            Some(RoundTripException::VendorIsNotPlain) => {}
            None => {}
        }
        self
    }
}

/// The format, with `Elf` for an unknown one.
#[inline]
fn elf_if_unknown(binary_format: BinaryFormat) -> BinaryFormat {
    match binary_format {
        BinaryFormat::Unknown => BinaryFormat::Elf,
        _ => binary_format,
    }
}
