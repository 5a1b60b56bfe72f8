// @generated: erased from crates/target_lexicon/src/special.rt by tools/erase. Don't edit it here.
//! The strings that have a triple of their own.

use crate::proved::triple_ref::TripleRef;
use crate::proved::{
    Architecture, BinaryFormat, Environment, KnownVendor, OperatingSystem, VendorRef,
};
use crate::proved::{ArmArchitecture, Riscv32Architecture};

impl<'a> TripleRef<'a> {
    /// The triple of a special string.
    pub(crate) fn from_special_string(text: &str) -> Option<TripleRef<'a>> {
        match text {
            "armv6k-nintendo-3ds" => Some(TripleRef {
                architecture: Architecture::Arm(ArmArchitecture::Armv6k),
                vendor: VendorRef::Known(KnownVendor::Nintendo),
                operating_system: OperatingSystem::Horizon,
                environment: Environment::Newlib,
                binary_format: BinaryFormat::Elf,
            }),
            "riscv32imc-esp-espidf" => Some(TripleRef {
                architecture: Architecture::Riscv32(Riscv32Architecture::Riscv32imc),
                vendor: VendorRef::Known(KnownVendor::Espressif),
                operating_system: OperatingSystem::Espidf,
                environment: Environment::Newlib,
                binary_format: BinaryFormat::Elf,
            }),
            _ => None,
        }
    }

    /// The special string that the triple prints, if any. Environment and format don't matter.
    pub(crate) fn special_string(&self) -> Option<&'static str> {
        match (self.architecture, self.vendor, self.operating_system) {
            (
                Architecture::Arm(ArmArchitecture::Armv6k),
                VendorRef::Known(KnownVendor::Nintendo),
                OperatingSystem::Horizon,
            ) => Some("armv6k-nintendo-3ds"),
            (
                Architecture::Riscv32(Riscv32Architecture::Riscv32imc),
                VendorRef::Known(KnownVendor::Espressif),
                OperatingSystem::Espidf,
            ) => Some("riscv32imc-esp-espidf"),
            _ => None,
        }
    }

    /// Whether vendor and system are those of a special string: they imply the environment `Newlib`.
    pub(crate) fn implies_newlib(&self) -> bool {
        match (self.vendor, self.operating_system) {
            (VendorRef::Known(KnownVendor::Nintendo), OperatingSystem::Horizon) => true,
            (VendorRef::Known(KnownVendor::Espressif), OperatingSystem::Espidf) => true,
            _ => false,
        }
    }
}
