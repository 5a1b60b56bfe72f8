//! Upstream's names, each for that of the crate `target-lexicon-verified`, for `[patch.crates-io]`. A triple has a type
//! of its own, which is printed as upstream does.
#![no_std]
#![forbid(unsafe_code)]

extern crate alloc;

#[cfg(feature = "serde_support")]
mod serde;
mod triple;

pub use triple::{DefaultToHost, DefaultToUnknown, Triple, HOST};
// No glob: another name would collide in a program that has globs of two crates.
pub use verified::{
    Architecture, BinaryFormat, CDataModel, CallingConvention, CustomVendor, DeploymentTarget,
    Endianness, Environment, OperatingSystem, ParseError, PointerWidth, Size, Vendor,
};
// written by tools/names/write: the types of families in upstream's place
pub use verified::{
    Aarch64Architecture, ArmArchitecture, CleverArchitecture, Mips32Architecture,
    Mips64Architecture, Riscv32Architecture, Riscv64Architecture, X86_32Architecture,
};
// end of what is written

/// The triple of a string. Panics if the string is refused.
#[macro_export]
macro_rules! triple {
    ($text:tt) => {
        <$crate::Triple as ::core::str::FromStr>::from_str($text).expect("invalid triple literal")
    };
}
