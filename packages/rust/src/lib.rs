// SPDX-License-Identifier: Apache-2.0 WITH LLVM-exception
//! LLVM target triples: what the crate `target-lexicon` 0.13.5 (upstream) has, with the Rust source of a verified port.
//!
//! Most types and methods are the proved source, without the parts that only proofs need.
//!
//! ```
//! use target_lexicon::{Architecture, Endianness, OperatingSystem, Triple};
//!
//! let triple: Triple = "aarch64-apple-ios".parse()?;
//! match triple.architecture {
//!     Architecture::Aarch64(_) => assert_eq!(triple.endianness(), Ok(Endianness::Little)),
//!     other => panic!("{other}"),
//! }
//! assert_eq!(triple.operating_system, OperatingSystem::IOS(None));
//! assert_eq!(triple.to_string(), "aarch64-apple-ios");
//! # Ok::<(), target_lexicon::ParseError>(())
//! ```
//!
//! What upstream doesn't have:
//!
//! - **A key**: [`TripleExt::settle`] gives the canonical form.
//! - **Errors**: [`TripleExt::parse`] has one that owns the string and shows the place.
//! - **Without an allocator**: [`TripleRef`] borrows from the string. [`TripleRef::write_to`] prints into a buffer. A
//!   `HashMap<Triple, _>` can't be looked up by one: take [`TripleRef`], or the canonical string, as its key.
//! - **Where each field comes from**: [`TripleRef::explain`] says it.
//!
//! Upstream's types have upstream's methods. What they have besides is in traits, which a program imports:
//! [`TripleExt`], [`Named`], [`OperatingSystemExt`] and [`ParseErrorExt`]. Triples are ordered by their fields, and
//! these by their names, except that versions are numbers.
//!
//! # Features
//!
//! Only `alloc` is on by default.
//!
//! - `alloc`: what owns a string, such as the errors of [`TripleExt::parse`]. Without it no allocator is linked:
//!   [`TripleRef`] has its calls except `parse`, `settle` and those that make an owned value.
//! - `serde_support`: a triple and each field is its string in serde.
//! - `std`: [`ParseError`] implements `Error`, as in upstream; the other errors do before Rust 1.81 too.
//! - `arch_zkasm` and `arch_z80` change nothing.
//!
//! The README says what differs from upstream, and what is proved.
#![no_std]
#![forbid(unsafe_code)]
// Names and types of upstream's; forms that proofs need; calls that older versions of Rust have from `compat`.
#![allow(
    clippy::box_collection,
    clippy::explicit_auto_deref,
    clippy::should_implement_trait,
    clippy::upper_case_acronyms,
    clippy::manual_map,
    clippy::manual_ok_err,
    clippy::match_like_matches_macro,
    clippy::incompatible_msrv
)]
// What only the calls that allocate use.
#![cfg_attr(not(feature = "alloc"), allow(dead_code, unused_imports))]
// docs.rs marks what needs a feature.
#![cfg_attr(docsrs, feature(doc_cfg))]
#![cfg_attr(docsrs, doc(auto_cfg(hide(core_error, feature = "std"))))]
#![warn(missing_docs)]

#[cfg(feature = "alloc")]
extern crate alloc;
#[cfg(all(feature = "std", not(core_error)))]
extern crate std;

// What parses, prints and answers is in `proved`. By hand is what that source can't say:
mod canonical; // `settle`, which requires a plain vendor there, and has an error here
mod compat; // calls that older versions of Rust lack
mod conversions; // traits of Rust's between the types
mod display; // `Display` of what isn't printed there
mod errors; // `Error` of each error, by the version of Rust
mod explain; // a function there, and a method here
mod extensions; // the calls of upstream's types that upstream lacks, as traits
mod fields; // `from_str` of the types with few names, by comparisons
mod hash; // the hash of a borrowed vendor, which is the owned one's
mod host; // the target of the build
mod order; // `Ord`, by keys
#[cfg(feature = "alloc")]
mod owned; // what allocates, which there may fail and here doesn't return then
#[cfg(feature = "alloc")]
mod parse_error; // upstream's error, which has no failure of an allocation
#[cfg(feature = "alloc")]
mod parse_triple_error; // the error that owns its string and shows the place
mod proved;
mod queries; // the queries of a `TripleRef`, whose error says which one has no answer
mod search; // the row of a name, by a hash in place of a binary search
#[cfg(feature = "serde_support")]
mod serde; // serde's traits
mod upstream; // upstream's printing

pub use canonical::NotPlain;
pub use conversions::ParseVersionError;
#[cfg(feature = "alloc")]
pub use extensions::ParseErrorExt;
pub use extensions::{Named, OperatingSystemExt, TripleExt};
pub use host::HOST;
#[cfg(feature = "alloc")]
pub use parse_error::ParseError;
#[cfg(feature = "alloc")]
pub use parse_triple_error::ParseTripleError;
// written by tools/names/write: the types of families in Rust
pub use proved::{
    Aarch64Architecture, ArmArchitecture, CleverArchitecture, Mips32Architecture,
    Mips64Architecture, Riscv32Architecture, Riscv64Architecture, X86_32Architecture,
    Z80Architecture,
};
// end of what is written
pub use proved::{
    default_binary_format, Architecture, BinaryFormat, CDataModel, CallingConvention, CustomVendor,
    DefaultToHost, DefaultToUnknown, DeploymentTarget, Endianness, Environment, Explanation, Field,
    KnownVendor, OperatingSystem, PointerWidth, Refusal, RoundTripException, Size, Source, Sources,
    TextPart, Triple, TripleRef, Vendor, VendorRef,
};
pub use queries::NoAnswer;
pub use upstream::Upstream;

/// The samples of the page are tested.
#[cfg(all(doctest, feature = "alloc"))]
#[doc = include_str!("../README.md")]
struct Readme;

/// The triple of a string. Panics if the string is refused.
///
/// # Examples
///
/// ```
/// use target_lexicon::{Vendor, triple};
///
/// assert_eq!(triple!("x86_64-pc-windows-msvc").vendor, Vendor::Pc);
/// ```
#[cfg(feature = "alloc")]
#[macro_export]
macro_rules! triple {
    ($text:tt) => {
        <$crate::Triple as ::core::str::FromStr>::from_str($text).expect("invalid triple literal")
    };
}
