// SPDX-License-Identifier: Apache-2.0 WITH LLVM-exception
//! Names of targets in other tools, and what toolchains, drivers and rustc say of a target.
//!
//! ```
//! use target_lexicon::TripleRef;
//! use target_names::{ChosenLibc, Dialect, TargetInfo};
//!
//! let platform = Dialect::Oci.read("linux/arm64").unwrap();
//! assert_eq!(platform, TripleRef::from_str("aarch64-unknown-linux").unwrap());
//! // The platform doesn't state the C library: the caller does.
//! let triple = platform.with_c_library(ChosenLibc::Glibc);
//! assert_eq!(Dialect::Debian.write(triple).unwrap(), "arm64");
//! assert_eq!(triple.rustc_cfg().target_env, "gnu");
//! ```
//!
//! A refused string, or a custom vendor, may be a misspelled one: [`Suggest`] and [`vendor_suggestion`] say which name
//! was perhaps meant.
//!
//! What names mean is data, from tools that are asked, or from knowledge of their pages; tests try each row. Nothing
//! here is proved: the triples are those of the crate `target-lexicon-verified`.
//!
//! # Features
//!
//! - `std`, which is on by default: the errors implement `Error`.
//! - `alloc`, which `std` switches on: [`UnknownWord`], which owns a string. Without it no allocator is linked.
#![no_std]
#![forbid(unsafe_code)]
#![warn(missing_docs)]
#![cfg_attr(not(feature = "alloc"), allow(dead_code))]

#[cfg(feature = "alloc")]
extern crate alloc;
#[cfg(feature = "std")]
extern crate std;

mod dialect;
mod driver;
mod evidence;
mod gnu;
mod hints;
mod levels;
mod loose;
mod meanings;
mod name;
mod near;
#[cfg(feature = "alloc")]
mod parse_name_error;
mod reading;
mod rustc_cfg;
mod shape;
mod suggestions;
#[rustfmt::skip]
mod table;
#[cfg(all(test, feature = "alloc"))]
mod table_tests;
mod target_info;
mod text;
mod translation;
mod verdict;

pub use dialect::{NameError, Sense};
pub use driver::{MultiarchTuple, TypeLayout, TypeSizes};
use evidence::Said;
pub use evidence::{level_spelled, Evidence};
pub use hints::{Meant, Mistake, Note};
pub use meanings::{meanings, readers, Meaning, NameOf};
pub use name::Name;
#[cfg(feature = "alloc")]
pub use parse_name_error::UnknownWord;
pub use reading::{changes, read, Change, Spelling};
pub use rustc_cfg::{is_vendor_of_rustc, LlvmTarget, RustcCfg};
pub use suggestions::{
    is_visible, known_names, suggestion, suggestion_in, vendor_suggestion, visible, Suggest, Suggestion, Visible, SHOWN,
};
pub use table::{ArmProfile, CLibrary, ChosenLibc, Dialect, FloatAbi, Signedness, WriteError};
pub use target_info::TargetInfo;
pub use text::{targets_in, words_in, TargetsIn, Word, WordIs};
pub use translation::{TranslateError, VersionOf, Versions};
pub use verdict::Verdict;

#[cfg(feature = "std")]
mod errors {
    use std::error::Error;

    impl Error for crate::NameError {}
    impl Error for crate::WriteError {}
    impl Error for crate::TranslateError {}
    impl Error for crate::UnknownWord {}
}

/// The samples of the page are tested.
#[cfg(all(doctest, feature = "std"))]
#[doc = include_str!("../README.md")]
struct Readme;
