//! Writes the triple of the target that the crate is built for as an expression of Rust, which the crate's own parser
//! finds. It isn't the compiler that parses, since a constant can't: what older versions of Rust let a `const fn` do
//! isn't enough for the proved source.
#![allow(dead_code, unexpected_cfgs, unknown_lints, unused_imports, clippy::all)]

extern crate alloc;

#[path = "src/compat.rs"]
mod compat;
#[path = "src/fields.rs"]
mod fields;
#[path = "src/hash.rs"]
mod hash;
#[path = "src/proved/mod.rs"]
mod proved;
#[path = "src/search.rs"]
mod search;

use proved::{TripleRef, VendorRef};
use std::{env, fs, mem, path::Path, time::Duration};

/// What the proved source calls, and nothing here.
impl proved::Triple {
    pub fn host() -> Self {
        unreachable!()
    }
}

fn main() {
    println!("cargo:rerun-if-env-changed=TARGET_LEXICON_HOST");
    println!("cargo:rustc-check-cfg=cfg(core_error)");
    if has_core_error() {
        println!("cargo:rustc-cfg=core_error");
    }
    let target = env::var("TARGET").expect("cargo sets TARGET");
    // Only a target that is refused needs another one for `HOST`. A build script's own crates have a target that
    // parses, and the variable is for the program.
    let instead = env::var("TARGET_LEXICON_HOST").unwrap_or_default();
    let host = TripleRef::from_str(&target).unwrap_or_else(|error| {
        if instead.is_empty() {
            panic!(
                "the target {target} doesn't parse: {error}. To build for it, set TARGET_LEXICON_HOST to a target that \
                 parses, whose triple HOST shall be"
            );
        }
        TripleRef::from_str(&instead)
            .unwrap_or_else(|error| panic!("TARGET_LEXICON_HOST, {instead}, doesn't parse: {error}"))
    });
    let out = env::var_os("OUT_DIR").expect("cargo sets OUT_DIR");
    fs::write(Path::new(&out).join("host.rs"), literal(host)).expect("a file in OUT_DIR");
}

/// A triple as an expression of Rust. What `Debug` writes is one, once each name has its path.
fn literal(triple: TripleRef<'_>) -> String {
    let architecture = format!("{:?}", triple.architecture);
    let architecture = match architecture.split_once('(') {
        Some((exception, of_exception)) => {
            format!("{exception}(crate::{exception}Architecture::{of_exception}")
        }
        None => architecture,
    };
    let vendor = match triple.vendor {
        VendorRef::Known(known) => format!("{known:?}"),
        VendorRef::Custom(text) => format!("Custom(crate::CustomVendor::Static({text:?}))"),
    };
    let operating_system = format!("{:?}", triple.operating_system)
        .replace("DeploymentTarget", "crate::DeploymentTarget");
    format!(
        "Triple {{
    architecture: Architecture::{architecture},
    vendor: Vendor::{vendor},
    operating_system: OperatingSystem::{operating_system},
    environment: Environment::{:?},
    binary_format: BinaryFormat::{:?},
}}
",
        triple.environment, triple.binary_format,
    )
}

/// A call that `Duration` has of its own since Rust 1.81, in which `core` got `Error`.
trait Before1_81 {
    fn abs_diff(&self, _: Duration) {}
}

impl Before1_81 for Duration {}

/// Whether this version of Rust has `core::error`. Then the call isn't that of the trait, which returns nothing. To ask
/// the compiler for its version would take longer.
#[allow(unstable_name_collisions)]
fn has_core_error() -> bool {
    mem::size_of_val(&Duration::ZERO.abs_diff(Duration::ZERO)) > 0
}
