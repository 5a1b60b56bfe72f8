//! Ends with status 0 if a triple is parsed, asked and printed as it should. rustc builds it only if no crate needs an
//! allocator.
#![no_std]
#![no_main]
use core::fmt::{self, Write as _};
use target_lexicon::{CDataModel, Field, Source, TripleExt, TripleRef, VendorRef, HOST};
use target_names::{read, ChosenLibc, Dialect, Suggest as _, TargetInfo};

/// Compares what is written with a string.
struct Left(&'static str);

impl fmt::Write for Left {
    fn write_str(&mut self, piece: &str) -> fmt::Result {
        self.0 = self.0.strip_prefix(piece).ok_or(fmt::Error)?;
        Ok(())
    }
}

#[link(name = "c")]
extern "C" {
    fn abort() -> !;
}

#[panic_handler]
fn panic(_: &core::panic::PanicInfo<'_>) -> ! {
    unsafe { abort() }
}

/// What the compiled `core` names, and nothing calls.
#[no_mangle]
pub extern "C" fn rust_eh_personality() {}

#[no_mangle]
pub extern "C" fn main() -> i32 {
    let string = "riscv32imc-esp-espidf-elf";
    let triple = TripleRef::from_str(string).unwrap();
    assert!(!triple.comes_back());
    assert!(triple.settles_as(TripleRef::from_str("riscv32imc-esp-espidf").unwrap()));
    let custom = TripleRef::from_str("x86_64-acme-linux").unwrap();
    assert_eq!(custom.vendor, VendorRef::Custom("acme"));
    assert_eq!(custom.data_model(), Ok(CDataModel::LP64));
    let mut room = [0; 32];
    let length = custom.write_to(&mut room);
    assert_eq!(&room[..length], b"x86_64-acme-linux");
    let explanation = TripleRef::explain("x86_64-pc-linxu");
    assert!(matches!(explanation.sources.vendor, Source::Part(part) if part.text == "pc"));
    let refusal = explanation.triple.unwrap_err();
    assert_eq!(refusal.expected, Some(Field::OperatingSystem));
    assert_eq!(refusal.suggestion().unwrap(), "linux");
    let versioned = TripleRef::from_str("arm64-apple-iso17").unwrap_err();
    let mut left = Left("Unrecognized operating system: iso17: ios17");
    write!(left, "{versioned}: {}", versioned.suggestion().unwrap()).unwrap();
    assert!(left.0.is_empty());
    // A `Triple` is there too; only its custom vendor can't own a string.
    assert_eq!(HOST.pointer_width().ok(), TripleRef::from(&HOST).pointer_width().ok());
    assert!(HOST.comes_back() && custom != HOST);
    let platform = Dialect::Oci.read("linux/arm64").unwrap();
    let triple = platform.with_c_library(ChosenLibc::Musl);
    assert_eq!(Dialect::Rust.write(triple).unwrap(), "aarch64-unknown-linux-musl");
    assert_eq!(read("amd64-unknown-linux").unwrap().rustc_cfg().target_arch, "x86_64");
    assert_eq!(Dialect::Go.suggestion("linux/amd46"), Some("linux/amd64"));
    0
}
