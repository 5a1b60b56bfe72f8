//! Sets `is_terminal` if `std` can say whether a stream is a terminal: since Rust 1.70.
use std::process::Command;
use std::{env, str};

fn minor_version() -> Option<u32> {
    let output = Command::new(env::var_os("RUSTC")?)
        .arg("--version")
        .output()
        .ok()?;
    str::from_utf8(&output.stdout)
        .ok()?
        .split('.')
        .nth(1)?
        .parse()
        .ok()
}

fn main() {
    println!("cargo:rerun-if-changed=build.rs");
    let minor = minor_version().unwrap_or(0);
    if minor >= 70 {
        println!("cargo:rustc-cfg=is_terminal");
    }
    if minor >= 80 {
        println!("cargo:rustc-check-cfg=cfg(is_terminal)");
    }
}
