//! The modes of the program `triples` over the Rust crate, for tests that compare with it; the mode `cfg`, which writes
//! rustc's options for each line, the mode `driver`, which writes what a compiler's driver asks, and the mode
//! `suggestions`, which asks what is suggested for edits of names. It is the program `lines` of packages/command, which
//! has what it needs, and isn't installed.
#![forbid(unsafe_code)]

mod lines;
mod suggestions;

use serde_json::Value;
use std::io::{self, Read};
use std::process::ExitCode;
use target_lexicon::{
    Architecture, BinaryFormat, DeploymentTarget, Environment, OperatingSystem, TripleExt, TripleRef,
};
use target_names::{CLibrary, FloatAbi, TargetInfo, TypeLayout};

/// What mode `json` writes, or why the input is no list.
fn json(input: Vec<u8>) -> Result<String, &'static str> {
    let input = String::from_utf8(input).map_err(|_| "Input is not UTF-8")?;
    let value: Value = serde_json::from_str(&input).map_err(|_| "Input is not JSON")?;
    let list = value.as_array().ok_or("Input is not a JSON list")?;
    let mut printed = Vec::new();
    for (i, value) in list.iter().enumerate() {
        match value.as_str().map(TripleRef::from_str) {
            Some(Ok(triple)) => printed.push(Value::from(triple.to_string())),
            Some(Err(refusal)) => return Ok(format!("error: Element {i}: {refusal}")),
            None => return Ok(format!("error: Element {i}: Not a text")),
        }
    }
    Ok(Value::from(printed).to_string())
}

/// For each line what is shown of its triple, or why it is refused, and this end.
fn each(show: fn(&TripleRef) -> String, end: &str) -> io::Result<()> {
    for line in io::stdin().lines() {
        match TripleRef::from_str(&line?) {
            Ok(triple) => print!("{}{end}", show(&triple)),
            Err(refusal) => print!("error: {refusal}\n{end}"),
        }
    }
    Ok(())
}

/// How a target is linked: the interface of the linker, as in rustc's `linker-flavor`.
fn linker(triple: &TripleRef) -> &'static str {
    let (format, system) = (triple.object_format(), triple.operating_system);
    match (format, system, triple.architecture) {
        (_, OperatingSystem::Emscripten, _) => "em",
        (_, OperatingSystem::Cuda, _) => "llbc",
        (_, _, Architecture::Bpfeb | Architecture::Bpfel) => "bpf",
        (_, OperatingSystem::Aix, _) => "unix",
        (_, OperatingSystem::Illumos | OperatingSystem::Solaris, _) => "unix",
        (_, OperatingSystem::Uefi, _) => "msvc",
        (BinaryFormat::Coff, ..) if triple.environment == Environment::Msvc => "msvc",
        (BinaryFormat::Macho, ..) => "darwin",
        (BinaryFormat::Wasm, ..) => "wasm",
        _ => "gnu",
    }
}

/// The C library, how floating-point arguments are passed, and the size and alignment of `long double` and `wchar_t`;
/// `-` where there is no answer. Then how the target is linked, its string for LLVM, and
/// the version of macOS.
fn driver(triple: &TripleRef) -> String {
    let layout = |it: Option<TypeLayout>| it.map_or("- -".to_string(), |it| format!("{} {}", it.size, it.alignment));
    let version = |it: Option<DeploymentTarget>| it.map_or("-".to_string(), |it| format!("{}.{}", it.major, it.minor));
    format!(
        "{} {} {} {} {} program{} {} {}\n",
        triple.c_library().map_or("-", CLibrary::name),
        triple.float_abi().map_or("-", FloatAbi::name),
        layout(triple.long_double_layout()),
        layout(triple.wchar_layout()),
        linker(triple),
        triple.program_suffix(),
        triple.llvm_target(),
        version(triple.macos_version()),
    )
}

fn main() -> io::Result<ExitCode> {
    match std::env::args().nth(1).as_deref() {
        Some("json") => {
            let mut input = Vec::new();
            io::stdin().read_to_end(&mut input)?;
            let answer = json(input);
            match answer {
                Ok(ref line) => println!("{line}"),
                Err(why) => println!("fault: {why}"),
            }
            return Ok(ExitCode::from(u8::from(answer.is_err())));
        }
        Some("cfg") => each(|triple| triple.rustc_cfg().to_string(), "\n")?,
        Some("driver") => each(driver, "")?,
        Some("suggestions") => {
            let number = |at: usize| std::env::args().nth(at).and_then(|it| it.parse().ok()).expect("a number");
            let of = suggestions::Share { step: number(2), first: number(3) };
            suggestions::check(&io::read_to_string(io::stdin())?, of);
        }
        _ => lines::answer(|triple| triple.settle().ok())?,
    }
    Ok(ExitCode::SUCCESS)
}
