//! Help, and what is wrong with the arguments.
use crate::arguments::{command, wrapped};
use crate::fault::Fault;
use crate::output::{write_only, Outputs};
use crate::shown::visible;
use clap::error::{ContextKind, ContextValue, ErrorKind};
use std::env;
use target_lexicon::TripleRef;

/// Help, the version, or what is wrong with the arguments. Returns the status.
pub fn show(error: &clap::Error) -> Result<i32, Fault> {
    let note = target_note(error);
    let mut text = usage_text(error);
    if note.contains("use `") {
        text = without_guess(&text);
    }
    text += &note;
    if !error.use_stderr() {
        return write_only(|page| page.lines(&text));
    }
    let mut outputs = Outputs::plain();
    outputs.refuse(|page, _| page.lines(&text))?;
    outputs.flush()?;
    Ok(2)
}

/// What clap says of the arguments, without a control character of theirs: it is asked about the escaped ones.
fn usage_text(error: &clap::Error) -> String {
    let shown = env::args_os().map(|word| visible(word.to_string_lossy()).to_string());
    let text = match command().try_get_matches_from(shown) {
        Err(again) if again.kind() == error.kind() => again.render().to_string(),
        _ => error.render().to_string(),
    };
    let lines = text.split('\n').map(|line| match line.trim_start() {
        list if list.starts_with("[possible values") => format!("  {}", wrapped(list).replace('\n', "\n   ")),
        _ => visible(line).to_string(),
    });
    lines.collect::<Vec<_>>().join("\n")
}

/// The text without the name that is spelled most like the wrong one, where the note says what is meant.
fn without_guess(text: &str) -> String {
    let lines = text.split_inclusive('\n');
    lines.filter(|line| !line.trim_start().starts_with("Did you mean")).collect()
}

/// What the user may have meant by a word that isn't one of the command's.
fn target_note(error: &clap::Error) -> String {
    let context = |kind| match error.get(kind) {
        Some(ContextValue::String(text)) => text.as_str(),
        _ => "",
    };
    let option = context(ContextKind::InvalidArg);
    let (kind, word) = match error.kind() {
        ErrorKind::InvalidSubcommand => ("", context(ContextKind::InvalidSubcommand)),
        ErrorKind::InvalidValue => (option, context(ContextKind::InvalidValue)),
        ErrorKind::UnknownArgument => ("option", option),
        _ => return String::new(),
    };
    other_note(kind, word)
}

/// The dialect that a word means, though it isn't its name.
fn dialect_meant(word: &str) -> &'static str {
    match word {
        "container" | "containers" | "image" => "`oci`",
        "cargo" | "rustc" | "rustup" => "`rust`",
        "wheel" | "wheels" | "pip" | "pypi" => "`python`",
        "apt" | "deb" | "dpkg" | "ubuntu" => "`debian`",
        "dnf" | "fedora" | "redhat" | "yum" => "`rpm`",
        "alpine" => "`apk`",
        "arch" | "archlinux" => "`pacman`",
        "gcc" | "mingw" => "`gnu`",
        _ => "",
    }
}

/// What a word may mean that never was one of the command's, and the subcommands, if it is where one of them belongs.
fn other_note(kind: &str, word: &str) -> String {
    if kind.is_empty() && TripleRef::from_str(word).is_ok() {
        return format!("\nA target follows a command: target-lexicon explain {word}\n");
    }
    let meant = match (kind, word) {
        ("", "parse" | "info" | "show" | "inspect") => "`explain` or `facts`",
        ("", "list") => "`names`",
        ("", "validate" | "lint" | "verify") => "`check`",
        ("", "normalize" | "canonical" | "canonicalize") => "`settle`",
        ("", "convert") => "`translate`",
        ("", "version") => "`--version`",
        ("", "dedup" | "unique") => "`matrix`",
        ("--libc <LIBRARY>", "gnu") => "`--libc glibc` for Linux, or `--libc mingw` for Windows",
        ("--from <DIALECT>", "clang") => "`llvm`",
        ("--to <DIALECT>", "clang" | "llvm") => "`target-lexicon facts`, whose `llvm_target` it is",
        ("--from <DIALECT>" | "--to <DIALECT>", tool) => dialect_meant(tool),
        ("option", "--from") => "`what`, or `check`, `facts`, `matrix`, `settle` or `translate`, which have it",
        ("--get <FACTS>", "arch" | "machine" | "cpu") => "`architecture`",
        ("--get <FACTS>", "os" | "system") => "`operating_system`",
        ("--get <FACTS>", "abi" | "env") => "`environment`",
        ("--get <FACTS>", "libc") => "`c_library`",
        ("--get <FACTS>", "linker" | "format") => "`object_format`",
        ("option", "--field" | "--fields") => "`--get` of `facts`",
        _ => "",
    };
    let mut note = String::new();
    if !meant.is_empty() {
        note = format!("\nFor `{word}` use {meant}\n");
    }
    if kind.is_empty() {
        let all = command();
        let names: Vec<_> = all.get_subcommands().map(clap::Command::get_name).collect();
        note += &format!("\nCommands: {}\n", names.join(" "));
    }
    note
}
