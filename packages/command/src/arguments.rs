//! The options of several calls, and the help of all.
use crate::calls::commands;
use clap::builder::PossibleValuesParser;
use clap::error::ErrorKind;
use clap::{value_parser, Arg, ArgAction, ArgMatches, Command, ValueHint};
use std::ffi::OsString;
use std::num::NonZeroUsize;
use std::path::PathBuf;
use target_names::{ChosenLibc, Dialect};

// written by tools/names/write: the dialects that are only read
fn is_only_read(dialect: Dialect) -> bool {
    matches!(dialect, Dialect::Uname)
}
// end of what is written

/// The dialects whose names are written.
pub fn written() -> impl Iterator<Item = Dialect> {
    Dialect::ALL.iter().copied().filter(|it| !is_only_read(*it))
}

// written by tools/names/write: the other names of dialects for the command
const OTHER_NAMES: [(&str, Dialect); 2] = [("docker", Dialect::Oci), ("npm", Dialect::Node)];
// end of what is written

/// An option for the C library of a triple that states none.
pub fn libc() -> Arg {
    Arg::new("libc")
        .long("libc")
        .value_name("LIBRARY")
        .value_parser(PossibleValuesParser::new([
            "glibc", "musl", "msvc", "mingw", "gnullvm",
        ]))
        .action(ArgAction::Append)
        .value_delimiter(',')
        .hide_possible_values(true)
        .help("The C library if none is stated: glibc, musl, msvc, mingw, gnullvm")
        .long_help(wrapped("The C library of targets that state none: on Linux glibc or musl, on Windows msvc, mingw or gnullvm. One of each may be given, with a comma between"))
}

/// Whether a C library is one of Windows.
pub fn is_of_windows(libc: &str) -> bool {
    matches!(libc, "msvc" | "mingw" | "gnullvm")
}

/// Two C libraries of one system, or for `what`, which takes one, any two.
pub fn libc_conflict(call: &str, arguments: &ArgMatches) -> Option<clap::Error> {
    let given = arguments.try_get_many::<String>("libc").ok()??;
    let mut words: Vec<&String> = given.collect();
    words.dedup();
    let is_same = |it: &[&String]| call == "what" || is_of_windows(it[0]) == is_of_windows(it[1]);
    match &words[..] {
        [one, other, ..] if words.len() > 2 || is_same(&words) => {
            Some(conflict(&format!("--libc {one}"), &format!("--libc {other}")))
        }
        _ => None,
    }
}

/// Two arguments that exclude one another.
pub fn conflict(one: &str, other: &str) -> clap::Error {
    let why = format!("`{one}` and `{other}` can't be used together");
    command().error(ErrorKind::ArgumentConflict, why)
}

/// The names of dialects, each followed by its other ones.
pub fn words(dialects: impl Iterator<Item = Dialect>) -> impl Iterator<Item = &'static str> {
    dialects.flat_map(|dialect| {
        let others = OTHER_NAMES.iter().filter(move |(_, of)| *of == dialect);
        std::iter::once(dialect.name()).chain(others.map(|(name, _)| *name))
    })
}

/// An option for one of the dialects, which the long help lists before more words.
pub fn dialect(name: &'static str, words: impl Iterator<Item = &'static str>, help: &'static str, more: &str) -> Arg {
    let words: Vec<_> = words.collect();
    let long = wrapped(&format!("{help}: {}{more}", words.join(", ")));
    let option = Arg::new(name).long(name).value_name("DIALECT").value_parser(PossibleValuesParser::new(words));
    option.hide_possible_values(true).help(help).long_help(long)
}

/// The names that all dialects have in arguments.
pub fn dialects() -> impl Iterator<Item = &'static str> {
    words(Dialect::ALL.iter().copied())
}

/// The word for strings that are spelled like triples.
pub const SPELLED: &str = "llvm";

/// An option for the dialect whose names are read.
pub fn from() -> Arg {
    let more = format!("; or {SPELLED} for what is spelled like a triple, as clang takes it after -target");
    dialect("from", dialects(), "The tool whose names are read, instead of triples", &more)
        .value_parser(PossibleValuesParser::new(dialects().chain([SPELLED])))
}

/// An option for a line for each line.
pub fn keep_lines() -> Arg {
    flag("keep-lines", "Write a line for each line of FILE, empty if it has no answer").conflicts_with("paths")
}

/// A text in lines that fit 100 columns with the indent of the long help.
pub fn wrapped(text: &str) -> String {
    let mut lines = vec![String::new()];
    for word in text.split(' ') {
        let line = lines.last_mut().expect("there is a line");
        match line.len() + word.len() {
            0..=88 if line.is_empty() => *line += word,
            0..=88 => *line += &format!(" {word}"),
            _ => lines.push(word.into()),
        }
    }
    lines.join("\n")
}

pub fn flag(name: &'static str, help: &'static str) -> Arg {
    Arg::new(name).long(name).action(ArgAction::SetTrue).help(help)
}

/// A call that answers for targets.
pub fn of_targets(name: &'static str, about: &'static str, example: &'static str) -> Command {
    Command::new(name).about(about).after_long_help(example).args([
        Arg::new("target")
            .value_name("TARGET")
            .action(ArgAction::Append)
            .value_parser(value_parser!(OsString))
            .value_hint(ValueHint::AnyPath)
            .help("Targets, or files and folders, in whose texts they are found")
            .long_help(wrapped("Targets, also with commas between; or files of any kind, such as workflows, and folders, in whose texts they are found; `-` is the lines of standard input, which are read without a TARGET or FILE too")),
        Arg::new("file")
            .short('f')
            .long("file")
            .value_name("FILE")
            .action(ArgAction::Append)
            .value_parser(value_parser!(PathBuf))
            .value_hint(ValueHint::FilePath)
            .help("Answer for each line of FILE too; `-` is standard input")
            .long_help(wrapped("Answer for the lines of FILE too, which are all targets, blank lines and comments apart; `-` is standard input. May be given more than once")),
        flag("paths", "Take each TARGET as the path of a text or a folder, also if it is a name")
            .requires("target")
            .hide_short_help(true),
        Arg::new("first-line")
            .long("first-line")
            .value_name("N")
            .value_parser(value_parser!(NonZeroUsize))
            .hide_short_help(true)
            .help("The number of the first line, such as where FILE is one part of a longer list"),
        flag("null", "End targets in files, and answers, with a zero byte instead of a line feed")
            .short('0')
            .hide_short_help(true),
        flag("quiet", "Write nothing, and end at the first refused target: see the status")
            .short('q')
            .conflicts_with_all(["json", "json-lines"]),
        Arg::new("max-errors")
            .long("max-errors")
            .value_name("N")
            .value_parser(value_parser!(NonZeroUsize))
            .hide_short_help(true)
            .help("End after N targets were refused, at least one"),
        flag("strict", "Refuse custom vendors, except rustc's, and what `check` can't judge"),
        Arg::new("vendors")
            .long("vendors")
            .value_name("LIST")
            .action(ArgAction::Append)
            .value_delimiter(',')
            .hide_short_help(true)
            .help("Custom vendors that are meant, such as `sony,acme`"),
        flag("json", "Write one JSON array on one line").conflicts_with("json-lines"),
        flag("json-lines", "Write one JSON object per line").conflicts_with("format").hide_short_help(true),
        Arg::new("format")
            .long("format")
            .value_name("FORMAT")
            .value_parser(PossibleValuesParser::new(["human", "json", "json-lines", "github"]))
            .conflicts_with("json")
            .hide_possible_values(true)
            .help("How to write: human, json, json-lines, or github's annotations"),
        Arg::new("color")
            .long("color")
            .value_name("WHEN")
            .value_parser(PossibleValuesParser::new(["auto", "always", "never"]))
            .default_value("auto")
            .hide_short_help(true)
            .help("Colour what is refused; `auto` does on a terminal, unless NO_COLOR is set"),
    ])
}

pub fn command() -> Command {
    Command::new("target-lexicon")
        .version(env!("CARGO_PKG_VERSION"))
        .about("Answers questions about target triples such as x86_64-unknown-linux-gnu")
        .after_help(
            "Examples:\n  \
             $ target-lexicon explain x86_64-pc-linux-gnuu\n  \
             $ target-lexicon check .github/workflows/*.yml rust-toolchain.toml\n  \
             $ target-lexicon settle --from oci linux/arm64\n\n\
             Status: 0 if all targets were parsed, 1 if one was refused, 2 for wrong arguments,\n\
             3 if something couldn't be read or written. `target-lexicon --manual` writes the manual page.",
        )
        .args_override_self(true)
        .arg_required_else_help(true)
        .args_conflicts_with_subcommands(true)
        .arg(flag("manual", "Write the manual page"))
        .subcommands(commands())
}

/// The dialect of an option, which some calls don't have.
pub fn dialect_of(arguments: &ArgMatches, option: &str) -> Option<Dialect> {
    let word = arguments.try_get_one::<String>(option).ok()??;
    word.parse().ok()
}

pub fn libcs_of(arguments: &ArgMatches) -> Vec<ChosenLibc> {
    let words = arguments.try_get_many::<String>("libc").ok().flatten();
    let libcs = words.unwrap_or_default().map(|word| word.parse().ok());
    libcs.flatten().collect()
}
