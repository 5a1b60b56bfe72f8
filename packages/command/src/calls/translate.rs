//! `translate`: the name that a tool has for a target.
use super::*;
use crate::arguments::{conflict, dialect, dialect_of, words, written};
use clap::{Arg, ArgAction};
use target_names::{level_spelled, Dialect, Name, Sense, TranslateError, VersionOf, Versions};

pub fn command() -> Command {
    of_targets(
        "translate",
        "Write the name that a tool has for a target, or for what a name of another tool means",
        "Examples:\n  $ target-lexicon translate --to debian aarch64-unknown-linux-gnu\n  \
         $ target-lexicon translate --from oci --to debian --libc glibc linux/amd64,linux/arm64\n  \
         $ target-lexicon translate --to python --glibc 2.17 aarch64-unknown-linux-gnu",
    )
    .args([
        from(),
        dialect("to", words(written()), "The tool whose names are written", "")
            .required(true)
            .action(ArgAction::Append),
        libc(),
        keep_lines(),
    ])
    .args(VersionOf::ALL.map(version_argument))
}

/// A version that a name states: its two numbers.
type Version = (u16, u8);

/// The option with the version of a C library or a system.
fn version_argument(of: VersionOf) -> Arg {
    Arg::new(of.name())
        .long(of.name())
        .value_name("VERSION")
        .action(ArgAction::Append)
        .value_parser(version)
        .hide_short_help(!matches!(of, VersionOf::Glibc | VersionOf::Musl | VersionOf::MacOs))
        .help(format!("The version of {}, where names state it", of.name()))
}

/// The version in an argument such as `2.17`, or `21` for 21.0.
fn version(text: &str) -> Result<Version, String> {
    let (major, minor) = text.split_once('.').unwrap_or((text, "0"));
    match (major.parse(), minor.parse()) {
        (Ok(major), Ok(minor)) if !text.contains('+') => Ok((major, minor)),
        _ => {
            Err("a version has one or two numbers, such as 2.17 or 21: the first up to 65535, the second up to 255"
                .into())
        }
    }
}

/// Two tools, or two versions of one C library or system.
pub fn version_conflict(arguments: &ArgMatches) -> Option<clap::Error> {
    let tools = arguments.try_get_many::<String>("to").ok()??.map(|it| format!("--to {it}"));
    let given = |of: VersionOf| {
        let given = arguments.try_get_many::<Version>(of.name()).ok()??;
        Some(given.map(|(major, minor)| format!("--{} {major}.{minor}", of.name())).collect())
    };
    let mut all = VersionOf::ALL.into_iter().filter_map(given).chain([tools.collect::<Vec<_>>()]);
    all.find_map(|it| Some(conflict(&it[0], it.iter().find(|other| **other != it[0])?)))
}

pub struct Translate {
    to: Dialect,
    versions: Versions,
}

impl Translate {
    pub fn new(arguments: &ArgMatches) -> Self {
        let said = VersionOf::ALL.into_iter().filter_map(|it| Some((it, arguments.get_one::<Version>(it.name())?)));
        Translate {
            to: dialect_of(arguments, "to").expect("a dialect is required"),
            versions: said.fold(Versions::none(), |all, (of, (major, minor))| all.with(of, *major, *minor)),
        }
    }

    fn name<'a>(&self, text: &'a str, reader: &Reader) -> Result<Name, Refusal<'a>> {
        let to = self.to;
        let unwritten = |error| Refusal::of_written(text, to, error);
        let Some(from) = reader.from else {
            let (triple, _) = reader.stated(text)?;
            let meant = Sense { triple, level: level_spelled(text) };
            let libc = reader.libc_for(triple);
            let name = to.write_with_versions(meant, libc, &self.versions).map_err(unwritten)?;
            reader.needs_libc_if(|| to.write_with_versions(meant, None, &self.versions) != Ok(name));
            return Ok(name);
        };
        let meant = from.read_loosely(text);
        let libc = meant.map_or(reader.libc, |it| reader.libc_for(it.triple));
        let name = from.translate_with(text, libc, &self.versions, to).map_err(|error| match error {
            TranslateError::Read(error) => Refusal::of_name(text, from, error),
            TranslateError::Write(error) => unwritten(error),
        })?;
        reader.needs_libc_if(|| from.translate_with(text, None, &self.versions, to) != Ok(name));
        Ok(name)
    }
}

impl Call for Translate {
    fn answer<'a>(&mut self, target: Target<'a>, reader: &Reader) -> Outcome<'a> {
        Ok(self.name(target.text, reader)?.into())
    }

    fn with_names(&self) -> String {
        format!("translate --to {}", self.to)
    }
}

impl Answer for Name {
    fn write(&self, page: &mut Page<'_>) -> io::Result<()> {
        show!(page, *self, "\n")
    }

    fn members(&self) -> Object<'_> {
        vec![("name", self.as_str().into())]
    }
}
