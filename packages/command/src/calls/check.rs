//! `check`: only what is refused.
use super::*;
use crate::reader::Meant;
use target_names::{meanings, Meaning, NameOf};

pub fn command() -> Command {
    of_targets(
        "check",
        "Write only what is refused: nothing, if all targets parse",
        "In the text of a file, a name of any tool is right, and what resembles a name is wrong.\n\
         In arguments and lines of -f, a custom vendor that resembles a name is wrong, too.\n\
         Of a folder all files are read, except what tools fetch and build.\n\n\
         Examples:\n  $ target-lexicon check --strict -f targets.txt\n  \
         $ target-lexicon check --format github .github/workflows/*.yml rust-toolchain.toml",
    )
    .arg(from())
}

pub struct Check;

impl Call for Check {
    fn answer<'a>(&mut self, target: Target<'a>, reader: &Reader) -> Outcome<'a> {
        let text = target.text;
        let is_name = |it: Meaning<'_>| reader.from.map(NameOf::Dialect) == Some(it.of);
        match reader.meaning_of(target) {
            Ok(Meant::Triple(_, Some(warning))) if !warning.is_of_level() => Err(warning.into_error()),
            // Without a triple it is a name, too.
            Err(_) if meanings(text).any(is_name) => Ok(Answered::default()),
            meaning => meaning.map(|_| Answered::default()),
        }
    }

    fn with_names(&self) -> String {
        "check".into()
    }
}
