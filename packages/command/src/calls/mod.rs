//! The subcommands, each in a file.
mod cfg;
mod check;
mod completions;
mod explain;
mod facts;
mod matrix;
mod names;
mod settle;
mod translate;
mod what;

// Each file takes these by `use super::*`.
use crate::arguments::{flag, from, keep_lines, libc, of_targets};
use crate::fault::Fault;
use crate::fields::{canonical, FIELDS};
use crate::input::Target;
use crate::json::{Json, Object};
use crate::output::{write_only, Outputs};
use crate::reader::{Reader, Takes};
use crate::refusal::Refusal;
use crate::run::Run;
use crate::shown::{padded, show, visible, Page};
use clap::{ArgMatches, Command};
use std::io;
use target_lexicon::TripleRef;
use target_names::TargetInfo;
pub use translate::version_conflict;

/// A subcommand that answers for targets.
pub trait Call {
    fn answer<'a>(&mut self, target: Target<'a>, reader: &Reader) -> Outcome<'a>;

    /// How targets are given, without `--from`.
    fn takes(&self) -> Takes {
        Takes::Triples
    }

    /// The command with which names of a tool are read: this one, if it does.
    fn with_names(&self) -> String {
        "settle".into()
    }

    /// Whether JSON has an object for a target that is refused.
    fn has_refused_objects(&self) -> bool {
        true
    }

    /// Ends what is written. `is_whole` says that no target was refused.
    fn end(&mut self, outputs: &mut Outputs, _is_whole: bool) -> Result<(), Fault> {
        outputs.end(true)
    }
}

type Outcome<'a> = Result<Answered<'a>, Refusal<'a>>;

/// What is written for a target, if anything, and a warning before it.
#[derive(Default)]
pub struct Answered<'a> {
    pub answer: Option<Box<dyn Answer + 'a>>,
    pub warning: Option<Refusal<'a>>,
}

pub trait Answer {
    /// Writes the lines of the answer.
    fn write(&self, page: &mut Page<'_>) -> io::Result<()>;

    /// What an object has after the members of the target.
    fn members(&self) -> Object<'_>;
}

impl<'a, T: Answer + 'a> From<T> for Answered<'a> {
    fn from(answer: T) -> Self {
        Answered { answer: Some(Box::new(answer)), warning: None }
    }
}

pub fn commands() -> [Command; 10] {
    [
        explain::command(),
        facts::command(),
        settle::command(),
        check::command(),
        matrix::command(),
        translate::command(),
        cfg::command(),
        what::command(),
        names::command(),
        completions::command(),
    ]
}

/// Runs the subcommand of this name. Returns the status.
pub fn run(name: &str, arguments: &ArgMatches) -> Result<i32, Fault> {
    let mut call: Box<dyn Call> = match name {
        "explain" => Box::new(explain::Explain),
        "facts" => {
            let keys = arguments.get_many("get").unwrap_or_default().cloned().collect();
            Box::new(facts::Facts { keys })
        }
        "settle" => Box::new(settle::Settle { shows_changes: arguments.get_flag("changes") }),
        "check" => Box::new(check::Check),
        "matrix" => Box::new(matrix::Matrix::new(arguments)),
        "translate" => Box::new(translate::Translate::new(arguments)),
        "cfg" => Box::new(cfg::Cfg::default()),
        "what" => Box::new(what::What),
        "names" => return names::run(arguments),
        "completions" => return completions::run(arguments),
        other => unreachable!("{other} is no subcommand"),
    };
    Run::new(&mut *call, arguments).finish(arguments)
}
