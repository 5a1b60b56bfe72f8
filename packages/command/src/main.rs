//! The command `target-lexicon`. What it says of a target it asks the crates `target-lexicon` and `target-names`; here
//! is how targets are read, and how answers are laid out. `calls` has a file for each subcommand.
#![deny(unsafe_code)] // except where `streams` looks before the runtime starts

mod arguments;
mod calls;
mod fault;
mod fields;
mod help;
mod input;
mod json;
mod output;
mod progress;
mod reader;
mod refusal;
mod run;
mod shown;
mod streams;
mod usage;

use clap::error::ErrorKind;
use clap::ArgMatches;
use fault::Fault;
use output::write_only;
use std::{env, process};

/// Runs what the arguments say. Returns the status.
fn run(arguments: &ArgMatches) -> Result<i32, Fault> {
    if arguments.get_flag("manual") {
        return write_only(|page| page.put(include_str!("../man/target-lexicon.1")));
    }
    match arguments.subcommand() {
        Some((name, arguments)) => {
            let conflict = arguments::libc_conflict(name, arguments).or_else(|| calls::version_conflict(arguments));
            conflict.map_or_else(|| calls::run(name, arguments), |it| usage::show(&it))
        }
        None => {
            let mut command = arguments::command();
            usage::show(&command.error(ErrorKind::MissingSubcommand, "a command is missing"))
        }
    }
}

fn main() {
    let is_help = env::args_os().nth(1).map_or(false, |it| it == "help");
    let words = env::args_os().filter(|it| !is_help || it != "--help" && it != "-h");
    let ended = match arguments::command().try_get_matches_from(words) {
        Ok(arguments) => run(&arguments),
        Err(error) => usage::show(&error),
    };
    process::exit(ended.unwrap_or_else(Fault::report));
}
