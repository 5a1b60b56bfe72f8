//! `completions`: a completion script for a shell.
use super::*;
use crate::arguments;
use clap::{value_parser, Arg};
use clap_complete::Shell;

pub fn command() -> Command {
    Command::new("completions")
        .about("Write a completion script for a shell")
        .after_help(
            "Example:\n  $ target-lexicon completions bash > ~/.local/share/bash-completion/completions/target-lexicon",
        )
        .arg(Arg::new("shell").required(true).value_name("SHELL").value_parser(value_parser!(Shell)))
}

pub fn run(arguments: &ArgMatches) -> Result<i32, Fault> {
    let shell = *arguments.get_one("shell").expect("a shell is required");
    write_only(|page| page.script(&script(shell)))
}

fn script(shell: Shell) -> String {
    let mut script = Vec::new();
    clap_complete::generate(shell, &mut arguments::command(), "target-lexicon", &mut script);
    let script = String::from_utf8_lossy(&script);
    match shell {
        // Before clap_complete 4.1 the script only works as a file that zsh loads itself, and fails if it is sourced.
        Shell::Zsh => script.replace(
            "\n_target-lexicon \"$@\"",
            "\nif [ \"$funcstack[1]\" = \"_target-lexicon\" ]; then\n    _target-lexicon \"$@\"\nelse\n    compdef _target-lexicon target-lexicon\nfi",
        ),
        // For fish it leaves out the values of an argument that is no option's.
        Shell::Fish => arguments::command().get_subcommands().fold(script.into(), |script, call| {
            let values = call.get_positionals().flat_map(Arg::get_possible_values);
            let words: Vec<_> = values.map(|it| it.get_name().to_string()).collect();
            let seen = format!("__fish_seen_subcommand_from {}", call.get_name());
            let line = format!("complete -c target-lexicon -n \"{seen}\" -f -a \"{}\"\n", words.join(" "));
            script + if words.is_empty() { "" } else { &line }
        }),
        // For bash the names of arguments are among the words that it offers.
        _ => script.replace(" [TARGET]...", ""),
    }
}
