//! `names`: the known names of a field or of a tool.
use super::*;
use crate::arguments::{dialect_of, dialects};
use clap::builder::PossibleValuesParser;
use clap::Arg;
use target_names::known_names;

/// The word for the names of the dialects.
const DIALECTS: &str = "dialects";

pub fn command() -> Command {
    let fields = FIELDS.iter().map(|(name, _)| *name);
    let words = fields.chain([DIALECTS]).chain(dialects());
    Command::new("names")
        .about("List the known names of a field or of a tool, or of all fields; or the dialects")
        .after_help("Examples:\n  $ target-lexicon names environment\n  $ target-lexicon names debian")
        .arg(
            Arg::new("of")
                .value_name("FIELD|DIALECT")
                .hide_possible_values(true)
                .help("A field, such as `environment`; a tool; or `dialects`")
                .value_parser(PossibleValuesParser::new(words)),
        )
        .arg(flag("json", "Write one JSON object, of a list for each field or tool"))
}

pub fn run(arguments: &ArgMatches) -> Result<i32, Fault> {
    write_only(|page| write_names(page, arguments))
}

/// The names of the requested field or dialect, those of the dialects, or of each field below its own name.
fn write_names(page: &mut Page<'_>, arguments: &ArgMatches) -> io::Result<()> {
    let requested = arguments.get_one("of").map(String::as_str);
    let fields = FIELDS.iter().filter(|(key, _)| requested.map_or(true, |it| it == *key));
    let lists: Vec<(_, Vec<&'static str>)> = match (dialect_of(arguments, "of"), requested) {
        (Some(dialect), _) => vec![(dialect.name(), dialect.names().collect())],
        (None, Some(DIALECTS)) => vec![(DIALECTS, dialects().collect())],
        _ => fields.map(|(key, field)| (*key, known_names(*field).to_vec())).collect(),
    };
    if arguments.get_flag("json") {
        let list = |names: Vec<&'static str>| Json::List(names.into_iter().map(Json::from).collect());
        return show!(page, Json::Object(lists.into_iter().map(|(key, names)| (key, list(names))).collect()), "\n");
    }
    for (key, names) in lists {
        let indent = if requested.is_none() { "  " } else { "" };
        if requested.is_none() {
            show!(page, key, "\n")?;
        }
        names.into_iter().try_for_each(|name| show!(page, indent, name, "\n"))?;
    }
    Ok(())
}
