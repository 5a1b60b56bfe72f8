//! What the user may have meant by a target that is refused.
use crate::calls::Call;
use crate::input::{end_of_line, Place, Target};
use crate::reader::{Reader, Takes};
use crate::refusal::{Names, Refusal};
use clap::ArgMatches;
use std::collections::HashMap;
use std::path::Path;
use target_lexicon::TripleRef;
use target_names::{readers, vendor_suggestion, Dialect, Meant, Mistake, NameOf, Note, Sense, Suggest as _};

#[derive(Clone)]
pub struct Help {
    pub suggestion: Option<String>,
    pub note: Option<String>,
}

pub struct Helper {
    takes: Takes,
    /// The command, or one that reads names of a tool as it doesn't.
    command: String,
    has_zero_bytes: bool,
    /// What is said of lines that were refused before: lists repeat their mistakes.
    remembered: HashMap<String, Help>,
}

/// How many refused lines are remembered, and how long these may be.
const REMEMBERED: usize = 10_000;
const REMEMBERED_LENGTH: usize = 100;

impl Helper {
    pub fn new(call: &dyn Call, reader: &Reader, arguments: &ArgMatches) -> Self {
        Helper {
            takes: match reader.from {
                Some(_) => Takes::Names,
                None if reader.is_spelled => Takes::Spellings,
                None => call.takes(),
            },
            command: call.with_names(),
            has_zero_bytes: end_of_line(arguments) == 0,
            remembered: HashMap::new(),
        }
    }

    /// What the user may have meant. It is remembered for a line that isn't long.
    pub fn help(&mut self, target: Target<'_>, refusal: &Refusal<'_>) -> Help {
        if let Some(help) = self.remembered.get(target.text) {
            return help.clone();
        }
        let Help { suggestion, note } = help_of_names(refusal, target.text);
        let is_said = refusal.has_reason() || refusal.is_of_level();
        let note = note.or_else(|| if is_said { None } else { self.note(target) });
        let may_be = suggestion.is_none() && (refusal.is_of_triple() || !target.text.is_ascii());
        let of_text = || if may_be { shown(Note::of(target.text.trim(), None)) } else { None };
        let note = note.or_else(of_text);
        let note = self.triple_note(target.text, refusal, note);
        let help = Help { suggestion, note };
        if self.remembered.len() < REMEMBERED
            && target.text.len() <= REMEMBERED_LENGTH
            && matches!(target.place, Place::Line { .. })
        {
            self.remembered.insert(target.text.to_string(), help.clone());
        }
        help
    }

    /// A note, and which command takes a triple, if that is what isn't a tool's name.
    fn triple_note(&self, text: &str, refusal: &Refusal<'_>, note: Option<String>) -> Option<String> {
        let is_triple = || TripleRef::from_str(text).map_or(false, |it| !it.vendor.is_custom());
        if !refusal.is_unknown_name() || !text.contains('-') || !is_triple() {
            return note;
        }
        let (command, before) = (&self.command, note.map_or(String::new(), |it| format!("{it}; ")));
        Some(format!("{before}it is a triple, which `target-lexicon {command}` and `target-lexicon what` take"))
    }

    /// What is known of the target, whatever names it resembles.
    fn note(&self, target: Target<'_>) -> Option<String> {
        let text = target.text.trim();
        if matches!(target.place, Place::Argument(_)) && Path::new(text).exists() {
            return Some("a file or a folder has this name, which `--paths` reads".into());
        }
        let of_other_tools = match self.takes {
            Takes::Triples if TripleRef::from_str(text).is_err() => {
                readers_note(&format!("target-lexicon {} ", self.command), text)
            }
            Takes::Spellings => readers_note("", text),
            _ => None,
        };
        if of_other_tools.is_some() {
            return of_other_tools;
        }
        let note = match target.place {
            _ if text.contains('\0') && !self.has_zero_bytes => {
                "it has zero bytes: `-0` reads what ends with one, and UTF-16 must be UTF-8 here"
            }
            _ if self.takes == Takes::Spellings && text.contains('/') => "a name of another tool needs `--from`",
            Place::Argument(_) if self.takes != Takes::Spellings && is_like_file(text) => {
                "no file has this name either"
            }
            _ => return None,
        };
        Some(note.into())
    }
}

/// Whether a string begins as a path, or ends as the name of a file.
fn is_like_file(text: &str) -> bool {
    let (_, end) = text.rsplit_once('.').unwrap_or_default();
    text.starts_with(['.', '/']) || !end.is_empty() && end.bytes().all(|it| it.is_ascii_lowercase())
}

/// How others read a string, or why no triple means the same. `command` comes before the option.
pub fn readers_note(command: &str, text: &str) -> Option<String> {
    let mut options = Vec::new();
    for meaning in readers(text) {
        match (meaning.of, meaning.sense) {
            (NameOf::Dialect(dialect), Ok(_)) => options.push(format!("`{command}--from {dialect}`")),
            (_, Ok(Sense { triple, .. })) => {
                return Some(format!("other tools mean `{triple}`, which `target-lexicon settle --from llvm` gives"));
            }
            (tool, Err(why)) => return Some(format!("it is a name of {} without a triple: {why}", tool.name())),
        }
    }
    (!options.is_empty()).then(|| format!("it is a name of another tool: use {}", options.join(" or ")))
}

/// What is suggested for a part of this target, and what is wrong with a name that a dialect doesn't have.
fn help_of_names(refusal: &Refusal<'_>, target: &str) -> Help {
    let (suggestion, note) = match &refusal.names {
        Names::OfParts(refusal) => (shown(refusal.suggestion_in(target)), None),
        Names::OfVendors(triple) => (shown(vendor_suggestion(triple)), None),
        Names::OfAll(name, near) => {
            let meant = Meant::by(name).or(*near).map(|it| it.to_string());
            let has = |it: &&Dialect| meant.as_deref() == it.suggestion(name);
            let mistake = Dialect::ALL.iter().find(has).filter(|_| meant.is_some()).and_then(|it| it.mistake(name));
            let mistake = mistake.filter(|it| !matches!(it, Mistake::NoTriple(_)));
            let note = shown(mistake).or_else(|| if meant.is_some() { None } else { shown(Note::of(name, None)) });
            (meant, note)
        }
        Names::OfDialect(dialect, name) => {
            let suggestion = dialect.suggestion(name);
            let is_file = suggestion.is_none() && is_like_file(name);
            let note = Note::of(name, Some(*dialect));
            (shown(suggestion), shown(note.filter(|it| !is_file || !matches!(it, Note::Mistake(Mistake::Path)))))
        }
        Names::No => (None, None),
    };
    Help { suggestion, note }
}

fn shown<T: ToString>(value: Option<T>) -> Option<String> {
    value.map(|it| it.to_string())
}
