//! Why a target is refused.
use crate::fields::key_of;
use crate::help::Help;
use crate::input::{Place, Target};
use crate::json::{Json, Object};
use crate::shown::{show, visible, Page};
use std::fmt;
use std::io;
use target_lexicon::{Field, TextPart, TripleRef};
use target_names::{Dialect, Meant, NameError, WriteError, SHOWN};

pub struct Refusal<'a> {
    /// Whether the target isn't refused.
    is_warning: bool,
    error: String,
    /// The field that the part isn't a name of.
    field: Option<Field>,
    part: TextPart<'a>,
    pub names: Names<'a>,
    /// Why the name of a tool has no triple.
    reason: Option<&'static str>,
}

/// Among which names one is suggested. To find it takes longer than all else, so it is found only where it is shown.
pub enum Names<'a> {
    /// Those of every dialect, and of triples.
    OfAll(&'a str, Option<Meant<'a>>),
    OfParts(target_lexicon::Refusal<'a>),
    OfVendors(TripleRef<'a>),
    OfDialect(Dialect, &'a str),
    No,
}

/// Why a tool has no name for a triple, with the option that would help.
pub fn reason(error: WriteError) -> &'static str {
    match error {
        WriteError::NeedsCLibrary => "it depends on the C library: use `--libc glibc` or `--libc musl`",
        WriteError::NeedsWindowsAbi => "it depends on the ABI of Windows: use `--libc msvc`, `mingw` or `gnullvm`",
        other => other.reason(),
    }
}

impl<'a> Refusal<'a> {
    fn new(error: impl Into<String>, part: TextPart<'a>) -> Self {
        Refusal { is_warning: false, error: error.into(), field: None, part, names: Names::No, reason: None }
    }

    pub fn of_all(error: impl Into<String>, text: &'a str) -> Self {
        Refusal::new(error, TextPart { text, start: 0 })
    }

    pub fn of_part(refusal: target_lexicon::Refusal<'a>) -> Self {
        let name = refusal.expected.and_then(key_of).unwrap_or("field");
        Refusal {
            field: refusal.expected,
            names: Names::OfParts(refusal),
            ..Refusal::new(format!("unrecognized {}", name.replace('_', " ")), refusal.part)
        }
    }

    pub fn of_vendor(triple: TripleRef<'a>, part: TextPart<'a>) -> Self {
        Refusal { field: Some(Field::Vendor), names: Names::OfVendors(triple), ..Refusal::new("custom vendor", part) }
    }

    /// A warning that a name says a level of its machine, or means it, which its triple doesn't.
    pub fn of_level(text: &'a str, level: &str) -> Self {
        let part = text.rfind(level).map(|start| TextPart { text: &text[start..][..level.len()], start });
        let whole = || Refusal::of_all(format!("the triple doesn't state the level {level} of"), text);
        let refusal = part.map_or_else(whole, |part| Refusal::new("the triple doesn't state the level", part));
        Refusal { is_warning: true, ..refusal }
    }

    /// A line with bytes that aren't UTF-8. It is shown with U+FFFD for them, of which the first is where it ends to be
    /// UTF-8.
    pub fn not_utf8(text: &'a str, start: usize) -> Self {
        let end = start + char::REPLACEMENT_CHARACTER.len_utf8();
        let text = &text[start..end];
        Refusal::new("not UTF-8", TextPart { text, start })
    }

    pub fn into_warning(self) -> Self {
        Refusal { is_warning: true, ..self }
    }

    pub fn into_error(self) -> Self {
        Refusal { is_warning: false, ..self }
    }

    /// A name that a dialect doesn't have, or that has no triple.
    pub fn of_name(text: &'a str, dialect: Dialect, error: NameError) -> Self {
        match error {
            NameError::Unknown => Refusal {
                names: Names::OfDialect(dialect, text),
                ..Refusal::of_all(format!("unknown name of {dialect}"), text)
            },
            NameError::WithoutTriple(why) => Refusal {
                reason: Some(why),
                ..Refusal::of_all(format!("no triple means the same as the name of {dialect}"), text)
            },
        }
    }

    /// A target that has no name in a dialect.
    pub fn of_written(text: &'a str, dialect: Dialect, error: WriteError) -> Self {
        Refusal { reason: Some(reason(error)), ..Refusal::of_all(format!("no name of {dialect} for"), text) }
    }

    /// A name that no tool has, and which was perhaps meant.
    pub fn unknown_to_all(text: &'a str, meant: Option<Meant<'a>>) -> Self {
        Refusal { names: Names::OfAll(text, meant), ..Refusal::of_all("no tool has the name", text) }
    }
}

impl Refusal<'_> {
    pub fn has_reason(&self) -> bool {
        self.reason.is_some()
    }

    /// Whether it is of a target that is no triple.
    pub fn is_of_triple(&self) -> bool {
        matches!(self.names, Names::OfParts(_))
    }

    /// Whether it only says that a level is lost.
    pub fn is_of_level(&self) -> bool {
        self.is_warning && self.field.is_none()
    }

    /// Whether it is a name that a dialect doesn't have.
    pub fn is_unknown_name(&self) -> bool {
        matches!(self.names, Names::OfDialect(..))
    }

    /// The place, what is wrong, the target, and carets below the part.
    pub fn write(&self, page: &mut Page<'_>, target: Target<'_>, has_color: bool, help: &Help) -> io::Result<()> {
        let color = |code: &'static str| if has_color { (code, "\x1b[0m") } else { ("", "") };
        let (bold, plain) = color("\x1b[1m");
        let (before, after) = target.text.split_at(self.part.start);
        let column = before.chars().count() + 1;
        let before = last(before);
        let part = visible(self.part.text).shortened().to_string();
        let after = visible(&after[self.part.text.len()..]).shortened();
        if let Place::Line { file, number, indent } = target.place {
            show!(page, bold, visible(file), ":", number, ":", indent + column, ": ", plain)?;
        }
        let ((code, _), kind) = match self.is_warning {
            false => (color("\x1b[1;31m"), "error:"),
            true => (color("\x1b[1;35m"), "warning:"),
        };
        show!(page, code, kind, plain, " ", visible(&self.error), " `", visible(&part), "`\n")?;
        show!(page, "  ", visible(&before), visible(&part), after, "\n")?;
        let carets = "^".repeat(part.len().max(1)); // all shown is ASCII
        show!(page, "  ", " ".repeat(before.len()), code, carets, plain)?;
        match (&help.suggestion, self.reason) {
            (Some(name), _) => {
                let (green, plain) = color("\x1b[1;32m");
                show!(page, " did you mean `", green, visible(name), plain, "`?")?;
            }
            (None, Some(reason)) => show!(page, " ", reason)?,
            (None, None) => {}
        }
        page.put("\n")?;
        match &help.note {
            Some(note) => show!(page, "  ", bold, "note:", plain, " ", visible(note), "\n"),
            None => Ok(()),
        }
    }

    /// An annotation of a workflow of GitHub, which has the place in its properties.
    pub fn annotate(&self, page: &mut Page<'_>, target: Target<'_>, help: &Help) -> io::Result<()> {
        let escaped = |text: &dyn fmt::Display| {
            let text = visible(text).shortened().to_string();
            text.replace('%', "%25").replace(':', "%3A").replace(',', "%2C")
        };
        show!(page, "::", if self.is_warning { "warning" } else { "error" })?;
        if let Place::Line { file, number, indent } = target.place {
            let columns = |text: &str| text.chars().count();
            let column = indent + columns(&target.text[..self.part.start]) + 1;
            let end = column + columns(self.part.text);
            let file = file.strip_prefix("./").unwrap_or(file); // as GitHub names it
            show!(page, " file=", escaped(&file), ",line=", number, ",col=", column, ",endColumn=", end)?;
        }
        let (part, text) = (visible(self.part.text).shortened(), visible(target.text).shortened());
        let mut said = format!("{} `{part}` of `{text}`", self.error);
        if self.part.text == target.text {
            said = format!("{} `{part}`", self.error);
        }
        if let Some(name) = &help.suggestion {
            said += &format!(": did you mean `{}`?", visible(name));
        } else if let Some(reason) = self.reason {
            said += &format!(": {reason}");
        }
        said += &help.note.as_ref().map_or(String::new(), |note| format!(" ({})", visible(note)));
        show!(page, "::", said.replace('%', "%25"), "\n")
    }

    /// What is wrong, as the members of an object.
    pub fn members(&self, help: &Help) -> Object<'_> {
        let error = match self.reason {
            Some(reason) if self.error.starts_with("no triple") => {
                format!("no triple means the same: {reason}")
            }
            Some(reason) => format!("{} it: {reason}", self.error),
            None => self.error.clone(),
        };
        vec![
            ("error", error.into()),
            ("part", self.part.text.into()),
            ("start", self.part.start.into()),
            ("end", self.part.range().end.into()),
            ("field", Json::from(self.field.and_then(key_of))),
            ("suggestion", help.suggestion.clone().into()),
            ("note", help.note.clone().into()),
        ]
    }
}

/// The end of a text, as it is shown before a part.
fn last(text: &str) -> String {
    let start = text.char_indices().nth_back(SHOWN).map_or(0, |(at, _)| at);
    let text = visible(&text[start..]).to_string(); // which is ASCII
    match text.len().checked_sub(SHOWN) {
        None | Some(0) => text,
        Some(at) => format!("...{}", &text[at..]),
    }
}
