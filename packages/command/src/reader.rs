//! What a target means, by the options of the call.
use crate::arguments::{dialect_of, is_of_windows, libcs_of, SPELLED};
use crate::input::Target;
use crate::refusal::Refusal;
use clap::ArgMatches;
use std::cell::Cell;
use target_lexicon::{OperatingSystem, Source, Sources, TripleRef, VendorRef};
use target_names::{
    is_vendor_of_rustc, meanings, read, vendor_suggestion, ChosenLibc, Dialect, Evidence, NameError, TargetInfo,
    Verdict,
};

/// How targets are given.
#[derive(Clone, Copy, PartialEq, Eq)]
pub enum Takes {
    Triples,
    /// Strings that are spelled like triples, as GNU and LLVM tools print them.
    Spellings,
    /// Names of other tools.
    Names,
}

pub struct Reader {
    /// The dialect whose names are read instead of triples.
    pub from: Option<Dialect>,
    /// Whether strings that are spelled like triples are read instead.
    pub is_spelled: bool,
    /// The C library that the user says, for a triple of Linux or Windows that states none.
    pub libc: Option<ChosenLibc>,
    /// That one, and the one of the other system, if the user says two.
    libcs: Vec<ChosenLibc>,
    /// Whether an answer differs from that without it.
    needs_libc: Cell<bool>,
    is_strict: bool,
    /// How many words of texts may be targets, and aren't understood.
    pub unclear: Cell<usize>,
    /// The custom vendors that are meant.
    vendors: Vec<String>,
}

/// What a target means: a triple, and a warning; or none, and why, unless it isn't understood.
pub enum Meant<'a> {
    Triple(TripleRef<'a>, Option<Refusal<'a>>),
    NoTriple(Option<Refusal<'a>>),
}

/// What a target parses as, and from where.
pub struct Parsed<'a> {
    pub triple: TripleRef<'a>,
    pub sources: Sources<'a>,
    /// That its custom vendor may be a misspelling.
    pub warning: Option<Refusal<'a>>,
}

impl Reader {
    pub fn new(arguments: &ArgMatches) -> Self {
        let vendors = arguments.get_many("vendors").unwrap_or_default();
        let libcs = libcs_of(arguments);
        Reader {
            from: dialect_of(arguments, "from"),
            is_spelled: matches!(arguments.try_get_one::<String>("from"), Ok(Some(word)) if word == SPELLED)
                || matches!(arguments.try_get_one("changes"), Ok(Some(true))),
            libc: libcs.first().copied(),
            libcs,
            needs_libc: Cell::new(false),
            unclear: Cell::new(0),
            is_strict: arguments.get_flag("strict"),
            vendors: vendors.cloned().collect(),
        }
    }

    /// What a triple parses as. A custom vendor that is neither among those that are meant nor rustc's is refused if
    /// that is asked.
    pub fn parse<'a>(&self, text: &'a str) -> Result<Parsed<'a>, Refusal<'a>> {
        let explanation = TripleRef::explain(text);
        let triple = explanation.triple.map_err(Refusal::of_part)?;
        let sources = explanation.sources;
        let warning = match (triple.vendor, sources.vendor) {
            (VendorRef::Custom(vendor), Source::Part(_))
                if is_vendor_of_rustc(vendor) || self.vendors.iter().any(|it| it == vendor) =>
            {
                None
            }
            (VendorRef::Custom(_), Source::Part(part)) if self.is_strict => {
                return Err(Refusal::of_vendor(triple, part));
            }
            (VendorRef::Custom(_), Source::Part(part)) if vendor_suggestion(triple).is_some() => {
                Some(Refusal::of_vendor(triple, part).into_warning())
            }
            _ => None,
        };
        Ok(Parsed { triple, sources, warning })
    }

    /// The triple that a target means, with the C library that the user says; and a warning.
    pub fn meaning<'a>(&self, text: &'a str) -> Result<(TripleRef<'a>, Option<Refusal<'a>>), Refusal<'a>> {
        let (triple, warning) = match self.from {
            None => self.stated(text)?,
            Some(dialect) => match dialect.read_loosely(text) {
                Ok(it) => (it.triple, lost_level(text, it.level)),
                Err(error) => return Err(Refusal::of_name(text, dialect, error)),
            },
        };
        Ok((self.completed(triple), warning))
    }

    /// What a target means, which is any tool's name if it is a word of a text.
    pub fn meaning_of<'a>(&self, target: Target<'a>) -> Result<Meant<'a>, Refusal<'a>> {
        let text = target.text;
        let Some(word) = target.word.filter(|_| self.from.is_none() && !self.is_spelled) else {
            return self.meaning(text).map(|(triple, warning)| Meant::Triple(triple, warning));
        };
        match word.verdict(self.is_strict, |it| self.vendors.iter().any(|of| of == it)) {
            Verdict::WithoutTriple(dialect, why) => {
                Ok(Meant::NoTriple(Some(Refusal::of_name(text, dialect, NameError::WithoutTriple(why)))))
            }
            Verdict::Unclear => {
                self.unclear.set(self.unclear.get() + 1);
                Ok(Meant::NoTriple(None))
            }
            Verdict::Unknown(meant) => Err(Refusal::unknown_to_all(text, meant)),
            Verdict::Right(triple) if !text.contains('-') && is_of_several(text, triple) => {
                Ok(Meant::NoTriple(Some(Refusal::of_all("tools mean different targets by", text))))
            }
            Verdict::Right(triple) if TripleRef::from_str(text) != Ok(triple) => {
                let mut meant = meanings(text).filter_map(|it| it.sense.ok());
                let warning = meant.find(|it| it.triple == triple).and_then(|it| lost_level(text, it.level));
                Ok(Meant::Triple(self.completed(triple), warning))
            }
            Verdict::NearVendor(triple, part) => {
                let warning = Refusal::of_vendor(triple, part).into_warning();
                Ok(Meant::Triple(self.completed(triple), Some(warning)))
            }
            Verdict::Right(_) | Verdict::Refused(_) => {
                self.parse(text).map(|it| Meant::Triple(self.completed(it.triple), it.warning))
            }
        }
    }

    /// The triple of a string that is one, or is spelled like one if that is asked; and a warning.
    pub fn stated<'a>(&self, text: &'a str) -> Result<(TripleRef<'a>, Option<Refusal<'a>>), Refusal<'a>> {
        if self.is_spelled {
            return Ok((read(text).map_err(Refusal::of_part)?, None));
        }
        let parsed = self.parse(text)?;
        Ok((parsed.triple, parsed.warning))
    }

    /// The triple with the C library that the user says.
    fn completed<'a>(&self, triple: TripleRef<'a>) -> TripleRef<'a> {
        let complete = |triple: TripleRef<'a>, libc: &ChosenLibc| triple.with_c_library(*libc);
        let completed = self.libcs.iter().fold(triple, complete);
        self.needs_libc_if(|| completed != triple);
        completed
    }

    /// The C library that the user says for the system of a triple.
    pub fn libc_for(&self, triple: TripleRef<'_>) -> Option<ChosenLibc> {
        let is_windows = triple.operating_system == OperatingSystem::Windows;
        let mut libcs = self.libcs.iter().copied();
        libcs.find(|it| is_of_windows(it.name()) == is_windows).or(self.libc)
    }

    /// Remembers that the C library is needed, which is only asked as long as it wasn't.
    pub fn needs_libc_if(&self, differs: impl FnOnce() -> bool) {
        if self.libc.is_some() && !self.needs_libc.get() {
            self.needs_libc.set(differs());
        }
    }

    /// The C library that the user says, if each answer is the same without it.
    pub fn needless_libc(&self) -> Option<ChosenLibc> {
        self.libc.filter(|_| !self.needs_libc.get())
    }
}

/// Whether tools mean their own system, or another machine, by the name of a machine, such as `amd64` or `armv8`.
fn is_of_several(text: &str, triple: TripleRef<'_>) -> bool {
    use OperatingSystem::{None_, Unknown};
    let evidence = Evidence::of(text);
    let mut meant = meanings(text).filter_map(|it| Some(it.sense.ok()?.triple.operating_system));
    let is_own = TripleRef::from_str(text) == Ok(triple) && !evidence.is_any_arm();
    !evidence.has_system() && (!is_own || meant.any(|it| !matches!(it, None_ | Unknown)))
}

fn lost_level<'a>(text: &'a str, level: &str) -> Option<Refusal<'a>> {
    (!level.is_empty()).then(|| Refusal::of_level(text, level))
}
