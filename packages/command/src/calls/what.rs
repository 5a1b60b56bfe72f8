//! `what`: what a name of any tool means, by which tools, and what every tool calls it.
use super::*;
use crate::arguments::written;
use crate::refusal::reason;
use target_lexicon::{OperatingSystem, VendorRef};
use target_names::{meanings, vendor_suggestion, ChosenLibc, Dialect, Evidence, Meaning, Meant, NameOf, Sense};

pub fn command() -> Command {
    of_targets(
        "what",
        "Show what a name of any tool means, and what every tool calls it",
        "Example:\n  $ target-lexicon what linux/amd64,linux/arm64 --libc glibc",
    )
    .mut_arg("target", |names| names.value_name("NAME"))
    .mut_arg("strict", |strict| strict.hide(true))
    .mut_arg("vendors", |vendors| vendors.hide(true))
    .arg(libc())
}

pub struct What;

impl Call for What {
    fn answer<'a>(&mut self, target: Target<'a>, reader: &Reader) -> Outcome<'a> {
        let meanings = Meanings::of(target.text, reader.libc)?;
        reader.needs_libc_if(|| meanings.is_completed);
        Ok(meanings.into())
    }

    fn takes(&self) -> Takes {
        Takes::Names
    }
}

/// What a name means: each triple, with the level of its machine, and the tools that mean it, or `words`, if no tool does
/// and the words of the name say just that; the reason of each tool that has the name for no triple; and otherwise what
/// is known.
struct Meanings<'a> {
    text: &'a str,
    meanings: Vec<(Sense<'a>, Vec<&'static str>)>,
    without_triple: Vec<(&'static str, &'static str)>,
    known: Option<String>,
    libc: Option<ChosenLibc>,
    /// Whether a meaning states no C library, and has that of `libc` here.
    is_completed: bool,
}

impl<'a> Meanings<'a> {
    fn of(text: &'a str, libc: Option<ChosenLibc>) -> Result<Self, Refusal<'a>> {
        let mut what =
            Meanings { text, meanings: Vec::new(), without_triple: Vec::new(), known: None, libc, is_completed: false };
        for Meaning { of, sense } in meanings(text) {
            match sense {
                Ok(sense) => what.add(sense, of.name()),
                Err(why) => what.without_triple.push((of.name(), why)),
            }
        }
        let evidence = Evidence::of(text);
        let is_unknown = what.meanings.is_empty() && what.without_triple.is_empty();
        if is_unknown && (evidence.is_empty() || !text.is_ascii() || Meant::by(text).is_some()) {
            return Err(Refusal::unknown_to_all(text, None));
        }
        what.known = (is_unknown || evidence.is_any_arm() && !evidence.has_system()).then(|| evidence.to_string());
        what.meanings.sort_by_key(|it| it.0.triple.operating_system == OperatingSystem::None_); // bare metal is last
        Ok(what)
    }

    fn add(&mut self, sense: Sense<'a>, tool: &'static str) {
        let completed = match self.libc {
            Some(libc) => sense.triple.with_c_library(libc),
            None => sense.triple,
        };
        self.is_completed |= completed != sense.triple;
        let sense = Sense { triple: canonical(completed), ..sense };
        match self.meanings.iter_mut().find(|it| it.0 == sense) {
            Some((_, tools)) => tools.push(tool),
            None => self.meanings.push((sense, vec![tool])),
        }
    }

    /// What tools mean by the name that its triple doesn't say.
    fn notes<'b>(&'b self, tools: &'b [&'static str]) -> impl Iterator<Item = String> + 'b {
        let dialects = tools.iter().filter_map(|it| it.parse::<Dialect>().ok());
        dialects.filter_map(|it| Some(format!("{it}: {}", it.note(self.text)?)))
    }

    /// That the vendor of a meaning is custom, which may be a misspelling. Nothing of a target of rustc.
    fn note(&self, triple: &TripleRef<'_>) -> Option<String> {
        let VendorRef::Custom(vendor) = triple.vendor else { return None };
        if self.meanings.iter().any(|(_, tools)| tools.contains(&Dialect::Rust.name())) {
            return None;
        }
        let meant = vendor_suggestion(triple).map(|it| format!("; did you mean `{it}`?"));
        Some(format!("`{vendor}` is a custom vendor{}", meant.unwrap_or_default()))
    }
}

impl Answer for Meanings<'_> {
    /// For each meaning a line with the tools that mean it, a note about its vendor, a line for each tool that has a
    /// name for it, and a line for each reason why others have none; or what is known.
    fn write(&self, page: &mut Page<'_>) -> io::Result<()> {
        show!(page, visible(self.text), "\n")?;
        for (sense, tools) in &self.meanings {
            show!(page, "  is ", sense.triple)?;
            if !sense.level.is_empty() {
                show!(page, " of the level ", sense.level)?;
            }
            match tools[..] {
                [by] if by == NameOf::Words.name() => page.put(", by its words\n")?,
                _ => show!(page, ", as ", tools.join(", "), "\n")?,
            }
            let own = self.note(&sense.triple).into_iter();
            for note in own.chain(self.notes(tools)) {
                show!(page, "    note    ", note, "\n")?;
            }
            let mut unnamed: Vec<(&str, Vec<&str>)> = Vec::new();
            for dialect in written() {
                match dialect.write_with(*sense, self.libc) {
                    Ok(name) => show!(page, "    ", padded(dialect, 8), name, "\n")?,
                    Err(_) if tools.contains(&dialect.name()) => {}
                    Err(error) => {
                        let (why, tool) = (reason(error), dialect.name());
                        match unnamed.iter_mut().find(|(it, _)| *it == why) {
                            Some((_, tools)) => tools.push(tool),
                            None => unnamed.push((why, vec![tool])),
                        }
                    }
                }
            }
            for (why, tools) in unnamed {
                show!(page, "    -       ", tools.join(", "), ": ", why, "\n")?;
            }
        }
        for (tool, why) in &self.without_triple {
            show!(page, "  is a name of ", *tool, " without a triple: ", *why, "\n")?;
        }
        self.known.iter().try_for_each(|it| show!(page, "  is known in part: ", visible(it), "\n"))
    }

    fn members(&self) -> Object<'_> {
        let meaning = |(sense, tools): &(Sense<'_>, Vec<_>)| {
            let (mut names, mut reasons) = (Object::new(), Object::new());
            for dialect in written() {
                let name = dialect.write_with(*sense, self.libc);
                let why = name.as_ref().err().map(|it| it.reason());
                reasons.extend(why.map(|it| (dialect.name(), it.into())));
                names.push((dialect.name(), name.ok().map(|it| it.to_string()).into()));
            }
            let own = self.note(&sense.triple).into_iter();
            let notes: Vec<String> = own.chain(self.notes(tools)).collect();
            let tools = tools.iter().map(|it| Json::from(*it));
            Json::Object(vec![
                ("canonical", sense.triple.to_string().into()),
                ("level", (!sense.level.is_empty()).then_some(sense.level).into()),
                ("tools", Json::List(tools.collect())),
                ("note", (!notes.is_empty()).then(|| notes.join("; ")).into()),
                ("names", Json::Object(names)),
                ("reasons", Json::Object(reasons)),
            ])
        };
        let meanings = self.meanings.iter().map(meaning).collect();
        let reasons = self.without_triple.iter();
        let reasons = reasons.map(|(tool, why)| (*tool, Json::from(*why)));
        vec![
            ("meanings", Json::List(meanings)),
            ("without_triple", Json::Object(reasons.collect())),
            ("known", self.known.clone().into()),
        ]
    }
}
