//! `settle`: the canonical form.
use super::*;
use crate::reader::Meant;
use target_names::{changes, Change};

pub fn command() -> Command {
    of_targets(
        "settle",
        "Write the canonical form of each target: one string for all its spellings",
        "Examples:\n  $ target-lexicon settle x86_64-linux arm64-linux-gnu\n  \
         $ target-lexicon settle --from oci linux/arm/v7\n  $ target-lexicon settle --from gnu \"$(cc -dumpmachine)\"",
    )
    .args([from(), libc(), keep_lines()])
    .arg(flag("changes", "As --from llvm, and show which parts are read as others").conflicts_with("from"))
}

pub struct Settle {
    pub shows_changes: bool,
}

impl Call for Settle {
    fn answer<'a>(&mut self, target: Target<'a>, reader: &Reader) -> Outcome<'a> {
        let (triple, warning) = match reader.meaning_of(target)? {
            Meant::Triple(triple, warning) => (triple, warning),
            Meant::NoTriple(why) => return why.map_or(Ok(Answered::default()), Err),
        };
        let spelling = self.shows_changes.then_some(target.text);
        let answer: Answered<'a> = Canonical { triple, spelling }.into();
        Ok(Answered { warning, ..answer })
    }
}

struct Canonical<'a> {
    triple: TripleRef<'a>,
    /// The string, if its changes are shown.
    spelling: Option<&'a str>,
}

impl Answer for Canonical<'_> {
    /// With a line for each part of a string that is read as other names, if that is asked.
    fn write(&self, page: &mut Page<'_>) -> io::Result<()> {
        show!(page, canonical(self.triple), "\n")?;
        for change in self.spelling.into_iter().flat_map(changes) {
            match change.part.text {
                "" => page.put("  the empty part")?,
                part => show!(page, "  `", visible(part), "`")?,
            }
            show!(page, " is read as `", visible(change.names), "`\n")?;
        }
        Ok(())
    }

    fn members(&self) -> Object<'_> {
        fn members(change: Change<'_>) -> Json<'_> {
            Json::Object(vec![
                ("part", change.part.text.into()),
                ("start", change.part.start.into()),
                ("end", change.part.range().end.into()),
                ("read_as", change.names.to_string().into()),
            ])
        }
        let mut found = vec![("canonical", canonical(self.triple).to_string().into())];
        if let Some(text) = self.spelling {
            found.push(("changes", Json::List(changes(text).map(members).collect())));
        }
        found
    }
}
