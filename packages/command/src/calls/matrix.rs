//! `matrix`: the canonical forms, each once, with what they came from.
use super::*;
use crate::input::end_of_line;
use crate::reader::Meant;
use std::collections::HashMap;
use target_lexicon::{KnownVendor, VendorRef};

pub fn command() -> Command {
    of_targets(
        "matrix",
        "Write each canonical target once, with the places that it came from",
        "Without --json, a line has between tabs the canonical form, the first spelling, how many targets\n\
         have it, and the place of the first.\n\
         If a target is refused, there is no matrix.\n\n\
         Example:\n  $ target-lexicon matrix --json -f targets.txt | jq -c 'map(.canonical)'",
    )
    .arg(flag("ignore-vendor", "Merge targets that differ only in their vendors"))
    .arg(flag("places", "Write all places, instead of the first"))
    .args([from(), libc()])
}

struct Row {
    canonical: String,
    target: String,
    count: usize,
    /// The targets that came to this, and their places: the first one, or all.
    from: Vec<(Json<'static>, String)>,
}

pub struct Matrix {
    rows: Vec<Row>,
    /// The row of a key.
    index: HashMap<String, usize>,
    ignores_vendor: bool,
    keeps_places: bool,
    end_of_line: u8,
}

impl Matrix {
    pub fn new(arguments: &ArgMatches) -> Self {
        Matrix {
            rows: Vec::new(),
            index: HashMap::new(),
            ignores_vendor: arguments.get_flag("ignore-vendor"),
            keeps_places: arguments.get_flag("places"),
            end_of_line: end_of_line(arguments),
        }
    }

    fn add(&mut self, target: Target<'_>, triple: TripleRef<'_>) {
        let canonical_form = canonical(triple);
        let mut key = canonical_form;
        if self.ignores_vendor {
            key = canonical(TripleRef { vendor: VendorRef::Known(KnownVendor::Unknown), ..key });
        }
        let next = self.rows.len();
        let row = *self.index.entry(key.to_string()).or_insert(next);
        if row == next {
            let (canonical, target) = (canonical_form.to_string(), target.text.to_string());
            self.rows.push(Row { canonical, target, count: 0, from: Vec::new() });
        }
        let row = &mut self.rows[row];
        row.count += 1;
        if self.keeps_places || row.count == 1 {
            let members = Json::Object(target.members()).into_owned();
            row.from.push((members, target.place.to_string()));
        }
    }
}

impl Row {
    /// The canonical form, the first spelling, how many targets came to it and the places, between tabs.
    fn write(&self, page: &mut Page<'_>) -> io::Result<()> {
        let places: Vec<&str> = self.from.iter().map(|(_, place)| place.as_str()).collect();
        let (canonical, target) = (visible(&self.canonical), visible(&self.target));
        show!(page, canonical, "\t", target, "\t", self.count, "\t", places.join(" "))
    }

    fn members(self) -> Object<'static> {
        let from = self.from.into_iter().map(|(object, _)| object);
        vec![
            ("canonical", self.canonical.into()),
            ("target", self.target.into()),
            ("count", self.count.into()),
            ("from", Json::List(from.collect())),
        ]
    }
}

impl Call for Matrix {
    fn answer<'a>(&mut self, target: Target<'a>, reader: &Reader) -> Outcome<'a> {
        let (triple, warning) = match reader.meaning_of(target)? {
            Meant::Triple(triple, warning) => (triple, warning),
            Meant::NoTriple(why) => return why.map_or(Ok(Answered::default()), Err),
        };
        self.add(target, triple);
        Ok(Answered { answer: None, warning })
    }

    fn with_names(&self) -> String {
        "matrix".into()
    }

    fn has_refused_objects(&self) -> bool {
        false
    }

    /// A matrix that isn't whole is none, so that nobody takes it for one.
    fn end(&mut self, outputs: &mut Outputs, is_whole: bool) -> Result<(), Fault> {
        let end = if self.end_of_line == 0 { "\0" } else { "\n" };
        for row in self.rows.drain(..).filter(|_| is_whole) {
            if outputs.has_objects() {
                outputs.object(row.members())?;
            } else {
                outputs.write(|page| row.write(page).and_then(|()| page.put(end)))?;
            }
        }
        outputs.end(is_whole)
    }
}
