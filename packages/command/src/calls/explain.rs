//! `explain`: each field, its value, and where that comes from.
use super::*;
use crate::fields::{name_of, version};
use crate::help::readers_note;
use crate::reader::Parsed;
use target_lexicon::{Field, Source};
use target_names::vendor_suggestion;

pub fn command() -> Command {
    of_targets(
        "explain",
        "Show each field of a target, and where its value comes from",
        "Example:\n  $ target-lexicon explain arm64-apple-ios17",
    )
}

pub struct Explain;

impl Call for Explain {
    fn answer<'a>(&mut self, target: Target<'a>, reader: &Reader) -> Outcome<'a> {
        let text = target.text;
        let parsed = reader.parse(text)?;
        Ok(Explained { text, parsed }.into())
    }
}

struct Explained<'a> {
    text: &'a str,
    parsed: Parsed<'a>,
}

impl Explained<'_> {
    /// How the value of a field came: a word for it, and the part that gave it.
    fn origin(&self, field: Field) -> (&'static str, Option<&str>) {
        let (triple, sources) = (&self.parsed.triple, &self.parsed.sources);
        let source = match field {
            Field::Architecture => sources.architecture,
            Field::Vendor => sources.vendor,
            Field::OperatingSystem => sources.operating_system,
            Field::Environment => sources.environment,
            Field::BinaryFormat => sources.binary_format,
        };
        let own = match field {
            Field::OperatingSystem => triple.operating_system.to_string().into(),
            _ => name_of(triple, field),
        };
        match source {
            Source::Part(part) if part.text == own => ("given", Some(part.text)),
            Source::Part(part) => ("alias", Some(part.text)),
            Source::NotGiven => ("not given", None),
            Source::Implied => ("implied", None),
        }
    }
}

impl Answer for Explained<'_> {
    fn write(&self, page: &mut Page<'_>) -> io::Result<()> {
        let triple = &self.parsed.triple;
        let value = |field| match (field, version(triple)) {
            (Field::OperatingSystem, Some(version)) => format!("{} {version}", name_of(triple, field)).into(),
            _ => name_of(triple, field),
        };
        // A long custom vendor moves no other line. A width over 65,535 would end the program.
        let width = FIELDS.iter().map(|(_, field)| value(*field).len()).filter(|it| *it <= 40).max().unwrap_or(0);
        show!(page, visible(self.text), "\n")?;
        for (key, field) in FIELDS {
            let custom = if field == Field::Vendor && triple.vendor.is_custom() { "custom, " } else { "" };
            show!(page, "  ", padded(key, 17), " ", padded(value(field), width), "  ", custom)?;
            match self.origin(field) {
                ("given", Some(part)) => show!(page, "given as `", visible(part), "`\n")?,
                (word, Some(part)) => show!(page, word, " `", visible(part), "`\n")?,
                (word, None) => show!(page, word, "\n")?,
            }
        }
        let vendor = triple.vendor;
        let suggestion =
            vendor_suggestion(triple).map(|name| format!("`{vendor}` is a custom vendor; did you mean `{name}`?"));
        let others = readers_note("", self.text);
        let (width, environment) = (triple.pointer_width().ok(), triple.environment);
        let width = width.filter(|it| Ok(*it) != triple.architecture.pointer_width());
        let bits = width.map(|it| format!("`{environment}` says that pointers have {} bits", it.bits()));
        for note in suggestion.into_iter().chain(bits).chain(others) {
            show!(page, "  ", padded("note", 17), " ", note, "\n")?;
        }
        Ok(())
    }

    fn members(&self) -> Object<'_> {
        let triple = &self.parsed.triple;
        let mut members: Object = Vec::new();
        for (key, field) in FIELDS {
            let (origin, part) = self.origin(field);
            let source =
                vec![("value", name_of(triple, field).into()), ("origin", origin.into()), ("part", part.into())];
            members.push((key, Json::Object(source)));
            if field == Field::OperatingSystem {
                members.push(("version", version(triple).into()));
            }
        }
        members.push(("has_custom_vendor", triple.vendor.is_custom().into()));
        let suggestion = vendor_suggestion(triple).map(|it| it.to_string());
        members.push(("suggestion", suggestion.into()));
        members
    }
}
