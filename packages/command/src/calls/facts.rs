//! `facts`: the fields, and what a compiler asks.
use super::*;
use crate::arguments::wrapped;
use crate::fields::{name_of, version};
use clap::builder::PossibleValuesParser;
use clap::{Arg, ArgAction};
use target_lexicon::{Architecture, Field, Named as _, PointerWidth};

pub fn command() -> Command {
    of_targets(
        "facts",
        "Show the fields of a target, and what a compiler asks",
        "Example:\n  $ target-lexicon facts --json x86_64-unknown-linux-gnu | jq '.[].pointer_width'",
    )
    .args([from(), libc(), keep_lines().requires("get")])
    .arg(
        Arg::new("get")
            .long("get")
            .value_name("FACTS")
            .action(ArgAction::Append)
            .value_delimiter(',')
            .value_parser(PossibleValuesParser::new(keys()))
            .hide_possible_values(true)
            .help("Write only the values of these, with tabs between; nothing for one that has none")
            .long_help(wrapped(&format!(
                "Write only the values of these, with commas between here and tabs there; nothing for one that has none. They are of {}",
                keys().collect::<Vec<_>>().join(", ")
            ))),
    )
}

/// The names of all facts.
fn keys() -> impl Iterator<Item = &'static str> {
    let unknown = FactsOf { text: "", triple: TripleRef::unknown(), keys: Vec::new() };
    let keys: Vec<_> = unknown.members().into_iter().map(|it| it.0).collect();
    keys.into_iter()
}

pub struct Facts {
    /// Those that are asked for; none, if all are.
    pub keys: Vec<String>,
}

impl Call for Facts {
    fn answer<'a>(&mut self, target: Target<'a>, reader: &Reader) -> Outcome<'a> {
        let (triple, _) = reader.meaning(target.text)?;
        Ok(FactsOf { text: target.text, triple, keys: self.keys.clone() }.into())
    }

    fn with_names(&self) -> String {
        "facts".into()
    }
}

struct FactsOf<'a> {
    text: &'a str,
    triple: TripleRef<'a>,
    keys: Vec<String>,
}

impl Answer for FactsOf<'_> {
    fn write(&self, page: &mut Page<'_>) -> io::Result<()> {
        let facts = self.members();
        for (key, left) in self.keys.iter().zip((0..self.keys.len()).rev()) {
            match facts.iter().find(|it| it.0 == key) {
                Some((_, Json::Text(text))) => page.put(visible(text))?,
                Some((_, Json::Bool(is_so))) => page.put(visible(is_so))?,
                Some((_, Json::Number(number))) => page.put(*number)?,
                _ => {}
            }
            page.put(if left > 0 { "\t" } else { "\n" })?;
        }
        if !self.keys.is_empty() {
            return Ok(());
        }
        let width = facts.iter().map(|(key, _)| key.len()).max().unwrap_or(0);
        show!(page, visible(self.text), "\n")?;
        for (key, answer) in facts {
            show!(page, "  ", padded(key, width), "  ")?;
            match answer {
                Json::Bool(is_so) => page.put(if is_so { "yes" } else { "no" })?,
                Json::Text(text) => page.put(text)?,
                Json::Number(number) => page.put(number)?,
                _ => show!(page, "-  ", why_none(key))?,
            }
            page.put("\n")?;
        }
        Ok(())
    }

    /// Each fact, with the name that it has in every language.
    fn members(&self) -> Object<'_> {
        let triple = &self.triple;
        let mut members: Object = Vec::new();
        for (key, field) in FIELDS {
            members.push((key, name_of(triple, field).into()));
            if field == Field::OperatingSystem {
                members.push(("version", version(triple).into()));
            }
        }
        let data_model = triple.data_model().ok();
        let (long_double, wchar) = (triple.long_double_layout(), triple.wchar_layout());
        let sizes = triple.type_sizes();
        members.extend([
            // written by tools/names/write: the facts for the command
            ("endianness", triple.endianness().ok().map(|it| it.name()).into()),
            ("pointer_width", triple.pointer_width().ok().map(PointerWidth::bits).into()),
            ("default_calling_convention", triple.default_calling_convention().ok().map(|it| it.name()).into()),
            ("data_model", data_model.map(|it| it.name()).into()),
            ("short_size", sizes.map(|it| it.short).into()),
            ("int_size", sizes.map(|it| it.int).into()),
            ("long_size", sizes.map(|it| it.long).into()),
            ("long_long_size", sizes.map(|it| it.long_long).into()),
            ("float_size", sizes.map(|it| it.float).into()),
            ("double_size", sizes.map(|it| it.double).into()),
            ("implied_format", triple.default_binary_format().to_string().into()),
            ("object_format", triple.object_format().to_string().into()),
            ("family", family(triple.architecture).into()),
            ("is_thumb", matches!(triple.architecture, Architecture::Arm(arm) if arm.is_thumb()).into()),
            ("is_like_darwin", triple.operating_system.is_like_darwin().into()),
            ("has_custom_vendor", triple.vendor.is_custom().into()),
            ("c_library", triple.c_library().map(|it| it.name()).into()),
            ("float_abi", triple.float_abi().map(|it| it.name()).into()),
            ("is_unix", triple.is_unix().into()),
            ("long_double_size", long_double.map(|it| it.size).into()),
            ("long_double_alignment", long_double.map(|it| it.alignment).into()),
            ("wchar_size", wchar.map(|it| it.size).into()),
            ("wchar_alignment", wchar.map(|it| it.alignment).into()),
            ("arm_version", triple.arm_version().into()),
            ("arm_profile", triple.arm_profile().map(|it| it.name()).into()),
            ("char_signedness", triple.char_signedness().map(|it| it.name()).into()),
            ("has_emulated_tls", triple.has_emulated_tls().into()),
            ("has_comdat", triple.has_comdat().into()),
            // end of what is written
            ("llvm_target", triple.llvm_target().to_string().into()),
            ("multiarch_tuple", triple.multiarch_tuple().map(|it| it.to_string()).into()),
            ("printed", triple.to_string().into()),
            ("canonical", canonical(*triple).to_string().into()),
        ]);
        members.retain(|(key, _)| self.keys.is_empty() || self.keys.iter().any(|it| it == key));
        members
    }
}

/// The family of an architecture: all of 32-bit Arm is `arm`. One that is in no larger family is its own.
fn family(architecture: Architecture) -> String {
    match format!("{architecture:?}").split_once('(') {
        Some((family, _)) => family.to_lowercase(), // as in `Arm(Armv7)`
        None => architecture.name().into(),
    }
}

/// Why a fact has no answer.
fn why_none(key: &str) -> &'static str {
    match key {
        // written by tools/names/write: the reasons for the command
        "version" => "the target states none",
        "endianness" | "pointer_width" => "the architecture doesn't say it",
        "default_calling_convention" => "none is usual on the system",
        "data_model" => "none is known for the machine and the system",
        "short_size" | "int_size" | "long_size" | "long_long_size" | "float_size" | "double_size" => "no source says it of the machine and the system",
        "c_library" => "neither the environment nor the system says it",
        "float_abi" => "neither an environment of 32-bit Arm nor softfloat says it",
        "long_double_size" | "long_double_alignment" | "wchar_size" | "wchar_alignment" => "no source says it of the system and the C library",
        "arm_version" | "arm_profile" => "the architecture is no 32-bit Arm that states it",
        "char_signedness" => "clang doesn't know the architecture, or it isn't sure on the system",
        "multiarch_tuple" => "Debian has no architecture for it, or it depends on the C library",
        // end of what is written
        _ => unreachable!("{key} has an answer"),
    }
}
