//! Laws over all strings, tried on generated ones: what is made of the words and separators of names, edited names, and
//! any text. A string that broke a law is kept in laws.regressions, and tried again first.
use proptest::prelude::*;
use proptest::sample::select;
use proptest::test_runner::FileFailurePersistence;
use target_lexicon::{Field, TripleRef};
use target_names::{
    changes, known_names, meanings, read, suggestion, targets_in, ChosenLibc, Dialect, Evidence, FloatAbi, NameError,
    TargetInfo, VersionOf, Versions,
};

const FIELDS: [Field; 5] =
    [Field::Architecture, Field::Vendor, Field::OperatingSystem, Field::Environment, Field::BinaryFormat];

fn libraries() -> impl Iterator<Item = ChosenLibc> {
    let names = "glibc musl msvc mingw gnullvm".split(' ');
    names.map(|it| it.parse().unwrap())
}

/// The names of each row and the words of each list, a number for each star.
fn names() -> Vec<String> {
    let rows = include_str!("../names.csv").lines().skip(1);
    let names = rows.filter_map(|row| row.split(',').nth(1));
    let lists = include_str!("../elsewhere.tsv").lines();
    let lists = lists.filter_map(|line| line.split_once('\t').filter(|it| !it.1.contains('\t')));
    let words = lists.flat_map(|(_, words)| words.split(' '));
    let all = names.chain(words);
    all.map(|it| it.replace(['*', '+', '!'], "11")).collect()
}

/// The texts of the rules for parts that are spelled otherwise, and the names that they become.
fn other_spellings() -> impl Iterator<Item = &'static str> {
    let rows = include_str!("../elsewhere.tsv").lines().filter_map(|row| row.split_once('\t'));
    let rules = rows.filter(|it| ["first", "second", "hard", "later"].contains(&it.0));
    let texts = rules.map(|it| it.1.split('\t').next().unwrap());
    texts.flat_map(|it| it.split(['{', '}', '=', ',', ' '])).map(|it| it.trim_end_matches(['*', '+', '!']))
}

/// Known names, other spellings, words of names, and words that nobody knows.
fn words() -> Vec<String> {
    let known = FIELDS.iter().flat_map(|it| known_names(*it)).copied();
    let mut words: Vec<String> = known.chain(other_spellings()).map(String::from).collect();
    for name in names() {
        words.extend(name.split(['-', '_', '/', ' ']).map(String::from));
    }
    let others = " foo w none kfreebsd é 11.0 \u{202e} PC linux5 macos11.0 gnu2.17".split(' ');
    words.extend(others.map(String::from));
    words
}

/// Known and other words with dashes between them, of which some have a version.
fn spelled() -> impl Strategy<Value = String> {
    let word = (select(words()), prop_oneof![9 => Just(""), 1 => Just("13.2"), 1 => Just("7")]);
    let word = word.prop_map(|(word, version)| word + version);
    prop::collection::vec(word, 1..6).prop_map(|it| it.join("-"))
}

/// Names with an edit, and words with another separator.
fn edited() -> impl Strategy<Value = String> {
    let joined = (prop::collection::vec(select(words()), 1..5), select(vec!["/", "_", " ", "-", "."]));
    let joined = joined.prop_map(|(words, separator)| words.join(separator));
    let name = (select(names()), any::<prop::sample::Index>(), any::<char>(), 0..3);
    let edited = name.prop_map(|(name, index, other, kind)| {
        let mut letters: Vec<char> = name.chars().collect();
        let at = index.index(letters.len() + 1);
        match kind {
            0 => letters.insert(at, other),
            1 if at < letters.len() => letters[at] = other,
            _ => letters.truncate(at),
        }
        letters.into_iter().collect()
    });
    prop_oneof![joined, edited]
}

fn any_text() -> impl Strategy<Value = String> {
    prop_oneof![6 => spelled(), 3 => edited(), 1 => any::<String>()]
}

fn triple(text: &str) -> Option<TripleRef<'_>> {
    TripleRef::from_str(text).ok()
}

fn config(cases: u32) -> ProptestConfig {
    ProptestConfig {
        cases,
        failure_persistence: Some(Box::new(FileFailurePersistence::WithSource("regressions"))),
        ..ProptestConfig::default()
    }
}

proptest! {
    #![proptest_config(config(10_000))]

    #[test]
    fn what_parses_without_a_custom_vendor_or_has_no_changes_is_read_as_it_parses(text in any_text()) {
        if changes(&text).next().is_none() {
            prop_assert_eq!(read(&text), TripleRef::from_str(&text));
        }
        if let Some(it) = triple(&text).filter(|it| !it.vendor.is_custom()) {
            prop_assert_eq!(read(&text), Ok(it));
            prop_assert_eq!(changes(&text).count(), 0);
        }
    }

    /// The part that is refused is the first one up to which the names that the parts spell have no place. If there is
    /// none, it is the second, if that is `softfloat` and the triple of these names states no such thing.
    #[test]
    fn a_refusal_is_at_the_first_such_part(text in spelled()) {
        let (mut start, mut names) = (0, String::new());
        let mut expected = None;
        for part in text.split('-') {
            let change = changes(&text).find(|it| it.part.start == start);
            let spelled = change.map_or(part.to_string(), |it| it.names.to_string());
            names = if start == 0 { spelled } else { format!("{names}-{spelled}") };
            expected = expected.or(triple(&names).is_none().then_some(start));
            start += part.len() + 1;
        }
        let says_soft = text.split('-').nth(1) == Some("softfloat");
        let is_soft = triple(&names).map_or(false, |it| it.float_abi() == Some(FloatAbi::Soft));
        let second = text.find('-').filter(|_| says_soft && !is_soft).map(|at| at + 1);
        let found = read(&text).err().map(|it| it.part.start);
        prop_assert_eq!(found, expected.or(second));
    }

    #[test]
    fn what_was_read_is_read_again_as_its_canonical_form(text in any_text()) {
        if let Ok(it) = read(&text) {
            let printed = it.to_string();
            let canonical = it.settle().unwrap();
            prop_assert_eq!(read(&printed), Ok(canonical));
            let shown = canonical.to_string();
            prop_assert_eq!(read(&shown), Ok(canonical));
        }
    }

    #[test]
    fn a_tag_means_the_same_with_other_separators(text in edited()) {
        let tag = text.replace(['-', '.'], "_");
        prop_assert_eq!(Dialect::Python.read(&text), Dialect::Python.read(&tag));
    }

    #[test]
    fn what_a_name_means_is_canonical_and_its_name_is_read(text in any_text()) {
        for dialect in Dialect::ALL {
            let Ok(it) = dialect.read(&text) else { continue };
            // A target of rustc keeps its vendor.
            let has_vendor = !it.vendor.is_custom() || *dialect == Dialect::Rust;
            prop_assert!(it.comes_back() && has_vendor, "{} {}", dialect, text);
            if let Some(name) = dialect.write(it) {
                match dialect.read(name.as_str()) {
                    Ok(same) => prop_assert!(same == it || same == dialect.shape(&it), "{}", name),
                    Err(why) => prop_assert_ne!(why, NameError::Unknown),
                }
            }
            for library in libraries() {
                let full = it.with_c_library(library);
                prop_assert_eq!(full.endianness(), it.endianness());
                prop_assert_eq!(full.pointer_width().ok(), full.with_c_library(ChosenLibc::Glibc).pointer_width().ok());
            }
        }
    }
}

proptest! {
    #![proptest_config(config(1_000))]

    /// No call panics, whatever the string. The tests are built with checks of overflow.
    #[test]
    fn every_call_returns(text in any_text()) {
        let _ = (Evidence::of(&text).to_string(), meanings(&text).count());
        for part in changes(&text).map(|it| it.part).chain(read(&text).err().map(|it| it.part)) {
            prop_assert_eq!(&text[part.range()], part.text);
        }
        for word in targets_in(&text) {
            prop_assert_eq!(&text[word.part.range()], word.part.text);
            let _ = word.is();
        }
        for field in FIELDS {
            let _ = suggestion(field, &text).map(|it| it.to_string());
        }
        for dialect in Dialect::ALL {
            let _ = dialect.read(&text).map_err(|it| it.to_string());
            let _ = dialect.mistake(&text).map(|it| it.to_string());
            for library in libraries() {
                let _ = dialect.translate(&text, Some(library), Dialect::Rust).map_err(|it| it.to_string());
            }
        }
        if let Some(it) = triple(&text) {
            let _ = (it.rustc_cfg().to_string(), it.llvm_target().to_string(), it.type_sizes(), it.macos_version());
            for dialect in Dialect::ALL {
                let _ = dialect.write_with(it, None).map_err(|it| it.to_string());
                let versions = VersionOf::ALL.into_iter().fold(Versions::none(), |all, it| all.with(it, u16::MAX, u8::MAX));
                let _ = dialect.write_with_versions(it, None, &versions);
            }
        }
    }
}
