//! What is suggested for edits of names: each line of the input is a field, a dialect or `triple`, a name, and the
//! triple that the name means; or `word`, another name of an architecture, and its triple. Of each name edits of one
//! letter are asked, or each so many-th, and some of two. A suggestion must have its place, and keep machine, width,
//! byte order and float ABI: those of the name, or of a machine that the edited name states by its whole word.
use std::collections::{BTreeMap, BTreeSet, HashMap};
use std::thread;
use target_lexicon::{Architecture, Endianness, PointerWidth, Triple, TripleExt as _, TripleRef};
use target_names::{Dialect, FloatAbi, NameError, Suggest as _, TargetInfo};

/// After which edits of one letter another letter is edited, and which of these edits are asked: each so many-th.
const CONTINUED: usize = 197;
const ASKED: usize = 31;
/// The letters that are put at each place.
const ANYWHERE: [char; 3] = ['q', '7', '_'];

type Said = (String, Option<PointerWidth>, Option<Endianness>, Option<FloatAbi>);

fn said(triple: &TripleRef) -> Said {
    let (width, order) = (triple.pointer_width().ok(), triple.endianness().ok());
    (triple.rustc_cfg().target_arch.to_string(), width, order, triple.float_abi())
}

/// The letters that are put at a place. Nearer to another name are only edits with a letter that this name has there,
/// and so next to the same two letters; any other one does as those that are put anywhere.
#[derive(Default)]
struct Letters {
    after: HashMap<[char; 2], BTreeSet<char>>,
    before: HashMap<[char; 2], BTreeSet<char>>,
}

impl Letters {
    fn of<'a>(names: impl IntoIterator<Item = &'a str>) -> Letters {
        let mut letters = Letters::default();
        for name in names {
            for it in format!("\0\0{name}\0\0").chars().collect::<Vec<_>>().windows(3) {
                letters.after.entry([it[0], it[1]]).or_default().insert(it[2]);
                letters.before.entry([it[1], it[2]]).or_default().insert(it[0]);
            }
        }
        letters
    }

    fn between(&self, before: &[char], after: &[char]) -> BTreeSet<char> {
        let at = |it: Option<&char>| it.copied().unwrap_or('\0');
        let mut last = before.iter().rev();
        let last = [at(last.next()), at(last.next())];
        let found = [self.after.get(&[last[1], last[0]]), self.before.get(&[at(after.first()), at(after.get(1))])];
        let found = found.into_iter().flatten().flatten().filter(|it| **it != '\0');
        ANYWHERE.iter().chain(found).copied().collect()
    }
}

/// Calls for each edit of one letter.
fn edits(name: &[char], letters: &Letters, each: &mut impl FnMut(Vec<char>)) {
    for at in 0..=name.len() {
        let (before, after) = name.split_at(at);
        for letter in letters.between(before, after) {
            each([before, &[letter], after].concat());
        }
        if let Some((_, rest)) = after.split_first() {
            for letter in letters.between(before, rest) {
                each([before, &[letter], rest].concat());
            }
            each([before, rest].concat());
        }
    }
}

/// The machine and byte order that a word of a string names: an architecture, or one of these other names of
/// architectures.
fn machine_in(words: &HashMap<&str, Said>, text: &str) -> Option<(String, Option<Endianness>)> {
    let is_separator = |c: char| "-/ .".contains(c);
    let mut parts = text.split(is_separator).chain(text.split(|c| is_separator(c) || c == '_'));
    let known = |word: &str| {
        let architecture = word.parse::<Architecture>().ok()?;
        let triple = TripleRef { architecture, ..TripleRef::unknown() };
        (architecture != Architecture::Unknown).then(|| said(&triple))
    };
    let named = parts.find_map(|word| words.get(word).cloned().or_else(|| known(word)));
    named.map(|it| (it.0, it.2))
}

/// What is suggested for a string, of which this name with this meaning is near, and whether it is wrong.
fn suggested(words: &HashMap<&str, Said>, kind: &str, name: &str, text: &str, means: &Said) -> Option<(String, bool)> {
    let is_wrong = |triple: &TripleRef| {
        let says = said(triple);
        let states = machine_in(words, text)
            .is_some_and(|it| it != (means.0.clone(), means.2) && it == (says.0.clone(), says.2));
        says != *means && !states
    };
    match kind.parse::<Dialect>() {
        Ok(dialect) => {
            if dialect.read(text) != Err(NameError::Unknown) {
                return None;
            }
            let suggested = dialect.suggestion(text)?.to_string();
            let is_wrong = dialect.read(&suggested).map_or(true, |it| is_wrong(&it));
            Some((suggested, is_wrong))
        }
        Err(_) => {
            let refusal = TripleRef::from_str(text).err()?;
            let range = refusal.range();
            let meant = refusal.suggestion_in(text)?.to_string();
            let whole = format!("{}{meant}{}", &text[..range.start], &text[range.end..]);
            // What another edit made of another part is no matter of this one.
            let is_edited_elsewhere = !name.starts_with(&text[..range.start]) || !name.ends_with(&text[range.end..]);
            let is_wrong = match TripleRef::from_str(&whole) {
                Ok(triple) => !is_edited_elsewhere && is_wrong(&triple),
                Err(later) => later.range().start <= range.start,
            };
            Some((whole, is_wrong))
        }
    }
}

/// How many edits were asked of, of how many the name is suggested, and the suggestions that are wrong.
#[derive(Default)]
struct Found {
    asked: u64,
    right: u64,
    wrong: Vec<String>,
}

/// Which edits are asked: from the first on each so many-th.
#[derive(Clone, Copy)]
pub struct Share {
    pub first: usize,
    pub step: usize,
}

/// Asks the edits of a name with this meaning.
fn ask_edits(words: &HashMap<&str, Said>, kind: &str, letters: &Letters, name: &str, means: &Said, of: Share) -> Found {
    let mut found = Found::default();
    let mut number = 0;
    let mut ask = |edited: &[char]| {
        number += 1;
        if number % of.step != of.first {
            return;
        }
        let text: String = edited.iter().collect();
        found.asked += 1;
        if let Some((suggested, is_wrong)) = suggested(words, kind, name, &text, means) {
            found.right += u64::from(suggested == name);
            if is_wrong {
                found.wrong.push(format!("wrong: {kind}: {name} -> {text} -> {suggested}"));
            }
        }
    };
    let letters_of_name: Vec<char> = name.chars().collect();
    let mut count = name.len();
    edits(&letters_of_name, letters, &mut |once| {
        count += 1;
        ask(&once);
        if count % CONTINUED > 0 {
            return;
        }
        edits(&once, letters, &mut |twice| {
            count += 1;
            if count % ASKED == 0 {
                ask(&twice);
            }
        });
    });
    found
}

/// Prints what was found of each kind of names, which all processors ask.
pub fn check(input: &str, of: Share) {
    let mut words = HashMap::new();
    let mut kinds: BTreeMap<&str, Vec<(&str, Said)>> = BTreeMap::new();
    for line in input.lines() {
        let [kind, name, means] = line.split('\t').collect::<Vec<_>>()[..] else {
            panic!("{line}");
        };
        let triple: Triple = means.parse().unwrap_or_else(|_| panic!("{line}"));
        let means = said(&triple.as_triple_ref());
        if kind == "word" {
            words.insert(name, means);
        } else {
            kinds.entry(kind).or_default().push((name, means));
        }
    }
    let processors = thread::available_parallelism().map_or(1, usize::from);
    let names_of = |kind: &str| kinds[kind].iter().map(|it| it.0).collect::<Vec<_>>();
    // Where a field is misspelled, the names of the others are near too.
    let of_triples = kinds.keys().filter(|it| it.parse::<Dialect>().is_err()).flat_map(|it| names_of(it));
    let of_triples = Letters::of(of_triples);
    for (kind, names) in &kinds {
        let letters = kind.parse::<Dialect>().ok().map(|_| Letters::of(names_of(kind)));
        let letters = letters.as_ref().unwrap_or(&of_triples);
        let share = |from: usize| -> Vec<Found> {
            let names = names.iter().skip(from).step_by(processors);
            names.map(|(name, means)| ask_edits(&words, kind, letters, name, means, of)).collect()
        };
        let found: Vec<Found> = thread::scope(|scope| {
            let share = &share;
            let threads: Vec<_> = (0..processors).map(|from| scope.spawn(move || share(from))).collect();
            threads.into_iter().flat_map(|it| it.join().expect("no panic")).collect()
        });
        let wrong: Vec<&String> = found.iter().flat_map(|it| &it.wrong).collect();
        for line in wrong.iter().take(20) {
            println!("{line}");
        }
        let (asked, right) = found.iter().fold((0, 0), |sum, it| (sum.0 + it.asked, sum.1 + it.right));
        println!("{kind}: {} names, {asked} asked, {right} right, {} wrong", names.len(), wrong.len());
    }
}
