//! Hints: the name that was perhaps meant by one that isn't known, what is wrong with it, and what else is known of it.
//!
//! A hint says what the words of the name say. If not all of these are understood, it is the nearest name that contradicts none of them, if
//! the nearest names of all tools are of its machine and byte order: otherwise another machine may have been meant, and there is none.
use crate::dialect::Row;
use crate::evidence::{has_other_word, only_machine, says_nothing};
use crate::levels::{is_at_most, level_of};
use crate::meanings::{meaning_with, readers};
use crate::name::Buffer;
use crate::near::ends_with_digit;
use crate::shape::unversioned;
use crate::suggestions::{
    difference, edits_between, fit_alone, is_near_other, machine_of, meant, vendor_suggestion, visible, Form, Machine,
    Place, Suggest as _, Suggestion,
};
use crate::table::SYSTEMS;
use crate::text::is_whole;
use crate::{changes, level_spelled, read, Dialect, Evidence, FloatAbi, NameError, Said};
use core::cell::Cell;
use core::fmt::{self, Write as _};
use core::ops::Range;
use target_lexicon::{Architecture, OperatingSystem, PointerWidth, Refusal, Source, TextPart, TripleRef, VendorRef};

/// What is wrong with a name that a dialect doesn't have. `Display` says it.
#[derive(Clone, Copy, Debug, PartialEq, Eq)]
#[non_exhaustive]
pub enum Mistake<'a> {
    /// The dialect has this name with other letters in upper case.
    Capitals(&'static str),
    /// It has white space.
    Space,
    /// It is the beginning or the end of names such as this one.
    Part(&'static str),
    /// It is this name of other dialects: those in which [`Dialect::read_loosely`] gives a triple.
    OtherTool(&'a str),
    /// It has a path.
    Path,
    /// Names are spelled like triples, and it isn't.
    NoTriple(Refusal<'a>),
}

impl fmt::Display for Mistake<'_> {
    fn fmt(&self, f: &mut fmt::Formatter<'_>) -> fmt::Result {
        match self {
            Mistake::Capitals(_) => f.write_str("capital letters matter"),
            Mistake::Space => f.write_str("it has a space"),
            Mistake::OtherTool(name) => {
                f.write_str("it is a name of ")?;
                let count = Dialect::all_with(name).count();
                Dialect::all_with(name).enumerate().try_for_each(|(at, dialect)| match at {
                    0 => write!(f, "{dialect}"),
                    _ if at + 1 < count => write!(f, ", {dialect}"),
                    _ => write!(f, " and {dialect}"),
                })
            }
            Mistake::Path => f.write_str("it has a path"),
            Mistake::Part(name) => write!(f, "it is a part of a name, such as `{name}`"),
            Mistake::NoTriple(refusal) => write!(f, "as a triple: {}", visible(refusal).shortened()),
        }
    }
}

impl Dialect {
    /// The dialects that have a name, with what files and commands have around it.
    pub(crate) fn all_with(name: &str) -> impl Iterator<Item = Dialect> + Clone + '_ {
        let all = Dialect::ALL.iter().copied();
        all.filter(|dialect| dialect.read_loosely(name).is_ok())
    }

    /// What is wrong with a name that this dialect doesn't have, if it is one of a few mistakes.
    /// [`suggestion`](Dialect::suggestion) says which name was perhaps meant. Nothing is allocated.
    ///
    /// ```
    /// use target_names::{Dialect, Mistake};
    ///
    /// assert_eq!(Dialect::Debian.mistake("AMD64"), Some(Mistake::Capitals("amd64")));
    /// let mistake = |dialect: Dialect, name| dialect.mistake(name).map(|it| it.to_string());
    /// assert_eq!(mistake(Dialect::Go, "Linux/AMD64").unwrap(), "capital letters matter");
    /// assert_eq!(mistake(Dialect::Go, "linux/amd64 ").unwrap(), "it has a space");
    /// assert_eq!(mistake(Dialect::Rust, "/opt/x86_64-apple-darwin").unwrap(), "it has a path");
    /// assert_eq!(mistake(Dialect::Debian, "linux/arm64").unwrap(), "it is a name of go and oci");
    /// assert_eq!(mistake(Dialect::Uname, "Linux").unwrap(), "it is a part of a name, such as `Linux x86_64`");
    /// assert_eq!(mistake(Dialect::Gnu, "nios2-linux-gnu").unwrap(), "as a triple: Unrecognized architecture: nios2");
    /// assert_eq!(mistake(Dialect::Go, "plan10"), None);
    /// ```
    #[must_use]
    pub fn mistake(self, name: &str) -> Option<Mistake<'_>> {
        let has_path = || {
            let has_slashes = self.has_slashes() || name.starts_with('@');
            self.name_inside(name).is_some()
                || !has_slashes && name.contains(['/', '\\']) && Evidence::of(name).is_empty()
        };
        if let Some(known) = self.name_in_other_letters(name) {
            Some(Mistake::Capitals(known))
        } else if name.contains(char::is_whitespace) && self != Dialect::Uname {
            Some(Mistake::Space)
        } else if let Some(whole) = self.name_with_part(name) {
            Some(Mistake::Part(whole))
        } else if Dialect::all_with(name).next().is_some() {
            Some(Mistake::OtherTool(name))
        } else if has_path() {
            Some(Mistake::Path)
        } else {
            let refusal = read(name).err().filter(|_| self == Dialect::Gnu);
            refusal.map(Mistake::NoTriple)
        }
    }

    /// A name that begins or ends with a word: one of Linux without Android, if there is one.
    fn name_with_part(self, word: &str) -> Option<&'static str> {
        let names = self.names().filter(|name| is_part(word, name));
        names.min_by_key(|name| (!name.contains("inux"), name.contains("android")))
    }

    /// Whether slashes stand in its names.
    fn has_slashes(self) -> bool {
        matches!(self, Dialect::Go | Dialect::Oci)
    }

    /// The names without a version that the tool is known to have and that mean one triple. Others are read too, by
    /// rules: those with a version, and other spellings.
    pub fn names(self) -> impl Iterator<Item = &'static str> {
        self.rows_read().map(|row| row.0)
    }

    /// The name that is the same without upper and lower case.
    fn name_in_other_letters(self, name: &str) -> Option<&'static str> {
        let rows = self.rows_of(name.len()..name.len() + 1);
        rows.map(|it| it.0).find(|it| it.eq_ignore_ascii_case(name))
    }

    /// The name that is in a path or has white space around it. If names have slashes, it ends the path: what follows
    /// may be a part of another name.
    fn name_inside(self, text: &str) -> Option<&'static str> {
        let inside = text.trim();
        if text.len() > LONGEST_PATH || inside == text && !text.contains(['/', '\\']) {
            return None;
        }
        let text = inside;
        let slashes = text.match_indices(['/', '\\']).map(|(at, _)| at + 1);
        let ends = core::iter::once(0).chain(slashes).map(|at| &text[at..]);
        let may_follow = |after: &str| after.is_empty() || after.starts_with(['/', '\\']) && !self.has_slashes();
        let is_at = |end: &str, name: &str| end.strip_prefix(name).map_or(false, may_follow);
        let found = ends.flat_map(|end| self.names().filter(move |name| is_at(end, name)));
        found.max_by_key(|name| name.len())
    }

    /// The name that is suggested for an unknown one, of those without a version that [`read`](Dialect::read) knows.
    /// Nothing is allocated.
    ///
    /// It is the name that is the same but for capital letters, white space around it or a path. Otherwise it is that of the triple
    /// which its words name, by [`Evidence`]: `linux-x64` of Node for `linux-amd64`. Otherwise it is the nearest name, if the unknown
    /// one may be a misspelling of it, and its triple says all that the words say which are understood. Where two edits give
    /// names of another machine too, or of another width, byte order or way to pass floating-point arguments, nothing is suggested, and neither where
    /// the nearest names of other tools are of another machine.
    ///
    /// ```
    /// use target_names::Dialect;
    ///
    /// assert_eq!(Dialect::Go.suggestion("linux/amd46"), Some("linux/amd64"));
    /// assert_eq!(Dialect::Node.suggestion("linux-amd64"), Some("linux-x64"));
    /// assert_eq!(Dialect::Oci.suggestion("linux/amr64"), None); // `arm64` or `amd64`
    /// assert_eq!(Dialect::Node.suggestion("linux-arm-gnueabi"), None); // only `gnueabihf` is known
    /// assert_eq!(Dialect::Node.suggestion("linux0-armhf"), None); // `linux-arm` would leave out the ABI
    /// ```
    #[must_use]
    pub fn suggestion(self, name: &str) -> Option<&'static str> {
        Hints::of(name)?.name_of(self)
    }

    /// The name that is another word for the machine, if the name is only a word for one.
    fn name_of_machine(self, name: &str) -> Option<&'static str> {
        let machine = only_machine(name)?;
        let is_same = |row: &&Row| {
            let triple = TripleRef::from_str(row.1);
            // What the name says may be the name of a family: RPM's `i386`.
            let may_be = |it: Architecture| it == machine || !is_at_most((machine, ""), (it, ""));
            triple.map_or(false, |it| may_be(it.architecture)) && only_machine(row.0) == Some(machine)
        };
        let edits = |row: &&Row| edits_between(name.as_bytes(), row.0).unwrap_or(usize::MAX);
        self.rows_read().filter(is_same).min_by_key(edits).map(|row| row.0)
    }

    /// The name that is written for a triple, if it says as much of how floating-point arguments are passed, or no name
    /// of the dialect does, and if none that is only read says more: Python's `linux_x86_64` isn't `manylinux2014_x86_64`.
    fn name_with_floats_of(self, triple: &TripleRef<'_>) -> Option<&'static str> {
        let found = self.row_written(triple)?;
        let named = self.read(found).ok()?;
        let has_none = self.has_slashes() || self == Dialect::Nix;
        let is_whole = named.environment == triple.environment
            || !self.rows().iter().any(|row| TripleRef::from_str(row.1) == Ok(*triple));
        (is_whole && (has_none || FloatAbi::of(&named) == FloatAbi::of(triple))).then_some(found)
    }
}

/// What is found out once for the hints of all dialects.
struct Hints<'a> {
    name: &'a str,
    evidence: Evidence<'a>,
    /// The machine and the system of the nearest names of all tools, once they are looked for.
    near: Cell<Option<(Said<Machine>, Said<OperatingSystem>)>>,
}

impl<'a> Hints<'a> {
    /// A longer name gets no hint, so that none takes long.
    fn of(name: &'a str) -> Option<Self> {
        (name.len() <= LONGEST_PATH).then(|| Hints { name, evidence: Evidence::of(name), near: Cell::new(None) })
    }

    /// The answer of [`Dialect::suggestion`]: a word that no triple has a meaning of stays.
    fn name_of(&self, dialect: Dialect) -> Option<&'static str> {
        let (name, evidence) = (self.name, &self.evidence);
        if let Some(known) = dialect.name_in_other_letters(name) {
            return Some(known);
        }
        // A target of rustc without a triple is meant as it is.
        let has_reason = || matches!(dialect.read(name), Err(NameError::WithoutTriple(_)));
        if dialect == Dialect::Rust && has_reason() {
            return None;
        }
        if let Some(known) = dialect.name_inside(name) {
            let sense = dialect.sense(known).ok()?;
            return (evidence.allows(&sense) && keeps_others(name, known)).then_some(known);
        }
        let is_whole = || !has_number_of_abi(name) && level_spelled(name).is_empty();
        let spelled = read(name).ok().filter(|it| !it.vendor.is_custom() && is_whole());
        // What says nothing may be a misspelled ABI: `aarch64-apple-ios-iso`.
        let is_vendor = |it: &str| VendorRef::from_str(it).map_or(false, |it| !it.is_custom());
        let is_left_out = |it: &str| says_nothing(it) && !is_vendor(it);
        let has_title = evidence.has_title || name.split('-').any(is_left_out);
        let said = evidence.sense().filter(|it| it.level.is_empty() && !has_title);
        let named = spelled.or(said.map(|it| it.triple));
        let known = named.and_then(|it| dialect.name_with_floats_of(&it));
        let known = known.or_else(|| dialect.name_of_machine(name));
        let found = known.or_else(|| self.nearest(dialect))?;
        let (machine, system) = target_of(&dialect.read(found).ok()?);
        // Of `aremb` the byte order of `armeb` is nearer than that of `arm`.
        let is_other = evidence.machine() == Said::Unsaid && name.split(SIGNS).any(|it| is_near_other(it, machine));
        let (machines, systems) = self.near();
        let is_near = machines.allows(machine) && (known.is_some() || systems.allows(system));
        (is_near && !is_other && keeps_others(name, found)).then_some(found)
    }

    /// The nearest name that contradicts nothing which the words say.
    fn nearest(&self, dialect: Dialect) -> Option<&'static str> {
        let (name, evidence) = (self.name, &self.evidence);
        // A system's word of which all is understood isn't misspelled: `archlinux`.
        let is_system = evidence.system != Said::Unsaid && !evidence.has_machine();
        let is_whole = is_system && evidence.unknown.is_none() && !evidence.has_title;
        if is_whole && !name.contains(SIGNS) && !name.bytes().any(|it| it.is_ascii_digit()) {
            return None;
        }
        let allows = |row: &Row| dialect.sense(row.0).map_or(false, |it| self.evidence.allows(&it));
        let is_one_edit = |other: &str| edits_between(name.as_bytes(), other) == Some(1);
        let keeps_numbers = |other: &str| numbers_apart(name) <= numbers_apart(other) || is_one_edit(other);
        let rows = dialect.rows_of(lengths_near(name));
        meant(
            name.as_bytes(),
            name.as_bytes(),
            rows.map(|row| (row.0, row)),
            core::iter::empty(),
            said_of_machine,
            |row| {
                let sense = dialect.sense(row.0).ok();
                sense.map(|it| (level_of((it.triple.architecture, it.level)), it.triple.operating_system))
            },
            |row| allows(row) && keeps_numbers(row.0) && keeps_words(name, row.0),
        )
    }

    /// Whether no word of a row says another machine or system than one of the name. Words may mean other machines to a tool than elsewhere.
    fn may_say_target_of(&self, row: &Row) -> bool {
        let (own, other) = (&self.evidence, Evidence::of(row.0));
        let [machine, other_machine] = [own.machine(), other.machine()];
        (machine == other_machine || machine == Said::Unsaid || other_machine == Said::Unsaid)
            && (own.system == other.system || own.system == Said::Unsaid || other.system == Said::Unsaid)
    }

    /// The machine and the system of the nearest names of all tools.
    fn near(&self) -> (Said<Machine>, Said<OperatingSystem>) {
        let found = self.near.get().unwrap_or_else(|| {
            let (mut found, mut edits) = ((Said::Unsaid, Said::Unsaid), usize::MAX);
            let rows = Dialect::ALL.iter().flat_map(|it| it.rows_of(lengths_near(self.name)));
            let name = joined(self.name);
            for row in rows {
                let own = edits_between(name.as_str().as_bytes(), joined(row.0).as_str());
                let own = own.filter(|it| *it <= edits);
                let Some(own) = own.filter(|_| self.may_say_target_of(row)) else {
                    continue;
                };
                if own < edits {
                    (found, edits) = ((Said::Unsaid, Said::Unsaid), own);
                }
                if let Ok((machine, system)) = TripleRef::from_str(row.1).map(|it| target_of(&it)) {
                    found.0.add(machine);
                    found.1.add(system);
                }
            }
            found
        });
        self.near.set(Some(found));
        found
    }
}

/// The machine and the system of a triple, without their versions. Tools say `wasi` of its first preview.
fn target_of(triple: &TripleRef<'_>) -> (Machine, OperatingSystem) {
    let system = match unversioned(triple.operating_system) {
        OperatingSystem::WasiP1 => OperatingSystem::Wasi,
        other => other,
    };
    (machine_of(triple.architecture), system)
}

/// How many signs of a name are between two numbers, of which the second may be a level's: `amd6/v4`.
fn numbers_apart(name: &str) -> usize {
    let words = name.split(|it: char| !it.is_ascii_alphanumeric());
    let begins = |it: &str| it.strip_prefix('v').unwrap_or(it).starts_with(|it: char| it.is_ascii_digit());
    words.clone().zip(words.skip(1)).filter(|it| ends_with_digit(it.0) && begins(it.1)).count()
}

/// The signs between words.
const SIGNS: [char; 5] = ['/', '_', ' ', '.', '-'];

/// A name with a dash for each separator, or nothing if it is longer than any that is near.
fn joined(name: &str) -> Buffer<64> {
    let chars = name.chars().map(|it| if SIGNS.contains(&it) { '-' } else { it });
    Buffer::of_chars(chars).unwrap_or_else(Buffer::new)
}

/// The lengths of names that may be near: all others are farther than a misspelling.
fn lengths_near(name: &str) -> Range<usize> {
    name.len().saturating_sub(2)..name.len() + 3
}

/// What the triple of a row says of the machine.
fn said_of_machine(row: &Row) -> Option<(Machine, Option<PointerWidth>, Option<FloatAbi>)> {
    let triple = TripleRef::from_str(row.1).ok()?;
    let (machine, width) = (machine_of(triple.architecture), triple.pointer_width().ok());
    Some((machine, width, FloatAbi::of(&triple)))
}

/// Whether a string has digits after `gnu` that may be those of an ABI: `gnu.32` may be `gnux32`. A version of glibc is such as `.2.17`.
fn has_number_of_abi(name: &str) -> bool {
    let has_version = |part| fit_alone(Place::AfterFirst, part).map_or(false, |it| it.form == Form::Dropped);
    let mut versioned = changes(name).filter(|it| has_version(it.part.text));
    versioned.any(|it| it.part.text.starts_with("gnu") && !it.part.text.contains(".2."))
}

/// A name that was perhaps meant. `Display` writes it whole.
#[derive(Clone, Copy, Debug, PartialEq, Eq)]
pub struct Meant<'a> {
    pub(crate) word: &'a str,
    /// The misspelled part of the word.
    pub part: TextPart<'a>,
    /// What is suggested instead.
    pub suggestion: Suggestion<'a>,
}

impl fmt::Display for Meant<'_> {
    fn fmt(&self, f: &mut fmt::Formatter<'_>) -> fmt::Result {
        let range = self.part.range();
        let (before, after) = (&self.word[..range.start], &self.word[range.end..]);
        write!(f, "{before}{}{after}", self.suggestion)
    }
}

impl<'a> Meant<'a> {
    /// The name that was perhaps meant by a misspelled one: a triple with another part, or else a name of a tool. All
    /// of whose words are known is no misspelled name. Nothing is allocated.
    ///
    /// ```
    /// use target_names::Meant;
    ///
    /// let meant = |name| Meant::by(name).map(|it| it.to_string());
    /// assert_eq!(meant("x86_64-linxu-musl").unwrap(), "x86_64-linux-musl");
    /// assert_eq!(meant("linux/amd46").unwrap(), "linux/amd64");
    /// assert_eq!(meant("go1.22.1.darwin-arm64.pkg"), None);
    /// ```
    #[must_use]
    pub fn by(word: &'a str) -> Option<Meant<'a>> {
        let hints = Hints::of(word)?;
        let evidence = &hints.evidence;
        let of_triple = Meant::of_triple(word).filter(|it| it.is_target(evidence));
        let is_known = match (evidence.machine(), evidence.system) {
            (Said::Unsaid, _) => false,
            (_, Said::Unsaid) => evidence.unknown.is_none() && !evidence.has_title,
            _ => true,
        };
        if is_known {
            return of_triple;
        }
        let names = Dialect::ALL.iter().filter_map(|it| hints.name_of(*it));
        let part = TextPart { text: word, start: 0 };
        // Another tool may have the name with the signs of the word: `linux/arm64`, and not `linux-arm64`.
        let of_tools = names.filter(|name| !word.contains(name)).flat_map(|name| {
            let rows = Dialect::ALL.iter().flat_map(move |it| it.rows_of(name.len()..name.len() + 1));
            rows.map(|row| row.0).filter(move |it| joined(it) == joined(name))
        });
        let of_tools = of_tools.map(|name| Meant { word, part, suggestion: Suggestion::of(name) });
        of_triple.into_iter().chain(of_tools).min_by_key(Meant::edits)
    }

    /// The edits between the word and what was perhaps meant.
    fn edits(&self) -> usize {
        let word = &self.word.as_bytes()[self.part.range()];
        edits_between(word, self.suggestion.names).unwrap_or(usize::MAX)
    }

    /// With another part than the refused one, or than a custom vendor.
    fn of_triple(word: &'a str) -> Option<Meant<'a>> {
        let explained = TripleRef::explain(word);
        let (part, suggestion) = match explained.triple {
            Ok(triple) => {
                let Source::Part(part) = explained.sources.vendor else { return None };
                (part, vendor_suggestion(triple)?)
            }
            Err(refusal) => (refusal.part, refusal.suggestion_in(word)?),
        };
        Some(Meant { word, part, suggestion })
    }

    /// Whether it is a triple of a known vendor with a system, and says as much of how floating-point arguments are passed.
    fn is_target(&self, evidence: &Evidence<'_>) -> bool {
        let mut room = Buffer::<{ LONGEST_PATH + 64 }>::new();
        let is_written = write!(room, "{self}").is_ok();
        let triple = TripleRef::from_str(room.as_str());
        // What ends a path is right as it is.
        let is_in_path = self.part.text.split('/').skip(1).any(|it| it == self.suggestion.names);
        let has_floats = [Said::Unsaid, Evidence::of(room.as_str()).floats].contains(&evidence.floats);
        is_written
            && !is_in_path
            && has_floats
            && triple.map_or(false, |it| !it.vendor.is_custom())
            && is_whole(room.as_str())
    }
}

/// Whether no short word is another one, of as many, if no letters are swapped: `linux/wasm` isn't `linux/arm`.
fn keeps_words(name: &str, other: &str) -> bool {
    let words = |text| str::split(text, |it: char| !it.is_ascii_alphanumeric());
    let is_near =
        |(word, other): (&str, &str)| word.len() > 5 || matches!(edits_between(word.as_bytes(), other), Some(0 | 1));
    let (_, own, of_other) = difference(name.as_bytes(), other.as_bytes());
    own.len() < 4 && own.iter().rev().eq(of_other)
        || words(name).count() != words(other).count()
        || words(name).zip(words(other)).all(is_near)
}

/// Whether each word of a name that no triple has a meaning of, such as `lynx`, is one of another name too.
fn keeps_others(name: &str, other: &str) -> bool {
    let words = |text| str::split(text, |it: char| !it.is_ascii_alphanumeric());
    let is_other = |word: &&str| has_other_word(word) || SYSTEMS.iter().any(|it| it.0 == *word);
    words(name).filter(is_other).all(|word| words(other).any(|it| it.eq_ignore_ascii_case(word)))
}

/// The most bytes of a path in which a name is looked for, and of a name that gets a hint.
pub(crate) const LONGEST_PATH: usize = 256;

/// Whether a word begins or ends a name, up to a sign.
fn is_part(word: &str, name: &str) -> bool {
    let after = name.strip_prefix(word).and_then(|it| it.bytes().next());
    let before = name.strip_suffix(word).and_then(|it| it.bytes().last());
    let is_sign = |byte: &u8| b"/ -_".contains(byte);
    after.iter().chain(&before).any(is_sign)
}

/// What is known of a refused string, besides what is suggested and who [reads](crate::readers) it. `Display` says it.
#[derive(Clone, Copy, Debug)]
#[non_exhaustive]
pub enum Note<'a> {
    /// This string is a name with the dashes of ASCII, and without the quotes of a word processor and what can't be seen.
    Ascii(&'a str),
    /// What is wrong with it as a name of a dialect.
    Mistake(Mistake<'a>),
    /// What its words say.
    Words(Evidence<'a>),
}

impl<'a> Note<'a> {
    /// Of a string that isn't a name of the dialect, or without one, of a string that is refused as a triple. Nothing is
    /// allocated.
    ///
    /// ```
    /// use target_names::{Dialect, Note};
    ///
    /// let note = |text, dialect| Note::of(text, dialect).map(|it| it.to_string());
    /// let ascii = "in ASCII it is `x86_64-linux-gnu`";
    /// assert_eq!(note("\u{201c}x86_64\u{2011}linux\u{2013}gnu\u{200b}\u{201d}", None).unwrap(), ascii);
    /// assert_eq!(note("linux/amr64", None).unwrap(), "its words say linux, and no single machine known here");
    /// assert_eq!(note("linux/arm", Some(Dialect::Debian)).unwrap(), "it is a name of go and oci");
    /// assert_eq!(note("x86_64_v3-linux", None).unwrap(), "its words name x86_64-unknown-linux of the level v3");
    /// assert_eq!(note("linux/arm", None), None); // `readers` says who reads it
    /// ```
    #[must_use]
    pub fn of(text: &'a str, dialect: Option<Dialect>) -> Option<Note<'a>> {
        let words = || {
            let evidence = Evidence::of(text);
            (!evidence.is_empty()).then_some(Note::Words(evidence))
        };
        if is_typeset(text, |it| meaning_with(it, &mut |_| true).is_some()) {
            return Some(Note::Ascii(text));
        }
        match dialect {
            Some(dialect) => {
                let is_meant = || dialect.suggestion(text).is_some();
                match dialect.mistake(text) {
                    None | Some(Mistake::NoTriple(_)) if is_meant() => None,
                    None => words(),
                    mistake => mistake.map(Note::Mistake),
                }
            }
            None if readers(text).next().is_some() || Meant::by(text).is_some() => None,
            // A number that nobody knows may be of the machine, as in `x86_46`: then it isn't the one that is said.
            None => words().filter(|it| says_a_triple(it) || !says_digit_last(it) && is_refused_whole(text)),
        }
    }
}

impl fmt::Display for Note<'_> {
    fn fmt(&self, f: &mut fmt::Formatter<'_>) -> fmt::Result {
        match self {
            Note::Ascii(text) => {
                f.write_str("in ASCII it is `")?;
                plain(text).try_for_each(|it| f.write_char(it))?;
                f.write_str("`")
            }
            Note::Mistake(mistake) => mistake.fmt(f),
            Note::Words(evidence) => evidence.fmt(f),
        }
    }
}

/// Whether what is refused of a string as a triple is all of it.
fn is_refused_whole(text: &str) -> bool {
    TripleRef::from_str(text).map_or_else(|it| it.part.text == text, |_| false)
}

fn says_a_triple(note: &Note<'_>) -> bool {
    matches!(note, Note::Words(it) if it.sense().is_some())
}

fn says_digit_last(note: &Note<'_>) -> bool {
    let mut said = Buffer::<512>::new();
    write!(said, "{note}").is_ok() && ends_with_digit(said.as_str().trim_end_matches('`'))
}

/// A string with the dashes that a word processor made of `-`, and without its quotes and white space around it, and
/// what has no width, as pages have it where a long name may be broken.
fn plain(text: &str) -> impl Iterator<Item = char> + '_ {
    let is_unseen = |it: char| matches!(it, '\u{ad}' | '\u{200b}'..='\u{200d}' | '\u{2060}' | '\u{feff}');
    let is_around = move |it: char| ('\u{2018}'..='\u{201f}').contains(&it) || it.is_whitespace() || is_unseen(it);
    let inside = text.trim_matches(is_around).chars().filter(move |it| !is_unseen(*it));
    inside.map(|it| if is_dash(it) { '-' } else { it })
}

/// Whether a character is a dash that a word processor makes of `-`.
pub(crate) fn is_dash(it: char) -> bool {
    ('\u{2010}'..='\u{2015}').contains(&it) || it == '\u{2212}'
}

/// Whether a string has the dashes or quotes of a word processor, and is so with those of ASCII.
pub(crate) fn is_typeset(text: &str, is: impl FnOnce(&str) -> bool) -> bool {
    let may_be = |it: &str| it.bytes().all(|it| it == b' ' || it.is_ascii_graphic()) && is(it);
    !text.is_ascii() && Buffer::<LONGEST_PATH>::of_chars(plain(text)).map_or(false, |it| may_be(it.as_str()))
}
