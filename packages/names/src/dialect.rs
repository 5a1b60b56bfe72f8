//! The dialects, whose names are read and written by the rows of [`TABLES`].
use crate::evidence::{level_spelled, said};
use crate::gnu::{read_as_gnu, row_of_platform};
use crate::levels::{is_same, machine_at, may_have_name};
use crate::loose::last_tag;
use crate::name::Name;
use crate::reading::is_of_machine;
use crate::shape::{is_another_target, unversioned, version, AbiRule, MachineRule, Rules};
use crate::table::refusals::SEVERAL;
use crate::table::{Dialect, DIALECT_NAMES, ONLY_WRITTEN, TABLES, VERSION_RANGES};
use core::cmp::Ordering;
use core::fmt;
use core::ops::Range;
use core::str::FromStr;
use target_lexicon::{Architecture, DeploymentTarget, OperatingSystem, TripleRef};

/// How a name is used.
#[derive(Clone, Copy, Debug, PartialEq, Eq)]
pub(crate) enum Way {
    /// It is read and written.
    Both,
    Read,
    Written,
    /// It is known, and no triple means the same.
    NoTriple,
    /// It means several triples, with `+` between them.
    Several,
}

/// A name, the canonical triple that it means or why it has none, and how it is used. A star in the name is a number.
pub(crate) type Row = (&'static str, &'static str, Way);

/// What names of a dialect state, and its rows, in the order in which they are tried where a triple has several.
pub(super) struct Table {
    pub rules: Rules,
    pub rows: &'static [Row],
    /// The numbers of the rows without a star, in the order of the bytes of their names, and those of the others.
    pub by_name: &'static [u16],
    pub patterns: &'static [u16],
    /// What some names say that their triples don't.
    pub notes: &'static [(&'static str, &'static str)],
    /// The levels of machines that some names say, which no triple states.
    pub levels: &'static [(&'static str, &'static str)],
}

/// The numbers of a name where its pattern has stars: two, or one and 0.
pub(super) type Numbers = Option<(u16, u8)>;

/// The most bytes of a triple's text with a known vendor, and more.
pub(super) const MAX_LENGTH: usize = 64;

/// What a name means. Rows, shapes, files and the words of any text give it, and names are written for it, so that a
/// level isn't lost by what is around a name. A triple is one whose machine has no level.
#[derive(Clone, Copy, Debug, PartialEq, Eq, Hash)]
pub struct Sense<'a> {
    /// The canonical triple.
    pub triple: TripleRef<'a>,
    /// The level of its machine that the name says and no triple states, such as `v3` of x86-64, or an empty string.
    pub level: &'static str,
}

impl<'a, T: Into<TripleRef<'a>>> From<T> for Sense<'a> {
    fn from(triple: T) -> Self {
        Sense { triple: triple.into(), level: "" }
    }
}

/// Why a name isn't read.
#[derive(Clone, Copy, Debug, PartialEq, Eq, Hash)]
pub enum NameError {
    /// The dialect has no such name.
    Unknown,
    /// The dialect has the name, but no triple means the same, for this reason.
    WithoutTriple(&'static str),
}

impl fmt::Display for NameError {
    fn fmt(&self, f: &mut fmt::Formatter<'_>) -> fmt::Result {
        match self {
            NameError::Unknown => f.write_str("Unknown name"),
            NameError::WithoutTriple(why) => write!(f, "No triple has this name: {why}"),
        }
    }
}

impl Dialect {
    /// The name of the dialect.
    ///
    /// ```
    /// assert_eq!(target_names::Dialect::Go.name(), "go");
    /// ```
    #[must_use]
    pub const fn name(self) -> &'static str {
        DIALECT_NAMES[self as usize]
    }

    pub(super) fn table(self) -> &'static Table {
        &TABLES[self as usize]
    }

    /// The rows of all names.
    pub(crate) fn rows(self) -> &'static [Row] {
        self.table().rows
    }

    /// The rows of names without a version that are read: first those that are written, too.
    pub(crate) fn rows_read(self) -> impl Iterator<Item = &'static Row> + Clone {
        self.rows_of(0..usize::MAX)
    }

    /// Those of names with so many bytes.
    pub(crate) fn rows_of(self, lengths: Range<usize>) -> impl Iterator<Item = &'static Row> + Clone {
        let has = move |row: &Row, way| lengths.contains(&row.0.len()) && row.2 == way && star_count(row.0) == 0;
        let of = move |way| {
            let has = has.clone();
            self.rows().iter().filter(move |row| has(row, way))
        };
        of(Way::Both).chain(of(Way::Read))
    }

    /// The triple that a name of this dialect means. It is canonical, and has a known vendor, except that a target of rustc that parses
    /// is itself: [`note`](Dialect::note) returns what the name says and the triple doesn't. What the name doesn't
    /// state is unknown: `linux/arm64` of Go is `aarch64-unknown-linux`, without a C library. Nothing is allocated.
    ///
    /// A name of Python is read by its tag: `macosx-11.0-arm64` and `macosx_11_0_arm64` mean the same. A name of GNU that is
    /// none of its cross compilers' is read by its spelling, as by [`read`](crate::read), and completed as `config.sub` does:
    /// its vendor says nothing, Linux is with `gnu`, and without a system `gnu` is the Hurd's; otherwise there is none. A
    /// second part that is the last one is a system, unless `config.sub` lists it as a maker.
    ///
    /// # Errors
    ///
    /// The name is unknown, or it has no triple, and why. No other dialect is tried.
    ///
    /// # Examples
    ///
    /// ```
    /// use target_names::{Dialect, NameError};
    ///
    /// let triple = Dialect::Go.read("linux/arm64").unwrap();
    /// assert_eq!(triple.to_string(), "aarch64-unknown-linux");
    /// assert_eq!(Dialect::Go.read("linux/foo"), Err(NameError::Unknown));
    /// ```
    pub fn read(self, name: &str) -> Result<TripleRef<'static>, NameError> {
        self.sense(name).map(|it| it.triple)
    }

    /// What a name means by its row, or else by its spelling.
    pub(crate) fn sense(self, name: &str) -> Result<Sense<'static>, NameError> {
        let (triple, level) = match self.row_of(name) {
            Some((row, numbers)) => (meaning(row, numbers)?, self.level_of(row)),
            None if self.table().rules.spelled => (read_as_gnu(name)?, level_spelled(name)),
            None => return Err(NameError::Unknown),
        };
        Ok(Sense { triple, level })
    }

    /// The level in a row, or an empty string.
    fn level_of(self, row: &Row) -> &'static str {
        let mut levels = self.table().levels.iter();
        levels.find(|it| it.0 == row.0).map_or("", |it| it.1)
    }

    /// The row that has a name, or its tag or platform, and the numbers of the name.
    fn row_of(self, name: &str) -> Option<(&'static Row, Numbers)> {
        let table = self.table();
        let found = table.row_named(name);
        if found.is_none() && table.rules.platforms {
            return Some((row_of_platform(table.rows, name)?, None));
        }
        found
    }

    /// What a name of this dialect says that its triple doesn't: that `linux/amd64/v3` of OCI is for a level of x86-64,
    /// or what the vendor of a target of rustc says. `None` if there is no more, or no such name.
    ///
    /// ```
    /// use target_names::Dialect;
    ///
    /// assert_eq!(Dialect::Oci.read("linux/amd64/v3"), Dialect::Oci.read("linux/amd64"));
    /// assert_eq!(Dialect::Oci.note("linux/amd64/v3"), Some("for a level of x86-64, which a triple can't state"));
    /// assert_eq!(Dialect::Oci.note("linux/amd64"), None);
    /// ```
    #[must_use]
    pub fn note(self, name: &str) -> Option<&'static str> {
        if self == Dialect::Gnu && has_processor(name) && self.read_loosely(name).is_ok() {
            return Some("its vendor may be a processor's name, which no triple states");
        }
        let (row, _) = self.row_of(name)?;
        let mut notes = self.table().notes.iter().filter(|it| it.0 == row.0);
        notes.next().map(|it| it.1)
    }

    /// What a name of this dialect means: several triples of a name such as `universal2`, which [`read`](Dialect::read)
    /// refuses, that of every other name that is [read](Dialect::read_loosely), and none of others.
    pub(crate) fn read_each(self, name: &str) -> impl Iterator<Item = Sense<'static>> + Clone {
        let is_tag = self == Dialect::Python;
        let tag = if is_tag { last_tag(name) } else { name };
        let (several, numbers) = match self.row_of(tag) {
            Some((row, numbers)) if row.2 == Way::Several => (row.1, numbers),
            _ => ("", None),
        };
        let each = several.split('+');
        let each = each.filter_map(move |triple| with_numbers(triple, numbers).ok());
        each.map(Sense::from).chain(self.read_loosely(name).ok())
    }

    /// The name of a triple in this dialect: that of its [shape](Dialect::shape). `None` if it has none, and if its vendor
    /// says that the target is another one: a system that no triple has, such as `wasip3`, or a variant such as `uwp`.
    /// There is none either if the machine of the triple can more than those for which the tool builds, so that the name would mean machines that
    /// don't run the program, or can less: of Debian an Armv7 has no `armel`, which is Armv5, and an Armv6 no `armhf`.
    /// In GNU, whose compilers build for all levels of a machine, but for none older than the i686 of their name, a
    /// triple that has no name of a cross compiler is its own name where config.sub takes it. Nothing is allocated.
    ///
    /// ```
    /// use target_lexicon::TripleRef;
    /// use target_names::Dialect;
    ///
    /// let triple = TripleRef::from_str("aarch64-apple-darwin").unwrap();
    /// assert_eq!(Dialect::Node.write(&triple).unwrap().to_string(), "darwin-arm64");
    /// ```
    #[must_use]
    pub fn write<'t>(self, triple: impl Into<TripleRef<'t>>) -> Option<Name> {
        self.name_of(triple.into().into(), None)
    }

    /// The name of a triple whose machine has a level: one that says the level, or one for which the level is low enough.
    pub(crate) fn name_at(self, meant: Sense<'_>) -> Option<Name> {
        let Sense { triple, level } = meant;
        let architecture = machine_at((triple.architecture, level)).unwrap_or(triple.architecture);
        let refined = Sense { triple: TripleRef { architecture, ..triple }, level };
        self.name_of(refined, None).or_else(|| self.name_of(meant, None))
    }

    /// The name of a triple, which states a version if one is said.
    pub(crate) fn name_of(self, meant: Sense<'_>, version: Numbers) -> Option<Name> {
        let Sense { ref triple, level } = meant;
        let mut rules = self.table().rules;
        if is_another_target(triple) || triple.vendor.is_custom() && rules.itself {
            let itself = self.row_of_itself(triple).filter(|_| version.is_none());
            if itself.is_some() || is_another_target(triple) {
                return itself.map(|row| Name::filled(row.0, None));
            }
        }
        if version.is_some() {
            rules.abi = AbiRule::Kept;
        }
        let mut shape = rules.shape(triple);
        let numbers = match (version, &mut shape.operating_system) {
            (None, system) => version_in(system).and_then(Option::take).map(|it| (it.major, it.minor)),
            // Of the two names of macOS the one that may have a version.
            (Some(_), system) => {
                *system = match unversioned(*system) {
                    OperatingSystem::Darwin(_) => OperatingSystem::MacOSX(None),
                    other => other,
                };
                version
            }
        };
        let stars = if numbers.is_some() { 2 } else { 0 };
        let machine = (triple.architecture, level);
        let is_x86 = matches!(triple.architecture, Architecture::X86_32(_));
        let has_levels = matches!(rules.machine, MachineRule::I686 | MachineRule::Rustc | MachineRule::Alpine);
        if is_x86 && (has_levels && !level.is_empty() || rules.spelled && level == "i486") {
            shape.architecture = triple.architecture;
        }
        let is_on_system = triple.operating_system != OperatingSystem::None_;
        let builds_for = |level: &str| {
            let named = (shape.architecture, level);
            // Other names of x86 say no level, and so are for all.
            rules.spelled || is_x86 && !has_levels || may_have_name(machine, named, is_on_system)
        };
        let states_level = |level: &str| !level.is_empty() && is_same(machine, (shape.architecture, level));
        let is_wanted = |row: &Row| match version {
            Some((major, minor)) => has_version(major, minor, row.0),
            None if states_level(self.level_of(row)) => star_count(row.0) == 0,
            None => is_written(row) && star_count(row.0) == stars,
        } && builds_for(self.level_of(row));
        let mut buffer = [0; MAX_LENGTH];
        let text = text_in(&mut buffer, &shape);
        let mut rows = self.rows().iter().filter(|row| row.1.as_bytes() == text);
        match rows.find(|row| is_wanted(row)) {
            Some(row) => Some(Name::filled(row.0, numbers)),
            None if rules.spelled && version.is_none() => {
                let text = core::str::from_utf8(text).ok()?;
                let (machine, rest) = text.split_at(text.find('-')?);
                let name = Name::of(&[if level == "i486" { level } else { machine }, rest]);
                name.filter(|_| read_as_gnu(text) == Ok(shape))
            }
            None => None,
        }
    }

    /// The name without a version that is written for a triple, if a row has it.
    pub(crate) fn row_written(self, triple: &TripleRef<'_>) -> Option<&'static str> {
        let name = self.write(triple)?;
        let mut rows = self.rows().iter().filter(|row| is_written(row));
        rows.find(|row| name == row.0).map(|row| row.0)
    }

    /// The row that means just this triple, with its vendor.
    fn row_of_itself(self, triple: &TripleRef<'_>) -> Option<&'static Row> {
        let mut buffer = [0; MAX_LENGTH];
        let text = text_in(&mut buffer, triple);
        let mut rows = self.rows().iter().filter(|_| self.table().rules.itself);
        rows.find(|row| row.1.as_bytes() == text)
    }

    /// The triple without what the dialect doesn't name: the vendor, which is the usual one of the system; the version
    /// of the system, and how much of that of the architecture isn't stated; where names don't state them, also the C
    /// library and the floating-point ABI, as in Go, OCI and Python, and in Node except on Linux. Python keeps versions
    /// of macOS and iOS, with two numbers. The binary format stays.
    ///
    /// ```
    /// use target_lexicon::TripleRef;
    /// use target_names::Dialect;
    ///
    /// let triple = TripleRef::from_str("x86_64-acme-linux-musl").unwrap();
    /// assert_eq!(Dialect::Go.shape(&triple).to_string(), "x86_64-unknown-linux");
    /// ```
    #[must_use]
    pub fn shape(self, triple: &TripleRef<'_>) -> TripleRef<'static> {
        self.table().rules.shape(triple)
    }
}

impl Table {
    /// The row that has a name, or its tag, and the numbers of the name.
    pub(super) fn row_named(&self, name: &str) -> Option<(&'static Row, Numbers)> {
        let tags = self.rules.tags;
        let row = |number: &u16| self.rows.get(usize::from(*number));
        let compared = |number: &u16| match row(number) {
            Some(row) if tags => row.0.bytes().cmp(name.bytes().map(|it| key(it, tags))),
            Some(row) => row.0.cmp(name),
            None => Ordering::Greater,
        };
        if let Ok(at) = self.by_name.binary_search_by(compared) {
            return Some((row(self.by_name.get(at)?)?, None));
        }
        let numbered = |row: &'static Row| Some((row, numbers_of(row.0, name, tags)?));
        self.patterns.iter().filter_map(row).find_map(numbered)
    }
}

/// The byte by which a name is looked up: in a tag `_` for each separator.
fn key(byte: u8, tags: bool) -> u8 {
    if tags && matches!(byte, b'-' | b'.') {
        b'_'
    } else {
        byte
    }
}

/// What a name with some numbers means by its row.
fn meaning(row: &Row, numbers: Numbers) -> Result<TripleRef<'static>, NameError> {
    Err(NameError::WithoutTriple(match row.2 {
        Way::Both | Way::Read => return with_numbers(row.1, numbers),
        Way::Written => ONLY_WRITTEN,
        Way::NoTriple => row.1,
        Way::Several => SEVERAL,
    }))
}

/// The triple of a row's text with some numbers.
fn with_numbers(text: &'static str, numbers: Numbers) -> Result<TripleRef<'static>, NameError> {
    let mut triple = TripleRef::from_str(text).map_err(|_| NameError::Unknown)?;
    if let (Some((major, minor)), Some(stated)) = (numbers, version_in(&mut triple.operating_system)) {
        *stated = Some(version(major, minor));
    }
    Ok(triple)
}

/// The version of a system that names may have: that of macOS and iOS.
fn version_in(system: &mut OperatingSystem) -> Option<&mut Option<DeploymentTarget>> {
    match system {
        OperatingSystem::MacOSX(version) | OperatingSystem::IOS(version) => Some(version),
        _ => None,
    }
}

/// The numbers that a name, or its tag, has where a pattern has stars. `None` if it doesn't have the pattern.
pub(super) fn numbers_of(pattern: &str, name: &str, tags: bool) -> Option<Numbers> {
    let mut rest = name.as_bytes();
    let mut numbers = None;
    for byte in pattern.bytes() {
        if byte == b'*' {
            let (digits, after) = rest.split_at(rest.iter().take_while(|it| it.is_ascii_digit()).count());
            numbers = Some(match numbers {
                None => (number(digits)?, 0),
                Some((major, _)) => (major, number(digits)?),
            });
            rest = after;
        } else {
            match rest {
                [first, after @ ..] if byte == key(*first, tags) => rest = after,
                _ => return None,
            }
        }
    }
    rest.is_empty().then_some(numbers)
}

/// The number of some digits, of which the first is 0 only if it is the only one.
fn number<N: FromStr>(digits: &[u8]) -> Option<N> {
    match digits {
        [b'0', _, ..] => None,
        _ => core::str::from_utf8(digits).ok()?.parse().ok(),
    }
}

/// The text of a triple, as far as a row may have it.
pub(super) fn text_in<'a>(buffer: &'a mut [u8; MAX_LENGTH], triple: &TripleRef<'_>) -> &'a [u8] {
    let length = triple.write_to(buffer).min(MAX_LENGTH);
    &buffer[..length]
}

/// How many stars a pattern has.
fn star_count(pattern: &str) -> usize {
    pattern.bytes().filter(|it| *it == b'*').count()
}

pub(crate) fn is_written(row: &Row) -> bool {
    matches!(row.2, Way::Both | Way::Written)
}

/// Whether names with a pattern may have a version: it has a place for both numbers, or for the first, if the second is
/// 0; and the first is one of its system or C library.
pub(crate) fn has_version(major: u16, minor: u8, pattern: &str) -> bool {
    // All ranges are of names with a place for a number.
    let has_places = minor == 0 || star_count(pattern) == 2;
    let is_in = |(text, least, most): &(&str, u16, u16)| {
        (pattern.starts_with(text) || pattern.ends_with(text)) && (*least..=*most).contains(&major)
    };
    has_places && VERSION_RANGES.iter().any(is_in)
}

/// Whether the vendor of a string spelled like a triple may be a processor: `powerpc-8540-linux-gnu`, `mips-img-linux-gnu`.
fn has_processor(name: &str) -> bool {
    let mut parts = name.split('-').skip(1);
    let (vendor, is_followed) = (parts.next().unwrap_or(""), parts.next().is_some());
    let has_number = vendor.bytes().any(|it| it.is_ascii_digit());
    is_followed && (has_number && said(vendor).is_none() && !is_of_machine(vendor) || vendor == "img")
}
