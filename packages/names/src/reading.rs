//! Reading a string that is spelled like a triple, and what is changed in it: its parts are taken one after the other, of
//! which some are other spellings. Where none is, the answer is that of [`TripleRef::from_str`], which takes whole strings.
use crate::suggestions::{architecture_of, fit, is_digit_or_dot, is_dropped_version, known_names, Form, Place};
use crate::table::{NO_VENDORS, SYSTEMS};
use crate::FloatAbi;
use core::fmt;
use target_lexicon::{
    Architecture, DeploymentTarget, Field, Named, OperatingSystem, Refusal, TextPart, TripleRef, VendorRef,
};

/// The triple that a string means which is spelled like a triple, as the tools of GNU and LLVM print them. Nothing is
/// allocated.
///
/// Some parts are other spellings of known names, such as `amd64` of `x86_64`, `mingw32` of `windows-gnu`, `w64` of
/// `pc` and `macos13` of `macosx13`. Versions of systems other than Apple's are dropped: `freebsd13.2` is `freebsd`.
/// An empty second part is `unknown`, and so is `none` before `linux`. Two parts may be other names together, as LLVM
/// prints them: `none-unknown` before a part that is no binary format is `unknown-none`, and `windows-cygnus` is
/// `cygwin-unknown`. No other known name changes, so what parses without a custom vendor means the same here.
///
/// rpm says with a first part `armv6hl`, `armv7hl` or `armv7hnl`, and Gentoo with a second part `hardfloat`, that
/// floating-point arguments are in floating-point registers. After them `gnueabi` is `gnueabihf`, and likewise for
/// other C libraries; `hardfloat` is no vendor. Nor is `softfloat` before `linux`, where the environment says the same:
/// other triples can't state it, and are refused.
///
/// A second part that is a system which isn't known, such as `macos.11.0`, `linux5.10` or `nuttx`, is no vendor: it is
/// refused, since a triple without its system would be another target.
///
/// # Errors
///
/// The first part that has no place, as it is in the string, and what was expected there.
///
/// # Examples
///
/// ```
/// use target_lexicon::TripleRef;
/// use target_names::read;
///
/// assert_eq!(read("amd64-w64-mingw32"), Ok(TripleRef::from_str("x86_64-pc-windows-gnu").unwrap()));
/// assert_eq!(read("arm-none-unknown-eabi"), Ok(TripleRef::from_str("arm-none-eabi").unwrap()));
/// let refusal = read("x86_64-foo-bar").unwrap_err();
/// assert_eq!((refusal.range(), refusal.to_string()), (11..14, "Unrecognized operating system: bar".to_string()));
/// ```
pub fn read(text: &str) -> Result<TripleRef<'_>, Refusal<'_>> {
    match TripleRef::from_str(text) {
        Ok(triple) if !triple.vendor.is_custom() => Ok(triple),
        _ => {
            let mut reading = Reading::start();
            SpelledParts::of(text).try_for_each(|(part, names)| names.give(&mut reading, part))?;
            let triple = reading.finish();
            let (first, rest) = first_part(text);
            let second = first_part(rest.unwrap_or("")).0;
            if is_soft_floats(second) && FloatAbi::of(&triple) != Some(FloatAbi::Soft) {
                // It stays the vendor that isn't known.
                let (mut reading, start) = (Reading::start(), first.len() + 1);
                let part = |text, start| TextPart { text, start };
                reading.take(part(triple.architecture.name(), 0))?;
                reading.take(part("", start)).map_err(|mut refusal| {
                    refusal.part = part(second, start);
                    refusal
                })?;
            }
            Ok(triple)
        }
    }
}

/// Whether a second part says that no floating-point registers are used, as Gentoo's says.
pub(crate) fn is_soft_floats(part: &str) -> bool {
    part == "softfloat"
}

/// A part of a string that is another spelling of known names, by itself or together with the part before or after it,
/// or a second part that states no vendor.
#[derive(Clone, Copy, Debug, PartialEq, Eq)]
pub struct Change<'a> {
    /// The part, as it is in the string.
    pub part: TextPart<'a>,
    /// The names that are read instead.
    pub names: Spelling<'a>,
}

/// What [`read`] changes in a string, from its start to its end: the parts that are other spellings of known names, and these names. Each of two
/// parts that are other names together is a change: `none` and `unknown` of `arm-none-unknown-eabi`. Nothing is
/// allocated.
///
/// A string that parses without a custom vendor has no changes. A string that is refused has its changes too, since
/// what a part spells doesn't depend on that.
///
/// ```
/// use target_names::changes;
///
/// let shown = |text| {
///     changes(text).map(|it| format!("{} -> {}", it.part.text, it.names)).collect::<Vec<_>>()
/// };
/// assert_eq!(shown("amd64-unknown-freebsd13.2"), ["amd64 -> x86_64", "freebsd13.2 -> freebsd"]);
/// assert!(shown("x86_64-unknown-freebsd").is_empty());
/// ```
pub fn changes(text: &str) -> impl Iterator<Item = Change<'_>> + Clone {
    let changed = SpelledParts::of(text).filter(|(part, names)| !names.is_only(part.text));
    changed.map(|(part, names)| Change { part, names })
}

/// The first part of a string, and what follows its dash, if it has one.
pub(crate) fn first_part(text: &str) -> (&str, Option<&str>) {
    match text.split_once('-') {
        Some((part, rest)) => (part, Some(rest)),
        None => (text, None),
    }
}

/// The fields that the parts so far fill, the others unknown; and the first field that is still open.
pub(crate) struct Reading<'a> {
    expected: Option<Field>,
    pub(crate) triple: TripleRef<'a>,
}

impl<'a> Reading<'a> {
    pub(crate) fn start() -> Self {
        Reading { expected: Some(Field::Architecture), triple: TripleRef::unknown() }
    }

    /// Takes a part into the first field that is open and that it parses as. A refusal says only what was expected.
    pub(crate) fn take(&mut self, part: TextPart<'a>) -> Result<(), Refusal<'a>> {
        let filled = match self.expected {
            Some(Field::Architecture) => self.take_architecture(part.text),
            Some(expected) => self.take_later(expected, part.text),
            None => None,
        };
        match filled {
            Some(Field::Architecture) => self.expected = Some(Field::Vendor),
            Some(Field::Vendor) => self.expected = Some(Field::OperatingSystem),
            Some(Field::OperatingSystem) => self.expected = Some(Field::Environment),
            Some(Field::Environment) => self.expected = Some(Field::BinaryFormat),
            Some(Field::BinaryFormat) => self.expected = None,
            None => return refused(self.expected),
        }
        Ok(())
    }

    fn take_architecture(&mut self, part: &str) -> Option<Field> {
        self.triple.architecture = part.parse().ok()?;
        Some(Field::Architecture)
    }

    fn take_later(&mut self, expected: Field, part: &'a str) -> Option<Field> {
        let is_open = |field: Field| expected as u8 <= field as u8;
        if let (true, Ok(vendor)) = (is_open(Field::Vendor), VendorRef::from_str(part)) {
            self.triple.vendor = vendor;
            return Some(Field::Vendor);
        }
        if let (true, Ok(system)) = (is_open(Field::OperatingSystem), part.parse()) {
            self.triple.operating_system = system;
            return Some(Field::OperatingSystem);
        }
        if let (true, Ok(environment)) = (is_open(Field::Environment), part.parse()) {
            self.triple.environment = environment;
            return Some(Field::Environment);
        }
        self.triple.binary_format = part.parse().ok()?;
        Some(Field::BinaryFormat)
    }

    /// The triple of the parts so far. Without a binary format it has the implied one.
    pub(crate) fn finish(self) -> TripleRef<'a> {
        let mut triple = self.triple;
        if self.expected.is_some() {
            triple.binary_format = triple.default_binary_format();
        }
        triple
    }
}

/// The refusal of a part, which the caller knows. Only the other crate can make one, so that of the empty string gets the field.
fn refused<'a>(expected: Option<Field>) -> Result<(), Refusal<'a>> {
    TripleRef::from_str("").map(|_| ()).map_err(|mut refusal| {
        refusal.expected = expected;
        refusal
    })
}

/// The parts of a string that are left, each with the names that it spells.
#[derive(Clone, Debug)]
pub(crate) struct SpelledParts<'a> {
    text: &'a str,
    rest: Option<&'a str>,
    place: Place,
    /// Whether the parts before state hard floats.
    hard_floats: bool,
    /// The name of the next part, if it is the second of a pair.
    name: Option<&'static str>,
}

impl<'a> SpelledParts<'a> {
    pub(crate) fn of(text: &'a str) -> Self {
        SpelledParts { text, rest: Some(text), place: Place::First, hard_floats: false, name: None }
    }
}

impl<'a> Iterator for SpelledParts<'a> {
    type Item = (TextPart<'a>, Spelling<'a>);

    fn next(&mut self) -> Option<Self::Item> {
        let from = self.rest?;
        let (part, rest) = first_part(from);
        let spelling = |names, version, system| Spelling { names, version, system };
        // No rule fits the second of a pair.
        let found = fit(self.place, self.hard_floats, part, rest);
        let names = match (&found, self.name) {
            (Some(fit), _) => spelling(fit.names, fit.kept_version(), None),
            (None, Some(name)) => spelling(name, "", None),
            (None, None) if self.place == Place::Second && is_other_system(part, rest) => {
                spelling("unknown", "", Some(part))
            }
            (None, None) => spelling(part, "", None),
        };
        self.rest = rest;
        self.place = match self.place {
            Place::First => Place::Second,
            _ => Place::AfterFirst,
        };
        self.hard_floats |= found.map_or(false, |it| it.form == Form::HardFloats);
        self.name = found.and_then(|it| it.next_name);
        let start = self.text.len().saturating_sub(from.len());
        Some((TextPart { text: part, start }, names))
    }
}

/// The names that a part of a string spells: one or two, written with a dash between them.
#[derive(Clone, Copy, Debug, PartialEq, Eq)]
pub struct Spelling<'a> {
    /// The part, or known names with dashes between them.
    pub(crate) names: &'a str,
    /// The version that stays, of `macosx`.
    version: &'a str,
    /// The part after the name `unknown`, if it is a system and no vendor.
    system: Option<&'a str>,
}

impl<'a> Spelling<'a> {
    /// Gives the names, which this part spells, to a reading.
    pub(crate) fn give(&self, reading: &mut Reading<'a>, part: TextPart<'a>) -> Result<(), Refusal<'a>> {
        for names in [Some(self.names), self.system] {
            let mut left = names;
            while let Some(names) = left {
                let (name, others) = first_part(names);
                let named = TextPart { text: name, ..part };
                reading.take(named).map_err(|mut refusal| {
                    refusal.part = part;
                    refusal
                })?;
                left = others;
            }
        }
        if let Ok(version) = self.version.parse::<DeploymentTarget>() {
            reading.triple.operating_system = OperatingSystem::MacOSX(Some(version));
        }
        Ok(())
    }

    /// Whether a part spells only itself.
    pub(crate) fn is_only(&self, part: &str) -> bool {
        self.system.is_none() && part.strip_prefix(self.names) == Some(self.version)
    }
}

impl fmt::Display for Spelling<'_> {
    fn fmt(&self, f: &mut fmt::Formatter<'_>) -> fmt::Result {
        f.write_str(self.names)?;
        f.write_str(self.version)?;
        self.system.map_or(Ok(()), |it| write!(f, "-{it}"))
    }
}

/// Whether a part parses as a custom vendor but is a system that isn't known, or says something of the machine.
fn is_other_system(part: &str, rest: Option<&str>) -> bool {
    let is_custom = VendorRef::from_str(part).map_or(false, |it| it.is_custom());
    let has_system = || {
        let mut later = rest.unwrap_or("").split('-');
        later.any(|it| is_like_system(it) && it != "unknown")
    };
    let is_system = || is_like_system(part) || is_without_triple(part) && !has_system();
    is_custom && (is_system() || is_of_machine(part))
}

/// Whether a part is a machine, or a word for a byte order, a width, a version or how floating-point arguments are passed.
pub(crate) fn is_of_machine(part: &str) -> bool {
    let is_machine = architecture_of(part).map_or(false, |it| it != Architecture::Unknown);
    // Such as `v7`, `v8.2a` and `v5te`.
    let is_level = part.strip_prefix('v').map_or(false, |it| {
        let numbers = it.trim_end_matches(|it: char| it.is_ascii_lowercase());
        it.len() < 5 && it.len() - numbers.len() < 3 && is_dropped_version(numbers.as_bytes())
    });
    NO_VENDORS.contains(&part) || is_level || is_machine
}

/// Whether a part is the name of a system, perhaps with a version: a known name, another spelling, or what rustc has.
pub(crate) fn is_like_system(part: &str) -> bool {
    const OTHERS: [&str; 5] = ["macos", "netbsdelf", "nuttx", "rtems", "wasip"];
    let mut systems = known_names(Field::OperatingSystem).iter().chain(&OTHERS);
    systems.any(|name| may_be_versioned(part, name))
}

/// Whether a part is the name of a system that no triple has, perhaps with a version. Where another system follows, it is a vendor.
pub(crate) fn is_without_triple(part: &str) -> bool {
    SYSTEMS.iter().any(|it| may_be_versioned(part, it.0))
}

/// Whether a part is this name, or the name with what may be its version: it begins with a digit or a dot.
pub(crate) fn may_be_versioned(part: &str, name: &str) -> bool {
    // Most differ in their first byte, which takes no call to see.
    let begins = part.as_bytes().first() == name.as_bytes().first();
    let version = begins.then(|| part.strip_prefix(name)).flatten();
    version.map_or(false, |it| it.bytes().next().map_or(true, is_digit_or_dot))
}
