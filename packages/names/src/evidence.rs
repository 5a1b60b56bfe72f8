//! What words say: evidence.
//!
//! Three things are told apart, and none is taken for another:
//!
//! - A *name* is a row of a tool's table, or a product of its rules. [`Dialect::read`](crate::Dialect::read) gives its triple.
//! - *Evidence* is words in any text, such as a file's name, a line of `uname` or a runner's label. Each word that is
//!   understood is a constraint: on the machine, which is at least of its level, on the width of pointers, on floating-point
//!   arguments, on the system, on the C library or on another ABI. Of each property the words say one thing, nothing, or things
//!   that contradict each other.
//! - A *target* is a triple.
//!
//! Constraints are only intersected. Words rule triples out, and they name one only if the triple says just what they say, and
//! if each of them is understood, from the first that says a machine or a system: what comes before is the name of a program.
//! What a system always has goes without saying, such as its usual vendor, or the floating-point arguments of Android.
use crate::dialect::Sense;
use crate::levels::{is_at_most, is_same};
use crate::name::Buffer;
use crate::reading::first_part;
use crate::shape::{is_on, library_and_abi, unversioned, usual_vendor};
use crate::suggestions::{
    architecture_of, edits_between, fit_alone, known_names, machine_of, visible, Place, FIRST_RULES,
};
use crate::table::{OTHER_WORDS, WORDS};
use crate::{Dialect, FloatAbi};
use core::fmt;
use core::ops::Range;
use core::str::FromStr as _;
use target_lexicon::{
    Architecture, ArmArchitecture, Endianness, Environment, Field, OperatingSystem, PointerWidth, TripleRef, VendorRef,
    X86_32Architecture,
};

/// What words say of a property.
#[derive(Clone, Copy, Debug, Default, PartialEq, Eq)]
pub(crate) enum Said<T> {
    /// Nothing.
    #[default]
    Unsaid,
    /// One thing.
    One(T),
    /// Several things, which contradict each other.
    Contradicted,
}

impl<T: Copy + PartialEq> Said<T> {
    /// The one thing that is said.
    pub(crate) fn one(self) -> Option<T> {
        match self {
            Said::One(it) => Some(it),
            _ => None,
        }
    }

    /// Whether this may be so: nothing else is said.
    pub(crate) fn allows(self, it: T) -> bool {
        self == Said::Unsaid || self == Said::One(it)
    }

    pub(crate) fn add(&mut self, it: T) {
        *self = if self.allows(it) { Said::One(it) } else { Said::Contradicted };
    }
}

/// What the words of a text say of a target. `Display` says it in a sentence.
///
/// ```
/// use target_names::Evidence;
///
/// for (text, triple, level) in [
///     ("arm64-osx", "aarch64-apple-darwin", ""),
///     ("linuxArm64", "aarch64-unknown-linux", ""),
///     ("debian-12-armhf", "arm-unknown-linux-gnueabihf", ""),
///     ("tool-1.2.3-windows-x86_64.zip", "x86_64-pc-windows", ""),
///     ("tool_1.2_linux_amd64_v3", "x86_64-unknown-linux", "v3"),
/// ] {
///     let sense = Evidence::of(text).sense().unwrap();
///     assert_eq!((sense.triple.to_string(), sense.level), (triple.into(), level));
/// }
/// for (text, sentence) in [
///     ("ubuntu-22.04", "its words say linux, gnu, and no single machine known here"),
///     ("windows-11-arm", "its words say windows, and no single machine known here"),
///     ("macos-arm64_x86_64", "it names several machines"),
///     ("aarch64-linux-mlibc", "no triple says all that its words say: aarch64, linux, another C library or ABI"),
///     ("linux-x64-foo", "its words say x86_64, linux; here nobody knows `foo`"),
/// ] {
///     let evidence = Evidence::of(text);
///     assert_eq!((evidence.sense(), evidence.to_string()), (None, sentence.into()));
/// }
/// assert!(Evidence::of("foo").is_empty());
/// ```
#[derive(Clone, Copy, Debug, Default)]
pub struct Evidence<'a> {
    text: &'a str,
    machine: Said<Architecture>,
    /// It says `arm` or `armv8`, which may have 32 bits or 64.
    is_any_arm: bool,
    is_v8: bool,
    /// It has a word for a machine that no triple has.
    pub(crate) is_other_machine: bool,
    level: Said<&'static str>,
    width: Said<PointerWidth>,
    /// The byte order that a misspelled machine's word ends with, such as `powerpcel`.
    pub(crate) order: Said<Endianness>,
    pub(crate) floats: Said<FloatAbi>,
    /// A known vendor that isn't the usual one of many systems.
    vendor: Said<&'static str>,
    /// By its known name, or `other`, which no triple has.
    pub(crate) system: Said<&'static str>,
    pub(crate) library: Said<&'static str>,
    /// What else an environment says, such as `android`, `sim` or `n64`.
    form: Said<&'static str>,
    /// The first word that isn't understood, after the first that says a machine or a system.
    pub(crate) unknown: Option<&'a str>,
    /// Alpine's `armhf` is Armv6.
    is_of_alpine: bool,
    /// It may be a name of Node's, whose `ppc64` is little-endian on Linux.
    is_of_node: bool,
    /// A machine and `elf` stand there without a system: it is none.
    is_bare: bool,
    /// Before that, a word isn't understood, as in the name of a program.
    pub(crate) has_title: bool,
    /// Before that, and not just before it, a word says a C library, which may be another target's: `sdk_musl.Linux-x86_64`.
    has_library_apart: bool,
}

/// The library of words for one that no triple states, and the system of words for one that no triple has.
const OTHER: &str = "other";

impl<'a> Evidence<'a> {
    /// What the words of a text say. Nothing is allocated, and the time is linear.
    #[must_use]
    pub fn of(text: &'a str) -> Evidence<'a> {
        // GDB's `i386:x86-64` is one machine of a family.
        let start = if text.starts_with("i386:") { 5 } else { 0 };
        let mut evidence = Evidence { text, ..Evidence::default() };
        let mut words = Words { text, at: start };
        let (mut before, mut from) = (None, 0);
        let is_sign = |it: char| !it.is_ascii_alphanumeric();
        while let Some(word) = words.next() {
            if let Some((level, end)) = evidence.level_at(word.start).filter(|_| before == Some(Kind::Machine)) {
                evidence.level.add(level);
                (words.at, before) = (end, None);
                continue;
            }
            let mut after = words.clone();
            let is_of_machine = before == Some(Kind::Machine) && &text[word.clone()] == "w64"; // `x86_w64`
            let (said, last) = match after.next() {
                Some(next) => match said_by_pair(text, &word, &next).filter(|_| !is_of_machine) {
                    Some(said) => {
                        words = after;
                        (Some(said), next)
                    }
                    None => (said_in(text, &word), word.clone()),
                },
                None => (said_in(text, &word), word.clone()),
            };
            let word = word.start..last.end;
            let is_after_ppc64 = || text[..word.start].trim_end_matches(is_sign).ends_with("linux-ppc64");
            let may_be_library = said.map_or(!is_version(&text[word.clone()]), |it| matches!(it, "gnu" | "musl"));
            evidence.is_of_node |= before == Some(Kind::Machine) && may_be_library && is_after_ppc64();
            let says_nothing = matches!(said, None | Some("nothing"));
            if says_nothing && before == Some(Kind::Machine) && evidence.may_be_other_machine(from, &word) {
                evidence.machine = Said::Unsaid;
                evidence.unknown = evidence.unknown.or(Some(&text[from..word.end]));
            }
            from = word.start;
            before = evidence.take(word, said, before);
        }
        // Of `gnueabi__` letters may be missing.
        let signs = &text[text.trim_end_matches(['-', '_', '.']).len()..];
        if signs.len() > 1 || signs == "_" {
            evidence.unknown = evidence.unknown.or(Some(signs));
        }
        evidence
    }

    /// Takes a word, which says this or isn't known, after one that says a machine or a system, or another one.
    fn take(&mut self, word: Range<usize>, said: Option<&'static str>, before: Option<Kind>) -> Option<Kind> {
        let has_begun = !self.is_empty();
        let text: &'a str = &self.text[word.clone()];
        // A version's name of macOS says it only in names of Homebrew: `arm64_tahoe`.
        let said = said.filter(|it| *it != "darwin version" || before == Some(Kind::Machine));
        let joint = self.text[..word.start].bytes().next_back();
        if let (Some(Kind::Machine | Kind::System), "32" | "64") = (before, text) {
            self.width.add(if text == "32" { PointerWidth::U32 } else { PointerWidth::U64 });
            return None;
        }
        let Some(said) = said else {
            // A number after a machine may be a part of it: `x86_46`, `arm-7`.
            let after = self.text[word.end..].strip_prefix('.').unwrap_or("");
            let goes_on = after.starts_with(|it: char| it.is_ascii_digit());
            let is_joined = joint == Some(b'_') && text.len() < 4;
            let may_be_64 = matches!(self.machine, Said::One(Architecture::X86_32(_))) && is_of_64(text);
            let is_part = before == Some(Kind::Machine)
                && (is_joined || may_be_64 || self.is_any_arm && text.len() < 3)
                && !goes_on;
            let is_part = is_part || before == Some(Kind::Gnu) && text != "2";
            // What a platform has after its machine is a level.
            let is_level = before == Some(Kind::Machine) && joint == Some(b'/') && (text.starts_with('v') || !goes_on);
            // After a system it may be that of a program.
            let is_level = is_level || self.level_at(word.start).is_some();
            let is_version = is_version(text) && !is_part && !is_level;
            if has_begun && !is_version && self.unknown.is_none() {
                self.unknown = Some(text);
            }
            self.order = order_of(text).map_or(self.order, Said::One);
            self.has_title |= !has_begun && !is_version;
            return before.filter(|it| *it == Kind::Library && is_version);
        };
        // What a system's kit builds for isn't what it runs on: `wasi-sdk-25.0-arm64-macos`.
        if said == "kit" && before == Some(Kind::System) && !self.has_machine() {
            *self = Evidence { text: self.text, has_title: true, ..Evidence::default() };
            return None;
        }
        // In a program's name `gnu`, `soft` and the like say nothing.
        let says = |kind: Kind| said.split(' ').any(|it| kind_of(it) == kind);
        let is_title = !has_begun && !says(Kind::Machine) && !says(Kind::System);
        let may_be_title =
            ["gnu", "soft", "hard", "32", "64", "sim", "newlib", "neon", "ibm", "sun", "nvidia"].contains(&said);
        // What an ABI follows is a system, and no part of a name without a vendor, as no distribution is:
        // `arm-none-eabi-10.3-mac`, `riscv32-none-ubuntu`.
        self.is_bare |= said == "elf" && self.has_machine() && self.system == Said::Unsaid;
        let is_apart = before.is_none() || said == "linux gnu";
        let is_none = self.is_bare || self.system == Said::One("none") && is_apart;
        if is_none && says(Kind::System) && said != "none" {
            self.system = Said::Contradicted;
        }
        let is_next = self.library == Said::Unsaid || matches!(before, Some(Kind::Gnu | Kind::Library));
        // The word after the machine or the system is the target's: `musl-tool-linux-arm-musleabihf`.
        let is_of_target = has_begun && (says(Kind::Gnu) || says(Kind::Library));
        self.has_library_apart = (self.has_library_apart || !has_begun && !is_title && !is_next) && !is_of_target;
        if !(is_title && may_be_title) {
            said.split(' ').for_each(|it| self.say(it));
        }
        let kinds = [Kind::Machine, Kind::System, Kind::Gnu, Kind::Library];
        // After `glibc2` comes the rest of its version, and so it may after `musl1`.
        let after = &self.text[word.end..];
        let goes_on = |it: char| it.is_ascii_digit();
        let is_parted = after.strip_prefix('.').map_or(false, |it| !it.starts_with(goes_on));
        let is_whole = !text.starts_with("glibc") || !text.ends_with(goes_on);
        let kind = kinds.into_iter().find(|it| says(*it));
        kind.filter(|it| match it {
            Kind::Gnu => is_whole,
            Kind::Library => !is_parted,
            _ => true,
        })
    }

    /// Whether a machine's word from here on and the next one are an edit from another machine, or begin with it: `x86_6f`,
    /// `powerpc-4`, `x86_64unknown`.
    fn may_be_other_machine(&self, from: usize, next: &Word) -> bool {
        let (both, after) = (&self.text[from..next.end], self.text[next.end..].strip_prefix('.').unwrap_or(""));
        let machine = self.machine.one().map(machine_of);
        let is_other = |name: &str| architecture_of(name).map(machine_of) != machine;
        let mut names = known_names(Field::Architecture).iter().copied().chain(FIRST_RULES.iter().map(|it| it.1));
        let is_near = |name: &str| edits_between(both.as_bytes(), name) == Some(1);
        // A number may be a version.
        self.machine != Said::Contradicted
            && (both.contains('_') || !after.starts_with(|it: char| it.is_ascii_digit()))
            && names.any(|it| (is_near(it) || it.contains('_') && both.starts_with(it)) && is_other(it))
    }

    /// The level of a machine that begins here in the text, and its end: `v3` of `amd64_v3`, and no version such as `v3.2.1`.
    fn level_at(&self, start: usize) -> Option<(&'static str, usize)> {
        let (platform, profile, own): (_, _, &[_]) = match self.machine {
            Said::One(Architecture::X86_64) => ("linux/amd64/", "", &[]),
            // Armv8.2-A.
            Said::One(Architecture::Aarch64(_)) => ("linux/arm64/", "a", &[]),
            Said::One(Architecture::Arm(_)) => ("linux/arm/", "a", &["v6", "v7", "v8"]),
            _ => return None,
        };
        let rest = &self.text[start..];
        let after = |level: &str| {
            let after = rest.strip_prefix(level)?;
            let after = after.strip_prefix(profile).unwrap_or(after);
            let goes_on = after.starts_with(|it: char| it.is_ascii_alphanumeric())
                || after.trim_start_matches('.').starts_with(|it: char| it.is_ascii_digit());
            (!goes_on).then_some(after)
        };
        let of_platform = |it: &(&'static str, &'static str)| Some((it.0.strip_prefix(platform)?, it.1));
        let levels = Dialect::Oci.table().levels.iter().filter_map(of_platform);
        let mut levels = levels.chain(own.iter().map(|it| (*it, *it)));
        levels.find_map(|it| Some((it.1, self.text.len() - after(it.0)?.len())))
    }

    pub(crate) fn has_machine(&self) -> bool {
        self.machine != Said::Unsaid || self.is_any_arm || self.is_other_machine
    }

    fn say(&mut self, what: &'static str) {
        match what {
            "nothing" | "elf" | "kit" | "version" => {}
            "several" => self.machine = Said::Contradicted,
            "arm32|64" => self.is_any_arm = true,
            "v8" => self.is_v8 = true,
            "other-machine" => self.is_other_machine = true,
            "32" => self.width.add(PointerWidth::U32),
            "64" => self.width.add(PointerWidth::U64),
            "hard" => self.floats.add(FloatAbi::Hard),
            "soft" => self.floats.add(FloatAbi::Soft),
            "v2" | "v3" | "v4" | "v5" | "v6" | "v7" | "neon" | "i486" | "pentium4" | "athlon" => self.level.add(what),
            "alpine" => self.is_of_alpine = true,
            "node" => self.is_of_node |= !self.has_machine(),
            _ if what.starts_with("power") && !what.starts_with("powerpc") || what.starts_with("rva") => {
                self.level.add(what)
            }
            "other-abi" => self.library.add(OTHER),
            // That of MinGW with the tools of LLVM is one of GNU's.
            "gnullvm" if self.library == Said::One("gnu") => self.library = Said::One(what),
            "gnu" | "musl" | "uclibc" | "msvc" | "gnullvm" | "newlib" => self.library.add(what),
            "android" | "ohos" | "macabi" | "sim" | "n32" | "n64" | "spe" => self.form.add(what),
            "ibm" | "sun" | "nvidia" | "uwp" => self.vendor.add(what),
            "other-system" => self.add_system(OTHER),
            _ => match what.parse::<Architecture>() {
                Ok(machine) => self.add_machine(machine),
                Err(_) => self.add_system(what),
            },
        }
    }

    /// Of a word without a level and one with it, or two of the same level, both are said.
    fn add_machine(&mut self, machine: Architecture) {
        let is_less = |it, other| has_no_level(it) && is_at_most((it, ""), (other, ""));
        self.machine = match self.machine {
            Said::Unsaid => Said::One(machine),
            Said::One(it) if is_less(it, machine) => Said::One(machine),
            Said::One(it) if is_less(machine, it) || it == machine => Said::One(it),
            // A word for an i586 isn't one for x86, of which no level is said.
            Said::One(it) if is_same((machine, ""), (it, "")) && !matches!(it, Architecture::X86_32(_)) => {
                Said::One(it)
            }
            _ => Said::Contradicted,
        };
    }

    /// `none` is the system only where no other word says one.
    fn add_system(&mut self, system: &'static str) {
        match (self.system, system) {
            (Said::One("none"), _) => self.system = Said::One(system),
            (Said::One(_), "none") => {}
            _ => self.system.add(system),
        }
    }

    /// Whether no word says a machine or a system.
    #[must_use]
    pub fn is_empty(&self) -> bool {
        !self.has_machine() && self.system == Said::Unsaid
    }

    /// Whether a word says a system.
    #[must_use]
    pub fn has_system(&self) -> bool {
        self.system != Said::Unsaid
    }

    /// Whether words say an Arm that may have 32 bits or 64, as `armv8` does, which is AArch64 in Conan.
    #[must_use]
    pub fn is_any_arm(&self) -> bool {
        self.is_any_arm && self.machine() == Said::Unsaid
    }

    /// Whether no word says anything of a target.
    pub(crate) fn is_silent(&self) -> bool {
        self.is_empty() && self.library == Said::Unsaid && self.floats == Said::Unsaid && self.form == Said::Unsaid
    }

    /// Whether words say a machine and a system, and each is understood.
    pub(crate) fn is_understood(&self) -> bool {
        self.has_machine() && self.system != Said::Unsaid && self.unknown.is_none() && !self.has_title
    }

    /// The least machine that the words say. A word such as `arm` says none, which may have 32 bits or 64, unless others say which.
    pub(crate) fn machine(&self) -> Said<Architecture> {
        let arm = Architecture::Arm(if self.is_v8 { ArmArchitecture::Armv8 } else { ArmArchitecture::Arm });
        let may_be_64 = self.width.allows(PointerWidth::U64);
        let is_of_alpine = |word: &str| self.is_of_alpine && self.text.contains(word);
        let has_floats = self.floats != Said::Unsaid || self.level == Said::One("neon");
        let is_arm = |it| matches!(it, Architecture::Arm(_) | Architecture::Aarch64(_));
        match self.machine {
            Said::One(it) if self.is_any_arm && !is_arm(it) => Said::Contradicted,
            Said::One(Architecture::Powerpc64) if self.is_of_node => Said::Contradicted,
            // In `aarch64-arm-none-eabi` it is another one.
            Said::One(Architecture::Aarch64(_)) if self.is_any_arm && has_floats => Said::Contradicted,
            Said::Unsaid if self.is_any_arm && (has_floats || !may_be_64) => Said::One(arm),
            Said::One(Architecture::Arm(ArmArchitecture::Arm)) if self.is_v8 => Said::One(arm),
            Said::One(it) if it == arm && is_of_alpine("armhf") => Said::One(Architecture::Arm(ArmArchitecture::Armv6)),
            Said::One(it) if it == arm && is_of_alpine("armel") => {
                Said::One(Architecture::Arm(ArmArchitecture::Armv5te))
            }
            // Alpine's is the i586.
            Said::One(Architecture::X86_32(_)) if self.is_of_alpine && !self.text.contains("i686") => {
                Said::One(Architecture::X86_32(X86_32Architecture::I586))
            }
            said => said,
        }
    }

    /// The level of a machine that the words say, or an empty string.
    pub(crate) fn level_of(&self, machine: Architecture) -> &'static str {
        let is_own = self.machine().one().map(machine_of) == Some(machine_of(machine));
        self.level.one().filter(|_| is_own).unwrap_or("")
    }

    /// Whether the words name this, of a tool whose `arm` has 32 bits.
    pub(crate) fn names(&self, sense: &Sense<'_>) -> bool {
        let mut known = *self;
        if known.is_any_arm {
            known.add_machine(Architecture::Arm(ArmArchitecture::Arm));
        }
        // A tool's name may say a level that no word does, a format, or no system: `wasm32-unknown-unknown`.
        let plain = TripleRef { binary_format: sense.triple.default_binary_format(), ..sense.triple };
        let is_same = |it: Sense<'_>| it.triple == plain && ["", sense.level].contains(&it.level);
        known.sense().map_or(plain.operating_system == OperatingSystem::Unknown && self.allows(sense), is_same)
    }

    /// What the words name: the triple that says just what they say, and the level of its machine that they say.
    #[must_use]
    pub fn sense(&self) -> Option<Sense<'static>> {
        let level = match self.level {
            Said::Unsaid => "",
            said => said.one()?,
        };
        let (machine, system) = (self.machine().one()?, self.system.one()?);
        let is_its_level = level.is_empty() || !is_at_most((machine, level), (machine, ""));
        let is_whole = self.unknown.is_none() && !self.is_other_machine && !self.has_library_apart && is_its_level;
        let operating_system: OperatingSystem = system.parse().ok()?;
        let usual = VendorRef::Known(usual_vendor(machine, operating_system));
        let vendor = self.vendor.one().and_then(|it| VendorRef::from_str(it).ok());
        let of = |environment| {
            let mut triple = TripleRef {
                architecture: machine,
                vendor: vendor.unwrap_or(usual),
                operating_system,
                environment,
                binary_format: TripleRef::unknown().binary_format,
            };
            triple.binary_format = triple.default_binary_format();
            triple
        };
        let mut names = known_names(Field::Environment).iter().filter_map(|it| it.parse().ok());
        let is_named = |it: &Environment| self.is_just(&of(*it), of(Environment::Unknown));
        let environment = names.find(is_named).filter(|_| is_whole)?;
        Some(Sense { triple: of(environment), level })
    }

    /// Whether an environment says just what the words say, on a triple without one.
    fn is_just(&self, triple: &TripleRef<'_>, bare: TripleRef<'_>) -> bool {
        let (machine, environment) = (triple.architecture, triple.environment);
        let Some((library, form)) = said_by(environment) else {
            return false;
        };
        let is_arm = matches!(machine, Architecture::Arm(_));
        let is_x86 = matches!(machine, Architecture::X86_64 | Architecture::X86_32(_));
        let own = |said: Said<&'static str>, it: &'static str| match it {
            "" => said == Said::Unsaid,
            _ => said == Said::One(it),
        };
        // As in rustc, which has no `sim` on x86.
        let is_simulator = is_x86 && self.form == Said::One("sim") && bare.operating_system.is_like_darwin();
        let has_form = if is_simulator { form.is_empty() } else { own(self.form, form) };
        let floats = match self.floats {
            // A library of Arm has one of both ways.
            Said::Unsaid if is_arm && !library.is_empty() => return false,
            Said::Unsaid => FloatAbi::of(triple),
            said => match said.one() {
                None => return false,
                floats => floats,
            },
        };
        let width = match self.width {
            Said::Contradicted => return false,
            said => said.one().or(bare.pointer_width().ok()),
        };
        let is_arms = matches!(environment, Environment::Androideabi);
        own(self.library, library)
            && has_form
            && floats == FloatAbi::of(triple)
            && width == triple.pointer_width().ok()
            && (environment != Environment::Android || !is_arm)
            && (!is_arms || is_arm)
            && is_on(environment, Some(machine))
            && (library.is_empty() || form == "n64" || !matches!(machine, Architecture::Mips64(_)))
    }

    /// Whether the words may be of this: it says what they say, and nothing that contradicts them.
    pub(crate) fn allows(&self, sense: &Sense<'_>) -> bool {
        let triple = &sense.triple;
        let machine = triple.architecture;
        let is_arm = matches!(machine, Architecture::Arm(_) | Architecture::Aarch64(_));
        let own_width = machine.pointer_width().ok();
        let width = triple.pointer_width().ok();
        let has_width = match self.width {
            Said::Unsaid => self.machine == Said::Unsaid || width == own_width,
            said => said.one() == width && width.is_some(),
        };
        let (library, form) = said_by(triple.environment).unwrap_or(("", ""));
        let has_form = match (self.form, form) {
            (Said::Unsaid, "" | "n64") => true,
            (Said::Unsaid, "android" | "ohos") => self.system == Said::Unsaid,
            // A word that isn't understood may be a misspelled one for it.
            (Said::Unsaid, _) => self.unknown.is_some() || self.has_title,
            (said, _) => said == Said::One(form),
        };
        let order = machine.endianness().ok();
        self.allows_machine(machine)
            && !self.is_other_machine
            && order.map_or(true, |it| self.order.allows(it))
            && has_width
            && has_form
            && self.level.allows(sense.level)
            && self.allows_system(triple)
            && match FloatAbi::of(triple) {
                Some(it) => self.floats.allows(it),
                // Only an Arm without a C library may pass them in either way.
                None => self.floats == Said::Unsaid || is_arm && self.floats.one().is_some(),
            }
            && self.library.allows(library)
    }

    /// Whether the machine may be this: it is the one of the words, or of a level where they say none.
    fn allows_machine(&self, machine: Architecture) -> bool {
        match (self.machine(), machine) {
            // A word such as `arm` says no version.
            (Said::Unsaid, Architecture::Arm(it)) => {
                !self.is_any_arm || matches!(it, ArmArchitecture::Arm | ArmArchitecture::Armv8)
            }
            (Said::Unsaid, _) => !self.is_any_arm || matches!(machine, Architecture::Aarch64(_)),
            (Said::One(it), _) => {
                is_at_most((it, ""), (machine, "")) && (is_at_most((machine, ""), (it, "")) || has_no_level(it))
            }
            (Said::Contradicted, _) => false,
        }
    }

    /// Whether the system may be that of a triple. Tools say `wasi` of its first preview.
    pub(crate) fn allows_system(&self, triple: &TripleRef<'_>) -> bool {
        let own = unversioned(triple.operating_system);
        let is_own = |it: &str| {
            let said = it.parse();
            said == Ok(own) || (said, own) == (Ok(OperatingSystem::Wasi), OperatingSystem::WasiP1)
        };
        match self.system {
            Said::Unsaid => true,
            said => said.one().map_or(false, is_own),
        }
    }

    /// Whether the C library may be that of a triple.
    pub(crate) fn allows_library(&self, triple: &TripleRef<'_>) -> bool {
        let library = said_by(triple.environment).map_or("", |it| it.0);
        self.library.allows(library)
    }

    /// Whether the words say no Android, or another system on Linux, that a triple hasn't.
    pub(crate) fn allows_form(&self, triple: &TripleRef<'_>) -> bool {
        self.form.allows(said_by(triple.environment).map_or("", |it| it.1))
    }
}

/// A word for these says no level, and the machine may have any.
pub(crate) fn has_no_level(machine: Architecture) -> bool {
    use target_lexicon::{Riscv32Architecture::Riscv32 as Bits32, Riscv64Architecture::Riscv64 as Bits64};
    use Architecture::*;
    matches!(machine, Arm(ArmArchitecture::Arm | ArmArchitecture::Armeb) | Riscv32(Bits32) | Riscv64(Bits64))
}

/// The C library that an environment says, and what else. `None` of one that no word says.
fn said_by(environment: Environment) -> Option<(&'static str, &'static str)> {
    Some(match library_and_abi(environment) {
        ("bionic", _) => ("", "android"),
        ("ohos", _) => ("", "ohos"),
        (library, "abi64") => (library, "n64"),
        ("gnu", "spe") => ("gnu", "spe"),
        ("", abi @ ("macabi" | "sim")) => ("", abi),
        ("", "" | "softfloat" | "spe") if environment != Environment::Unknown => return None,
        ("sgx", _) => return None,
        (library, _) => (library, ""),
    })
}

impl fmt::Display for Evidence<'_> {
    fn fmt(&self, f: &mut fmt::Formatter<'_>) -> fmt::Result {
        match self.sense() {
            Some(Sense { triple, level: "" }) => return write!(f, "its words name {triple}"),
            Some(Sense { triple, level }) => return write!(f, "its words name {triple} of the level {level}"),
            None => {}
        }
        let begin = match (self.machine(), self.system) {
            (Said::Contradicted, _) => return f.write_str("it names several machines"),
            _ if self.is_other_machine => return f.write_str("it names a machine that no triple has"),
            (Said::Unsaid, Said::Unsaid) if !self.is_any_arm => return f.write_str("it names nothing known here"),
            (Said::Unsaid, Said::Unsaid) => return f.write_str("it names an Arm of 32 or of 64 bits, and no system"),
            (Said::Unsaid, Said::Contradicted | Said::One(OTHER | "none")) => {
                return f.write_str("it names a system, and no single machine known here")
            }
            (_, Said::Contradicted) => return f.write_str("it names several systems"),
            (_, Said::One(OTHER)) => return f.write_str("it names a machine, and a system that no triple has"),
            (Said::Unsaid, _) | (_, Said::Unsaid) => "its words say",
            _ if self.unknown.is_some() => "its words say",
            _ if self.has_library_apart => "its words may be of two targets:",
            _ => "no triple says all that its words say:",
        };
        f.write_str(begin)?;
        let mut separator = " ";
        let mut say = |what: &dyn fmt::Display| {
            write!(f, "{separator}{what}")?;
            separator = ", ";
            Ok(())
        };
        if let Some(machine) = self.machine().one() {
            say(&machine)?;
        }
        if let Some(level) = self.level.one() {
            say(&format_args!("its level {level}"))?;
        }
        match self.width {
            Said::Unsaid => {}
            Said::One(it) => say(&format_args!("{} bits", it.bits()))?,
            Said::Contradicted => say(&"several widths")?,
        }
        match self.floats {
            Said::Unsaid => {}
            Said::One(it) => say(&format_args!("{it}-float"))?,
            Said::Contradicted => say(&"several floating-point ABIs")?,
        }
        for said in [self.system, self.library, self.form] {
            match said {
                Said::Unsaid => {}
                Said::One(OTHER) => say(&"another C library or ABI")?,
                Said::One(it) => say(&it)?,
                Said::Contradicted => say(&"several C libraries or ABIs")?,
            }
        }
        match (self.machine(), self.unknown) {
            (Said::Unsaid, _) => f.write_str(", and no single machine known here"),
            (_, None) if self.system == Said::Unsaid => f.write_str(", and no system"),
            (_, Some(_)) if self.system == Said::Unsaid => f.write_str(", and no system known here"),
            (_, Some(word)) => write!(f, "; here nobody knows `{}`", visible(word).shortened()),
            (_, None) => Ok(()),
        }
    }
}

/// What a word is of, as far as it matters which words come next.
#[derive(Clone, Copy, PartialEq, Eq)]
enum Kind {
    Machine,
    System,
    /// `gnu`, after which a number may be one of an ABI, as in `gnux32`, unless it is that of glibc.
    Gnu,
    /// Another C library.
    Library,
    Other,
}

fn kind_of(said: &str) -> Kind {
    match said {
        "arm32|64" | "several" | "other-machine" => Kind::Machine,
        "other-system" => Kind::System,
        "gnu" => Kind::Gnu,
        "musl" | "uclibc" | "msvc" | "gnullvm" | "newlib" | "other-abi" => Kind::Library,
        _ if said.parse::<Architecture>().is_ok() => Kind::Machine,
        _ if said.parse::<OperatingSystem>().is_ok() => Kind::System,
        _ => Kind::Other,
    }
}

/// A word of a text: letters and digits, up to a sign, or to a capital letter after a small one or before one, unless all of it is known.
#[derive(Clone)]
struct Words<'a> {
    text: &'a str,
    at: usize,
}

type Word = Range<usize>;

impl Iterator for Words<'_> {
    type Item = Word;

    fn next(&mut self) -> Option<Word> {
        let bytes = self.text.as_bytes();
        let is_letter = |at: usize| bytes.get(at).map_or(false, |it| it.is_ascii_alphanumeric() || !it.is_ascii());
        while self.at < bytes.len() && !is_letter(self.at) {
            self.at += 1;
        }
        let start = self.at;
        let is_after_sign = start == 0 || !is_letter(start - 1);
        // A longer word isn't known.
        let whole = (start..=start + LONGEST).find(|at| !is_letter(*at));
        let is_known = |end: &usize| is_after_sign && said_in(self.text, &(start..*end)).is_some();
        let is_capital = |at: usize| bytes.get(at).map_or(false, u8::is_ascii_uppercase);
        let is_small = |at: usize| bytes.get(at).map_or(false, u8::is_ascii_lowercase);
        let begins = |at: usize| is_capital(at) && (!is_capital(at - 1) || is_small(at + 1));
        let ends = |at: &usize| !is_letter(*at) || *at > start && begins(*at);
        let end = whole.filter(is_known).or_else(|| (start..).find(ends))?;
        self.at = end;
        (start < end).then_some(start..end)
    }
}

/// What a word of a text says.
fn said_in(text: &str, word: &Word) -> Option<&'static str> {
    said(Buffer::<LONGEST>::of_lower(&[text.get(word.clone())?])?.as_str())
}

/// The most bytes of a word that is understood.
const LONGEST: usize = 24;

/// What a word in lower case says: by the table, which has `unknown` and `none`, or as a known name of a machine, or of a system.
pub(crate) fn said(word: &str) -> Option<&'static str> {
    let listed = |word: &str| {
        let at = WORDS.binary_search_by(|it| it.0.cmp(word)).ok()?;
        Some(WORDS.get(at)?.1)
    };
    let versioned = || {
        let name = word.trim_end_matches(|it: char| it.is_ascii_digit());
        let version = &word[name.len()..];
        if version.is_empty() {
            return None;
        }
        let said = listed(name).or_else(|| system_named(name))?;
        let first = said.split(' ').next()?;
        let is_system = kind_of(first) == Kind::System;
        // A library's 32 and 64 are of an ABI.
        let is_width = matches!(version, "32" | "64");
        let has_versions = (matches!(said, "version" | "musl" | "msvc") || name == "glibc") && !is_width;
        (is_system || has_versions).then_some(said)
    };
    listed(word).or_else(|| machine_named(word)).or_else(|| system_named(word)).or_else(versioned)
}

/// Whether a word is one for a machine, a system or an ABI that no triple has, and so no misspelled one.
pub(crate) fn is_of_no_triple(word: &str) -> bool {
    has_other_word(word) || matches!(said(word), Some("other-machine" | "other-system" | "other-abi"))
}

/// Whether a word of a name is one that no triple has a meaning of, and that says nothing here.
pub(crate) fn has_other_word(name: &str) -> bool {
    let mut words = name.split(|it: char| !it.is_ascii_alphanumeric());
    words.any(|word| OTHER_WORDS.iter().any(|it| it.eq_ignore_ascii_case(word)))
}

/// The level of the machine that the first part of a string says which is [read](crate::read) as spelled like a triple,
/// and that the triple can't state: `i486` of `i486-linux-gnu`, else an empty string.
#[must_use]
pub fn level_spelled(text: &str) -> &'static str {
    Evidence::of(first_part(text).0).level.one().unwrap_or("")
}

/// Whether a word is understood, and says nothing of a target.
pub(crate) fn says_nothing(word: &str) -> bool {
    said_in(word, &(0..word.len())) == Some("nothing")
}

/// The machine of a text that is only a word for one, and not an Arm of 32 bits.
pub(crate) fn only_machine(text: &str) -> Option<Architecture> {
    let lower = text.chars().map(|it| if it == '-' { '_' } else { it.to_ascii_lowercase() });
    let machine = said(Buffer::<LONGEST>::of_chars(lower)?.as_str())?.parse().ok()?;
    (!matches!(machine, Architecture::Arm(_) | Architecture::Unknown)).then_some(machine)
}

fn system_named(word: &str) -> Option<&'static str> {
    OperatingSystem::from_str(word).ok()?; // which is faster than to look through the names
    let mut names = known_names(Field::OperatingSystem).iter().copied();
    names.find(|it| *it == word)
}

/// The known name of the machine that a word names.
fn machine_named(word: &str) -> Option<&'static str> {
    let mut names = known_names(Field::Architecture).iter().copied();
    let known = Architecture::from_str(word).ok().and_then(|_| names.find(|it| *it == word));
    known.or_else(|| if word == "arm64" { Some("aarch64") } else { Some(fit_alone(Place::First, word)?.names) })
}

/// What two words say that are one for a machine, such as `x86_64` and `arm-v7`, or for a system, such as `big_sur`,
/// unless the second is a version.
fn said_by_pair(text: &str, first: &Word, second: &Word) -> Option<&'static str> {
    if second.start > first.end + 1 {
        return None;
    }
    let next = &text[second.clone()];
    let goes_on = text[second.end..].strip_prefix('.').unwrap_or("");
    let is_version = next.starts_with('v') || !text[..second.start].ends_with('_') && is_number(next);
    if is_version && goes_on.starts_with(|it: char| it.is_ascii_digit()) {
        return None;
    }
    // After a sign a version or letters for a byte order or a profile go on with a machine; others are another word.
    let is_version = next.trim_start_matches(['r', 'v']).starts_with(|it: char| it.is_ascii_digit());
    let is_end = is_version || ["el", "le", "eb", "be", "a", "r", "m"].contains(&next);
    let signs: &[&str] = if is_end || first.end == second.start { &["_", ""] } else { &["_"] };
    signs.iter().find_map(|sign| {
        let both = Buffer::<LONGEST>::of_lower(&[&text[first.clone()], *sign, next])?;
        let said = said(both.as_str())?;
        let kind = kind_of(said.split(' ').next()?);
        let is_system = || *sign == "_" && kind == Kind::System && system_named(both.as_str()).is_none();
        (kind == Kind::Machine || is_system()).then_some(said)
    })
}

/// The byte order that a misspelled word for a machine says: a known one, and letters for the order at its end or
/// within it, as in `mipsle64`.
pub(crate) fn order_of(word: &str) -> Option<Endianness> {
    let is_machine = |letters: &str, at: usize| {
        let rest = Buffer::<LONGEST>::of(&[&word[..at], &word[at + letters.len()..]]);
        rest.map_or(false, |it| machine_named(it.as_str()).is_some())
    };
    let has = |letters: &str| word.match_indices(letters).any(|(at, _)| is_machine(letters, at));
    let of = |letters: [&str; 2]| letters.into_iter().any(has);
    let little = of(["el", "le"]).then_some(Endianness::Little);
    little.or_else(|| of(["eb", "be"]).then_some(Endianness::Big))
}

/// Whether a number may be a misspelled 64: of its digits, or with a neighbour of one.
fn is_of_64(word: &str) -> bool {
    word.bytes().all(|it| matches!(it, b'4' | b'6')) || matches!(word, "54" | "74" | "63" | "65")
}

fn is_number(word: &str) -> bool {
    word.bytes().all(|it| it.is_ascii_digit())
}

/// Whether a word is a number of a version.
fn is_version(word: &str) -> bool {
    let digits = word.strip_prefix(['v', 'r', 'V']).unwrap_or(word);
    !digits.is_empty() && is_number(digits)
}
