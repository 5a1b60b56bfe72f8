//! Names that are read by rules: strings that are spelled like triples, as GNU's config.sub takes and completes them; and
//! platforms of container images, as containerd normalises them.
use crate::dialect::Row;
use crate::driver::wasm_or;
use crate::name::Buffer;
use crate::reading::{is_like_system, is_of_machine, is_soft_floats, may_be_versioned, read};
use crate::shape::{library_and_abi, usual_vendor};
use crate::suggestions::{edits_between, is_dropped_version, known_names};
use crate::table::{refusals, KERNELS, MAKERS, NOT_MACHINES, NOT_SYSTEMS, OTHER_MAKERS, SYSTEMS};
use crate::{suggestion, Evidence, NameError, Said};
use core::fmt::Write;
use target_lexicon::{BinaryFormat, Environment, Field, OperatingSystem, Refusal, TripleRef, VendorRef};

/// The triple that a string means to config.sub, which is spelled like a triple; or why it has none, if that is known.
pub(super) fn read_as_gnu(text: &str) -> Result<TripleRef<'static>, NameError> {
    let parts = Parts::of(text)?;
    let mut spelled = Spelled::new();
    parts.write(&mut spelled).map_err(|_| NameError::Unknown)?;
    let triple = read(spelled.as_str()).map_err(|it| why_refused(&it))?;
    parts.check()?;
    complete(&triple, &parts)
}

/// The parts that config.sub takes a string apart into. A kernel is named before a system, a C library or an ABI.
struct Parts<'a> {
    machine: &'a str,
    maker: &'a str,
    kernel: Option<&'a str>,
    system: Option<&'a str>,
}

/// No string that is read is longer, without its maker.
type Spelled = Buffer<64>;

impl<'a> Parts<'a> {
    fn of(text: &'a str) -> Result<Self, NameError> {
        let mut parts = text.split('-');
        let machine = parts.next().unwrap_or("");
        let (second, third, fourth) = (parts.next(), parts.next(), parts.next());
        let (maker, kernel, system) = match (second, third, fourth) {
            _ if parts.next().is_some() => return Err(NameError::WithoutTriple(refusals::PARTS)),
            (Some(maker), kernel, Some(system)) => (maker, kernel, Some(system)),
            (Some("android"), Some("linux"), None) => ("", Some("linux"), Some("android")),
            (Some(kernel), Some(system), None) if is_kernel_of(kernel, system) => ("", Some(kernel), Some(system)),
            (Some(maker), system @ Some(_), None) => (maker, None, system),
            // A sparc has SunOS, whoever made it.
            (Some(maker), None, None) if is_one_of(MAKERS, maker) && machine != "sparc" => (maker, None, None),
            // The prefix of a compiler for a machine without a system.
            (Some(""), None, None) => ("", None, None),
            (system, ..) => ("", None, system),
        };
        Ok(Parts { machine, maker, kernel, system })
    }

    /// Writes the string without a maker, of whom only floating-point arguments say something.
    fn write(&self, out: &mut Spelled) -> core::fmt::Result {
        let states_floats = self.maker == "hardfloat" || is_soft_floats(self.maker);
        let maker = if states_floats { self.maker } else { "unknown" };
        write!(out, "{}-{maker}", self.machine)?;
        let mut later = self.kernel.iter().chain(&self.system);
        later.try_for_each(|part| write!(out, "-{part}"))
    }

    /// Refuses what config.sub refuses, or takes for something else, of what is spelled like a triple.
    fn check(&self) -> Result<(), NameError> {
        if !self.maker.bytes().all(|it| it.is_ascii_graphic()) {
            return Err(NameError::Unknown);
        }
        let maker = self.maker.trim_end_matches(|it: char| it.is_ascii_digit());
        let is_other_maker = |end: &&str| maker.ends_with(*end);
        let is_refused = |part: &str| {
            let has = |pattern: &&str| match pattern.strip_suffix('*') {
                Some(name) => part == name || is_versioned(part, name),
                None => part == *pattern,
            };
            NOT_SYSTEMS.iter().any(has)
        };
        let why = if NOT_MACHINES.contains(&self.machine) {
            refusals::MACHINE
        } else if self.system.map_or(false, is_refused) {
            refusals::SYSTEM
        } else if is_system(self.maker)
            || self.kernel.is_none() && is_word_of_system(self.maker)
            || OTHER_MAKERS.iter().any(is_other_maker)
        {
            refusals::MAKER
        } else {
            return Ok(());
        };
        Err(NameError::WithoutTriple(why))
    }
}

/// Whether config.sub takes two parts after a machine for a kernel and what runs on it, instead of a maker and a system.
fn is_kernel_of(kernel: &str, system: &str) -> bool {
    let is_one = |kernels: &[&str]| kernels.iter().any(|it| kernel.starts_with(it));
    kernel == "linux"
        || is_one(&["netbsd", "cloudabi"]) && system.starts_with("eabi")
        || is_one(&["kfreebsd", "knetbsd", "kopensolaris"]) && system.starts_with("gnu")
        || kernel == "uclinux" && (system.starts_with("gnu") || system.starts_with("uclibc"))
}

/// Whether a part is this name and a version of digits and dots.
fn is_versioned(part: &str, name: &str) -> bool {
    part.strip_prefix(name).map_or(false, |it| is_dropped_version(it.as_bytes()))
}

/// Whether a part is a system, a kernel, an environment or a word of a machine, which config.sub takes for a maker.
fn is_system(part: &str) -> bool {
    let is_known = || is_like_system(part) || part.parse::<Environment>().is_ok();
    is_one_of(KERNELS, part) || is_of_machine(part) || is_known() && !["none", "unknown", "softfloat"].contains(&part)
}

/// Whether a part is a word for a system in names that no tool has.
fn is_word_of_system(part: &str) -> bool {
    part != "none" && Evidence::of(part).system != Said::Unsaid
}

/// Whether a part is a custom vendor that resembles a system, as `liux` and `kinux` do.
fn is_near_system(part: &str) -> bool {
    let is_custom = VendorRef::from_str(part).map_or(false, |it| it.is_custom());
    let is_slip = |name: &&str| name.len() > 4 && edits_between(part.as_bytes(), name) == Some(1);
    is_custom
        && (suggestion(Field::OperatingSystem, part).is_some()
            || known_names(Field::OperatingSystem).iter().any(is_slip))
}

fn is_one_of(names: &[&str], part: &str) -> bool {
    names.iter().any(|name| may_be_versioned(part, name))
}

/// Why a string isn't read that is refused as a triple: for a system that no triple has, or a part that contradicts another.
fn why_refused(refusal: &Refusal<'_>) -> NameError {
    let part = refusal.part.text;
    let mut systems = SYSTEMS.iter().filter(|it| may_be_versioned(part, it.0));
    match refusal.expected {
        _ if is_soft_floats(part) => NameError::WithoutTriple(refusals::SOFT_FLOATS),
        Some(Field::OperatingSystem) => systems.next().map_or(NameError::Unknown, |it| NameError::WithoutTriple(it.1)),
        _ => NameError::Unknown,
    }
}

/// The triple with what is missing, and the usual vendor; or why config.sub refuses the parts together.
fn complete(triple: &TripleRef<'_>, parts: &Parts<'_>) -> Result<TripleRef<'static>, NameError> {
    use {Environment::*, OperatingSystem as System};
    let is_format = |it: &str| it.parse::<BinaryFormat>().is_ok();
    let refused = |why| Err(NameError::WithoutTriple(why));
    let library = library_and_abi(triple.environment).0;
    let (system, has_kernel) = (triple.operating_system, parts.kernel.is_some());
    let (operating_system, environment) = match (system, triple.environment, has_kernel) {
        // Where no system is said, a misspelled one isn't a maker.
        (System::Unknown, _, false) if is_near_system(parts.maker) => return refused(refusals::MAKER),
        (.., true) if parts.system.map_or(false, is_format) => return refused(refusals::KERNEL),
        (System::Linux, Unknown, _) => (System::Linux, Gnu),
        (System::Linux, Environment::None | Spe, _) => return refused(refusals::KERNEL),
        (System::Unknown, none @ (Unknown | Eabi | Eabihf), _) => (System::None_, none),
        (System::Unknown, Gnu, false) => (System::Hurd, Gnu),
        (System::Unknown, android @ (Android | Androideabi), false) => (System::Linux, android),
        (System::Unknown, _, false) if ["musl", "newlib", "uclibc"].contains(&library) => {
            return refused(refusals::C_LIBRARY)
        }
        (System::Unknown, ..) => return refused(refusals::ABI),
        (system @ System::Linux, other, true) => (system, other),
        (system @ System::VxWorks, spe @ Spe, true) => (system, spe),
        (system, abi @ (Eabi | Eabihf | Gnueabi | Gnueabihf), true) => (system, abi),
        (system, other, false) => (system, other),
        (.., true) => return refused(refusals::KERNEL),
    };
    Ok(TripleRef {
        architecture: triple.architecture,
        vendor: VendorRef::Known(usual_vendor(triple.architecture, operating_system)),
        operating_system,
        environment,
        binary_format: match (operating_system, triple.binary_format) {
            (System::None_, BinaryFormat::Unknown) => wasm_or(BinaryFormat::Elf, triple.architecture),
            (_, other) => other,
        },
    })
}

/// Other words for a machine, and the variant that they state.
const MACHINES: [(&str, &str, Option<&str>); 6] = [
    ("i386", "386", Some("")),
    ("x86_64", "amd64", None),
    ("x86-64", "amd64", None),
    ("aarch64", "arm64", None),
    ("armhf", "arm", Some("/v7")),
    ("armel", "arm", Some("/v6")),
];

/// A machine, a variant after its slash, and the variant that stands instead.
const VARIANTS: [(&str, &str, &str); 8] = [
    ("amd64", "/v1", ""),
    ("arm64", "/v8", ""),
    ("arm64", "/8", ""),
    ("arm", "", "/v7"),
    ("arm", "/7", "/v7"),
    ("arm", "/5", "/v5"),
    ("arm", "/6", "/v6"),
    ("arm", "/8", "/v8"),
];

/// The row without a number whose name is a platform's normal form, in any case.
pub(super) fn row_of_platform(rows: &'static [Row], name: &str) -> Option<&'static Row> {
    let is = |word: &str, other: &str| word.eq_ignore_ascii_case(other);
    let (system, rest) = name.split_once('/').unwrap_or((name, ""));
    let (machine, variant) = rest.split_at(rest.find('/').unwrap_or(rest.len()));
    let is_darwin = is(system, "macos");
    let system = if is_darwin { "darwin" } else { system };
    // containerd drops any other one after `i386`, too.
    let is_known = VARIANTS.iter().any(|it| is(it.1, variant) || is(it.2, variant));
    let other = MACHINES.iter().find(|it| is(it.0, machine) && (is_known || it.2.is_none()));
    let (machine, variant) = other.map_or((machine, variant), |it| (it.1, it.2.unwrap_or(variant)));
    let mut variants = VARIANTS.iter();
    let other = variants.find(|it| is(it.0, machine) && is(it.1, variant));
    let variant = other.map_or(variant, |it| it.2);
    let sign = if (machine, variant) == ("", "") { "" } else { "/" };
    let normal = Buffer::<40>::of(&[system, sign, machine, variant])?;
    let mut named = rows.iter().filter(|row| is(row.0, normal.as_str()));
    named.find(|row| !row.0.contains('*'))
}
