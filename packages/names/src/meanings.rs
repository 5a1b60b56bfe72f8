//! What a name means to every tool that has it.
use crate::reading::is_of_machine;
use crate::table::OF_CONFIG_SUB;
use crate::{level_spelled, read, vendor_suggestion, Dialect, Evidence, NameError, Said, Sense};
use target_lexicon::{KnownVendor, OperatingSystem, TripleRef, VendorRef};

/// Whose name it is: that of a dialect, or of nobody but who spells triples. `Display` says it in a word.
#[derive(Clone, Copy, Debug, PartialEq, Eq, Hash)]
pub enum NameOf {
    /// A tool's name.
    Dialect(Dialect),
    /// A string that parses as a triple.
    Triple,
    /// A string that doesn't parse, and is spelled like a triple, as [`read`] reads it.
    Spelling,
    /// Nobody's: the words of the string say just this, as [`Evidence`] takes them.
    Words,
}

impl NameOf {
    /// The name of the dialect, or `triple`, `spelling` or `words`.
    ///
    /// ```
    /// use target_names::NameOf;
    ///
    /// assert_eq!(NameOf::Spelling.name(), "spelling");
    /// ```
    #[must_use]
    pub fn name(self) -> &'static str {
        match self {
            NameOf::Dialect(dialect) => dialect.name(),
            NameOf::Triple => "triple",
            NameOf::Spelling => "spelling",
            NameOf::Words => "words",
        }
    }
}

/// What a name means to one tool: an item of [`meanings`].
#[derive(Clone, Copy, Debug, PartialEq, Eq, Hash)]
pub struct Meaning<'a> {
    /// Whose name it is.
    pub of: NameOf,
    /// What it means, or why no triple has this name.
    pub sense: Result<Sense<'a>, &'static str>,
}

/// What a name means: first as a triple, if it parses as one; then to each dialect that has it, in the order of [`Dialect::ALL`], with what
/// files and commands have [around it](Dialect::read_loosely); then as what is spelled like a triple; and last what its words say, if nobody
/// means a system of a known vendor or a target of rustc by it, or has the name for no triple. A name such as `universal2` has a
/// meaning for each of its machines. A single word isn't taken for a triple if some tool has the name. Of a name without a
/// meaning [`Evidence`] says what its words may mean. Nothing is allocated.
///
/// ```
/// use target_names::{meanings, Dialect, NameOf};
///
/// let found = meanings("armhf").map(|it| (it.of.name(), it.sense.unwrap().triple.to_string()));
/// let triples = ["armv7-unknown-linux-gnueabihf", "armv6-unknown-linux-musleabihf"];
/// assert!(found.eq([("debian", triples[0].into()), ("apk", triples[1].into())]));
///
/// let plan_9 = meanings("plan9/amd64").next().unwrap();
/// assert_eq!((plan_9.of, plan_9.sense), (NameOf::Dialect(Dialect::Go), Err("Plan 9 is no known name")));
/// assert_eq!(meanings("x86_64-unknown-none").next().unwrap().of, NameOf::Triple);
/// assert_eq!(meanings("arm64-osx").map(|it| it.of).last(), Some(NameOf::Words));
/// assert_eq!(meanings("foo/bar").next(), None);
/// ```
pub fn meanings(text: &str) -> impl Iterator<Item = Meaning<'_>> + Clone {
    let of_tools = meanings_of_tools(text);
    let by_words = by_words(text, of_tools.clone());
    of_tools.chain(by_words)
}

/// What the words of a name say: if they name a system, or nobody has the name, and it isn't certain what tools mean.
fn by_words<'a>(text: &'a str, of_tools: impl Iterator<Item = Meaning<'a>>) -> Option<Meaning<'a>> {
    let has_system =
        |it: &TripleRef<'_>| !matches!(it.operating_system, OperatingSystem::None_ | OperatingSystem::Unknown);
    let (mut is_name, mut has_meaning, mut has_reason) = (false, false, false);
    for Meaning { of, sense } in of_tools {
        is_name = true;
        match sense {
            Ok(_) if of == NameOf::Dialect(Dialect::Rust) => return None,
            Ok(it) if !it.triple.vendor.is_custom() && has_system(&it.triple) => return None,
            Ok(_) => has_meaning = true,
            // Why the spelling of GNU has no triple says little: it has no system `osx`.
            Err(_) => has_reason |= of != NameOf::Dialect(Dialect::Gnu),
        }
    }
    let is_known = has_reason && !has_meaning;
    let sense = Evidence::of(text).sense().filter(|it| !is_known && (!is_name || has_system(&it.triple)))?;
    Some(Meaning { of: NameOf::Words, sense: Ok(sense) })
}

/// What a name means but for what its words say.
fn meanings_of_tools(text: &str) -> impl Iterator<Item = Meaning<'_>> + Clone {
    let is_meant = move |dialect: &&Dialect| **dialect != Dialect::Pacman || !may_be_of_msys2(text);
    let to_dialect = move |dialect: &Dialect| {
        let why = match dialect.read_loosely(text) {
            Err(NameError::WithoutTriple(why)) if !OF_CONFIG_SUB.contains(&why) => Some(Err(why)),
            _ => None,
        };
        let of = NameOf::Dialect(*dialect);
        let each = dialect.read_each(text).map(Ok);
        let why = why.filter(|_| each.clone().next().is_none());
        each.chain(why).map(move |sense| Meaning { of, sense })
    };
    let of_dialects = Dialect::ALL.iter().filter(is_meant).flat_map(to_dialect);
    let is_triple = text.contains('-') || of_dialects.clone().next().is_none();
    let own = is_triple.then(|| as_triple(text)).flatten();
    let (first, last) = own.map_or((None, None), |own| match own.of {
        NameOf::Triple => (Some(own), None),
        _ => (None, Some(own)),
    });
    first.into_iter().chain(of_dialects).chain(last)
}

/// The first meaning of a name that is asked for: one function for all who ask, since the iterator's are large.
pub(crate) fn meaning_with<'a>(text: &'a str, is_it: &mut dyn FnMut(&Meaning<'a>) -> bool) -> Option<Meaning<'a>> {
    meanings_of_tools(text).find(|it| is_it(it))
}

/// Whether a file of pacman's may be MSYS2's: of a machine that MSYS2 has, without a system, or of none and for a machine's Windows.
fn may_be_of_msys2(text: &str) -> bool {
    let Some((file, _)) = text.split_once(".pkg.tar") else {
        return false;
    };
    let evidence = Evidence::of(text);
    match evidence.system {
        Said::Unsaid | Said::One("other") => ["-x86_64", "-i686"].iter().any(|it| file.ends_with(it)),
        system => system == Said::One("windows") && evidence.has_machine() && file.ends_with("-any"),
    }
}

/// By whom a string is read that is no triple, or one with a custom vendor: by [`read`], if it gives a system and a known
/// vendor, or if it is no triple, one near no name; else, if it is no triple, by each dialect that means one triple by it,
/// except GNU's, whose names are spelled like triples. If nobody reads it, the first that has it says why no triple does.
///
/// ```
/// use target_names::{readers, Dialect, NameOf};
///
/// let found = |text| readers(text).map(|it| it.of).collect::<Vec<_>>();
/// assert_eq!(found("linux/amd64"), [Dialect::Go, Dialect::Oci].map(NameOf::Dialect));
/// assert_eq!(found("aarch64--netbsd"), [NameOf::Spelling]);
/// assert_eq!([found("amd64-portbld-freebsd13.2").len(), found("amd64-unkown-freebsd13.2").len()], [1, 0]);
/// assert_eq!(found("x86_64-unknown-none"), []);
/// assert!(readers("plan9/amd64").all(|it| it.sense == Err("Plan 9 is no known name")));
/// ```
pub fn readers(text: &str) -> impl Iterator<Item = Meaning<'_>> + Clone {
    let own = TripleRef::from_str(text).ok();
    let may_have = |it: &TripleRef<'_>| !it.vendor.is_custom() || own.is_none() && vendor_suggestion(*it).is_none();
    let is_target = |it: &TripleRef<'_>| it.operating_system != OperatingSystem::Unknown && may_have(it);
    let spelled = read(text).ok().filter(|it| is_target(it) && own.map_or(true, |own| own.vendor.is_custom()));
    let is_name = own.is_none() && spelled.is_none();
    let named = Dialect::ALL.iter().filter(move |it| is_name && **it != Dialect::Gnu);
    let meaning = move |dialect: &Dialect| {
        let sense = match dialect.read_loosely(text) {
            Ok(it) => Ok(Sense { triple: it.triple.step(), ..it }),
            Err(NameError::WithoutTriple(why)) => Err(why),
            Err(NameError::Unknown) => return None,
        };
        Some(Meaning { of: NameOf::Dialect(*dialect), sense })
    };
    let of_dialects = named.filter_map(meaning);
    let reads = of_dialects.clone().filter(|it| it.sense.is_ok());
    let is_read = reads.clone().next().is_some();
    let without = of_dialects.filter(move |_| !is_read).take(1);
    let spelled = spelled.map(|triple| Meaning { of: NameOf::Spelling, sense: Ok(triple.step().into()) });
    spelled.into_iter().chain(reads).chain(without)
}

/// What a string means that is a triple, or is spelled like one. A vendor that is a word of a machine says that it isn't.
fn as_triple(text: &str) -> Option<Meaning<'_>> {
    let (of, triple) = match TripleRef::from_str(text) {
        Ok(triple) => (NameOf::Triple, triple),
        Err(_) => (NameOf::Spelling, read(text).ok()?),
    };
    // A file's name may be a vendor: `arm-tool_1.0_linux_amd64.tar.gz`.
    let is_of_target = |it: &str| {
        let evidence = Evidence::of(it);
        is_of_machine(it) || evidence.has_machine() && evidence.system != Said::Unsaid
    };
    match triple.vendor {
        VendorRef::Custom(vendor) if is_of_target(vendor) => None,
        // As in vcpkg's `x64-uwp`, which is on Windows.
        VendorRef::Known(KnownVendor::Uwp)
            if of == NameOf::Spelling && triple.operating_system == OperatingSystem::Unknown =>
        {
            None
        }
        _ => Some(Meaning { of, sense: Ok(Sense { triple: triple.step(), level: level_spelled(text) }) }),
    }
}
