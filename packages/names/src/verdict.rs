//! What a check says of a word.
use crate::meanings::meaning_with;
use crate::text::is_in_capitals;
use crate::Suggest as _;
use crate::{is_vendor_of_rustc, vendor_suggestion, Dialect, Evidence, Meaning, Meant, NameOf, Sense, Word, WordIs};
use target_lexicon::{OperatingSystem, Refusal, Source, TextPart, TripleRef, VendorRef};

/// What a check says of a word of [`words_in`](crate::words_in).
#[derive(Clone, Copy, Debug, PartialEq, Eq)]
pub enum Verdict<'a> {
    /// It is this triple, or a tool's name of it.
    Right(TripleRef<'a>),
    /// It is a name of this tool, and no triple means the same, for this reason.
    WithoutTriple(Dialect, &'static str),
    /// It may be a target, and isn't understood.
    Unclear,
    /// It is wrong: no tool has the name. It may be that this was meant.
    Unknown(Option<Meant<'a>>),
    /// It is wrong: as a triple, it is refused.
    Refused(Refusal<'a>),
    /// It is wrong: this part of the triple, a custom vendor, resembles a known name.
    NearVendor(TripleRef<'a>, TextPart<'a>),
}

impl<'a> Word<'a> {
    /// What a check says of the word, with the custom vendors that are meant. A strict check calls nothing unclear.
    ///
    /// ```
    /// use target_names::{words_in, Verdict};
    ///
    /// let verdict = |text| words_in(text).map(|it| it.verdict(false, |_| false)).next();
    /// assert!(matches!(verdict("x: x86_64-linux-gnuu"), Some(Verdict::Refused(it)) if it.part.text == "gnuu"));
    /// assert!(matches!(verdict("platform: linux/amd46"), Some(Verdict::Unknown(Some(_)))));
    /// assert!(matches!(verdict("x: amd64-unkown-freebsd13.2"), Some(Verdict::NearVendor(_, it)) if it.start == 6));
    /// assert_eq!(verdict("platform: linux/foo"), Some(Verdict::Unclear));
    /// ```
    #[must_use]
    pub fn verdict(&self, is_strict: bool, is_meant: impl Fn(&str) -> bool) -> Verdict<'a> {
        let text = self.part.text;
        let explanation = TripleRef::explain(text);
        let (own, is) = (explanation.triple, self.is());
        // What only says all of a triple is some tool's name: vcpkg's `x64-windows-static` and `arm64-osx`.
        let is_vendor = |it| VendorRef::from_str(it).map_or(false, |it| !it.is_custom());
        let is_of = || own.map_or(is == WordIs::Unknown, |it| it.vendor.is_custom()) && !text.split('-').any(is_vendor);
        let is_whole = |it: &Sense<'_>| it.level.is_empty() && it.triple.operating_system != OperatingSystem::None_;
        let may_be = |it: &Sense<'_>| is_whole(it) && is_of() && !is_in_capitals(text) && self.near().is_none();
        let of_words = || Evidence::of(text).sense().filter(may_be);
        let is_known = own.as_ref().map_or(false, |it| !it.vendor.is_custom());
        // GNU takes any vendor, and versions of the Hurd, as in `i386-gnu0.3`.
        let is_hurd = |it: Sense<'_>| it.triple.operating_system == OperatingSystem::Hurd;
        let is_versioned = |it: Sense<'_>| text.contains("-gnu0.") && is_hurd(it);
        let mut is_of_tool = |it: &Meaning<'_>| match it.of {
            NameOf::Triple | NameOf::Words => false,
            NameOf::Dialect(Dialect::Gnu) if own.is_ok() => {
                text.contains("-gnu0.") && it.sense.map_or(false, is_versioned)
            }
            NameOf::Dialect(Dialect::Gnu) => matches!(is, WordIs::Name(_)) && self.near().is_none(),
            NameOf::Spelling => it.sense.map_or(true, |it| !it.triple.vendor.is_custom()) || self.near().is_none(),
            NameOf::Dialect(_) => true,
        };
        let by_words = || Some(Meaning { of: NameOf::Words, sense: Ok(of_words()?) });
        let of_tool = if is_known { None } else { meaning_with(text, &mut is_of_tool).or_else(by_words) };
        match (of_tool, is) {
            (Some(Meaning { of: NameOf::Dialect(dialect), sense: Err(why) }), _) => {
                return Verdict::WithoutTriple(dialect, why);
            }
            // GNU's names have any vendor, which their triple hasn't: its own is that of the system, if that has one.
            (Some(Meaning { of: NameOf::Dialect(Dialect::Gnu), sense: Ok(Sense { triple, .. }) }), _) => {
                let (_, rest) = text.split_once('-').unwrap_or_default();
                let (word, _) = rest.split_once('-').unwrap_or_default();
                let said = VendorRef::from_str(word).map(|vendor| TripleRef { vendor, ..triple });
                let is_near = |it: &TripleRef<'_>| {
                    triple.vendor.as_str() == "unknown" && !is_meant(word) && vendor_suggestion(*it).is_some()
                };
                let near = |it| Verdict::NearVendor(it, TextPart { text: word, start: text.len() - rest.len() });
                return said.ok().filter(is_near).map_or(Verdict::Right(triple), near);
            }
            (Some(Meaning { sense: Ok(it), .. }), _) => return Verdict::Right(it.triple),
            _ if self.is_unclear && !is_strict => return Verdict::Unclear,
            (_, WordIs::Misspelled(it)) if it.part.text == text => return Verdict::Unknown(Some(it)),
            _ => {}
        }
        // To look for what is near takes longer than all else.
        let near = || if is_known || matches!(is, WordIs::Misspelled(_)) { None } else { self.near() };
        match (own, near()) {
            (Err(refusal), Some(meant))
                if refusal.part.start == 0 || meant.is_some() && refusal.suggestion_in(text).is_none() =>
            {
                Verdict::Unknown(meant)
            }
            // An empty part can't be shown.
            (Err(refusal), near) if refusal.part.text.is_empty() => Verdict::Unknown(near.flatten()),
            (Err(refusal), _) => Verdict::Refused(refusal),
            (Ok(triple), near) => match (triple.vendor, explanation.sources.vendor) {
                (VendorRef::Custom(vendor), _) if is_vendor_of_rustc(vendor) || is_meant(vendor) => {
                    Verdict::Right(triple)
                }
                (VendorRef::Custom(_), Source::Part(part)) if vendor_suggestion(triple).is_some() => {
                    Verdict::NearVendor(triple, part)
                }
                (VendorRef::Custom(_), _) => near.map_or(Verdict::Right(triple), Verdict::Unknown),
                _ => Verdict::Right(triple),
            },
        }
    }
}
