//! Other tools' spellings of known names: the names of a part that a rule of `words` fits.
use super::words::{FIRST_RULES, LATER_RULES};
use crate::reading::first_part;
use core::str::FromStr as _;
use target_lexicon::{BinaryFormat, DeploymentTarget};

/// Where a part stands.
#[derive(Clone, Copy, Debug, PartialEq, Eq)]
pub enum Place {
    First,
    Second,
    AfterFirst,
    /// After the first part, where floating-point arguments are in floating-point registers.
    AfterHardFloats,
}

/// How a part is compared with the text of a rule, and what becomes of it.
#[derive(Clone, Copy, Debug, PartialEq, Eq)]
pub enum Form {
    /// The part is the text.
    Whole,
    /// The same, and it says that floating-point arguments are in floating-point registers.
    HardFloats,
    /// The part is the text and a version of digits and dots, which is dropped.
    Dropped,
    /// The part is the text and a version of macOS, which stays after `macosx`.
    MacOs,
    /// The part and the next one are the text. Each becomes one of two names.
    Pair,
    /// The same, before a part that is no binary format.
    PairWithin,
}

/// Where a part may stand, the text that it is compared with and how, and the names that stand instead.
pub type Rule = (Place, &'static str, Form, &'static str);

/// What a rule that fits makes of a part.
#[derive(Clone, Copy)]
pub struct Fit<'a> {
    pub form: Form,
    /// The names of the part.
    pub names: &'static str,
    /// The version after the text of the rule.
    version: &'a str,
    /// The name of the next part, if the two are a pair.
    pub next_name: Option<&'static str>,
}

impl<'a> Fit<'a> {
    /// The version that stays.
    pub fn kept_version(&self) -> &'a str {
        if self.form == Form::MacOs {
            self.version
        } else {
            ""
        }
    }

    /// What this rule makes of a part with this after its dash, if it fits.
    fn of(&(_, text, form, names): &Rule, part: &'a str, rest: Option<&str>) -> Option<Fit<'a>> {
        let (mut names, mut next_name, mut version) = (names, None, "");
        match form {
            Form::Whole | Form::HardFloats if part == text => {}
            Form::Dropped => {
                // Only Android has a version 32, and none has 64: of a C library it is of an ABI.
                let is_width = |it: &str| matches!(it, "32" | "64") && !text.starts_with("android");
                let is_version = |it: &&str| is_dropped_version(it.as_bytes()) && !is_width(it);
                version = part.strip_prefix(text).filter(is_version)?;
            }
            Form::MacOs => {
                version = part.strip_prefix(text)?;
                DeploymentTarget::from_str(version).ok()?;
            }
            Form::Pair | Form::PairWithin => {
                let (next, after) = first_part(rest?);
                let goes_on = || BinaryFormat::from_str(first_part(after?).0).err();
                if text.split_once('-')? != (part, next) || form == Form::PairWithin && goes_on().is_none() {
                    return None;
                }
                let (first, second) = names.split_once('-')?;
                (names, next_name) = (first, Some(second));
            }
            Form::Whole | Form::HardFloats => return None,
        }
        Some(Fit { form, names, version, next_name })
    }
}

/// What the first rule that fits makes of a part with this after its dash. `has_hard_floats` says whether the parts before it state
/// that floating-point arguments are in floating-point registers. A rule for a part alone never fits a known name.
pub fn fit<'a>(place: Place, has_hard_floats: bool, part: &'a str, rest: Option<&str>) -> Option<Fit<'a>> {
    let is_here = |of| match of {
        Place::First | Place::Second => of == place,
        Place::AfterFirst => true,
        Place::AfterHardFloats => has_hard_floats,
    };
    let rules = match place {
        Place::First => FIRST_RULES,
        _ => LATER_RULES,
    };
    let begins = |text: &str| text.as_bytes().first() == part.as_bytes().first();
    let mut rules = rules.iter().filter(|it| begins(it.1) && is_here(it.0));
    rules.find_map(|rule| Fit::of(rule, part, rest))
}

/// What the first rule that fits a part by itself makes of it.
pub fn fit_alone(place: Place, part: &str) -> Option<Fit<'_>> {
    fit(place, false, part, None)
}

/// Whether a string is digits and dots, at least one.
pub fn is_dropped_version(text: &[u8]) -> bool {
    !text.is_empty() && text.iter().copied().all(is_digit_or_dot)
}

pub fn is_digit_or_dot(byte: u8) -> bool {
    byte.is_ascii_digit() || byte == b'.'
}
