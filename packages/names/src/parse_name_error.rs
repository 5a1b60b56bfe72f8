//! Why a word is no dialect, in an error that owns it.
use crate::suggestions::{is_swapped, visible};
use crate::table::OTHER_NAMES;
use crate::{ChosenLibc, Dialect};
use alloc::boxed::Box;
use core::fmt;
use core::str::FromStr;

/// Why a word is no [`Dialect`], or no [`ChosenLibc`]: there is none of that name.
///
/// ```
/// use target_names::{ChosenLibc, Dialect};
///
/// let error = "golang".parse::<Dialect>().unwrap_err();
/// assert_eq!((error.word(), error.suggestion()), ("golang", Some("go")));
/// assert_eq!(error.to_string(), "Unknown dialect: golang; did you mean `go`?");
/// let error = "gnu".parse::<ChosenLibc>().unwrap_err();
/// assert_eq!(error.to_string(), "Unknown C library: gnu; it is glibc, musl, msvc, mingw or gnullvm");
/// ```
#[derive(Clone, Debug, PartialEq, Eq, Hash)]
pub struct UnknownWord {
    word: Box<str>,
    is_dialect: bool,
}

impl UnknownWord {
    /// The word.
    #[must_use]
    pub fn word(&self) -> &str {
        &self.word
    }

    /// The dialect that was perhaps meant: one that the word begins with, or else one in other letters or with two of
    /// its letters swapped: `rust` by `rustc`, `dotnet` by `dotent`.
    #[must_use]
    pub fn suggestion(&self) -> Option<&'static str> {
        if !self.is_dialect {
            return None;
        }
        let mut names = Dialect::ALL.iter().map(|it| it.name());
        let word = self.word.to_ascii_lowercase();
        let begins = names.clone().find(|name| word.starts_with(name));
        begins.or_else(|| names.find(|name| is_swapped(word.as_bytes(), name.as_bytes())))
    }
}

impl fmt::Display for UnknownWord {
    fn fmt(&self, f: &mut fmt::Formatter<'_>) -> fmt::Result {
        let word = visible(&self.word);
        if !self.is_dialect {
            let libraries = "glibc, musl, msvc, mingw or gnullvm";
            return write!(f, "Unknown C library: {word}; it is {libraries}");
        }
        write!(f, "Unknown dialect: {word}; ")?;
        if let Some(name) = self.suggestion() {
            return write!(f, "did you mean `{name}`?");
        }
        f.write_str("it is one of")?;
        Dialect::ALL.iter().try_for_each(|it| write!(f, " {it}"))
    }
}

impl FromStr for Dialect {
    type Err = UnknownWord;

    /// The dialect of a name, such as `debian`; `docker` is [`Dialect::Oci`], and `npm` is [`Dialect::Node`].
    fn from_str(word: &str) -> Result<Self, UnknownWord> {
        let names = Dialect::ALL.iter().map(|it| (it.name(), *it));
        let found = names.chain(OTHER_NAMES).find(|it| it.0 == word);
        found.map(|it| it.1).ok_or_else(|| UnknownWord { word: word.into(), is_dialect: true })
    }
}

impl FromStr for ChosenLibc {
    type Err = UnknownWord;

    /// The C library of a name: `glibc` or `musl`.
    fn from_str(word: &str) -> Result<Self, UnknownWord> {
        use ChosenLibc::*;
        let mut all = [Glibc, Musl, Msvc, Mingw, Gnullvm].into_iter();
        all.find(|it| it.name() == word).ok_or_else(|| UnknownWord { word: word.into(), is_dialect: false })
    }
}
