//! A name of a target in a dialect, without an allocation. It and other values are displayed as their names, and most are in the order of these.
use crate::dialect::Numbers;
use crate::{ArmProfile, CLibrary, ChosenLibc, Dialect, FloatAbi, NameOf, Signedness};
use core::cmp::Ordering;
use core::fmt::{self, Write};

/// A name of a target in a dialect.
#[derive(Clone, Copy, PartialEq, Eq, Hash)]
pub struct Name(Buffer<{ Name::MOST }>);

impl Name {
    /// The most bytes of a name.
    const MOST: usize = 36;

    /// The name. It has at most 36 bytes.
    ///
    /// ```
    /// use target_lexicon::TripleRef;
    /// use target_names::Dialect;
    ///
    /// let triple = TripleRef::from_str("x86_64-unknown-freebsd").unwrap();
    /// assert_eq!(Dialect::Go.write(&triple).unwrap().as_str(), "freebsd/amd64");
    /// ```
    #[must_use]
    pub fn as_str(&self) -> &str {
        self.0.as_str()
    }

    /// The name of these parts, if it isn't too long.
    pub(super) fn of(parts: &[&str]) -> Option<Name> {
        Buffer::of(parts).map(Name)
    }

    /// The name that a pattern makes with these numbers. A test writes each row with the longest ones: all fit.
    pub(super) fn filled(pattern: &str, numbers: Numbers) -> Name {
        let mut name = Buffer::new();
        let mut numbers = numbers.into_iter().flat_map(|(major, minor)| [major, u16::from(minor)]);
        let mut pieces = pattern.split('*');
        let _ = name.write_str(pieces.next().unwrap_or(""));
        for (piece, number) in pieces.zip(&mut numbers) {
            let _ = write!(name, "{number}{piece}");
        }
        Name(name)
    }
}

impl AsRef<str> for Name {
    fn as_ref(&self) -> &str {
        self.as_str()
    }
}

impl PartialEq<str> for Name {
    fn eq(&self, text: &str) -> bool {
        self.as_str() == text
    }
}

impl PartialEq<&str> for Name {
    fn eq(&self, text: &&str) -> bool {
        self == *text
    }
}

impl fmt::Debug for Name {
    fn fmt(&self, f: &mut fmt::Formatter<'_>) -> fmt::Result {
        fmt::Debug::fmt(self.as_str(), f)
    }
}

macro_rules! named {
    ($($type:ty, $name:ident;)*) => {$(
        impl fmt::Display for $type {
            fn fmt(&self, f: &mut fmt::Formatter<'_>) -> fmt::Result {
                f.pad(self.$name())
            }
        }
    )*};
}

macro_rules! ordered {
    ($($type:ty, $name:ident;)*) => {$(
        impl Ord for $type {
            fn cmp(&self, other: &Self) -> Ordering {
                self.$name().cmp(other.$name())
            }
        }

        impl PartialOrd for $type {
            fn partial_cmp(&self, other: &Self) -> Option<Ordering> {
                Some(self.cmp(other))
            }
        }

        named! { $type, $name; }
    )*};
}

named! {
    ArmProfile, name;
    NameOf, name;
}
ordered! {
    CLibrary, name;
    Dialect, name;
    FloatAbi, name;
    ChosenLibc, name;
    Signedness, name;
    Name, as_str;
}

/// A text of at most so many bytes: what doesn't fit is an error of its writer.
#[derive(Clone, Copy, PartialEq, Eq, Hash)]
pub(super) struct Buffer<const SIZE: usize> {
    bytes: [u8; SIZE],
    length: usize,
}

impl<const SIZE: usize> Buffer<SIZE> {
    pub(super) fn new() -> Self {
        Buffer { bytes: [0; SIZE], length: 0 }
    }

    /// The parts one after the other.
    pub(super) fn of(parts: &[&str]) -> Option<Self> {
        let mut room = Buffer::new();
        parts.iter().try_for_each(|part| room.write_str(part)).ok().map(|()| room)
    }

    pub(super) fn of_lower(parts: &[&str]) -> Option<Self> {
        let mut room = Buffer::of(parts)?;
        room.bytes.make_ascii_lowercase();
        Some(room)
    }

    pub(super) fn of_chars(mut chars: impl Iterator<Item = char>) -> Option<Self> {
        let mut room = Buffer::new();
        chars.try_for_each(|it| room.write_char(it)).ok().map(|()| room)
    }

    pub(super) fn as_str(&self) -> &str {
        core::str::from_utf8(&self.bytes[..self.length]).unwrap_or("")
    }
}

impl<const SIZE: usize> Write for Buffer<SIZE> {
    fn write_str(&mut self, text: &str) -> fmt::Result {
        let end = self.length + text.len();
        let room = self.bytes.get_mut(self.length..end).ok_or(fmt::Error)?;
        room.copy_from_slice(text.as_bytes());
        self.length = end;
        Ok(())
    }
}
