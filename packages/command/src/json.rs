//! JSON with the members of objects in the order in which they are given. All characters but ASCII's are escaped, so
//! that nothing in a target can steer a terminal.
use serde::ser::{Serialize, Serializer};
use serde_json::ser::{CompactFormatter, Formatter};
use std::borrow::Cow;
use std::io::{self, Write};

/// A value. Its strings may be parts of the line, of which there may be no second copy in memory.
#[derive(Clone)]
pub enum Json<'a> {
    Null,
    Bool(bool),
    Number(usize),
    Text(Cow<'a, str>),
    List(Vec<Json<'a>>),
    Object(Object<'a>),
}

pub type Object<'a> = Vec<(&'static str, Json<'a>)>;

macro_rules! from {
    ($($value:ty => $of:expr;)*) => {$(
        impl<'a> From<$value> for Json<'a> {
            fn from(value: $value) -> Self {
                $of(value.into())
            }
        }
    )*};
}

from! {
    &'a str => Json::Text;
    Cow<'a, str> => Json::Text;
    String => Json::Text;
    bool => Json::Bool;
    usize => Json::Number;
    u8 => Json::Number;
}

impl<'a, T: Into<Json<'a>>> From<Option<T>> for Json<'a> {
    fn from(answer: Option<T>) -> Self {
        answer.map_or(Json::Null, T::into)
    }
}

impl Serialize for Json<'_> {
    fn serialize<S: Serializer>(&self, to: S) -> Result<S::Ok, S::Error> {
        match self {
            Json::Null => to.serialize_unit(),
            Json::Bool(is_so) => to.serialize_bool(*is_so),
            Json::Number(number) => number.serialize(to),
            Json::Text(text) => to.serialize_str(text),
            Json::List(items) => to.collect_seq(items),
            Json::Object(members) => to.collect_map(members.iter().map(|(key, value)| (key, value))),
        }
    }
}

impl Json<'_> {
    /// The value with strings of its own.
    pub fn into_owned(self) -> Json<'static> {
        let of_members = |members: Object| members.into_iter().map(|(key, it)| (key, it.into_owned())).collect();
        match self {
            Json::Null => Json::Null,
            Json::Bool(is_so) => Json::Bool(is_so),
            Json::Number(number) => Json::Number(number),
            Json::Text(text) => Json::Text(text.into_owned().into()),
            Json::List(items) => Json::List(items.into_iter().map(Json::into_owned).collect()),
            Json::Object(members) => Json::Object(of_members(members)),
        }
    }

    pub fn write(&self, out: &mut dyn Write) -> io::Result<()> {
        Ok(self.serialize(&mut serde_json::Serializer::with_formatter(out, Ascii))?)
    }
}

struct Ascii;

impl Formatter for Ascii {
    fn write_string_fragment<W: ?Sized + Write>(&mut self, out: &mut W, fragment: &str) -> io::Result<()> {
        for part in fragment.split_inclusive(|c: char| !(' '..='~').contains(&c)) {
            let plain = part.trim_end_matches(|c: char| !(' '..='~').contains(&c));
            CompactFormatter.write_string_fragment(out, plain)?;
            for unit in part[plain.len()..].encode_utf16() {
                write!(out, "\\u{unit:04x}")?;
            }
        }
        Ok(())
    }
}
