//! What packages/rust/src/serde.rs takes of the crate serde, so that rustc reads that file where serde isn't.
#![no_std]
extern crate alloc;

pub mod ser {
    pub trait Serialize {
        fn serialize<S: Serializer>(&self, serializer: S) -> Result<S::Ok, S::Error>;
    }
    pub trait Serializer: Sized {
        type Ok;
        type Error;
        fn collect_str<T: core::fmt::Display + ?Sized>(self, value: &T) -> Result<Self::Ok, Self::Error>;
    }
}
pub mod de {
    pub trait Deserialize<'de>: Sized {
        fn deserialize<D: Deserializer<'de>>(deserializer: D) -> Result<Self, D::Error>;
    }
    pub trait Deserializer<'de>: Sized {
        type Error: Error;
    }
    pub trait Error: Sized {
        fn custom<T: core::fmt::Display>(message: T) -> Self;
        fn invalid_value(found: Unexpected<'_>, expected: &dyn Expected) -> Self;
    }
    pub trait Expected {}
    impl Expected for &str {}
    pub enum Unexpected<'a> {
        Str(&'a str),
    }
    impl<'de> Deserialize<'de> for alloc::borrow::Cow<'_, str> {
        fn deserialize<D: Deserializer<'de>>(_: D) -> Result<Self, D::Error> {
            unreachable!()
        }
    }
    impl<'de> Deserialize<'de> for &'de str {
        fn deserialize<D: Deserializer<'de>>(_: D) -> Result<Self, D::Error> {
            unreachable!()
        }
    }
}
