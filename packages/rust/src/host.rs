//! The target that the crate is built for.
use crate::{Architecture, BinaryFormat, Environment, OperatingSystem, Triple, Vendor};

/// The triple of the target that the crate is built for.
///
/// # Examples
///
/// ```
/// use target_lexicon::{HOST, PointerWidth};
///
/// assert_eq!(HOST.pointer_width().map(PointerWidth::bytes), Ok(size_of::<usize>() as u8));
/// ```
// The build script wrote the literal.
pub const HOST: Triple = include!(concat!(env!("OUT_DIR"), "/host.rs"));

/// `host` as a call of a type, with documentation.
macro_rules! host {
    ($($name:ident, $value:expr, $text:literal;)*) => {$(
        impl $name {
            #[doc = concat!("This is [`HOST`]", $text, ".")]
            ///
            /// # Examples
            ///
            /// ```
            #[doc = concat!("use target_lexicon::{", stringify!($name), ", HOST};")]
            ///
            #[doc = concat!("assert_eq!(", stringify!($name), "::host(), ", stringify!($value), ");")]
            /// ```
            pub const fn host() -> Self {
                $value
            }
        }
    )*};
}

host! {
    Triple, HOST, "";
    Architecture, HOST.architecture, "'s architecture";
    Vendor, HOST.vendor, "'s vendor";
    OperatingSystem, HOST.operating_system, "'s operating system";
    Environment, HOST.environment, "'s environment";
    BinaryFormat, HOST.binary_format, "'s binary format";
}
