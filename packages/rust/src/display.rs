//! `Display` of what has a name. As of upstream's types, it ignores width and alignment.
use crate::proved::{version_text, MAX_VERSION_LENGTH};
use crate::{
    CDataModel, CallingConvention, DeploymentTarget, Endianness, Field, KnownVendor, PointerWidth,
};
use core::fmt;

macro_rules! display {
    ($($name:ident)*) => {$(
        impl fmt::Display for $name {
            #[inline]
            fn fmt(&self, f: &mut fmt::Formatter<'_>) -> fmt::Result {
                f.write_str(self.name())
            }
        }
    )*};
}

display!(CDataModel CallingConvention Endianness KnownVendor PointerWidth);

impl fmt::Display for Field {
    /// The words for the field in errors, such as `operating system`.
    #[inline]
    fn fmt(&self, f: &mut fmt::Formatter<'_>) -> fmt::Result {
        f.write_str(match self {
            Field::Architecture => "architecture",
            Field::Vendor => "vendor",
            Field::OperatingSystem => "operating system",
            Field::Environment => "environment",
            Field::BinaryFormat => "binary format",
        })
    }
}

impl fmt::Display for DeploymentTarget {
    /// The version as a triple shows it, such as `10.15.0`.
    #[inline]
    fn fmt(&self, f: &mut fmt::Formatter<'_>) -> fmt::Result {
        f.write_str(version_text(*self, &mut [0; MAX_VERSION_LENGTH]))
    }
}
