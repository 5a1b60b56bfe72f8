//! Orders. Fields are in the order of their names, and triples in that of their fields, the first one first. So a list
//! of triples is in the order of what a reader sees, except that a version is a number: `ios9` comes before `ios17`.
//! Only equal values have the same place: a custom vendor comes after the known one of its name.
// written by tools/names/write: the types of families with an order
use crate::{
    Aarch64Architecture, ArmArchitecture, CleverArchitecture, Mips32Architecture,
    Mips64Architecture, Riscv32Architecture, Riscv64Architecture, X86_32Architecture,
    Z80Architecture,
};
// end of what is written
use crate::{
    Architecture, BinaryFormat, CDataModel, CallingConvention, CustomVendor, Endianness,
    Environment, Field, KnownVendor, OperatingSystem, PointerWidth, RoundTripException, Size,
    Triple, TripleRef, Vendor, VendorRef,
};
use core::cmp::Ordering;

/// `Ord` as that of a key.
macro_rules! order {
    ($($name:ty, $value:ident => $key:expr;)*) => {$(
        impl Ord for $name {
            #[inline]
            fn cmp(&self, other: &Self) -> Ordering {
                let key = { let $value = self; $key };
                key.cmp(&{ let $value = other; $key })
            }
        }

        impl PartialOrd for $name {
            #[inline]
            fn partial_cmp(&self, other: &Self) -> Option<Ordering> {
                Some(self.cmp(other))
            }
        }
    )*};
}

order! {
    Architecture, it => it.name();
    KnownVendor, it => it.name();
    CustomVendor, it => it.as_str();
    VendorRef<'_>, it => (it.as_str(), it.is_custom());
    Vendor, it => it.as_vendor_ref();
    OperatingSystem, it => (it.prefix(), it.version());
    Environment, it => it.name();
    BinaryFormat, it => it.name();
    TripleRef<'_>, it => (it.architecture, it.vendor, it.operating_system, it.environment, it.binary_format);
    Triple, it => it.as_triple_ref();
    PointerWidth, it => it.bits();
    Size, it => it.bits();
    Field, it => *it as u8;
    RoundTripException, it => *it as u8;
    // written by tools/names/write: the orders of families
    Aarch64Architecture, it => it.name();
    ArmArchitecture, it => it.name();
    CleverArchitecture, it => it.name();
    Mips32Architecture, it => it.name();
    Mips64Architecture, it => it.name();
    Riscv32Architecture, it => it.name();
    Riscv64Architecture, it => it.name();
    X86_32Architecture, it => it.name();
    Z80Architecture, it => it.name();
    // end of what is written
    Endianness, it => it.name();
    CallingConvention, it => it.name();
    CDataModel, it => it.name();
}
