//! A triple is its string in serde, and so is each field.
#![cfg(feature = "serde_support")]
use serde::de::value::{BorrowedStrDeserializer, Error, StrDeserializer, U8Deserializer};
use serde::de::IntoDeserializer;
use serde::{Deserialize, Serialize};
use std::fmt::{self, Debug};
use target_lexicon::{
    triple, Architecture, BinaryFormat, Environment, OperatingSystem, Triple, TripleExt as _, TripleRef, Vendor,
    VendorRef,
};

struct Written<T>(T);

impl<T: Serialize> fmt::Display for Written<T> {
    fn fmt(&self, f: &mut fmt::Formatter<'_>) -> fmt::Result {
        self.0.serialize(f)
    }
}

fn read<T: for<'de> Deserialize<'de>>(string: &str) -> Result<T, Error> {
    let deserializer: StrDeserializer<'_, Error> = string.into_deserializer();
    T::deserialize(deserializer)
}

fn borrow<'de, T: Deserialize<'de>>(string: &'de str) -> Result<T, Error> {
    T::deserialize(BorrowedStrDeserializer::new(string))
}

#[test]
fn a_triple_is_its_string() {
    let triple = triple!("x86_64-acme-linux");
    assert_eq!(Written(&triple).to_string(), "x86_64-acme-linux");
    assert_eq!(Written(TripleRef::from(&triple)).to_string(), "x86_64-acme-linux");
    assert_eq!(read("x86_64-acme-linux"), Ok(triple.clone()));
    assert_eq!(borrow("x86_64-acme-linux"), Ok(TripleRef::from(&triple)));
    let refused = "Unrecognized operating system: bar";
    assert_eq!(read::<Triple>("x86_64-foo-bar").unwrap_err().to_string(), refused);
    assert_eq!(borrow::<TripleRef<'_>>("x86_64-foo-bar").unwrap_err().to_string(), refused);
}

#[test]
fn a_string_of_any_length_is_read_and_written() {
    for length in [1, 15, 16, 255, 256, 1024, 65536] {
        let vendor = "q".repeat(length);
        let string = format!("x86_64-{vendor}-linux");
        let triple: Triple = read(&string).unwrap();
        assert_eq!(borrow(&string), Ok(TripleRef::from(&triple)));
        assert_eq!(read(&vendor), Ok(triple.vendor.clone()));
        assert_eq!(borrow(&vendor), Ok(VendorRef::from(&triple.vendor)));
        assert_eq!(Written(&triple).to_string(), string);
        assert_eq!(Written(TripleRef::from(&triple)).to_string(), string);
        assert_eq!(Written(&triple.vendor).to_string(), vendor);
        let refused = read::<Triple>(&vendor).unwrap_err().to_string();
        assert_eq!(refused, format!("Unrecognized architecture: {vendor}"));
    }
}

#[test]
fn a_triple_is_written_as_it_is_printed() {
    // Its canonical form is printed otherwise.
    let triple = triple!("armv7-nintendo-horizon-newlib-unknown");
    let printed = triple.to_string();
    assert_ne!(triple.clone().settle().unwrap().to_string(), printed);
    assert_eq!(Written(TripleRef::from(&triple)).to_string(), printed);
    assert_eq!(Written(triple).to_string(), printed);
}

#[test]
fn a_field_is_its_string() {
    fn is_its_string<T: for<'de> Deserialize<'de> + Serialize + PartialEq + Debug>(string: &str, refused: &str) {
        let value: T = read(string).unwrap();
        assert_eq!(Written(&value).to_string(), string);
        let error = read::<T>("No name").unwrap_err();
        assert_eq!(error.to_string(), format!("invalid value: string \"No name\", expected the name of {refused}"));
    }
    is_its_string::<Architecture>("armv7a", "an architecture");
    is_its_string::<Vendor>("apple", "a vendor");
    is_its_string::<Vendor>("acme", "a vendor");
    is_its_string::<OperatingSystem>("ios17.0.0", "an operating system");
    is_its_string::<Environment>("musl", "an environment");
    is_its_string::<BinaryFormat>("macho", "a binary format");
    assert_eq!(borrow("acme"), Ok(VendorRef::Custom("acme")));
    assert_eq!(Written(VendorRef::Custom("acme")).to_string(), "acme");
    assert_eq!(
        borrow::<VendorRef<'_>>("ACME").unwrap_err().to_string(),
        "invalid value: string \"ACME\", expected the name of a vendor"
    );
    assert!(read::<Triple>(" x86_64-linux").is_err());
}

#[test]
fn what_is_no_string_is_an_error() {
    fn is_refused<'de, T: Deserialize<'de> + Debug>() {
        let deserializer: U8Deserializer<Error> = 5u8.into_deserializer();
        let error = T::deserialize(deserializer).unwrap_err().to_string();
        assert!(error.contains("invalid type: integer `5`"), "{error}");
    }
    is_refused::<Triple>();
    is_refused::<TripleRef<'_>>();
    is_refused::<Architecture>();
    is_refused::<Vendor>();
    is_refused::<VendorRef<'_>>();
    is_refused::<OperatingSystem>();
    is_refused::<Environment>();
    is_refused::<BinaryFormat>();
}
