//! Each row of each dialect, and each shape of each combination of values, with sampled versions: what names mean and how they are written.
use crate::dialect::{has_version, Row, Way};
use crate::shape::{version, AbiRule, Rules};
use crate::suggestions::{fit_alone, known_names, Form, Place, FIRST_RULES, LATER_RULES};
use crate::table::{refusals, KERNELS, MAKERS, SYSTEMS};
use crate::{changes, meanings, read, ChosenLibc, Dialect, Evidence, NameError, NameOf, Sense, TargetInfo, VersionOf};
use alloc::{format, string::String, string::ToString, vec::Vec};
use core::str::FromStr;
use target_lexicon::{
    Architecture, ArmArchitecture, BinaryFormat, DeploymentTarget, Endianness, Environment, Field, OperatingSystem,
    PointerWidth, TripleRef, VendorRef,
};

/// First and second numbers of versions at the bounds of what names may have, and between.
const MAJORS: [u16; 12] = [0, 1, 2, 9, 10, 11, 21, 99, 100, 10239, 10240, 65535];
const MINORS: [u8; 3] = [0, 17, 255];

/// The dialects, and each row of each.
fn rows() -> impl Iterator<Item = (Dialect, &'static Row)> {
    let dialects = Dialect::ALL.iter().copied();
    dialects.flat_map(|dialect| dialect.rows().iter().map(move |row| (dialect, row)))
}

/// The names of a row with each version, and the version; one number is the first.
fn names_of(row: &Row) -> Vec<(String, Option<DeploymentTarget>)> {
    let minors = match row.0.matches('*').count() {
        0 => return [(row.0.to_string(), None)].into(),
        1 => &MINORS[..1],
        _ => &MINORS[..],
    };
    let name = |major: u16, minor: u8| {
        let name = row.0.replacen('*', &major.to_string(), 1);
        let name = name.replacen('*', &minor.to_string(), 1);
        (name, Some(version(major, minor)))
    };
    let names = |major| minors.iter().map(move |minor| name(major, *minor));
    MAJORS.into_iter().flat_map(names).collect()
}

/// The triple of a row with a version.
fn meaning(text: &'static str, version: Option<DeploymentTarget>) -> TripleRef<'static> {
    let mut triple = TripleRef::from_str(text).unwrap();
    triple.operating_system = match triple.operating_system {
        OperatingSystem::MacOSX(None) => OperatingSystem::MacOSX(version),
        OperatingSystem::IOS(None) => OperatingSystem::IOS(version),
        other => other,
    };
    triple
}

#[test]
fn each_row_is_read_and_written() {
    let (mut read_rows, mut written_rows, mut refused) = (0, 0, 0);
    for (dialect, row) in rows() {
        let rules = dialect.table().rules;
        for (name, version) in names_of(row) {
            let at = format!("{dialect} {name}");
            let found = dialect.read(&name);
            let without_triple = |why| Err(NameError::WithoutTriple(why));
            match row.2 {
                Way::NoTriple => assert_eq!(found, without_triple(row.1), "{at}"),
                // Another row of this name says what it means, or why it has no triple.
                Way::Written => {
                    let mut named = dialect.rows().iter().filter(|it| it.0 == row.0);
                    let is_read = named.next().map_or(false, |it| it.2 == Way::Read);
                    assert_eq!(is_read, found.is_ok(), "{at}");
                    assert_ne!(found, Err(NameError::Unknown), "{at}");
                    assert_eq!(dialect.write(meaning(row.1, None)).unwrap(), row.0, "{at}");
                    continue;
                }
                Way::Several => {
                    assert_eq!(found, without_triple(refusals::SEVERAL), "{at}");
                    let each: Vec<_> = row.1.split('+').map(|it| meaning(it, version)).collect();
                    assert!(each.len() > 1 && dialect.read_each(&name).map(|it| it.triple).eq(each), "{at}");
                    assert!(meanings(&name).all(|it| it.of != NameOf::Dialect(dialect) || it.sense.is_ok()), "{at}");
                }
                Way::Both | Way::Read => assert_eq!(found, Ok(meaning(row.1, version)), "{at}"),
            }
            refused += usize::from(found.is_err());
            if dialect != Dialect::Gnu {
                let other = dialect.read(&format!("{name}~"));
                assert_eq!(other, Err(NameError::Unknown), "{at}");
            }
            for Sense { triple, .. } in dialect.read_each(&name) {
                assert_eq!(triple.step(), triple, "{at}: canonical");
            }
            let Ok(triple) = found else { continue };
            read_rows += 1;
            assert!(rules.itself || !triple.vendor.is_custom(), "{at}");
            let text = triple.to_string();
            assert_eq!(TripleRef::from_str(&text), Ok(triple), "{at}: comes back");
            // A vendor that is a system isn't spelled so.
            let note = dialect.note(&name).unwrap_or("");
            if !note.contains("system, and no vendor") {
                assert_eq!(read(&text), Ok(triple), "{at}: read again");
                assert_eq!(changes(&text).count(), 0, "{at}");
            }
            // Names that are only read may be of a triple that isn't written.
            let written = dialect.write(triple);
            if let Some(written) = written {
                written_rows += 1;
                let shape = |it| dialect.shape(&it) == dialect.shape(&triple);
                assert!(dialect.read(written.as_str()).map_or(true, shape), "{at}");
            }
            // A target of rustc that is only read may be itself, too.
            let is_itself = written.map_or(false, |it| it == *name);
            let is_both = row.2 == Way::Both;
            // So may a name that another row writes.
            let mut same = dialect.rows().iter().filter(|it| it.0 == row.0);
            let is_written_too = rules.itself || same.any(|it| it.2 == Way::Written);
            assert!(is_both == is_itself || is_written_too && is_itself, "{at}");
        }
    }
    assert!(read_rows > 1300 && written_rows > 1000 && refused > 250, "{read_rows} {written_rows} {refused}");
}

/// All values of a field.
fn values<T: FromStr>(field: Field) -> Vec<T> {
    let values = known_names(field).iter().map(|it| it.parse().ok().unwrap());
    values.collect()
}

/// Each triple with the usual vendor and the implied format, and systems with sampled versions.
fn each_triple(mut f: impl FnMut(TripleRef<'static>)) {
    let versioned = "macosx0 macosx10.7 macosx11.0.3 ios17.2.1 ios65535.255.255 darwin20 tvos9.1";
    let mut systems: Vec<OperatingSystem> = values(Field::OperatingSystem);
    systems.extend(versioned.split(' ').map(|it| it.parse::<OperatingSystem>().unwrap()));
    let environments: Vec<Environment> = values(Field::Environment);
    for architecture in values::<Architecture>(Field::Architecture) {
        for &operating_system in &systems {
            for &environment in &environments {
                let mut triple = TripleRef { architecture, operating_system, environment, ..TripleRef::unknown() };
                triple.binary_format = triple.default_binary_format();
                f(triple);
            }
        }
    }
}

/// What a name keeps of a triple.
fn answers(triple: &TripleRef<'_>) -> (Option<Endianness>, Option<PointerWidth>, BinaryFormat) {
    let (order, width) = (triple.endianness().ok(), triple.pointer_width().ok());
    (order, width, triple.object_format())
}

#[test]
fn each_shape_is_its_own_and_names_keep_order_and_width() {
    each_triple(|triple| {
        for dialect in Dialect::ALL {
            let shape = dialect.shape(&triple);
            assert_eq!(dialect.shape(&shape), shape, "{dialect} {triple}");
            let vendor = VendorRef::Custom("acme");
            let other = dialect.shape(&TripleRef { vendor, ..triple });
            assert_eq!(other, shape, "{dialect} {triple}");
            let Some(name) = dialect.write(triple) else {
                continue;
            };
            assert_eq!(answers(&shape), answers(&triple), "{dialect} {triple}");
            match dialect.read(name.as_str()) {
                Ok(found) => assert_eq!(dialect.shape(&found), shape, "{dialect} {triple}"),
                Err(_) => {
                    let mut rows = dialect.rows().iter().filter(|row| row.2 == Way::Written);
                    assert!(rows.any(|row| name == *row.0), "{dialect} {triple} {name}");
                }
            }
        }
    });
}

#[test]
fn names_with_a_version_are_read() {
    let mut named = 0;
    let has_patterns = |it: &&Dialect| !it.table().patterns.is_empty();
    each_triple(|triple| {
        for dialect in Dialect::ALL.iter().filter(has_patterns) {
            for (major, minor) in [(1, 2), (2, 17), (11, 0), (21, 0), (99, 255), (10240, 0)] {
                let stated = VersionOf::of(triple).map(|_| (major, minor));
                let Some(name) = stated.and_then(|it| dialect.name_of(triple.into(), Some(it))) else {
                    continue;
                };
                named += 1;
                let abi = AbiRule::Kept;
                let rules = Rules { abi, ..dialect.table().rules };
                let mut expected = rules.shape(&triple);
                let version = Some(version(major, minor));
                expected.operating_system = match triple.operating_system {
                    OperatingSystem::Darwin(_) => OperatingSystem::MacOSX(version),
                    OperatingSystem::MacOSX(_) => OperatingSystem::MacOSX(version),
                    OperatingSystem::IOS(_) => OperatingSystem::IOS(version),
                    _ => expected.operating_system,
                };
                let found = dialect.read(name.as_str());
                assert_eq!(found, Ok(expected), "{dialect} {triple} {name}");
            }
        }
    });
    assert!(named > 350, "{named}");
    // A version has a place in a row, and is one of its system or C library.
    let (glibc, android) = ("manylinux_*_*_x86_64", "android_*_x86");
    assert!(has_version(2, 17, glibc) && !has_version(3, 0, glibc));
    assert!(has_version(21, 0, android) && !has_version(21, 1, android));
    assert!(!has_version(2, 0, "linux_x86"));
}

#[test]
fn completion_fills_only_a_gap() {
    use ChosenLibc::*;
    let has_dropped = |it: &&Dialect| matches!(it.table().rules.abi, AbiRule::Dropped);
    each_triple(|triple| {
        for library in [Glibc, Musl, Msvc, Mingw, Gnullvm] {
            let system = match library {
                Glibc | Musl => OperatingSystem::Linux,
                _ => OperatingSystem::Windows,
            };
            let is_gap = (triple.operating_system, triple.environment)
                == (system, Environment::Unknown)
                // Nobody says how it passes floating-point arguments.
                && (triple.architecture, system)
                    != (Architecture::Arm(ArmArchitecture::Arm), OperatingSystem::Linux);
            let completed = triple.with_c_library(library);
            let environment = triple.environment;
            assert_eq!(TripleRef { environment, ..completed }, triple);
            assert_eq!(completed != triple, is_gap, "{triple} {library}");
            assert_eq!(answers(&completed), answers(&triple), "{triple} {library}");
            for other in [Glibc, Musl, Msvc, Mingw, Gnullvm].into_iter().filter(|_| is_gap) {
                assert_eq!(completed.with_c_library(other), completed, "{triple} {library} {other}");
            }
            for dialect in Dialect::ALL.iter().filter(has_dropped) {
                let shapes = (dialect.shape(&completed), dialect.shape(&triple));
                assert_eq!(shapes.0, shapes.1, "{dialect} {triple} {library}");
            }
        }
    });
}

#[test]
fn each_rule_rewrites_an_unknown_part_once() {
    for &(place, text, form, names) in FIRST_RULES.iter().chain(LATER_RULES) {
        let version = match form {
            Form::Pair | Form::PairWithin => continue,
            _ if place == Place::AfterHardFloats => continue,
            Form::Dropped | Form::MacOs => "1",
            _ => "",
        };
        let part = format!("{text}{version}");
        let fit = fit_alone(place, &part).unwrap_or_else(|| panic!("{part} is known"));
        assert_eq!(fit.names, names, "{part} has an earlier rule");
        for name in names.split('-') {
            assert!(fit_alone(place, &format!("{name}{}", fit.kept_version())).is_none(), "{part}");
        }
    }
}

#[test]
fn words_of_config_sub_are_makers_kernels_and_systems() {
    let read = |text: String| Dialect::Gnu.read(&text);
    let refused = |why| Err(NameError::WithoutTriple(why));
    // `mips` is the name of an architecture, which is no vendor.
    for maker in MAKERS.iter().filter(|it| VendorRef::from_str(it).is_ok()) {
        assert_eq!(read(format!("x86_64-{maker}")), read("x86_64-none".into()), "{maker}");
        assert!(read(format!("x86_64-{maker}-linux")).is_ok(), "{maker}");
    }
    for kernel in KERNELS {
        assert!(read(format!("x86_64-{kernel}")).is_err(), "{kernel}");
        let (_, why) = SYSTEMS.iter().find(|it| it.0 == *kernel).unwrap();
        let why = if *kernel == "symbian" { refusals::MAKER } else { why };
        assert_eq!(read(format!("x86_64-{kernel}-gnu")), refused(why), "{kernel}");
    }
    // `sim` is an environment too.
    for (system, why) in SYSTEMS.iter().filter(|it| it.0 != "sim") {
        assert_eq!(read(format!("x86_64-pc-{system}")), refused(why), "{system}");
        let is_vendor = VendorRef::from_str(system).is_ok();
        assert!(!is_vendor || read(format!("x86_64-{system}")) == refused(why), "{system}");
        assert!(why.ends_with(system));
    }
    assert_eq!(read("x86_64-foo".into()), Err(NameError::Unknown));
}

#[test]
fn hints_name_the_machine_that_tools_mean() {
    let machine = |it: TripleRef<'_>| (it.endianness().ok(), it.pointer_width().ok());
    let (mut hinted, mut others) = (0, Vec::new());
    for row in Dialect::ALL.iter().flat_map(|dialect| dialect.rows_read()) {
        let Some(found) = Evidence::of(row.0).sense().filter(|it| it.level.is_empty()) else {
            continue;
        };
        hinted += 1;
        if machine(found.triple) != machine(TripleRef::from_str(row.1).unwrap()) {
            others.push(row.0);
        }
    }
    assert!(hinted > 500, "{hinted}");
    // Node's is little-endian.
    assert_eq!(others, ["linux-ppc64"]);
}

/// Whether the words of a text may be of a triple, and after `=` texts with triples.
const ALLOWED: &str = "\
true=linux-arm aarch64-unknown-linux-gnu, linux-arm arm-unknown-linux-gnueabi, \
    linux-riscv64 riscv64gc-unknown-linux-gnu, linux x86_64-unknown-linux-gnux32, \
    linux-x64-32bit x86_64-unknown-linux-gnux32, linux-armel arm-unknown-linux, wasi-wasm32 wasm32-wasip1, \
    x64 x86_64-linux-android
false=linux-arm armv7-unknown-linux-gnueabihf, linux-armv6 armv7-unknown-linux-gnueabihf, \
    linux-armv7 armv6-unknown-linux-gnueabihf, linux-x64 x86_64-unknown-linux-gnux32, \
    linux-x64-32bit x86_64-unknown-linux-gnu, linux-armhf-armel arm-unknown-linux, linux-hf x86_64-unknown-linux, \
    wasi-wasm32 wasm32-wasip2, linux-x64-gnu x86_64-unknown-linux-musl, linux-x64 x86_64-linux-android";

#[test]
fn words_may_be_of_triples() {
    for (expected, rows) in ALLOWED.lines().map(|line| line.split_once('=').unwrap()) {
        for (text, of) in rows.split(", ").map(|row| row.split_once(' ').unwrap()) {
            assert_eq!(Evidence::of(text).allows(&meaning(of, None).into()).to_string(), expected, "{text} {of}");
        }
    }
}
