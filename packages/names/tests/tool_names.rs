//! Strings for LLVM of triples that rustc hasn't, suggestions, the table of targets, which `examples/targets.rs` writes, and
//! the traits of names, dialects and errors.
#[allow(dead_code)] // its main
#[path = "../examples/targets.rs"]
mod example;

use std::collections::{BTreeSet, HashSet};
use target_lexicon::{Field, Triple, TripleRef};
use target_names::{
    known_names, suggestion, visible, ChosenLibc, Dialect, FloatAbi, Name, Suggest as _, TargetInfo, UnknownWord,
};

/// The word, or `-` if there is none.
fn shown(word: Option<impl ToString>) -> String {
    let word = word.map_or(String::new(), |it| it.to_string());
    if word.is_empty() {
        "-".into()
    } else {
        word
    }
}

/// A triple that is no target of rustc, and after `=` the string for LLVM: of its own `checks/compare elsewhere` asks rustc.
const LLVM_TARGETS: &str = "\
aarch64-apple-visionos=arm64-apple-xros
aarch64-apple-darwin23.1=arm64-apple-macosx14.0.0
x86_64-apple-macosx11.2.3=x86_64-apple-macosx11.2.3
aarch64-apple-ios17=arm64-apple-ios17.0.0
riscv64-unknown-linux=riscv64-unknown-linux
x86_64-acme-linux=x86_64-acme-linux";

#[test]
fn strings_for_llvm_are_those_of_rustc() {
    for (text, expected) in LLVM_TARGETS.lines().map(|row| row.split_once('=').unwrap()) {
        assert_eq!(TripleRef::from_str(text).unwrap().llvm_target().to_string(), expected);
    }
}

/// For each field a name, or `-` for none, and after `=` the strings for which it should be suggested.
const OPERATING_SYSTEMS: &str = "\
linux=linx lniux lunix Linux LINUX linux5.10 Linux5.10 linux5.10.3
darwin=darwim darwin20.1.2.3
windows=widows windows10 windows.win10
solaris=solart
ios17=iso17 iOS17
ios17.2=iso17.2
ios=iso iso17.2.3.4 iso65536 ios17x ios17é
ios017.2.3=iso017.2.3
darwin20.1=darwim20.1
macosx14=macosc14 macos14
macosx14.5=MacOS14.5
macosx=macOS macos14. macos.11.0 macosx.11.0
haiku=haiku1
freebsd=freebsd13.2 freebsd13x
wasi=wasi0.2
psp=psp2
-=plan9 wali w64 solar darwxyz psx kfreebsd uclinux wasip3 iso17x iosé17 linx5.10 wasip4 psx1 5.10 . aux7";

const ARCHITECTURES: &str = "\
x86_64=x86-64 X86_64 amd64 x8664
riscv32im=riscv32mi
armv7=armv7l
arm=armel
thumbv8m.base=thumbv8m.bas
aarch64_be=aarch64be
arm64=ARM64
i386=i368
powerpc64le=ppc64el
clever1.0=clever10
x86_64h=xx86_64h
armv6=armvj6
thumbv7em=thumbve7m
s390x=sm390x
-=arme armebb armv sparcv arm64e arm64ec riscv64im riscv32em thumbv8r armv7hl armv6hl mips32el iso17 arm6j wasm x86 x86_32 mipsel64
-=armeabi cleverz. arc arceb crisv32 m88k r600 s390 spir64 spirv64 z8k amr64 powerpcle mipsl mipse";

const VENDORS: &str = "\
linux=linxu linux5.10
apple=aple
freebsd=freebsd13.2
windows-gnu=mingw32
macosx13=macos13
ios17=iso17
pc=w64";

const ENVIRONMENTS: &str = "\
android=android21
musl=mulsl msul
elf=efl
gnu=gnuu gnus
gnueabihf=gnueabihf2.31
-=gnux muslsf gnusf ocos mingw32 gnuabi glibc gnuabi32 iso17 macos14 linux5.10 ela gnueabihff gnux3";

const BINARY_FORMATS: &str = "\
macho=mahco
-=mach0";

#[test]
fn names_are_suggested() {
    for (field, rows) in [
        (Field::OperatingSystem, OPERATING_SYSTEMS),
        (Field::Architecture, ARCHITECTURES),
        (Field::Vendor, VENDORS),
        (Field::Environment, ENVIRONMENTS),
        (Field::BinaryFormat, BINARY_FORMATS),
    ] {
        for (name, texts) in rows.lines().map(|row| row.split_once('=').unwrap()) {
            for text in texts.split(' ') {
                assert_eq!(shown(suggestion(field, text)), name, "{text}");
            }
        }
        for text in ["", "nothing of the kind"] {
            assert_eq!(suggestion(field, text), None);
        }
        for name in known_names(field) {
            assert_eq!(suggestion(field, name), None);
        }
    }
}

/// Environments, or `-` for none, and after `=` the triples for which they should be suggested.
const ENVIRONMENTS_OF_MACHINES: &str = "\
gnueabihf=armv7-unknown-linux-gnueabihff armv7-unknown-linux-gnueabihf2.31 armv7-unknown-linux-gnueabihf2
gnueabihf=armv7-unknown-linux-gnueabhf armv7-unknown-linux-gnuabihf arm-unknown-linux-gnueaihf
-=armv7-unknown-linux-gnueabii x86_64-linux-gnueabihff riscv64-linux-gnueabii x86_64-unknown-linux-gnueabihf2.31
-=x86_64-unknown-none-eaib x86_64-unknown-linux-gnu_ipl32 aarch64-unknown-linux-gnxu32
-=x86_64-unknown-linux-muslabii64 x86_64-unknown-linux-gnuabii64 x86_64-linux-androideab
-=armv7-unknown-linux-musleabii x86_64-unknown-linux-musleab x86_64-unknown-linux-uclibceab
-=powerpc-unknown-none-eabihff x86_64-unknown-linux-musleabihff x86_64-unknown-linux-uclibceabihff
-=x86_64-unknown-none-spee x86_64-unknown-linux-gnux powerpc-unknown-linux-gnus armv7-unknown-linux-gnueabi1
-=armv7-unknown-linux-ocos
gnuabi64=mips64el-unknown-linux-gnuabii64
gnu=arm64-unknown-linux-gnuu armv7-unknown-linux-gnux
softfloat=aarch64-unknown-none-softfloa
gnuspe=powerpc-unknown-linux-gnuspee
eabi=powerpc-unknown-none-eaib mips-unknown-none-eaib hexagon-unknown-none-eaib
gnu_ilp32=aarch64-unknown-linux-gnu_ipl32
gnux32=x86_64-unknown-linux-gnxu32
muslabi64=mips64-unknown-linux-muslabii64
androideabi=armv7-linux-androideab
musleabi=armv7-unknown-linux-musleab
uclibceabi=armv7-unknown-linux-uclibceab
eabihf=armv7-unknown-none-eabihff
musleabihf=armv7-unknown-linux-musleabihff armv7-unknown-linux-muslabihf
uclibceabihf=armv7-unknown-linux-uclibceabihff
spe=powerpc-unknown-none-spee
gnueabi=armv7-unknown-linux-gnueabi2.17
ohos=x86_64-unknown-linux-ocos
freebsd=x86_64-unknown-feebsd armv7-unknown-feebsd";

#[test]
fn an_environment_is_suggested_for_its_machines() {
    for (name, texts) in ENVIRONMENTS_OF_MACHINES.lines().map(|row| row.split_once('=').unwrap()) {
        for text in texts.split(' ') {
            let error = TripleRef::parse(text).unwrap_err();
            assert_eq!(shown(error.suggestion().map(|it| it.names)), name, "{text}");
            let (refusal, upstreams) = (TripleRef::from_str(text).unwrap_err(), text.parse::<Triple>().unwrap_err());
            assert_eq!([refusal.suggestion_in(text), upstreams.suggestion_in(text)], [error.suggestion(); 2], "{text}");
        }
    }
}

#[test]
fn an_error_shows_printable_ascii() {
    let shows = |shown: String| {
        assert!(shown.bytes().all(|it| (b' '..=b'~').contains(&it)), "{shown}");
    };
    let all = ('\0'..='\u{700}').chain('\u{1100}'..='\u{1200}').chain('\u{2000}'..='\u{2100}');
    for c in all.chain(['\u{3164}', '\u{feff}', '\u{e0001}']) {
        shows(visible(c).to_string());
        // Errors take long: of all of ASCII, and of others such as those that turn the direction.
        if !c.is_ascii() && u32::from(c) % 16 != 14 {
            continue;
        }
        for dialect in [Dialect::Gnu, Dialect::Node] {
            for name in [format!("{c}-linux-gnu"), format!("@{c}/linux-x46")] {
                shows(dialect.mistake(&name).map_or(String::new(), |it| it.to_string()));
            }
        }
        shows(format!("{c}").parse::<Dialect>().unwrap_err().to_string());
        shows(format!("{c}").parse::<ChosenLibc>().unwrap_err().to_string());
    }
}

#[test]
fn each_target_is_what_the_library_answers() {
    let lines = example::lines();
    assert!(include_str!("../targets.csv").lines().eq(&lines), "run tools/write");
    let is_described =
        |it: &str| include_str!("../names.schema.json").contains(&format!("\"{it}\": {{ \"description\""));
    assert!(lines[0].split(',').all(|it| is_described(it) || it.parse::<Dialect>().is_ok()));
}

#[test]
fn names_and_suggestions_are_compared_and_padded_like_strings() {
    let name = Dialect::Debian.write(TripleRef::from_str("x86_64-unknown-linux-gnu").unwrap()).unwrap();
    assert_eq!(
        format!("{:>6}|{name:>7}|{:6}|{name:?}", Dialect::Go, FloatAbi::Hard),
        "    go|  amd64|hard  |\"amd64\""
    );
    let versioned = TripleRef::from_str("arm64-apple-iso17").unwrap_err().suggestion().unwrap();
    assert!(versioned == "ios17" && versioned != "ios" && versioned != "ios1" && versioned != "ios171");
}

#[test]
fn a_name_is_compared_like_a_string() {
    let triple = TripleRef::from_str("x86_64-unknown-linux-gnu").unwrap();
    let names: Vec<Name> = Dialect::ALL.iter().filter_map(|it| it.write(triple)).collect();
    assert!(names.iter().any(|it| *it == "linux/amd64" && *it == *"linux/amd64" && *it != "LINUX/AMD64"));
    let texts: BTreeSet<&str> = names.iter().map(AsRef::as_ref).collect();
    assert_eq!(names.iter().collect::<HashSet<_>>().len(), texts.len());
    assert!(names.iter().collect::<BTreeSet<_>>().into_iter().map(Name::as_str).eq(texts));
}

#[test]
fn a_word_that_is_no_dialect_is_named() {
    let of = |word: &str| word.parse::<Dialect>().map_err(Box::<dyn std::error::Error>::from);
    assert_eq!(of("docker").unwrap(), Dialect::Oci);
    let error = of("golang").unwrap_err().downcast::<UnknownWord>().unwrap();
    assert_eq!((error.word(), error.suggestion()), ("golang", Some("go")));
    assert_eq!("golang".parse::<ChosenLibc>().unwrap_err().suggestion(), None);
    let meant = |word: &str| word.parse::<Dialect>().unwrap_err().suggestion();
    assert_eq!(["rustc", "Debian", "dotent", "x"].map(meant), [Some("rust"), Some("debian"), Some("dotnet"), None]);
    assert!([" go", "go ", "Go", ""].into_iter().all(|it| of(it).is_err()));
    let none = of("\u{202e}x").unwrap_err().to_string();
    assert!(none.starts_with("Unknown dialect: \\u{202e}x; it is one of debian go oci "));
    for dialect in Dialect::ALL {
        let name = dialect.name();
        assert_eq!(name.parse(), Ok(*dialect));
        let error = name.to_uppercase().parse::<Dialect>().unwrap_err();
        assert_eq!(error.suggestion(), Some(name));
    }
}
