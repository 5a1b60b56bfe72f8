//! What is shown, and the error that owns its string. Conversions, equality and hashes are proved.
use std::borrow::Cow;
use std::error::Error;
use target_lexicon::*;

#[test]
fn what_has_a_name_is_shown_as_it() {
    let fields = [Field::Architecture, Field::Vendor, Field::OperatingSystem, Field::Environment, Field::BinaryFormat];
    assert_eq!(
        fields.map(|it| it.to_string()).join(", "),
        "architecture, vendor, operating system, environment, binary format"
    );
    let systems = [OperatingSystem::Linux, OperatingSystem::IOS(None)].map(OperatingSystem::into_str);
    let names = [Architecture::Avr.into_str(), Environment::Gnu.into_str(), BinaryFormat::Elf.into_str()];
    let all = [systems.as_slice(), &names, &[ArmArchitecture::Arm.into_str()]].concat();
    assert!(all.iter().all(|it| matches!(it, Cow::Borrowed(_))));
    let triple: Triple = "x86_64-apple-ios17".parse().unwrap();
    assert_eq!(
        format!("{:>6}|{:<4}|{:^40}|", KnownVendor::Apple, PointerWidth::U64, triple),
        "apple|64|x86_64-apple-ios17.0.0|"
    );
    assert_eq!(format!("{} {} {}", Endianness::Big, CallingConvention::SystemV, CDataModel::LP64), "big SystemV LP64");
    assert_eq!(DeploymentTarget { major: 10, minor: 15, patch: 7 }.to_string(), "10.15.7");
}

#[test]
fn an_error_leaves_the_function_that_owns_its_string() {
    fn environment(target: String) -> Result<Environment, Box<dyn Error + Send + Sync>> {
        Ok(TripleRef::parse(&target)?.settle()?.environment)
    }
    assert_eq!(environment("x86_64-linux-gnu".into()).unwrap(), Environment::Gnu);
    let error = environment("x86_64-é-linux".into()).unwrap_err();
    let picture = "Unrecognized vendor: \\u{e9}\n  x86_64-\\u{e9}-linux\n         ^^^^^^";
    assert_eq!(format!("{error:#}"), picture);
    let line = "Unrecognized vendor: \\u{e9} (in x86_64-\\u{e9}-linux)";
    assert_eq!(error.to_string(), line);
    let error = error.downcast::<ParseTripleError>().unwrap();
    assert_eq!(error.to_error(), "x86_64-é-linux".parse::<Triple>().unwrap_err());
}

#[test]
fn an_error_is_about_the_part_if_the_string_is_another_one() {
    let refusal = TripleRef::from_str("x86_64-foo-bar").unwrap_err();
    let error = refusal.in_text("aarch64-apple-ios");
    assert_eq!((error.text(), error.range()), ("bar", 0..3));
}

#[test]
fn an_error_shows_printable_ascii() {
    for c in ('\0'..='\u{700}').chain('\u{2000}'..='\u{2100}').chain(['\u{3164}', '\u{e0001}']) {
        let error = Triple::parse(&format!("x86_64-A{c}")).unwrap_err();
        let (line, picture) = (error.to_string(), format!("{error:#}"));
        let is_visible = |it: u8| (b' '..=b'~').contains(&it);
        assert!(line.bytes().all(is_visible), "{line}");
        assert!(picture.replace('\n', "").bytes().all(is_visible), "{picture}");
        assert_eq!(picture.lines().count(), 3);
    }
}

#[test]
fn each_error_says_what_is_wrong() {
    fn shown(error: impl Error) -> String {
        error.to_string()
    }
    let version = "x".parse::<DeploymentTarget>().unwrap_err();
    let vendor = VendorRef::from_str("Linux").unwrap_err();
    #[cfg(feature = "std")]
    assert_eq!(shown("foo".parse::<Triple>().unwrap_err()), "Unrecognized architecture: foo");
    let unknown = TripleRef::unknown();
    let said = [
        shown(version),
        shown(vendor),
        shown(unknown.endianness().unwrap_err()),
        shown(unknown.pointer_width().unwrap_err()),
        shown(unknown.default_calling_convention().unwrap_err()),
        shown(unknown.data_model().unwrap_err()),
        shown(NotPlain(Triple::unknown())),
    ];
    let expected = [
        "Not a version: it is one to three numbers, at most 65535.255.255",
        "Unrecognized vendor: Linux",
        "The byte order of the target is unknown",
        "The pointer width of the target is unknown",
        "The calling convention of the target is unknown",
        "The data model of C of the target is unknown",
        "No text parses as the vendor \"unknown\"",
    ];
    assert_eq!(said, expected);
}
