//! How many triples have each answer, of each architecture, system and environment. `checks/compare` asks rustc, clang
//! and LLVM of their targets: here a rule that changes any other answer changes a line of answers.txt.
use std::collections::{BTreeMap, BTreeSet};
use target_lexicon::{Architecture, Environment, Field, OperatingSystem, TripleRef, VendorRef};
use target_names::{known_names, TargetInfo, TypeLayout};

/// Vendors that say something of a target: some of rustc's, and those that are systems.
const VENDORS: &str =
    "unknown apple pc uwp fortanix win7 openwrt unikraft esp32 wali mti nuttx rtems wasip3 acme sony wrs";
const VERSIONED: &str =
    "macosx10.7 darwin3 darwin4 darwin19.6 darwin20 darwin24 darwin25 ios17.2.1 visionos1.2 xros2.1";

/// Each architecture with each system and each environment, and of the vendors one after the other.
fn triples() -> Vec<TripleRef<'static>> {
    let vendors: Vec<_> = VENDORS.split(' ').map(|it| VendorRef::from_str(it).unwrap()).collect();
    let systems = known_names(Field::OperatingSystem).iter().copied().chain(VERSIONED.split(' '));
    let systems: Vec<OperatingSystem> = systems.map(|it| it.parse().unwrap()).collect();
    let names = known_names(Field::Environment).iter();
    let environments: Vec<Environment> = names.map(|it| it.parse().unwrap()).collect();
    let mut found = Vec::new();
    for name in known_names(Field::Architecture) {
        let architecture: Architecture = name.parse().unwrap();
        for &operating_system in &systems {
            for &environment in &environments {
                let vendor = vendors[found.len() % vendors.len()];
                let unknown = TripleRef::unknown();
                let mut triple = TripleRef { architecture, vendor, operating_system, environment, ..unknown };
                triple.binary_format = triple.default_binary_format();
                found.push(triple);
            }
        }
    }
    found
}

fn shown(it: Option<impl ToString>) -> String {
    it.map_or("none".into(), |it| it.to_string())
}

fn layout(it: Option<TypeLayout>) -> String {
    shown(it.map(|it| format!("{}:{}", it.size, it.alignment)))
}

/// One of eight numbers for a string, where there are too many strings.
fn sum(it: Option<impl ToString>) -> String {
    let sum = shown(it).bytes().fold(0_u32, |sum, it| (sum ^ u32::from(it)).wrapping_mul(16_777_619));
    (sum >> 29).to_string()
}

fn of_systems(it: TripleRef<'_>) -> [(&'static str, String); 9] {
    [
        ("c_library", shown(it.c_library())),
        ("float_abi", shown(it.float_abi())),
        ("char_signedness", shown(it.char_signedness())),
        ("object_format", it.object_format().to_string()),
        ("is_unix", it.is_unix().to_string()),
        ("has_emulated_tls", it.has_emulated_tls().to_string()),
        ("has_comdat", it.has_comdat().to_string()),
        ("program_suffix", it.program_suffix().to_string()),
        ("macos_version", shown(it.macos_version().map(|it| format!("{}.{}", it.major, it.minor)))),
    ]
}

fn of_machines(it: TripleRef<'_>) -> [(&'static str, String); 5] {
    let sizes = it.type_sizes().map(|it| [it.short, it.int, it.long, it.long_long, it.float, it.double]);
    [
        ("arm_version", shown(it.arm_version())),
        ("arm_profile", shown(it.arm_profile())),
        ("long_double_layout", layout(it.long_double_layout())),
        ("wchar_layout", layout(it.wchar_layout())),
        ("type_sizes", shown(sizes.map(|it| it.map(|it| it.to_string()).concat()))),
    ]
}

fn of_rustc(it: TripleRef<'_>) -> [(&'static str, String); 8] {
    let cfg = it.rustc_cfg();
    [
        ("multiarch_tuple", shown(it.multiarch_tuple())),
        ("llvm_target", sum(Some(it.llvm_target()))),
        ("rustc_cfg", sum(Some(cfg))),
        ("target_arch", cfg.target_arch.into()),
        ("target_os", cfg.target_os.into()),
        ("target_env", cfg.target_env.into()),
        ("target_abi", cfg.target_abi.into()),
        ("target_vendor", cfg.target_vendor.into()),
    ]
}

/// A line for each answer of each fact: how many times it is given.
fn counted<const N: usize>(all: impl Iterator<Item = [(&'static str, String); N]>) -> Vec<String> {
    let mut counts = BTreeMap::<(&str, String), usize>::new();
    all.flatten().for_each(|answer| *counts.entry(answer).or_default() += 1);
    counts.into_iter().map(|((fact, answer), count)| format!("{fact} {answer}={count}")).collect()
}

/// Compares lines with those of answers.txt for the same facts. With the variable ANSWERS it writes them there instead:
/// `ANSWERS=write cargo test --test answers -- --test-threads=1`.
fn compare(found: Vec<String>) {
    let path = concat!(env!("CARGO_MANIFEST_DIR"), "/tests/answers.txt");
    let text = std::fs::read_to_string(path).unwrap();
    let fact = |line: &str| line.split(' ').next().map(String::from);
    let is_of = |line: &&str| found.iter().any(|it| fact(it) == fact(line));
    if std::env::var_os("ANSWERS").is_some() {
        let others = text.lines().filter(|it| !is_of(it)).map(String::from);
        let all: BTreeSet<_> = others.chain(found.iter().cloned()).collect();
        return std::fs::write(path, all.into_iter().map(|it| it + "\n").collect::<String>()).unwrap();
    }
    let differing: Vec<_> = found.iter().filter(|line| !text.lines().any(|it| it == *line)).collect();
    assert!(differing.is_empty(), "lines that answers.txt doesn't have: {differing:#?}");
}

#[test]
fn each_answer_of_a_system_is_that_of_as_many_triples() {
    compare(counted(triples().into_iter().map(of_systems)));
}

#[test]
fn each_answer_of_a_machine_is_that_of_as_many_triples() {
    compare(counted(triples().into_iter().map(of_machines)));
}

#[test]
fn each_answer_of_rustc_is_that_of_as_many_triples() {
    compare(counted(triples().into_iter().map(of_rustc)));
}
