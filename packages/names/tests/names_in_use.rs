//! Names from real files of configuration, and what other tools call each; and what the words of names say.
use std::collections::BTreeSet;
use target_lexicon::{Architecture, OperatingSystem, PointerWidth, TripleRef};
use target_names::{
    meanings, CLibrary, ChosenLibc, Dialect, Evidence, Meaning, NameError, NameOf, Sense, TargetInfo, TranslateError,
    VersionOf, Versions, WriteError,
};

/// The lines of a file that aren't comments, cell by cell.
fn rows(text: &str) -> impl Iterator<Item = Vec<&str>> {
    let lines = text.lines().filter(|line| !line.starts_with('#'));
    lines.map(|line| line.split('\t').collect())
}

#[test]
fn names_in_use_lead_to_other_tools() {
    let (mut names, mut wrong) = (BTreeSet::new(), Vec::new());
    for row in rows(include_str!("names_in_use.tsv")) {
        let [dialect, name, libc, source, answers @ ..] = row.as_slice() else {
            panic!("{row:?}");
        };
        assert!(!source.is_empty() && !answers.is_empty(), "{row:?}");
        let from: Dialect = dialect.parse().unwrap();
        let said = (*libc != "-").then(|| libc.parse::<ChosenLibc>().unwrap());
        for answer in answers {
            let (to, expected) = answer.split_once('=').unwrap();
            let name = name.replace("\\n", "\n");
            let found = match from.translate(&name, said, to.parse().unwrap()) {
                Ok(found) => found.to_string(),
                Err(TranslateError::Read(NameError::Unknown)) => "!unknown".into(),
                Err(TranslateError::Read(NameError::WithoutTriple(why))) => format!("!{why}"),
                Err(TranslateError::Write(why)) => {
                    assert!(!why.reason().is_empty());
                    format!("!{why:?}")
                }
            };
            if found != expected {
                wrong.push(format!("{dialect} {name}: {to}={found}, not {expected}"));
            }
        }
        assert!(names.insert((*dialect, *name, *libc)), "{row:?}");
    }
    assert!(wrong.is_empty(), "{}", wrong.join("\n"));
}

/// Tags of wheels, whose version is that of the system or C library, by its name, or why there is none; and after `=`
/// triples with versions. One is asked for only where a name that states one means the triple: that of FreeBSD means
/// none with musl. Of a triple that has a version none is asked for.
const TAGS: &str = "\
manylinux_2_17_x86_64=x86_64-unknown-linux-gnu glibc:2.17,macos:11.0, x86_64-unknown-linux glibc:2.17
manylinux_2_17_aarch64=aarch64-unknown-linux-gnu glibc:2.17
musllinux_1_2_x86_64=x86_64-unknown-linux-musl musl:1.2,glibc:2.17
musllinux_1_2_aarch64=aarch64-unknown-linux-musl musl:1.2
manylinux_2_17_armv7l=armv7-unknown-linux-gnueabihf glibc:2.17
macosx_11_0_x86_64=x86_64-apple-darwin macos:11.0,ios:17.0
macosx_10_9_x86_64=x86_64-apple-darwin macos:10.9
macosx_11_0_arm64=aarch64-apple-darwin macos:11.0
ios_17_0_arm64_iphoneos=aarch64-apple-ios ios:17.0,macos:11.0
android_21_x86_64=x86_64-linux-android android:21.0,glibc:2.17
freebsd_14_1_release_amd64=x86_64-unknown-freebsd freebsd:14.1
win_amd64=x86_64-pc-windows-msvc glibc:2.17, x86_64-pc-windows macos:11.0
win_arm64=aarch64-pc-windows-msvc windows:10240.0
win32=i686-pc-windows-msvc glibc:2.17
OtherVersion=aarch64-apple-darwin macos:2.17, aarch64-unknown-linux-musl musl:11.0, \
    x86_64-unknown-linux-gnu glibc:1.2, x86_64-unknown-linux-gnu glibc:0.0, aarch64-linux-android android:0.0
NeedsCLibrary=x86_64-unknown-linux glibc:2.17,musl:1.2
linux_x86_64=x86_64-unknown-linux macos:11.0, x86_64-unknown-linux-gnu musl:1.2,macos:11.0
NeedsVersion=aarch64-apple-darwin glibc:2.17, x86_64-unknown-freebsd glibc:2.17, \
    aarch64-apple-ios macos:11.0,glibc:2.17, aarch64-unknown-freebsd -, x86_64-apple-darwin -, aarch64-apple-ios -
OnlyReadNames=aarch64-unknown-freebsd-musl -, wasm32-unknown-emscripten -
Simulator=x86_64-apple-ios17.2-sim -";

#[test]
fn tags_of_wheels_have_the_version_of_the_system_or_c_library() {
    let rows = TAGS.lines().map(|line| line.split_once('=').unwrap());
    for (expected, row) in rows.flat_map(|(expected, rows)| rows.split(", ").map(move |row| (expected, row))) {
        let (text, version) = row.split_once(' ').unwrap();
        let triple = TripleRef::from_str(text).unwrap();
        let mut versions = Versions::none();
        for version in version.split(',').filter(|it| *it != "-") {
            let (of, numbers) = version.split_once(':').unwrap();
            let (major, minor) = numbers.split_once('.').unwrap();
            let of = VersionOf::ALL.into_iter().find(|it| it.name() == of).unwrap();
            versions = versions.with(of, major.parse().unwrap(), minor.parse().unwrap());
        }
        let found = Dialect::Python.write_with_versions(triple, None, &versions);
        let found = found.map_or_else(|why| format!("{why:?}"), |it| it.to_string());
        assert_eq!(found, expected, "{row}");
    }
    // The version is right, and no name is for the level.
    let versions = Versions::none().with(VersionOf::Glibc, 2, 28);
    let found = Dialect::Oci.translate_with("linux/amd64/v3", Some(ChosenLibc::Glibc), &versions, Dialect::Python);
    assert_eq!(found, Err(TranslateError::Write(WriteError::Baseline)));
}

/// From rustc to rustc each target that parses is its triple and itself. It has a note where it is more than its triple.
#[test]
fn targets_of_rustc_are_themselves() {
    let (mut parsed, mut noted) = (0, 0);
    // The targets of rustc's list, which `checks/compare elsewhere` compares with the table: without what older ones had.
    let rows = include_str!("../names.csv").lines();
    let rows = rows.filter(|it| !it.contains("rustc's name ") && !it.contains("several"));
    let targets: BTreeSet<_> = rows.filter_map(|it| it.strip_prefix("rust,")?.split(',').next()).collect();
    for target in targets {
        let found = Dialect::Rust.read(target);
        let Ok(triple) = TripleRef::from_str(target).map(|it| it.step()) else {
            let is_known = found != Err(NameError::Unknown);
            assert!(is_known && found.is_err(), "{target}");
            continue;
        };
        assert_eq!(found, Ok(triple), "{target}");
        assert_eq!(Dialect::Rust.write(triple).unwrap(), target);
        assert_eq!(meanings(target).next(), Some(Meaning { of: NameOf::Triple, sense: Ok(triple.into()) }));
        parsed += 1;
        noted += usize::from(Dialect::Rust.note(target).is_some());
        // Nothing is offered instead of it.
        assert_eq!(Dialect::Rust.suggestion(target), Some(target));
    }
    assert_eq!((parsed, noted), (263, 38));
}

/// What the command shows of a name: the triples that it means, or why it has none, or what its words say.
fn answer(name: &str) -> String {
    let (mut triples, mut whys) = (Vec::new(), Vec::new());
    for Meaning { sense, .. } in meanings(name).filter(|it| it.of != NameOf::Words) {
        let (answers, shown) = match sense {
            Ok(it) => (&mut triples, it.triple.to_string()),
            Err(why) => (&mut whys, format!("!{why}")),
        };
        if !answers.contains(&shown) {
            answers.push(shown);
        }
    }
    let evidence = Evidence::of(name);
    match (triples.is_empty(), whys.is_empty(), evidence.sense()) {
        (false, ..) => triples.join(" "),
        (_, false, _) => whys.join(" "),
        (.., Some(Sense { triple, level: "" })) => format!("?{triple}"),
        _ if evidence.is_empty() => "?".into(),
        _ => format!("?{}", evidence.to_string().rsplit(", and ").next().unwrap()),
    }
}

#[test]
fn names_of_releases_mean_what_their_words_say() {
    let (mut expected, mut count, mut wrong) = ("", 0, Vec::new());
    for row in rows(include_str!("names_of_releases.tsv")) {
        let [meaning, names] = row[..] else {
            panic!("{row:?}");
        };
        if !meaning.is_empty() {
            expected = meaning;
        }
        for name in names.split(' ') {
            let found = answer(name);
            if found != expected {
                wrong.push(format!("{name}: {found}, not {expected}"));
            }
            count += 1;
        }
    }
    assert!(wrong.is_empty(), "{}", wrong.join("\n"));
    assert!(count >= 360, "{count}");
}

/// Whether an answer says something else than the truth of a name: a machine, a system, and words for the C library, for
/// floating-point arguments and for pointers of 32 bits. Only the name of a tool may say more of floating-point arguments.
fn contradicts(truth: &str, triple: &TripleRef<'_>, is_of_tool: bool) -> bool {
    use OperatingSystem::{Darwin, Freebsd, MacOSX, Unknown, Windows};
    let mut words = truth.split(' ');
    let machine: Architecture = words.next().unwrap().parse().unwrap();
    let (system, words) = (words.next().unwrap(), words.collect::<Vec<_>>());
    let [own, of_truth] = [*triple, TripleRef { architecture: machine, ..*triple }];
    let levels = [own, of_truth].map(|it| it.arm_version());
    let is_machine = of_truth.rustc_cfg().target_arch == own.rustc_cfg().target_arch
        && machine.endianness().ok() == own.endianness().ok()
        // Windows needs Armv7.
        && (levels.contains(&None) || levels[0] == levels[1] || own.operating_system == Windows);
    let width = if words.contains(&"32") { Some(PointerWidth::U32) } else { machine.pointer_width().ok() };
    let (library, floats) = (own.c_library(), own.float_abi());
    let is_android = library == Some(CLibrary::Bionic);
    let has_system = match (system, own.operating_system) {
        ("darwin", it) => matches!(it, Darwin(_) | MacOSX(_)),
        (_, Unknown) => is_android,
        // A version of WASI, or of iOS, may be missing.
        (_, it) => it.to_string().starts_with(system.trim_end_matches("p1")),
    };
    let is_always = is_android || matches!(own.operating_system, Freebsd | Windows);
    let has_floats = floats.map_or(true, |it| is_of_tool || is_always || words.contains(&it.name()));
    let is_of = |of: CLibrary| library.map_or(true, |it| it == of);
    let is_right = |word: &&str| match *word {
        "gnu" if system == "windows" => is_of(CLibrary::Mingw),
        "gnu" => is_of(CLibrary::Glibc),
        "musl" => is_of(CLibrary::Musl),
        "msvc" => is_of(CLibrary::Msvc),
        "32" | "android" => true,
        word => floats.map_or(true, |it| it.name() == word),
    };
    let is_whole = is_machine && own.pointer_width().ok() == width && has_system && has_floats;
    !is_whole || is_android != words.contains(&"android") || !words.iter().all(is_right)
}

/// What is answered of a name: by tools, by its words, and, if they are asked, by suggestions of tools that don't have
/// it.
fn answers(name: &str, is_asked: bool) -> impl Iterator<Item = (String, TripleRef<'_>)> {
    // To GNU a single word is a machine without a system.
    let is_tool = |it: NameOf| match it {
        NameOf::Dialect(Dialect::Gnu) => name.contains('-'),
        it => matches!(it, NameOf::Dialect(_)),
    };
    let tools = meanings(name).filter(move |it| is_tool(it.of));
    let tools = tools.filter_map(|it| Some((it.of.to_string(), it.sense.ok()?.triple)));
    let words = Evidence::of(name).sense().map(|it| ("words".to_string(), it.triple));
    let asked = Dialect::ALL.iter().filter(move |it| is_asked && it.read_loosely(name).is_err());
    let meant = asked.filter_map(move |it| Some((*it, it.suggestion(name)?)));
    let meant = meant.filter_map(|(of, it)| Some((format!("{of} {it}"), of.read(it).ok()?)));
    tools.chain(words).chain(meant)
}

/// No answer, hint or suggestion says another machine, order, width, ABI or system.
#[test]
fn fresh_names_get_no_wrong_answer() {
    let (mut names, mut count, mut wrong) = (BTreeSet::new(), 0, Vec::new());
    for row in rows(include_str!("fresh_names.tsv")) {
        for name in row[1].split(' ') {
            names.insert(name);
            for (of, triple) in answers(name, true) {
                count += 1;
                let is_several = name.contains("universal") || name.ends_with("_all");
                if !is_several && (row[0] == "-" || contradicts(row[0], &triple, of != "words")) {
                    wrong.push(format!("{name}: {of} {triple}, not {}", row[0]));
                }
            }
        }
    }
    assert!(wrong.is_empty(), "{}", wrong.join("\n"));
    assert!(names.len() >= 300 && count >= 400, "{} {count}", names.len());
}

/// Words for machines, and after `=` an architecture of the same family, width and byte order.
const MACHINES: &str = "amd64=x86_64 x86_64= x64=x86_64 x86=i686 i386=i686 386=i686 ia32=i686 arm64=aarch64 aarch64= \
    aarch64_be= armv6= armv7= armhf=arm armel=arm armeb= mips= mipsle=mipsel mips64el= mips64-le=mips64el \
    ppc64=powerpc64 ppc64le=powerpc64le ppc64-le=powerpc64le riscv64= s390x= loong64=loongarch64 sparc64=";

/// Words for systems, and the systems.
const SYSTEMS: &str = "linux= alpine=linux debian=linux ubuntu=linux android=linux+android darwin= macos=darwin \
    macOS=darwin osx=darwin mac=darwin windows= win=windows mingw=windows ios= tvos= visionos= freebsd= netbsd= \
    openbsd= dragonfly= illumos= solaris= fuchsia= haiku= uefi=";

/// Words for C libraries and ABIs, and what they say of floating-point arguments and the width of pointers.
const ABIS: &str = "= gnu= musl= msvc= hf=hard gnueabihf=hard gnueabi=soft softfloat=soft muslx32=32";

/// Each word of a list, and what is after its `=`, or else the word.
fn pairs(list: &'static str) -> impl Iterator<Item = (&'static str, &'static str)> {
    let pairs = list.split(' ').map(|it| it.split_once('=').unwrap());
    pairs.map(|(word, meaning)| (word, if meaning.is_empty() { word } else { meaning }))
}

/// Of names made of a system's, a machine's and an ABI's word in the usual ways likewise.
#[test]
fn answers_say_what_the_words_say() {
    let (mut names, mut count, mut wrong) = (0, 0, Vec::new());
    let words = pairs(SYSTEMS).flat_map(|system| pairs(MACHINES).map(move |machine| (system, machine)));
    let words = words.flat_map(|(system, machine)| pairs(ABIS).map(move |abi| (system, machine, abi)));
    for ((system, of_system), (machine, of_machine), (abi, of_abi)) in words {
        let floats = match (of_abi, machine) {
            ("hard" | "soft" | "32", _) => of_abi,
            (_, "armhf") => "hard",
            (_, "armel") => "soft",
            _ => "",
        };
        for form in "- _ arch-os / .tar.gz .zip .exe".split(' ') {
            let joined = |words: [&str; 3], sign| words.join(sign).trim_end_matches(sign).to_string();
            let name = match form {
                "-" | "_" | "/" => joined([system, machine, abi], form),
                "arch-os" => joined([machine, system, abi], "-"),
                _ => format!("tool-1.2.3-{}{form}", joined([system, machine, abi], "-")),
            };
            names += 1;
            // Suggestions take longer: of each machine and system, with some ABIs.
            let is_asked = ["", "gnueabihf", "muslx32"].contains(&abi) && ["-", "arch-os", "/"].contains(&form);
            for (of, triple) in answers(&name, is_asked) {
                count += 1;
                // Node's machine `ppc64` is little-endian on Linux.
                let is_little = name.starts_with("linux-ppc64") && triple.architecture == Architecture::Powerpc64le;
                let own = if is_little { "powerpc64le" } else { of_machine };
                // Go and others have one name for both ways to pass floating-point arguments.
                let abi = Some(floats).filter(|it| of == "words" || *it == "32").unwrap_or("");
                let truth = [own, of_system, abi].join(" ").replace('+', " ").trim_end().to_string();
                if contradicts(&truth, &triple, of != "words") {
                    wrong.push(format!("{name}: {of} {triple}, not {truth}"));
                }
            }
        }
    }
    assert!(wrong.is_empty(), "{}", wrong.join("\n"));
    assert!(names > 40_000 && count > 20_000, "{names} {count}");
}
