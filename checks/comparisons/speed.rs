//! The calls that `checks/compare speed` counts and times, of upstream's crate, of the Rust crate and of the library
//! for C.
//!
//! usage: speed WHO WHAT < LINES      calls WHAT 200 times with each line, or with the triple that it parses as, and
//!                                    prints how many calls that were; WHO is `upstream`, `ours` or `c`
//!        speed times WHO WHAT < LINES  prints the nanoseconds of such a call, WHO's and upstream's: medians of 1,000
//!                                    rounds, in each of which both are timed, without what the loop itself takes
//!
//! `none` calls what does nothing: it shows what the program itself takes. With `, refused` after it a string has an
//! `X` at its end.
use std::hint::black_box;
use std::time::Instant;

/// A call with each of some items, and how many these are.
type Pass = (usize, Box<dyn Fn()>);

fn each<T: 'static>(items: Vec<T>, call: fn(&T)) -> Pass {
    (items.len(), Box::new(move || items.iter().for_each(|it| black_box(call)(black_box(it)))))
}

/// The lines that parse, those that are refused, and the triples.
fn parsed<T>(lines: &[String], parse: fn(&str) -> Option<T>) -> (Vec<String>, Vec<String>, Vec<T>) {
    let (read, refused): (Vec<_>, Vec<_>) = lines.iter().cloned().partition(|it| parse(it).is_some());
    let triples = lines.iter().filter_map(|it| parse(it)).collect();
    (read, refused, triples)
}

/// Returns the pass of a method of some types that is written `TYPE::METHOD`, with so many items.
macro_rules! methods {
    ($what:ident, $count:expr; $($type:ident of $items:expr => $($call:ident)*;)*) => {
        $($(if $what == concat!(stringify!($type), "::", stringify!($call)) {
            let items: Vec<$type> = $items.collect();
            return each(items.iter().cycle().take($count).cloned().collect(), |it: &$type| drop(black_box(it.$call())));
        })*)*
    };
}

/// Returns the pass of parsing as a type, of a name, with these strings.
macro_rules! parses {
    ($what:ident; $($name:literal of $strings:expr => $type:ty;)*) => {
        $(if $what == $name {
            return each($strings, |it: &String| drop(black_box(it.parse::<$type>())));
        })*
    };
}

macro_rules! calls {
    ($who:ident) => {
        mod $who {
            use super::{black_box, each, parsed, Pass};
            use std::io::Write;
            use ::$who::*;
            use std::collections::hash_map::DefaultHasher;
            use std::hash::{Hash, Hasher};

            fn print(text: impl std::fmt::Display) {
                let mut out = [0; 256];
                write!(&mut out[..], "{text}").expect("room");
                black_box(&out);
            }

            /// Asks what the first group of facts of the library for C has.
            fn ask(triple: &Triple) {
                let _ = black_box((triple.endianness(), triple.pointer_width(), triple.default_calling_convention()));
                if let Ok(it) = triple.data_model() {
                    black_box([
                        it.short_size(),
                        it.int_size(),
                        it.long_size(),
                        it.long_long_size(),
                        it.float_size(),
                        it.double_size(),
                    ]);
                }
                black_box(triple.operating_system.is_like_darwin());
                black_box(matches!(triple.architecture, Architecture::Arm(it) if it.is_thumb()));
                black_box(matches!(triple.vendor, Vendor::Custom(_)));
            }

            pub fn pass(what: &str, lines: &[String]) -> Pass {
                let (read, refused, triples) = parsed(lines, |it| it.parse::<Triple>().ok());
                let (what, end) = what.strip_suffix(", refused").map_or((what, ""), |it| (it, "X"));
                let shown = |field: fn(&Triple) -> String| triples.iter().map(|it| field(it) + end).collect::<Vec<_>>();
                let architecture = || shown(|it| it.architecture.to_string());
                // rustc has no target of the last ones
                let architectures = || {
                    let more = ["clever", "clever1.0"].map(|it| it.parse().expect("an architecture"));
                    triples.iter().map(|it| it.architecture).chain(more)
                };
                macro_rules! family {
                    ($family:ident) => {
                        architectures().filter_map(|it| match it {
                            Architecture::$family(it) => Some(it),
                            _ => None,
                        })
                    };
                }
                let models = || triples.iter().filter_map(|it| it.data_model().ok());
                methods! { what, read.len();
                    Architecture of architectures() => endianness pointer_width is_clever;
                    ArmArchitecture of family!(Arm) => endianness pointer_width is_thumb into_str;
                    Aarch64Architecture of family!(Aarch64) => endianness pointer_width is_thumb into_str;
                    X86_32Architecture of family!(X86_32) => into_str;
                    Mips32Architecture of family!(Mips32) => into_str;
                    Mips64Architecture of family!(Mips64) => into_str;
                    Riscv32Architecture of family!(Riscv32) => into_str;
                    Riscv64Architecture of family!(Riscv64) => into_str;
                    CleverArchitecture of family!(Clever) => into_str;
                    CustomVendor of triples.iter().filter_map(|it| match &it.vendor {
                        Vendor::Custom(it) => Some(it.clone()),
                        _ => None,
                    }) => as_str;
                    PointerWidth of triples.iter().filter_map(|it| it.pointer_width().ok()) => bits bytes;
                    CDataModel of models() => pointer_width short_size int_size long_size long_long_size float_size
                        double_size;
                    Size of models().map(|it| it.long_size()) => bits bytes;
                }
                parses! { what;
                    "architecture" of architecture() => Architecture;
                    "vendor" of shown(|it| it.vendor.to_string()) => Vendor;
                    "operating_system" of shown(|it| it.operating_system.to_string()) => OperatingSystem;
                    "environment" of shown(|it| it.environment.to_string()) => Environment;
                    "binary_format" of shown(|it| it.binary_format.to_string()) => BinaryFormat;
                    "ArmArchitecture" of architecture() => ArmArchitecture;
                    "Aarch64Architecture" of architecture() => Aarch64Architecture;
                    "X86_32Architecture" of architecture() => X86_32Architecture;
                    "Mips32Architecture" of architecture() => Mips32Architecture;
                    "Mips64Architecture" of architecture() => Mips64Architecture;
                    "Riscv32Architecture" of architecture() => Riscv32Architecture;
                    "Riscv64Architecture" of architecture() => Riscv64Architecture;
                    "CleverArchitecture" of architecture() => CleverArchitecture;
                }
                match what {
                    "Triple::unknown" => each(read, |_| drop(black_box(Triple::unknown()))),
                    "Triple::host" => each(read, |_| drop(black_box(Triple::host()))),
                    "ParseError::to_string" => each(
                        refused.iter().filter_map(|it| it.parse::<Triple>().err()).collect(),
                        |it| drop(black_box(it.to_string())),
                    ),
                    "Architecture::fmt" => each(architectures().collect(), |it| print(it)),
                    "Vendor::fmt" => each(triples, |it| print(&it.vendor)),
                    "OperatingSystem::fmt" => each(triples, |it| print(it.operating_system)),
                    "Environment::fmt" => each(triples, |it| print(it.environment)),
                    "BinaryFormat::fmt" => each(triples, |it| print(it.binary_format)),
                    "none" => each(read, |_| ()),
                    "parse" if end.is_empty() => each(read, |it| drop(black_box(it.parse::<Triple>()))),
                    "parse" => each(
                        read.into_iter().map(|it| it + "x").filter(|it| it.parse::<Triple>().is_err()).collect(),
                        |it| drop(black_box(it.parse::<Triple>())),
                    ),
                    "parse, all targets" => each([read, refused].concat(), |it| drop(black_box(it.parse::<Triple>()))),
                    "to_string" => each(triples, |it| drop(black_box(it.to_string()))),
                    "print" => each(triples, |it| print(it)),
                    "clone" => each(triples, |it| drop(black_box(it.clone()))),
                    "==" => each(triples.windows(2).map(|it| (it[0].clone(), it[1].clone())).collect(), |(it, next)| {
                        black_box(it == next);
                        black_box(it == black_box(it));
                    }),
                    "hash" => each(triples, |it| {
                        let mut hasher = DefaultHasher::new();
                        it.hash(&mut hasher);
                        black_box(hasher.finish());
                    }),
                    "endianness" => each(triples, |it| drop(black_box(it.endianness()))),
                    "pointer_width" => each(triples, |it| drop(black_box(it.pointer_width()))),
                    "default_calling_convention" => {
                        each(triples, |it| drop(black_box(it.default_calling_convention())))
                    }
                    "data_model" => each(triples, |it| drop(black_box(it.data_model()))),
                    "is_like_darwin" => each(triples, |it| drop(black_box(it.operating_system.is_like_darwin()))),
                    "architecture.into_str" => each(triples, |it| drop(black_box(it.architecture.into_str()))),
                    "vendor.as_str" => each(triples, |it| drop(black_box(it.vendor.as_str()))),
                    "operating_system.into_str" => each(triples, |it| drop(black_box(it.operating_system.into_str()))),
                    "environment.into_str" => each(triples, |it| drop(black_box(it.environment.into_str()))),
                    "binary_format.into_str" => each(triples, |it| drop(black_box(it.binary_format.into_str()))),
                    "lexicon_parse, lexicon_print" => each(read, |it| print(it.parse::<Triple>().expect("a triple"))),
                    "lexicon_parse, lexicon_facts" => each(read, |it| ask(&it.parse().expect("a triple"))),
                    "lexicon_facts" => each(triples, ask),
                    "lexicon_parse" => each(refused, |it| drop(black_box(it.parse::<Triple>()))),
                    _ => panic!("no call {what}"),
                }
            }
        }
    };
}

calls! { ours }
calls! { upstream }

/// The library for C, called as C programs do.
mod c {
    use super::{black_box, each, parsed, Pass};

    /// struct lexicon_triple and lexicon_error, of which this program reads nothing, and how many bytes the first group
    /// of facts has, and all.
    type Triple = [usize; 4];
    type Error = [usize; 4];
    const QUERIES: usize = 13;
    const ALL: usize = 28;

    #[rustfmt::skip]
    unsafe extern "C" {
        fn lexicon_parse(text: *const u8, size: usize, triple: *mut Triple, error: *mut Error) -> u32;
        fn lexicon_print(triple: *const Triple, out: *mut u8, out_size: usize, length: *mut usize) -> u32;
        fn lexicon_facts(triple: *const Triple, facts: *mut u8, size: usize) -> u32;
    }

    // SAFETY, of each call below: pointers and sizes are those of slices and values here, and a triple's line outlives
    // it.

    fn parse(line: &str) -> Result<Triple, Error> {
        let (mut triple, mut error) = (Triple::default(), Error::default());
        match unsafe { lexicon_parse(line.as_ptr(), line.len(), &mut triple, &mut error) } {
            0 => Ok(triple),
            _ => Err(error),
        }
    }

    fn print(triple: &Triple) {
        let (mut out, mut length) = ([0; 256], 0);
        unsafe { lexicon_print(triple, out.as_mut_ptr(), out.len(), &mut length) };
        black_box((&out, length));
    }

    fn ask(triple: &Triple, size: usize) {
        let mut facts = [0; ALL];
        unsafe { lexicon_facts(triple, facts.as_mut_ptr(), size) };
        black_box(&facts);
    }

    pub fn pass(what: &str, lines: &[String]) -> Pass {
        let (read, refused, triples) = parsed(lines, |it| parse(it).ok());
        match what {
            "none" => each(read, |_| ()),
            "lexicon_parse, lexicon_print" => each(read, |it| print(&parse(it).expect("a triple"))),
            "lexicon_parse, lexicon_facts" => each(read, |it| ask(&parse(it).expect("a triple"), QUERIES)),
            "lexicon_facts" => each(triples, |it| ask(it, QUERIES)),
            "lexicon_facts, all groups" => each(triples, |it| ask(it, ALL)),
            "lexicon_parse" => each(refused, |it| drop(black_box(parse(it)))),
            _ => panic!("no call {what}"),
        }
    }
}

/// The nanoseconds of a call of each pass, without what the last one takes.
fn times(passes: [Pass; 3]) -> [f64; 2] {
    let seconds = |(_, pass): &Pass, repeats: u32| {
        let begun = Instant::now();
        (0..repeats).for_each(|_| pass());
        begun.elapsed().as_secs_f64() / f64::from(repeats)
    };
    let repeats = passes.each_ref().map(|it| (2e-5 / seconds(it, 9)).ceil() as u32);
    let mut found = [const { Vec::new() }; 3];
    for round in 0..1000 {
        for i in 0..3 {
            let which = (round + i) % 3;
            found[which].push(seconds(&passes[which], repeats[which]) * 1e9 / passes[which].0 as f64);
        }
    }
    let [its, upstreams, nothing] = found.map(|mut it| {
        it.sort_by(f64::total_cmp);
        it[it.len() / 2]
    });
    [its - nothing, upstreams - nothing]
}

fn main() {
    let words: Vec<String> = std::env::args().collect();
    let lines: Vec<String> = std::io::stdin().lines().map(|it| it.expect("a line")).collect();
    let pass = |who: &str, what: &str| match who {
        "ours" => ours::pass(what, &lines),
        "upstream" => upstream::pass(what, &lines),
        _ => c::pass(what, &lines),
    };
    if words[1] == "times" {
        let [its, upstreams] = times([pass(&words[2], &words[3]), pass("upstream", &words[3]), pass("ours", "none")]);
        println!("{its:.2} {upstreams:.2}");
    } else {
        let (count, call) = pass(&words[1], &words[2]);
        (0..200).for_each(|_| call());
        println!("{}", 200 * count);
    }
}
