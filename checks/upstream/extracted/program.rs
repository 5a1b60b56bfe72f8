//! What a crate with upstream's calls answers to each line of the input, as main.ml writes what the definitions say.
//! With the feature `port` it is this repository's, and its other calls answer too.
use std::fmt::{self, Debug, Display, Write as _};
use std::hash::{Hash, Hasher};
use std::io::{self, BufRead, Write as _};
use std::panic::{catch_unwind, set_hook};
use std::str::FromStr;
use target_lexicon::*;
#[cfg(feature = "port")]
use target_lexicon::{Named, OperatingSystemExt as _, TripleExt as _, TripleRef, VendorRef};

/// The vendors with which all triples are printed: each of the last two with a system implies an environment.
const VENDORS: [Vendor; 4] = [Vendor::Unknown, Vendor::Pc, Vendor::Nintendo, Vendor::Espressif];

/// A writer with so much room.
struct Room(usize);
impl fmt::Write for Room {
    fn write_str(&mut self, text: &str) -> fmt::Result {
        self.0 = self.0.checked_sub(text.len()).ok_or(fmt::Error)?;
        Ok(())
    }
}
/// That it is written whole if there is room, and fails at some of the other places.
fn fails_as_its_writer(it: &dyn Display, length: usize, places: usize) -> bool {
    (0..length).step_by(length / places + 1).all(|room| write!(Room(room), "{it}").is_err())
        && write!(Room(length), "{it}").is_ok()
}

fn opt<T, E>(it: Result<T, E>, show: impl Fn(T) -> String) -> String {
    it.map_or("-".into(), show)
}
fn debug<T: Debug>(it: T) -> String {
    format!("{it:?}")
}
fn yes(it: bool) -> &'static str {
    if it { "yes" } else { "no" }
}
/// What is said where two calls must say the same.
fn both<T: PartialEq + Debug>(one: T, other: T) -> T {
    assert_eq!(one, other, "two calls differ");
    one
}

/// An answer, whose name must be as it is shown.
#[cfg(feature = "port")]
fn answer<T: Debug + Display + Copy + Named>(it: T) -> String {
    assert_eq!(shown(&it), it.name());
    debug(it)
}
#[cfg(not(feature = "port"))]
fn answer<T: Debug>(it: T) -> String {
    debug(it)
}
fn vendor(it: &Vendor) -> String {
    if let Vendor::Custom(name) = it { format!("Custom({:?})", name.as_str()) } else { debug(it) }
}
fn fields(it: &Triple) -> String {
    let Triple { architecture, vendor: of, operating_system, environment, binary_format } = it;
    format!("{architecture:?}\t{}\t{operating_system:?}\t{environment:?}\t{binary_format:?}", vendor(of))
}
fn queries(it: &Triple) -> [String; 4] {
    let (order, width) = (opt(it.endianness(), answer), opt(it.pointer_width(), answer));
    [order, width, opt(it.default_calling_convention(), answer), opt(it.data_model(), answer)]
}

/// A name as it is shown, with or without a width.
fn shown(it: &dyn Display) -> String {
    let text = it.to_string();
    let in_ways = format!("{it:>19}|{it:<18}|{it:^17}|{it:.3}|{it:*^9.2}|{it:05}");
    assert_eq!(in_ways, vec![&*text; 6].join("|"));
    assert!(fails_as_its_writer(it, text.len(), 200));
    text
}

fn of_triple(it: &Triple) -> String {
    let text = it.to_string();
    assert!(fails_as_its_writer(it, text.len(), 9));
    let line = format!("{text}\t{}", queries(it).join("\t"));
    #[cfg(feature = "port")]
    return line + &only_ours(it, &text);
    #[cfg(not(feature = "port"))]
    line
}

#[cfg(feature = "port")]
fn only_ours(it: &Triple, text: &str) -> String {
    let t = it.as_triple_ref();
    let mut buffer = vec![7; text.len() + 9];
    let written = t.write_to(&mut buffer).min(buffer.len());
    assert_eq!((&*t.to_string(), &buffer[..written]), (text, text.as_bytes()));
    assert!(t == *it && TripleRef::from(it) == t);
    let (order, width) = (opt(t.endianness(), answer), opt(t.pointer_width(), answer));
    both([order, width, opt(t.default_calling_convention(), answer), opt(t.data_model(), answer)], queries(it));
    let exception = both(t.round_trip_exception(), it.round_trip_exception());
    both((t.comes_back(), it.comes_back()), (exception.is_none(), exception.is_none()));
    let settled = both(it.clone().settle().ok(), t.settle().ok().map(|it| it.to_triple()));
    assert!(settled.iter().all(|other| it.settles_as(other) && t.settles_as(other.as_triple_ref())));
    let (format, is_plain) = (both(t.default_binary_format(), default_binary_format(it)), yes(t.vendor.is_plain()));
    let upstreams = both(t.upstream().to_string(), it.upstream().to_string());
    let (exception, settled) = (opt(exception.ok_or(()), debug), opt(settled.ok_or(()), |it| fields(&it)));
    format!("\t{upstreams}\t{exception}\t{format:?}\t{is_plain}\t{settled}\t{}", fields(&t.step().to_triple()))
}

/// Prints and parses the triple until that changes nothing.
fn canonical(it: Triple) -> Triple {
    let next = it.to_string().parse().expect("a printed string parses");
    if next == it { it } else { canonical(next) }
}

fn of_string(text: &str) -> String {
    let parsed = text.parse::<Triple>();
    #[cfg(feature = "port")]
    {
        let (borrowed, owned) = (TripleRef::from_str(text), Triple::parse(text));
        assert_eq!(borrowed.map(|it| it.to_triple()).map_err(|it| it.to_error()), parsed);
        assert_eq!((owned.map_err(|it| it.to_error()), TripleRef::explain(text).triple), (parsed.clone(), borrowed));
        if let Err(it) = borrowed {
            let part = &text[it.part.start..it.part.start + it.part.text.len()];
            assert_eq!((it.to_string(), part), (it.to_error().to_string(), it.part.text));
        }
    }
    match parsed {
        Ok(it) => format!("{}\t{}\t{}", fields(&it), of_triple(&it), canonical(it.clone())),
        Err(error) => format!("{}\t{error}", debug(&error).split('(').next().unwrap_or_default()),
    }
}

/// Upstream's types have no order.
#[cfg(not(feature = "port"))]
trait Ordered {}
#[cfg(not(feature = "port"))]
impl<T> Ordered for T {}
#[cfg(feature = "port")]
use Ord as Ordered;
#[cfg(feature = "port")]
const OTHERS: &str = "arm thumbv7m aarch64 aarch64_be i386 i686 mips mipsel mips64 mips64el riscv32i riscv32imc \
    riscv64 riscv64gc clever clever1.0 gnu musl elf coff";

/// The name of a value that a word is; values are ordered by their names.
fn name<T: FromStr + Display + Copy + Ordered>(word: &str, name: impl Fn(T) -> String) -> String {
    opt(word.parse::<T>(), |it| {
        #[cfg(feature = "port")]
        for other in OTHERS.split(' ').filter_map(|it| it.parse::<T>().ok()) {
            assert_eq!(it.cmp(&other), it.to_string().cmp(&other.to_string()));
        }
        both(shown(&it), name(it))
    })
}

fn of_architecture(it: Architecture) -> String {
    let (thumb, aarch64) = match it {
        Architecture::Arm(arm) => (yes(arm.is_thumb()).to_string() + &debug(arm.endianness()), "-".into()),
        Architecture::Aarch64(arm) => ("-".into(), debug(arm.endianness())),
        _ => ("-".into(), "-".into()),
    };
    let width = opt(it.pointer_width(), |it| format!("{}\t{}", it.bits(), it.bytes()));
    let (name, order) = (both(shown(&it), it.into_str().to_string()), opt(it.endianness(), debug));
    format!("{name}\t{order}\t{width}\t{}\t{thumb}\t{aarch64}", yes(it.is_clever()))
}

fn of_word(word: &str) -> String {
    let architecture = word.parse::<Architecture>();
    let (of, system) = (word.parse::<Vendor>(), word.parse::<OperatingSystem>());
    let format = opt(word.parse::<BinaryFormat>(), debug);
    let values = [opt(architecture, debug), opt(of.clone(), |it| vendor(&it)), opt(system, debug)];
    let system = |it: OperatingSystem| both(shown(&it), it.into_str().to_string()) + yes(it.is_like_darwin());
    let named = [
        opt(architecture, of_architecture),
        opt(of.clone(), |it| both(shown(&it), it.as_str().to_string())),
        opt(word.parse(), system),
        name(word, |it: Environment| it.into_str().into()),
        name(word, |it: BinaryFormat| it.into_str().into()),
        // written by tools/names/write: families of words
        name(word, |it: ArmArchitecture| it.into_str().into()),
        name(word, |it: Aarch64Architecture| it.into_str().into()),
        name(word, |it: X86_32Architecture| it.into_str().into()),
        name(word, |it: Mips32Architecture| it.into_str().into()),
        name(word, |it: Mips64Architecture| it.into_str().into()),
        name(word, |it: Riscv32Architecture| it.into_str().into()),
        name(word, |it: Riscv64Architecture| it.into_str().into()),
        name(word, |it: CleverArchitecture| it.into_str().into()),
        // end of what is written
        #[cfg(feature = "port")]
        opt(word.parse::<DeploymentTarget>(), |it| it.to_string()),
    ];
    #[cfg(feature = "port")]
    assert_eq!(VendorRef::from_str(word).ok().map(|it| it.to_vendor()), of.ok());
    format!("{}\t{}\t{format}\t{}", values.join("\t"), opt(word.parse::<Environment>(), debug), named.join("\t"))
}

/// The triple of five names.
fn named(names: &[&str]) -> Triple {
    let custom = |it: &str| Vendor::Custom(CustomVendor::Owned(Box::new(it.into())));
    Triple {
        architecture: names[0].parse().unwrap(),
        vendor: names[1].strip_prefix('=').map_or_else(|| names[1].parse().unwrap(), custom),
        operating_system: names[2].parse().unwrap(),
        environment: names[3].parse().unwrap(),
        binary_format: names[4].parse().unwrap(),
    }
}

/// What a value feeds a hasher, with where each piece ends.
#[derive(Default)]
struct Fed(Vec<u8>);
impl Hasher for Fed {
    fn write(&mut self, bytes: &[u8]) {
        self.0.extend(bytes);
        self.0.push(bytes.len() as u8);
    }
    fn finish(&self) -> u64 {
        0
    }
}
fn fed(it: &impl Hash) -> Vec<u8> {
    let mut hasher = Fed::default();
    it.hash(&mut hasher);
    hasher.0
}

/// The version that the system shows.
fn version_of(it: OperatingSystem) -> Option<DeploymentTarget> {
    let text = it.to_string();
    let numbers = text.trim_start_matches(|of: char| !of.is_ascii_digit()).split('.').map(str::parse::<u16>);
    match numbers.collect::<Result<Vec<_>, _>>().as_deref() {
        Ok(&[major, minor, patch]) => Some(DeploymentTarget { major, minor: minor as u8, patch: patch as u8 }),
        _ => None,
    }
}

/// Whether two triples are equal, which their hashes must say too, and the order of their versions. A borrowed triple
/// is as its owned one.
fn of_pair(names: &[&str]) -> String {
    let (t, u) = (named(&names[..5]), named(&names[5..]));
    let (v, w) = (version_of(t.operating_system), version_of(u.operating_system));
    let equal = both(both(t == u, !(t != u)), fed(&t) == fed(&u));
    let line = format!("{}\t{}", yes(equal), both(v.cmp(&w) as i8, v.partial_cmp(&w).map_or(9, |it| it as i8)));
    #[cfg(feature = "port")]
    {
        let (a, b) = (t.as_triple_ref(), u.as_triple_ref());
        let order = t.cmp(&u);
        assert_eq!((fed(&a), a == b, a == u, a.cmp(&b)), (fed(&t), equal, equal, order));
        assert_eq!((t.partial_cmp(&u), a.partial_cmp(&b)), (Some(order), Some(order)));
        return format!("{line}\t{}\t{}", order as i8, yes(both(t.settles_as(&u), a.settles_as(b))));
    }
    #[cfg(not(feature = "port"))]
    line
}

fn of_model(name: &str) -> String {
    let models = [CDataModel::LP32, CDataModel::ILP32, CDataModel::LLP64, CDataModel::LP64, CDataModel::ILP64];
    let it = models.iter().find(|it| debug(it) == name).expect("a model of this name");
    let integers = [it.short_size(), it.int_size(), it.long_size(), it.long_long_size(), it.pointer_width()];
    let sizes = [&integers[..], &[it.float_size(), it.double_size()]].concat();
    sizes.iter().map(|it| format!("{} {}", it.bits(), it.bytes())).collect::<Vec<_>>().join("\t")
}

/// A checksum: FNV-1a, of 32 bits.
struct Checksum(u32);
impl Checksum {
    fn feed(&mut self, text: &str) {
        for byte in text.bytes().chain([b'\n']) {
            self.0 = (self.0 ^ u32::from(byte)).wrapping_mul(0x0100_0193);
        }
    }
}

/// The values of these names.
fn values<T: FromStr>(names: &str) -> Vec<T> {
    names.split(' ').map(|it| it.parse().ok().expect("a name")).collect()
}

fn of_all(words: &[&str]) -> String {
    let mut sum = Checksum(0x811c_9dc5);
    let (environments, formats) = (values::<Environment>(words[2]), values::<BinaryFormat>(words[3]));
    for system in values::<OperatingSystem>(words[1]) {
        for environment in &environments {
            let text = format!("{}-unknown-{system}-{environment}", words[0]);
            let mut it: Triple = text.parse().expect("each name parses");
            sum.feed(&debug(it.binary_format));
            queries(&it).iter().for_each(|answer| sum.feed(answer));
            for vendor in VENDORS {
                it.vendor = vendor;
                for format in &formats {
                    it.binary_format = *format;
                    sum.feed(&it.to_string());
                }
            }
        }
    }
    format!("{:08x}", sum.0)
}

/// The numbers of a value's variants, in the order of their declarations.
#[derive(Default)]
struct Declared(Vec<isize>);
impl Hasher for Declared {
    fn write_isize(&mut self, number: isize) {
        self.0.push(number);
    }
    fn write(&mut self, _: &[u8]) {}
    fn finish(&self) -> u64 {
        0
    }
}

/// Names in the order in which their values are declared.
fn in_order<T: FromStr + Hash>(names: &str) -> String {
    let mut found: Vec<&str> = names.split(' ').collect();
    found.sort_by_key(|name| {
        let mut declared = Declared::default();
        values::<T>(name)[0].hash(&mut declared);
        declared.0
    });
    found.join(" ")
}

fn of_order(field: &str, names: &str) -> String {
    match field {
        "architecture" => in_order::<Architecture>(names),
        "vendor" => in_order::<Vendor>(names),
        "operating_system" => in_order::<OperatingSystem>(names),
        "environment" => in_order::<Environment>(names),
        _ => in_order::<BinaryFormat>(names),
    }
}

fn of_line(line: &str) -> String {
    let (kind, rest) = line.split_once('\t').expect("a tab");
    let words: Vec<&str> = rest.split('\t').collect();
    match kind {
        "word" => of_word(rest),
        "string" => of_string(rest),
        "triple" => of_triple(&named(&words)),
        "pair" => of_pair(&words),
        "model" => of_model(rest),
        "all" => of_all(&words),
        "order" => of_order(words[0], words[1]),
        _ => panic!("a line of no kind"),
    }
}

fn main() -> io::Result<()> {
    let mut out = io::stdout(); // which writes each line, so that the one is known in which a call doesn't return
    set_hook(Box::new(|_| {}));
    for line in io::stdin().lock().lines() {
        let line = line?;
        let answer = catch_unwind(|| of_line(&line)).unwrap_or_else(|why| {
            let why = why.downcast_ref::<String>().map(|it| &**it).or(why.downcast_ref::<&str>().copied());
            format!("panicked: {:?}", why.unwrap_or_default())
        });
        writeln!(out, "{answer}")?;
    }
    Ok(())
}
