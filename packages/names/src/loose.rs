//! Names with what files and commands have around them.
use crate::dialect::Sense;
use crate::hints::LONGEST_PATH;
use crate::name::Buffer;
use crate::shape::{environment_of, library_and_abi};
use crate::table::OF_CONFIG_SUB;
use crate::{Dialect, Evidence, FloatAbi, NameError, Said};
use core::fmt::{self, Write};
use target_lexicon::{Architecture, ArmArchitecture, Environment, OperatingSystem, TripleRef};

impl Dialect {
    /// What a name means, which may have around it what files and commands have. A name that
    /// [`read`](Dialect::read) knows means the same triple. Nothing is allocated.
    ///
    /// | Dialect | What may be around the name |
    /// |---|---|
    /// | Node | the scope of a package, its path and version, and a name before the platform: `@rollup/rollup-linux-x64-gnu`, `esbuild-linux-64` |
    /// | Python | a wheel's file name; the tags before that of the platform; several tags with dots between them that mean the same |
    /// | uname | two lines, more spaces than one, or a dash or `_` instead of the space; any version of Windows after `_NT-`; other words between and after, as `uname -a` prints them |
    /// | OCI | any version of Windows in parentheses |
    /// | Go | `_` or a dash instead of the slash; how GoReleaser's folders go on, such as `linux_amd64_v1`, and its capitals: `Linux_x86_64` |
    /// | GNU | a compiler's or another tool's name, its path, version and model of threads: `aarch64-linux-gnu-gcc-12`; only a dash |
    /// | rustc | the version of glibc that cargo-zigbuild takes: `x86_64-unknown-linux-gnu.2.17`; a channel of rustup: `nightly-wasm32-wasip1` |
    /// | Zig | a range of versions of the system: `x86_64-linux.5.10...6.1-gnu.2.31`; what follows `native` |
    /// | Go, Node, rustc | the file name of an archive: `helm-v3.14.0-linux-amd64.tar.gz` |
    /// | .NET | that of one of its own: `dotnet-sdk-8.0.100-linux-musl-arm.tar.gz` |
    /// | Debian, RPM, pacman | the file name of a package; in Debian `uclibc-` instead of `musl-`, and `libc6:i386` |
    ///
    /// # Errors
    ///
    /// As those of [`read`](Dialect::read), for the name in the string.
    ///
    /// # Examples
    ///
    /// ```
    /// use target_names::Dialect;
    ///
    /// for (dialect, text, triple) in [
    ///     (Dialect::Node, "@esbuild/linux-x64", "x86_64-unknown-linux"),
    ///     (Dialect::Python, "numpy-1.26.4-cp311-cp311-win_amd64.whl", "x86_64-pc-windows"),
    ///     (Dialect::Uname, "Linux\nx86_64\n", "x86_64-unknown-linux"),
    ///     (Dialect::Oci, "windows(10.0.25398.709)/amd64", "x86_64-pc-windows"),
    ///     (Dialect::Debian, "hello_2.10-3_arm64.deb", "aarch64-unknown-linux-gnu"),
    ///     (Dialect::Go, "linux_arm_7", "armv7-unknown-linux"),
    ///     (Dialect::Gnu, "aarch64-linux-gnu-", "aarch64-unknown-linux-gnu"),
    ///     (Dialect::Zig, "aarch64-macos.13.0...14.0", "aarch64-apple-macosx13.0.0"),
    /// ] {
    ///     assert_eq!(dialect.read_loosely(text).unwrap().triple.to_string(), triple);
    /// }
    /// assert_eq!(Dialect::Oci.read_loosely("linux/riscv64/rva22u64").unwrap().level, "rva22u64");
    /// assert_eq!(Dialect::Rpm.read_loosely("foo-1-1.x86_64_v4.rpm").unwrap().level, "v4");
    /// ```
    pub fn read_loosely(self, text: &str) -> Result<Sense<'static>, NameError> {
        let found = self.read_file(text).unwrap_or_else(|| self.sense(text));
        let is_unknown = match found {
            Err(NameError::WithoutTriple(why)) => OF_CONFIG_SUB.contains(&why),
            found => found == Err(NameError::Unknown),
        };
        let within = is_unknown.then(|| self.read_within(text)).flatten();
        within.unwrap_or(found)
    }

    /// What the name within a text means, if the text has the form of one that has a name within.
    fn read_within(self, text: &str) -> Option<Found> {
        match self {
            Dialect::Node => self.read_package(text),
            Dialect::Python => self.read_tags(text),
            Dialect::Uname => self.read_words(text),
            Dialect::Oci => self.read_version_of_windows(text),
            Dialect::Go => self.read_port(text),
            Dialect::Gnu => self.read_compiler(text),
            Dialect::Zig => self.read_versions(text),
            Dialect::Rust => self.read_target(text),
            Dialect::Debian => self.read_uclibc(text).or_else(|| self.read_architecture(text)),
            _ => None,
        }
    }

    /// Of the file of a package or an archive: the longest end before its suffix that is a name. No name has such a suffix.
    fn read_file(self, text: &str) -> Option<Found> {
        let file = match self {
            Dialect::Debian => text.strip_suffix(".deb")?,
            Dialect::Rpm => text.strip_suffix(".rpm")?,
            Dialect::Pacman => text.split_once(".pkg.tar")?.0,
            Dialect::Dotnet if !text.starts_with("dotnet-") && !text.starts_with("aspnetcore-") => return None,
            Dialect::Dotnet | Dialect::Go | Dialect::Node | Dialect::Rust => {
                let mut file = text;
                while let Some(it) = ENDINGS.iter().find_map(|it| file.strip_suffix(it)) {
                    file = it;
                }
                Some(file).filter(|it| it.len() < text.len())?
            }
            _ => return None,
        };
        let (start, found) = self.read_end(file, ['-', '_', '.'])?;
        let is_archive = matches!(self, Dialect::Go | Dialect::Node | Dialect::Rust);
        match found {
            Ok(it) if is_archive => Evidence::of(file).names(&it).then_some(Ok(it)),
            Ok(it) => self.package_of(&file[..start], it).map(Ok),
            Err(_) => Some(found),
        }
    }

    /// Of a package, without its scope and version: the longest end that is a platform, after a dash or whole. Without
    /// a scope the words before it say nothing of a target, and none says another byte order: Node's `ppc64` is
    /// little-endian. Nor is one `armhf`, which is of another version of Arm to each tool.
    fn read_package(self, text: &str) -> Option<Found> {
        let scoped = text.split_once('@').and_then(|it| it.1.split_once('/'));
        let name = scoped.map_or(text, |it| it.1);
        let (name, path) = name.split_at(name.find(['@', '/']).unwrap_or(name.len()));
        let (start, found) = self.read_end(name, ['-'; 3])?;
        let before = Evidence::of(&name[..start]);
        let says_nothing = || start > 0 && before.is_silent();
        let has_order = |it: &Sense<'_>| match Evidence::of(name).machine().one() {
            Some(said) => said.endianness() == it.triple.architecture.endianness(),
            None => true,
        };
        let says_floats = |it: &str| {
            let evidence = Evidence::of(it);
            evidence.machine() != Said::Unsaid && evidence.floats != Said::Unsaid
        };
        let is_package =
            || found.as_ref().map_or(false, has_order) && says_nothing() && !name.split('-').any(says_floats);
        let is_level = path.strip_prefix("/v").map_or(false, |it| it.starts_with(|it: char| it.is_ascii_digit()));
        let is_scoped = scoped.is_some() && !(before.has_machine() && before.system != Said::Unsaid);
        (!is_level && (is_scoped || is_package())).then_some(found)
    }

    /// Where the longest end of a text begins that is a name, after one of these signs or whole, and what it means.
    fn read_end(self, text: &str, signs: [char; 3]) -> Option<(usize, Found)> {
        let places = text.match_indices(signs).map(|(at, _)| at + 1);
        let starts = core::iter::once(0).chain(places);
        let ends = starts.map(|start| (start, &text[start..]));
        let may_be_name = |(_, end): &(usize, &str)| end.len() <= LONGEST_NAME;
        // A machine alone is no reason: the words before it may name a system.
        let is_port = |end: &str| end.contains(['_', '/']);
        let mut found = ends.filter(may_be_name).map(|(start, end)| {
            let found = match self.sense(end) {
                Err(NameError::Unknown) if self == Dialect::Go => self.read_port(end),
                Err(_) if self == Dialect::Go && !is_port(end) => None,
                found => Some(found),
            };
            Some((start, found?))
        });
        found.find_map(|it| it.filter(|it| it.1 != Err(NameError::Unknown)))
    }

    /// A port with `_` or a dash instead of the slash. GoReleaser's folders say after it which machine it is, as
    /// container images do, and what it writes with capitals has container images' other words.
    fn read_port(self, text: &str) -> Option<Found> {
        let (system, machine) = text.split_once(['_', '-'])?;
        let machine = match machine.rsplit_once('_') {
            Some((name, _)) if USUAL_MACHINES.split(' ').any(|it| it == machine) => name,
            _ => machine,
        };
        // The `armhf` of container images is Armv7, and that of others isn't. No machine has a longer name than a path.
        if machine.len() > LONGEST_PATH || Evidence::of(machine).floats != Said::Unsaid {
            return None;
        }
        let version = machine.strip_prefix("armv").map(|it| it.strip_suffix('l').unwrap_or(it));
        if let Some(version @ ("5" | "6" | "7")) = version {
            return Dialect::Oci.read_written(format_args!("{system}/arm/v{version}"));
        }
        let has_capital = system.starts_with(|it: char| it.is_ascii_uppercase());
        // Of container images `arm` is Armv7, and of Go it isn't.
        if has_capital && machine.eq_ignore_ascii_case("arm") {
            let lower = Text::of_lower(&[system])?;
            return self.read_written(format_args!("{}/arm", lower.as_str()));
        }
        let dialect = if has_capital { Dialect::Oci } else { self };
        let found = dialect.read_written(format_args!("{system}/{machine}"))?;
        match (found, machine.split_once(['_', '-'])) {
            (Err(NameError::Unknown), Some((machine, variant))) => {
                Dialect::Oci.read_written(format_args!("{system}/{machine}/{variant}"))
            }
            (found, _) => Some(found),
        }
    }

    /// The architecture after the name of a package and a colon.
    fn read_architecture(self, text: &str) -> Option<Found> {
        let (package, architecture) = text.split_once(':')?;
        let is_name = |it: u8| matches!(it, b'a'..=b'z' | b'0'..=b'9' | b'+' | b'-' | b'.');
        let is_package = package.len() > 1 && package.bytes().all(is_name);
        let is_system = Evidence::of(package).system != Said::Unsaid;
        (is_package && !is_system).then(|| self.sense(architecture))
    }

    /// The prefix of a cross compiler, before the name of one of its tools or nothing.
    fn read_compiler(self, text: &str) -> Option<Found> {
        let file = text.rsplit(['/', '\\']).next()?;
        let file = file.strip_suffix(".exe").unwrap_or(file);
        let models = ["-posix", "-win32"].iter();
        let file = models.fold(file, |file, model| file.strip_suffix(model).unwrap_or(file));
        let file = match file.rsplit_once('-') {
            Some((file, version)) if is_version(version) => file,
            _ => file,
        };
        let before = |tool: &str| file.strip_suffix(tool)?.strip_suffix('-');
        let prefix = before("").or_else(|| TOOLS.split(' ').find_map(before))?;
        prefix.contains('-').then(|| self.sense(prefix))
    }

    /// A target of rustc with the version of glibc, as cargo-zigbuild takes it, or after rustup's channel and its day.
    fn read_target(self, text: &str) -> Option<Found> {
        if let Some(rest) = ["stable-", "beta-", "nightly-"].iter().find_map(|it| text.strip_prefix(it)) {
            return Some(self.sense(rest.trim_start_matches(|it: char| it.is_ascii_digit() || it == '-')));
        }
        let (target, minor) = text.rsplit_once(".2.")?;
        let (_, environment) = target.rsplit_once('-')?;
        let has_glibc = environment.starts_with("gnu") && is_version(minor);
        has_glibc.then(|| self.sense(target))
    }

    /// A target whose system has versions, without those after the least, or without any; or the machine that asks.
    fn read_versions(self, text: &str) -> Option<Found> {
        let (machine, rest) = text.split_once('-')?;
        if machine == "native" {
            return Some(self.sense(machine));
        }
        let (system, library) = rest.split_at(rest.find('-').unwrap_or(rest.len()));
        let (system, versions) = system.split_once('.')?;
        let (least, most) = versions.split_once("...").unwrap_or((versions, versions));
        let is_bound = |it: &str| it.starts_with("win") || is_version(it);
        if !is_bound(least) || !is_bound(most) {
            return None;
        }
        match self.read_written(format_args!("{machine}-{system}.{least}{library}"))? {
            Err(NameError::Unknown) => self.read_written(format_args!("{machine}-{system}{library}")),
            found => Some(found),
        }
    }

    /// Of a wheel, or of its tags, the last: all platforms in it mean the same, or one means no triple.
    fn read_tags(self, text: &str) -> Option<Found> {
        let platforms = last_tag(text);
        let found = || platforms.split('.').map(|platform| self.sense(platform));
        let first = found().find(Result::is_err).or_else(|| found().next())?;
        let is_one = first.is_err() || found().all(|it| it == first);
        is_one.then_some(first)
    }

    /// The words of `uname -s` and `uname -m`, with one space between them, and any version of Windows as Windows 10. Of
    /// more words the machine is the first of the last ones that are machines, of which `uname -a` prints three: where
    /// the last one is `illumos` or `Android`, it is the system.
    fn read_words(self, text: &str) -> Option<Found> {
        let is_space = |it: char| it.is_whitespace() || it == ',';
        let text = text.trim_matches(is_space);
        let (system, machine) =
            text.split_once(is_space).or_else(|| text.rsplit_once('-')).or_else(|| text.split_once('_'))?;
        let words = || machine.split(is_space).filter(|it| !it.is_empty());
        match self.read_system_and_machine(system, words()) {
            None | Some(Err(NameError::Unknown)) => {
                let last = words().next_back();
                let system = last.filter(|it| *it == "illumos").unwrap_or(system);
                let read = |it: &str| self.read_system_and_machine(system, core::iter::once(it));
                let known = |it: &str| read(it).filter(|it| *it != Err(NameError::Unknown));
                let machines = words().rev().skip_while(|it| AFTER_MACHINES.contains(it)).map_while(known);
                let found = machines.last()?;
                Some(found.map(|it| {
                    let environment = match it.triple.architecture {
                        Architecture::Arm(_) => Environment::Androideabi,
                        _ => Environment::Android,
                    };
                    let is_android = last == Some("Android") && it.triple.operating_system == OperatingSystem::Linux;
                    let android = TripleRef { environment, ..it.triple };
                    Sense { triple: if is_android { android } else { it.triple }, ..it }
                }))
            }
            found => found,
        }
    }

    fn read_system_and_machine<'w>(self, system: &str, mut machine: impl Iterator<Item = &'w str>) -> Option<Found> {
        let mut name = Text::new();
        match system.split_once("_NT-") {
            Some((kind, _)) => write!(name, "{kind}_NT-10.0").ok()?,
            None => name.write_str(system).ok()?,
        }
        machine.try_for_each(|word| write!(name, " {word}")).ok()?;
        Some(self.sense(name.as_str()))
    }

    /// A platform of Windows without the version in parentheses.
    fn read_version_of_windows(self, text: &str) -> Option<Found> {
        let (system, rest) = text.split_once('(')?;
        let (version, machine) = rest.split_once(')')?;
        if !system.eq_ignore_ascii_case("windows") || !is_version(version) {
            return None;
        }
        self.read_written(format_args!("windows{machine}"))
    }

    /// What a name means that is put together.
    fn read_written(self, name: fmt::Arguments<'_>) -> Option<Found> {
        let mut text = Text::new();
        text.write_fmt(name).ok()?;
        Some(self.sense(text.as_str()))
    }

    /// What the same name with musl means, with uClibc.
    fn read_uclibc(self, text: &str) -> Option<Found> {
        let found = self.read_written(format_args!("musl-{}", text.strip_prefix("uclibc-")?))?;
        Some(found.map(|it| {
            let abi = library_and_abi(it.triple.environment).1;
            let environment = environment_of("uclibc", abi).unwrap_or(Environment::Uclibc);
            let triple = TripleRef { environment, ..it.triple };
            Sense { triple, ..it }
        }))
    }

    /// What a package is for whose file has this before its architecture: of the machine's level if words say one, as in
    /// openSUSE's `libz1-x86-64-v3`. A system or a distribution in its name says nothing, as in `netcat-openbsd`. `None` if
    /// its name says another C library, or its version a system or that. Raspbian's Arm is older than Debian's, and Termux
    /// has the name of Debian's oldest.
    fn package_of(self, before: &str, sense: Sense<'static>) -> Option<Sense<'static>> {
        let dashes = || before.rmatch_indices('-').nth(1).map(|it| it.0);
        let end = if self == Dialect::Debian { before.find('_') } else { dashes() };
        let (name, version) = before.split_at(end.unwrap_or(0));
        let (evidence, triple) = (Evidence::of(before), &sense.triple);
        let (name, version) = (Evidence::of(name), Evidence::of(version));
        let is_arm = matches!(triple.architecture, Architecture::Arm(_));
        let is_v7 = triple.architecture == Architecture::Arm(ArmArchitecture::Armv7);
        let armv6 = Architecture::Arm(ArmArchitecture::Armv6);
        let is_of_raspbian = |word: &str| {
            let word = word.trim_end_matches(|it: char| it.is_ascii_digit());
            ["raspbian", "rpi", "rpt"].contains(&word)
        };
        let mut words = before.split(|it: char| !it.is_ascii_alphanumeric());
        let may_be = version.allows_system(triple)
            && version.allows_library(triple)
            && version.allows_form(triple)
            && (name.system != Said::Unsaid || name.allows_library(triple))
            && !(is_arm && FloatAbi::of(triple).is_none())
            && !(is_v7 && (words.any(is_of_raspbian) || evidence.machine() == Said::One(armv6)));
        let level = if sense.level.is_empty() { evidence.level_of(triple.architecture) } else { sense.level };
        may_be.then_some(Sense { level, ..sense })
    }
}

/// What a name within a text means.
type Found = Result<Sense<'static>, NameError>;

/// No name that ends a file's or a package's name is longer, in bytes.
const LONGEST_NAME: usize = 40;

/// What ends the names of archives and programs, and of what is compressed, signed or summed.
const ENDINGS: [&str; 14] = [
    ".tar", ".gz", ".xz", ".zst", ".bz2", ".tgz", ".zip", ".7z", ".exe", ".sha256", ".sha512", ".asc", ".sig",
    ".minisig",
];

/// What the folders of GoReleaser say of the machines that Go takes if nothing else is said.
const USUAL_MACHINES: &str = "amd64_v1 arm64_v8.0 386_sse2 mips_hardfloat mipsle_hardfloat \
    mips64_hardfloat mips64le_hardfloat ppc64le_power8 riscv64_rva20u64";

/// The tools after the prefix of a cross compiler, of which the first that fits is it.
const TOOLS: &str = "gcc-ar gcc-nm gcc-ranlib gcov-dump gcov-tool lto-dump gcc g++ cc c++ cpp clang \
    clang++ gfortran ld as ar nm ranlib strip objcopy objdump readelf size strings addr2line c++filt \
    elfedit dwp gprof gdb ld.bfd ld.gold ld.lld gcov gccgo gdc gnatmake gm2 windres windmc dlltool \
    dllwrap pkg-config pkgconf cmake qmake";

/// What `uname` prints after the machine.
const AFTER_MACHINES: [&str; 10] =
    ["GNU/Linux", "Linux", "GNU", "Haiku", "illumos", "Android", "Toybox", "Msys", "Cygwin", "unknown"];

/// Whether a text is numbers with dots between them.
fn is_version(text: &str) -> bool {
    let is_number = |it: &str| !it.is_empty() && it.bytes().all(|it| it.is_ascii_digit());
    text.split('.').all(is_number)
}

/// The platforms of a wheel's file, or of its tags: the last tag.
pub(crate) fn last_tag(text: &str) -> &str {
    let tags = match text.strip_suffix(".whl") {
        Some(file) => file,
        None if is_python(text) => text,
        None => return text,
    };
    tags.rsplit_once('-').map_or(tags, |it| it.1)
}

/// Whether a text begins with the tag of a version of Python, such as `cp311` or `py3`.
fn is_python(text: &str) -> bool {
    let mut words = ["cp", "py", "pp"].iter();
    let version = words.find_map(|word| text.strip_prefix(word));
    version.map_or(false, |it| it.starts_with(|c: char| c.is_ascii_digit()))
}

/// A name that is put together. No row is longer.
type Text = Buffer<32>;
