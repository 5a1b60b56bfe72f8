//! From a name in one dialect to the name in another, and why there is none.
//!
//! This is the composition of reading, completing and writing, and the reason where a triple has no name; and versions that
//! names state and triples don't have: each is of a C library or a system.
use crate::dialect::{has_version, is_written, Row, Sense, Way};
use crate::shape::{is_another_target, library_and_abi, version};
use crate::table::WRITE_REASONS;
use crate::{CLibrary, ChosenLibc, Dialect, Name, NameError, TargetInfo, WriteError};
use core::fmt;
use target_lexicon::{
    Architecture, ArmArchitecture, Environment, OperatingSystem, Riscv64Architecture, TripleRef, X86_32Architecture,
};

impl WriteError {
    /// The reason, and what would help, as the start of a sentence in lower case.
    ///
    /// ```
    /// use target_lexicon::TripleRef;
    /// use target_names::{Dialect, WriteError};
    ///
    /// let triple = TripleRef::from_str("x86_64-unknown-linux").unwrap();
    /// let error = Dialect::Debian.write_with(&triple, None).unwrap_err();
    /// assert_eq!(error, WriteError::NeedsCLibrary);
    /// assert_eq!(error.reason(), "it depends on the C library: say glibc or musl");
    /// assert_eq!(error.to_string(), "It depends on the C library: say glibc or musl");
    /// ```
    pub fn reason(self) -> &'static str {
        WRITE_REASONS[self as usize]
    }
}

impl fmt::Display for WriteError {
    fn fmt(&self, f: &mut fmt::Formatter<'_>) -> fmt::Result {
        let mut letters = self.reason().chars();
        let first = letters.next().map_or(' ', |it| it.to_ascii_uppercase());
        write!(f, "{first}{}", letters.as_str())
    }
}

/// Why a name isn't translated: which step fails, and why.
#[derive(Clone, Copy, Debug, PartialEq, Eq, Hash)]
pub enum TranslateError {
    /// The name isn't read.
    Read(NameError),
    /// What the name means isn't written in the other dialect.
    Write(WriteError),
}

impl fmt::Display for TranslateError {
    fn fmt(&self, f: &mut fmt::Formatter<'_>) -> fmt::Result {
        match self {
            TranslateError::Read(error) => error.fmt(f),
            TranslateError::Write(error) => error.fmt(f),
        }
    }
}

impl Dialect {
    /// The name in this dialect of a triple, or of what a name means, with a C library if one is said: that of the
    /// triple [`with_c_library`](TargetInfo::with_c_library) returns. Nothing is allocated.
    ///
    /// # Errors
    ///
    /// There is no name, and why: names that the tool has for the triple may be for machines of a lower level.
    ///
    /// # Examples
    ///
    /// ```
    /// use target_lexicon::TripleRef;
    /// use target_names::{ChosenLibc, Dialect};
    ///
    /// let triple = TripleRef::from_str("aarch64-unknown-linux").unwrap();
    /// let name = Dialect::Node.write_with(&triple, Some(ChosenLibc::Musl)).unwrap();
    /// assert_eq!(name.as_str(), "linux-arm64-musl");
    /// let v3 = Dialect::Oci.read_loosely("linux/amd64/v3").unwrap();
    /// assert_eq!(Dialect::Debian.write_with(v3, Some(ChosenLibc::Glibc)).unwrap().as_str(), "amd64v3");
    /// assert!(Dialect::Rust.write_with(v3, Some(ChosenLibc::Glibc)).is_err());
    /// ```
    pub fn write_with<'t>(
        self,
        meant: impl Into<Sense<'t>>,
        c_library: Option<ChosenLibc>,
    ) -> Result<Name, WriteError> {
        let meant = completed(meant.into(), c_library);
        let triple = meant.triple;
        let is_of_linux = matches!(c_library, Some(ChosenLibc::Glibc | ChosenLibc::Musl));
        match self.name_at(meant) {
            Some(_) if is_of_linux && self.would_state_c_library(&triple) => Err(WriteError::NeedsArmVersion),
            Some(name) => Ok(name),
            None if self.write(triple).is_some() => Err(WriteError::Baseline),
            None => Err(self.why_unnamed(&triple)),
        }
    }

    /// Whether names would state the C library of an Arm on Linux, which gets none without a version.
    fn would_state_c_library(self, triple: &TripleRef<'_>) -> bool {
        let completed = TripleRef { environment: Environment::Gnu, ..*triple };
        triple.architecture == ARM
            && triple.operating_system == OperatingSystem::Linux
            && triple.environment == Environment::Unknown
            && self.shape(&completed) != self.shape(triple)
    }

    /// The same, with a version that triples don't have: `manylinux_2_17_x86_64` of glibc 2.17, `musllinux_1_2_aarch64`
    /// of musl 1.2, `macosx_11_0_arm64` of macOS 11.0, also for `darwin`, or `android_21_x86_64` of Android's API level
    /// 21. Where no C library is said, the version of glibc or of musl says it, if there isn't one of both. Where no
    /// name of the triple states a version, or none of its system and C library is said, it is the name without:
    /// `win_amd64` of Python.
    ///
    /// # Errors
    ///
    /// The triple has no name with this version, and why: no name states such a one, or it isn't said which of two
    /// C libraries it is of.
    ///
    /// # Examples
    ///
    /// ```
    /// use target_lexicon::TripleRef;
    /// use target_names::{Dialect, VersionOf, Versions, WriteError};
    ///
    /// let versions = Versions::none().with(VersionOf::Glibc, 2, 17).with(VersionOf::MacOs, 11, 0);
    /// let tag = |text| {
    ///     let triple = TripleRef::from_str(text).unwrap();
    ///     Dialect::Python.write_with_versions(&triple, None, &versions).map(|it| it.to_string())
    /// };
    /// assert_eq!(tag("aarch64-apple-darwin").unwrap(), "macosx_11_0_arm64");
    /// assert_eq!(tag("aarch64-unknown-linux").unwrap(), "manylinux_2_17_aarch64");
    /// assert_eq!(tag("x86_64-pc-windows-msvc").unwrap(), "win_amd64");
    /// assert_eq!(tag("x86_64-unknown-freebsd"), Err(WriteError::NeedsVersion));
    /// ```
    pub fn write_with_versions<'t>(
        self,
        meant: impl Into<Sense<'t>>,
        c_library: Option<ChosenLibc>,
        versions: &Versions,
    ) -> Result<Name, WriteError> {
        let said = versions.c_library();
        let meant = completed(completed(meant.into(), c_library), said);
        let version = versions.of(meant.triple);
        if let Some(name) = version.and_then(|it| self.name_of(meant, Some(it))) {
            return Ok(name);
        }
        // Versions of two C libraries, and which of them isn't said.
        let libraries = [ChosenLibc::Glibc, ChosenLibc::Musl].map(|it| completed(meant, Some(it)));
        let would_state = |it: &Sense<'_>| versions.of(it.triple).is_some() && self.states_version(*it);
        if version.is_none() && libraries.iter().any(would_state) {
            return Err(WriteError::NeedsCLibrary);
        }
        if version.is_some() && self.states_version(meant) {
            return Err(WriteError::OtherVersion);
        }
        self.write_with(meant, said.or(c_library))
    }

    /// The name in another dialect of what a name of this one means, with a C library if one is said. Nothing is
    /// allocated.
    ///
    /// It is read [loosely](Dialect::read_loosely), [completed](TargetInfo::with_c_library) and written. The level of
    /// the machine is kept: `linux/amd64/v3` is `x86_64_v3` of RPM, and `amd64v3` of Debian. Names of Debian, of GNU
    /// and of rustc state the C library of Linux, and those of Go, OCI and Python don't: from one of the latter to one
    /// of the former the C library has to be said. So has the ABI of Windows. It changes no name that states one.
    ///
    /// # Errors
    ///
    /// The name isn't read; or what it means has no name in the other dialect, and why.
    ///
    /// # Examples
    ///
    /// ```
    /// use target_names::{ChosenLibc, Dialect, TranslateError, WriteError};
    ///
    /// let name = Dialect::Oci.translate("linux/arm64/v8", Some(ChosenLibc::Glibc), Dialect::Gnu);
    /// assert_eq!(name.unwrap().as_str(), "aarch64-linux-gnu");
    /// let name = Dialect::Oci.translate("windows/amd64", Some(ChosenLibc::Msvc), Dialect::Rust);
    /// assert_eq!(name.unwrap().as_str(), "x86_64-pc-windows-msvc");
    /// let name = Dialect::Debian.translate("arm64", None, Dialect::Oci);
    /// assert_eq!(name.unwrap().as_str(), "linux/arm64");
    /// let error = Dialect::Oci.translate("linux/amd64", None, Dialect::Debian).unwrap_err();
    /// assert_eq!(error, TranslateError::Write(WriteError::NeedsCLibrary));
    /// ```
    pub fn translate(self, name: &str, c_library: Option<ChosenLibc>, to: Dialect) -> Result<Name, TranslateError> {
        self.translate_with(name, c_library, &Versions::none(), to)
    }

    /// As [`translate`](Dialect::translate), with versions that names state: see [`write_with_versions`](Dialect::write_with_versions).
    ///
    /// # Errors
    ///
    /// As those of [`translate`](Dialect::translate); or no name states such a version.
    pub fn translate_with(
        self,
        name: &str,
        c_library: Option<ChosenLibc>,
        versions: &Versions,
        to: Dialect,
    ) -> Result<Name, TranslateError> {
        let meant = self.read_loosely(name).map_err(TranslateError::Read)?;
        let found = to.write_with_versions(meant, c_library, versions);
        // A name of the same tool stays if the one that is written says less: `manylinux_2_17_x86_64` of Python.
        let says_less = |it: &Name| self.read(it.as_str()).map_or(false, |it| it != meant.triple);
        match found {
            Ok(it) if self == to && says_less(&it) && self.read(name) == Ok(meant.triple) => {
                Ok(Name::of(&[name]).unwrap_or(it))
            }
            found => found.map_err(TranslateError::Write),
        }
    }

    /// Why a triple without a name has none.
    fn why_unnamed(self, triple: &TripleRef<'_>) -> WriteError {
        use OperatingSystem::{Darwin, MacOSX, Wasi, IOS};
        if !self.rows().iter().any(is_written) {
            return WriteError::OnlyRead;
        }
        if is_another_target(triple) {
            return WriteError::OtherTarget;
        }
        let why = self.why_rows(triple);
        // Where no row has the system, only another name of it may help, or another version.
        let has_other_name = matches!(triple.operating_system, Wasi | Darwin(_) | MacOSX(_) | IOS(Some(_)));
        let is_unknown = matches!(why, WriteError::NoSystem | WriteError::NoMachineOnAnySystem);
        if is_unknown && !has_other_name {
            return why;
        }
        let helped = self.why_c_library(triple, why);
        let helped = helped.or_else(|| self.why_machine(triple));
        helped.or_else(|| self.why_system(triple)).unwrap_or(why)
    }

    /// The reason, if with a C library the triple has a name. It is given why without one it has none.
    fn why_c_library(self, triple: &TripleRef<'_>, why: WriteError) -> Option<WriteError> {
        use ChosenLibc::*;
        let (c_libraries, reason) = match triple.operating_system {
            _ if triple.environment != Environment::Unknown => return None,
            OperatingSystem::Linux => ([Glibc, Musl], WriteError::NeedsCLibrary),
            // The name would be that of a row with this machine and system. On Linux a C library may change the machine.
            OperatingSystem::Windows if why != WriteError::NoMachine => ([Msvc, Mingw], WriteError::NeedsWindowsAbi),
            _ => return None,
        };
        let is_helped = |libc: &ChosenLibc| self.write(triple.with_c_library(*libc)).is_some();
        c_libraries.iter().any(is_helped).then_some(reason)
    }

    /// The reason, if another version of the machine has a name.
    fn why_machine(self, triple: &TripleRef<'_>) -> Option<WriteError> {
        let libraries = [None, Some(ChosenLibc::Glibc), Some(ChosenLibc::Musl)];
        let has = |architecture| {
            let other = TripleRef { architecture, ..*triple };
            let completed = |it: &Option<ChosenLibc>| it.map_or(other, |it| other.with_c_library(it));
            let mut completed = libraries.iter().map(completed);
            architecture != triple.architecture
                && completed.any(|it| self.write(it).is_some() || self.states_version(it.into()))
        };
        let is_helped = match triple.architecture {
            Architecture::Arm(_) => has(ARMV7) || has(Architecture::Arm(ArmArchitecture::Armv5te)),
            Architecture::X86_32(_) => has(Architecture::X86_32(X86_32Architecture::I686)),
            Architecture::X86_64h => has(Architecture::X86_64),
            Architecture::Riscv64(_) => has(Architecture::Riscv64(Riscv64Architecture::Riscv64gc)),
            _ => false,
        };
        match triple.architecture {
            _ if !is_helped => None,
            it if it == ARM => Some(WriteError::NeedsArmVersion),
            _ => Some(WriteError::Baseline),
        }
    }

    /// The reason, if a version of the system, or another name of it, has a name.
    fn why_system(self, triple: &TripleRef<'_>) -> Option<WriteError> {
        use OperatingSystem::{Darwin, MacOSX, Wasi};
        let versioned = TripleRef { operating_system: MacOSX(Some(version(11, 0))), ..*triple };
        let is_preview_1 = |row: &Row| row.1 == "wasm32-wasip1" && is_written(row);
        let is_simulator = triple.environment == Environment::Sim;
        let of_device = TripleRef { environment: Environment::Unknown, ..*triple };
        match triple.operating_system {
            Wasi if self.rows().iter().any(is_preview_1) => Some(WriteError::NeedsWasiVersion),
            Darwin(_) | MacOSX(_) if self.write(versioned).is_some() => Some(WriteError::NeedsVersion),
            Wasi | Darwin(_) | MacOSX(_) => None,
            _ if is_simulator && self.write(of_device).is_some() => Some(WriteError::Simulator),
            _ => None,
        }
    }

    /// The reason, by the machines and systems of the dialect's rows. One with the machine and the system says more than
    /// one that only has the system, and that more than one that only has the machine.
    fn why_rows(self, triple: &TripleRef<'_>) -> WriteError {
        let shape = self.shape(triple);
        let is_arm = |it: &TripleRef<'_>| matches!(it.architecture, Architecture::Arm(_));
        let mut why = WriteError::NoMachineOnAnySystem;
        for row in self.rows() {
            let Ok(named) = TripleRef::from_str(row.1) else { continue };
            let is_android = library_and_abi(named.environment).0 == "bionic";
            let has_system = named.operating_system == shape.operating_system && !is_android;
            let has_machine = named.architecture == shape.architecture;
            if !is_written(row) && named == shape && row.2 == Way::Read {
                let is_versioned = |major: &u16| has_version(*major, 0, row.0);
                return if FIRST_NUMBERS.iter().any(is_versioned) && self.states_version(triple.into()) {
                    WriteError::NeedsVersion
                } else {
                    WriteError::OnlyReadNames
                };
            }
            why = match why {
                WriteError::NoAbi => why,
                _ if has_system && has_machine => WriteError::NoAbi,
                _ if has_system => WriteError::NoMachine,
                WriteError::NoMachineOnAnySystem if has_machine || is_arm(&named) && is_arm(&shape) => {
                    WriteError::NoSystem
                }
                _ => why,
            };
        }
        why
    }

    /// Whether names of what is meant state a version.
    fn states_version(self, meant: Sense<'_>) -> bool {
        let has_versions = VersionOf::of(meant.triple).is_some();
        has_versions && FIRST_NUMBERS.iter().any(|it| self.name_of(meant, Some((*it, 0))).is_some())
    }
}

/// What is meant, with a C library if one is said.
fn completed(meant: Sense<'_>, c_library: Option<ChosenLibc>) -> Sense<'_> {
    let triple = c_library.map_or(meant.triple, |it| meant.triple.with_c_library(it));
    Sense { triple, ..meant }
}

const ARM: Architecture = Architecture::Arm(ArmArchitecture::Arm);
const ARMV7: Architecture = Architecture::Arm(ArmArchitecture::Armv7);

/// First numbers of versions, of which each system and C library has one.
const FIRST_NUMBERS: [u16; 4] = [1, 2, 11, 10240];

/// Of what a name states a version.
///
/// ```
/// use target_lexicon::triple;
/// use target_names::VersionOf;
///
/// assert_eq!(VersionOf::of(&triple!("x86_64-unknown-linux-gnu")), Some(VersionOf::Glibc));
/// assert_eq!(VersionOf::of(&triple!("aarch64-apple-darwin")).unwrap().name(), "macos");
/// assert_eq!(VersionOf::of(&triple!("wasm32-wasip1")), None);
/// ```
#[non_exhaustive]
#[derive(Clone, Copy, Debug, PartialEq, Eq, Hash)]
pub enum VersionOf {
    /// glibc 2.x.
    Glibc,
    /// musl 1.x.
    Musl,
    /// macOS 10.x, and 11 or later.
    MacOs,
    /// iOS.
    Ios,
    /// Android's API level, which has no second number.
    Android,
    /// FreeBSD.
    FreeBsd,
    /// NetBSD.
    NetBsd,
    /// OpenBSD.
    OpenBsd,
    /// DragonFly BSD.
    DragonFly,
    /// Windows 10 or later: its build.
    Windows,
}

impl VersionOf {
    /// All, in the order of the variants.
    pub const ALL: [VersionOf; 10] = {
        use VersionOf::*;
        [Glibc, Musl, MacOs, Ios, Android, FreeBsd, NetBsd, OpenBsd, DragonFly, Windows]
    };

    /// The name, such as `glibc`.
    #[must_use]
    pub const fn name(self) -> &'static str {
        const NAMES: [&str; 10] =
            ["glibc", "musl", "macos", "ios", "android", "freebsd", "netbsd", "openbsd", "dragonfly", "windows"];
        NAMES[self as usize]
    }

    /// Of what names of this triple may state a version.
    #[must_use]
    pub fn of<'t>(triple: impl Into<TripleRef<'t>>) -> Option<VersionOf> {
        use {OperatingSystem::*, VersionOf as Of};
        let triple = triple.into();
        Some(match (triple.operating_system, CLibrary::of(&triple)) {
            (Linux, Some(CLibrary::Glibc)) => Of::Glibc,
            (Linux, Some(CLibrary::Musl)) => Of::Musl,
            (Linux, Some(CLibrary::Bionic)) => Of::Android,
            (Darwin(_) | MacOSX(_), _) => Of::MacOs,
            (IOS(_), _) => Of::Ios,
            (Freebsd, _) => Of::FreeBsd,
            (Netbsd, _) => Of::NetBsd,
            (Openbsd, _) => Of::OpenBsd,
            (Dragonfly, _) => Of::DragonFly,
            (Windows, _) => Of::Windows,
            _ => return None,
        })
    }
}

/// Versions, each of a C library or a system: one of another system than a triple's never applies to it.
///
/// ```
/// use target_lexicon::triple;
/// use target_names::{VersionOf, Versions};
///
/// let versions = Versions::none().with(VersionOf::Glibc, 2, 17).with(VersionOf::MacOs, 11, 0);
/// assert_eq!(versions.of(&triple!("x86_64-unknown-linux-gnu")), Some((2, 17)));
/// assert_eq!(versions.of(&triple!("x86_64-unknown-freebsd")), None);
/// ```
#[derive(Clone, Copy, Debug, Default, PartialEq, Eq, Hash)]
pub struct Versions([Option<(u16, u8)>; 10]);

impl Versions {
    /// No version.
    #[must_use]
    pub fn none() -> Versions {
        Versions::default()
    }

    /// These, and another one: its first number and its second, which is 0 if there is none.
    #[must_use]
    pub fn with(mut self, of: VersionOf, major: u16, minor: u8) -> Versions {
        self.0[of as usize] = Some((major, minor));
        self
    }

    /// The version that names of a triple state.
    #[must_use]
    pub fn of<'t>(&self, triple: impl Into<TripleRef<'t>>) -> Option<(u16, u8)> {
        self.0[VersionOf::of(triple)? as usize]
    }

    /// The C library that a version says: glibc or musl, if only one of them has a version.
    pub(crate) fn c_library(&self) -> Option<ChosenLibc> {
        match [VersionOf::Glibc, VersionOf::Musl].map(|it| self.0[it as usize].is_some()) {
            [true, false] => Some(ChosenLibc::Glibc),
            [false, true] => Some(ChosenLibc::Musl),
            _ => None,
        }
    }
}
