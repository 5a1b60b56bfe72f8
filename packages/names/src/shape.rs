//! The shape of a triple in a dialect: what names state. What each environment says of the C library and of the ABI: the
//! table in which all others look; and what a C library makes of a triple of Linux or Windows.
use crate::reading::{is_like_system, is_of_machine, is_without_triple};
use crate::ChosenLibc;
use target_lexicon::{
    Architecture, ArmArchitecture, DeploymentTarget, Environment, KnownVendor, OperatingSystem, Riscv32Architecture,
    Riscv64Architecture, TripleRef, VendorRef, X86_32Architecture,
};

/// How much of the architecture a dialect states.
#[derive(Clone, Copy)]
pub(super) enum MachineRule {
    /// Of Arm the byte order.
    Order,
    /// Of Arm the versions 5 to 8.
    Version,
    /// As `Version`, and of x86 what Alpine builds for.
    Alpine,
    /// As `Version`, and the i586 apart from the i686, which Windows needs.
    I686,
    /// Of Arm what packages for its floating-point ABI are built for, or else the byte order.
    Packages,
    /// All that rustc tells apart.
    Rustc,
}

/// How a dialect states the ABI.
#[derive(Clone, Copy)]
pub(super) enum AbiRule {
    /// Every environment is kept.
    Kept,
    /// C libraries and floating-point ABIs aren't stated.
    Dropped,
    /// C libraries are stated on Linux only.
    KeptOnLinux,
    /// C libraries are stated on Linux and Windows only.
    KeptOnLinuxAndWindows,
    /// Every environment is kept, except that without a system `eabihf` is `eabi`.
    KeptOnSystems,
}

/// What names state in a dialect.
#[derive(Clone, Copy)]
pub(super) struct Rules {
    pub machine: MachineRule,
    pub abi: AbiRule,
    /// The version of macOS and iOS, in two numbers.
    pub versions: bool,
    /// `-` and `.` of a name are `_` in the names of the rows.
    pub tags: bool,
    /// A name that has no row is read by its spelling.
    pub spelled: bool,
    /// Names are platforms of container images, with containerd's other names.
    pub platforms: bool,
    /// A triple whose vendor is custom, or says that the target is another one, has the name that means just it.
    pub itself: bool,
}

impl Rules {
    /// The triple without what isn't stated.
    pub(super) fn shape(self, triple: &TripleRef<'_>) -> TripleRef<'static> {
        use OperatingSystem::{MacOSX, IOS};
        let (machine, system) = (self.machine, triple.operating_system);
        let environment = self.abi.environment(system, triple.environment);
        let architecture = match triple.architecture {
            // A compiler for an i686 writes what an i586 doesn't run.
            i586 @ Architecture::X86_32(X86_32Architecture::I586) if self.spelled => i586,
            other => machine.architecture(system, environment, other),
        };
        TripleRef {
            architecture,
            vendor: VendorRef::Known(usual_vendor(architecture, system)),
            operating_system: match system {
                MacOSX(version) if self.versions => MacOSX(two_numbers_of(version)),
                IOS(version) if self.versions => IOS(two_numbers_of(version)),
                other => unversioned(other),
            },
            environment,
            binary_format: triple.binary_format,
        }
    }
}

impl AbiRule {
    /// The environment without an ABI that isn't stated.
    fn environment(self, system: OperatingSystem, environment: Environment) -> Environment {
        use OperatingSystem::*;
        let states_c_library = match (self, system, environment) {
            (AbiRule::KeptOnSystems, None_, Environment::Eabihf) => return Environment::Eabi,
            (AbiRule::KeptOnSystems | AbiRule::Kept, ..) => return environment,
            (AbiRule::KeptOnLinux | AbiRule::KeptOnLinuxAndWindows, Linux, _) => true,
            (AbiRule::KeptOnLinuxAndWindows, Windows, _) => true,
            _ => false,
        };
        match library_and_abi(environment) {
            ("", "eabi" | "eabihf") => Environment::Unknown,
            _ if environment == Environment::None => Environment::Unknown,
            // The width of a pointer.
            (_, "ilp32" | "x32") => environment,
            ("gnu" | "gnullvm" | "msvc" | "musl" | "uclibc", _) if !states_c_library => Environment::Unknown,
            _ => environment,
        }
    }
}

impl MachineRule {
    /// The architecture without what isn't stated.
    fn architecture(
        self,
        system: OperatingSystem,
        environment: Environment,
        architecture: Architecture,
    ) -> Architecture {
        use {Architecture::*, Riscv32Architecture as Bits32, Riscv64Architecture as Bits64, X86_32Architecture::*};
        match (self, architecture) {
            (_, Arm(arm)) => Arm(self.arm(system, environment, arm)),
            (MachineRule::Rustc, Riscv32(Bits32::Riscv32)) => Riscv32(Bits32::Riscv32gc),
            (MachineRule::Rustc, Riscv64(Bits64::Riscv64)) => Riscv64(Bits64::Riscv64gc),
            (MachineRule::Rustc, Sparc64) if system == OperatingSystem::Solaris => Sparcv9,
            (MachineRule::Rustc, other) => other,
            (MachineRule::I686, X86_32(I586)) if system != OperatingSystem::Windows => architecture,
            // What Alpine builds runs on an i586 and an i686.
            (MachineRule::Alpine, X86_32(x86)) => X86_32(if x86 == I386 { I386 } else { I586 }),
            (_, X86_32(_)) => X86_32(I686),
            (_, Riscv32(_)) => Riscv32(Bits32::Riscv32),
            (_, Riscv64(_)) => Riscv64(Bits64::Riscv64),
            (_, X86_64h) => X86_64,
            (_, Sparcv9) => Sparc64,
            (_, other) => other,
        }
    }

    /// The Arm without what isn't stated.
    fn arm(self, system: OperatingSystem, environment: Environment, arm: ArmArchitecture) -> ArmArchitecture {
        use ArmArchitecture::*;
        let abi = match library_and_abi(environment) {
            ("gnu" | "musl" | "uclibc", abi) => abi,
            _ => "",
        };
        match (self, abi, system) {
            (MachineRule::Version | MachineRule::Alpine | MachineRule::I686, ..) => arm_of_version(arm),
            // Packages for floating-point registers are for Armv7: that is an Arm on which they run, and one without a version.
            (MachineRule::Packages, "eabihf", _) => match arm {
                Arm | Armv7a | Armv7ve | Thumbv7a | Thumbv7neon | Armv8 | Armv8a => Armv7,
                other => other,
            },
            // Those without are for Armv5.
            (MachineRule::Packages, "eabi", _) => match arm_of_version(arm) {
                Arm | Armv6 | Armv7 | Armv8 => Armv5te,
                other => other,
            },
            (MachineRule::Order | MachineRule::Packages, ..) => match arm {
                Armeb | Armebv7r | Thumbeb => Armeb,
                _ => Arm,
            },
            // Of rustc `arm` is Armv6, except on Android, where it is older. Armv8 in 32 bits runs programs of Armv7.
            (MachineRule::Rustc, _, OperatingSystem::Linux) => match arm {
                Armv6 | Armv6j | Armv6k | Armv6z | Armv6kz | Armv6t2 => Arm,
                Armv7a | Armv7ve | Armv8 | Armv8a => Armv7,
                other => other,
            },
            // Windows has needed Armv7 from the first.
            (MachineRule::Rustc, _, OperatingSystem::Windows) => match arm {
                Arm | Armv7 | Armv7a => Thumbv7a,
                other => other,
            },
            (MachineRule::Rustc, ..) => arm,
        }
    }
}

/// The versions 5, 6, 7 and 8 of Arm for applications; every other Arm is itself.
pub(super) fn arm_of_version(arm: ArmArchitecture) -> ArmArchitecture {
    use ArmArchitecture::*;
    match arm {
        Armv5t | Armv5tej => Armv5te,
        Armv6j | Armv6k | Armv6z | Armv6kz | Armv6t2 => Armv6,
        Armv7a | Armv7ve | Thumbv7a | Thumbv7neon => Armv7,
        Armv8a => Armv8,
        other => other,
    }
}

/// The system without a version; macOS has one name.
pub(super) fn unversioned(system: OperatingSystem) -> OperatingSystem {
    use OperatingSystem::*;
    match system {
        Darwin(_) | MacOSX(_) => Darwin(None),
        IOS(_) => IOS(None),
        TvOS(_) => TvOS(None),
        VisionOS(_) => VisionOS(None),
        WatchOS(_) => WatchOS(None),
        XROS(_) => XROS(None),
        other => other,
    }
}

/// A version without its third number.
fn two_numbers_of(stated: Option<DeploymentTarget>) -> Option<DeploymentTarget> {
    stated.map(|it| version(it.major, it.minor))
}

/// The version with these numbers and 0.
pub(super) const fn version(major: u16, minor: u8) -> DeploymentTarget {
    DeploymentTarget { major, minor, patch: 0 }
}

/// The vendor that triples of a machine on a system usually have.
pub(super) fn usual_vendor(machine: Architecture, system: OperatingSystem) -> KnownVendor {
    use OperatingSystem::{Aix, Cygwin, Solaris, Windows};
    let is_x86 = matches!(machine, Architecture::X86_32(_) | Architecture::X86_64 | Architecture::X86_64h);
    match system {
        Solaris if !is_x86 => KnownVendor::Sun,
        _ if system.is_like_darwin() => KnownVendor::Apple,
        Windows | Cygwin | Solaris => KnownVendor::Pc,
        Aix => KnownVendor::Ibm,
        _ => KnownVendor::Unknown,
    }
}

/// Whether a vendor is a system that no triple has, or says which variant of a system it is: for Windows 7, for a unikernel, or
/// WebAssembly with the system calls of Linux, or is a word of a machine. A triple that keeps all but the vendor would be another target.
pub(super) fn is_another_target(triple: &TripleRef<'_>) -> bool {
    match triple.vendor {
        VendorRef::Custom(text) => {
            let has_system = triple.operating_system != OperatingSystem::Unknown;
            ["win7", "unikraft", "wali"].contains(&text)
                || is_like_system(text)
                || is_of_machine(text)
                || !has_system && is_without_triple(text)
        }
        VendorRef::Known(known) => known == KnownVendor::Uwp,
    }
}

/// Each environment that says something: the C library or toolchain, and the ABI, in rustc's words. Of rustc `gnullvm`
/// is `gnu`, and `bionic` nothing.
const ENVIRONMENTS: [(Environment, &str, &str); 27] = {
    use Environment::*;
    [
        (Android, "bionic", ""),
        (Androideabi, "bionic", "eabi"),
        (Eabi, "", "eabi"),
        (Eabihf, "", "eabihf"),
        (Gnu, "gnu", ""),
        (Gnuabi64, "gnu", "abi64"),
        (Gnueabi, "gnu", "eabi"),
        (Gnueabihf, "gnu", "eabihf"),
        (GnuIlp32, "gnu", "ilp32"),
        (GnuLlvm, "gnullvm", "llvm"),
        (Gnuspe, "gnu", "spe"),
        (Gnux32, "gnu", "x32"),
        (Macabi, "", "macabi"),
        (Msvc, "msvc", ""),
        (Musl, "musl", ""),
        (Muslabi64, "musl", "abi64"),
        (Musleabi, "musl", "eabi"),
        (Musleabihf, "musl", "eabihf"),
        (Newlib, "newlib", ""),
        (Ohos, "ohos", ""),
        (Sgx, "sgx", ""),
        (Sim, "", "sim"),
        (Softfloat, "", "softfloat"),
        (Spe, "", "spe"),
        (Uclibc, "uclibc", ""),
        (Uclibceabi, "uclibc", "eabi"),
        (Uclibceabihf, "uclibc", "eabihf"),
    ]
};

/// The C library or toolchain that an environment says, and the ABI, or empty strings.
pub(crate) fn library_and_abi(environment: Environment) -> (&'static str, &'static str) {
    let said = ENVIRONMENTS.iter().find(|it| it.0 == environment);
    said.map_or(("", ""), |it| (it.1, it.2))
}

/// The environment that says just this.
pub(crate) fn environment_of(library: &str, abi: &str) -> Option<Environment> {
    let said = ENVIRONMENTS.iter().find(|it| (it.1, it.2) == (library, abi))?;
    Some(said.0)
}

/// Whether machines of an architecture, or all, have the ABI of an environment.
pub(crate) fn is_on(environment: Environment, machine: Option<Architecture>) -> bool {
    use Architecture::{Aarch64, Arm, Hexagon, Mips32, Mips64, Powerpc, X86_64h, X86_64};
    match (library_and_abi(environment), machine) {
        (("", "eabi"), Some(Hexagon | Mips32(_) | Powerpc)) => true,
        ((_, "eabi" | "eabihf"), _) => matches!(machine, Some(Arm(_))),
        ((_, "abi64"), _) => matches!(machine, Some(Mips64(_))),
        ((_, "ilp32"), _) => matches!(machine, Some(Aarch64(_))),
        ((_, "spe"), _) => matches!(machine, Some(Powerpc)),
        ((_, "x32"), _) => matches!(machine, Some(X86_64 | X86_64h)),
        _ => true,
    }
}

impl ChosenLibc {
    /// Its system, and the usual environment on an architecture.
    fn environment(self, architecture: Architecture) -> (OperatingSystem, Environment) {
        let library = match self {
            ChosenLibc::Msvc => return (OperatingSystem::Windows, Environment::Msvc),
            ChosenLibc::Mingw => return (OperatingSystem::Windows, Environment::Gnu),
            ChosenLibc::Gnullvm => return (OperatingSystem::Windows, Environment::GnuLlvm),
            ChosenLibc::Glibc => "gnu",
            ChosenLibc::Musl => "musl",
        };
        let abi = match architecture {
            Architecture::Arm(arm) => match arm_of_version(arm) {
                // Which of the two isn't said.
                ArmArchitecture::Arm => return (OperatingSystem::Linux, Environment::Unknown),
                ArmArchitecture::Armv6 | ArmArchitecture::Armv7 | ArmArchitecture::Armv8 => "eabihf",
                ArmArchitecture::Armv5te => "eabi",
                _ => "",
            },
            Architecture::Mips64(_) => "abi64",
            _ => "",
        };
        let environment = environment_of(library, abi).unwrap_or(Environment::Unknown);
        (OperatingSystem::Linux, environment)
    }
}

/// The answer of [`TargetInfo::with_c_library`].
pub(crate) fn complete<'a>(triple: &TripleRef<'a>, c_library: ChosenLibc) -> TripleRef<'a> {
    let (system, environment) = c_library.environment(triple.architecture);
    let mut completed = *triple;
    if triple.environment == Environment::Unknown && triple.operating_system == system {
        completed.environment = environment;
    }
    completed
}
