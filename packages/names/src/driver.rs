//! What a compiler's driver asks of a triple besides the queries. `checks/compare llvm` asks rustc and clang of each of rustc's targets.
use crate::rustc_cfg::unlisted_system;
use crate::shape::{library_and_abi, version};
use crate::{ArmProfile, CLibrary, Dialect, FloatAbi, Name, Signedness};
use core::fmt;
use target_lexicon::{
    Architecture, ArmArchitecture, BinaryFormat, CDataModel, DeploymentTarget, Environment, OperatingSystem,
    PointerWidth, TripleRef,
};

/// The size and the alignment of a type of C, in bytes.
#[derive(Clone, Copy, Debug, PartialEq, Eq, Hash)]
pub struct TypeLayout {
    /// The size in bytes.
    pub size: u8,
    /// The alignment in bytes.
    pub alignment: u8,
}

/// The sizes of C's arithmetic types, in bytes.
#[non_exhaustive]
#[derive(Clone, Copy, Debug, PartialEq, Eq, Hash)]
pub struct TypeSizes {
    /// The bytes of `short`.
    pub short: u8,
    /// The bytes of `int`.
    pub int: u8,
    /// The bytes of `long`.
    pub long: u8,
    /// The bytes of `long long`.
    pub long_long: u8,
    /// The bytes of `float`.
    pub float: u8,
    /// The bytes of `double`.
    pub double: u8,
}

impl CLibrary {
    /// The answer of [`TargetInfo::c_library`].
    pub(crate) fn of(triple: &TripleRef<'_>) -> Option<CLibrary> {
        use OperatingSystem::*;
        match (library_and_abi(triple.environment).0, triple.operating_system) {
            ("gnu" | "gnullvm", Hurd | Linux) => Some(CLibrary::Glibc),
            ("gnu" | "gnullvm", Windows) => Some(CLibrary::Mingw),
            ("bionic", _) => Some(CLibrary::Bionic),
            ("msvc", _) => Some(CLibrary::Msvc),
            ("musl" | "ohos", _) => Some(CLibrary::Musl),
            ("newlib", _) => Some(CLibrary::Newlib),
            ("uclibc", _) => Some(CLibrary::Uclibc),
            _ => library_of_system(triple),
        }
    }
}

/// The library of a system that has only one.
fn library_of_system(triple: &TripleRef<'_>) -> Option<CLibrary> {
    use OperatingSystem::*;
    Some(match (unlisted_system(triple), triple.operating_system) {
        (Some("nuttx"), _) => CLibrary::System,
        (Some("rtems"), _) | (_, Espidf | Horizon) => CLibrary::Newlib,
        (_, Redox) => CLibrary::Relibc,
        (_, Aix | Bitrig | Cygwin | Darwin(_) | Dragonfly | Freebsd | Fuchsia) => CLibrary::System,
        (_, Haiku | Illumos | IOS(_) | MacOSX(_) | Netbsd | Openbsd | Solaris) => CLibrary::System,
        (_, TvOS(_) | VisionOS(_) | VxWorks | WatchOS(_) | XROS(_)) => CLibrary::System,
        _ => return None,
    })
}

impl FloatAbi {
    /// The answer of [`TargetInfo::float_abi`].
    pub(crate) fn of(triple: &TripleRef<'_>) -> Option<FloatAbi> {
        use OperatingSystem::*;
        let is_arm = matches!(triple.architecture, Architecture::Arm(_));
        match (library_and_abi(triple.environment), triple.operating_system) {
            ((_, "softfloat"), _) => Some(FloatAbi::Soft),
            _ if !is_arm => None,
            ((_, "eabi") | ("ohos", _), _) => Some(FloatAbi::Soft),
            ((_, "eabihf"), _) => Some(FloatAbi::Hard),
            (_, Freebsd | Horizon | Windows | WatchOS(_)) => Some(FloatAbi::Hard),
            _ => None,
        }
    }
}

impl Signedness {
    /// The answer of [`TargetInfo::char_signedness`].
    pub(crate) const fn of_char(triple: &TripleRef<'_>) -> Option<Signedness> {
        use {Architecture::*, OperatingSystem::*};
        match (triple.architecture, triple.operating_system) {
            (_, Uefi | VxWorks) => None,
            (Aarch64(_) | Arm(_), Windows) => Some(Signedness::Signed),
            (Aarch64(_) | Arm(_) | Powerpc | Powerpc64, system) if system.is_like_darwin() => Some(Signedness::Signed),
            (Aarch64(_) | Arm(_) | Hexagon | Powerpc | Powerpc64 | Powerpc64le, _)
            | (Riscv32(_) | Riscv64(_) | S390x, _) => Some(Signedness::Unsigned),
            (Avr | Bpfeb | Bpfel | M68k | Mips32(_) | Mips64(_) | Msp430 | Nvptx64, _)
            | (Sparc | Sparc64 | Sparcv9 | Wasm32 | Wasm64 | X86_32(_) | X86_64 | X86_64h, _) => {
                Some(Signedness::Signed)
            }
            _ => None,
        }
    }
}

/// The answer of [`TargetInfo::has_emulated_tls`].
pub(crate) fn has_emulated_tls(triple: &TripleRef<'_>) -> bool {
    use OperatingSystem::*;
    let library = library_and_abi(triple.environment).0;
    matches!((triple.operating_system, library), (Cygwin | Openbsd, _) | (Linux, "bionic" | "ohos"))
}

/// The answer of [`TargetInfo::program_suffix`].
pub(crate) const fn program_suffix(triple: &TripleRef<'_>) -> &'static str {
    use OperatingSystem::*;
    match (triple.operating_system, triple.architecture) {
        (Windows | Cygwin, _) => ".exe",
        (Uefi, _) => ".efi",
        (VxWorks, _) => ".vxe",
        (Cuda, _) => ".ptx",
        (Emscripten, _) => ".js",
        (_, Architecture::Wasm32 | Architecture::Wasm64) => ".wasm",
        (Horizon, _) | (_, Architecture::Avr) => ".elf",
        _ => "",
    }
}

impl TypeLayout {
    /// The answer of [`TargetInfo::long_double_layout`].
    pub(crate) const fn of_long_double(triple: &TripleRef<'_>) -> Option<TypeLayout> {
        use {Architecture::*, Environment as With, OperatingSystem::*};
        let system = triple.operating_system;
        let is_darwin = system.is_like_darwin();
        let (size, alignment) = match (triple.architecture, system, triple.environment) {
            (_, Uefi | VxWorks, _) => return None,
            (Arm(_) | Aarch64(_), Windows, With::Msvc | With::Gnu | With::GnuLlvm) => (8, 8),
            (X86_32(_) | X86_64, Windows, With::Msvc) => (8, 8),
            (X86_32(_), Windows, With::Gnu | With::GnuLlvm) => (12, 4),
            (X86_64, Windows, With::Gnu | With::GnuLlvm) => (16, 16),
            (_, Windows, _) => return None,
            (Aarch64(_), ..) if is_darwin => (8, 8),
            (X86_32(_) | X86_64 | X86_64h, ..) if is_darwin => (16, 16),
            _ if is_darwin => return None,
            (Arm(_) | Hexagon | Mips32(_), ..) => (8, 8),
            (Aarch64(_) | LoongArch64 | Riscv32(_) | Riscv64(_), ..) => (16, 16),
            (Sparc64 | Sparcv9 | X86_64 | X86_64h, ..) => (16, 16),
            (Mips64(_), Linux, _) => (16, 16),
            (Msp430, ..) => (8, 2),
            (Powerpc | Powerpc64 | Powerpc64le, Linux, With::Gnu | With::Gnuspe) => (16, 16),
            (Powerpc | Powerpc64 | Powerpc64le, Linux, With::Musl) => (8, 8),
            (Powerpc | Powerpc64 | Powerpc64le, Freebsd | Netbsd | Openbsd, _) => (8, 8),
            (S390x, ..) => (16, 8),
            (Wasm32 | Wasm64, Emscripten, _) => (16, 8),
            (Wasm32 | Wasm64, ..) => (16, 16),
            (X86_32(_), _, With::Android) => (8, 4),
            (X86_32(_), ..) => (12, 4),
            _ => return None,
        };
        Some(TypeLayout { size, alignment })
    }

    /// The answer of [`TargetInfo::wchar_layout`].
    pub(crate) const fn of_wchar(triple: &TripleRef<'_>) -> Option<TypeLayout> {
        use {Architecture::*, OperatingSystem::*};
        let size = match (triple.architecture, triple.operating_system) {
            (_, Windows | Cygwin | Uefi) => 2,
            (_, Aix | VxWorks) => return None,
            (Msp430, _) => 2,
            (Arm(_) | Aarch64(_) | Hexagon | X86_32(_) | LoongArch64 | Mips32(_), _) => 4,
            (Mips64(_) | Powerpc | Powerpc64 | Powerpc64le | Riscv32(_) | Riscv64(_), _) => 4,
            (S390x | Sparc | Sparc64 | Sparcv9 | Wasm32 | Wasm64 | X86_64 | X86_64h, _) => 4,
            _ => return None,
        };
        Some(TypeLayout { size, alignment: size })
    }
}

impl TypeSizes {
    /// The answer of [`TargetInfo::type_sizes`].
    pub(crate) const fn of(triple: &TripleRef<'_>) -> Option<TypeSizes> {
        match triple.data_model() {
            Ok(model) => Some(TypeSizes::in_model(model)),
            Err(_) => TypeSizes::without_model(triple),
        }
    }

    /// The sizes in a data model.
    ///
    /// ```
    /// use target_lexicon::CDataModel;
    /// use target_names::TypeSizes;
    ///
    /// assert_eq!(TypeSizes::in_model(CDataModel::LLP64).long, 4);
    /// ```
    #[must_use]
    pub const fn in_model(model: CDataModel) -> TypeSizes {
        TypeSizes {
            short: model.short_size().bytes(),
            int: model.int_size().bytes(),
            long: model.long_size().bytes(),
            long_long: model.long_long_size().bytes(),
            float: model.float_size().bytes(),
            double: model.double_size().bytes(),
        }
    }

    /// The sizes of a triple without a data model: on machines of 32 and 64 bits where the size of `wchar_t` is sure.
    #[cold]
    const fn without_model(triple: &TripleRef<'_>) -> Option<TypeSizes> {
        use {Architecture::*, OperatingSystem::*};
        // An `int` of two bytes.
        let of_16_bits = TypeSizes::in_model(CDataModel::LP32);
        match (triple.architecture, triple.operating_system) {
            (_, Uefi | VxWorks) => return None,
            (Msp430, _) => return Some(of_16_bits),
            (Avr, _) => return Some(TypeSizes { double: 4, ..of_16_bits }),
            _ => {}
        }
        match (TypeLayout::of_wchar(triple), triple.pointer_width()) {
            (Some(_), Ok(PointerWidth::U32)) => Some(TypeSizes::in_model(CDataModel::ILP32)),
            (Some(_), Ok(PointerWidth::U64)) => Some(TypeSizes::in_model(CDataModel::LP64)),
            _ => None,
        }
    }
}

/// The answers of [`TargetInfo::arm_version`] and [`TargetInfo::arm_profile`]. `checks/compare llvm` asks LLVM of each.
pub(crate) const fn arm_version_and_profile(triple: &TripleRef<'_>) -> (Option<u8>, Option<ArmProfile>) {
    use {ArmArchitecture::*, ArmProfile::*};
    let Architecture::Arm(sub) = triple.architecture else {
        return (None, None);
    };
    match sub {
        Armv4 | Armv4t | Thumbv4t => (Some(4), None),
        Armv5t | Armv5te | Armv5tej | Thumbv5te => (Some(5), None),
        Armv6 | Armv6j | Armv6k | Armv6z | Armv6kz | Armv6t2 => (Some(6), None),
        Armv6m | Thumbv6m => (Some(6), Some(Microcontroller)),
        Armv7 => (Some(7), None),
        Armv7a | Armv7k | Armv7s | Armv7ve | Thumbv7a | Thumbv7neon => (Some(7), Some(Application)),
        Armv7r | Armebv7r => (Some(7), Some(RealTime)),
        Armv7m | Thumbv7em | Thumbv7m => (Some(7), Some(Microcontroller)),
        Armv8 => (Some(8), None),
        Armv8a | Armv8_1a | Armv8_2a | Armv8_3a | Armv8_4a | Armv8_5a => (Some(8), Some(Application)),
        Armv8r => (Some(8), Some(RealTime)),
        Armv8mBase | Armv8mMain | Thumbv8mBase | Thumbv8mMain => (Some(8), Some(Microcontroller)),
        _ => (None, None),
    }
}

/// The answer of [`TargetInfo::macos_version`]. `checks/compare llvm` asks LLVM of macOS's, and rustc of the oldest ones.
pub(crate) const fn macos_version(triple: &TripleRef<'_>) -> Option<DeploymentTarget> {
    let kernel = match triple.operating_system {
        OperatingSystem::MacOSX(version) => return version,
        OperatingSystem::Darwin(Some(version)) => version.major,
        _ => return None,
    };
    let (major, minor) = match kernel {
        0..=3 => return None,
        4..=19 => (10, kernel as u8 - 4),
        20..=24 => (kernel - 9, 0),
        // After macOS 15 comes macOS 26.
        _ => (kernel.saturating_add(1), 0),
    };
    Some(version(major, minor))
}

/// The answer of [`TargetInfo::object_format`].
pub(crate) const fn object_format(triple: &TripleRef<'_>) -> BinaryFormat {
    use OperatingSystem::{Cygwin, Uefi};
    let implied = triple.default_binary_format();
    let given = triple.binary_format;
    match (implied, triple.operating_system, triple.architecture) {
        _ if !matches!(given, BinaryFormat::Unknown) && given as u8 != implied as u8 => given,
        (BinaryFormat::Elf, Cygwin | Uefi, _) => BinaryFormat::Coff,
        (BinaryFormat::Unknown, _, Architecture::Unknown) => BinaryFormat::Unknown,
        (BinaryFormat::Elf | BinaryFormat::Unknown, _, machine) => wasm_or(BinaryFormat::Elf, machine),
        _ => implied,
    }
}

/// The format of WebAssembly on its architectures, elsewhere this one.
pub(crate) const fn wasm_or(format: BinaryFormat, architecture: Architecture) -> BinaryFormat {
    match architecture {
        Architecture::Wasm32 | Architecture::Wasm64 => BinaryFormat::Wasm,
        _ => format,
    }
}

/// Debian's multiarch tuple of a target, which names its folders of libraries, as `dpkg-architecture
/// -qDEB_HOST_MULTIARCH` prints it. `checks/compare elsewhere` asks dpkg for each.
#[derive(Clone, Copy, Debug, PartialEq, Eq, Hash)]
pub struct MultiarchTuple {
    /// The prefix of GNU's tools, which is the tuple except on 32-bit x86.
    prefix: Name,
}

impl MultiarchTuple {
    /// The answer of [`TargetInfo::multiarch_tuple`].
    pub(crate) fn of(triple: &TripleRef<'_>) -> Option<MultiarchTuple> {
        Dialect::Debian.write(triple)?;
        let prefix = Dialect::Gnu.write(Dialect::Debian.shape(triple))?;
        Some(MultiarchTuple { prefix })
    }
}

impl fmt::Display for MultiarchTuple {
    fn fmt(&self, f: &mut fmt::Formatter<'_>) -> fmt::Result {
        let prefix = self.prefix.as_str();
        match prefix.strip_prefix("i686") {
            Some(rest) => write!(f, "i386{rest}"),
            None => f.write_str(prefix),
        }
    }
}
