//! `from_str` of some types, which crates/lexicon_fields documents. A system is found by its row; of the types with few
//! names a comparison with each takes less time than a hash and a table.
use crate::proved::table::Meaning;
// written by tools/names/write: the types of families with few names
use crate::proved::{
    Aarch64Architecture, ArmArchitecture, CleverArchitecture, Mips32Architecture,
    Mips64Architecture, Riscv32Architecture, Riscv64Architecture, X86_32Architecture,
    Z80Architecture,
};
// end of what is written
use crate::proved::{BinaryFormat, Environment, OperatingSystem};
use crate::search::row_of;

impl OperatingSystem {
    #[inline]
    pub(crate) fn from_str(s: &str) -> Result<Self, ()> {
        let Some((_, meaning)) = row_of(s) else {
            return OperatingSystem::parse_darwin_like(s).ok_or(());
        };
        match meaning {
            Meaning::OperatingSystem(it) => Ok(*it),
            Meaning::None => Ok(OperatingSystem::None_),
            Meaning::Unknown => Ok(OperatingSystem::Unknown),
            _ => Err(()),
        }
    }
}

// written by tools/names/write: the types with few names
impl Environment {
    pub(crate) fn from_str(s: &str) -> Result<Self, ()> {
        Ok(match s {
            "unknown" => Environment::Unknown,
            "amdgiz" => Environment::AmdGiz,
            "android" => Environment::Android,
            "androideabi" => Environment::Androideabi,
            "eabi" => Environment::Eabi,
            "eabihf" => Environment::Eabihf,
            "gnu" => Environment::Gnu,
            "gnuabi64" => Environment::Gnuabi64,
            "gnueabi" => Environment::Gnueabi,
            "gnueabihf" => Environment::Gnueabihf,
            "gnuspe" => Environment::Gnuspe,
            "gnux32" => Environment::Gnux32,
            "gnu_ilp32" => Environment::GnuIlp32,
            "gnullvm" => Environment::GnuLlvm,
            "hermitkernel" => Environment::HermitKernel,
            "hurdkernel" => Environment::HurdKernel,
            "linuxkernel" => Environment::LinuxKernel,
            "macabi" => Environment::Macabi,
            "musl" => Environment::Musl,
            "musleabi" => Environment::Musleabi,
            "musleabihf" => Environment::Musleabihf,
            "muslabi64" => Environment::Muslabi64,
            "msvc" => Environment::Msvc,
            "newlib" => Environment::Newlib,
            "none" => Environment::None,
            "kernel" => Environment::Kernel,
            "uclibc" => Environment::Uclibc,
            "uclibceabi" => Environment::Uclibceabi,
            "uclibceabihf" => Environment::Uclibceabihf,
            "sgx" => Environment::Sgx,
            "sim" => Environment::Sim,
            "softfloat" => Environment::Softfloat,
            "spe" => Environment::Spe,
            "threads" => Environment::Threads,
            "ohos" => Environment::Ohos,
            _ => return Err(()),
        })
    }
}
impl BinaryFormat {
    #[inline]
    pub(crate) fn from_str(s: &str) -> Result<Self, ()> {
        Ok(match s {
            "unknown" => BinaryFormat::Unknown,
            "elf" => BinaryFormat::Elf,
            "coff" => BinaryFormat::Coff,
            "macho" => BinaryFormat::Macho,
            "wasm" => BinaryFormat::Wasm,
            "xcoff" => BinaryFormat::Xcoff,
            _ => return Err(()),
        })
    }
}
impl Aarch64Architecture {
    #[inline]
    pub(crate) fn from_str(s: &str) -> Result<Self, ()> {
        Ok(match s {
            "arm64" => Aarch64Architecture::Aarch64,
            "aarch64" => Aarch64Architecture::Aarch64,
            "aarch64_be" => Aarch64Architecture::Aarch64be,
            _ => return Err(()),
        })
    }
}
impl ArmArchitecture {
    pub(crate) fn from_str(s: &str) -> Result<Self, ()> {
        Ok(match s {
            "arm" => ArmArchitecture::Arm,
            "armeb" => ArmArchitecture::Armeb,
            "armv4" => ArmArchitecture::Armv4,
            "armv4t" => ArmArchitecture::Armv4t,
            "armv5t" => ArmArchitecture::Armv5t,
            "armv5te" => ArmArchitecture::Armv5te,
            "armv5tej" => ArmArchitecture::Armv5tej,
            "armv6" => ArmArchitecture::Armv6,
            "armv6j" => ArmArchitecture::Armv6j,
            "armv6k" => ArmArchitecture::Armv6k,
            "armv6z" => ArmArchitecture::Armv6z,
            "armv6kz" => ArmArchitecture::Armv6kz,
            "armv6t2" => ArmArchitecture::Armv6t2,
            "armv6m" => ArmArchitecture::Armv6m,
            "armv7" => ArmArchitecture::Armv7,
            "armv7a" => ArmArchitecture::Armv7a,
            "armv7k" => ArmArchitecture::Armv7k,
            "armv7ve" => ArmArchitecture::Armv7ve,
            "armv7m" => ArmArchitecture::Armv7m,
            "armv7r" => ArmArchitecture::Armv7r,
            "armv7s" => ArmArchitecture::Armv7s,
            "armv8" => ArmArchitecture::Armv8,
            "armv8a" => ArmArchitecture::Armv8a,
            "armv8.1a" => ArmArchitecture::Armv8_1a,
            "armv8.2a" => ArmArchitecture::Armv8_2a,
            "armv8.3a" => ArmArchitecture::Armv8_3a,
            "armv8.4a" => ArmArchitecture::Armv8_4a,
            "armv8.5a" => ArmArchitecture::Armv8_5a,
            "armv8m.base" => ArmArchitecture::Armv8mBase,
            "armv8m.main" => ArmArchitecture::Armv8mMain,
            "armv8r" => ArmArchitecture::Armv8r,
            "armebv7r" => ArmArchitecture::Armebv7r,
            "thumbeb" => ArmArchitecture::Thumbeb,
            "thumbv4t" => ArmArchitecture::Thumbv4t,
            "thumbv5te" => ArmArchitecture::Thumbv5te,
            "thumbv6m" => ArmArchitecture::Thumbv6m,
            "thumbv7a" => ArmArchitecture::Thumbv7a,
            "thumbv7em" => ArmArchitecture::Thumbv7em,
            "thumbv7m" => ArmArchitecture::Thumbv7m,
            "thumbv7neon" => ArmArchitecture::Thumbv7neon,
            "thumbv8m.base" => ArmArchitecture::Thumbv8mBase,
            "thumbv8m.main" => ArmArchitecture::Thumbv8mMain,
            _ => return Err(()),
        })
    }
}
impl X86_32Architecture {
    #[inline]
    pub(crate) fn from_str(s: &str) -> Result<Self, ()> {
        Ok(match s {
            "i386" => X86_32Architecture::I386,
            "i586" => X86_32Architecture::I586,
            "i686" => X86_32Architecture::I686,
            _ => return Err(()),
        })
    }
}
impl Mips32Architecture {
    #[inline]
    pub(crate) fn from_str(s: &str) -> Result<Self, ()> {
        Ok(match s {
            "mips" => Mips32Architecture::Mips,
            "mipsel" => Mips32Architecture::Mipsel,
            "mipsisa32r6" => Mips32Architecture::Mipsisa32r6,
            "mipsisa32r6el" => Mips32Architecture::Mipsisa32r6el,
            _ => return Err(()),
        })
    }
}
impl Mips64Architecture {
    #[inline]
    pub(crate) fn from_str(s: &str) -> Result<Self, ()> {
        Ok(match s {
            "mips64" => Mips64Architecture::Mips64,
            "mips64el" => Mips64Architecture::Mips64el,
            "mipsisa64r6" => Mips64Architecture::Mipsisa64r6,
            "mipsisa64r6el" => Mips64Architecture::Mipsisa64r6el,
            _ => return Err(()),
        })
    }
}
impl Riscv32Architecture {
    pub(crate) fn from_str(s: &str) -> Result<Self, ()> {
        Ok(match s {
            "riscv32" => Riscv32Architecture::Riscv32,
            "riscv32gc" => Riscv32Architecture::Riscv32gc,
            "riscv32i" => Riscv32Architecture::Riscv32i,
            "riscv32im" => Riscv32Architecture::Riscv32im,
            "riscv32ima" => Riscv32Architecture::Riscv32ima,
            "riscv32imac" => Riscv32Architecture::Riscv32imac,
            "riscv32imafc" => Riscv32Architecture::Riscv32imafc,
            "riscv32imc" => Riscv32Architecture::Riscv32imc,
            _ => return Err(()),
        })
    }
}
impl Riscv64Architecture {
    #[inline]
    pub(crate) fn from_str(s: &str) -> Result<Self, ()> {
        Ok(match s {
            "riscv64" => Riscv64Architecture::Riscv64,
            "riscv64gc" => Riscv64Architecture::Riscv64gc,
            "riscv64imac" => Riscv64Architecture::Riscv64imac,
            "riscv64a23" => Riscv64Architecture::Riscv64a23,
            _ => return Err(()),
        })
    }
}
impl CleverArchitecture {
    #[inline]
    pub(crate) fn from_str(s: &str) -> Result<Self, ()> {
        Ok(match s {
            "clever" => CleverArchitecture::Clever,
            "clever1.0" => CleverArchitecture::Clever1_0,
            _ => return Err(()),
        })
    }
}
impl Z80Architecture {
    pub(crate) fn from_str(s: &str) -> Result<Self, ()> {
        Ok(match s {
            "z80" => Z80Architecture::Z80,
            "z180" => Z80Architecture::Z180,
            "ez80" => Z80Architecture::Ez80,
            "sm83" => Z80Architecture::Sm83,
            "rabbit2000" => Z80Architecture::Rabbit2000,
            "rabbit2000a" => Z80Architecture::Rabbit2000A,
            "rabbit3000" => Z80Architecture::Rabbit3000,
            "rabbit3000a" => Z80Architecture::Rabbit3000A,
            "tlcs90" => Z80Architecture::Tlcs90,
            "r800" => Z80Architecture::R800,
            _ => return Err(()),
        })
    }
}
// end of what is written
