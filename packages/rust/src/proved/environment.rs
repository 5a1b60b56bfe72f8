// @generated: erased from crates/lexicon_fields/src/environment.rt by tools/erase. Don't edit it here.
//! The environments.

#[cfg(feature = "alloc")]
use alloc::borrow::Cow;
use core::fmt;
use core::str::FromStr;

/// The environment on an operating system, such as its ABI or C library.
///
/// # Examples
///
/// ```
/// use target_lexicon::{Environment, TripleRef};
///
/// let triple = TripleRef::from_str("x86_64-unknown-linux-musl").unwrap();
/// assert_eq!(triple.environment, Environment::Musl);
/// ```
#[non_exhaustive]
#[derive(Clone, Copy, Debug, PartialEq, Eq, Hash)]
pub enum Environment {
    /// An environment that the string doesn't say.
    Unknown,
    /// AMD graphics processors where the generic address space is number 0.
    AmdGiz,
    /// Android's C library, Bionic.
    Android,
    /// Android on 32-bit Arm, with Arm's embedded ABI.
    Androideabi,
    /// Arm's embedded ABI, which passes floating-point arguments in integer registers.
    Eabi,
    /// Arm's embedded ABI, which passes floating-point arguments in floating-point registers.
    Eabihf,
    /// The GNU C library; on Windows, MinGW.
    Gnu,
    /// GNU, with the 64-bit ABI of MIPS.
    Gnuabi64,
    /// GNU, with Arm's embedded ABI without floating-point registers.
    Gnueabi,
    /// GNU, with Arm's embedded ABI with floating-point registers.
    Gnueabihf,
    /// GNU, with the signal processing engine of PowerPC.
    Gnuspe,
    /// GNU, with 32-bit pointers on 64-bit x86.
    Gnux32,
    /// GNU, with 32-bit pointers on 64-bit Arm.
    GnuIlp32,
    /// MinGW, with LLVM's tools and libraries.
    GnuLlvm,
    /// The kernel of Hermit.
    HermitKernel,
    /// The kernel of Hurd.
    HurdKernel,
    /// The kernel of Linux.
    LinuxKernel,
    /// Mac Catalyst: an iOS program on macOS.
    Macabi,
    /// The C library musl.
    Musl,
    /// Musl, with Arm's embedded ABI without floating-point registers.
    Musleabi,
    /// Musl, with Arm's embedded ABI with floating-point registers.
    Musleabihf,
    /// Musl, with the 64-bit ABI of MIPS.
    Muslabi64,
    /// Microsoft's Visual C++.
    Msvc,
    /// The C library Newlib, of embedded systems.
    Newlib,
    /// No environment, if the string says so. A string that names none has `Unknown`.
    None,
    /// The kernel of the operating system.
    Kernel,
    /// The C library uClibc.
    Uclibc,
    /// uClibc, with Arm's embedded ABI without floating-point registers.
    Uclibceabi,
    /// uClibc, with Arm's embedded ABI with floating-point registers.
    Uclibceabihf,
    /// An enclave of Intel SGX.
    Sgx,
    /// Apple's simulators.
    Sim,
    /// Floating-point numbers are computed by software.
    Softfloat,
    /// The signal processing engine of PowerPC.
    Spe,
    /// WASI with threads.
    Threads,
    /// OpenHarmony.
    Ohos,
}

impl Environment {
    /// The name. It is always borrowed.
    ///
    /// # Examples
    ///
    /// ```
    /// assert_eq!(target_lexicon::Environment::Msvc.into_str(), "msvc");
    /// ```
    #[inline]
    #[cfg(feature = "alloc")]
    pub fn into_str(self) -> Cow<'static, str> {
        Cow::Borrowed(self.name())
    }

    /// The name.
    pub(crate) const fn name(self) -> &'static str {
        match self {
            Environment::Unknown => "unknown",
            Environment::AmdGiz => "amdgiz",
            Environment::Android => "android",
            Environment::Androideabi => "androideabi",
            Environment::Eabi => "eabi",
            Environment::Eabihf => "eabihf",
            Environment::Gnu => "gnu",
            Environment::Gnuabi64 => "gnuabi64",
            Environment::Gnueabi => "gnueabi",
            Environment::Gnueabihf => "gnueabihf",
            Environment::Gnuspe => "gnuspe",
            Environment::Gnux32 => "gnux32",
            Environment::GnuIlp32 => "gnu_ilp32",
            Environment::GnuLlvm => "gnullvm",
            Environment::HermitKernel => "hermitkernel",
            Environment::HurdKernel => "hurdkernel",
            Environment::LinuxKernel => "linuxkernel",
            Environment::Macabi => "macabi",
            Environment::Musl => "musl",
            Environment::Musleabi => "musleabi",
            Environment::Musleabihf => "musleabihf",
            Environment::Muslabi64 => "muslabi64",
            Environment::Msvc => "msvc",
            Environment::Newlib => "newlib",
            Environment::None => "none",
            Environment::Kernel => "kernel",
            Environment::Uclibc => "uclibc",
            Environment::Uclibceabi => "uclibceabi",
            Environment::Uclibceabihf => "uclibceabihf",
            Environment::Sgx => "sgx",
            Environment::Sim => "sim",
            Environment::Softfloat => "softfloat",
            Environment::Spe => "spe",
            Environment::Threads => "threads",
            Environment::Ohos => "ohos",
        }
    }
}

impl FromStr for Environment {
    type Err = ();

    fn from_str(s: &str) -> Result<Environment, ()> {
        Environment::from_str(s)
    }
}

impl fmt::Display for Environment {
    fn fmt(&self, f: &mut fmt::Formatter<'_>) -> fmt::Result {
        f.write_str(self.name())
    }
}
