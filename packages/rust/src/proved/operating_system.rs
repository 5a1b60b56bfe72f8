// @generated: erased from crates/lexicon_fields/src/operating_system.rt by tools/erase. Don't edit it here.
//! The operating systems.

use crate::proved::deployment_target::{version_text, DeploymentTarget, MAX_VERSION_LENGTH};
use core::fmt;
use core::str::FromStr;

/// The operating system. One like Darwin can have the version of its deployment target.
///
/// # Examples
///
/// ```
/// use target_lexicon::{OperatingSystem, TripleRef};
///
/// let triple = TripleRef::from_str("x86_64-apple-macosx10.7").unwrap();
/// match triple.operating_system {
///     OperatingSystem::MacOSX(Some(version)) => assert_eq!((version.major, version.minor), (10, 7)),
///     other => panic!("{other}"),
/// }
/// ```
#[non_exhaustive]
#[derive(Clone, Copy, Debug, PartialEq, Eq, Hash)]
pub enum OperatingSystem {
    /// A system that the string doesn't say.
    Unknown,
    /// IBM's AIX.
    Aix,
    /// AMD's HSA runtime, on graphics processors.
    AmdHsa,
    /// Bitrig, a fork of OpenBSD.
    Bitrig,
    /// Nuxi's CloudABI.
    Cloudabi,
    /// NVIDIA's CUDA.
    Cuda,
    /// Cygwin, on Windows.
    Cygwin,
    /// macOS, as `rustc` names it; the version is that of the Darwin kernel.
    Darwin(Option<DeploymentTarget>),
    /// DragonFly BSD.
    Dragonfly,
    /// Emscripten, in browsers and Node.js.
    Emscripten,
    /// ESP-IDF, Espressif's framework.
    Espidf,
    /// FreeBSD.
    Freebsd,
    /// Google's Fuchsia.
    Fuchsia,
    /// Haiku, the successor of BeOS.
    Haiku,
    /// The unikernel Hermit.
    Hermit,
    /// Horizon, of Nintendo's 3DS and Switch.
    Horizon,
    /// GNU Hurd.
    Hurd,
    /// illumos, the successor of OpenSolaris.
    Illumos,
    /// Apple's iOS.
    IOS(Option<DeploymentTarget>),
    /// L4Re, the L4 Runtime Environment.
    L4re,
    /// Linux; the environment says with which C library.
    Linux,
    /// macOS under LLVM's own name; `rustc` says `Darwin`.
    MacOSX(Option<DeploymentTarget>),
    /// Nebulet, a microkernel that runs WebAssembly.
    Nebulet,
    /// NetBSD.
    Netbsd,
    /// No operating system, if the string says so.
    None_,
    /// OpenBSD.
    Openbsd,
    /// Sony's PlayStation Portable.
    Psp,
    /// Redox, which is written in Rust.
    Redox,
    /// Oracle Solaris.
    Solaris,
    /// SOLID-OS/ASP3, a real-time system of Kyoto Microcomputer.
    SolidAsp3,
    /// Apple's tvOS.
    TvOS(Option<DeploymentTarget>),
    /// No system: a program that UEFI firmware runs.
    Uefi,
    /// Apple's visionOS.
    VisionOS(Option<DeploymentTarget>),
    /// Wind River's VxWorks.
    VxWorks,
    /// WASI of no stated version.
    Wasi,
    /// WASI 0.1, preview 1.
    WasiP1,
    /// WASI 0.2, preview 2.
    WasiP2,
    /// Apple's watchOS.
    WatchOS(Option<DeploymentTarget>),
    /// Windows; the environment says with which toolchain.
    Windows,
    /// visionOS under LLVM's own name; `rustc` says `VisionOS`.
    XROS(Option<DeploymentTarget>),
}

impl OperatingSystem {
    /// The system like Darwin with whose prefix the string begins. The rest of the string must be empty or a version.
    pub(crate) fn parse_darwin_like(s: &str) -> Option<Self> {
        if let Some(version) = version_after("darwin", s) {
            return Some(OperatingSystem::Darwin(version));
        }
        if let Some(version) = version_after("ios", s) {
            return Some(OperatingSystem::IOS(version));
        }
        if let Some(version) = version_after("macosx", s) {
            return Some(OperatingSystem::MacOSX(version));
        }
        if let Some(version) = version_after("tvos", s) {
            return Some(OperatingSystem::TvOS(version));
        }
        if let Some(version) = version_after("visionos", s) {
            return Some(OperatingSystem::VisionOS(version));
        }
        if let Some(version) = version_after("watchos", s) {
            return Some(OperatingSystem::WatchOS(version));
        }
        if let Some(version) = version_after("xros", s) {
            return Some(OperatingSystem::XROS(version));
        }
        None
    }

    /// Whether the system is like Darwin.
    ///
    /// # Examples
    ///
    /// ```
    /// use target_lexicon::OperatingSystem;
    ///
    /// assert!(OperatingSystem::TvOS(None).is_like_darwin());
    /// assert!(!OperatingSystem::Linux.is_like_darwin());
    /// ```
    pub const fn is_like_darwin(&self) -> bool {
        matches!(
            self,
            OperatingSystem::Darwin(_)
                | OperatingSystem::IOS(_)
                | OperatingSystem::MacOSX(_)
                | OperatingSystem::TvOS(_)
                | OperatingSystem::VisionOS(_)
                | OperatingSystem::WatchOS(_)
                | OperatingSystem::XROS(_)
        )
    }

    /// The name without the version.
    pub(crate) const fn prefix(self) -> &'static str {
        match self {
            OperatingSystem::Unknown => "unknown",
            OperatingSystem::Aix => "aix",
            OperatingSystem::AmdHsa => "amdhsa",
            OperatingSystem::Bitrig => "bitrig",
            OperatingSystem::Cloudabi => "cloudabi",
            OperatingSystem::Cuda => "cuda",
            OperatingSystem::Cygwin => "cygwin",
            OperatingSystem::Darwin(_) => "darwin",
            OperatingSystem::Dragonfly => "dragonfly",
            OperatingSystem::Emscripten => "emscripten",
            OperatingSystem::Espidf => "espidf",
            OperatingSystem::Freebsd => "freebsd",
            OperatingSystem::Fuchsia => "fuchsia",
            OperatingSystem::Haiku => "haiku",
            OperatingSystem::Hermit => "hermit",
            OperatingSystem::Horizon => "horizon",
            OperatingSystem::Hurd => "hurd",
            OperatingSystem::Illumos => "illumos",
            OperatingSystem::IOS(_) => "ios",
            OperatingSystem::L4re => "l4re",
            OperatingSystem::Linux => "linux",
            OperatingSystem::MacOSX(_) => "macosx",
            OperatingSystem::Nebulet => "nebulet",
            OperatingSystem::Netbsd => "netbsd",
            OperatingSystem::None_ => "none",
            OperatingSystem::Openbsd => "openbsd",
            OperatingSystem::Psp => "psp",
            OperatingSystem::Redox => "redox",
            OperatingSystem::Solaris => "solaris",
            OperatingSystem::SolidAsp3 => "solid_asp3",
            OperatingSystem::TvOS(_) => "tvos",
            OperatingSystem::Uefi => "uefi",
            OperatingSystem::VisionOS(_) => "visionos",
            OperatingSystem::VxWorks => "vxworks",
            OperatingSystem::Wasi => "wasi",
            OperatingSystem::WasiP1 => "wasip1",
            OperatingSystem::WasiP2 => "wasip2",
            OperatingSystem::WatchOS(_) => "watchos",
            OperatingSystem::Windows => "windows",
            OperatingSystem::XROS(_) => "xros",
        }
    }

    /// The version of the deployment target. Only a system like Darwin can have one.
    pub(crate) const fn version(self) -> Option<DeploymentTarget> {
        match self {
            OperatingSystem::Darwin(version)
            | OperatingSystem::IOS(version)
            | OperatingSystem::MacOSX(version)
            | OperatingSystem::TvOS(version)
            | OperatingSystem::VisionOS(version)
            | OperatingSystem::WatchOS(version)
            | OperatingSystem::XROS(version) => version,
            _ => None,
        }
    }
}

/// The version after this prefix: `Some(None)` if nothing follows, `None` if the string doesn't begin with the prefix,
/// or if what follows is no version.
fn version_after(prefix: &str, text: &str) -> Option<Option<DeploymentTarget>> {
    let rest = text.strip_prefix(prefix)?;
    if rest.is_empty() {
        return Some(None);
    }
    Some(Some(DeploymentTarget::from_text(rest)?))
}

impl FromStr for OperatingSystem {
    type Err = ();

    #[inline]
    fn from_str(s: &str) -> Result<OperatingSystem, ()> {
        OperatingSystem::from_str(s)
    }
}

impl fmt::Display for OperatingSystem {
    fn fmt(&self, f: &mut fmt::Formatter<'_>) -> fmt::Result {
        f.write_str(self.prefix())?;
        match self.version() {
            None => Ok(()),
            Some(version) => f.write_str(version_text(version, &mut [0; MAX_VERSION_LENGTH])),
        }
    }
}
