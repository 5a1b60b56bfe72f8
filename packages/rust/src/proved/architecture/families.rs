// @generated: erased from crates/lexicon_fields/src/architecture/families.rt by tools/erase. Don't edit it here.
//! The families of architectures without queries of their own.

#[cfg(feature = "alloc")]
use alloc::borrow::Cow;
use core::fmt;
use core::str::FromStr;

/// A 32-bit x86 architecture.
///
/// # Examples
///
/// ```
/// use target_lexicon::{Architecture, X86_32Architecture};
///
/// let architecture: Architecture = "i586".parse().unwrap();
/// assert_eq!(architecture, Architecture::X86_32(X86_32Architecture::I586));
/// ```
#[non_exhaustive]
#[derive(Clone, Copy, Debug, PartialEq, Eq, Hash)]
pub enum X86_32Architecture {
    /// Intel's 80386 and later.
    I386,
    /// Intel's Pentium and later.
    I586,
    /// Intel's Pentium Pro and later.
    I686,
}

impl X86_32Architecture {
    /// The name. It is always borrowed.
    ///
    /// # Examples
    ///
    /// ```
    /// assert_eq!(target_lexicon::X86_32Architecture::I586.into_str(), "i586");
    /// ```
    #[inline]
    #[cfg(feature = "alloc")]
    pub fn into_str(self) -> Cow<'static, str> {
        Cow::Borrowed(self.name())
    }

    #[inline]
    pub(crate) const fn name(self) -> &'static str {
        match self {
            X86_32Architecture::I386 => "i386",
            X86_32Architecture::I586 => "i586",
            X86_32Architecture::I686 => "i686",
        }
    }
}

impl FromStr for X86_32Architecture {
    type Err = ();

    #[inline]
    fn from_str(s: &str) -> Result<X86_32Architecture, ()> {
        X86_32Architecture::from_str(s)
    }
}

impl fmt::Display for X86_32Architecture {
    #[inline]
    fn fmt(&self, f: &mut fmt::Formatter<'_>) -> fmt::Result {
        f.write_str(self.name())
    }
}

/// A 32-bit MIPS architecture.
///
/// # Examples
///
/// ```
/// use target_lexicon::{Architecture, Mips32Architecture};
///
/// let architecture: Architecture = "mipsel".parse().unwrap();
/// assert_eq!(architecture, Architecture::Mips32(Mips32Architecture::Mipsel));
/// ```
#[non_exhaustive]
#[derive(Clone, Copy, Debug, PartialEq, Eq, Hash)]
pub enum Mips32Architecture {
    /// Big-endian.
    Mips,
    /// Little-endian.
    Mipsel,
    /// Release 6, big-endian.
    Mipsisa32r6,
    /// Release 6, little-endian.
    Mipsisa32r6el,
}

impl Mips32Architecture {
    /// The name. It is always borrowed.
    ///
    /// # Examples
    ///
    /// ```
    /// assert_eq!(target_lexicon::Mips32Architecture::Mipsel.into_str(), "mipsel");
    /// ```
    #[inline]
    #[cfg(feature = "alloc")]
    pub fn into_str(self) -> Cow<'static, str> {
        Cow::Borrowed(self.name())
    }

    #[inline]
    pub(crate) const fn name(self) -> &'static str {
        match self {
            Mips32Architecture::Mips => "mips",
            Mips32Architecture::Mipsel => "mipsel",
            Mips32Architecture::Mipsisa32r6 => "mipsisa32r6",
            Mips32Architecture::Mipsisa32r6el => "mipsisa32r6el",
        }
    }
}

impl FromStr for Mips32Architecture {
    type Err = ();

    #[inline]
    fn from_str(s: &str) -> Result<Mips32Architecture, ()> {
        Mips32Architecture::from_str(s)
    }
}

impl fmt::Display for Mips32Architecture {
    #[inline]
    fn fmt(&self, f: &mut fmt::Formatter<'_>) -> fmt::Result {
        f.write_str(self.name())
    }
}

/// A 64-bit MIPS architecture.
///
/// # Examples
///
/// ```
/// use target_lexicon::{Architecture, Mips64Architecture};
///
/// let architecture: Architecture = "mips64el".parse().unwrap();
/// assert_eq!(architecture, Architecture::Mips64(Mips64Architecture::Mips64el));
/// ```
#[non_exhaustive]
#[derive(Clone, Copy, Debug, PartialEq, Eq, Hash)]
pub enum Mips64Architecture {
    /// Big-endian.
    Mips64,
    /// Little-endian.
    Mips64el,
    /// Release 6, big-endian.
    Mipsisa64r6,
    /// Release 6, little-endian.
    Mipsisa64r6el,
}

impl Mips64Architecture {
    /// The name. It is always borrowed.
    ///
    /// # Examples
    ///
    /// ```
    /// assert_eq!(target_lexicon::Mips64Architecture::Mips64el.into_str(), "mips64el");
    /// ```
    #[inline]
    #[cfg(feature = "alloc")]
    pub fn into_str(self) -> Cow<'static, str> {
        Cow::Borrowed(self.name())
    }

    #[inline]
    pub(crate) const fn name(self) -> &'static str {
        match self {
            Mips64Architecture::Mips64 => "mips64",
            Mips64Architecture::Mips64el => "mips64el",
            Mips64Architecture::Mipsisa64r6 => "mipsisa64r6",
            Mips64Architecture::Mipsisa64r6el => "mipsisa64r6el",
        }
    }
}

impl FromStr for Mips64Architecture {
    type Err = ();

    #[inline]
    fn from_str(s: &str) -> Result<Mips64Architecture, ()> {
        Mips64Architecture::from_str(s)
    }
}

impl fmt::Display for Mips64Architecture {
    #[inline]
    fn fmt(&self, f: &mut fmt::Formatter<'_>) -> fmt::Result {
        f.write_str(self.name())
    }
}

/// A 32-bit RISC-V architecture, by its extensions.
///
/// # Examples
///
/// ```
/// use target_lexicon::{Architecture, Riscv32Architecture};
///
/// let architecture: Architecture = "riscv32gc".parse().unwrap();
/// assert_eq!(architecture, Architecture::Riscv32(Riscv32Architecture::Riscv32gc));
/// ```
#[non_exhaustive]
#[derive(Clone, Copy, Debug, PartialEq, Eq, Hash)]
pub enum Riscv32Architecture {
    /// No stated extensions.
    Riscv32,
    /// The general extensions, `imafd`, and compressed instructions.
    Riscv32gc,
    /// The base integer instructions only.
    Riscv32i,
    /// The base instructions, with multiplication.
    Riscv32im,
    /// The base instructions, with multiplication and atomics.
    Riscv32ima,
    /// The base instructions, with multiplication, atomics and compressed instructions.
    Riscv32imac,
    /// The base instructions, with multiplication, atomics, single-precision floats and compressed instructions.
    Riscv32imafc,
    /// The base instructions, with multiplication and compressed instructions.
    Riscv32imc,
}

impl Riscv32Architecture {
    /// The name. It is always borrowed.
    ///
    /// # Examples
    ///
    /// ```
    /// assert_eq!(target_lexicon::Riscv32Architecture::Riscv32gc.into_str(), "riscv32gc");
    /// ```
    #[inline]
    #[cfg(feature = "alloc")]
    pub fn into_str(self) -> Cow<'static, str> {
        Cow::Borrowed(self.name())
    }

    #[inline]
    pub(crate) const fn name(self) -> &'static str {
        match self {
            Riscv32Architecture::Riscv32 => "riscv32",
            Riscv32Architecture::Riscv32gc => "riscv32gc",
            Riscv32Architecture::Riscv32i => "riscv32i",
            Riscv32Architecture::Riscv32im => "riscv32im",
            Riscv32Architecture::Riscv32ima => "riscv32ima",
            Riscv32Architecture::Riscv32imac => "riscv32imac",
            Riscv32Architecture::Riscv32imafc => "riscv32imafc",
            Riscv32Architecture::Riscv32imc => "riscv32imc",
        }
    }
}

impl FromStr for Riscv32Architecture {
    type Err = ();

    #[inline]
    fn from_str(s: &str) -> Result<Riscv32Architecture, ()> {
        Riscv32Architecture::from_str(s)
    }
}

impl fmt::Display for Riscv32Architecture {
    #[inline]
    fn fmt(&self, f: &mut fmt::Formatter<'_>) -> fmt::Result {
        f.write_str(self.name())
    }
}

/// A 64-bit RISC-V architecture, by its extensions.
///
/// # Examples
///
/// ```
/// use target_lexicon::{Architecture, Riscv64Architecture};
///
/// let architecture: Architecture = "riscv64gc".parse().unwrap();
/// assert_eq!(architecture, Architecture::Riscv64(Riscv64Architecture::Riscv64gc));
/// ```
#[non_exhaustive]
#[derive(Clone, Copy, Debug, PartialEq, Eq, Hash)]
pub enum Riscv64Architecture {
    /// No stated extensions.
    Riscv64,
    /// The general extensions, `imafd`, and compressed instructions.
    Riscv64gc,
    /// The base instructions, with multiplication, atomics and compressed instructions.
    Riscv64imac,
    /// The profile RVA23.
    Riscv64a23,
}

impl Riscv64Architecture {
    /// The name. It is always borrowed.
    ///
    /// # Examples
    ///
    /// ```
    /// assert_eq!(target_lexicon::Riscv64Architecture::Riscv64gc.into_str(), "riscv64gc");
    /// ```
    #[inline]
    #[cfg(feature = "alloc")]
    pub fn into_str(self) -> Cow<'static, str> {
        Cow::Borrowed(self.name())
    }

    #[inline]
    pub(crate) const fn name(self) -> &'static str {
        match self {
            Riscv64Architecture::Riscv64 => "riscv64",
            Riscv64Architecture::Riscv64gc => "riscv64gc",
            Riscv64Architecture::Riscv64imac => "riscv64imac",
            Riscv64Architecture::Riscv64a23 => "riscv64a23",
        }
    }
}

impl FromStr for Riscv64Architecture {
    type Err = ();

    #[inline]
    fn from_str(s: &str) -> Result<Riscv64Architecture, ()> {
        Riscv64Architecture::from_str(s)
    }
}

impl fmt::Display for Riscv64Architecture {
    #[inline]
    fn fmt(&self, f: &mut fmt::Formatter<'_>) -> fmt::Result {
        f.write_str(self.name())
    }
}

/// A Clever architecture.
///
/// # Examples
///
/// ```
/// use target_lexicon::{Architecture, CleverArchitecture};
///
/// let architecture: Architecture = "clever1.0".parse().unwrap();
/// assert_eq!(architecture, Architecture::Clever(CleverArchitecture::Clever1_0));
/// ```
#[non_exhaustive]
#[derive(Clone, Copy, Debug, PartialEq, Eq, Hash)]
pub enum CleverArchitecture {
    /// No stated version.
    Clever,
    /// Version 1.0.
    Clever1_0,
}

impl CleverArchitecture {
    /// The name. It is always borrowed.
    ///
    /// # Examples
    ///
    /// ```
    /// assert_eq!(target_lexicon::CleverArchitecture::Clever1_0.into_str(), "clever1.0");
    /// ```
    #[inline]
    #[cfg(feature = "alloc")]
    pub fn into_str(self) -> Cow<'static, str> {
        Cow::Borrowed(self.name())
    }

    #[inline]
    pub(crate) const fn name(self) -> &'static str {
        match self {
            CleverArchitecture::Clever => "clever",
            CleverArchitecture::Clever1_0 => "clever1.0",
        }
    }
}

impl FromStr for CleverArchitecture {
    type Err = ();

    #[inline]
    fn from_str(s: &str) -> Result<CleverArchitecture, ()> {
        CleverArchitecture::from_str(s)
    }
}

impl fmt::Display for CleverArchitecture {
    #[inline]
    fn fmt(&self, f: &mut fmt::Formatter<'_>) -> fmt::Result {
        f.write_str(self.name())
    }
}

/// An architecture of the Z80 family.
///
/// # Examples
///
/// ```
/// use target_lexicon::{Architecture, Z80Architecture};
///
/// let architecture: Architecture = "z180".parse().unwrap();
/// assert_eq!(architecture, Architecture::Z80(Z80Architecture::Z180));
/// ```
#[non_exhaustive]
#[derive(Clone, Copy, Debug, PartialEq, Eq, Hash)]
pub enum Z80Architecture {
    /// Zilog's Z80.
    Z80,
    /// Zilog's Z180.
    Z180,
    /// Zilog's eZ80.
    Ez80,
    /// Sharp's SM83, of the Game Boy.
    Sm83,
    /// The Rabbit 2000.
    Rabbit2000,
    /// The Rabbit 2000A.
    Rabbit2000A,
    /// The Rabbit 3000.
    Rabbit3000,
    /// The Rabbit 3000A.
    Rabbit3000A,
    /// Toshiba's TLCS-90.
    Tlcs90,
    /// ASCII's R800, of the MSX turbo R.
    R800,
}

impl Z80Architecture {
    /// The name. It is always borrowed.
    ///
    /// # Examples
    ///
    /// ```
    /// assert_eq!(target_lexicon::Z80Architecture::Z180.into_str(), "z180");
    /// ```
    #[inline]
    #[cfg(feature = "alloc")]
    pub fn into_str(self) -> Cow<'static, str> {
        Cow::Borrowed(self.name())
    }

    #[inline]
    pub(crate) const fn name(self) -> &'static str {
        match self {
            Z80Architecture::Z80 => "z80",
            Z80Architecture::Z180 => "z180",
            Z80Architecture::Ez80 => "ez80",
            Z80Architecture::Sm83 => "sm83",
            Z80Architecture::Rabbit2000 => "rabbit2000",
            Z80Architecture::Rabbit2000A => "rabbit2000a",
            Z80Architecture::Rabbit3000 => "rabbit3000",
            Z80Architecture::Rabbit3000A => "rabbit3000a",
            Z80Architecture::Tlcs90 => "tlcs90",
            Z80Architecture::R800 => "r800",
        }
    }
}

impl FromStr for Z80Architecture {
    type Err = ();

    #[inline]
    fn from_str(s: &str) -> Result<Z80Architecture, ()> {
        Z80Architecture::from_str(s)
    }
}

impl fmt::Display for Z80Architecture {
    #[inline]
    fn fmt(&self, f: &mut fmt::Formatter<'_>) -> fmt::Result {
        f.write_str(self.name())
    }
}
