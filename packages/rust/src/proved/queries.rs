// @generated: erased from crates/target_lexicon/src/queries.rt by tools/erase. Don't edit it here.
//! Queries for code generators.

use crate::proved::calling_convention::CallingConvention;
use crate::proved::data_model::CDataModel;
use crate::proved::triple::Triple;
use crate::proved::triple_ref::TripleRef;
use crate::proved::{
    Architecture, Endianness, Environment, KnownVendor, OperatingSystem, PointerWidth, VendorRef,
};

impl TripleRef<'_> {
    /// The byte order, as [`Triple::endianness`] says.
    ///
    /// # Errors
    ///
    /// `()` for the architecture `Unknown`.
    #[inline]
    pub(crate) const fn known_endianness(&self) -> Result<Endianness, ()> {
        self.architecture.endianness()
    }

    /// The width of a pointer, as [`Triple::pointer_width`] says.
    ///
    /// # Errors
    ///
    /// `()` if the width is that of the architecture, which is `Unknown`.
    #[inline]
    pub(crate) const fn known_pointer_width(&self) -> Result<PointerWidth, ()> {
        match self.environment {
            Environment::Gnux32 | Environment::GnuIlp32 => Ok(PointerWidth::U32),
            _ => self.architecture.pointer_width(),
        }
    }

    /// The calling convention, as [`Triple::default_calling_convention`] says.
    ///
    /// # Errors
    ///
    /// `()` if no convention is known.
    #[inline]
    pub(crate) const fn known_default_calling_convention(&self) -> Result<CallingConvention, ()> {
        match self.operating_system {
            OperatingSystem::Darwin(_)
            | OperatingSystem::IOS(_)
            | OperatingSystem::MacOSX(_)
            | OperatingSystem::TvOS(_)
            | OperatingSystem::VisionOS(_)
            | OperatingSystem::WatchOS(_)
            | OperatingSystem::XROS(_) => match self.architecture {
                Architecture::Aarch64(_) => Ok(CallingConvention::AppleAarch64),
                _ => Ok(CallingConvention::SystemV),
            },
            OperatingSystem::Aix
            | OperatingSystem::Bitrig
            | OperatingSystem::Cloudabi
            | OperatingSystem::Dragonfly
            | OperatingSystem::Freebsd
            | OperatingSystem::Fuchsia
            | OperatingSystem::Haiku
            | OperatingSystem::Hermit
            | OperatingSystem::Hurd
            | OperatingSystem::L4re
            | OperatingSystem::Linux
            | OperatingSystem::Netbsd
            | OperatingSystem::Openbsd
            | OperatingSystem::Redox
            | OperatingSystem::Solaris => Ok(CallingConvention::SystemV),
            OperatingSystem::Windows => Ok(CallingConvention::WindowsFastcall),
            OperatingSystem::Nebulet
            | OperatingSystem::Emscripten
            | OperatingSystem::Wasi
            | OperatingSystem::Unknown => match self.architecture {
                Architecture::Wasm32 => Ok(CallingConvention::WasmBasicCAbi),
                _ => Err(()),
            },
            OperatingSystem::AmdHsa
            | OperatingSystem::Cuda
            | OperatingSystem::Cygwin
            | OperatingSystem::Espidf
            | OperatingSystem::Horizon
            | OperatingSystem::Illumos
            | OperatingSystem::None_
            | OperatingSystem::Psp
            | OperatingSystem::SolidAsp3
            | OperatingSystem::Uefi
            | OperatingSystem::VxWorks
            | OperatingSystem::WasiP1
            | OperatingSystem::WasiP2 => Err(()),
        }
    }

    /// The data model of C, as [`Triple::data_model`] says.
    ///
    /// # Errors
    ///
    /// `()` if no model is known.
    #[inline]
    pub(crate) const fn known_data_model(&self) -> Result<CDataModel, ()> {
        match match self.known_pointer_width() {
            Ok(it) => it,
            Err(error) => return Err(error),
        } {
            PointerWidth::U64 => self.data_model_64(),
            PointerWidth::U32 => self.data_model_32(),
            PointerWidth::U16 => Err(()),
        }
    }

    /// Whether 64-bit machines have the data model LLP64 on the system, whatever its calling convention is.
    #[inline]
    const fn has_llp64(&self) -> bool {
        matches!(self.operating_system, OperatingSystem::Windows)
    }

    /// The data model for pointers of 64 bits.
    #[inline]
    const fn data_model_64(&self) -> Result<CDataModel, ()> {
        if self.has_llp64() {
            return Ok(CDataModel::LLP64);
        }
        match self.architecture {
            Architecture::Wasm64 => Ok(CDataModel::LP64),
            _ => {
                let convention = match self.known_default_calling_convention() {
                    Ok(it) => it,
                    Err(error) => return Err(error),
                };
                match convention {
                    CallingConvention::SystemV | CallingConvention::AppleAarch64 => {
                        Ok(CDataModel::LP64)
                    }
                    _ => Err(()),
                }
            }
        }
    }

    /// Whether 32-bit machines have the data model ILP32 on the system, whatever its calling convention is.
    #[inline]
    const fn has_ilp32(&self) -> bool {
        matches!(self.operating_system, OperatingSystem::Windows)
    }

    /// The data model for pointers of 32 bits.
    #[inline]
    const fn data_model_32(&self) -> Result<CDataModel, ()> {
        if self.has_ilp32() {
            return Ok(CDataModel::ILP32);
        }
        match self.architecture {
            Architecture::Wasm32 => Ok(CDataModel::ILP32),
            _ => {
                let convention = match self.known_default_calling_convention() {
                    Ok(it) => it,
                    Err(error) => return Err(error),
                };
                match convention {
                    CallingConvention::SystemV => Ok(CDataModel::ILP32),
                    _ => Err(()),
                }
            }
        }
    }
}

impl Triple {
    /// The same triple with an unknown vendor, at which no query looks.
    #[inline]
    pub(crate) const fn without_vendor(&self) -> TripleRef<'static> {
        TripleRef {
            architecture: self.architecture,
            vendor: VendorRef::Known(KnownVendor::Unknown),
            operating_system: self.operating_system,
            environment: self.environment,
            binary_format: self.binary_format,
        }
    }

    /// The byte order of the architecture.
    ///
    /// # Errors
    ///
    /// `()` for the architecture `Unknown`.
    ///
    /// # Examples
    ///
    /// ```
    /// use target_lexicon::{Architecture, Endianness, Triple};
    ///
    /// let triple = Triple { architecture: Architecture::S390x, ..Triple::unknown() };
    /// assert_eq!(triple.endianness(), Ok(Endianness::Big));
    /// ```
    #[inline]
    pub const fn endianness(&self) -> Result<Endianness, ()> {
        self.without_vendor().known_endianness()
    }

    /// The width of a pointer: 32 bits in the environments `Gnux32` and `GnuIlp32`, in every other environment the
    /// width of the architecture.
    ///
    /// # Errors
    ///
    /// `()` if the width is that of the architecture, which is `Unknown`.
    ///
    /// # Examples
    ///
    /// ```
    /// use target_lexicon::{Architecture, Environment, PointerWidth, Triple};
    ///
    /// let mut triple = Triple { architecture: Architecture::X86_64, ..Triple::unknown() };
    /// assert_eq!(triple.pointer_width(), Ok(PointerWidth::U64));
    /// triple.environment = Environment::Gnux32;
    /// assert_eq!(triple.pointer_width(), Ok(PointerWidth::U32));
    /// ```
    #[inline]
    pub const fn pointer_width(&self) -> Result<PointerWidth, ()> {
        self.without_vendor().known_pointer_width()
    }

    /// The calling convention. It depends on the operating system, and on systems like Darwin and those that run
    /// WebAssembly also on the architecture.
    ///
    /// # Errors
    ///
    /// `()` if no convention is known, for instance on `WasiP1`, `WasiP2`, `Illumos` and `Cygwin`.
    ///
    /// # Examples
    ///
    /// ```
    /// use target_lexicon::{CallingConvention, OperatingSystem, Triple};
    ///
    /// let triple = Triple { operating_system: OperatingSystem::Linux, ..Triple::unknown() };
    /// assert_eq!(triple.default_calling_convention(), Ok(CallingConvention::SystemV));
    /// assert_eq!(Triple::unknown().default_calling_convention(), Err(()));
    /// ```
    #[inline]
    pub const fn default_calling_convention(&self) -> Result<CallingConvention, ()> {
        self.without_vendor().known_default_calling_convention()
    }

    /// The data model of C. It depends on the pointer width, the operating system, the calling convention and the
    /// architecture.
    ///
    /// # Errors
    ///
    /// `()` if no model is known, for instance for pointers of 16 bits.
    ///
    /// # Examples
    ///
    /// ```
    /// use target_lexicon::{Architecture, CDataModel, OperatingSystem, Triple};
    ///
    /// let mut triple = Triple { architecture: Architecture::X86_64, ..Triple::unknown() };
    /// assert_eq!(triple.data_model(), Err(()));
    /// triple.operating_system = OperatingSystem::Windows;
    /// assert_eq!(triple.data_model(), Ok(CDataModel::LLP64));
    /// ```
    #[inline]
    pub const fn data_model(&self) -> Result<CDataModel, ()> {
        self.without_vendor().known_data_model()
    }
}
