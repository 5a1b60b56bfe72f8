//! What upstream's types have here and not there, as traits: a method of a trait that a program doesn't import changes
//! nothing in it, and a method of the type would take precedence over one of the program's own traits.
use crate::{
    Architecture, BinaryFormat, CDataModel, CallingConvention, DeploymentTarget, Endianness,
    Environment, OperatingSystem, PointerWidth, RoundTripException, Triple, TripleRef, Upstream,
};
#[cfg(feature = "alloc")]
use crate::{Field, NotPlain, ParseError, ParseTripleError};

/// Only these types have the traits, so that a later version can add calls.
mod sealed {
    pub trait Sealed {}
}
use sealed::Sealed;

/// The calls of a [`Triple`] that upstream doesn't have. A [`TripleRef`] has them itself.
pub trait TripleExt: Sealed + Sized {
    /// The triple that a string parses as. It is that of `str::parse`, with an error that shows the place and owns the
    /// string.
    ///
    /// # Errors
    ///
    /// [`ParseTripleError`] if the string is refused.
    ///
    /// # Examples
    ///
    /// ```
    /// use target_lexicon::{OperatingSystem, ParseTripleError, Triple, TripleExt};
    ///
    /// fn is_windows(target: String) -> Result<bool, ParseTripleError> {
    ///     Ok(Triple::parse(&target)?.operating_system == OperatingSystem::Windows)
    /// }
    ///
    /// assert_eq!(is_windows("x86_64-pc-windows-msvc".into()), Ok(true));
    /// assert_eq!(is_windows("x86_64-pc-window".into()).unwrap_err().part(), "window");
    /// ```
    #[cfg(feature = "alloc")]
    fn parse(text: &str) -> Result<Self, ParseTripleError>;

    /// The same triple, borrowed: the same as `TripleRef::from(&triple)`.
    ///
    /// # Examples
    ///
    /// ```
    /// use target_lexicon::{triple, TripleExt, TripleRef};
    ///
    /// let triple = triple!("x86_64-linux");
    /// assert_eq!(Ok(triple.as_triple_ref()), TripleRef::from_str("x86_64-linux"));
    /// ```
    #[must_use]
    fn as_triple_ref(&self) -> TripleRef<'_>;

    /// Whether the triple comes back: printed and parsed again, it is itself. It does unless one of the five exceptions
    /// of [`RoundTripException`]. Nothing is allocated.
    ///
    /// # Examples
    ///
    /// ```
    /// use target_lexicon::{triple, TripleExt};
    ///
    /// assert!(triple!("x86_64-unknown-linux-gnu").comes_back());
    /// assert!(!triple!("armv7-nintendo-horizon-newlib").comes_back());
    /// ```
    #[must_use]
    fn comes_back(&self) -> bool;

    /// The first exception that applies to the triple. `None` if it comes back. Nothing is allocated.
    ///
    /// # Examples
    ///
    /// ```
    /// use target_lexicon::{triple, RoundTripException, TripleExt};
    ///
    /// assert_eq!(triple!("x86_64-unknown-linux-gnu").round_trip_exception(), None);
    /// let exception = triple!("armv7-nintendo-horizon-newlib").round_trip_exception();
    /// assert_eq!(exception, Some(RoundTripException::HidesNewlib));
    /// ```
    #[must_use]
    fn round_trip_exception(&self) -> Option<RoundTripException>;

    /// The canonical form of the triple, which is what its printed string parses as. It comes back, and two canonical
    /// triples with the same string are the same, so the string serves as a key. A triple that
    /// [`comes_back`](TripleExt::comes_back) is unchanged.
    ///
    /// # Errors
    ///
    /// [`NotPlain`] if no string parses as the vendor: see [`VendorRef::is_plain`](crate::VendorRef::is_plain).
    ///
    /// # Examples
    ///
    /// ```
    /// use target_lexicon::{Triple, TripleExt};
    ///
    /// let triple: Triple = "riscv32imc-esp-espidf-elf".parse().unwrap();
    /// let settled = triple.clone().settle()?;
    /// assert_eq!(settled.to_string(), "riscv32imc-esp-espidf");
    /// assert_eq!(triple.to_string().parse(), Ok(settled));
    /// # Ok::<(), target_lexicon::NotPlain>(())
    /// ```
    #[cfg(feature = "alloc")]
    fn settle(self) -> Result<Self, NotPlain>;

    /// Whether both triples have the same canonical form. Nothing is moved, copied or allocated. A triple whose vendor
    /// isn't plain may have one here too, but its string is no key.
    ///
    /// # Examples
    ///
    /// ```
    /// use target_lexicon::{triple, TripleExt};
    ///
    /// let (one, other) = (triple!("riscv32imc-esp-espidf"), triple!("riscv32imc-esp-espidf-elf"));
    /// assert_ne!(one, other);
    /// assert!(one.settles_as(&other));
    /// ```
    #[must_use]
    fn settles_as<'t>(&self, other: impl Into<TripleRef<'t>>) -> bool;

    /// The triple as upstream prints it: `Display` of what is returned writes that. It differs from what `Display` of
    /// the triple writes only if environment and format are both unknown and another format is implied. Nothing is
    /// allocated.
    ///
    /// # Examples
    ///
    /// ```
    /// use target_lexicon::{triple, TripleExt};
    ///
    /// let triple = triple!("x86_64-unknown-linux-unknown-unknown");
    /// assert_eq!(triple.to_string(), "x86_64-unknown-linux-unknown-unknown");
    /// assert_eq!(triple.upstream().to_string(), "x86_64-unknown-linux-unknown");
    /// ```
    #[must_use]
    fn upstream(&self) -> Upstream<'_>;
}

impl Sealed for Triple {}

impl TripleExt for Triple {
    #[cfg(feature = "alloc")]
    #[inline]
    fn parse(text: &str) -> Result<Self, ParseTripleError> {
        match TripleRef::parse(text) {
            Ok(triple) => Ok(triple.to_triple()),
            Err(error) => Err(error),
        }
    }

    #[inline]
    fn as_triple_ref(&self) -> TripleRef<'_> {
        // The call of the type itself, which only this crate sees, comes first.
        self.as_triple_ref()
    }

    #[inline]
    fn comes_back(&self) -> bool {
        self.as_triple_ref().comes_back()
    }

    #[inline]
    fn round_trip_exception(&self) -> Option<RoundTripException> {
        self.as_triple_ref().round_trip_exception()
    }

    #[cfg(feature = "alloc")]
    #[inline]
    fn settle(self) -> Result<Self, NotPlain> {
        if self.vendor.is_plain() {
            Ok(self.step())
        } else {
            Err(NotPlain(self))
        }
    }

    #[inline]
    fn settles_as<'t>(&self, other: impl Into<TripleRef<'t>>) -> bool {
        self.as_triple_ref().settles_as(other)
    }

    #[inline]
    fn upstream(&self) -> Upstream<'_> {
        self.as_triple_ref().upstream()
    }
}

/// The name of a value.
pub trait Named: Sealed {
    /// The name, which is displayed too.
    ///
    /// # Examples
    ///
    /// ```
    /// use target_lexicon::{Architecture, Named};
    ///
    /// assert_eq!(Architecture::Bpfel.name(), "bpfel");
    /// ```
    #[must_use]
    fn name(self) -> &'static str;
}

macro_rules! named {
    ($($value:ident)*) => {$(
        impl Sealed for $value {}

        impl Named for $value {
            #[inline]
            fn name(self) -> &'static str {
                self.name()
            }
        }
    )*};
}

named!(Architecture Environment BinaryFormat Endianness PointerWidth CallingConvention CDataModel);

/// The two pieces of an operating system's name.
pub trait OperatingSystemExt: Sealed {
    /// The name without a version.
    ///
    /// # Examples
    ///
    /// ```
    /// use target_lexicon::{OperatingSystem, OperatingSystemExt};
    ///
    /// assert_eq!(OperatingSystem::Linux.prefix(), "linux");
    /// ```
    #[must_use]
    fn prefix(self) -> &'static str;

    /// The version in the name, which only systems like Darwin have.
    ///
    /// # Examples
    ///
    /// ```
    /// use target_lexicon::{OperatingSystem, OperatingSystemExt};
    ///
    /// assert_eq!(OperatingSystem::IOS(None).version(), None);
    /// ```
    #[must_use]
    fn version(self) -> Option<DeploymentTarget>;
}

impl Sealed for OperatingSystem {}

impl OperatingSystemExt for OperatingSystem {
    #[inline]
    fn prefix(self) -> &'static str {
        self.prefix()
    }

    #[inline]
    fn version(self) -> Option<DeploymentTarget> {
        self.version()
    }
}

/// The calls of a [`ParseError`] that upstream doesn't have. A [`ParseTripleError`] has them itself.
#[cfg(feature = "alloc")]
pub trait ParseErrorExt: Sealed {
    /// The field that was expected: this one or a later one. After a binary format none was, and it is `None`.
    ///
    /// # Examples
    ///
    /// ```
    /// use target_lexicon::{Field, ParseErrorExt, Triple};
    ///
    /// let error = "x86_64-foo-bar".parse::<Triple>().unwrap_err();
    /// assert_eq!(error.expected(), Some(Field::OperatingSystem));
    /// ```
    #[must_use]
    fn expected(&self) -> Option<Field>;

    /// The refused part.
    ///
    /// # Examples
    ///
    /// ```
    /// use target_lexicon::{ParseErrorExt, Triple};
    ///
    /// let error = "x86_64-foo-bar".parse::<Triple>().unwrap_err();
    /// assert_eq!(error.part(), "bar");
    /// ```
    #[must_use]
    fn part(&self) -> &str;
}

#[cfg(feature = "alloc")]
impl Sealed for ParseError {}

#[cfg(feature = "alloc")]
impl ParseErrorExt for ParseError {
    fn expected(&self) -> Option<Field> {
        match self {
            ParseError::UnrecognizedArchitecture(_) => Some(Field::Architecture),
            ParseError::UnrecognizedVendor(_) => Some(Field::Vendor),
            ParseError::UnrecognizedOperatingSystem(_) => Some(Field::OperatingSystem),
            ParseError::UnrecognizedEnvironment(_) => Some(Field::Environment),
            ParseError::UnrecognizedBinaryFormat(_) => Some(Field::BinaryFormat),
            ParseError::UnrecognizedField(_) => None,
        }
    }

    fn part(&self) -> &str {
        match self {
            ParseError::UnrecognizedArchitecture(part)
            | ParseError::UnrecognizedVendor(part)
            | ParseError::UnrecognizedOperatingSystem(part)
            | ParseError::UnrecognizedEnvironment(part)
            | ParseError::UnrecognizedBinaryFormat(part)
            | ParseError::UnrecognizedField(part) => part,
        }
    }
}
