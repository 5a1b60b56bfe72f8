//! The queries of a [`TripleRef`], with an error that has a name. Those of a `Triple` are upstream's, whose error is
//! `()`.
use crate::{CDataModel, CallingConvention, Endianness, PointerWidth, TripleRef};
use core::fmt;

/// The question that has no answer for a triple.
///
/// # Examples
///
/// ```
/// use target_lexicon::{NoAnswer, TripleRef};
///
/// let error = TripleRef::unknown().endianness().unwrap_err();
/// assert_eq!(error, NoAnswer::Endianness);
/// assert_eq!(error.to_string(), "The byte order of the target is unknown");
/// ```
// It takes a byte, so an answer is returned in a register.
#[derive(Clone, Copy, Debug, PartialEq, Eq, Hash)]
#[non_exhaustive]
pub enum NoAnswer {
    /// The byte order is unknown.
    Endianness,
    /// The width of a pointer is unknown.
    PointerWidth,
    /// The calling convention is unknown.
    CallingConvention,
    /// The data model of C is unknown.
    DataModel,
}

impl fmt::Display for NoAnswer {
    #[inline]
    fn fmt(&self, f: &mut fmt::Formatter<'_>) -> fmt::Result {
        f.write_str(match self {
            NoAnswer::Endianness => "The byte order of the target is unknown",
            NoAnswer::PointerWidth => "The pointer width of the target is unknown",
            NoAnswer::CallingConvention => "The calling convention of the target is unknown",
            NoAnswer::DataModel => "The data model of C of the target is unknown",
        })
    }
}

impl TripleRef<'_> {
    /// The byte order, as [`Triple::endianness`](crate::Triple::endianness) says.
    ///
    /// # Errors
    ///
    /// [`NoAnswer::Endianness`] for the architecture `Unknown`.
    ///
    /// # Examples
    ///
    /// ```
    /// use target_lexicon::{Endianness, TripleRef};
    ///
    /// let triple = TripleRef::from_str("s390x-unknown-linux-gnu").unwrap();
    /// assert_eq!(triple.endianness(), Ok(Endianness::Big));
    /// ```
    #[inline]
    pub const fn endianness(&self) -> Result<Endianness, NoAnswer> {
        match self.known_endianness() {
            Ok(answer) => Ok(answer),
            Err(()) => Err(NoAnswer::Endianness),
        }
    }

    /// The width of a pointer, as [`Triple::pointer_width`](crate::Triple::pointer_width) says.
    ///
    /// # Errors
    ///
    /// [`NoAnswer::PointerWidth`] if the width is that of the architecture, which is `Unknown`.
    ///
    /// # Examples
    ///
    /// ```
    /// use target_lexicon::{PointerWidth, TripleRef};
    ///
    /// let triple = TripleRef::from_str("avr-unknown-none").unwrap();
    /// assert_eq!(triple.pointer_width(), Ok(PointerWidth::U16));
    /// ```
    #[inline]
    pub const fn pointer_width(&self) -> Result<PointerWidth, NoAnswer> {
        match self.known_pointer_width() {
            Ok(answer) => Ok(answer),
            Err(()) => Err(NoAnswer::PointerWidth),
        }
    }

    /// The calling convention, as [`Triple::default_calling_convention`](crate::Triple::default_calling_convention)
    /// says.
    ///
    /// # Errors
    ///
    /// [`NoAnswer::CallingConvention`] if no convention is known.
    ///
    /// # Examples
    ///
    /// ```
    /// use target_lexicon::{CallingConvention, TripleRef};
    ///
    /// let triple = TripleRef::from_str("x86_64-unknown-linux-gnu").unwrap();
    /// assert_eq!(triple.default_calling_convention(), Ok(CallingConvention::SystemV));
    /// ```
    #[inline]
    pub const fn default_calling_convention(&self) -> Result<CallingConvention, NoAnswer> {
        match self.known_default_calling_convention() {
            Ok(answer) => Ok(answer),
            Err(()) => Err(NoAnswer::CallingConvention),
        }
    }

    /// The data model of C, as [`Triple::data_model`](crate::Triple::data_model) says.
    ///
    /// # Errors
    ///
    /// [`NoAnswer`] if no model is known.
    ///
    /// # Examples
    ///
    /// ```
    /// use target_lexicon::{CDataModel, NoAnswer, TripleRef};
    ///
    /// fn long(target: &str) -> Result<u8, Box<dyn std::error::Error + '_>> {
    ///     Ok(TripleRef::from_str(target)?.data_model()?.long_size().bytes())
    /// }
    ///
    /// assert_eq!(long("x86_64-pc-windows-msvc").unwrap(), 4);
    /// assert!(long("avr-unknown-none").unwrap_err().is::<NoAnswer>());
    /// ```
    #[inline]
    pub const fn data_model(&self) -> Result<CDataModel, NoAnswer> {
        match self.known_data_model() {
            Ok(answer) => Ok(answer),
            Err(()) => Err(NoAnswer::DataModel),
        }
    }
}
