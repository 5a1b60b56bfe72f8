//! What was perhaps meant, as a call of what refuses a string.
use super::{suggestion, suggestion_in, suggestion_on, Suggestion};
use target_lexicon::{Architecture, Field, Refusal, TripleRef, VendorRef};
#[cfg(feature = "alloc")]
use target_lexicon::{ParseError, ParseErrorExt as _, ParseTripleError};

/// The name that was perhaps meant by the refused part of a string: import the trait to ask a [`Refusal`], a
/// `ParseError` or a `ParseTripleError`. Nothing is allocated.
///
/// If other tools spell a known name as the refused part, it is that name. Otherwise it is the nearest one of the expected field or
/// of a later one, if the part may be a misspelling of it. It never changes the machine, its width and byte order, how
/// floating-point arguments are passed, or a digit; a version stays where the system may have it. [`suggestion`] says more.
///
/// ```
/// use target_lexicon::{Triple, TripleExt};
/// use target_names::Suggest;
///
/// let error = Triple::parse("x86_64-pc-linxu").unwrap_err();
/// let meant = error.suggestion().unwrap();
/// assert_eq!(
///     format!("{error:#} did you mean `{meant}`?"),
///     "Unrecognized operating system: linxu
///   x86_64-pc-linxu
///             ^^^^^ did you mean `linux`?",
/// );
/// ```
pub trait Suggest<'a>: Copy {
    /// The field that was expected, and the refused part.
    #[doc(hidden)]
    fn refused(self) -> (Option<Field>, &'a str);

    /// The name that was perhaps meant. A `ParseTripleError` has the whole string, so it may be an environment of the
    /// string's architecture too. For the others [`suggestion_in`](Suggest::suggestion_in) suggests it.
    #[must_use]
    fn suggestion(self) -> Option<Suggestion<'a>> {
        let (expected, part) = self.refused();
        suggestion(expected?, part)
    }

    /// The name that was perhaps meant in this string, which has the refused part. It may be an environment of the
    /// string's architecture too.
    ///
    /// ```
    /// use target_lexicon::TripleRef;
    /// use target_names::Suggest;
    ///
    /// let suggested = |text: &'static str| {
    ///     let refusal = TripleRef::from_str(text).unwrap_err();
    ///     refusal.suggestion_in(text).map(|it| it.names)
    /// };
    /// assert_eq!(suggested("armv7-unknown-linux-gnueabihff"), Some("gnueabihf"));
    /// assert_eq!(suggested("x86_64-unknown-linux-gnueabihff"), None);
    /// ```
    #[must_use]
    fn suggestion_in(self, text: &str) -> Option<Suggestion<'a>> {
        let (expected, part) = self.refused();
        suggestion_in(text, expected?, part)
    }
}

impl<'a> Suggest<'a> for Refusal<'a> {
    fn refused(self) -> (Option<Field>, &'a str) {
        (self.expected, self.part.text)
    }
}

#[cfg(feature = "alloc")]
impl<'a> Suggest<'a> for &'a ParseError {
    fn refused(self) -> (Option<Field>, &'a str) {
        (self.expected(), self.part())
    }
}

#[cfg(feature = "alloc")]
impl<'a> Suggest<'a> for &'a ParseTripleError {
    fn refused(self) -> (Option<Field>, &'a str) {
        (self.expected(), self.part())
    }

    fn suggestion(self) -> Option<Suggestion<'a>> {
        self.suggestion_in(self.text())
    }
}

/// The name that was perhaps meant by a custom vendor: a vendor, or a name of a later field. It may be an environment
/// of the triple's architecture. For a known vendor it is `None`. Nothing is allocated.
///
/// ```
/// use target_lexicon::{triple, TripleRef};
/// use target_names::vendor_suggestion;
///
/// let suggested = |text| vendor_suggestion(TripleRef::from_str(text).unwrap()).map(|it| it.names);
/// assert_eq!(suggested("x86_64-linx"), Some("linux"));
/// assert_eq!(suggested("armv7-gnueabihff"), Some("gnueabihf"));
/// assert_eq!(suggested("x86_64-gnueabihff"), None);
/// assert_eq!(suggested("x86_64-pc-linux"), None);
/// assert_eq!(vendor_suggestion(&triple!("x86_64-linx")).unwrap(), "linux");
/// ```
#[must_use]
pub fn vendor_suggestion<'a>(triple: impl Into<TripleRef<'a>>) -> Option<Suggestion<'a>> {
    let triple = triple.into();
    let machine = Some(triple.architecture).filter(|it| *it != Architecture::Unknown);
    match triple.vendor {
        VendorRef::Custom(vendor) => suggestion_on(machine, Field::Vendor, vendor),
        VendorRef::Known(_) => None,
    }
}

impl PartialEq<str> for Suggestion<'_> {
    /// Whether the suggestion is displayed as this string.
    fn eq(&self, text: &str) -> bool {
        text.strip_prefix(self.names) == Some(self.version)
    }
}

impl PartialEq<&str> for Suggestion<'_> {
    fn eq(&self, text: &&str) -> bool {
        *self == **text
    }
}
