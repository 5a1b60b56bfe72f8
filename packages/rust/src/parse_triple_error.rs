//! Why a string doesn't parse as a triple, in an error that owns the string and shows the place in it.
use crate::proved::refusal_prefix;
use crate::{Field, ParseError, Refusal, TripleRef};
use alloc::boxed::Box;
use alloc::string::String;
use core::fmt;
use core::ops::Range;

/// Why a string doesn't parse as a triple, with the whole string. It owns what it needs, so that `?` takes it out of a
/// function. `{}` shows it in one line, and `{:#}` in three: what is wrong, the string, and carets below the refused
/// part. Of the string only what ASCII can print is shown as it is; the rest is escaped.
///
/// [`TripleExt::parse`](crate::TripleExt::parse) and [`TripleRef::parse`] return it. `str::parse` returns upstream's
/// [`ParseError`], and [`TripleRef::from_str`] a [`Refusal`], which borrows from the string.
///
/// # Examples
///
/// ```
/// use target_lexicon::{Field, Triple, TripleExt};
///
/// let error = Triple::parse("x86_64-pc-linxu").unwrap_err();
/// assert_eq!((error.expected(), error.part(), error.range()), (Some(Field::OperatingSystem), "linxu", 10..15));
/// assert_eq!(error.to_string(), "Unrecognized operating system: linxu (in x86_64-pc-linxu)");
/// assert_eq!(
///     format!("{error:#}"),
///     "Unrecognized operating system: linxu
///   x86_64-pc-linxu
///             ^^^^^",
/// );
/// ```
#[derive(Clone, Debug, PartialEq, Eq, Hash)]
pub struct ParseTripleError {
    text: Box<str>,
    expected: Option<Field>,
    /// Where the refused part begins and ends in the text.
    start: usize,
    end: usize,
}

impl<'a> TripleRef<'a> {
    /// The triple that a string parses as. It is that of [`from_str`](TripleRef::from_str), with an error that owns the
    /// string; without an error nothing is allocated.
    ///
    /// # Errors
    ///
    /// [`ParseTripleError`] if the string is refused.
    ///
    /// # Examples
    ///
    /// ```
    /// let error = target_lexicon::TripleRef::parse("aarch64-apple-iso").unwrap_err();
    /// assert_eq!((error.part(), error.range()), ("iso", 14..17));
    /// ```
    #[inline]
    pub fn parse(text: &'a str) -> Result<TripleRef<'a>, ParseTripleError> {
        match TripleRef::from_str(text) {
            Ok(triple) => Ok(triple),
            Err(refusal) => Err(refusal.in_text(text)),
        }
    }
}

impl Refusal<'_> {
    /// The refusal as an error that owns the string it is about. If the refused part isn't in this string, the error is
    /// about the part only.
    ///
    /// # Examples
    ///
    /// ```
    /// let text = "x86_64-foo-bar";
    /// let refusal = target_lexicon::TripleRef::explain(text).triple.unwrap_err();
    /// assert_eq!(refusal.in_text(text).range(), 11..14);
    /// ```
    #[must_use]
    #[inline]
    pub fn in_text(&self, text: &str) -> ParseTripleError {
        let part = self.part.text;
        if text.get(self.range()) == Some(part) {
            ParseTripleError {
                text: text.into(),
                expected: self.expected,
                start: self.part.start,
                end: self.part.start + part.len(),
            }
        } else {
            ParseTripleError {
                text: part.into(),
                expected: self.expected,
                start: 0,
                end: part.len(),
            }
        }
    }
}

impl ParseTripleError {
    /// The whole string.
    ///
    /// # Examples
    ///
    /// ```
    /// let error = target_lexicon::TripleRef::parse("x86_64-foo-bar").unwrap_err();
    /// assert_eq!(error.text(), "x86_64-foo-bar");
    /// ```
    #[must_use]
    #[inline]
    pub fn text(&self) -> &str {
        &self.text
    }

    /// The refused part.
    ///
    /// # Examples
    ///
    /// ```
    /// let error = target_lexicon::TripleRef::parse("x86_64-foo-bar").unwrap_err();
    /// assert_eq!(error.part(), "bar");
    /// ```
    #[must_use]
    #[inline]
    pub fn part(&self) -> &str {
        &self.text[self.start..self.end]
    }

    /// The range of the refused part in the string, in bytes.
    ///
    /// # Examples
    ///
    /// ```
    /// let error = target_lexicon::TripleRef::parse("x86_64-foo-bar").unwrap_err();
    /// assert_eq!(&error.text()[error.range()], "bar");
    /// ```
    #[must_use]
    #[inline]
    pub fn range(&self) -> Range<usize> {
        self.start..self.end
    }

    /// The field that was expected: this one or a later one. After a binary format none was, and it is `None`.
    ///
    /// # Examples
    ///
    /// ```
    /// use target_lexicon::{Field, Triple, TripleExt};
    ///
    /// let error = Triple::parse("x86_64-foo-bar").unwrap_err();
    /// assert_eq!(error.expected(), Some(Field::OperatingSystem));
    /// ```
    #[must_use]
    #[inline]
    pub const fn expected(&self) -> Option<Field> {
        self.expected
    }

    /// Upstream's error, with a copy of the part.
    ///
    /// # Examples
    ///
    /// ```
    /// let error = target_lexicon::TripleRef::parse("x86_64-foo-bar").unwrap_err();
    /// assert_eq!("x86_64-foo-bar".parse::<target_lexicon::Triple>(), Err(error.to_error()));
    /// ```
    #[must_use]
    #[inline]
    pub fn to_error(&self) -> ParseError {
        ParseError::new(self.expected, String::from(self.part()))
    }
}

impl fmt::Display for ParseTripleError {
    fn fmt(&self, f: &mut fmt::Formatter<'_>) -> fmt::Result {
        let (whole, part) = (visible(&self.text), visible(self.part()));
        f.write_str(refusal_prefix(self.expected))?;
        f.write_str(&part)?;
        if f.alternate() {
            let spaces = " ".repeat(visible(&self.text[..self.start]).len());
            // An empty part has a caret too.
            let carets = "^".repeat(part.len().max(1));
            write!(f, "\n  {whole}\n  {spaces}{carets}")
        } else if part.len() < whole.len() {
            write!(f, " (in {whole})")
        } else {
            Ok(())
        }
    }
}

/// The string, of which each character that ASCII doesn't print is escaped, as `\u{1b}`: it may control a terminal,
/// turn the direction of text, combine with its neighbour, be invisible or look like another letter.
fn visible(text: &str) -> String {
    let mut shown = String::with_capacity(text.len());
    for c in text.chars() {
        if matches!(c, ' '..='~') {
            shown.push(c);
        } else {
            shown.extend(c.escape_default());
        }
    }
    shown
}
