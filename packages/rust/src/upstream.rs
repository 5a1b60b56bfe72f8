//! What upstream prints.
use crate::TripleRef;
use core::fmt;

/// A triple that `Display` writes as upstream does. [`TripleExt::upstream`](crate::TripleExt::upstream) and
/// [`TripleRef::upstream`] return it.
///
/// # Examples
///
/// ```
/// let triple = target_lexicon::triple!("aarch64-apple-ios");
/// let upstream: target_lexicon::Upstream = target_lexicon::TripleExt::upstream(&triple);
/// assert_eq!(format!("{upstream}"), "aarch64-apple-ios");
/// ```
#[derive(Clone, Copy, Debug)]
pub struct Upstream<'a>(TripleRef<'a>);

impl fmt::Display for Upstream<'_> {
    #[inline]
    fn fmt(&self, f: &mut fmt::Formatter<'_>) -> fmt::Result {
        self.0.pieces(false).fmt(f)
    }
}

impl<'a> TripleRef<'a> {
    /// The triple as upstream prints it, as [`TripleExt::upstream`](crate::TripleExt::upstream) says.
    ///
    /// # Examples
    ///
    /// ```
    /// let triple = target_lexicon::TripleRef::from_str("x86_64-unknown-linux-unknown-unknown").unwrap();
    /// assert_eq!(triple.upstream().to_string(), "x86_64-unknown-linux-unknown");
    /// ```
    #[must_use]
    #[inline]
    pub const fn upstream(self) -> Upstream<'a> {
        Upstream(self)
    }
}
