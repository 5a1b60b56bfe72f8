//! Where in a string each field comes from.
use crate::proved::explain;
use crate::{Explanation, TripleRef};

impl<'a> TripleRef<'a> {
    /// What a string parses as, or why it is refused; and where in the string each field comes from. Nothing is
    /// allocated.
    ///
    /// A part is of the first field that it parses as, of those after the field of the part before it. So `nuttx` in
    /// `armv7a-nuttx-eabi` is the vendor, since it is the name of no field. The whole of a special string gives all
    /// five fields; its parts have none of their own. Of a refused string it says which fields the parts before the
    /// refused one filled.
    ///
    /// # Examples
    ///
    /// ```
    /// use target_lexicon::{Source, TextPart, TripleRef};
    ///
    /// let explanation = TripleRef::explain("armv7a-nuttx-eabi");
    /// let part = TextPart { text: "nuttx", start: 7 };
    /// assert_eq!(explanation.sources.vendor, Source::Part(part));
    /// assert_eq!(explanation.sources.operating_system, Source::NotGiven);
    /// let refusal = TripleRef::explain("x86_64-foo-bar").triple.unwrap_err();
    /// assert_eq!(refusal.range(), 11..14);
    /// ```
    #[must_use]
    #[inline]
    pub fn explain(text: &'a str) -> Explanation<'a> {
        explain(text)
    }
}
