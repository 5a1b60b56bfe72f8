// @generated: erased from crates/target_lexicon/src/parse.rt by tools/erase. Don't edit it here.
//! Parsing: the triple of a string, or why it is refused, and the part that each field takes.
//! Functions are inlined if they return a wide value, so that a caller that drops the sources doesn't compute them.

use crate::proved::explanation::{Explanation, Source, Sources, TextPart};
use crate::proved::reading::Reading;
use crate::proved::refusal::Refusal;
use crate::proved::triple_ref::TripleRef;
use crate::search::first_dash;

/// The first part of a string, and what follows its dash, if it has one.
#[inline(always)]
pub fn first_part(text: &str) -> (&str, Option<&str>) {
    match first_dash(text.as_bytes()) {
        Some(at) => (&text[..at], Some(&text[at + 1..])),
        None => (text, None),
    }
}

/// The triple that a string parses as, and where in the string each of its fields comes from; or why the string is
/// refused, where, and which fields the parts before the refused one filled. Nothing is allocated.
///
/// A part is of the first field that it parses as, of those after the field of the part before it. So `nuttx` in
/// `armv7a-nuttx-eabi` is the vendor, since it is the name of no field. The whole of a special string gives all five
/// fields; its parts have none of their own.
#[inline(always)]
pub fn explain(text: &str) -> Explanation<'_> {
    if let Some(triple) = TripleRef::from_special_string(text) {
        let whole = Source::Part(TextPart { text, start: 0 });
        return Explanation {
            triple: Ok(triple),
            sources: Sources {
                architecture: whole,
                vendor: whole,
                operating_system: whole,
                environment: whole,
                binary_format: whole,
            },
        };
    }
    let mut reading = Reading::start();
    let mut rest = Some(text);
    while let Some(left) = rest {
        let (name, others) = first_part(left);
        let part = TextPart {
            text: name,
            start: text.len() - left.len(),
        };
        if let Err(refusal) = reading.take(part) {
            return Explanation {
                triple: Err(refusal),
                sources: reading.sources,
            };
        }
        rest = others;
    }
    let (triple, sources) = reading.finish();
    Explanation {
        triple: Ok(triple),
        sources,
    }
}

impl<'a> TripleRef<'a> {
    /// The triple that a string parses as, as `Triple::from_str` says. A custom vendor and a refused part borrow from
    /// the string, so nothing is allocated. `explain` answers this too, and where each field comes from.
    ///
    /// # Errors
    ///
    /// Why the string is refused, and the refused part.
    ///
    /// # Examples
    ///
    /// ```
    /// use target_lexicon::{Field, TripleRef};
    ///
    /// let refusal = TripleRef::from_str("foo-linux").unwrap_err();
    /// assert_eq!((refusal.expected, refusal.part.text), (Some(Field::Architecture), "foo"));
    /// ```
    #[inline]
    pub fn from_str(text: &'a str) -> Result<TripleRef<'a>, Refusal<'a>> {
        explain(text).triple
    }
}
