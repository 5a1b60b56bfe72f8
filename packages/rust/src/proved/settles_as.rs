// @generated: erased from crates/target_lexicon/src/settles_as.rt by tools/erase. Don't edit it here.
//! Whether two triples have the same canonical form: a question, where `settle` makes that form.

use crate::proved::triple_ref::TripleRef;

impl TripleRef<'_> {
    /// Whether both triples have the same canonical form, as [`TripleExt::settles_as`](crate::TripleExt::settles_as) says.
    ///
    /// # Examples
    ///
    /// ```
    /// use target_lexicon::TripleRef;
    ///
    /// let one = TripleRef::from_str("riscv32imc-esp-espidf").unwrap();
    /// let other = TripleRef::from_str("riscv32imc-esp-espidf-elf").unwrap();
    /// assert!(one != other && one.settles_as(&other));
    /// ```
    #[must_use]
    #[inline]
    pub fn settles_as<'t>(&self, other: impl Into<TripleRef<'t>>) -> bool {
        self.step() == other.into().step()
    }
}
