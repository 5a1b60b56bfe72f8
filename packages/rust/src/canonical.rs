//! Canonical forms of triples whose vendor may be any text.
use crate::Triple;
#[cfg(feature = "alloc")]
use crate::TripleRef;
use core::fmt;

/// No string parses as the vendor of the triple, so its printed string is refused or parses with another vendor: the
/// triple has no result of `settle`. It is given back.
///
/// # Examples
///
/// ```
/// use target_lexicon::{CustomVendor, NotPlain, Triple, TripleExt, Vendor};
///
/// let mut triple: Triple = "x86_64-linux".parse().unwrap();
/// triple.vendor = Vendor::Custom(CustomVendor::Static("PC"));
/// let NotPlain(same) = triple.clone().settle().unwrap_err();
/// assert_eq!(same, triple);
/// ```
#[derive(Clone, Debug, PartialEq, Eq, Hash)]
pub struct NotPlain(pub Triple);

impl fmt::Display for NotPlain {
    #[inline]
    fn fmt(&self, f: &mut fmt::Formatter<'_>) -> fmt::Result {
        write!(
            f,
            "No text parses as the vendor {:?}",
            self.0.vendor.as_str()
        )
    }
}

#[cfg(feature = "alloc")]
impl<'a> TripleRef<'a> {
    /// The canonical form of the triple, as [`TripleExt::settle`](crate::TripleExt::settle) says.
    ///
    /// # Errors
    ///
    /// [`NotPlain`] if no string parses as the vendor (see [`VendorRef::is_plain`](crate::VendorRef::is_plain)). The
    /// error owns a copy of the triple; nothing else is allocated.
    ///
    /// # Examples
    ///
    /// ```
    /// use target_lexicon::{NotPlain, TripleRef, VendorRef};
    ///
    /// let mut triple = TripleRef::from_str("riscv32imc-esp-espidf-elf").unwrap();
    /// assert_eq!(triple.settle()?.to_string(), "riscv32imc-esp-espidf");
    /// triple.vendor = VendorRef::Custom("PC");
    /// assert_eq!(triple.settle(), Err(NotPlain(triple.to_triple())));
    /// # Ok::<(), NotPlain>(())
    /// ```
    #[inline]
    pub fn settle(self) -> Result<TripleRef<'a>, NotPlain> {
        if self.vendor.is_plain() {
            Ok(self.step())
        } else {
            Err(NotPlain(self.to_triple()))
        }
    }
}
