//! The hash of a borrowed vendor, and so of a [`TripleRef`](crate::proved::TripleRef): that of the owned one of the
//! same value.
use crate::proved::VendorRef;
use core::hash::{Hash, Hasher};

impl Hash for VendorRef<'_> {
    #[inline]
    fn hash<H: Hasher>(&self, state: &mut H) {
        match *self {
            VendorRef::Known(known) => known.to_vendor().hash(state),
            VendorRef::Custom(text) => {
                // written by tools/names/write: the variant of custom vendors, whose number a derived hash feeds
                15_isize.hash(state);
                // end of what is written
                text.hash(state);
            }
        }
    }
}
