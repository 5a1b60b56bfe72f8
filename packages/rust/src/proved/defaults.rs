// @generated: erased from crates/target_lexicon/src/defaults.rt by tools/erase. Don't edit it here.
//! Triples with a default.

use crate::proved::triple::Triple;

/// A triple whose default is the host.
///
/// # Examples
///
/// ```
/// use target_lexicon::{DefaultToHost, Triple};
///
/// assert_eq!(DefaultToHost::default().0, Triple::host());
/// ```
#[derive(Debug, PartialEq, Eq, Hash, Clone)]
pub struct DefaultToHost(pub Triple);

impl Default for DefaultToHost {
    fn default() -> Self {
        DefaultToHost(Triple::host())
    }
}

/// A triple whose default is `unknown-unknown-unknown`.
///
/// # Examples
///
/// ```
/// use target_lexicon::{DefaultToUnknown, Triple};
///
/// assert_eq!(DefaultToUnknown::default().0, Triple::unknown());
/// ```
#[derive(Debug, PartialEq, Eq, Hash, Clone)]
pub struct DefaultToUnknown(pub Triple);

impl Default for DefaultToUnknown {
    fn default() -> Self {
        DefaultToUnknown(Triple::unknown())
    }
}
