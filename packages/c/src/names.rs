//! Names as C has them, those of other tools too, and why a name has no triple: each with a zero byte after it.
use crate::zero_ended::{NAMES, REASONS};
use core::ptr::null;

/// The name with a zero byte after it; null for a string that is no name of a field's value, and none that is read in a
/// dialect.
pub(crate) fn c_name(name: &'static str) -> *const u8 {
    c_text(NAMES, name)
}

/// The reason with a zero byte after it.
pub(crate) fn c_reason(reason: &'static str) -> *const u8 {
    c_text(REASONS, reason)
}

fn c_text(texts: &[&'static str], text: &str) -> *const u8 {
    let found = texts.binary_search_by(|it| it.bytes().cmp(text.bytes().chain([0])));
    found.ok().and_then(|at| texts.get(at)).map_or(null(), |it| it.as_ptr())
}

#[cfg(test)]
mod tests {
    use super::*;
    use crate::values::field_at;
    use std::ffi::CStr;
    use target_names::{known_names, Dialect};

    /// What C reads.
    fn text(found: *const u8) -> Option<&'static str> {
        (!found.is_null()).then(|| unsafe { CStr::from_ptr(found.cast()) }.to_str().expect("a text"))
    }

    #[test]
    fn every_name_has_a_zero_byte_after_it() {
        let of_fields = (0..).map_while(field_at).flat_map(|it| known_names(it).iter().copied());
        for name in of_fields.chain(Dialect::ALL.iter().flat_map(|it| it.names())) {
            assert_eq!(text(c_name(name)), Some(name));
        }
        assert!(c_name("linx").is_null());
    }

    #[test]
    fn every_reason_has_a_zero_byte_after_it() {
        for line in include_str!("../../names/elsewhere.tsv").lines() {
            let cells: Vec<_> = line.split('\t').collect();
            if let ["# why" | "# reason" | "# refusal", _, reason] = cells[..] {
                assert_eq!(text(c_reason(reason)), Some(reason));
            }
        }
        assert!(c_reason("linx").is_null());
    }
}
