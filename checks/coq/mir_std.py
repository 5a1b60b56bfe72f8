"""What std's functions are in Coq: a value of their arguments, or after a ? an option, which is none if they panic.
After a ! what is left of the iterator isn't known. Rust.v and Kit.v have these functions of Coq."""
import re


def patterns(table):
    """A table by patterns of paths, in which a star is any arguments of generics, or the length of an array."""
    return {re.escape(path).replace(r"\*", ".*"): code for path, code in table.items()}


STD = patterns({
    "std::boxed::Box::<*>::new": "{0}",
    "std::option::Option::<*>::is_some": "(option_is_some {0})",
    "std::option::Option::<*>::is_none": "(option_is_none {0})",
    "std::option::Option::<*>::ok_or::<*>": "(ok_or {0} {1})",
    "std::bool::<impl bool>::then_some::<*>": "(then_some {0} {1})",
    # references, strings and boxes of them are the values that they refer to
    **dict.fromkeys((
        "std::str::<impl str>::as_bytes", "std::slice::<impl [u8]>::iter",
        "std::string::String::as_str", "<std::string::String as std::ops::Deref>::deref",
        "<&str as std::convert::Into<std::boxed::Box<str>>>::into",
        "<&str as std::convert::Into<std::borrow::Cow<str>>>::into",
        "<&str as std::convert::Into<std::string::String>>::into",
        "<std::string::String as std::convert::Into<std::borrow::Cow<str>>>::into",
        "<proved::triple_ref::TripleRef as std::convert::Into<proved::triple_ref::TripleRef>>::into",
        "<std::string::String as std::convert::From<&str>>::from",
        "<std::string::String as std::clone::Clone>::clone",
        "<std::boxed::Box<std::string::String> as std::clone::Clone>::clone",
        "<std::boxed::Box<str> as std::clone::Clone>::clone",
        # numbers of a wider type
        "<u64 as std::convert::From<u32>>::from", "<u64 as std::convert::From<u8>>::from",
        "<usize as std::convert::From<u16>>::from",
        "<usize as std::convert::From<u8>>::from",
    ), "{0}"),
    "std::str::<impl str>::len": "(length {0})",
    "std::str::<impl str>::is_empty": "(is_empty {0})",
    "std::str::<impl str>::strip_prefix::<&str>": "(strip_prefix {0} {1})",
    "std::str::<impl str>::split_once::<char>": "(split_once {0} {1})",
    "std::str::<impl str>::get::<std::ops::Range<usize>>": "(str_get {0} {1})",
    "std::str::from_utf8": "? from_utf8 {0}",
    "std::fmt::Formatter::write_str": "(write_str {0} {1})",
    "<std::slice::Iter<u8> as std::iter::Iterator>::position::<*>": "! (position {1} {0})",
    "<std::slice::Iter<u8> as std::iter::Iterator>::all::<*>": "! (forallb {1} {0})",
    "std::slice::<impl [u8]>::split_first": "(split_first {0})",
    "std::num::<impl u8>::is_ascii_lowercase": "(u8_is_ascii_lowercase {0})",
    "std::num::<impl u64>::from_le_bytes": "(from_le_bytes {0})",
    "std::num::<impl u32>::from_le_bytes": "(from_le_bytes {0})",
    "std::num::<impl u64>::wrapping_mul": "(wrapping_mul 64 {0} {1})",
    "std::num::<impl u64>::trailing_zeros": "(trailing_zeros 64 {0})",
    "std::num::<impl usize>::saturating_add": "(saturating_add usize_bits {0} {1})",
    "<str as std::ops::Index<std::ops::RangeTo<usize>>>::index": "? str_between {0} 0 {1}",
    "<str as std::ops::Index<std::ops::RangeFrom<usize>>>::index": "? str_between {0} {1} (length {0})",
    "<str as std::ops::Index<std::ops::Range<usize>>>::index": "? str_between {0} (fst {1}) (snd {1})",
    "<[u8*] as std::ops::Index<std::ops::RangeTo<usize>>>::index": "? part_between {0} 0 {1}",
    "<[u8*] as std::ops::Index<std::ops::RangeFrom<usize>>>::index": "? part_between {0} {1} (length {0})",
    **{f"<{it} as std::cmp::PartialOrd>::partial_cmp": "(Some (N.compare {0} {1}))" for it in ("u8", "u16")},
    **{f"std::slice::<impl [u8]>::{it}_chunk::<{n}>": f"({it}_chunk {n} {{0}})"
       for it in ("first", "last") for n in (4, 8)},
    **{f"std::str::<impl str>::parse::<u{n}>": f"(parse_unsigned {2 ** n - 1} {{0}})" for n in (8, 16)},
})
# What std's methods of these traits are for types that have no parts; the others have an empty table.
METHODS = {
    ("std::PartialEq", "eq"): {"()": "(λ _ _ : unit, true)", "str": "bytes_eq", "std::string::String": "bytes_eq"},
    ("std::Ord", "cmp"): {"str": "bytes_cmp", "bool": "Bool.compare", "u8": "N.compare", "u16": "N.compare"},
    ("std::Clone", "clone"): {},
    ("std::Hash", "hash"): {"str": "hash_str", "u8": "(hash_number by_u8)", "u16": "(hash_number by_u16)",
                            "usize": "(hash_number by_usize)", "isize": "(hash_number by_isize)"},
}
