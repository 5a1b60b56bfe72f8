//! What target_lexicon.h says of pointers, and the host.
const HEADER: &str = include_str!("../include/target_lexicon.h");

/// A call may be given null for these pointers, and for no other one.
const MAY_BE_NULL: [&str; 9] = ["text", "name", "out", "parts", "length", "error", "reason", "note", "versions"];

#[test]
fn the_pointers_that_may_not_be_null_are_marked() {
    let (_, prototypes) = HEADER.split_once("#define LEXICON_MAX_GROWTH").expect("the calls");
    let (prototypes, _) = prototypes.split_once("/* The name of an enumerator").expect("the names");
    let prototypes = uncommented(prototypes);
    let declared = prototypes.split(';').filter_map(|it| it.trim().strip_suffix(')')?.rsplit_once('('));
    let mut count = 0;
    for (before, given) in declared.filter(|(before, _)| before.contains("lexicon_")) {
        let marked = before.split_once("LEXICON_NONNULL(");
        let marked = marked.map_or("", |(_, after)| after.split_once(')').expect("an end").0);
        let pointers = (1..).zip(given.split(',')).filter_map(|(number, it)| Some((number, it.rsplit_once('*')?.1)));
        let needed = pointers.filter(|(_, name)| !MAY_BE_NULL.contains(name));
        let needed: Vec<_> = needed.map(|(number, _)| i32::to_string(&number)).collect();
        assert_eq!(marked, needed.join(", "), "{before}");
        count += 1;
    }
    assert_eq!(count, include_str!("lib.rs").matches("extern \"C\" fn lexicon_").count());
}

/// The text without its comments.
fn uncommented(text: &str) -> String {
    text.split("/*").map(|it| it.split_once("*/").map_or(it, |(_, after)| after)).collect()
}

/// Whatever the variable `TARGET_LEXICON_HOST` is, of which only a target that doesn't parse makes something.
#[test]
fn the_host_is_that_of_the_rust_crate() {
    let host = unsafe { core::ffi::CStr::from_ptr(crate::lexicon_host().cast()) }.to_str().expect("names are ASCII");
    assert_eq!(target_lexicon::TripleRef::from_str(host), Ok(target_lexicon::TripleRef::from(&target_lexicon::HOST)));
}
