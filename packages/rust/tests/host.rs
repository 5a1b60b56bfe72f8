//! `HOST`, and queries of it in constants. programs.txt has the constants and statics that upstream's users write.
use target_lexicon::HOST;

#[test]
fn the_host_is_what_rustc_says() {
    assert_eq!(HOST.pointer_width().map(|it| it.bytes().into()), Ok(std::mem::size_of::<usize>()));
    assert_eq!(HOST.operating_system.is_like_darwin(), cfg!(target_vendor = "apple"));
    assert_eq!(HOST.to_string().parse(), Ok(HOST));
}

/// Queries are constants too.
const WIDTH: usize = match HOST.pointer_width() {
    Ok(width) => width.bytes() as usize,
    Err(()) => 0,
};
const IS_LITTLE: bool = matches!(HOST.endianness(), Ok(target_lexicon::Endianness::Little));
const HAS_SYSTEM_V: bool = matches!(HOST.default_calling_convention(), Ok(target_lexicon::CallingConvention::SystemV));

#[test]
fn queries_are_constants() {
    assert_eq!([0; WIDTH].len(), std::mem::size_of::<usize>());
    assert_eq!(IS_LITTLE, cfg!(target_endian = "little"));
    assert_eq!(HAS_SYSTEM_V, HOST.default_calling_convention() == Ok(target_lexicon::CallingConvention::SystemV));
}
