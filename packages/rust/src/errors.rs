//! The errors as those of Rust.
// Before Rust 1.81 `Error` is in `std` only.
#[cfg(any(feature = "std", core_error))]
mod impls {
    #[cfg(core_error)]
    use core::error::Error;
    #[cfg(not(core_error))]
    use std::error::Error;

    impl Error for crate::NoAnswer {}
    impl Error for crate::NotPlain {}
    impl Error for crate::ParseVersionError {}
    // As in upstream, only with this feature.
    #[cfg(feature = "std")]
    impl Error for crate::ParseError {}
    #[cfg(feature = "alloc")]
    impl Error for crate::ParseTripleError {}
    impl Error for crate::Refusal<'_> {}
}
