//! What rustc asks of a library without its own standard library.

// The C library has `memcpy` and `memcmp`.
#[cfg(unix)]
#[link(name = "c")]
extern "C" {}

/// No call panics, unless there is a fault: then the program stops.
#[panic_handler]
fn panic(_: &core::panic::PanicInfo<'_>) -> ! {
    // SAFETY: the processor's own trap; elsewhere the C library's.
    #[cfg(any(target_arch = "x86", target_arch = "x86_64"))]
    unsafe {
        core::arch::asm!("ud2", options(noreturn))
    }
    #[cfg(any(target_arch = "aarch64"))]
    unsafe {
        core::arch::asm!("brk #1", options(noreturn))
    }
    #[cfg(target_arch = "wasm32")]
    core::arch::wasm32::unreachable();
    #[cfg(not(any(target_arch = "x86", target_arch = "x86_64", target_arch = "aarch64", target_arch = "wasm32")))]
    {
        extern "C" {
            fn abort() -> !;
        }
        unsafe { abort() }
    }
}
