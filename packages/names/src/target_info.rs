//! What other tools and drivers say of a triple.
use crate::{
    driver, rustc_cfg, shape, ArmProfile, CLibrary, ChosenLibc, FloatAbi, LlvmTarget, MultiarchTuple, RustcCfg,
    Signedness, TypeLayout, TypeSizes,
};
use target_lexicon::{BinaryFormat, DeploymentTarget, TripleRef};

/// What other tools and drivers say of a triple: import the trait to ask a [`TripleRef`] or a
/// [`Triple`](target_lexicon::Triple). Nothing is allocated.
///
/// ```
/// use target_lexicon::triple;
/// use target_names::{CLibrary, FloatAbi, Signedness, TargetInfo};
///
/// let linux = triple!("armv7-unknown-linux-gnueabihf");
/// assert_eq!((linux.c_library(), linux.float_abi()), (Some(CLibrary::Glibc), Some(FloatAbi::Hard)));
/// assert_eq!((linux.arm_version(), linux.char_signedness()), (Some(7), Some(Signedness::Unsigned)));
/// assert_eq!(linux.multiarch_tuple().unwrap().to_string(), "arm-linux-gnueabihf");
/// assert!(linux.is_unix() && linux.has_comdat() && !linux.has_emulated_tls());
///
/// let windows = triple!("x86_64-pc-windows-msvc");
/// assert_eq!(windows.type_sizes().map(|it| (it.int, it.long)), Some((4, 4)));
/// let layouts = [windows.long_double_layout(), windows.wchar_layout()];
/// assert_eq!((windows.program_suffix(), layouts.map(|it| it.unwrap().size)), (".exe", [8, 2]));
///
/// let profile = |string| triple!(string).arm_profile().map(|it| it.name());
/// assert_eq!(["armv7r-none-eabi", "armv7-linux-ohos"].map(profile), [Some("R"), None]);
/// assert_eq!(triple!("aarch64-apple-darwin20").macos_version(), "11".parse().ok());
/// // What a triple doesn't state, or no source is sure of, has no answer.
/// let uefi = triple!("x86_64-unknown-uefi");
/// assert_eq!((uefi.c_library(), uefi.multiarch_tuple(), uefi.type_sizes()), (None, None, None));
/// ```
pub trait TargetInfo<'a>: Copy + Into<TripleRef<'a>> {
    /// The values of rustc's cfg options. They are rustc's for each of its targets that parses; the targets whose triples the
    /// library can't represent have none. What rustc has no target of keeps its name, such as the architecture `pulley64`.
    ///
    /// ```
    /// use target_lexicon::triple;
    /// use target_names::TargetInfo;
    ///
    /// let triple = triple!("x86_64-apple-darwin");
    /// assert_eq!(triple.rustc_cfg().target_os, "macos");
    /// // In a build script, this sets `guest_target_os = "macos"`, `guest_unix` and so on.
    /// for line in triple.rustc_cfg().to_string().lines() {
    ///     println!("cargo:rustc-cfg=guest_{line}");
    /// }
    /// ```
    #[must_use]
    fn rustc_cfg(self) -> RustcCfg<'a> {
        RustcCfg::of(&self.into())
    }

    /// The string that LLVM and clang take for the target, which is displayed: rustc's `llvm-target` for each of its targets that
    /// parses. It states no extension of RISC-V and no C library that LLVM doesn't know: those are options. It keeps the version of a
    /// system of Apple's; that of `darwin` is the kernel's, so macOS's is written, which `macos_version` says.
    ///
    /// ```
    /// use target_lexicon::triple;
    /// use target_names::TargetInfo;
    ///
    /// for (string, target) in [
    ///     ("riscv64gc-unknown-linux-gnu", "riscv64-unknown-linux-gnu"),
    ///     ("aarch64-apple-darwin", "arm64-apple-macosx"),
    ///     ("x86_64-apple-darwin22", "x86_64-apple-macosx13.0.0"),
    ///     ("x86_64-unknown-uefi", "x86_64-unknown-windows"),
    ///     ("armv7-unknown-linux-gnueabihf", "armv7-unknown-linux-gnueabihf"),
    /// ] {
    ///     assert_eq!(triple!(string).llvm_target().to_string(), target);
    /// }
    /// ```
    #[must_use]
    fn llvm_target(self) -> LlvmTarget<'a> {
        LlvmTarget(self.into())
    }

    /// Debian's multiarch tuple. `None` if Debian has no architecture for the triple, or it depends on a C library that
    /// the triple doesn't state.
    #[must_use]
    fn multiarch_tuple(self) -> Option<MultiarchTuple> {
        MultiarchTuple::of(&self.into())
    }

    /// The triple with the usual environment of a C library, if it is of the library's system and its environment is
    /// unknown. Every other triple is returned as it is, so that a list of targets may be completed for Linux and then
    /// for Windows. Nothing is allocated.
    ///
    /// Names of Go, OCI and Python don't state the C library, so that what they mean has no name of Debian, of GNU or of
    /// rustc. Nothing is guessed: the caller says which C library it is. With glibc the environment is `gnueabihf` on
    /// `armv6`, `armv7` and `armv8`, `gnueabi` on `armv5te`, `gnuabi64` on 64-bit MIPS, and `gnu` on every other architecture but
    /// `arm`, which stays as it is: its version says how floating-point arguments are passed. With musl it is `musleabihf`, `musleabi`, `muslabi64` or `musl`. A name of one Arm that stands for a version, such as
    /// `armv7a`, counts as that version. On Windows it is `msvc`, with MinGW `gnu`, and with that of LLVM's tools `gnullvm`.
    ///
    /// ```
    /// use target_names::{ChosenLibc, Dialect, TargetInfo};
    ///
    /// let platform = Dialect::Oci.read("linux/arm/v7").unwrap();
    /// assert_eq!(Dialect::Debian.write(&platform), None);
    /// let triple = platform.with_c_library(ChosenLibc::Glibc);
    /// assert_eq!(triple.to_string(), "armv7-unknown-linux-gnueabihf");
    /// assert_eq!(Dialect::Debian.write(&triple).unwrap(), "armhf");
    /// ```
    #[must_use]
    fn with_c_library(self, c_library: ChosenLibc) -> TripleRef<'a> {
        shape::complete(&self.into(), c_library)
    }

    /// The C library that the triple states: by its environment, or by a system that has only one.
    #[must_use]
    fn c_library(self) -> Option<CLibrary> {
        CLibrary::of(&self.into())
    }

    /// Whether rustc counts the system to the family `unix`.
    #[must_use]
    fn is_unix(self) -> bool {
        rustc_cfg::is_unix(&self.into())
    }

    /// The format of the object files that rustc and LLVM write for a target. It differs from the field
    /// `binary_format`, which is upstream's answer, in these cases:
    ///
    /// - UEFI and Cygwin have COFF, as Windows does. Upstream says ELF.
    /// - WebAssembly has its own format on every system. Upstream says ELF on those that it doesn't list, such as `wasip1`.
    /// - A target with the system `none` has ELF, or the format of WebAssembly. Upstream knows no format.
    /// - An unknown format is the one that the other fields give.
    ///
    /// A given format that isn't the implied one is kept. The answer is `Unknown` only for the architecture `Unknown`.
    ///
    /// ```
    /// use target_lexicon::{triple, BinaryFormat};
    /// use target_names::TargetInfo;
    ///
    /// for (string, upstreams, format) in [
    ///     ("x86_64-unknown-linux-gnu", BinaryFormat::Elf, BinaryFormat::Elf),
    ///     ("x86_64-unknown-none", BinaryFormat::Unknown, BinaryFormat::Elf),
    ///     ("wasm32-wasip1", BinaryFormat::Elf, BinaryFormat::Wasm),
    ///     ("x86_64-unknown-uefi", BinaryFormat::Elf, BinaryFormat::Coff),
    ///     ("x86_64-pc-cygwin-macho", BinaryFormat::Macho, BinaryFormat::Macho),
    ///     ("wasm32-unknown-linux-coff", BinaryFormat::Coff, BinaryFormat::Coff),
    /// ] {
    ///     let triple = triple!(string);
    ///     assert_eq!((triple.binary_format, triple.object_format()), (upstreams, format), "{string}");
    /// }
    /// ```
    #[must_use]
    fn object_format(self) -> BinaryFormat {
        driver::object_format(&self.into())
    }

    /// The way to pass floating-point arguments that the triple states: on Arm by the environment, or by a system that
    /// has only one; elsewhere only by the environment `softfloat`.
    #[must_use]
    fn float_abi(self) -> Option<FloatAbi> {
        FloatAbi::of(&self.into())
    }

    /// Whether C's `char` has a sign, as clang has it. `None` where clang doesn't know the architecture, and on UEFI and VxWorks.
    #[must_use]
    fn char_signedness(self) -> Option<Signedness> {
        Signedness::of_char(&self.into())
    }

    /// Whether LLVM emulates thread-local storage, by calls of its library: on OpenBSD, Cygwin, OpenHarmony, and
    /// Android before API level 29, which a triple doesn't state.
    #[must_use]
    fn has_emulated_tls(self) -> bool {
        driver::has_emulated_tls(&self.into())
    }

    /// Whether the object format has COMDAT sections, of which the linker keeps one: ELF, COFF and WebAssembly.
    #[must_use]
    fn has_comdat(self) -> bool {
        use BinaryFormat::{Coff, Elf, Wasm};
        matches!(self.object_format(), Coff | Elf | Wasm)
    }

    /// What ends the name of a program, as rustc names it for each of its targets that parses.
    #[must_use]
    fn program_suffix(self) -> &'static str {
        driver::program_suffix(&self.into())
    }

    /// The version of a 32-bit Arm architecture. `None` where its name states none, and for any other architecture.
    #[must_use]
    fn arm_version(self) -> Option<u8> {
        driver::arm_version_and_profile(&self.into()).0
    }

    /// The profile of a 32-bit Arm architecture. `None` where its name states none, such as `armv7`, which LLVM takes for `armv7-a`.
    #[must_use]
    fn arm_profile(self) -> Option<ArmProfile> {
        driver::arm_version_and_profile(&self.into()).1
    }

    /// The version of macOS that the triple states: that of `macosx`, or of `darwin` the one that has this version of
    /// the kernel, with the number 0 after the first ones. `None` without a version, before Darwin 4, and for any other
    /// system: what its name states is `operating_system.version()`. Versions are in order, and `None` comes before
    /// all, as LLVM's `isMacOSXVersionLT` and `isOSVersionLT` say.
    #[must_use]
    fn macos_version(self) -> Option<DeploymentTarget> {
        driver::macos_version(&self.into())
    }

    /// The sizes of C's arithmetic types: those of the data model. A triple without one, such as of bare metal and
    /// Cygwin, has those of its compilers; `None` where no source is sure, such as on UEFI and VxWorks.
    #[must_use]
    fn type_sizes(self) -> Option<TypeSizes> {
        TypeSizes::of(&self.into())
    }

    /// The layout of C's `long double`. `None` where no source is sure, such as on UEFI, VxWorks and AIX.
    #[must_use]
    fn long_double_layout(self) -> Option<TypeLayout> {
        TypeLayout::of_long_double(&self.into())
    }

    /// The layout of C's `wchar_t`. `None` where no source is sure, such as on VxWorks and AIX.
    #[must_use]
    fn wchar_layout(self) -> Option<TypeLayout> {
        TypeLayout::of_wchar(&self.into())
    }
}

impl<'a, T: Copy + Into<TripleRef<'a>>> TargetInfo<'a> for T {}
