//! What calls answer at the edges of what they take.
use std::fmt::{self, Write};
use target_lexicon::TripleRef;
use target_names::{
    changes, meanings, read, vendor_suggestion, visible, Dialect, Evidence, Mistake, NameError, NameOf, Suggest as _,
    TargetInfo, VersionOf, Versions, SHOWN,
};

/// A writer with room for so many bytes.
struct Room(usize);

impl Write for Room {
    fn write_str(&mut self, text: &str) -> fmt::Result {
        self.0 = self.0.checked_sub(text.len()).ok_or(fmt::Error)?;
        Ok(())
    }
}

fn triple(text: &str) -> TripleRef<'_> {
    TripleRef::from_str(text).unwrap()
}

/// The rows of a list: each text, and what is expected of it, which stands before the `=` of its line.
fn rows(list: &'static str) -> impl Iterator<Item = (&'static str, &'static str)> {
    let lines = list.lines().map(|line| line.split_once('=').unwrap());
    lines.flat_map(|(expected, texts)| texts.split(", ").map(move |text| (text, expected)))
}

/// The rows of a list whose texts begin with a dialect.
fn rows_of_dialects(list: &'static str) -> impl Iterator<Item = (Dialect, &'static str, &'static str)> {
    rows(list).map(|(text, expected)| {
        let (dialect, text) = text.split_once(' ').unwrap();
        (dialect.parse().unwrap(), text, expected)
    })
}

#[test]
fn a_triple_that_is_a_name_itself_has_no_version() {
    let unikraft = triple("x86_64-unikraft-linux-musl");
    assert_eq!(Dialect::Rust.write(unikraft).unwrap(), "x86_64-unikraft-linux-musl");
    let versions = Versions::none().with(VersionOf::Musl, 1, 2);
    assert_eq!(Dialect::Rust.write_with_versions(unikraft, None, &versions).unwrap(), "x86_64-unikraft-linux-musl");
}

/// What the words of texts say, and after `=` the texts.
const SENTENCES: &str = "\
its words name x86_64-unknown-linux=x86_64-linux, gnu-make-linux-x64, softfp-game-linux-x64, hardfp-game-linux-x64, \
    32bit-game-linux-x64, 64bit-game-linux-x64, sim-game-linux-x64, newlib-game-linux-x64, linux-amd64-v3.2.1, \
    x86-64-v3.1-linux, x64-linux-none, x86_64.1-linux, linux-x64-r5, linux-x64-V5, eGPU-linux-x64, GNULinux-x64, \
    linux-x64-v12
it names nothing known here=foo
it names several machines=linux-armv6-armv7, i586-i686-linux, linuxmusl_ppc64, linux-ppc64-gibc, x86_64-universal, \
    x86_64-arm64-mips-linux, multi-arch-linux, \
    openwrt-sdk-23.05_musl.Linux-x86_64
it names a machine that no triple has=arm64e-linux
it names an Arm of 32 or of 64 bits, and no system=arm
its words name arm-unknown-linux=linux-arm-32bit
its words name armv8-unknown-linux=armv8-32-linux
its words name armv8-unknown-linux-gnueabihf=linux-armv8-gnueabihf
its words name arm-unknown-linux-eabihf of the level v7=linux-armhf-v7
its words name i686-unknown-linux-musl=alpine-i686
its words name arm-unknown-linux-musleabi=alpine-linux-arm32-softfloat
its words say linux, and no single machine known here=linux, linux-x86_w64, linux-x86_w64_clang, linux-x86_6f, \
    arm-v7.1-linux, mip_s64eb-linux, powerp_c-4-linux
it names several systems=x64-linux-windows, cmake-4.0.0-sunos-sparc64.tar.gz
its words say arm, soft-float, linux, gnu; here nobody knows `__`=arm-linux-gnueabi__
its words say 64 bits, linux, and no single machine known here=linux-arm-64bit
its words say x86_64, and no system=x64, sonoma-x64.zip
its words say powerpc64le, and no system=elf64-powerpcle
its words say x86_64, and no system known here=x64-foo
its words say x86_64, its level v3, gnu, and no system=x86-64-v3--glibc--stable-2024.02-1.tar.xz
its words say powerpc64, its level power8, gnu, and no system=powerpc64-power8--glibc--stable-2024.02-1.tar.xz
its words name powerpc64le-unknown-linux=ppc64le-power8-linux
its words name aarch64-apple-darwin=arm64_big_sur
it names a machine, and a system that no triple has=x64-plan9
no triple says all that its words say: x86_64, several widths, linux=linux-x64-32bit-64bit
no triple says all that its words say: arm, several floating-point ABIs, linux=linux-armhf-armel
no triple says all that its words say: x86_64, linux, several C libraries or ABIs=linux-x64-glibc-musl, \
    linux-x64-android-ohos, musl-tool-linux-x64-gnu
no triple says all that its words say: x86_64, linux, another C library or ABI=linux-x64-gnuf32
its words say mips64, linux; here nobody knows `musl32`=mips64-linux-musl32
its words name armeb-unknown-linux of the level v7=Linux armv7b
its words name x86_64-unknown-linux of the level v3=x86_64_v3-linux, x86-64-v3-linux, x86_64-v3-linux, linux-x64-v3, \
    x86_64v3-linux, foo-x86_64.v3-linux.zip
its words name powerpc64le-unknown-linux-gnu of the level power9=powerpc64le-power9-linux-gnu
its words name armv6m-unknown-none-eabi=armv6-m-none-eabi
its words say x86_64, its level v2, linux; here nobody knows `foo`=x86_64_v2-linux-foo
its words say x86_64, linux; here nobody knows `v3`=x86_64-linux-v3
its words say x86_64, 32 bits, linux; here nobody knows `foo`=linux-x64-32bit-foo-bar
its words name x86_64-unknown-linux of the level v4=x86_64_v4-linux, linux-amd64v4
its words name x86_64-unknown-linux of the level v2=linux-amd64v2
no triple says all that its words say: i686, 64 bits, linux=linux-x86-64bit, x86--64-linux
no triple says all that its words say: x86_64, linux, gnu, spe=x64-linux-gnuspe
its words name aarch64-unknown-linux-gnu=linux-arm64-glibc2.28, ld-linux-aarch64.so.1
its words name aarch64-unknown-linux of the level v9=linux_arm64_v9.0, arm64-v9a-linux
its words name aarch64-unknown-linux of the level v9.2=linux_arm64_v9.2
its words say aarch64, linux; here nobody knows `v9`=linux/arm64/v9.10
its words say aarch64, linux; here nobody knows `9`=linux/arm64/9
its words name aarch64-unknown-linux of the level v8.2=linux_arm64_v8.2, aarch64-v8.2-linux, aarch64-v8.2a-linux
its words name riscv64-unknown-linux of the level rva23u64=riscv64-rva23-linux, foo-1.0-linux-riscv64-rva23.tar.gz
its words name aarch64-unknown-linux=linux_arm64_v8.0, GOOS=linux GOARCH=arm64
its words name powerpc64-ibm-aix=ppc64-ibm-aix
its words name x86_64-unknown-linux-newlib=linux-x64-newlib
its words name aarch64-apple-ios-macabi=maccatalyst-arm64
its words name powerpc-unknown-linux-gnuspe=linux-ppc-gnuspe
its words name x86_64-apple-ios=x86_64-iphonesimulator
its words name aarch64-apple-ios-sim=arm64-iphonesimulator
its words name aarch64-unknown-linux-gnu_ilp32=linux-arm64-glibc-32bit, aarch64-ilp32-linux-gnu
its words name arm-unknown-linux-musleabi=linux-armel-musl
its words name arm-unknown-linux-musleabihf=linux-armhf-musl, musl-tool-linux-arm-musleabihf
its words name mips64-unknown-linux-muslabi64=linux-mips64-muslabi64
its words name mips64-unknown-linux-gnuabi64=linux-mips64-gnuabi64
its words name arm-unknown-linux-uclibceabi=linux-armel-uclibc
its words name arm-unknown-linux-uclibceabihf=linux-armhf-uclibc
its words name x86_64-unknown-linux-uclibc=linux-x64-uclibc
its words name x86_64-pc-windows-gnullvm=win-x64-gnullvm, mingw-w64-clang-x86_64
its words name x86_64-pc-windows-msvc=win-x64-msvc
its words name armv7-unknown-linux=arm_v7-linux, GOOS=linux GOARCH=arm GOARM=7
no triple says all that its words say: powerpc, 64 bits, linux=ppc-64.2-linux
its words say x86_64, linux; here nobody knows `FOO`=linux-x64-FOOBar, linux-x64-FOO
its words name armv7-unknown-linux-ohos=armv7-ohos
its words say arm, hard-float, linux, uclibc; here nobody knows `foo`=armhf-linux-uclibc-foo
its words may be of two targets: x86_64, linux, musl=sdk_musl.Linux-x86_64, musl-builder-linux-x64
its words name x86_64-unknown-linux-musl=fd-musl_1.2.0_linux-x64, ld-musl-x86_64.so.1
its words name x86_64-unknown-uefi=BOOTX64.EFI
its words name armeb-unknown-netbsd-eabihf of the level v6=earmv6hfeb
its words name mipsisa32r6el-unknown-linux=linux-mips32r6el
its words name i586-unknown-linux-musl=alpine-3.19-x86, alpine-i386
its words name arm-unknown-linux-eabihf=rust-analyzer-linux-armhf
its words say i686, windows; here nobody knows `664`=win32-x86-664";

#[test]
fn evidence_is_said_in_a_sentence() {
    for (text, sentence) in rows(SENTENCES) {
        assert_eq!(Evidence::of(text).to_string(), sentence, "{text}");
    }
    let long = Evidence::of(&format!("linux-x64-{}", "q".repeat(SHOWN + 1))).to_string();
    assert!(long.ends_with("qqq...`"), "{long}");
}

/// A triple, or why there is none, and after `=` the names of GNU.
const OF_GNU: &str = "\
aarch64-linux-android=aarch64-android-linux
!to config.sub its second part is a maker, or another machine's=x86_64-liux-gnu, x86_64-kinux-gnu, i686-inux-gnu, x86_64-mips, powerpc-vxworks-spe, x86_64-vxworks-gnu, \
    x86_64-linux-gnu-elf, arm-freebsd-gnueabihf, x86_64-linux-linux-gnu, x86_64-windows-linux-gnu, \
    x86_64-mint-linux-gnu, x86_64-next2-linux-gnu, x86_64-gnu-linux, x86_64-eabi-linux-gnu, x86_64-win-linux, \
    x86_64-kfreebsd8-linux-gnu, x86_64-kfreebsd-musl
!=sparc-sun4, sparc-cray, x86_64-linux-gnu-gnu, x86_64-apple-tvosx, x86_64-pc-, uclinux
sparc64-unknown-none-elf=sparc64-sun4
x86_64-unknown-none-elf=x86_64-cray, x86_64-, x86_64-elf, x86_64-none
x86_64-unknown-linux-gnu=x86_64--linux, x86_64-linux, x86_64-win-linux-gnu, x86_64-unknown-linux-gnu, \
    x86_64-none-linux-gnu
!config.sub takes no more than four parts=a-b-c-d-e
arm-unknown-linux-gnueabihf=arm-hardfloat-linux-gnueabi
armv7-unknown-linux-gnueabi=armv7-softfloat-linux-gnueabi
x86_64-unknown-hurd-gnu=x86_64-gnu
!config.sub takes no such system, C library or ABI after this kernel=x86_64-pc-linux-elf, x86_64-linux-elf, \
    x86_64-linux-spe
wasm32-unknown-none-wasm=wasm32-none, wasm32-unknown-none
!config.sub takes a C library only after a kernel: say linux before it=x86_64-musl, x86_64-newlib
!config.sub has no system or ABI of this meaning=x86_64-pc-msvc, x86_64-sim, x86_64-pc-macho, x86_64-apple-tvos9, \
    x86_64-foo-cuda, x86_64-solaris1
x86_64-linux-android=x86_64-android
arm-linux-androideabi=arm-androideabi
arm-unknown-none-eabi=arm-eabi
arm-unknown-none-eabihf=arm-eabihf
powerpc-unknown-vxworks-spe=powerpc-wrs-vxworks-spe
arm-unknown-freebsd-gnueabihf=arm-pc-freebsd-gnueabihf
!config.sub doesn't know this machine=bpfel-linux-gnu
!triples have no system kopensolaris=arm-kopensolaris-gnu
!triples have no system knetbsd=arm-knetbsd-gnu
x86_64-pc-solaris=x86_64-solaris2
armv7-unknown-netbsd-eabi=armv7-netbsd-eabi
armv7-unknown-cloudabi-eabihf=armv7-cloudabi-eabihf
!triples have no system uclinux=arm-uclinux-uclibc, arm-uclinux-gnu
!triples have no system kfreebsd=x86_64-kfreebsd-gnu
!it says soft-float, which a triple of this machine and C library can't state=x86_64-softfloat-linux-gnu";

/// The triple, or after `!` why there is none.
fn shown(found: Result<TripleRef, NameError>) -> String {
    match found {
        Ok(triple) => triple.to_string(),
        Err(NameError::Unknown) => "!".into(),
        Err(NameError::WithoutTriple(why)) => format!("!{why}"),
    }
}

#[test]
fn names_of_gnu_are_those_of_config_sub() {
    for (name, expected) in rows(OF_GNU) {
        assert_eq!(shown(Dialect::Gnu.read(name)), expected, "{name}");
    }
}

/// What is read, or after `!` why it is refused, and after `=` strings that are spelled like triples.
const SPELLED: &str = "\
!Unrecognized vendor: softfloat=x86_64-softfloat-linux-gnu, armv7-softfloat-linux, armv7-softfloat-linux-gnueabihf
armv7-unknown-linux-musleabi=armv7-softfloat-linux-musleabi
x86_64-lynx-linux=x86_64-lynx-linux
!Unrecognized operating system: lynx=x86_64-lynx, x86_64-lynx-unknown, x86_64-lynx-elf
!Unrecognized operating system: macos.11.0=x86_64-macos.11.0
!Unrecognized operating system: linux5.10=x86_64-linux5.10
!Unrecognized operating system: nuttx=x86_64-nuttx
!Unrecognized operating system: v8.2a=aarch64-v8.2a-linux
!Unrecognized operating system: rtems6=x86_64-rtems6
!Unrecognized operating system: wasip3=x86_64-wasip3
!Unrecognized operating system: windows.win10=x86_64-windows.win10
!Unrecognized environment: gnu.=x86_64-linux-gnu.
!Unrecognized field: arm=amd64-unknown-linux-gnu-elf-arm
!Unrecognized operating system: bar=x86_64-foo-bar";

#[test]
fn spelled_strings_are_read_or_refused_at_a_part() {
    for (text, expected) in rows(SPELLED) {
        let found = read(text).map_or_else(|why| format!("!{why}"), |it| it.to_string());
        assert_eq!(found, expected, "{text}");
    }
    let many = TripleRef::from_str("x86_64-unknown-linux-gnu-elf-foo").unwrap_err();
    assert_eq!((many.suggestion(), many.suggestion_in("x86_64-")), (None, None));
    // The machine may be `powerpc64`.
    let text = "powerp_c-4-linux";
    assert_eq!(TripleRef::from_str(text).unwrap_err().suggestion_in(text), None);
    for (text, count) in [("x86_64-none-unknown", 0), ("x86_64-none-unknown-elf", 0), ("x86_64-none-unknown-eabi", 2)] {
        assert_eq!(changes(text).count(), count, "{text}");
    }
}

/// A triple, or after `!` why there is none, and after `=` dialects with texts that have a name of it in them.
const LOOSE: &str = "\
armv7-linux-androideabi=uname Linux localhost 4.14.1 armv7l Android
armv7a-linux-androideabi=gnu armv7a-linux-androideabi21
wasm32-unknown-emscripten=python emscripten-3.1.58-wasm32
aarch64-pc-windows-gnullvm=uname CLANGARM64_NT-10.0-22631-ARM64 aarch64
i686-unknown-linux=uname Linux a 2.6.32-754.el6.i686 #1 SMP i686 i686 i386 GNU/Linux
aarch64-linux-android=uname Linux localhost 4.14.1 aarch64 Android
x86_64-unknown-freebsd=uname FreeBSD a 13.2 b amd64 Android
x86_64-unknown-linux=uname Linux arm 6.1 x86_64 GNU/Linux, go tool-linux-amd64.tar.gz, go tool-linux-amd64.tar.bz2, \
    node tool-linux-x64.tgz, go tool-linux-amd64.tar.xz.sha256, go tool-linux-amd64.gz, \
    uname Linux-x86_64, uname Linux_x86_64, uname  Linux x86_64, uname  Linux-x86_64 , uname Linux,x86_64
x86_64-unknown-linux-gnu=debian hello-windows_1_amd64.deb, debian netcat-openbsd_1.219-1_amd64.deb, \
    debian alpine_2.26_amd64.deb, rpm netcat-openbsd-1.226-1.x86_64.rpm, pacman gnu-efi-3.0.18-3-x86_64.pkg.tar.zst, \
    node @rollup/rollup-linux-x64-gnu, rust tool-x86_64-unknown-linux-gnu.tar.zst, \
    debian binutils-mingw-w64-i686_2_amd64.deb, debian newlib-none_1_amd64.deb, debian amd64.deb, debian dc:amd64, \
    debian g++:amd64, zig x86_64-linux.5.10-gnu.2.31, pacman zlib-1-2-x86_64.pkg.tar.zst, \
    debian gcc-x86-64-linux-gnu_12.2_amd64.deb
x86_64-pc-windows-msvc=rust tool-x86_64-pc-windows-msvc.exe, rust nightly-2024-05-01-x86_64-pc-windows-msvc
wasm32-unknown-unknown=rust rust-std-1.75.0-wasm32-unknown-unknown.tar.xz, rust stable-wasm32-unknown-unknown
riscv32imac-unknown-none-elf=rust rust-std-1.75.0-riscv32imac-unknown-none-elf.tar.xz
thumbv7neon-unknown-linux-musleabihf=rust tool-1.2-thumbv7neon-unknown-linux-musleabihf.tar.gz
armv7-unknown-linux-musleabihf=dotnet dotnet-sdk-8.0-linux-musl-arm.tar.gz
!=debian linux-image_1.rpi_armhf.deb, debian linux-image_1+rpt2_armhf.deb, debian x_1_arm.deb, go linux_armhf, \
    go linux_386_softfloat, debian a:amd64, debian Libc:amd64, debian linux:amd64, go tool-amd64.zip, \
    rpm gcc-8-1.aix7.2.x86_64.rpm, debian raspbian-x_1_armhf.deb, gnu gcc, gnu arm-gcc, gnu aarch64-linux-gnu-foo, \
    rust x86_64-unknown-linux-musl.2.17, rust x86_64-unknown-linux-gnu.2.x, zig x86_64-linux.foo-gnu, \
    zig x86_64-linux.5.10...foo-gnu, python manylinux_2_17_x86_64.musllinux_1_2_x86_64, oci windows(10.0.*)/amd64, \
    oci linux(10.0)/amd64, oci windows(x)/amd64, go linux-i386-x86_64, oci linux/armhf/foo, \
    debian hello-musl_2.10_amd64.deb, debian foo_1.0_armv6_armhf.deb, node tool-linux-arm64/v9-musl, \
    debian foo_1.0_android_arm64.deb, \
    node @scope/foo-linux-arm64-windows-x64, dotnet tool-linux-musl-arm.tar.gz, python macosx_11__arm64, \
    python macosx_11_00_arm64, python macosx_11_01_arm64, python macosx_11_+1_arm64, python macosx_11_256_arm64, \
    python macosx_11_1_1_arm64, python macosx_65536_0_arm64, python musllinux_1__aarch64, oci windows()/amd64, \
    oci windows(10..1)/amd64, node @types/node, go linux_amd64_foo, go linux-x86_64, uname Linux, uname Linux x86_64 foo
aarch64-apple-macosx65535.255.0=python macosx_65535_255_arm64
armv7-unknown-linux-gnueabihf=debian hello_1_armhf.deb, node @parcel/watcher-linux-arm-glibc@2.4.1
i686-unknown-linux-gnu=debian libc6:i386
!several machines=go tool_darwin_all.tar.gz, python macosx_11_0_arm64.macosx_10_9_universal2
!Plan 9 is no known name=go tool-plan9/amd64.zip, go tool-plan9-amd64.zip
aarch64-unknown-linux-gnu=debian linux-image-amd64_6.1_arm64.deb, gnu /usr/bin/aarch64-linux-gnu-gcc-12, \
    rpm zlib-1.2-3.fc39.aarch64.rpm
x86_64-pc-windows-gnu=gnu C:\\x\\x86_64-w64-mingw32-gcc.exe, gnu x86_64-w64-mingw32-gcc-12.2-posix, \
    zig x86_64-windows.win10...win11-gnu, uname MINGW64_NT-6.1 x86_64, uname MINGW64_NT-10.0-26100-ARM64 x86_64, \
    gnu x86_64-w64-mingw32-pkg-config, gnu x86_64-w64-mingw32-g++
!the machine that asks=zig native-linux.5
!no machine=python a-1-py3-none-any.whl
i686-pc-windows=python cp311-abi3-win32
!32 or 64 bits, which `uname -m` doesn't say=uname SunOS a 5.11 b i86pc i386 i86pc illumos
!two systems: Solaris and illumos=uname SunOS i86pc, node @esbuild/sunos-x64
powerpc-apple-darwin=uname Darwin  Power  Macintosh
x86_64-pc-windows=oci windows(10.0)/amd64, oci Windows(10.0)/amd64
aarch64-apple-darwin=oci macos/arm64, oci MacOS/ARM64
armv7-unknown-linux-uclibceabihf=debian uclibc-linux-armhf
x86_64-unknown-linux-musl=debian musl-linux-amd64, node node_modules/@img/sharp-libvips-linuxmusl-x64";

#[test]
fn texts_have_names_in_them() {
    for (dialect, text, expected) in rows_of_dialects(LOOSE) {
        assert_eq!(shown(dialect.read_loosely(text).map(|it| it.triple)), expected, "{dialect} {text}");
    }
    // No longer string is a name.
    for length in 20..80 {
        let q = &"q".repeat(length);
        let words = [format!("Q{q}_arm"), format!("{q}_amd64"), format!("linux_{q}"), format!("linux_{q}_{q}")];
        let parts = [format!("x86_64-{q}.5-foo"), format!("{q}-linux.5-gnu"), format!("x86_64-linux.5-{q}")];
        let others = [format!("{q} {q}"), format!("{q}_NT-10 x86_64"), format!("Linux {q}"), format!("windows(1){q}")];
        let gnu = [format!("{q}-linux-gnu"), format!("x86_64-{q}"), format!("x86_64-pc-linux-{q}")];
        let around = [format!("uclibc-{q}"), format!("{q}:{q}"), format!("{q}/{q}"), format!("{q}-gcc"), q.clone()];
        for name in words.iter().chain(&parts).chain(&others).chain(&gnu).chain(&around) {
            for dialect in Dialect::ALL {
                assert_eq!(dialect.read_loosely(name), Err(NameError::Unknown), "{dialect} {name}");
            }
        }
    }
}

#[test]
fn a_mistake_names_all_tools() {
    let mistake = Dialect::Debian.mistake("x86_64").unwrap();
    assert_eq!(mistake.to_string(), "it is a name of gnu, rpm, apk and pacman");
    assert_eq!(Dialect::Go.mistake("/opt/linux/amd64"), Some(Mistake::Path));
    // Of the names with a part one of Linux without Android, which begins or ends with it.
    assert_eq!(Dialect::Rust.mistake("aarch64"), Some(Mistake::Part("aarch64-unknown-linux-gnu")));
    assert_eq!(Dialect::Go.mistake("arm64"), Some(Mistake::Part("linux/arm64")));
    assert_eq!(Dialect::Go.mistake(""), None);
    let long = format!("{}-linux-gnu", "q".repeat(SHOWN + 1));
    let mistake = Dialect::Gnu.mistake(&long).unwrap().to_string();
    assert!(mistake.starts_with("as a triple: Unrecognized architecture: qqq") && mistake.ends_with("qqq..."));
}

#[test]
fn a_long_part_is_shortened() {
    let shown = |length| visible("a".repeat(length)).shortened().to_string();
    assert_eq!(shown(SHOWN), "a".repeat(SHOWN));
    assert_eq!(shown(SHOWN + 1), "a".repeat(SHOWN) + "...");
    assert_eq!(visible("'".repeat(SHOWN)).shortened().to_string(), "'".repeat(SHOWN));
    let escaped = visible("\u{202e}".repeat(SHOWN / 8 + 1)).shortened().to_string();
    assert_eq!(escaped, "\\u{202e}".repeat(SHOWN / 8) + "...");
    // It is cut short only where it is too long.
    assert!((0..10).all(|room| write!(Room(room), "{}", visible("\u{202e}ab")).is_err()));
}

/// A name, or after `!` why there is none, and after `=` dialects with triples.
const WRITTEN: &str = "\
!Baseline=debian riscv64a23-unknown-linux-gnu, go riscv64a23-unknown-linux-gnu, python x86_64h-apple-darwin, \
    rust armv8-pc-windows-msvc
riscv64=debian riscv64imac-unknown-linux-gnu
amd64=debian x86_64-lynx-linux-gnu
i586-unknown-linux-musl=gnu i586-alpine-linux-musl
!NoAbi=go aarch64-apple-darwin-sim, node aarch64-apple-macosx-sim
!Simulator=go aarch64-apple-ios-sim, go x86_64-unknown-linux-sim
!NeedsWasiVersion=go wasm32-wasi-sim
!NoMachineOnAnySystem=debian wasm32-wasi
!NeedsVersion=python aarch64-apple-ios
!NeedsArmVersion=debian arm-unknown-linux, gnu arm-unknown-linux
!NoMachine=go riscv64-pc-windows, python aarch64-unknown-netbsd
!NoSystem=debian x86_64-pc-windows
!OtherTarget=gnu x86_64-beos, debian x86_64-beos
mipsisa32r6el-unknown-linux-musleabi=gnu mipsisa32r6el-unknown-linux-musleabi
!NeedsCLibrary=rust x86_64-acme_acme_acme_acme_acme_acme_acme_acme_acme_acme_acme_acme-linux";

#[test]
fn triples_have_names_or_reasons() {
    for (dialect, text, expected) in rows_of_dialects(WRITTEN) {
        let found = dialect.write_with(triple(text), None);
        assert_eq!(found.map_or_else(|why| format!("!{why:?}"), |it| it.to_string()), expected, "{dialect} {text}");
    }
    // A C library of Linux says nothing of another system.
    let freebsd = Dialect::Gnu.write_with(triple("arm-unknown-freebsd"), "glibc".parse().ok());
    assert_eq!(freebsd.unwrap(), "arm-unknown-freebsd");
    // Of Windows on Arm rustc has one machine, and another one is none that it has.
    assert_eq!(Dialect::Rust.shape(&triple("armv8-pc-windows-msvc")).to_string(), "armv8-pc-windows-msvc");
    assert_eq!(Dialect::Rust.shape(&triple("armv7-pc-windows-msvc")).to_string(), "thumbv7a-pc-windows-msvc");
}

/// The name that is suggested, or `-`, and after `=` dialects with names that they don't have.
const SUGGESTED: &str = "\
-=go aux/ppc64, go aux7/ppc64, rust x86_64-unknown-linux-gnux, go linux/amr64, node linux-adm64, gnu linux-ppc64--gnu, \
    debian powerpcel, zig x86-lynx, apk arm-vx7, debian arm-elf, node x86-64, gnu x86-64, rust mipsel-sony-psx, \
    debian powerpcle, gnu arceb-linux-gnu, node win32-x32, debian armv6, rust aarch64-apple-ios-iso, node openuse-x64, \
    conda os-arm64, gnu armb-linux-gnueabi, zig arme-linux-gnueabi, debian spirv64, \
    go linux/wasm, oci linux/amd6/v4, rpm i486-linux-gnu, nix i486-linux, gnu x86_64-unknown-wali, zig archlinux, \
    rust x86_64-unknown-threadx, node linux-rv32, gnu mic-linux-gnu, node wsl-x64, node wii-x64
linux/arm64=go nilux/arm64
opensuse-x64=dotnet openuse-x64
aix/ppc64=go aix/ppc46
linux-x64=node 1.2-linux-amd64
aarch64-macos-none=zig aarch64-macosx-none
powerpcspe=debian powerpc-spe
x32=debian  x32\x20
linux-x64-musl=node /opt/linux-x64-musl/linux-x64
wasm32-wali-linux-musl=rust wasm32-wali-linx-musl
armhf=debian armv7-hardfloat-linux-gnueabi.2.17
musl-linux-amd64=debian mmusl-linux-amd64
amd64=debian x86-64
wasi/wasm=oci wasi-wasm";

/// A level, or nothing, and after `=` dialects with names that say it.
const LEVELS: &str = "\
v4=rpm foo-1-1.x86_64_v4.rpm
neon=rpm foo-1-1.armv7hnl.rpm
znver1=rpm foo-1-1.znver1.rpm
power7=rpm glibc-2.17-317.el7.ppc64p7.rpm
v9=rpm sparcv9
v3=rpm libz1-x86-64-v3-1.2.13-1.1.x86_64.rpm, debian libc6:amd64v3, debian foo_1.0-1_amd64v3.deb, pacman bash-5.2-1-x86_64_v3.pkg.tar.zst, go linux_amd64_v3, \
    go foo_1.2_linux_amd64_v3.tar.gz
=go linux_amd64_v1
power9=go linux_ppc64le_power9
rva22u64=oci linux/riscv64/rva22u64
v9.2=oci linux/arm64/v9.2
v9=go linux_arm64_v9.0
armv6=rust ripgrep-14.1.0-arm-unknown-linux-gnueabihf.tar.gz";

#[test]
fn what_is_around_a_name_keeps_its_level() {
    for (dialect, name, level) in rows_of_dialects(LEVELS) {
        assert_eq!(dialect.read_loosely(name).unwrap().level, level, "{dialect} {name}");
        let mut meanings = meanings(name).filter(|it| it.of == NameOf::Dialect(dialect));
        assert_eq!(meanings.next().unwrap().sense.unwrap().level, level, "{dialect} {name}");
        // In Debian it has a name of this level, or none.
        let debian = dialect.translate(name, "glibc".parse().ok(), Dialect::Debian);
        let is_same = |it: target_names::Name| Dialect::Debian.read_loosely(it.as_str()).unwrap().level == level;
        assert!(debian.map_or(true, is_same), "{dialect} {name} {debian:?}");
    }
}

/// Whichever two letters are swapped, and whichever is left out or doubled: a hint is of the machine that the name means to some tool.
#[test]
fn hints_keep_the_machine() {
    let machine = |text: &str| {
        let triple = triple(text);
        let family = triple.rustc_cfg().target_arch.to_string();
        (family, triple.endianness().ok(), triple.pointer_width().ok())
    };
    let mut machines = std::collections::BTreeMap::<_, Vec<_>>::new();
    for row in include_str!("../names.csv").lines().skip(1) {
        let cells: Vec<_> = row.split(',').collect();
        if !cells[2].is_empty() && !cells[1].contains('*') {
            machines.entry(cells[1]).or_default().push(machine(cells[2]));
        }
    }
    let mut count = 0;
    for (at, (name, own)) in machines.iter().enumerate() {
        for i in (at % 5..name.len()).step_by(5).filter(|i| name.is_char_boundary(*i) && name.is_ascii()) {
            let (before, after) = name.split_at(i);
            let swapped = |n| Some(after.get(..n)?.chars().rev().collect::<String>() + &after[n..]);
            let far = swapped(3).filter(|_| after[..3].bytes().all(|it| it.is_ascii_lowercase()));
            let edited = [Some(after[1..].to_string()), Some(after[..1].to_string() + after), swapped(2), far];
            for edited in edited.into_iter().flatten().map(|it| before.to_string() + &it) {
                let is_right = |it: &(Dialect, &str)| own.contains(&machine(&it.0.read(it.1).unwrap().to_string()));
                let mut hints = Dialect::ALL.iter().filter_map(|it| Some((*it, it.suggestion(&edited)?)));
                let wrong = hints.find(|it| !is_right(it));
                assert!(wrong.is_none() || machines.contains_key(&*edited), "{name}: {edited}: {wrong:?}");
                count += 1;
            }
        }
    }
    assert!(count > 9000, "{count}");
}

#[test]
fn names_are_suggested_for_unknown_ones() {
    for (dialect, name, expected) in rows_of_dialects(SUGGESTED) {
        assert_eq!(dialect.suggestion(name).unwrap_or("-"), expected, "{dialect} {name}");
    }
    // A misspelling is no name after another one.
    assert_eq!(Dialect::Debian.mistake("mmusl-linux-amd64"), None);
    // A longer string gets none.
    let path = |length: usize| format!("{}/linux/amd64", "a".repeat(length - 12));
    assert_eq!(Dialect::Go.suggestion(&path(256)), Some("linux/amd64"));
    assert_eq!(Dialect::Go.suggestion(&path(257)), None);
    assert_eq!(Dialect::Go.mistake(&path(256)), Some(Mistake::Path));
    assert_eq!(Dialect::Go.mistake(&path(257)), None);
}

#[test]
fn a_vendor_that_is_an_environment_is_one_of_the_machine() {
    let suggested = |text| vendor_suggestion(triple(text)).map(|it| it.to_string());
    assert_eq!(suggested("armv7-gnueabihf13").as_deref(), Some("gnueabihf"));
    assert_eq!(suggested("x86_64-gnueabihf13"), None);
    // Any machine may have it.
    assert_eq!(suggested("unknown-gnueabihf13").as_deref(), Some("gnueabihf"));
}
