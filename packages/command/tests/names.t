# Names of other tools

  $ . "$TESTDIR/rows.sh"

  $ target-lexicon settle --from oci linux/arm/v7
  armv7-unknown-linux
  $ target-lexicon settle --from llvm amd64-w64-mingw32
  x86_64-pc-windows-gnu
  $ target-lexicon settle --from llvm --libc musl amd64-linux
  x86_64-unknown-linux-musl
  $ target-lexicon settle --from uname 'Linux x86_64'
  x86_64-unknown-linux
  $ target-lexicon settle --from python manylinux_2_17_x86_64
  x86_64-unknown-linux-gnu
  $ target-lexicon settle --from go linux/foo linux/arm64 linux/amd46 plan9/amd64
  aarch64-unknown-linux
  ! error: unknown name of go `linux/foo`
  !   linux/foo
  !   ^^^^^^^^^
  !   note: its words say linux, and no single machine known here
  ! error: unknown name of go `linux/amd46`
  !   linux/amd46
  !   ^^^^^^^^^^^ did you mean `linux/amd64`?
  ! error: no triple means the same as the name of go `plan9/amd64`
  !   plan9/amd64
  !   ^^^^^^^^^^^ Plan 9 is no known name
  ! 3 of 4 targets refused
  [1]
  $ target-lexicon translate --to uname x86_64 > /dev/null
  [2]
  $ target-lexicon translate --to debian wasm32-unknown-unknown
  ! error: no name of debian for `wasm32-unknown-unknown`
  !   wasm32-unknown-unknown
  !   ^^^^^^^^^^^^^^^^^^^^^^ the tool has no name for this machine on any system
  [1]

One C library of each system may be said, and two of one system are no choice:

  $ target-lexicon translate --from oci --to rust --libc musl --libc msvc linux/amd64,windows/amd64
  x86_64-unknown-linux-musl
  x86_64-pc-windows-msvc
  $ target-lexicon settle --libc mingw,glibc x86_64-linux x86_64-pc-windows
  x86_64-unknown-linux-gnu
  x86_64-pc-windows-gnu
  $ for libcs in 'glibc --libc musl' 'msvc --libc mingw'; do target-lexicon settle --libc $libcs avr | head -n 1; done
  ! error: `--libc glibc` and `--libc musl` can't be used together
  ! error: `--libc msvc` and `--libc mingw` can't be used together
  $ target-lexicon what --libc musl --libc msvc linux/amd64 > /dev/null
  [2]

What is read as other names is shown if it is asked, and always in JSON:

  $ target-lexicon settle --changes amd64--freebsd13.2 x86_64-linux-gnu
  x86_64-unknown-freebsd
    `amd64` is read as `x86_64`
    the empty part is read as `unknown`
    `freebsd13.2` is read as `freebsd`
  x86_64-unknown-linux-gnu
  $ target-lexicon settle --changes --json x86_64-mingw32 amd64-pc-foo
  [{"target":"x86_64-mingw32","file":null,"line":null,"canonical":"x86_64-unknown-windows-gnu","changes":[{"part":"mingw32","start":7,"end":14,"read_as":"windows-gnu"}]},{"target":"amd64-pc-foo","file":null,"line":null,"error":"unrecognized operating system","part":"foo","start":9,"end":12,"field":"operating_system","suggestion":null,"note":null}]
  ! error: unrecognized operating system `foo`
  !   amd64-pc-foo
  !            ^^^
  [1]
  $ target-lexicon settle --from oci --changes linux/arm > /dev/null
  [2]

What another call or tool takes is said:

  $ note() { target-lexicon "$@" | tail -n 1; }
  $ note check amd64-linux
  !   note: other tools mean `x86_64-unknown-linux`, which `target-lexicon settle --from llvm` gives
  $ note check amd64
  !   note: it is a name of another tool: use `target-lexicon check --from debian` or `target-lexicon check --from rpm`
  $ note explain x86_64-freebsd13.2
    note              other tools mean `x86_64-unknown-freebsd`, which `target-lexicon settle --from llvm` gives
  $ for name in linux/arm64 linux/foo armhf js/wasm arm64e-apple-darwin foo; do note settle --from llvm $name; done
  !   note: it is a name of another tool: use `--from go` or `--from oci`
  !   note: a name of another tool needs `--from`
  !   note: it is a name of another tool: use `--from debian` or `--from apk`
  !   note: it is a name of go without a triple: a module for Go's own JavaScript; rustc's nearest target is wasm32-unknown-unknown
  !   note: it is a name of rust without a triple: a target of rustc that has no triple here: its architecture is no known name
  !   ^^^
  $ for call in check settle matrix facts; do note $call linux/arm/v7; done
  !   note: it is a name of another tool: use `target-lexicon check --from oci`
  !   note: it is a name of another tool: use `target-lexicon settle --from oci`
  !   note: it is a name of another tool: use `target-lexicon matrix --from oci`
  !   note: it is a name of another tool: use `target-lexicon facts --from oci`
  $ for call in check settle matrix facts 'translate --to debian'; do note $call --from docker x86_64-unknown-linux-gnu; done
  !   note: it is a name of gnu and rust; it is a triple, which `target-lexicon check` and `target-lexicon what` take
  !   note: it is a name of gnu and rust; it is a triple, which `target-lexicon settle` and `target-lexicon what` take
  !   note: it is a name of gnu and rust; it is a triple, which `target-lexicon matrix` and `target-lexicon what` take
  !   note: it is a name of gnu and rust; it is a triple, which `target-lexicon facts` and `target-lexicon what` take
  !   note: it is a name of gnu and rust; it is a triple, which `target-lexicon translate --to debian` and `target-lexicon what` take
  $ for target in x86_64-freebsd13.2 x86_64-mingw32 aarch64-macos14 x86_64-linux5.10; do
  >   command target-lexicon explain --json $target 2> /dev/null
  > done | jq -r '.[].suggestion'
  freebsd
  windows-gnu
  macosx14
  linux

Names are taken where triples are:

  $ for call in settle matrix; do target-lexicon $call --from docker --libc musl '[linux/amd64, linux/arm64]'; done
  x86_64-unknown-linux-musl
  aarch64-unknown-linux-musl
  x86_64-unknown-linux-musl\tlinux/amd64\t1\targument:1 (esc)
  aarch64-unknown-linux-musl\tlinux/arm64\t1\targument:1 (esc)
  $ target-lexicon check --from docker linux/amd64,linux/arm64

`check` refuses what is no name of the tool. A name without a triple is one:

  $ jq -r '.names[] | select(.tool == "rust") | .name' "$TESTDIR/../../names/names.json" | target-lexicon check --from rust
  $ target-lexicon check --from go plan9/amd64
  $ target-lexicon settle --from go plan9/amd64 | head -n 1
  ! error: no triple means the same as the name of go `plan9/amd64`
  $ target-lexicon check --from rust x86_64-foo avr-unknown-linux-gnu armv7-linux-gnueabihf | grep -c '^! error: unknown'
  3
  $ target-lexicon check --from gnu avr-foo | head -n 1
  ! error: unknown name of gnu `avr-foo`
  $ facts() { command target-lexicon facts --json "$@" | jq '.[] | del(.target)'; }
  $ cmp <(facts --from docker --libc musl linux/amd64) <(facts x86_64-unknown-linux-musl)
  $ facts --libc musl x86_64-linux | jq -r .environment
  musl

The names of each dialect are listed, and are read:

  $ for dialect in $(target-lexicon names dialects); do
  >   command target-lexicon names $dialect | tr '\n' '\0' | target-lexicon check -0 --from $dialect; echo $dialect
  > done | paste -sd' '
  debian go oci docker node npm gnu python rust uname rpm apk pacman dotnet conda zig nix
  $ target-lexicon names docker --json | jq -r '.oci[]' | cmp - <(command target-lexicon names docker)
  $ target-lexicon names | sed -n '/^vendor/,/^op/p' | head -n 3
  vendor
    unknown
    amd

## From tool to tool

  $ cat > translations << 'END'
  > oci|linux/arm64/v8|debian|glibc|arm64
  > oci|linux/arm64/v8|gnu|musl|aarch64-linux-musl
  > oci|linux/arm/v7|debian|-|it depends on the C library: use `--libc glibc` or `--libc musl`
  > oci|linux/arm/v7|go|-|linux/arm
  > go|linux/arm64|rust|musl|aarch64-unknown-linux-musl
  > debian|armhf|oci|musl|linux/arm/v7
  > debian|armhf|node|-|linux-arm-gnueabihf
  > oci|windows/amd64|rust|-|it depends on the ABI of Windows: use `--libc msvc`, `mingw` or `gnullvm`
  > oci|windows/amd64|rust|msvc|x86_64-pc-windows-msvc
  > uname|Darwin arm64|rust|glibc|aarch64-apple-darwin
  > dotnet|linux-musl-arm64|rust|msvc|aarch64-unknown-linux-musl
  > triple|armv7-unknown-linux|rust|musl|armv7-unknown-linux-musleabihf
  > triple|aarch64-linux-gnu|debian|-|arm64
  > END
  $ translated() {
  >   local options=(--to "$3")
  >   [ "$1" = triple ] || options+=(--from "$1")
  >   [ "$4" = - ] || options+=(--libc "$4")
  >   echo "$1|$2|$3|$4|$(target-lexicon translate "${options[@]}" "$2" | grep -v '^! note' | tail -n 1 | sed -E 's/^!.*\^ //')"
  > }
  $ same translations translated
  $ target-lexicon translate --from docker --to gnu --libc glibc linux/amd64,linux/arm64,linux/arm/v7
  x86_64-linux-gnu
  aarch64-linux-gnu
  arm-linux-gnueabihf
  $ printf 'x86_64-unknown-linux-gnu\nthumbv6m-none-eabi\nx86_64-pc-windows-msvc\n' | target-lexicon translate --from rust --to npm
  linux-x64-gnu
  win32-x64-msvc
  ! <stdin>:2:1: error: no name of node for `thumbv6m-none-eabi`
  !   thumbv6m-none-eabi
  !   ^^^^^^^^^^^^^^^^^^ the tool has no name for the system
  ! 1 of 3 targets refused
  [1]
  $ printf 'Linux\nx86_64\0Darwin arm64\0' | command target-lexicon translate -0 --from uname --to rust --libc glibc | tr '\0' '|'
  x86_64-unknown-linux-gnu|aarch64-apple-darwin| (no-eol)
  $ target-lexicon translate --to go --json x86_64-apple-darwin
  [{"target":"x86_64-apple-darwin","file":null,"line":null,"name":"darwin/amd64"}]

A version is one or two numbers, of a C library or a system by its name; one of another system never applies:

  $ python() { target-lexicon translate --to python "$@"; }
  $ versions='--glibc 2.17 --musl 1.2 --macos 11 --ios 17 --android 21 --freebsd 14.1'
  $ python $versions x86_64-unknown-linux-gnu aarch64-unknown-linux-musl arm64-apple-darwin arm64-apple-ios aarch64-linux-android x86_64-unknown-freebsd i686-pc-windows-msvc
  manylinux_2_17_x86_64
  musllinux_1_2_aarch64
  macosx_11_0_arm64
  ios_17_0_arm64_iphoneos
  android_21_arm64_v8a
  freebsd_14_1_release_amd64
  win32
  $ for it in 2.17' --glibc 2.28' '2.17 --to go'; do python --glibc $it avr | head -n 1; done
  ! error: `--glibc 2.17` and `--glibc 2.28` can't be used together
  ! error: `--to python` and `--to go` can't be used together
  $ python --macos 11 --musl 1.2 x86_64-unknown-linux-gnu
  linux_x86_64
  $ python --glibc 2.17 x86_64-unknown-freebsd aarch64-apple-ios | grep -c 'the name states a version'
  2
  $ python --glibc 2.17 --musl 1.2 --libc glibc aarch64-linux
  manylinux_2_17_aarch64
  $ python --glibc 2.17 --from rust x86_64-unknown-linux-gnu
  manylinux_2_17_x86_64
  $ python --glibc 2.17 --from oci linux/amd64; python --musl 1.2 aarch64-linux
  manylinux_2_17_x86_64
  musllinux_1_2_aarch64
  $ target-lexicon translate --to debian --glibc 2.17 --macos 11 x86_64-linux
  amd64
  $ python --glibc 2.17 --musl 1.2 aarch64-linux | tail -n 1
  !   ^^^^^^^^^^^^^ it depends on the C library: use `--libc glibc` or `--libc musl`
  $ python arm64-apple-macosx11
  macosx_11_0_arm64
  $ for version in 2.17.1 2. '' x 65536 2.256 +2.17; do
  >   python --glibc "$version" avr | grep -c 'a version has one or two numbers, such as 2.17 or 21: the first up to 65535, the second up to 255'
  > done | uniq -c
        7 1

A C library that changes nothing is noted, unless nothing is answered or asked:

  $ target-lexicon settle --libc glibc x86_64-linux-gnu
  x86_64-unknown-linux-gnu
  ! note: `--libc glibc` isn't needed: without it the answers are the same
  $ while read -r call; do target-lexicon $call > out; grep -c "isn't needed" out; done << 'END' | paste -sd' '
  > translate --from debian --to rust --libc glibc amd64 arm64
  > translate --from oci --to go --libc glibc linux/amd64
  > translate --to debian --libc glibc x86_64-unknown-linux-gnu
  > settle --from go --libc glibc windows/amd64
  > what --libc glibc darwin/arm64
  > settle --json --libc glibc x86_64-linux-gnu
  > facts --libc glibc x86_64-linux-gnu
  > translate --from oci --to rust --libc glibc darwin/arm64 linux/amd64
  > translate --to node --libc musl x86_64-linux
  > translate --to python --glibc 2.17 --musl 1.2 --libc glibc aarch64-linux
  > settle --from go --libc msvc windows/amd64
  > what --libc musl linux/amd64
  > settle --quiet --libc glibc x86_64-linux-gnu
  > settle --libc glibc foo
  > END
  1 1 1 1 1 1 1 0 0 0 0 0 0 0

## What a name means

  $ target-lexicon what linux/arm64 --libc musl
  linux/arm64
    is aarch64-unknown-linux-musl, as go, oci
      debian  musl-linux-arm64
      go      linux/arm64
      oci     linux/arm64
      node    linux-arm64-musl
      gnu     aarch64-linux-musl
      python  linux_aarch64
      rust    aarch64-unknown-linux-musl
      apk     aarch64
      dotnet  linux-musl-arm64
      zig     aarch64-linux-musl
      nix     aarch64-linux
      -       rpm, pacman, conda: the tool has names for the machine and the system, and none with this C library or ABI
  $ target-lexicon what linux/arm64 | grep 'use `--libc'
      -       debian, gnu, rust, rpm, apk, pacman, dotnet, conda: it depends on the C library: use `--libc glibc` or `--libc musl`
  $ target-lexicon what linux/amd64/v3 x86_64-appel-darwin | grep ' note '
      note    oci: for a level of x86-64, which a triple can't state
      note    `appel` is a custom vendor; did you mean `apple`?
  $ target-lexicon what linux/amd64/v3 --libc glibc | grep -E ' is |debian|oci |rust'
    is x86_64-unknown-linux-gnu of the level v3, as oci
      debian  amd64v3
      oci     linux/amd64/v3
      -       go, python, rust, dotnet, conda, zig, nix: the tool's names for it are for another version or level of the machine, as Debian's armhf is for Armv7
  $ target-lexicon matrix --from oci linux/amd64/v3 linux/amd64
  x86_64-unknown-linux\tlinux/amd64/v3\t2\targument:1 (esc)
  ! warning: the triple doesn't state the level `v3`
  !   linux/amd64/v3
  !               ^^
  $ target-lexicon settle --from rust arm-unknown-linux-gnueabihf | grep warning
  ! warning: the triple doesn't state the level armv6 of `arm-unknown-linux-gnueabihf`
  $ echo 'run: docker build --platform linux/amd64/v3 .' > level; target-lexicon settle level; target-lexicon check level
  x86_64-unknown-linux
  ! level:1:42: warning: the triple doesn't state the level `v3`
  !   linux/amd64/v3
  !               ^^
  $ target-lexicon what linux/amd46
  ! error: no tool has the name `linux/amd46`
  !   linux/amd46
  !   ^^^^^^^^^^^ did you mean `linux/amd64`?
  [1]
  $ target-lexicon what --json amd64 x86_64 | jq -c '.[] | (.meanings[0] | [.canonical, .tools[0]]), .without_triple'
  ["x86_64-unknown-linux-gnu","debian"]
  {"go":"a machine without a system","oci":"half of a platform: containerd adds that of the host"}
  ["x86_64-unknown-linux-gnu","rpm"]
  {"debian":"Debian's name is amd64; in Termux it is Android's"}
  $ target-lexicon what sunos-x64
  sunos-x64
    is a name of node without a triple: two systems: Solaris and illumos
  $ target-lexicon what --json sunos-x64 | jq -c '.[] | .meanings, .without_triple'
  []
  {"node":"two systems: Solaris and illumos"}
  $ target-lexicon what --json x86_64-pc-windows-msvc | jq -c '.[].meanings[0] | .names.go, .names.debian, .reasons.debian'
  "windows/amd64"
  null
  "the tool has no name for the system"
  $ target-lexicon what --json arm64-android | jq -c '.[].meanings[1].canonical'
  "aarch64-linux-android"
  $ for name in x86_64-appel-darwin arm64-osx x86_64-redhat-linux x86_64-unknown-none; do
  >   target-lexicon what --json $name | jq -r '.[].meanings[0].note'
  > done
  `appel` is a custom vendor; did you mean `apple`?
  `osx` is a custom vendor
  `redhat` is a custom vendor
  null

Targets of rustc are meant as they are:

  $ target-lexicon what riscv32imac-esp-espidf x86_64-unknown-none | grep -c 'did you mean'
  0
  [1]

## Mistakes in names

  $ target-lexicon settle --from debian AMD64
  ! error: unknown name of debian `AMD64`
  !   AMD64
  !   ^^^^^ did you mean `amd64`?
  !   note: capital letters matter
  [1]
  $ said() { jq -r '.[] | "\(.suggestion // "-")|\(.note // "-")"'; }
  $ mistake() { echo "$1|$2|$(command target-lexicon settle --json --from "$1" "$2" 2> /dev/null | said | sed 's/it is a triple, which .* take/TRIPLE/')"; }
  $ cat > mistakes << 'END'
  > go|Linux/AMD64|linux/amd64|capital letters matter
  > go|./linux/amd64|linux/amd64|it has a path
  > go|linux amd64|linux/amd64|it has a space
  > go|x86_64-unknown-linux-gnu|linux/amd64|it is a name of gnu and rust; TRIPLE
  > go|linux/amd46|linux/amd64|-
  > go|linux/riscv/64|linux/riscv64|-
  > go|linux/amd64/bin|linux/amd64|-
  > oci|linux\amd64|linux/amd64|-
  > oci|linux/amd64:latest|linux/amd64|-
  > oci|/usr/lib/linux/amd64|linux/amd64|it has a path
  > debian|x86-64|amd64|-
  > debian|x86_64-linux-gnu|amd64|it is a name of gnu and zig; TRIPLE
  > debian|linux-image-amd64|-|its words say x86_64, linux; here nobody knows `image`
  > pacman|mingw-w64-ucrt-x86_64|-|its words name x86_64-pc-windows-gnu
  > oci|arm32v7/debian|-|no triple says all that its words say: armv7, linux, gnu
  > rust|amd64|-|it is a name of debian, gnu and rpm
  > rust|target/x86_64-unknown-linux-gnu/release|x86_64-unknown-linux-gnu|it has a path
  > rust|x86_64|-|it is a part of a name, such as `x86_64-unknown-linux-gnu`
  > node|linux/amd64|linux-x64|it is a name of go and oci
  > node|@foo/bar|-|-
  > node|win32-amd64|win32-x64|-
  > uname|Linux|-|it is a part of a name, such as `Linux x86_64`
  > uname|linux x86_64|Linux x86_64|capital letters matter
  > conda|linux64|linux-64|it is a name of node
  > nix|x86_64-unknown-linux|x86_64-linux|it is a name of gnu; TRIPLE
  > gnu|x86_64-linux-gnuu|x86_64-linux-gnu|-
  > gnu|nios2-linux-gnu|-|as a triple: Unrecognized architecture: nios2
  > END
  $ same mistakes mistake

Of names that no tool has:

  $ unknown() { echo "$1|$(command target-lexicon what --json "$1" 2> /dev/null | said)"; }
  $ cat > unknown << 'END'
  > linux/amd46|linux/amd64|-
  > x86_64-linux-gnuu|x86_64-linux-gnu|-
  > java|-|-
  > END
  $ same unknown unknown

Names that no tool has, and what their words say:

  $ cat > words << 'END'
  > armv8
  > alpine-linux-x64
  > FreeBSD:14:amd64
  > foo_linux_amd64v3.zip
  > go1.22.1.darwin-arm64.pkg
  > arm64-osx
  > x64-osx
  > turbo-darwin-64
  > Linux-AMD65
  > linux/amr64
  > windows-11-arm
  > aarch64_cortex-a53
  > ios-arm64_x86_64-simulator
  > nios2-linux-gnu
  > dotnet-sdk-8.0-linux-x64-foo
  > END
  $ target-lexicon what -f words | grep -v '^    '
  armv8
    is armv8-unknown-none-elf, as gnu
    is known in part: it names an Arm of 32 or of 64 bits, and no system
  alpine-linux-x64
    is x86_64-unknown-linux-musl, by its words
  FreeBSD:14:amd64
    is x86_64-unknown-freebsd, by its words
  foo_linux_amd64v3.zip
    is x86_64-unknown-linux of the level v3, by its words
  go1.22.1.darwin-arm64.pkg
    is aarch64-apple-darwin, by its words
  arm64-osx
    is aarch64-osx-unknown-elf, as triple
    is aarch64-apple-darwin, by its words
    is a name of gnu without a triple: triples have no system osx
  x64-osx
    is x86_64-apple-darwin, by its words
    is a name of gnu without a triple: triples have no system osx
  turbo-darwin-64
    is x86_64-apple-darwin, as node
  Linux-AMD65
    is known in part: its words say linux, and no single machine known here
  linux/amr64
    is known in part: its words say linux, and no single machine known here
  windows-11-arm
    is known in part: its words say windows, and no single machine known here
  aarch64_cortex-a53
    is known in part: its words say aarch64, and no system known here
  ios-arm64_x86_64-simulator
    is known in part: it names several machines
  nios2-linux-gnu
    is known in part: it names a machine that no triple has
  dotnet-sdk-8.0-linux-x64-foo
    is known in part: its words say x86_64, linux; here nobody knows `foo`
