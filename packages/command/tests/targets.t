# How targets are given, and what is refused

  $ . "$TESTDIR/rows.sh"

A refused target is shown, with its place if it is a line. A byte order mark and carriage returns are dropped, and columns count characters:

  $ printf '\xef\xbb\xbfz80\r\nx86_64-pc-linx\r\nx86_64-éé-a\r\n' | target-lexicon settle
  z80-unknown-unknown-elf
  ! <stdin>:2:11: error: unrecognized operating system `linx`
  !   x86_64-pc-linx
  !             ^^^^ did you mean `linux`?
  ! <stdin>:3:8: error: unrecognized vendor `\u{e9}\u{e9}`
  !   x86_64-\u{e9}\u{e9}-a
  !          ^^^^^^^^^^^^
  ! 2 of 3 targets refused
  [1]
  $ printf foo > order
  $ target-lexicon settle z80 nowhere -f order
  z80-unknown-unknown-elf
  ! error: unrecognized architecture `nowhere`
  !   nowhere
  !   ^^^^^^^
  ! order:1:1: error: unrecognized architecture `foo`
  !   foo
  !   ^^^
  ! 2 of 3 targets refused
  [1]
  $ target-lexicon check foo
  ! error: unrecognized architecture `foo`
  !   foo
  !   ^^^
  [1]

Dashes and quotes of a word processor have their form in ASCII, and what words say of a name that nobody has is noted:

  $ for call in settle what; do target-lexicon $call '“x86_64‑linux–gnu”' | tail -n 1; done | uniq
  !   note: in ASCII it is `x86_64-linux-gnu`
  $ for it in 'settle linux/amr64' 'check --from rust linux/amr64'; do target-lexicon $it | tail -n 1; done | uniq
  !   note: its words say linux, and no single machine known here

What was answered stays if another file isn't there:

  $ echo z80 > list
  $ target-lexicon check list -f list
  $ target-lexicon settle -f list -f nowhere
  z80-unknown-unknown-elf
  ! target-lexicon: nowhere: No such file or directory (os error 2)
  [3]
  $ target-lexicon settle -- -x
  ! error: unrecognized architecture ``
  !   -x
  !   ^
  [1]

## Lists

Each call takes targets as arguments, as lines, with commas between, and as lists have them:

  $ lists() {
  >   of() { "$@" | sed -E 's/(argument|<stdin>):[123]/PLACE/'; }
  >   local one=x86_64-linux-gnu other=arm64-linux-gnu
  >   local expected=$(of "$@" $one $other)
  >   for list in "$one,$other" "[\"$one\", '$other']" " $one ,, $other, "; do
  >     [[ $(of "$@" "$list") == "$expected" && $(of "$@" <<< "$list") == "$expected" ]] || echo "$list"
  >   done
  >   for list in "$one"$'\n'"$other" "- $one"$'\n'"- '$other'" "  \"$one\","$'\r\n\t'"\"$other\""$'\r' $'[\n'"$one,"$'\n'"$other"$'\n],'; do
  >     [[ $(of "$@" <<< "$list") == "$expected" ]] || echo "$list"
  >   done
  >   echo "$*: $(grep -c . <<< "$expected")"
  > }
  $ for call in explain facts settle check matrix 'settle --from llvm' 'translate --to gnu' cfg what; do lists target-lexicon $call; done
  target-lexicon explain: 12
  target-lexicon facts: 78
  target-lexicon settle: 2
  target-lexicon check: 0
  target-lexicon matrix: 2
  target-lexicon settle --from llvm: 2
  target-lexicon translate --to gnu: 2
  target-lexicon cfg: 18
  target-lexicon what: 32
  $ printf -- '- é, linux/amd64,foo/bar\n' | target-lexicon what | grep '^!.*error'
  ! <stdin>:1:3: error: no tool has the name `\u{e9}`
  ! <stdin>:1:18: error: no tool has the name `foo/bar`
  $ target-lexicon settle ' , '
  ! error: unrecognized architecture ` , `
  !    , 
  !   ^^^
  [1]

## Texts

An argument that is the path of a file is a text, in which targets are found. A name of a tool is no mistake:

  $ mkdir -p .github/workflows; cat > .github/workflows/release.yml << 'END'
  > jobs:
  >   build-linux:
  >     strategy:
  >       matrix:
  >         include: # all of them
  >           - { target: x86_64-unknown-linux-gnu, os: ubuntu-latest }
  >           - { target: aarch64-aple-darwin, os: macos-14 }
  >           - { target: x86_64-pc-windows-mscv, os: windows-2022 }
  >     steps:
  >       - uses: actions/checkout@v4
  >       - with: { platforms: "linux/amd64,linux/amd46" }
  > END
  $ printf '\xef\xbb\xbf# \xe9\r\n[toolchain]\r\ntargets = ["wasm32-wasip1", "x86_64-linux-gnuu"]\r\n' > rust-toolchain.toml
  $ target-lexicon check .github/workflows/*.yml rust-toolchain.toml | grep -v '^!  '
  ! .github/workflows/release.yml:7:31: error: custom vendor `aple`
  ! .github/workflows/release.yml:8:41: error: unrecognized environment `mscv`
  ! .github/workflows/release.yml:11:41: error: no tool has the name `linux/amd46`
  ! rust-toolchain.toml:3:43: error: unrecognized environment `gnuu`
  ! 4 of 7 targets refused
  $ target-lexicon check --format github .github/workflows/*.yml rust-toolchain.toml foo
  ::error file=.github/workflows/release.yml,line=7,col=31,endColumn=35::custom vendor `aple` of `aarch64-aple-darwin`: did you mean `apple`?
  ::error file=.github/workflows/release.yml,line=8,col=41,endColumn=45::unrecognized environment `mscv` of `x86_64-pc-windows-mscv`: did you mean `msvc`?
  ::error file=.github/workflows/release.yml,line=11,col=41,endColumn=52::no tool has the name `linux/amd46`: did you mean `linux/amd64`?
  ::error file=rust-toolchain.toml,line=3,col=43,endColumn=47::unrecognized environment `gnuu` of `x86_64-linux-gnuu`: did you mean `gnu`?
  ::error::unrecognized architecture `foo`
  ! 5 of 8 targets refused
  [1]
  $ printf 'x86_64-linux\nfoo\navr\n' > '100%:,'; target-lexicon check --format github '100%:,'; rm '100%:,'
  ::error file=100%25%3A%2C,line=2,col=1,endColumn=4::unrecognized architecture `foo`
  ! 1 of 3 targets refused
  $ for format in json json-lines human; do target-lexicon settle --format $format rust-toolchain.toml | head -n 1 | cut -c 1-70; done
  [{"target":"wasm32-wasip1","file":"rust-toolchain.toml","line":3,"cano
  {"target":"wasm32-wasip1","file":"rust-toolchain.toml","line":3,"canon
  wasm32-wasip1
  $ for it in '-f rust-toolchain.toml' -; do target-lexicon check $it < rust-toolchain.toml | grep '^! note: '; done | uniq
  ! note: each line of standard input or `-f` is a target; in other files, or /dev/stdin, they are found
  $ target-lexicon check --from rust rust-toolchain.toml | head -n 1
  ! rust-toolchain.toml:3:30: error: unknown name of rust `x86_64-linux-gnuu`
  $ for it in nowhere.yml '--from rust nowhere.yml' .github/nowhere /nowhere/it; do target-lexicon check $it | tail -n 1; done | uniq
  !   note: no file has this name either
  $ printf 'x86_64-linux\n\0\n' > bytes; target-lexicon check bytes
  ! note: 1 binary file not read
  $ mkdir utf16; printf '\xff\xfez\08\0' > utf16/it; target-lexicon check utf16 utf16/it
  ! target-lexicon: utf16/it:1:1: UTF-16, not UTF-8
  [3]
  $ echo 'on: x86_64-linux-gnuu' > arm-build.sh; mkdir arm-build; target-lexicon check arm-build.sh arm-build | head -n 1
  ! arm-build.sh:1:18: error: unrecognized environment `gnuu`
  $ printf 'of an x86_64\xe2\x80\x93linux\xe2\x80\x91gnu, on Linux\xe2\x80\x93arm64\n' > typeset; target-lexicon check typeset
  ! typeset:1:7: error: unrecognized architecture `x86_64\u{2013}linux\u{2011}gnu`
  !   x86_64\u{2013}linux\u{2011}gnu
  !   ^^^^^^^^^^^^^^^^^^^^^^^^^^^^^^
  !   note: in ASCII it is `x86_64-linux-gnu`
  [1]
  $ printf 'caf\xe9: x86_64-linux-gnuu\n' > bytes; target-lexicon check bytes | head -n 1
  ! bytes:1:20: error: unrecognized environment `gnuu`

`--paths` takes each argument as a path, as hooks need it; so is a folder from `./` on, and what isn't UTF-8. A text isn't read by `--keep-lines`:

  $ mkdir z80; echo 'on: x86_64-linux-gnuu' | tee amd64 ./- $'caf\xe9' > z80/it
  $ target-lexicon check --paths amd64 nowhere utf16/it - | grep -v '^!  '
  ! amd64:1:18: error: unrecognized environment `gnuu`
  ! target-lexicon: nowhere: No such file or directory (os error 2)
  ! -:1:18: error: unrecognized environment `gnuu`
  ! note: 1 binary file not read
  ! 2 of 2 targets refused
  $ target-lexicon check --paths nowhere | cat; target-lexicon check --paths nowhere utf16 | cat; target-lexicon check --paths > /dev/null
  ! target-lexicon: nowhere: No such file or directory (os error 2)
  ! target-lexicon: nowhere: No such file or directory (os error 2)
  ! note: 1 binary file not read
  [2]
  $ target-lexicon check amd64 | tail -n 1
  !   note: a file or a folder has this name, which `--paths` reads
  $ target-lexicon check --format github ./z80 z80 $'caf\xe9'; rm amd64 ./- caf*
  ::error file=z80/it,line=1,col=18,endColumn=22::unrecognized environment `gnuu` of `x86_64-linux-gnuu`: did you mean `gnu`?
  ::error file=caf\u{fffd},line=1,col=18,endColumn=22::unrecognized environment `gnuu` of `x86_64-linux-gnuu`: did you mean `gnu`?
  ! 2 of 3 targets refused
  $ target-lexicon settle --keep-lines rust-toolchain.toml
  ! target-lexicon: rust-toolchain.toml: `--keep-lines` is for lines, which `-f` reads
  [3]

An unknown environment after a machine and a system is wrong, and so is what is one edit from any tool's name. What may be a target is counted. Names of tools are right, with something after them too, and labels of runners are no targets:

  $ cat > words.yml << 'END'
  > target: [arm-unknown-linux-gnueabhif, x86_64-unknown-linux-foo, x86_64-windwos-gnu, x86_64-pcc-cygwin]
  > targets: [aarch64-macos, thumbv7em-none-eabi, x86_64-unknown-helenos]
  > platform: [linux/aarch46, macos-14-large, "linux/am6d4"]
  > x86_64-apple-darwin.runner = "qemu"
  > END
  $ cat > more.yml << 'END'
  > platform: [macsx_11_0_arm64, x64-windows-static, irix-mips3, sun4, Win64i..., x86_64-Apple-Darwin]
  > arch: [amd46, systemd]
  > //go:build arm64be
  > run: aarch64-linu-gnu-gcc i386-win32 projects/linux-atm i?86-linux PowerPC64-linux i686-inux s390x-64
  > non_hierarchical: [wais]
  > "CMAKE_SYSTEM_NAME": "Lnux"
  > check-wine64: mipsn32el-linux-user x
  > targets: mipsn32el-linux-user
  > platforms: [linux/arn64, linux-arn64]
  > arch: arn64
  > FROM mips64le/debian:sid, "toolchains/aarch64-linux-android-clang3.8" of //cycle:rock in [linux-ppc64el]
  > "archs": [armv7em, armv4b] and android-armeabi; arch=$arch64; magic_arch='\x7f\x46'; s/arch_64/x: "a/arch_64/x"
  > HOSTARCH=`uname -m | sed -e s/sparc$/sparc32/`
  > device("avr-watchdog", riscv32e_unknown_none_elf), arm64-windows-abi-conventions, x86_64-unknown-haiku-g++
  > "-mcpu=rios2"; target = x23; cpu=arm9; os=unos; "a/csky-linux-gnu/libc"
  > END
  $ found() { command target-lexicon check --json "$1" 2> said | jq -r '.[] | "\(.line) \(.target): \(.suggestion // "-")"'; sed -n "/^note:/p" said; }
  $ found words.yml
  1 arm-unknown-linux-gnueabhif: gnueabihf
  1 x86_64-unknown-linux-foo: -
  1 x86_64-windwos-gnu: windows
  1 x86_64-pcc-cygwin: -
  3 linux/aarch46: -
  3 linux/am6d4: linux/amd64
  $ found more.yml
  1 macsx_11_0_arm64: macosx_11_0_arm64
  2 amd46: amd64
  4 aarch64-linu-gnu: linux
  4 i686-inux: linux
  6 Lnux: linux
  9 linux/arn64: linux/arm64
  9 linux-arn64: linux-arm64
  10 arn64: arm64
  note: 2 words that may be targets aren't understood: --strict shows each

A sign, two letters or a dash of a word processor may be wrong in the name of a program or of a file, too. A letter of one's own before a name, calls, and words of other tools aren't wrong:

  $ cat > files.yml << 'END'
  > platforms: [win-46, darwin_am64, "linux/ppcle64"]
  > run: x86_64_w64-mingw32-windres gxx_linux-aarch46 $URL/app-i686-unknown-linux-mussl.tar.xz arm-linux-gnueabi-hf-gcc
  > target: x86_64–unknown-linux-gnu
  > run: armv7a-linux-androidabi24
  > int arch64 = ARCH64 (); cpu=xx86_64; eelf64_sparc, linux/mips64x, x86_64-cc, ppc64be/le-linux, i386-pc-mswin32
  > powerpc-unknown-eabisim 09_mips-linux-libc-dev x86_64-linux-thread-multi-ld wasm64-emscripten-node-debug
  > CARGO_TARGET_X86_64_UNKOWN_LINUX_GNU_LINKER="$T/cargo-binstall-x86_64-unkown-linux-musl.gz" CC_i686_linux_andriod=
  > rust-analyzer-x86_64-unknown-linux-gnu.gz foo-x86_64-apple-darwin.deb $V-x86_64-pc-windwos-gnu.zip x_1_amr64.deb
  > ifeq ($(ARCH),amrhf) --arch amr64 "target": "wasm32-wasip1x"
  > END
  $ found files.yml
  1 win-46: win-64
  1 darwin_am64: -
  1 linux/ppcle64: -
  2 x86_64_w64-mingw32: -
  2 gxx_linux-aarch46: -
  2 i686-unknown-linux-mussl: musl
  2 arm-linux-gnueabi-hf: -
  3 x86_64\xe2\x80\x93unknown-linux-gnu: - (esc)
  7 X86_64_UNKOWN_LINUX_GNU: x86_64-unknown-linux-gnu
  7 x86_64-unkown-linux-musl: unknown
  7 i686_linux_andriod: i686_linux_android
  8 x86_64-pc-windwos-gnu: windows
  8 amr64: -
  9 amrhf: armhf
  9 amr64: -
  note: 2 words that may be targets aren't understood: --strict shows each
  $ echo 'triplets: [x64-windows-static, arm64-osx]' > triplets; target-lexicon check --strict triplets

Of a folder the files are read, except links and what tools make. A list is what has targets in half of its lines:

  $ mkdir -p repository/target; cd repository; touch target/CACHEDIR.TAG; ln -s /dev/zero zero; mkfifo pipe
  $ printf 'x86_64-linux-gnuu\n' | tee target/built > made; printf 'dist\n*.o\nout\n' > .gitignore; echo 0.5.0 > VERSION
  $ mkdir closed; chmod 0 closed
  $ [ ! -r closed ] || echo '! target-lexicon: ./closed: Permission denied (os error 13)'; target-lexicon check . | grep error
  ! target-lexicon: ./closed: Permission denied (os error 13)
  ! ./made:1:14: error: unrecognized environment `gnuu`
  $ target-lexicon check zero pipe
  ! target-lexicon: zero: is neither a file nor a folder; `-f` reads its lines
  [3]
  $ chmod 755 closed; cd ..

`settle` and `matrix` of a text take what `check` takes:

  $ target-lexicon settle words.yml | grep -v '^!  '
  x86_64-windwos-unknown-gnu-elf
  aarch64-apple-darwin
  thumbv7em-none-eabi
  x86_64-apple-darwin
  ! words.yml:1:28: error: unrecognized environment `gnueabhif`
  ! words.yml:1:60: error: unrecognized environment `foo`
  ! words.yml:1:72: warning: custom vendor `windwos`
  ! words.yml:1:85: error: no tool has the name `x86_64-pcc-cygwin`
  ! words.yml:2:47: error: no triple means the same as the name of rust `x86_64-unknown-helenos`
  ! words.yml:3:12: error: no tool has the name `linux/aarch46`
  ! words.yml:3:44: error: no tool has the name `linux/am6d4`
  ! 6 of 10 targets refused
  $ printf 'platform: linux/amd64\n' > one.yml; target-lexicon matrix one.yml | cut -f 1,2
  x86_64-unknown-linux\tlinux/amd64 (esc)
  $ echo 'arch: [avr, x64, arm64, armv8, win32, linux_amd64]' > arch.yml; target-lexicon check /dev/stdin < <(cat arch.yml)
  $ target-lexicon settle arch.yml | grep -v '^!  '
  avr-unknown-unknown
  x86_64-unknown-linux
  ! arch.yml:1:13: error: tools mean different targets by `x64`
  ! arch.yml:1:18: error: tools mean different targets by `arm64`
  ! arch.yml:1:25: error: tools mean different targets by `armv8`
  ! 3 of 5 targets refused

## Comments

  $ printf '# all of them\n\n \t\n  x86_64-linux # the first\n\tfoo#x\n - avr, foo # z80\n' > lines
  $ target-lexicon settle < lines
  x86_64-unknown-linux
  avr-unknown-unknown
  ! <stdin>:5:2: error: unrecognized architecture `foo#x`
  !   foo#x
  !   ^^^^^
  ! <stdin>:6:9: error: unrecognized architecture `foo`
  !   foo
  !   ^^^
  ! 2 of 4 targets refused
  [1]

## Zero bytes

A zero byte ends a target and an answer; of an answer of more than one line it comes instead of the last line feed, and JSON has none:

  $ printf 'z80\0x86_64-\nlinux\0arm64-linux\r\0\0x86_64-linux' | target-lexicon settle -0 | tr '\0' '|'
  z80-unknown-unknown-elf|x86_64-unknown-linux|! <stdin>:2:8: error: unrecognized vendor `\nlinux`
  !   x86_64-\nlinux
  !          ^^^^^^^
  !   note: its words name x86_64-unknown-linux
  ! <stdin>:3:7: error: unrecognized vendor `linux\r`
  !   arm64-linux\r
  !         ^^^^^^^ did you mean `linux`?
  ! <stdin>:4:1: error: unrecognized architecture ``
  !   
  !   ^
  ! 3 of 5 targets refused
  $ printf 'z80\0avr' > zero
  $ command target-lexicon facts --null -f zero | tr '\0' '\n' | cmp - <(command target-lexicon facts z80 avr)
  $ printf 'amd64-linux\0z80' | target-lexicon settle --changes -0 | tr '\0' '|'
  x86_64-unknown-linux
    `amd64` is read as `x86_64`|z80-unknown-unknown-elf| (no-eol)
  $ target-lexicon matrix -0 -f zero | tr '\0' '|'
  z80-unknown-unknown-elf\tz80\t1\tzero:1|avr-unknown-unknown\tavr\t1\tzero:2| (no-eol) (esc)
  $ target-lexicon settle -0 --json -f zero
  [{"target":"z80","file":"zero","line":1,"canonical":"z80-unknown-unknown-elf"},{"target":"avr","file":"zero","line":2,"canonical":"avr-unknown-unknown"}]
  $ printf 'z80\0x\xc3\0z80' | target-lexicon settle -0 | tr '\0' '|'
  z80-unknown-unknown-elf|z80-unknown-unknown-elf|! <stdin>:2:2: error: not UTF-8 `\u{fffd}`
  !   x\u{fffd}
  !    ^^^^^^^^
  ! 1 of 3 targets refused

## Lines that aren't UTF-8

The others are answered:

  $ printf 'z80\nx\xc3\nz80\n' | target-lexicon settle
  z80-unknown-unknown-elf
  z80-unknown-unknown-elf
  ! <stdin>:2:2: error: not UTF-8 `\u{fffd}`
  !   x\u{fffd}
  !    ^^^^^^^^
  ! 1 of 3 targets refused
  [1]
  $ printf '\xff\xfez\08\0000\0\n\0' | target-lexicon check
  ! target-lexicon: <stdin>:1:1: UTF-16, not UTF-8
  [3]
  $ printf 'z\08\0000\0' | target-lexicon check
  ! <stdin>:1:1: error: unrecognized architecture `z\u{0}8\u{0}0\u{0}`
  !   z\u{0}8\u{0}0\u{0}
  !   ^^^^^^^^^^^^^^^^^^
  !   note: it has zero bytes: `-0` reads what ends with one, and UTF-16 must be UTF-8 here
  [1]

## A quiet run

It has only a status, and the first target that is refused ends it:

  $ for call in explain facts settle check matrix 'settle --from node' 'translate --to node' cfg what; do
  >   target-lexicon $call -q linux-x64 nowhere -f missing; echo "$?"
  > done | uniq -c
        9 1
  $ for call in explain facts settle check matrix cfg; do
  >   target-lexicon $call --quiet z80 x86_64-linx; target-lexicon $call -q --strict z80 x86_64-linx; echo "$?"
  > done | uniq -c
        6 1
  $ target-lexicon check -q z80 -f missing
  ! target-lexicon: missing: No such file or directory (os error 2)
  [3]
  $ target-lexicon check -q --json z80 > /dev/null
  [2]

## Mistakes are counted, and limited

  $ printf 'z80\nx86_64-unknown-linux-gnuu\nfoo\nx86_64-unknown-linux-gnuu\n' > lines
  $ target-lexicon check -f lines
  ! lines:2:22: error: unrecognized environment `gnuu`
  !   x86_64-unknown-linux-gnuu
  !                        ^^^^ did you mean `gnu`?
  ! lines:3:1: error: unrecognized architecture `foo`
  !   foo
  !   ^^^
  ! lines:4:22: error: unrecognized environment `gnuu`
  !   x86_64-unknown-linux-gnuu
  !                        ^^^^ did you mean `gnu`?
  ! 3 of 4 targets refused
  [1]
  $ target-lexicon check --max-errors 1 -f lines
  ! lines:2:22: error: unrecognized environment `gnuu`
  !   x86_64-unknown-linux-gnuu
  !                        ^^^^ did you mean `gnu`?
  ! 1 of 2 targets refused; ended there, as --max-errors says
  [1]
  $ target-lexicon check --max-errors 2 --json -f lines
  [{"target":"x86_64-unknown-linux-gnuu","file":"lines","line":2,"error":"unrecognized environment","part":"gnuu","start":21,"end":25,"field":"environment","suggestion":"gnu","note":null},{"target":"foo","file":"lines","line":3,"error":"unrecognized architecture","part":"foo","start":0,"end":3,"field":"architecture","suggestion":null,"note":null}]
  ! lines:2:22: error: unrecognized environment `gnuu`
  !   x86_64-unknown-linux-gnuu
  !                        ^^^^ did you mean `gnu`?
  ! lines:3:1: error: unrecognized architecture `foo`
  !   foo
  !   ^^^
  ! 2 of 3 targets refused; ended there, as --max-errors says
  [1]
  $ target-lexicon check --max-errors 0 -f lines | grep -o "'--max-errors <N>'"
  '--max-errors <N>'
  $ { yes foo 2> /dev/null | head -n 1234; } | target-lexicon check | tail -n 1
  ! 1,234 of 1,234 targets refused

## Custom vendors

One that resembles a name is a warning of three calls, and refused if that is asked, except rustc's and those that are meant:

  $ for call in explain facts settle check matrix cfg; do echo "$call: $(target-lexicon $call x86_64-linx | grep '^! ..*:')"; done
  explain: 
  facts: 
  settle: ! warning: custom vendor `linx`
  check: ! error: custom vendor `linx`
  matrix: ! warning: custom vendor `linx`
  cfg: 
  $ for call in explain facts settle check matrix cfg; do target-lexicon $call x86_64-linx --strict; done | sort | uniq -c
        6 !          ^^^^ did you mean `linux`?
        6 !   x86_64-linx
        6 ! error: custom vendor `linx`
  $ for call in settle check matrix; do
  >   target-lexicon $call x86_64-linx --vendors acme,linx
  >   target-lexicon $call x86_64-linx --vendors linx --strict
  >   target-lexicon $call -q x86_64-linx
  >   target-lexicon $call x86_64-win7-windows-msvc riscv32imac-esp-espidf --strict
  > done | grep '^!'
  [1]
  $ target-lexicon check x86_64-linx --vendors lin --strict
  ! error: custom vendor `linx`
  !   x86_64-linx
  !          ^^^^ did you mean `linux`?
  [1]
