# What is written

  $ . "$TESTDIR/rows.sh"

  $ target-lexicon cfg wasm32-wasip1 foo avr
  target_abi=""
  target_arch="wasm32"
  target_endian="little"
  target_env="p1"
  target_family="wasm"
  target_os="wasi"
  target_pointer_width="32"
  target_vendor="unknown"
  
  target_abi=""
  target_arch="avr"
  target_endian="little"
  target_env=""
  target_os="unknown"
  target_pointer_width="16"
  target_vendor="unknown"
  ! error: unrecognized architecture `foo`
  !   foo
  !   ^^^
  ! 1 of 3 targets refused
  [1]
  $ target-lexicon cfg --json x86_64-pc-windows-msvc
  [{"target":"x86_64-pc-windows-msvc","file":null,"line":null,"target_arch":"x86_64","target_os":"windows","target_env":"msvc","target_abi":"","target_family":["windows"],"target_vendor":"pc","target_pointer_width":64,"target_endian":"little"}]

A system that is written with its whole version is given as it is:

  $ target-lexicon explain aarch64-apple-ios17.0.0 | grep system
    operating_system  ios 17.0.0  given as `ios17.0.0`
  $ target-lexicon explain x86_64-linux-gnux32 | grep note
    note              `gnux32` says that pointers have 32 bits

A fact without an answer says why:

  $ target-lexicon facts avr armv7-unknown-linux-gnueabihf | grep '  -  '
    version                     -  the target states none
    default_calling_convention  -  none is usual on the system
    data_model                  -  none is known for the machine and the system
    c_library                   -  neither the environment nor the system says it
    float_abi                   -  neither an environment of 32-bit Arm nor softfloat says it
    long_double_size            -  no source says it of the system and the C library
    long_double_alignment       -  no source says it of the system and the C library
    wchar_size                  -  no source says it of the system and the C library
    wchar_alignment             -  no source says it of the system and the C library
    arm_version                 -  the architecture is no 32-bit Arm that states it
    arm_profile                 -  the architecture is no 32-bit Arm that states it
    multiarch_tuple             -  Debian has no architecture for it, or it depends on the C library
    version                     -  the target states none
    arm_profile                 -  the architecture is no 32-bit Arm that states it

## JSON

It has the names that facts have elsewhere:

  $ target-lexicon facts --json arm64-apple-ios17 > facts.json; cat facts.json
  [{"target":"arm64-apple-ios17","file":null,"line":null,"architecture":"aarch64","vendor":"apple","operating_system":"ios","version":"17.0.0","environment":"unknown","binary_format":"macho","endianness":"little","pointer_width":64,"default_calling_convention":"AppleAarch64","data_model":"LP64","short_size":2,"int_size":4,"long_size":8,"long_long_size":8,"float_size":4,"double_size":8,"implied_format":"macho","object_format":"macho","family":"aarch64","is_thumb":false,"is_like_darwin":true,"has_custom_vendor":false,"c_library":"system","float_abi":null,"is_unix":true,"long_double_size":8,"long_double_alignment":8,"wchar_size":4,"wchar_alignment":4,"arm_version":null,"arm_profile":null,"char_signedness":"signed","has_emulated_tls":false,"has_comdat":false,"llvm_target":"arm64-apple-ios17.0.0","multiarch_tuple":null,"printed":"aarch64-apple-ios17.0.0","canonical":"aarch64-apple-ios17.0.0"}]
  $ cmp <(jq -r '.[] | del(.target, .file, .line) | keys_unsorted[]' facts.json) <(target-lexicon facts arm64-apple-ios17 | awk 'NR > 1 { print $1 }')
  $ target-lexicon facts --json avr-none | jq -c '.[] | [.float_abi, .data_model, .binary_format]'
  [null,null,"unknown"]
  $ target-lexicon explain --json arm64-apple-ios17
  [{"target":"arm64-apple-ios17","file":null,"line":null,"architecture":{"value":"aarch64","origin":"alias","part":"arm64"},"vendor":{"value":"apple","origin":"given","part":"apple"},"operating_system":{"value":"ios","origin":"alias","part":"ios17"},"version":"17.0.0","environment":{"value":"unknown","origin":"not given","part":null},"binary_format":{"value":"macho","origin":"implied","part":null},"has_custom_vendor":false,"suggestion":null}]

It is an array, or lines:

  $ for call in explain facts settle check matrix; do target-lexicon $call --json; target-lexicon $call --json-lines; done < /dev/null | grep -v '^!' | uniq -c
        5 []
  $ printf 'z80\nfoo\nx86_64-linux\n' > lines
  $ target-lexicon settle --json -f lines
  [{"target":"z80","file":"lines","line":1,"canonical":"z80-unknown-unknown-elf"},{"target":"foo","file":"lines","line":2,"error":"unrecognized architecture","part":"foo","start":0,"end":3,"field":"architecture","suggestion":null,"note":null},{"target":"x86_64-linux","file":"lines","line":3,"canonical":"x86_64-unknown-linux"}]
  ! lines:2:1: error: unrecognized architecture `foo`
  !   foo
  !   ^^^
  [1]
  $ command target-lexicon settle --json-lines -f lines 2> /dev/null | jq -c '[.line, .canonical]'
  [1,"z80-unknown-unknown-elf"]
  [2,null]
  [3,"x86_64-unknown-linux"]
  $ target-lexicon facts --json --json-lines z80 > /dev/null
  [2]

It is whole where the run ends early, too:

  $ target-lexicon settle --json z80 -f nowhere
  [{"target":"z80","file":null,"line":null,"canonical":"z80-unknown-unknown-elf"}]
  ! target-lexicon: nowhere: No such file or directory (os error 2)
  [3]
  $ target-lexicon settle --json -f nowhere
  []
  ! target-lexicon: nowhere: No such file or directory (os error 2)
  [3]
  $ target-lexicon check --json-lines foo bar -f nowhere | grep -c '^{'
  2
  $ printf 'z80\nfoo\n\0\xff\n' | command target-lexicon explain --json 2> /dev/null | jq length
  2

A warning is a member of the object:

  $ target-lexicon settle --json aarch64-aple-darwin avr | jq -c '.[] | [.canonical, .warning.suggestion]'
  ["aarch64-aple-darwin","apple"]
  ["avr-unknown-unknown",null]
  $ target-lexicon matrix --json aarch64-aple-darwin | grep -c warning
  1

`settle`, `translate` and `facts --get` can keep a line for each line:

  $ printf 'z80\nfoo\n\n# all\navr\n' > kept; command target-lexicon settle --keep-lines -f kept 2> /dev/null | paste kept -
  z80\tz80-unknown-unknown-elf (esc)
  foo\t (esc)
  \t (esc)
  # all\t (esc)
  avr\tavr-unknown-unknown (esc)
  $ command target-lexicon translate --to zig --keep-lines -f kept 2> /dev/null | grep -c ''
  5
  $ command target-lexicon facts --get pointer_width --keep-lines -f kept 2> /dev/null | tr '\n' ,
  16,,,,16, (no-eol)

Some facts of each target:

  $ target-lexicon facts --get version,c_library,is_unix avr x86_64-linux-gnu
  \t\tfalse (esc)
  \tglibc\ttrue (esc)
  $ target-lexicon facts --get c_library --get vendor --json avr | jq -c '.[] | keys'
  ["c_library","file","line","target","vendor"]

## A matrix

  $ printf 'x86_64-linux\nz80\nx86_64-unknown-linux\nx86_64-pc-linux\n' > targets
  $ target-lexicon matrix -f targets
  x86_64-unknown-linux\tx86_64-linux\t2\ttargets:1 (esc)
  z80-unknown-unknown-elf\tz80\t1\ttargets:2 (esc)
  x86_64-pc-linux\tx86_64-pc-linux\t1\ttargets:4 (esc)
  $ target-lexicon matrix --places --ignore-vendor -f targets
  x86_64-unknown-linux\tx86_64-linux\t3\ttargets:1 targets:3 targets:4 (esc)
  z80-unknown-unknown-elf\tz80\t1\ttargets:2 (esc)
  $ target-lexicon matrix --json --ignore-vendor -f targets
  [{"canonical":"x86_64-unknown-linux","target":"x86_64-linux","count":3,"from":[{"target":"x86_64-linux","file":"targets","line":1}]},{"canonical":"z80-unknown-unknown-elf","target":"z80","count":1,"from":[{"target":"z80","file":"targets","line":2}]}]
  $ target-lexicon matrix --json --places --ignore-vendor -f targets | jq -c '.[0] | [.canonical, (.from | map(.line))]'
  ["x86_64-unknown-linux",[1,3,4]]
  $ target-lexicon settle --ignore-vendor z80 > /dev/null
  [2]

If a target is refused or can't be read, there is none:

  $ for layout in --color=never --json --json-lines; do target-lexicon matrix $layout -f lines; echo "$?"; done | sort | uniq -c
        3 !   ^^^
        3 !   foo
        3 ! 1 of 3 targets refused
        3 ! lines:2:1: error: unrecognized architecture `foo`
        3 1
  $ for layout in --color=never --json --json-lines; do target-lexicon matrix $layout z80 -f nowhere; echo "$?"; done | sort | uniq -c
        3 ! target-lexicon: nowhere: No such file or directory (os error 2)
        3 3

## Colours

  $ target-lexicon check --color always foo x86_64-linux-gnuu | cat -v
  ! ^[[1;31merror:^[[0m unrecognized architecture `foo`
  !   foo
  !   ^[[1;31m^^^^[[0m
  ! ^[[1;31merror:^[[0m unrecognized environment `gnuu`
  !   x86_64-linux-gnuu
  !                ^[[1;31m^^^^^[[0m did you mean `^[[1;32mgnu^[[0m`?
  ! 2 of 2 targets refused
  $ target-lexicon check --color never foo | head -n 1
  ! error: unrecognized architecture `foo`
  $ target-lexicon settle x86_64-linux --color always --strict
  x86_64-unknown-linux

## Hostile targets

What isn't printable ASCII is escaped, and doesn't change where carets are; `checks/gate/visible` tries each character in all that is written:

  $ hostile=$(printf 'x86_64-\x1b[2J\xe2\x80\xaeb\xc2\x9b\x7f\xe2\x80\x8b\t\x27\\-linux')
  $ target-lexicon check "$hostile"
  ! error: unrecognized vendor `\u{1b}[2J\u{202e}b\u{9b}\u{7f}\u{200b}\t'\`
  !   x86_64-\u{1b}[2J\u{202e}b\u{9b}\u{7f}\u{200b}\t'\-linux
  !          ^^^^^^^^^^^^^^^^^^^^^^^^^^^^^^^^^^^^^^^^^^
  [1]
  $ command target-lexicon explain --json "$hostile" 2> /dev/null | jq -r --arg hostile "$hostile" '.[] | .target == $hostile, .part == .target[7:-6]'
  true
  true

So are arguments, and a line feed in them is no line:

  $ hostile=$'\x1b]0;x\a\n\xe2\x80\xae\xc2\x9b'
  $ while IFS='|' read -ra words; do
  >   said=$(target-lexicon "${words[@]//HOSTILE/$hostile}"); echo "status $?"
  >   grep -qF '\u{1b}]0;x\u{7}\n\u{202e}\u{9b}' <<< "$said" || echo "${words[0]} doesn't show it"
  >   [ "$(wc -l <<< "$said")" = "$(target-lexicon "${words[@]//HOSTILE/#}" | wc -l)" ] || echo "${words[0]} has a line more"
  >   grep -P '[^ -~]' <<< "$said"
  > done << 'END' | uniq -c
  > check|z80|--HOSTILE|z80
  > settle|--color|HOSTILE
  > names|HOSTILE
  > --manual=HOSTILE
  > HOSTILE
  > --HOSTILE
  > END
        6 status 2

## Long targets, and many

Where it is shown, a long target is shortened. What is accepted is whole:

  $ long=$(head -c 1000000 /dev/zero | tr '\0' a)
  $ target-lexicon check <<< "x86_64-$long-$long-b" > out; wc -lc < out; cut -c 1-80 out
     3 1088
  ! <stdin>:1:1000009: error: unrecognized operating system `aaaaaaaaaaaaaaaaaaaaa
  !   ...aaaaaaaaaaaaaaaaaaaaaaaaaaaaaaaaaaaaaaaaaaaaaaaaaaaaaaaaaaaaaaaaaaaaaaaaa
  !                                                                               
  $ target-lexicon explain <<< "x86_64-$long-linux" | wc -c
  3000225
  $ target-lexicon settle --from gnu "$(head -c 5000 /dev/zero | tr '\0' A)-linux-gnu" | awk 'length > 600'

Time grows with the length of a list, and a name that is longer than any has no suggestion:

  $ commas=$(head -c 1000 /dev/zero | tr '\0' ,)
  $ yes "amd64$commas" 2> /dev/null | head -n 2000 | tr -d '\n' > list
  $ timeout 60 "$(type -P target-lexicon)" settle --from debian < list | uniq -c
     2000 x86_64-unknown-linux-gnu
  $ { head -c 100000 /dev/zero | sed 's/\x00/-a_/g'; echo /linux-x46; } > name
  $ timeout 60 "$(type -P target-lexicon)" what < name 2>&1 | grep -c 'is known in part'
  1
  $ yes z80 2> /dev/null | head -n 100000 | target-lexicon settle | uniq -c
   100000 z80-unknown-unknown-elf
