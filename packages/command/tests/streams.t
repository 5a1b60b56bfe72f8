# Unusual streams

  $ . "$TESTDIR/rows.sh"

Answers come line by line:

  $ coproc command target-lexicon settle
  $ printf 'z80\nx86_64-li' >&${COPROC[1]}; read -r -t 60 line <&${COPROC[0]}; echo $line
  z80-unknown-unknown-elf
  $ printf 'nux\n' >&${COPROC[1]}; read -r -t 60 line <&${COPROC[0]}; echo $line
  x86_64-unknown-linux
  $ exec {COPROC[1]}>&-; wait $COPROC_PID

## Outputs

A run ends without a word if its reader has closed. What can't be written is a fault, and what needn't be written is none:

  $ program="timeout 20 $(type -P target-lexicon)"
  $ yes z80 2> /dev/null | head -n 100000 | { command target-lexicon settle; echo $? >&2; } | head -n 1
  z80-unknown-unknown-elf
  141
  $ calls() {
  >   for call in 'settle z80' 'settle --json z80' 'settle --json' 'explain z80' 'matrix z80' 'names vendor' --help --version --manual 'completions bash'; do
  >     $program $call 2> said < /dev/null; echo "$? $(cat said)" >&2
  >   done
  >   for call in 'check z80' 'check foo' 'settle foo' 'settle -x'; do $program $call 2> /dev/null; echo "$call: $?" >&2; done
  > }
  $ for how in '>&-' '1< /dev/null' '> /dev/full' '1<> /dev/null'; do eval "{ calls $how; } 2>&1"; done | LC_ALL=C sort | uniq -c
        9 0 
        1 0 note: no targets read
       20 3 target-lexicon: standard output: Bad file descriptor (os error 9)
       10 3 target-lexicon: standard output: No space left on device (os error 28)
        4 check foo: 1
        4 check z80: 0
        4 settle -x: 2
        4 settle foo: 1
  $ for how in '2>&-' '2< /dev/null' '2> /dev/full'; do for it in foo z80; do eval "$program settle $it $how"; echo "$it: $?"; done; done
  foo: 3
  z80-unknown-unknown-elf
  z80: 0
  foo: 3
  z80-unknown-unknown-elf
  z80: 0
  foo: 3
  z80-unknown-unknown-elf
  z80: 0

## Inputs

  $ for how in '<&-' '0> /dev/null'; do eval "target-lexicon settle --json z80 - $how"; echo "status $?"; done | sort | uniq -c
        2 ! target-lexicon: <stdin>: Bad file descriptor (os error 9)
        2 [{"target":"z80","file":null,"line":null,"canonical":"z80-unknown-unknown-elf"}]
        2 status 3
  $ target-lexicon check z80 <&-

A line that isn't UTF-8 is refused, and the others are answered. A file that is no text ends the command:

  $ printf 'z80\nx86_64-\xff\xfe-linux\r\navr' > bytes
  $ target-lexicon settle -f bytes
  z80-unknown-unknown-elf
  avr-unknown-unknown
  ! bytes:2:8: error: not UTF-8 `\u{fffd}`
  !   x86_64-\u{fffd}\u{fffd}-linux
  !          ^^^^^^^^
  ! 1 of 3 targets refused
  [1]
  $ command target-lexicon check --json -f bytes 2> /dev/null | jq -c '.[] | [.line, .error, .start]'
  [2,"not UTF-8",7]
  $ target-lexicon check -q -f bytes
  [1]
  $ printf 'z80\n\0\xff\n' | target-lexicon settle
  z80-unknown-unknown-elf
  ! target-lexicon: <stdin>:2:2: not a text in UTF-8
  [3]

A part of a list has the numbers that its lines have in the whole list:

  $ printf 'z80\navr\nfoo\nx86_64\n' | SHELL=/bin/bash split -l 2 --numeric-suffixes --filter 'target-lexicon check --first-line $((10#${FILE#part} * 2 + 1)) 2>&1 | head -n 1' - part
  <stdin>:3:1: error: unrecognized architecture `foo`
  $ target-lexicon settle --first-line 0 avr > /dev/null
  [2]

A file that is also the output is refused. Two files, and a device, are no such thing:

  $ ulimit -f 1000
  $ tried() { printf 'z80\nfoo\n' > both; eval "$program $1"; echo "status $?"; cat both; }
  $ tried 'settle -f both >> both'
  target-lexicon: both: input file is also the output
  status 3
  z80
  foo
  $ tried 'settle z80 -f ./both >> both'
  target-lexicon: ./both: input file is also the output
  status 3
  z80
  foo
  z80-unknown-unknown-elf
  $ tried 'settle < both >> both'
  target-lexicon: <stdin>: input file is also the output
  status 3
  z80
  foo
  $ tried 'check -f both 2>> both'
  status 3
  z80
  foo
  target-lexicon: both: input file is also the output
  $ echo z80 > list; target-lexicon settle -f list > other; cat other
  z80-unknown-unknown-elf
  $ command target-lexicon settle < /dev/null > /dev/null 2>&1

## Memory

A line that is larger than memory is a fault, and a refused one needs no more than its own:

  $ (ulimit -v 100000; head -c 200000000 /dev/zero | tr '\0' a | target-lexicon check)
  ! target-lexicon: <stdin>: out of memory
  [3]
  $ (ulimit -v 24000; head -c 3000000 /dev/zero | tr '\0' '\1' | target-lexicon check) | cut -c 1-30
  ! <stdin>:1:1: error: unrecogn
  !   \u{1}\u{1}\u{1}\u{1}\u{1}\
  !   ^^^^^^^^^^^^^^^^^^^^^^^^^^

An object has no second copy of a line:

  $ (ulimit -v 40000; { printf x86_64-; head -c 10000000 /dev/zero | tr '\0' a; echo -linux; } | target-lexicon explain --json | wc -c)
  30000428

## Terminals

How far a run is shows where escapes are taken:

  $ terminal() { script -qec "$1" /dev/null < /dev/null; }
  $ for variables in 'TERM=xterm NO_COLOR=' 'TERM=dumb NO_COLOR=' 'TERM=xterm NO_COLOR=1'; do
  >   (export $variables; terminal "{ echo avr; sleep 2.5; echo avr; } | $program settle > /dev/null" | grep -c $'\x1b')
  > done
  1
  0
  0
  [1]
  $ TERM=xterm NO_COLOR= terminal "$program check foo" | grep -c $'\x1b'
  2
  $ TERM=xterm NO_COLOR=1 terminal "$program check foo" | grep -c $'\x1b'
  0
  [1]

A call at a terminal says what it reads:

  $ for words in settle 'settle -q' 'settle -' 'settle avr'; do
  >   echo "$words: $(terminal "$program $words" | grep -c 'reading targets from standard input, one per line')"
  > done
  settle: 1
  settle -q: 0
  settle -: 0
  settle avr: 0
  $ target-lexicon settle < /dev/null
  ! note: no targets read
