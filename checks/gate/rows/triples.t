# The program `triples`

Only the faults of the stream modes go to the error output: the last row shows it.

  $ exec 2> errors

Without an argument its mode is `print`. A refused line is no fault. `answers` shows what a mode writes for `lines`, and
that it writes the same if the last line has no line feed:

  $ answers() (
  >   set -o pipefail
  >   triples "$@" < lines && head -c -1 lines | triples "$@" | cmp - <(triples "$@" < lines)
  > )
  $ cat > lines << 'END'
  > arm64-apple-ios
  > x86_64-customvendor-linux
  > x86_64-apple-darwin23.6
  > 
  > x86_64-é-linux
  > x86_64-foo-bar
  > x86_64-linux-foo
  > x86_64-gnu-linux
  > x86_64-elf-linux
  > END
  $ answers
  aarch64-apple-ios
  x86_64-customvendor-linux
  x86_64-apple-darwin23.6.0
  error: Unrecognized architecture:  (esc)
  error: Unrecognized vendor: é
  error: Unrecognized operating system: bar
  error: Unrecognized environment: foo
  error: Unrecognized binary format: linux
  error: Unrecognized field: linux
  $ answers print > printed && triples < lines | cmp - printed

What the other modes write of a triple, `checks/compare answers` and the tests of the crate say. A matrix has each
refusal:

  $ printf 'x86_64-linux\nfoo\nx86_64-unknown-linux-unknown\nx86_64-unknown-linux\nfoo' | triples matrix
  x86_64-unknown-linux
  error: Unrecognized architecture: foo
  error: Unrecognized architecture: foo
  $ printf '\n[ ]\n ' | triples json
  []
  $ printf '{}' | triples json
  fault: Input is not a JSON list
  [1]

Line by line, `stream` answers as `print`, and `stream-show` and `stream-settle` as `show` and `settle`:

  $ cat > lines << 'END'
  > arm64-apple-ios
  > wasm32-unknown-wasi-unknown-unknown
  > foo
  > x86_64-customvendor-linux
  > END
  $ answers stream | cmp - <(triples print < lines)
  $ for mode in show settle; do answers stream-$mode | cmp - <(triples $mode < lines); done
  $ triples stream < /dev/null
  $ coproc triples stream; echo x86_64-linux >&${COPROC[1]}
  $ read -r -t 60 line <&${COPROC[0]}; echo $line
  x86_64-unknown-linux

There a line that is not UTF-8, or has 65,536 bytes, is refused, and the others are answered:

  $ printf 'x86_64-linux\n\377\n\303\n\251\navr-pc-none' | triples stream
  x86_64-unknown-linux
  error: Line is not UTF-8
  error: Line is not UTF-8
  error: Line is not UTF-8
  avr-pc-none
  $ long() { head -c $1 /dev/zero | tr '\0' a; }
  $ { long 65535; echo; long 65536; echo; long 1000000; printf '\nx86_64-linux\n'; long 200000; } | triples stream | cut -c 1-36
  error: Unrecognized architecture: aa
  error: Line too long
  error: Line too long
  x86_64-unknown-linux
  error: Line too long
  $ long 65535 | triples stream-show | cmp - <(long 65535 | triples print)
  $ for mode in stream stream-show stream-settle; do
  >   { printf '\377\n'; long 65535; echo; long 65536; printf '\nfoo'; } | triples $mode | cut -c 1-36
  > done | sort | uniq -c
        3 error: Line is not UTF-8
        3 error: Line too long
        3 error: Unrecognized architecture: aa
        3 error: Unrecognized architecture: fo

## Lines

Any character but a line feed is part of a line, and an empty input has no line. `agreed` shows what the four line modes
write for refused lines, which must be the same:

  $ agreed() (
  >   set -o pipefail
  >   triples print < lines || echo "print: $?"
  >   for mode in show settle matrix; do triples $mode < lines | cmp - <(triples print < lines) || echo "$mode: $?"; done
  > )
  $ printf 'x86_64-unknown-linux\r\n\r\na\rb\nc\0d\ne\302\205f\342\200\250g\vh\fi' > lines
  $ agreed | cat -v
  error: Unrecognized operating system: linux^M
  error: Unrecognized architecture: ^M
  error: Unrecognized architecture: a^Mb
  error: Unrecognized architecture: c^@d
  error: Unrecognized architecture: eM-BM-^EfM-bM-^@M-(g^Kh^Li
  $ : > lines
  $ agreed

Digits of two bytes each, so many that a read ends within one of them:

  $ printf 'ios'"$(printf '\331\241%.0s' {1..9001})" > part
  $ { printf x86_64-apple-; cat part; } > lines
  $ agreed | cmp - <(printf 'error: Unrecognized operating system: '; cat part; echo)

## Arguments

  $ for words in unsettle shows --help '""' '"print "' Print PRINT 'print print' 'print ""' 'print print print' "$'print\n'" \
  >   '" print"' --print "$'\xff'"; do
  >   echo x86_64 | eval triples "$words"; echo "status $?"
  > done | sort | uniq -c
       14 status 2
       14 usage: triples [MODE]

## Readers and writers that fail

A folder can't be read, and neither can a closed input, in any mode. The line of a stream mode isn't among its answers:

  $ for mode in print show settle json matrix stream stream-show stream-settle; do
  >   triples $mode < /; echo "status $?"; triples $mode <&-; echo "status $?"
  > done | sort | uniq -c
       10 fault: Read failed
       16 status 1

If something can't be written, the status is 1, or 2 without a mode; if there is nothing to write, it is 0. Here the output is full, then closed, and then
has no reader: the signal for that, which would end a C program, is blocked or not.

  $ mkfifo pipe && exec 3<> pipe 4> pipe 3<&-
  $ while read -r mode input; do
  >   printf "$input" > lines
  >   triples $mode < lines > /dev/full; full=$?
  >   triples $mode < lines >&-; closed=$?
  >   triples $mode < lines >&4; unread=$?
  >   (trap '' PIPE; triples $mode < lines >&4); echo $mode $full $closed $unread $?
  > done << 'END'
  > print x86_64
  > matrix foo
  > stream foo
  > json []
  > json {}
  > print \xff
  > no
  > print
  > END
  print 1 1 1 1
  matrix 1 1 1 1
  stream 1 1 1 1
  json 1 1 1 1
  json 1 1 1 1
  print 1 1 1 1
  no 2 2 2 2
  print 0 0 0 0

A reader closes after a hundred bytes, and a file may have 64 kB. Both get the beginning of the output:

  $ yes arm64-apple-ios | head -n 50000 > lines
  $ { triples print < lines; echo "status $?" > status; } | head -c 100; echo; cat status
  aarch64-apple-ios
  aarch64-apple-ios
  aarch64-apple-ios
  aarch64-apple-ios
  aarch64-apple-ios
  aarch64-ap
  status 1
  $ (ulimit -f 64; trap '' XFSZ; triples print < lines > written); echo "status $?"
  status 1
  $ yes aarch64-apple-ios | head -c 65536 | cmp - written

## The error output

  $ sort errors | uniq -c
        6 fault: Read failed
        4 fault: Write failed
