# Large inputs, with enough memory

A run that takes a minute fails, and a status other than 0 is shown. In what is shown, a hundred equal characters or more are
that character, `*`, and how many:

  $ triples() { timeout 60 "$(type -P triples)" "$@" || echo "status $?"; }
  $ shortened() {
  >   /usr/bin/python3 -c 'import re, sys; sys.stdout.buffer.write(re.sub(rb"(\xc3\xa9|.)\1{99,}",
  >     lambda it: b"%b*%d" % (it[1], len(it[0]) // len(it[1])), sys.stdin.buffer.read()))'
  > }

## Ten million bytes of lines

  $ cat > lines << 'END'
  > arm64-apple-ios
  > foo
  > x86_64-customvendor-linux
  > wasm32-unknown-wasi
  > x86_64-linux-foo
  > END
  $ many() { yes "$(cat "$1")" 2> /dev/null | head -n 610000; }
  $ many lines > input; wc -c < input
  10126000
  $ for mode in print show settle stream stream-show stream-settle; do
  >   triples $mode < lines > answers
  >   triples $mode < input | cmp - <(many answers)
  > done

A matrix has each refusal, but each text once:

  $ triples matrix < input | uniq | head -n 7
  aarch64-apple-ios
  error: Unrecognized architecture: foo
  x86_64-customvendor-linux
  wasm32-wasi
  error: Unrecognized environment: foo
  error: Unrecognized architecture: foo
  error: Unrecognized environment: foo
  $ triples matrix < input | sort | uniq -c
        1 aarch64-apple-ios
   122000 error: Unrecognized architecture: foo
   122000 error: Unrecognized environment: foo
        1 wasm32-wasi
        1 x86_64-customvendor-linux
  $ seq -f 'x86_64-v%.0f-linux' 0 549999 > vendors
  $ { cat vendors; head -n 1000 vendors; } | triples matrix | cmp - vendors
  $ { yes '' | head -n 1000000; } 2> /dev/null | triples print | uniq -c
  1000000 error: Unrecognized architecture:  (esc)

## Lines of a million bytes

  $ repeated() { head -c $2 /dev/zero | tr '\0' $1; }
  $ a=$(repeated a 1000000)
  $ cat > long << END
  > x86_64-$a-linux
  > $a
  > x86_64-$a-linux-$a
  > x86_64-${a^^}-linux
  > x86_64-$(repeated a 500000 | sed 's/a/é/g')
  > x86_64-apple-ios$(repeated 0 9999)7
  > x86_64-apple-ios$(repeated 1 10000)
  > x86_64-apple-ios1.$(repeated 0 10000)2
  > x86_64-linux-gnu-elf$(repeated - 1000000)
  > END
  $ triples print < long | shortened
  x86_64-a*1000000-linux
  error: Unrecognized architecture: a*1000000
  error: Unrecognized environment: a*1000000
  error: Unrecognized vendor: A*1000000
  error: Unrecognized vendor: é*500000
  x86_64-apple-ios7.0.0
  error: Unrecognized operating system: ios1*10000
  x86_64-apple-ios1.2.0
  error: Unrecognized field:  (esc)
  $ triples settle < long | cmp - <(triples print < long)
  $ triples matrix < long | cmp - <(triples print < long)
  $ while read -r line; do printf %s "$line" | triples print; done < long | cmp - <(triples print < long)
  $ head -n 1 long | triples show | shortened
  x86_64-a*1000000-linux little 64 SystemV LP64

## Lists

  $ as_list() { sed 's/.*/"&"/' | paste -sd, | sed 's/.*/[&]/'; }
  $ grep -v foo lines > good
  $ many good | head -n 500000 > elements
  $ as_list < elements | triples json | cmp - <(triples print < elements | as_list)
  $ { cat elements; echo foo; } | as_list | triples json
  error: Element 500000: Unrecognized architecture: foo
  $ while read -r line; do echo "$line" | as_list | triples json; done < long | cmp - <(triples print < long | sed '/^error: /!s/.*/["&"]/; s/^error: /&Element 0: /')
  $ { printf '["x86_64-'; repeated a 1000000 | sed 's/a/\\u0061/g'; printf -- '-linux"]'; } | triples json | shortened
  ["x86_64-a*1000000-linux"]
