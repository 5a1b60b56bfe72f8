# Help and arguments

  $ . "$TESTDIR/rows.sh"

Arguments that are wrong have the status 2, and say what is right:

  $ while read -r words; do
  >   command target-lexicon $words 2> said; echo "status $?"
  >   grep -q 'Usage: \|possible values' said || echo "$words"
  > done << 'END' | uniq -c
  > 
  > explains
  > x86_64-linux
  > names field
  > settle -x
  > settle --ignore-vendor
  > completions sh
  > --manual settle
  > settle --manual
  > END
        9 status 2
  $ target-lexicon x86_64-linux | tail -n 1
  ! A target follows a command: target-lexicon explain x86_64-linux
  $ target-lexicon -- > /dev/null
  [2]

A word that people try has the right one, and the subcommands follow; nothing is suggested that only looks like it:

  $ for word in parse info show list validate lint normalize canonical convert version; do target-lexicon $word avr | grep '^! For `'; done
  ! For `parse` use `explain` or `facts`
  ! For `info` use `explain` or `facts`
  ! For `show` use `explain` or `facts`
  ! For `list` use `names`
  ! For `validate` use `check`
  ! For `lint` use `check`
  ! For `normalize` use `settle`
  ! For `canonical` use `settle`
  ! For `convert` use `translate`
  ! For `version` use `--version`
  $ target-lexicon frobnicate avr | tail -n 1
  ! Commands: explain facts settle check matrix translate cfg what names completions
  $ said() { target-lexicon "$@" | grep '^! For `\|Did you mean'; }
  $ said settle --libc gnu x86_64-linux
  ! For `gnu` use `--libc glibc` for Linux, or `--libc mingw` for Windows
  $ for tool in containers cargo wheel deb fedora alpine arch gcc clang; do said translate --to $tool avr; done
  ! For `containers` use `oci`
  ! For `cargo` use `rust`
  ! For `wheel` use `python`
  ! For `deb` use `debian`
  ! For `fedora` use `rpm`
  ! For `alpine` use `apk`
  ! For `arch` use `pacman`
  ! For `gcc` use `gnu`
  ! For `clang` use `target-lexicon facts`, whose `llvm_target` it is
  $ said settle --from clang avr
  ! For `clang` use `llvm`
  $ said explain --from go linux/amd64
  ! For `--from` use `what`, or `check`, `facts`, `matrix`, `settle` or `translate`, which have it
  $ said facts --field pointer_width avr
  ! For `--field` use `--get` of `facts`
  $ for fact in os linker; do said facts --get $fact avr; done
  ! For `os` use `operating_system`
  ! For `linker` use `object_format`

## The manual and the completions have the commands and their options, and the help of each has an example

  $ target-lexicon --version | grep -xc "target-lexicon $(sed -n 's/^version = "\(.*\)"/\1/p' "$TESTDIR/../Cargo.toml")"
  1
  $ cmp <(target-lexicon help --help) <(target-lexicon help)
  $ target-lexicon --manual | sed 's/\\-/-/g' > manual
  $ for shell in bash zsh fish elvish powershell; do target-lexicon completions $shell > $shell; done
  $ calls=$(target-lexicon --help | sed -n '/^Commands:/,/^$/s/^  \([a-z]*\) .*/\1/p' | grep -vx help); echo $calls
  explain facts settle check matrix translate cfg what names completions
  $ for call in $calls; do
  >   target-lexicon $call --help > help
  >   grep -q '^  \$ target-lexicon ' help || echo "$call: no example"
  >   grep -qxF ".B $call" manual || echo "$call: not in the manual"
  >   for option in $(sed '/^Example/,$d' help | grep -oE -- '--?[a-z0-9][a-z-]*'); do
  >     grep -qF -- "$option" manual || echo "$call $option: not in the manual"
  >     for shell in bash zsh fish; do grep -qw -- "$(sed 's/^-*//' <<< "$option")" $shell || echo "$call $option: not in $shell"; done
  >   done
  >   for value in $(grep -oP '(?<=possible values: )[^]]*' help | tr -d ,); do grep -qw -- "$value" manual || echo "$call $value: not in the manual"; done
  > done

The manual has each key of JSON:

  $ for call in explain facts settle 'settle --changes' 'translate --to gnu' what matrix 'check foo'; do
  >   for key in $(command target-lexicon $call --json x86_64-linux-gnu 2> /dev/null | jq -r '.[] | keys[]'); do grep -qw "$key" manual || echo "$call: $key"; done
  > done

## Shells take the completions

  $ in_shell() { [[ " ${WITHOUT-} " == *" $1 "* ]] || [[ $("$1" -c "$2" "$(type -P target-lexicon)" 2>&1) == $3 ]] || echo "$1 doesn't"; }
  $ in_shell zsh 'autoload -U compinit && compinit -u -D && source <($0 completions zsh) && echo $_comps[target-lexicon]' _target-lexicon
  $ in_shell fish '$argv[1] completions fish | source; complete -C "target-lexicon mat"' $'matrix\t*'
  $ in_shell fish '$argv[1] completions fish | source; complete -C "target-lexicon names deb"; complete -C "target-lexicon completions "' $'debian\nbash\nelvish\n*'
