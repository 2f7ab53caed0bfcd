# Which programs the tests run: those that `./ror` and `./ror_show` run, or those that ROR and ROR_SHOW name. The scripts beside this
# one take it in, with the folder of the repository (top).
# shellcheck shell=bash
# shellcheck disable=SC2154
program_of() {
  local stored=$top/programs/$1 built=$top/crates/$1/out/$1
  if [ -x "$built" ] && ! [ "$built" -ot "$stored" ]; then echo "$built"; else echo "$stored"; fi
}

ROR=${ROR:-$(program_of ror)}
ROR_SHOW=${ROR_SHOW:-$(program_of ror_show)}

# what was expected (a file or nothing) and what came, where these differ
show_difference() {
  local expected=$1
  [ -e "$expected" ] || expected=/dev/null
  diff -a -u --label "expected $3" --label "got $3" "$expected" "$2" | head -n "${4:-20}"
}
