# What `ror` and `ror_show` have in common: they set the folder that they stand in (top) and the program's name (name), have a page of
# help (print_help), and take this in with the caller's words. It starts no other program where nothing is amiss, so it costs little.
# shellcheck shell=sh
# shellcheck disable=SC2154
stored=$top/programs/$name
built=$top/crates/$name/out/$name

# The program that was built here runs, where there is one and it isn't older than the stored one.
program=$stored
[ ! -x "$built" ] || [ "$built" -ot "$stored" ] || program=$built

if [ $# = 1 ]; then
  case $1 in
    --help | -h) print_help; exit ;;
    --version)
      kit=$(sed -n 's/^Proved with: .\(rattle-kit.*\).$/\1/p' "$top/README.md")
      if [ "$program" = "$built" ]; then
        echo "$name, built here (crates/$name/out/$name), proved with $kit"
      else
        echo "$name, stored (programs/$name), proved with $kit"
      fi
      exit ;;
  esac
fi

# says what the stored program lacks here, and what to do
lacks() {
  echo "$name: $1" >&2
  exit 126
}

# The stored program is for x86-64 Linux with glibc 2.34 or later, and processors from 2009 on. From that glibc on libc.so.6 is a file
# and no link; where it is a link, a call without words tells whether it will do.
look_over() {
  [ -e "$stored" ] || lacks "programs/$name is missing: restore it (git checkout programs), or make it by ./build, which needs the kit"
  [ -x "$stored" ] || lacks "programs/$name may not be run: this folder is on a file system that runs nothing, or the file lost its mode; copy the folder elsewhere, or chmod +x programs/$name"
  [ -e /lib64/ld-linux-x86-64.so.2 ] || case $(uname -s -m) in
    'Linux x86_64') lacks "the program needs glibc 2.34 or later, and there is no glibc here: run it on such a Linux (Debian 12, Ubuntu 22.04, Fedora 35 or later), in a container for instance" ;;
    *) lacks "the program is for Linux on x86-64, and this is $(uname -s -m): run it on such a machine, or in a container for linux/amd64" ;;
  esac
  for libc in /lib/x86_64-linux-gnu/libc.so.6 /lib64/libc.so.6; do
    [ ! -h "$libc" ] || { "$stored" >/dev/null 2>&1; [ $? = 2 ]; } ||
      lacks "the program needs glibc 2.34 or later, and the one here is older: run it on Debian 12, Ubuntu 22.04, Fedora 35 or later, in a container for instance"
  done
  while read -r key colon flags; do
    case $key in
      flags)
        case " $flags " in *' sse4_2 '*) ;; *) lacks "the program needs a processor from 2009 or later (SSE4.2), and this one is older: run it on another machine" ;; esac
        break ;;
    esac
  done </proc/cpuinfo
}

[ "$program" = "$built" ] || look_over
exec "$program" "$@"
