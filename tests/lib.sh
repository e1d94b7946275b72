# shellcheck shell=bash
# What the test scripts, ./run and the Makefile share. Source it from bash, under `set -euo pipefail`.
#
# Rattle's programs and archives are for x86-64. On such a machine they run as they are; on another one C is
# cross-compiled and all runs under an emulator.

root=$(CDPATH='' cd -- "$(dirname "${BASH_SOURCE[0]}")/.." && pwd -P)
work=$root/target/tests    # what the tests build; target/ is not committed
machine=$(uname -m)

# Ends the script with one line that says why.
fail() {
  printf 'failed: %s\n' "$*" >&2
  exit 1
}

# The toolchain's C library and loader for x86-64 and, where it brings one, an emulator. Only what is to be built needs the toolchain.
kit=${RATTLE_HOME:-$(dirname "$(dirname "$(readlink -f "$(command -v rt || echo /none/none)")")")}
tools=$kit/toolchain

# Installs Debian packages by name. The lists of packages are fetched once, and again only where an install fails.
install_packages() { # PACKAGE..
  mkdir -p "$work"
  printf 'installing: %s\n' "$*" >&2
  (
    export DEBIAN_FRONTEND=noninteractive
    update() { apt-get -q update && touch "$work/lists"; }
    add() { apt-get -q install -y --no-install-recommends "$@"; }
    if [ -e "$work/lists" ]; then add "$@" || { update && add "$@"; }; else update && add "$@"; fi
  ) >"$work/install.log" 2>&1 </dev/null || {
    tail -n 5 "$work/install.log" >&2
    fail "this machine lacks the Debian package(s) $*, and apt-get cannot install them (target/tests/install.log)"
  }
}

# Sees to it that a command is there, from a package of Debian's.
need() { # PACKAGE COMMAND
  command -v "$2" >/dev/null || install_packages "$1"
  command -v "$2" >/dev/null || fail "this machine lacks the command $2, and the package $1 did not bring it"
}

# Whether a compiler makes static programs for x86-64: it may be there without its C library.
links() { # COMPILER
  mkdir -p "$work"
  echo 'int main(void) { return 0; }' | "$1" -static -x c -o "$work/links" - 2>/dev/null
}

# Sets `compiler` to one that makes programs for x86-64.
need_compiler_x86() {
  if [ "$machine" = x86_64 ]; then
    compiler=gcc
    links $compiler || install_packages gcc libc6-dev
  else
    compiler=x86_64-linux-gnu-gcc
    links $compiler || install_packages gcc-x86-64-linux-gnu libc6-dev-amd64-cross
  fi
}

# Sets the array `libm` to the words that link `compiler`'s mathematical library into a static program. Debian's libm.a is a
# linker script that names archives by their paths on an x86-64 machine. On another machine they lie beside the script.
find_libm() {
  local script name names
  libm=(-lm)
  script=$($compiler -print-file-name=libm.a)
  if [ "$machine" = x86_64 ] || [ "$(head -c 7 "$script")" = '!<arch>' ]; then return; fi
  libm=()
  mapfile -t names < <(grep -o '[^ /()]*\.a' "$script")
  for name in "${names[@]}"; do
    [ -f "$(dirname "$script")/$name" ] || fail "$script names $name, which does not lie beside it"
    libm+=("$(dirname "$script")/$name")
  done
}

# Compiles C for x86-64. The program is static, so that an emulator needs no C library beside it. Among the files may be -lm.
compile_x86() { # OUT FILE..
  local out=$1 word words=()
  shift
  mkdir -p "$(dirname "$out")"
  need_compiler_x86
  for word in "$@"; do
    if [ "$word" = -lm ]; then
      find_libm
      words+=("${libm[@]}")
    else
      words+=("$word")
    fi
  done
  "$compiler" -std=c11 -O2 -Wall -Wextra -Werror -static -I"$root/include" -o "$out" "${words[@]}" || fail "cannot compile $*"
}

# Sets the array `launch` to the words that run an x86-64 program on this machine, the program last: one of
# compile_x86, which is static, or one that rt built, which asks for a C library. Under an emulator that is the toolchain's.
launch_x86() { # PROGRAM
  launch=()
  if [ "$machine" != x86_64 ]; then
    if [ -x "$tools/bin/qemu-x86_64" ]; then
      launch+=("$tools/bin/qemu-x86_64")
    else
      need qemu-user qemu-x86_64
      launch+=(qemu-x86_64)
    fi
    if [ -x "$tools/lib/ld-linux-x86-64.so.2" ] && head -c 4096 "$1" | grep -qa ld-linux-x86-64; then
      launch+=("$tools/lib/ld-linux-x86-64.so.2" --library-path "$tools/lib")
    fi
  fi
  launch+=("$1")
}

# Runs an x86-64 program on this machine.
run_x86() { # PROGRAM ARGS..
  launch_x86 "$1"
  shift
  "${launch[@]}" "$@"
}

# Whether a file that rt made is newer than every file and folder of the crates, but for what rt keeps in their out/.
fresh() { # FILE
  [ -e "$1" ] && [ -z "$(find "$root/crates.txt" -newer "$1" -print -quit)" ] &&
    [ -z "$(find "$root/crates" -mindepth 2 -name out -prune -o -newer "$1" -print -quit)" ]
}

# The crates of this repository that a crate stands on, one a line, itself among them.
crates_below() { # CRATE
  sed -e 's/#.*//' -e '/:/!d' "$root/crates.txt" | awk -F: -v crate="$1" '
    { split($1, head, " "); below[head[1]] = $2 }
    function take(name,   names, n, i) {
      if (!(name in below) || name in taken) return
      taken[name] = 1
      print name
      n = split(below[name], names, " ")
      for (i = 1; i <= n; i++) take(names[i])
    }
    END { take(crate) }'
}

# Reads what rt says and tells on standard error each crate that it has proved, how many of all that are, and the seconds that it took. rt says
# nothing of a crate that is proved already.
tell_proved() { # ALL
  local line crate='' proved='' since=$SECONDS
  while IFS= read -r line; do
    case $line in
      'crate '*': modules '*)
        crate=${line#crate }
        crate=${crate%%:*}
        ;;
      'logic=proved '*)
        [ "$crate" ] || continue
        proved=$(printf '%s\n' "$proved" "$(crates_below "$crate")" | sort -u)
        printf '  %d of %d proved: %s (%d s)\n' "$(wc -w <<<"$proved")" "$1" "$crate" $((SECONDS - since)) >&2
        crate=
        since=$SECONDS
        ;;
    esac
  done
}

# Has rt prove a crate and make a file of it, in the crate's folder, and puts a copy where it is wanted, if the one there is older than the
# crates. It says on standard error how far it is, and what rt printed where it fails.
build_by_rt() { # lib|run CRATE MADE FILE
  local all log=$work/rt-$1-$2.log made=$root/crates/$2/$3
  fresh "$4" && return
  command -v rt >/dev/null || fail "no command rt: the Rattle toolchain is not on PATH, and ${4#"$root/"} is to be built by it"
  mkdir -p "$work" "$(dirname "$4")"
  all=$(crates_below "$2" | wc -l)
  printf 'building %s: its %d crates are proved first, which takes some minutes where none is proved yet\n' "${4#"$root/"}" "$all" >&2
  if ! (cd "$root/crates/$2" && rt "$1") 2>&1 </dev/null | tee "$log" | tell_proved "$all" || ! cp "$made" "$4.new"; then
    grep -v '^statements \|^logic /\|^only=' "$log" | tail -n 20 >&2 # without the lines that count modules
    fail "rt $1 in crates/$2 made no ${4#"$root/"} (${log#"$root/"} has all that it said)"
  fi
  mv "$4.new" "$4"
}

# Sets `archive` to the archive of a library, which the crate LIBRARY_c exports to C, proved and built if it must be.
build_archive() { # LIBRARY
  archive=$root/target/staticlib/lib$1.a
  build_by_rt lib "${1}_c" "out/lib${1}_c.a" "$archive"
}

# Sets `program` to a program, proved and built if it must be. rt runs it once, on no input.
build_program() { # CRATE
  program=$root/target/bin/$1
  build_by_rt run "$1" "out/$1" "$program"
}

# Sets `driver` to the program of tests/GROUP/driver.c over the archive of bil.
build_driver() { # GROUP
  build_archive bil
  driver=$work/$1-driver
  compile_x86 "$driver" "$root/tests/$1/driver.c" "$archive"
}

# Prints the bytes of a table written as text: '#' starts a comment, a line that starts with '=' is none of the table, and the
# rest is pairs of hexadecimal digits, with or without blanks between pairs. Anything else is told with its line, and no byte
# is printed. Lines may end as on Unix or on Windows.
table_bytes() { # FILE
  local pairs why
  why=$({ : <"$1"; } 2>&1) || fail "$1 can't be opened: ${why##*: }"
  [ ! -d "$1" ] || fail "$1 is a folder, and no text"
  pairs=$(file=$1 awk '
    /^=/ { next }
    { sub(/#.*/, ""); sub(/\r$/, "") }
    {
      for (i = 1; i <= NF; i++) {
        if ($i !~ /^([0-9A-Fa-f][0-9A-Fa-f])+$/) {
          printf "%s:%d: \"%s\" is not made of pairs of hexadecimal digits\n", ENVIRON["file"], NR, $i > "/dev/stderr"
          exit 1
        }
        print $i
      }
    }' <"$1") || exit 1
  printf '%b' "$(tr -d '\n' <<<"$pairs" | sed 's/../\\x&/g')" 2>/dev/null || fail "the bytes can't be written"
}

# Runs cargo in tests/rust, with all that it builds under target/.
rust() { # ARGS..
  need cargo cargo
  (cd "$root/tests/rust" && CARGO_TARGET_DIR=$root/target/cargo cargo "$@")
}

# Has the Rust tests pass their own tests, and builds their programs, target/cargo/release/NAME.
build_rust() {
  mkdir -p "$work"
  rust test --quiet --locked --offline --lib >"$work/cargo-test.log" 2>&1 || {
    cat "$work/cargo-test.log"
    fail "the Rust implementation fails its own tests"
  }
  rust build --quiet --locked --offline --release
}

# Sets `plain` to the functions of bil.h in plain C, unproved, as a library for this machine: target/tests/plain/libbil.a.
# Tests of what stands on the library link it where they can't link the archive. Built where it is older.
build_plain() {
  local peer=$root/tests/performance folder=$work/plain
  plain=$folder/libbil.a
  [ -e "$plain" ] && [ -z "$(find "$peer" "$root/include" -name '*.[ch]' -newer "$plain" -print -quit)" ] && return
  links gcc || install_packages gcc libc6-dev
  mkdir -p "$folder"
  rm -f "$folder"/*
  (cd "$folder" && gcc -std=c11 -O2 -Wall -Wextra -Werror -I"$root/include" -c \
    "$peer/peer.c" "$peer/peer_bil.c" "$peer/interpreter.c" "$peer/peer_run.c" "$peer/peer_word.c") ||
    fail "cannot compile the plain C library"
  ar rcs "$plain" "$folder"/*.o || fail "cannot write $plain"
}
