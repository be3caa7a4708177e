# shellcheck shell=bash
# What the scripts of tests/ and bench/ share: `need_library` sees that the proved library is there and as new as its
# sources, `need_program` the same of the program, and `built` builds a cargo package against it.
# They set `library` (the folder of libhost.a) and `program`; a folder given by --stand-in replaces both.

root=$(cd "$(dirname "${BASH_SOURCE[0]}")/.." && pwd)
library=$root/crates/host/out
program=$root/crates/wickerbell/out/wickerbell

fail() { echo "$*" >&2; exit 1; }

# Takes --stand-in FOLDER out of the words and leaves the rest in `words`.
without_stand_in() {
  words=()
  while [ $# -gt 0 ]; do
    if [ "$1" = --stand-in ]; then
      [ $# -gt 1 ] || fail "--stand-in needs a folder"
      library=$(cd "$2" && pwd) || exit 1
      program=$library/wickerbell
      echo "NOT THE PROVED LIBRARY: the stand-in in $library"
      shift 2
    else
      words+=("$1")
      shift
    fi
  done
}

# Is the file there, and older than no source of any crate?
fresh() { [ -e "$1" ] && [ -z "$(find "$root/crates" "$root/crates.txt" -name out -prune -o -type f -newer "$1" -print | head -n 1)" ]; }

made() { # FILE VERB: runs rt VERB in the folder of FILE's crate, where FILE, which lies in its out/, is not fresh
  local crate=${1%/out/*}
  fresh "$1" && return
  command -v rt >/dev/null || fail "no rt here: install the Rattle kit and put its bin folder on PATH"
  (cd "$crate" && rt "$2") || fail "rt $2 failed in ${crate#"$root"/}"
  [ -e "$1" ] || fail "rt $2 did not write ${1#"$root"/}"
  # rt writes nothing where nothing changed; the file is then as good as new
  touch "$1"
}

need_library() { [ "$library" != "$root/crates/host/out" ] || made "$library/libhost.a" lib; }
# (rt run also runs the program, which finds no files there: what that prints is no one's)
need_program() { [ "$program" != "$root/crates/wickerbell/out/wickerbell" ] || made "$program" run >/dev/null </dev/null; }

built() { # PACKAGE FOLDER: builds it for release, with no network, into target/cargo
  command -v cargo >/dev/null || fail "no cargo here: install Rust"
  (cd "$1" && WICKERBELL_LIB=$library CARGO_TARGET_DIR=$root/target/cargo cargo build --release --offline --locked --quiet)
}
