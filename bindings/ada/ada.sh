#!/bin/sh
# SPDX-License-Identifier: MIT
# Carries out `pobj ada`, with a library that is built:
#   ada.sh LIBPOBJ [--target TARGET] DEST            makes a runtime folder, and says how a program uses it
#   ada.sh LIBPOBJ [--target TARGET] --check [DEST]  compiles and runs a program on the folder DEST, or on one that it makes for that
#   ada.sh LIBPOBJ --linked PROGRAM                  says whether a program that is linked runs over pobj
#   ada.sh LIBPOBJ [--target TARGET] --sources DIR   puts the units of GNAT's that pobj changes into the folder DIR
# TARGET is the processor for which LIBPOBJ is, x86_64 if none is named. If - stands for LIBPOBJ, what needs the library isn't done:
# this only says whether the words are wrong, or GNAT is missing.
set -eu
here=$(cd "$(dirname "$0")" && pwd)
library=$1
shift
target=x86_64
if [ "${1-}" = --target ]; then
  target=$2
  shift 2
fi
# The prefix of a cross compiler's commands
prefix=
[ "$target" = "$(uname -m)" ] || prefix=$target-linux-gnu-

say() { echo "pobj ada: $*" >&2; }

# Ends with status 2 if the words aren't among those that it takes.
take_words() {
  case "$#${1-}" in
    1--check | 2--check | 2--linked | 2--sources) ;;
    1--linked)
      say "--linked takes the program"
      exit 2
      ;;
    1--sources)
      say "--sources takes the folder for the units of GNAT's that pobj changes"
      exit 2
      ;;
    1-*)
      say "no such word: $1"
      exit 2
      ;;
    1?*) ;;
    *)
      say "it takes a folder for the runtime; or --check, and a runtime folder if one is made; or --linked and a program;" \
        "or --sources and a folder"
      exit 2
      ;;
  esac
}

# Prints the word, quoted for a shell.
quoted() {
  case $1 in
    *[!A-Za-z0-9_./+=@%:,-]*) printf "'%s'" "$1" ;;
    *) printf '%s' "$1" ;;
  esac
}

take_words "${@:-}"
case "$#$1" in
  2--check) exec "$here/check.sh" "$2" ;;
  2--linked) exec "$here/linked.sh" "$2" ;;
  2--sources) exec "$here/make.sh" --sources "$2" "$prefix" ;;
esac
[ "$library" != - ] || exec "$here/make.sh" --gnat "$prefix"
case "$#$1" in
  1--check)
    room=$(mktemp -d)
    trap 'rm -rf "$room"' EXIT
    "$here/make.sh" "$room/runtime" "$library" "$prefix"
    "$here/check.sh" "$room/runtime"
    ;;
  *)
    "$here/make.sh" "$1" "$library" "$prefix"
    dest=$(cd "$1" && pwd)
    say "the runtime of $(sed -n 's/^A runtime of \(.*\), whose .*/\1/p' "$dest/POBJ") is in $dest. Compile a program with it by:"
    say "  ${prefix}gnatmake -f --RTS=$(quoted "$dest") PROGRAM.adb -bargs -static"
    say "or run a program that is already linked with GNAT's shared libraries:"
    say "  LD_LIBRARY_PATH=$(quoted "$dest/adalib") ./PROGRAM"
    ;;
esac
