#!/bin/sh
# SPDX-License-Identifier: MIT
# Compiles a program on a runtime folder of pobj by the GNAT that the folder is made from, and runs it, linked with the folder, and
# with the folder's shared library. If the folder is for another machine, qemu runs the program:
#   check.sh DEST
set -eu
here=$(cd "$(dirname "$0")" && pwd)

say() { echo "pobj ada: $*" >&2; }

fail() {
  say "$*"
  exit 4
}

# Sets `version` and `target` to what the folder says of its GNAT.
read_folder() {
  if [ ! -f "$1/POBJ" ] || [ ! -f "$1/adalib/libgnarl.so" ]; then fail "$1 isn't a runtime folder of pobj"; fi
  made_from=$(sed -n 's/^A runtime of GNAT \([0-9.]*\) for \([A-Za-z0-9_-]*\),.*/\1 \2/p' "$1/POBJ")
  [ -n "$made_from" ] || fail "$1 is from an older pobj, which doesn't say what it is for: make it again"
  version=${made_from% *} target=${made_from#* }
}

# Sets `prefix` to that of the compiler's commands, and `runner` to what runs a program of the folder.
find_tools() {
  prefix='' runner='' machine=${target%%-*}
  if [ "$machine" != "$(uname -m)" ]; then prefix=$target- runner="qemu-$machine -L /usr/$target"; fi
  command -v "${prefix}gnatmake" >/dev/null || fail "there is no ${prefix}gnatmake, which compiles for $target"
  found=$("${prefix}gnatmake" --version | head -n 1)
  case $found in
    *" $version."*) ;;
    *) fail "$1 is made from GNAT $version, and the one found is $found" ;;
  esac
  [ -z "$runner" ] || command -v "qemu-$machine" >/dev/null ||
    fail "there is no qemu-$machine, which runs a program for $machine here; on Debian 12: sudo apt-get install qemu-user"
}

# Whether the program ends within ten seconds, and writes what it should, with the libraries of the folder if one is named.
is_right() {
  path=${2-}${2:+${LD_LIBRARY_PATH:+:}}${LD_LIBRARY_PATH-}
  # shellcheck disable=SC2086
  [ "$(LD_LIBRARY_PATH=$path timeout 10 $runner "$1" 2>&1)" = "there and back" ]
}

read_folder "$1"
find_tools "$1"
dest=$(cd "$1" && pwd)
room=$(mktemp -d)
trap 'rm -rf "$room"' EXIT
cp "$here/there_and_back.adb" "$room/"
cd "$room"
"${prefix}gnatmake" -q "--RTS=$dest" there_and_back.adb -o linked -bargs -static || fail "a program can't be compiled on $dest"
is_right ./linked || fail "a program that is linked with $dest doesn't write what it should"
"${prefix}gnatmake" -q -f there_and_back.adb -o shared -bargs -shared || fail "a program can't be compiled by GNAT itself"
is_right ./shared "$dest/adalib" || fail "a program doesn't write what it should over $dest/adalib"
say "a program of GNAT $version for $target that hangs on GNAT's own runtime ends over $dest, linked with it, and with its" \
  "shared library"
