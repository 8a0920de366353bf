#!/bin/sh
# SPDX-License-Identifier: MIT
# Says what carries out the entry calls of an Ada program that is linked: pobj, or GNAT's own runtime.
#   linked.sh PROGRAM
# Statuses: 0, pobj does; 1, GNAT's own runtime does, or the program has no entry calls; 4, it is no program. Called by ada.sh.
set -eu

say() { echo "pobj ada: $*"; }

fail() {
  say "$*" >&2
  exit 4
}

[ -f "$1" ] && [ -r "$1" ] || fail "$1 isn't a file that can be read"
readelf -h "$1" >/dev/null 2>&1 || fail "$1 isn't a linked program"

# Whether the program or the library has pobj's packages: one of them looks for POBJ_TRACE in the environment.
has_engine() { grep -aq POBJ_TRACE "$1"; }

# Ends, since GNAT's own runtime carries out the calls of the program, for the reason given.
by_gnat() {
  say "$1 runs on GNAT's own runtime, $2"
  say "compile and link it again: gnatmake -f --RTS=DEST PROGRAM.adb -bargs -static (docs/ADA.md)"
  exit 1
}

# Prints the name of GNAT's tasking library that the program is linked with, if it is linked with one.
needed_by() { readelf -d "$1" 2>/dev/null | sed -n 's/.*(NEEDED).*\[\(libgnarl[^]]*\)\].*/\1/p'; }

# Prints the first library of this name in the folders of LD_LIBRARY_PATH, or nothing.
in_path() {
  printf '%s\n' "${LD_LIBRARY_PATH-}" | tr : '\n' | while IFS= read -r folder; do
    if [ -f "$folder/$1" ]; then
      printf '%s\n' "$folder/$1"
      return
    fi
  done
}

# Prints what the loader takes for that library, or "not" if it finds none. A program for another processor isn't loaded here, so
# the folders of LD_LIBRARY_PATH are all that is known.
taken_for() {
  if said=$(LC_ALL=C ldd "$1" 2>/dev/null); then
    printf '%s\n' "$said" | awk '$1 ~ /^libgnarl/ { print $2 == "=>" ? $3 : $1 }'
  else
    in_path "$2"
  fi
}

library=
needed=$(needed_by "$1")
[ -z "$needed" ] || library=$(taken_for "$1" "$needed")
if has_engine "$1"; then
  say "$1 runs over pobj, which is linked into it"
elif [ "$library" = not ]; then
  fail "$1 can't be loaded: its libgnarl isn't found"
elif [ -n "$library" ] && has_engine "$library"; then
  say "$1 runs over pobj, by the library $library"
elif [ -n "$library" ]; then
  by_gnat "$1" "by the library $library"
elif [ -n "$needed" ]; then
  fail "$1 is for another machine, which chooses its $needed; LD_LIBRARY_PATH names none"
elif grep -aq system__tasking__protected_objects__ "$1"; then
  by_gnat "$1" "which is linked into it"
else
  say "$1 has no protected entry, or no symbols: nothing in it is pobj's or GNAT's"
  exit 1
fi
