#!/usr/bin/env bash
# SPDX-License-Identifier: MIT
# room.sh CRATE proves and builds a crate in a room: a copy of the crate and of the libraries that it depends on. rt locks the
# folders of all these, so in one place it builds only one crate at a time. room.sh CRATE@TARGET builds the library of a crate that is
# proved already for another target than x86-64. Each line of the toolchain is written as "CRATE said LINE", and then the status as
# "CRATE ended STATUS". Called by build.sh.
set -u
top=$(cd "${BASH_SOURCE[0]%/*}/.." && pwd)
# shellcheck source=tools/crates.sh
. "$top/tools/crates.sh"
crate=${1%@*}
target=${1#"$crate"}
target=${target#@}
room=$top/.build/$1

# Links a built library into the room, or copies it if the file system has no links.
put_library() {
  cp -al "$1" "$2" 2>/dev/null && return
  rm -rf "$2"
  cp -a "$1" "$2"
}

# Makes the room. What earlier builds of the crate left is moved there, or copied for another target: rt overwrites the archive.
make_room() {
  local part name
  list_crates "$crate"
  for name in "${crates[@]}"; do
    mkdir -p "$room/crates/$name"
    for part in src specs proofs; do
      [ ! -d "$top/crates/$name/$part" ] || cp -a "$top/crates/$name/$part" "$room/crates/$name/"
    done
    grep -E "^$name( |:)" "$top/crates.txt" >>"$room/crates.txt"
    [ "$name" != "$crate" ] || continue
    mkdir "$room/crates/$name/out"
    put_library "$top/crates/$name/out/rlib" "$room/crates/$name/out/rlib"
  done
  mkdir -p "$top/crates/$crate/out"
  if [ -n "$target" ]; then
    cp -a "$top/crates/$crate/out" "$room/crates/$crate/out"
  else
    mv "$top/crates/$crate/out" "$room/crates/$crate/out"
  fi
}

# Builds the library there for the target, and takes over the archive.
build_for_target() {
  local made=$top/crates/$crate/out/$target
  rt lib --target "$target-unknown-linux-gnu"
  mkdir -p "$made"
  cp "out/lib$crate.a" "$made/lib$crate.a.new"
  mv "$made/lib$crate.a.new" "$made/lib$crate.a"
}

# Builds the crate there. `rt run` links a program and then runs it, so it is asked for its help.
build_there() {
  set -e
  make_room
  cd "$room/crates/$crate"
  if [ -n "$target" ]; then build_for_target; elif [ -e src/main.rt ]; then rt run -- --help; else rt lib; fi
}

build_there </dev/null 2>&1 | while IFS= read -r line; do printf '%s said %s\n' "$1" "${line:0:1000}"; done
printf '%s ended %s\n' "$1" "${PIPESTATUS[0]}"
