#!/usr/bin/env bash
# SPDX-License-Identifier: MIT
# Redraws the pictures of the pages, docs/pictures/*.svg, and those of the scripts of examples/ and comparison/differences/ that
# the words name. The built program carries out the scripts, or if there is none, one trial of its sources.
set -eu
cd "$(dirname "$0")/.."
top=$PWD
room=$(mktemp -d)
trap 'rm -rf "$room"' EXIT
# shellcheck source=tools/crates.sh
. tools/crates.sh
# shellcheck source=tools/kit.sh
. tools/kit.sh
find_kit

# Lays out copies of the scripts that also ask for the state.
lay_out() {
  local name
  mkdir -p "$room/cases" docs/pictures
  for name; do
    python3 tools/picture/pages.py asking "$name" >"$room/cases/$name"
  done
}

# Writes what the program answers to each copy into docs/pictures/NAME.out.
carry_out() {
  local file
  list_crates pobj_run
  if is_fresh pobj_run; then
    path_of pobj_run
    for file in "$room"/cases/*; do
      "$path" run <"$file" >"docs/pictures/${file##*/}.out"
    done
  else
    (cd crates/pobj_run && rt try --seconds 120 --cases "$room/cases" -- run) >"$room/answers"
    awk '/^== / { file = "docs/pictures/" $2 ".out"; printf "" >file; next } { print >file }' "$room/answers"
  fi
}

names=$(find docs/pictures -name '*.out' -printf '%f\n' 2>/dev/null | sed 's/\.out$//')
# shellcheck disable=SC2086
lay_out $names "$@"
carry_out
python3 tools/picture/pages.py draw
