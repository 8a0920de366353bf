#!/usr/bin/env bash
# SPDX-License-Identifier: MIT
# Carries out scripts by one trial of pobj's sources, which proves nothing, unless the program is built: trial.sh ROOM [TEXT..]. The
# scripts are the files of ROOM/cases. If there are Ada texts, each script NAME is on the protected object of one of them: NAME.args
# has pobj's words, with the text N as N/FILE, from 0. If NAME.ads and NAME.adb are both there, they are one text. ROOM/answers gets
# the answers to each after a line "== NAME", and ROOM/said a line "case=NAME run=ended status=STATUS .." for each. Statuses of its
# own: 3, the program is built, or isn't there; 6, there is no rt.
set -eu
top=$(cd "${BASH_SOURCE[0]%/*}/.." && pwd)
# shellcheck source=tools/crates.sh
. "$top/tools/crates.sh"
# shellcheck source=tools/kit.sh
. "$top/tools/kit.sh"

# The most seconds that the program may take for one script.
most_seconds=120

say() { echo "compare: $*" >&2; }

program=pobj_run
words=(-- run)
data=()
room=$1
shift
place=0
for text; do
  program=pobj_text
  words=()
  for file in "$text" "${text%.adb}.ads" "${text%.ads}.adb"; do
    [ ! -f "$file" ] || data+=(--data "$place/${file##*/}=$(readlink -f "$file")")
  done
  place=$((place + 1))
done
[ -d "$top/crates/$program" ] || exit 3
list_crates "$program"
! is_fresh "$program" || exit 3
find_kit
command -v rt >/dev/null || exit 6
say "pobj isn't built, so this is an unproved trial of its sources, which takes a minute or two; './pobj build' proves and builds it"
cd "$top/crates/$program"
exec rt try --seconds "$most_seconds" "${data[@]}" --cases "$room/cases" "${words[@]}" >"$room/answers" 2>"$room/said"
