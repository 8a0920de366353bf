#!/usr/bin/env bash
# SPDX-License-Identifier: MIT
# Carries out scripts by two programs, and compares what they write: `script` of this folder, over the engine, and `pobj_run`,
# which is proved to write what docs/SCRIPTS.md says. The scripts are those of examples/, cases/ and comparison/differences/,
# and N random ones of the SEED (by default 200 of seed 1).
#
#     gcc -std=c11 -O2 -Iinclude -o script bindings/c/tests/scripts/*.c libpobj.a
#     bindings/c/tests/scripts/compare.sh ./script crates/pobj_run/out/pobj_run 10000
#
# The last line is 'N passed, M failed, K skipped'. The exit status is 0 if none failed. A script is skipped if it has a fault,
# or asks for something that the engine lacks: another service order than the textual one, or queues without room (max 0).
set -u
if [ $# -lt 2 ] || [ $# -gt 4 ]; then
  echo "usage: compare.sh SCRIPT_PROGRAM POBJ_RUN_PROGRAM [N [SEED]]" >&2
  exit 2
fi
script=$1
pobj_run=$2
number=${3:-200}
seed=${4:-1}
here=$(cd "$(dirname "${BASH_SOURCE[0]}")" && pwd)
top=$(cd "$here/../../../.." && pwd)
scratch=$(mktemp -d)
passed=0 failed=0 skipped=0

# How long a program may compute for one script, in seconds.
limit=5
# What a script may ask for that the engine lacks.
lacking='^ *unit .* (oldest|rotating)( |$)|^ *unit .* max +0+ *$'

# Counts a failure, and says what is wrong with the script.
fail() {
  failed=$((failed + 1))
  echo "$1: $2"
}

# Carries out the script by both programs.
run_both() {
  (ulimit -t "$limit" && exec "$script" <"$1" >"$scratch/ours" 2>"$scratch/ours_said")
  ours=$?
  (ulimit -t "$limit" && exec "$pobj_run" run <"$1" >"$scratch/theirs" 2>"$scratch/theirs_said")
  theirs=$?
}

# Whether the program was right to skip the script.
may_be_skipped() {
  [ ! -s "$scratch/ours" ] && { [ "$theirs" -eq 1 ] || grep -aqE "$lacking" "$1"; }
}

# Counts a script that was carried out.
compare_answers() {
  if [ "$ours" -ne 0 ] || [ "$theirs" -ne 0 ]; then
    fail "$1" "statuses $ours and $theirs: $(head -qn 1 "$scratch/ours_said" "$scratch/theirs_said")"
  elif cmp -s "$scratch/ours" "$scratch/theirs"; then
    passed=$((passed + 1))
  else
    fail "$1" "the programs differ, < script, > pobj_run"
    diff "$scratch/ours" "$scratch/theirs" | head -n 9
  fi
}

compare() {
  run_both "$1"
  if [ "$ours" -ne 77 ]; then
    compare_answers "$1"
  elif may_be_skipped "$1"; then
    skipped=$((skipped + 1))
  else
    fail "$1" "skipped, which it may not be"
  fi
}

# Whether it is a script: a case about the command line only is empty, and has its words in a file beside it.
is_script() {
  [ -s "$1" ] || [ ! -e "${1%.pobj}.words" ]
}

# Keeps the random scripts if something failed, so that they can be looked at.
clean_up() {
  [ "$failed" -ne 0 ] || rm -rf "$scratch"
}

trap clean_up EXIT
if ! python3 "$here/random.py" "$scratch/random" "$number" "$seed"; then
  fail "$here/random.py" "no random scripts"
fi
files=("$top"/examples/*.pobj "$top"/cases/*.pobj "$top"/comparison/differences/*.pobj)
[ "$number" -eq 0 ] || files+=("$scratch"/random/*.pobj)
for file in "${files[@]}"; do
  if [ ! -e "$file" ]; then
    fail "$file" "no such script"
  elif is_script "$file"; then
    compare "$file"
  fi
done
[ "$failed" -eq 0 ] || echo "the random scripts are kept in $scratch/random"
echo "$passed passed, $failed failed, $skipped skipped"
[ "$failed" -eq 0 ]
