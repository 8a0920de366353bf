# SPDX-License-Identifier: MIT
# shellcheck shell=bash
# The #[test] functions of the crates, and programs that are tests alone, run with a check at each operation and no proof. Read by
# `test`.

# The programs that are tests alone: each reads Ada texts from its file stdin.
text_tests=(test_texts test_hints test_syntax)

# The crates that have tests, those with the most tests first.
crates_with_tests() {
  grep -rcE '^ *#\[test\]$' --include='*.rt' crates/*/src \
    | awk -F '[/:]' '$NF { tests[$2] += $NF } END { for (name in tests) print tests[name], name }' \
    | sort -k 1,1nr -k 2 | cut -d ' ' -f 2
}

# How many jobs go side by side: at most four, since a trial takes at least a gigabyte of memory.
most_tries() {
  local most
  most=$(nproc)
  echo $((most < 4 ? most : 4))
}

# Runs the tests of a crate. They also fail if `rt try` ends with a status other than 0, whatever it counts.
tests() {
  local status=0
  steps_in "$(grep -rhE '^ *#\[test\]$' "crates/$1/src" | wc -l)" "$scratch/tests-$1"
  (cd "crates/$1" && rt try --test --seconds 300) >"$scratch/tests-$1" 2>&1 || status=$?
  sed -nE 's/^test result: .* ([0-9]+ passed); ([0-9]+ failed);.*/\1, \2/p' "$scratch/tests-$1" >"$scratch/counts-$1"
  count "$scratch/counts-$1" "rt try --test in $1"
  [ "$status" -eq 0 ] || fail "rt try --test in $1 ended with status $status: $(cat "$scratch/tests-$1")"
}

# Runs such a program. It has to write what its file stdout has.
program() {
  local words=()
  [ ! -f "crates/$1/args" ] || mapfile -t words <"crates/$1/args"
  (cd "crates/$1" && rt try --seconds 600 -- "${words[@]}" <stdin) >"$scratch/program-$1" 2>"$scratch/said-$1"
  if cmp -s "crates/$1/stdout" "$scratch/program-$1"; then
    pass
  else
    fail "crates/$1 doesn't write what its file stdout has: $(diff "crates/$1/stdout" "$scratch/program-$1" | head -n 20) $(tail -n 3 "$scratch/said-$1")"
  fi
}

# Whether the files of a crate are laid out as by `rt fmt`.
layout() {
  local copy=$scratch/layout/$1
  mkdir -p "$copy"
  tar -C "crates/$1" -c --exclude=./out . | tar -x -C "$copy"
  (cd "$copy" && rt fmt >/dev/null 2>&1)
  if diff -r --exclude=out "crates/$1" "$copy" >"$scratch/layout-$1"; then
    pass
  else
    fail "crates/$1 isn't as rt fmt lays it out: $(head -n 5 "$scratch/layout-$1")"
  fi
}

# Whether the scenes of two and of three threads end as every_order.out says, in every order: five minutes with the built program.
schedules() {
  steps_in "$(wc -l <tools/test/every_order.out)" "$scratch/schedules"
  crates/test_schedules/out/test_schedules all >"$scratch/schedules" 2>&1
  if cmp -s "$scratch/schedules" tools/test/every_order.out; then
    pass
  else
    fail "test_schedules all doesn't write what tools/test/every_order.out has: $(diff "$scratch/schedules" tools/test/every_order.out | head -n 5)"
  fi
}

every_order() { check schedules; }
