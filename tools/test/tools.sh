# SPDX-License-Identifier: MIT
# shellcheck shell=bash
# Tests of the parts of these tests: the scripts of Python, the counts of jobs, and the lines that say what runs. Also tests of
# the changes of GNAT's units. Read by `test`.

# Runs the tests of the scripts that count definitions, look for words, try wrong bodies, change units of GNAT's, show records
# of Ada programs and make scenes from them, make Ada programs from Ada texts, compare scenes, and compare with SPIN.
scripts_are_tested() {
  local name
  for name in walk words wrong_bodies change trace scene text_program scenes spin; do
    python3 "tools/test/${name}_test.py" >"$scratch/$name-test" 2>&1 || sed '$d' "$scratch/$name-test"
    count "$scratch/$name-test" "tools/test/${name}_test.py"
  done
}

# The changes of units of GNAT's have their places in GNAT 12.2 or 11.3, if it is there.
changes_fit() {
  if ! bindings/ada/make.sh --gnat >"$scratch/fit" 2>&1; then
    report "the changes of GNAT's units are skipped: $(cat "$scratch/fit")"
  elif bindings/ada/make.sh --sources "$scratch/sources" >"$scratch/fit" 2>&1; then
    pass
  else
    fail "bindings/ada/make.sh --sources: $(cat "$scratch/fit")"
  fi
}

# What `tests` counts for a crate if `rt try` says that two tests passed, and ends with this status.
counted_with() {
  local scratch=$scratch/mock-$1 passed=0 failed=0 job=mock
  mkdir -p "$scratch/bin" "$scratch/now" "$scratch/crates/mock/src"
  printf '#!/bin/sh\necho "test result: ok. 2 passed; 0 failed; 0 ignored"\nexit %s\n' "$1" >"$scratch/bin/rt"
  chmod +x "$scratch/bin/rt"
  cd "$scratch" || return
  PATH=$scratch/bin:$PATH tests mock >/dev/null
  say_count
}

# Jobs of a kind that count two checks, one of which fails in the job `bad`.
mock_job() {
  pass
  if [ "$1" = bad ]; then fail "wanted here"; else pass; fi
}

# What is said at the end of three jobs, two side by side and one alone.
said_of_jobs() {
  local scratch=$scratch/mock-jobs passed=0 failed=0 kinds=()
  local -A passed_of=() failed_of=()
  mkdir -p "$scratch/now"
  check_side_by_side 2 "mock_job good" "mock_job bad"
  check mock_job good
  say_kinds
  say_count
}

# The line that says what runs, when one of two side-by-side jobs has ended and the other has done one of three steps.
said_of_run() {
  local scratch=$scratch/mock-run job="tests of mock" SECONDS=61
  mkdir -p "$scratch/now"
  echo 2 >"$scratch/jobs"
  echo pages >"$scratch/ended"
  printf 'tests: 3\ntest a::b ... ok\n' >"$scratch/said"
  steps_in 3 "$scratch/said"
  show_now 2>&1
}

tools() {
  scripts_are_tested
  changes_fit
  same "$(counted_with 0)" "2 passed, 0 failed" "tests of which rt try ends with status 0"
  same "$(counted_with 3)" "2 passed, 1 failed" "tests of which rt try ends with status 3"
  same "$(said_of_jobs)" $'FAILED: wanted here\nmock job: 5 passed, 1 failed\n5 passed, 1 failed' "three jobs"
  same "$(said_of_run)" "1 of 2 are done; now tests of mock (1 of 3); 1 min 1 s" "the line that says what runs"
}
