# SPDX-License-Identifier: MIT
# shellcheck shell=bash
# The proofs of the crates from scratch: `rt ci` over a copy, and then the wrong bodies over what it kept. Read by `test`.

# The crates whose wrong bodies were all refused, each with the sum of its files at that time.
tested=tools/test/tested.txt

# The sum of a crate's files and of its wrong bodies.
sum_of() {
  (cd "crates/$1" && find src specs proofs must-fail -type f 2>/dev/null | LC_ALL=C sort | xargs sha256sum | sha256sum | cut -c1-16)
}

# Whether the crate is unchanged since its wrong bodies were refused.
is_tested() { grep -qx "$1 $(sum_of "$1")" "$tested" 2>/dev/null; }

# The names of the crates of crates.txt.
crate_names() { sed -nE 's/^([a-z_0-9]+).*:.*/\1/p' crates.txt; }

# Copies the crates into a folder, without what was built, and without the wrong bodies, which are tried later.
copy_crates() {
  mkdir -p "$1/.git" "$1/crates"
  cp crates.txt HANDLES "$1/"
  tar -c --exclude='crates/*/out' --exclude='crates/*/must-fail' crates | tar -x -C "$1"
}

# The crates with wrong bodies that changed since these were refused.
changed_crates() {
  local name
  for name in $(crate_names); do
    if [ -d "crates/$name/must-fail" ] && ! is_tested "$name"; then echo "$name"; fi
  done
}

# Whether a crate has only tests that `./test` runs, and nothing depends on it: in form a library, or a program of tests.sh.
is_tests_alone() { [[ " ${text_tests[*]} " == *" $1 "* || $1 == test_* && -f crates/$1/src/lib.rt ]]; }

# Removes from the copy the crates that have only tests: `./test` has run them, with a check at each operation.
leave_out_tests() {
  local name
  for name in $(crate_names); do
    if is_tests_alone "$name"; then
      rm -rf "$1/crates/$name"
      sed -i "/^$name\b/d" "$1/crates.txt"
    fi
  done
}

# Proves what is in the copy, runs its programs and its tests, and takes over the programs and the library for C. `rt ci` says itself
# what runs.
proofs() {
  local status name copy=$scratch/$1
  rm "$scratch/now/$job"
  (cd "$copy" && rt ci 2>&1) | sed -u "s,$copy/,,g" | tee "$scratch/proofs"
  status=${PIPESTATUS[0]}
  steps_in ""
  count "$scratch/proofs" "rt ci"
  [ "$status" -eq 0 ] || fail "rt ci ended with status $status"
  python3 tools/test/keep_libraries.py "$copy" || fail "what rt ci built isn't noted"
  for name in "$copy"/crates/*/out/; do
    name=$(basename "$(dirname "$name")")
    [ ! -x "$copy/crates/$name/out/$name" ] || take_over "$copy" "$name"
  done
  build_archive "$copy"
}

# Builds the archive of the library for C in the copy, over what was proved there, and copies it here.
build_archive() {
  mkdir -p crates/po_c/out
  if (cd "$1/crates/po_c" && rt lib) >"$scratch/archive" 2>&1; then
    cp "$1/crates/po_c/out/libpo_c.a" crates/po_c/out/
  else
    fail "the library for C wasn't built: $(tail -n 3 "$scratch/archive")"
  fi
}

# Copies a program here that was built in the copy.
take_over() {
  mkdir -p "crates/$2/out"
  cp "$1/crates/$2/out/$2" "crates/$2/out/$2.new"
  mv "crates/$2/out/$2.new" "crates/$2/out/$2"
  rm -f "crates/$2/out/$2.begun"
}

# How many wrong bodies a crate has.
edits_of() { find "crates/$1/must-fail" -name '*.edit' 2>/dev/null | wc -l; }

# Tries the wrong bodies of the crates, half of them in the copy in which all was proved, the others side by side in a second copy: a
# crate that is tried must not depend on a wrong body.
refuse() {
  local name half
  [ $# -gt 0 ] || return 0
  cp -a "$scratch/copy" "$scratch/copy-2"
  declare -gA crates_in=() edits_in=([copy]=0 [copy-2]=0)
  for name; do
    half=copy
    [ "${edits_in[copy-2]}" -ge "${edits_in[copy]}" ] || half=copy-2
    crates_in[$half]+=" $name"
    edits_in[$half]=$((${edits_in[$half]} + $(edits_of "$name")))
  done
  check_side_by_side 2 "wrong_bodies copy" "wrong_bodies copy-2"
}

# Tries the wrong bodies of the crates whose half is tried in this copy.
wrong_bodies() {
  local crates=${crates_in[$1]-}
  [ -n "$crates" ] || return 0
  steps_in "${edits_in[$1]}" "$scratch/refused-$1"
  # shellcheck disable=SC2086
  python3 tools/test/wrong_bodies.py --in "$scratch/$1" $crates >"$scratch/refused-$1" 2>&1
  cat "$scratch/refused-$1"
  count "$scratch/refused-$1" "wrong bodies of$crates"
}

# All proofs, with the wrong bodies of the crates that changed since these were refused.
prove_changed() {
  copy_crates "$scratch/copy"
  leave_out_tests "$scratch/copy"
  check proofs copy
  # shellcheck disable=SC2046
  refuse $(changed_crates)
}

# All proofs, and all wrong bodies. If all are refused, that is noted.
prove_all() {
  copy_crates "$scratch/copy"
  leave_out_tests "$scratch/copy"
  check proofs copy
  # shellcheck disable=SC2046
  refuse $(crate_names)
  # shellcheck disable=SC2046
  if [ "$failed" -eq 0 ]; then note_refused $(crate_names); fi
}

# All proofs, also those of the crates that have only tests.
prove_tests() {
  copy_crates "$scratch/copy"
  check proofs copy
}

# Tries the wrong bodies of these crates, or of all, and notes each crate whose wrong bodies are all refused.
try_wrong_bodies() {
  local name before
  # shellcheck disable=SC2046
  [ $# -gt 0 ] || set -- $(crate_names)
  for name; do
    before=$failed
    python3 tools/test/wrong_bodies.py "$name" >"$scratch/refused" 2>&1
    cat "$scratch/refused"
    count "$scratch/refused" "wrong bodies of $name"
    [ "$failed" -gt "$before" ] || note_refused "$name"
  done
}

# Notes that all wrong bodies of these crates were refused.
note_refused() {
  local name kept
  for name; do
    kept=$(grep -v "^$name " "$tested")
    printf '%s\n%s\n' "$kept" "$name $(sum_of "$name")" >"$tested"
  done
}
