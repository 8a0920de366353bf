# SPDX-License-Identifier: MIT
# shellcheck shell=bash
# The proved library, called from C and from Ada: the tests and examples of bindings/c, scripts that a C program carries out, and the
# archive, built twice; the runtime for Ada, and scripts that its tasks carry out. Read by `test`, which sets `top`.

# Runs a command, shows what failed and what was skipped, and counts its last line. The first words are the file for what it writes
# and its name in messages.
count_clients() {
  local file=$1 name=$2
  shift 2
  steps_in many "$file"
  "$@" >"$file" 2>&1
  clear_line
  grep -vE '^passed: ' "$file"
  count "$file" "$name"
}

# Builds the archive again, in another folder, and compares the bytes.
same_bytes() {
  copy_crates "$scratch/again"
  (cd "$scratch/again/crates/po_c" && rt lib) >"$scratch/again.log" 2>&1 || fail "po_c could not be built once more"
  if cmp -s crates/po_c/out/libpo_c.a "$scratch/again/crates/po_c/out/libpo_c.a"; then
    pass
  else
    fail "two builds of libpo_c.a differ"
  fi
}

# Tries the packed runtime for Ada, if GNAT is there.
packed_ada() {
  if ! command -v gnatmake >/dev/null; then
    report "the packed runtime for Ada is skipped: there is no gnatmake"
  elif (cd "$scratch" && env -i "PATH=$2" "$1/bin/pobj" ada --check >"$scratch/packed" 2>&1); then
    pass
  else
    fail "the packed runtime for Ada: $(cat "$scratch/packed")"
  fi
}

# Draws pictures of a script and of a scene with what is packed.
packed_picture() {
  env -i "PATH=$2" "$1/bin/pobj" explore examples/scenes/crossed.scene --picture "$scratch/packed-found" >/dev/null 2>&1
  if cmp -s "$scratch/packed-found/1.svg" docs/pictures/crossed.svg; then pass; else fail "the packed pobj draws another picture of a scene"; fi
  if env -i "PATH=$2" "$1/bin/pobj" picture examples/relay.pobj | cmp -s - docs/pictures/relay.svg; then pass; else fail "the packed pobj draws another picture"; fi
}

# Tries what `pobj dist` packs, in a folder with punctuation in its name and with no toolchain in the path: it runs a script, its example is
# compiled, and an Ada program runs over its runtime.
unpacked() {
  local to="$scratch/dist, a&b" bare=/usr/bin:/bin
  put_all "$to"
  if env -i PATH=$bare "$to/bin/pobj" run <examples/allocator.pobj | cmp -s - examples/allocator.out; then pass; else fail "the packed pobj doesn't run a script"; fi
  if env -i PATH=$bare gcc -std=c11 "-I$to/include" "$to/share/pobj/examples/buffer.c" "-L$to/lib" -lpobj -lpthread -o "$scratch/buffer" \
    && "$scratch/buffer" | cmp -s - "$to/share/pobj/examples/buffer.out"; then pass; else fail "the packed library doesn't run its example"; fi
  packed_ada "$to" "$bare"
  packed_picture "$to" "$(dirname "$(python3 -c 'import sys; print(sys.executable)')"):$bare"
  if (cd "$to" && sha256sum --quiet -c SHA256SUMS); then pass; else fail "the packed sums differ"; fi
}

# Counts the good rows of a table of ./compare, which ends with status 0 if all rows are good.
count_rows() {
  local status=0
  ./compare "${@:2}" >"$scratch/rows" 2>"$scratch/rows.faults" || status=$?
  passed=$((passed + $(grep -cE "$1" "$scratch/rows")))
  [ "$status" -eq 0 ] || fail "./compare ${*:2} ended with status $status: $(cat "$scratch/rows" "$scratch/rows.faults")"
}

# If GNAT is there, runs the tests of bindings/ada, Ada programs, scripts that GNAT's tasks carry out over the engine (those of
# examples/ada also without it), scripts and random orders of three scenes, and counts the instructions of calls.
ada_clients() {
  local scene
  if ! command -v gnatmake >/dev/null; then
    report "the Ada tests are skipped: there is no gnatmake"
    return
  fi
  count_clients "$scratch/ada-tests" "the Ada tests" bindings/ada/tests/run.sh "$scratch/lib" "$scratch/ada"
  export POBJ=$top/crates/pobj_run/out/pobj_run
  count_rows ' (same|not expressible)' scripts over "$scratch/ada"
  count_rows ' (same|not expressible)' texts
  count_rows ' (same|not expressible)' texts over "$scratch/ada"
  count_rows '  same +same$' ada "$scratch/ada"
  count_rows '^\| `[a-z]+` .* [0-9]+ \|$' ada instructions "$scratch/ada"
  export -n POBJ
  for scene in forks pool starved_writer; do
    count_rows '^(same|20 of 20 random orders agree .*)$' explore "examples/scenes/$scene.scene"
  done
  ada_rows_for_gnat_11 "$scratch/lib"
}

# If a C compiler is there, runs all of bindings/c/tests over the library that the proofs built, and then what else uses it.
clients() {
  if ! command -v gcc >/dev/null || [ ! -e crates/po_c/out/libpo_c.a ]; then
    report "the C tests are skipped: there is no gcc, or no library"
    return
  fi
  mkdir -p "$scratch/lib"
  put_archive "$scratch/lib"
  count_clients "$scratch/c-tests" "the C tests" bindings/c/tests/run.sh "$scratch/lib"
  gcc -std=c11 -O2 -Iinclude bindings/c/tests/scripts/*.c "$scratch/lib/libpobj.a" -o "$scratch/script" || fail "the C program of scripts can't be built"
  count_clients "$scratch/c-scripts" "scripts by a C program" bindings/c/tests/scripts/compare.sh "$scratch/script" crates/pobj_run/out/pobj_run 1000
  unpacked
  same_bytes
  ada_clients
}
