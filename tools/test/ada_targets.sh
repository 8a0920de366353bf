# SPDX-License-Identifier: MIT
# shellcheck shell=bash
# The Ada tests over another GNAT, and over a processor that qemu emulates, if these are there. Read by `test`, after clients.sh.

# Runs the Ada tests over GNAT 11, which tools/test/gnat_11.sh has unpacked into the folder that GNAT_11 names, with the libpobj.a of
# the folder.
ada_rows_for_gnat_11() {
  local gnat=${GNAT_11-}
  if [ ! -x "$gnat/usr/bin/gnatls-11" ]; then
    report "the Ada tests over GNAT 11 are skipped: GNAT_11 names no folder of tools/test/gnat_11.sh"
    return
  fi
  count_clients "$scratch/ada-11" "the Ada tests over GNAT 11" env "PATH=$gnat/usr/bin:$PATH" \
    "LD_LIBRARY_PATH=$gnat/usr/lib/x86_64-linux-gnu" bindings/ada/tests/run.sh "$1" "$scratch/ada-11-runtime"
}

# Prints the commands that the Ada tests for aarch64 lack here.
missing_for_aarch64() {
  local command
  for command in aarch64-linux-gnu-gnatmake qemu-aarch64; do
    command -v "$command" >/dev/null || printf ' %s' "$command"
  done
}

# Tries the runtime for Ada that `pobj dist --target aarch64` packs, if targets.sh has packed it.
packed_ada_for_aarch64() {
  local packed=$scratch/dist-aarch64/bin/pobj
  [ -x "$packed" ] || return 0
  if (cd "$scratch" && "$packed" ada --check >"$scratch/packed-aarch64" 2>&1); then
    pass
  else
    fail "the packed runtime for Ada on aarch64: $(cat "$scratch/packed-aarch64")"
  fi
}

# Runs the Ada tests over the folder's libpobj.a for aarch64, under qemu.
ada_rows_for_targets() {
  local missing
  missing=$(missing_for_aarch64)
  if [ -n "$missing" ]; then
    report "the Ada tests over aarch64 are skipped: these commands aren't there:$missing"
    return
  fi
  count_clients "$scratch/ada-aarch64" "the Ada tests over aarch64" bindings/ada/tests/run.sh "$1" "$scratch/ada-aarch64-runtime" \
    aarch64-linux-gnu- qemu-aarch64 -L /usr/aarch64-linux-gnu
  packed_ada_for_aarch64
}
