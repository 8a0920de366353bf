# SPDX-License-Identifier: MIT
# shellcheck shell=bash
# The library for aarch64: its archive is built twice, its tests run under qemu, and so does the example without an operating system,
# which runs on x86-64, too. Read by `test`, after library.sh and clients.sh.

# What the tests on aarch64 need: each program, and Debian's package of it.
needed_for_aarch64="aarch64-linux-gnu-gcc:gcc-aarch64-linux-gnu qemu-aarch64:qemu-user qemu-system-aarch64:qemu-system-arm"

# Prints the packages whose programs aren't there.
lacking_packages() {
  local pair
  for pair in $needed_for_aarch64; do
    command -v "${pair%:*}" >/dev/null || echo "${pair#*:}"
  done
  [ -e /usr/aarch64-linux-gnu/lib/libc.a ] || echo libc6-dev-arm64-cross
}

# Builds the archive for aarch64 in a copy of the crates in which everything is proved.
build_for_aarch64() {
  (cd "$scratch/$1/crates/po_c" && rt lib --target aarch64-unknown-linux-gnu) >"$scratch/$1-aarch64" 2>&1 \
    || fail "po_c wasn't built for aarch64: $(tail -n 3 "$scratch/$1-aarch64")"
}

# Builds it in both copies, in which x86-64's was built, compares the bytes, and copies it here.
same_bytes_for_aarch64() {
  build_for_aarch64 copy
  build_for_aarch64 again
  if cmp -s "$scratch/copy/crates/po_c/out/libpo_c.a" "$scratch/again/crates/po_c/out/libpo_c.a"; then pass; else fail "two builds of libpo_c.a for aarch64 differ"; fi
  mkdir -p crates/po_c/out/aarch64
  cp "$scratch/copy/crates/po_c/out/libpo_c.a" crates/po_c/out/aarch64/
}

# What the proved object needs from outside: three memory functions, three of the C library, and no more.
asks_for_six() {
  same "$(nm -u "$(proved_for "$1")" | awk 'NF == 2 { print $2 }' | LC_ALL=C sort | tr '\n' ' ')" \
    "memcpy memmove memset rattle_alloc rattle_dealloc rattle_realloc " "what the object for $1 asks for"
}

# Runs the C tests, and scripts, under the emulator.
tests_by_emulator() {
  local program=$scratch/script-aarch64
  mkdir -p "$scratch/lib-aarch64"
  put_archive "$scratch/lib-aarch64" aarch64
  count_clients "$scratch/c-tests-aarch64" "the C tests on aarch64" bindings/c/tests/run.sh "$scratch/lib-aarch64" aarch64-linux-gnu-gcc qemu-aarch64
  aarch64-linux-gnu-gcc -std=c11 -O2 -static -Iinclude bindings/c/tests/scripts/*.c "$scratch/lib-aarch64/libpobj.a" -o "$program" \
    || fail "the C program of scripts can't be built for aarch64"
  printf '#!/bin/sh\nexec qemu-aarch64 %s\n' "$program" >"$program.run"
  chmod +x "$program.run"
  count_clients "$scratch/c-scripts-aarch64" "scripts by a C program on aarch64" bindings/c/tests/scripts/compare.sh "$program.run" crates/pobj_run/out/pobj_run 100
}

# The size of the code in an object or a program, with constants and tables for unwinding.
size_of() { size "$1" | awk 'END { print $1 }'; }

# A number in what the example wrote: number_after TEXT FILE.
number_after() { sed -n "s/^$1: //p" "$2"; }

# Prints a row of the table in docs/C.md: the target and these numbers.
row_of() {
  local cell row="| $1 |"
  for cell in "${@:2}"; do
    row+=" $(sed -E ':again; s/([0-9])([0-9]{3})(,|$)/\1,\2\3/; t again' <<<"$cell") |"
  done
  echo "$row"
}

# Says how much the example in this folder takes, which wrote this file, and compares that with docs/C.md. The example's code and
# stack depend on the compiler: they are compared if it is the one that the page names.
compare_sizes() {
  local target=$1 to=$2 said=$3 numbers
  numbers=("$(size_of "$to/lib/pobj.o")" "$(size_of "$to/share/pobj/bare/control")" "$(number_after 'arena bytes' "$said")"
    "$(number_after 'stack bytes, to make the objects' "$said")" "$(number_after 'stack bytes, in the loop' "$said")")
  report "$target, without an operating system: ${numbers[0]} bytes in pobj.o, ${numbers[1]} of the example's code, ${numbers[2]} of its arena;" \
    "of its stack ${numbers[3]} to make its objects, ${numbers[4]} in its loop"
  [[ $("$(tool_for "$target" gcc)" -dumpfullversion) == 12.2.* ]] || numbers=("${numbers[0]}")
  if grep -qF "$(row_of "$target" "${numbers[@]}")" docs/C.md; then pass; else fail "docs/C.md has other numbers than: $(row_of "$target" "${numbers[@]}")"; fi
}

# Builds the example without an operating system, runs it, and compares what it writes and takes: bare TARGET RUNNER..
bare() {
  local target=$1 to="$scratch/bare-$1" said="$scratch/bare-$1.said"
  put_bare "$to" "$target"
  if "$to/share/pobj/bare/build.sh" >"$said" 2>&1 && timeout 60 "${@:2}" "$to/share/pobj/bare/control" >"$said" 2>&1 \
    && grep -v '^stack bytes' "$said" | cmp -s - bindings/c/tests/control.out; then
    pass
    compare_sizes "$target" "$to" "$said"
  else
    fail "the example without an operating system, for $target: $(cat "$said")"
  fi
}

# Tries what `pobj dist --target aarch64` packs: its sums, and its example under the emulator.
unpacked_for_aarch64() {
  local to=$scratch/dist-aarch64
  put_all "$to" aarch64
  if (cd "$to" && sha256sum --quiet -c SHA256SUMS); then pass; else fail "the packed sums for aarch64 differ"; fi
  if aarch64-linux-gnu-gcc -std=c11 -static "-I$to/include" "$to/share/pobj/examples/buffer.c" "-L$to/lib" -lpobj -lpthread -o "$scratch/buffer-aarch64" \
    && qemu-aarch64 "$scratch/buffer-aarch64" | cmp -s - "$to/share/pobj/examples/buffer.out"; then pass; else fail "the packed library for aarch64 doesn't run its example"; fi
}

# All of this, as far as the packages are there. The copies in which everything is proved are those of proofs.sh and of `same_bytes`.
targets() {
  local lacking
  if [ ! -d "$scratch/copy" ] || [ ! -d "$scratch/again" ]; then
    report "aarch64 is skipped: the library for x86-64 wasn't built twice"
    return
  fi
  same_bytes_for_aarch64
  asks_for_six x86_64
  asks_for_six aarch64
  bare x86_64 env
  lacking=$(lacking_packages | tr '\n' ' ')
  if [ -n "$lacking" ]; then
    report "the tests on aarch64 are skipped: there is no package $lacking"
    return
  fi
  tests_by_emulator
  bare aarch64 qemu-system-aarch64 -M virt -cpu cortex-a53 -nographic -nic none -semihosting -kernel
  unpacked_for_aarch64
  ada_rows_for_targets "$scratch/lib-aarch64"
}
