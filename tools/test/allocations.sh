# SPDX-License-Identifier: MIT
# shellcheck shell=bash
# The program that is refused memory. Read by `test`.

# Runs the program test_memory on a share of the inputs, and refuses its allocation number $most each time. What each run writes
# goes to a file of its own.
run_share() {
  (cd crates/test_memory && rt try --fail-alloc "$most" --cases "$work/inputs-$1") >"$work/memory-$1" 2>"$work/notes-$1"
  awk -v to="$work/outputs/" '/^== / { file = to $2; next } { print > file }' "$work/memory-$1"
}

# Lays out the inputs in shares, as many as there are processors, and runs the program on all.
run_shares() {
  local n share shares pids=()
  shares=$(nproc)
  for n in $(seq 1 "$most"); do
    share=$work/inputs-$((n % shares))
    mkdir -p "$share"
    head -c "$((most - n))" /dev/zero >"$share/$(printf '%03d' "$n")"
  done
  for share in $(seq 0 $((shares - 1))); do
    run_share "$share" &
    pids+=($!)
  done
  wait "${pids[@]}"
}

# Runs the program test_memory with each of its allocations refused in turn; it makes fewer than $most. The refused
# allocation is always number $most. But first the program makes an allocation for each byte of its input, so the input's length
# decides which of the allocations that count is refused. Each run has to print what it prints with all its
# memory, except that memory ran out once. In the last run the refused allocation comes after all those that count.
refused_memory() {
  local most=440 work=$scratch/allocations n name
  mkdir -p "$work/outputs"
  steps_in "$most" "$work/memory-*"
  run_shares
  sed 's/^refused 0, /refused 1, /' crates/test_memory/stdout >"$work/refused"
  sed 's/^some more taken$/some more refused/' crates/test_memory/stdout >"$work/after"
  for n in $(seq 1 "$most"); do
    name="$work/outputs/$(printf '%03d' "$n")"
    if cmp -s "$name" "$work/refused"; then
      pass
    elif [ "$n" -gt 1 ] && cmp -s "$name" "$work/after"; then
      return
    else
      fail "allocation $n refused in test_memory"
      diff "$work/refused" "$name"
      cat "$work"/notes-*
      return
    fi
  done
  fail "each of $most runs of test_memory met a refusal: it makes more allocations than that"
}
