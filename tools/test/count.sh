# SPDX-License-Identifier: MIT
# shellcheck shell=bash
# What passed and what failed, in all and of each kind. Read by `test`, which sets `scratch`.

passed=0
failed=0
kinds=()
declare -A passed_of=() failed_of=()

pass() { passed=$((passed + 1)); }
say_count() { echo "$passed passed, $failed failed"; }

# On a terminal, clears the line that says what runs (jobs.sh).
clear_line() { [ ! -t 2 ] || printf '\r\033[K' >&2; }

# Writes a line to standard output.
report() {
  clear_line
  echo "$*"
}

fail() {
  failed=$((failed + 1))
  report "FAILED: $*"
}

# Checks that two texts are the same. The last word says what they are.
same() {
  if [ "$1" = "$2" ]; then pass; else fail "$3: '$1', wanted '$2'"; fi
}

# Adds the counts of the last line 'N passed, M failed' in the file, which this command wrote.
count() {
  local line
  line=$(grep -E '^[0-9]+ passed, [0-9]+ failed' "$1" | tail -n 1)
  if [ -z "$line" ]; then
    fail "$2 gave no closing line"
    return
  fi
  passed=$((passed + ${line%% passed*}))
  line=${line#*, }
  failed=$((failed + ${line%% failed*}))
}

# Notes how many checks of this kind passed and failed.
note_kind() {
  [[ -v "passed_of[$1]" ]] || kinds+=("$1")
  passed_of[$1]=$((${passed_of[$1]-0} + $2))
  failed_of[$1]=$((${failed_of[$1]-0} + $3))
}

# Says for each kind how many checks passed and failed.
say_kinds() {
  local kind
  for kind in "${kinds[@]}"; do
    echo "$kind: ${passed_of[$kind]} passed, ${failed_of[$kind]} failed"
  done
}
