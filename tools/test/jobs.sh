# SPDX-License-Identifier: MIT
# shellcheck shell=bash
# Carries out jobs, and says every few seconds what runs now. A job is a line with a function and its words; the function's name is
# the kind of what it checks. Read by `test`, which sets `scratch`, after count.sh.

# How many seconds pass in a log between two lines that say what runs.
beat=5

# The lines that a job writes for its steps, in the file that it names to `steps_in`.
step='^(test .* \.\.\. |case=|== |passed: )|: refused$|^(FAILED|BAD): |: [0-9]+ schedules, '

elapsed() { echo "$((SECONDS / 60)) min $((SECONDS % 60)) s"; }

# Writes a line: on a terminal in place of the line before, and no wider than the terminal.
say_now() {
  local size width
  if [ -t 2 ]; then
    size=$(stty size <&2 2>/dev/null || true)
    width=${size#* }
    printf '\r\033[K%s' "${1:0:${width:-80}-1}" >&2
  else
    echo "$1" >&2
  fi
}

# Says how far a job is, from its number of steps ("many" if that isn't known) and the files that list its steps so far.
steps_of() {
  local total=$1 made
  shift
  [ -n "$total" ] || return 0
  made=$(cat "$@" 2>/dev/null | grep -cE "$step")
  if [ "$total" = many ]; then echo " ($made so far)"; else echo " ($made of $total)"; fi
}

# Says which jobs run now and how far each is, how many of them all have ended, and how much time has passed.
show_now() {
  local file total files line=""
  for file in "$scratch"/now/*; do
    # (it may end meanwhile)
    { read -r total files <"$file"; } 2>/dev/null || continue
    # shellcheck disable=SC2086
    line+=", ${file##*/}$(steps_of "$total" $files)"
  done
  [ -z "$line" ] || say_now "$(say_ended)now${line#,}; $(elapsed)"
}

# How many of the jobs that go side by side have ended.
say_ended() {
  [ ! -e "$scratch/jobs" ] || echo "$(wc -l <"$scratch/ended") of $(cat "$scratch/jobs") are done; "
}

# Begins to say what runs, until `end_beat`.
begin_beat() {
  local pause=$beat
  [ ! -t 2 ] || pause=1
  mkdir "$scratch/now"
  mkfifo "$scratch/beat"
  exec 7<>"$scratch/beat"
  # (it ends too if the test is killed)
  (until read -r -t "$pause" <&7 || ! kill -0 "$$" 2>/dev/null; do show_now; done) &
  follower=$!
}

end_beat() {
  echo >&7
  wait "$follower"
  clear_line
}

# The name that a job has in the lines that say what runs.
name_of() {
  local kind=${1%% *}
  echo "${kind//_/ }$([ "$kind" = "$1" ] || echo " of ${1#* }")"
}

# Notes how many steps the job that runs has ("many" if that isn't known), and the files to which it writes a line for each.
steps_in() { echo "$*" >"$scratch/now/$job"; }

# Carries out a job, and adds what it counts to its kind.
check() {
  local job passed_before=$passed failed_before=$failed
  job=$(name_of "$*")
  steps_in ""
  "$@"
  rm "$scratch/now/$job"
  note_kind "${1//_/ }" $((passed - passed_before)) $((failed - failed_before))
}

# Carries out a job beside others. Once it has ended, shows what it wrote, except its counts.
check_beside() {
  local job log=$scratch/log-${1// /-}
  job=$(name_of "$1")
  steps_in ""
  (
    passed=0 failed=0
    # shellcheck disable=SC2086
    $1
    say_count
  ) >"$log" 2>&1
  rm "$scratch/now/$job"
  echo "$job" >>"$scratch/ended"
  clear_line
  sed '$d' "$log"
  echo >&8
}

# Carries out jobs, at most this many side by side, in their order.
check_side_by_side() {
  local most=$1 line pids=()
  shift
  echo $# >"$scratch/jobs"
  : >"$scratch/ended"
  mkfifo "$scratch/ends"
  exec 8<>"$scratch/ends"
  for line; do
    [ "${#pids[@]}" -lt "$most" ] || read -r <&8
    check_beside "$line" &
    pids+=($!)
  done
  wait "${pids[@]}"
  exec 8>&-
  rm "$scratch/ends" "$scratch/jobs"
  for line; do
    count_job "$line"
  done
}

# Adds what a job that went beside others counted.
count_job() {
  local passed_before=$passed failed_before=$failed kind=${1%% *}
  count "$scratch/log-${1// /-}" "$1"
  note_kind "${kind//_/ }" $((passed - passed_before)) $((failed - failed_before))
}
