# SPDX-License-Identifier: MIT
# shellcheck shell=bash
# Proves and builds crates, side by side if none depends on the other, and says on standard error how far the build is. Read by
# `pobj`, after crates.sh.

# A build is silent for at most twice this many seconds.
beat=10
log=$top/.build.log
rooms=$top/.build

# Prints how long the build has taken.
since() { echo "$((SECONDS / 60)) min $((SECONDS % 60)) s"; }

# Says how far the build is: on a terminal in a line that the next one overwrites, otherwise on a new line.
show() {
  if [ -t 2 ]; then
    printf '\r\033[Kpobj: %s, %s' "$1" "$(since)" >&2
  else
    say "$1, $(since)"
  fi
}

# Clears that line of the terminal.
end_line() { [ ! -t 2 ] || printf '\r\033[K' >&2; }

# Whether one of the crates is in `todo`.
waits_for() {
  local crate
  for crate; do
    [[ " ${todo[*]-} " != *" $crate "* ]] || return 0
  done
  return 1
}

# Prints the file that the build of a crate makes.
built_of() {
  case $1 in
    po_c) echo "$top/crates/$1/out/lib$1.a" ;;
    *) echo "$top/crates/$1/out/rlib/stamp" ;;
  esac
}

# Whether a crate isn't built, or is older than its sources or its libraries. Programs always count as stale, since `build` leaves
# out fresh ones.
is_stale() {
  local built name
  [[ $1 != pobj_* ]] || return 0
  built=$(built_of "$1")
  for name in ${needs[$1]}; do
    [[ ! $(built_of "$name") -nt $built ]] || return 0
  done
  is_older "$built" "" "$1"
}

# Adds to `todo` the crates in `crates` that are stale, and those that depend on one of these.
list_todo() {
  local crate
  for crate in "${crates[@]}"; do
    # shellcheck disable=SC2086
    if waits_for ${needs[$crate]} || is_stale "$crate"; then todo+=("$crate"); fi
  done
}

# Puts the crates of `todo` that most others depend on first, so that the others seldom wait.
sort_todo() {
  local wanted=("${todo[@]}") crates crate other
  local -A above=()
  for crate in "${wanted[@]}"; do
    crates=()
    collect "$crate"
    for other in "${crates[@]}"; do
      above[$other]=$((${above[$other]-0} + 1))
    done
  done
  mapfile -t todo < <(for crate in "${wanted[@]}"; do echo "${above[$crate]} $crate"; done | sort -s -k 1,1nr | cut -d ' ' -f 2)
}

# Moves back what was made in the room of a crate, and removes the room.
leave_room() {
  local made=$rooms/$1/crates/$1/out
  [ -e "$top/crates/$1/out" ] || [ ! -e "$made" ] || mv "$made" "$top/crates/$1/out"
  rm -rf "${rooms:?}/$1"
}

# Removes all rooms: of this build, and of an earlier one that was killed.
leave_rooms() {
  local room
  for room in "$rooms"/*/; do
    [ ! -d "$room/crates" ] || leave_room "$(basename "$room")"
  done
  rm -rf "$rooms"
}

# Prints how many crates may be built at once: one fewer than there are processors, at most one for each 6 GB of free memory, and at
# least one.
most_at_once() {
  awk -v most=$(($(nproc) - 1)) '
    /^MemAvailable:/ { room = int($2 / 6000000); if (room < most) most = room }
    END { print most < 1 ? 1 : most }' /proc/meminfo
}

# Starts to build the crates of `todo` that depend on no other crate of `todo`. Each has a session of its own, so that all its
# processes can be told to stop.
begin_crates() {
  local crate
  for crate in "${todo[@]}"; do
    [ "${#sessions[@]}" -lt "$at_once" ] || return 0
    # shellcheck disable=SC2086
    if [[ ! -v "sessions[$crate]" ]] && ! waits_for ${needs[$crate]}; then
      setsid "$top/tools/room.sh" "$crate" >"$rooms/lines" 8<&- 9<&- &
      sessions[$crate]=$!
      steps[$crate]=""
    fi
  done
}

# Notes that a crate's build ended with this status. Fails if that isn't 0.
end_crate() {
  local other left=()
  wait "${sessions[$1]}" || true
  unset "sessions[$1]" "steps[$1]"
  leave_room "$1"
  if [ "$2" -ne 0 ]; then
    failed="rt in crates/$1 ended with status $2"
    return 1
  fi
  for other in "${todo[@]}"; do
    [ "$other" = "$1" ] || left+=("$other")
  done
  todo=("${left[@]}")
}

# Logs a line of the toolchain about a crate, and notes how many functions it says are proved.
take_line() {
  printf '%s: %s\n' "$1" "$2" >>"$log"
  [[ ! $2 =~ ^so\ far:\ ([0-9]+\ of\ [0-9]+)\ functions ]] || steps[$1]=" ${BASH_REMATCH[1]}"
}

# Shows which crates are being built, and how many functions of each are proved.
show_crates() {
  local crate shown=""
  for crate in "${!steps[@]}"; do
    shown+=", $crate${steps[$crate]}"
  done
  show "$((${#crates[@]} - ${#todo[@]})) of ${#crates[@]} crates are built; now${shown#,}"
  shown_at=$SECONDS
}

# Reads the lines that are written for the build until a crate's build ends, and returns as `end_crate` does. A signal is written
# there as a line too, since bash aborts if a trap calls `exit` inside `read`. When `read` times out, `line` keeps the part
# read so far.
follow() {
  local crate kind text part status
  while true; do
    status=0
    IFS= read -r -t "$pause" part <&8 || status=$?
    line+=$part
    if [ "$status" -eq 0 ]; then
      read -r crate kind text <<<"$line"
      line=""
      case $kind in
        said) take_line "$crate" "$text" ;;
        stopped) exit "$text" ;;
        ended)
          end_crate "$crate" "$text"
          return
          ;;
      esac
    fi
    [ $((SECONDS - shown_at)) -lt "$pause" ] || show_crates
  done
}

# Stops the builds that still run.
end_builds() {
  local session
  trap '' HUP INT TERM
  for session in "${sessions[@]}"; do
    kill -TERM -- "-$session" 2>/dev/null || true
  done
  wait
  leave_rooms
}

# Proves and builds those of `crates` that aren't built, or that depend on one that isn't. Fails as soon as one of them fails.
build_crates() {
  local todo=() at_once pause=$beat shown_at=$SECONDS line=""
  [ ! -t 2 ] || pause=1
  at_once=$(most_at_once)
  list_todo
  sort_todo
  while [ "${#todo[@]}" -gt 0 ]; do
    begin_crates
    follow || return 1
  done
}

# Makes the folder of the rooms, and in it the pipe that the builds write to.
make_rooms() {
  leave_rooms
  mkdir "$rooms"
  mkfifo "$rooms/lines"
  exec 8<>"$rooms/lines"
  : >"$log"
}

# Builds `crates`. If that fails, says why, and ends.
build_or_end() {
  local failed=""
  declare -gA sessions=() steps=()
  SECONDS=0
  make_rooms
  trap end_builds EXIT
  trap 'echo all stopped 129 >&8' HUP
  trap 'echo all stopped 130 >&8' INT
  trap 'echo all stopped 143 >&8' TERM
  if ! build_crates; then
    end_line
    grep -E '(^|: )error|: (not proved|no proof)' "$log" | head -n 5 >&2 || true
    say "the build failed: $failed; see $log"
    exit 5
  fi
  end_line
  leave_rooms
  trap - EXIT HUP INT TERM
}

# Marks a program as not built, until its build ends.
begin_program() {
  local path
  path_of "$1"
  mkdir -p "${path%/*}"
  touch -d @0 "$path.begun"
  : >"$path.begun.new"
}

# Marks a program as built from the sources as they were when its build began.
end_program() {
  local path
  path_of "$1"
  if [ ! -x "$path" ]; then
    say "$1 isn't there, though nothing failed; see $log"
    exit 5
  fi
  mv "$path.begun.new" "$path.begun"
  say "$1 is built in $(since)"
}

# Proves and builds programs.
build_programs() {
  local program
  list_crates "$@"
  say "proves and builds $*, the first time in $(minutes_of "$@") minutes on 4 processors (this machine has $(nproc))"
  say "$log has all that the toolchain says"
  for program; do
    begin_program "$program"
  done
  build_or_end
  for program; do
    end_program "$program"
  done
}

# Waits while another call builds.
wait_for_turn() {
  exec 9<"$top/pobj"
  if command -v flock >/dev/null && ! flock -n 9; then
    say "another call of pobj is building, so this one waits; $log says how far that is"
    SECONDS=0
    until flock -w "$beat" 9; do
      say "still waiting, $(since)"
    done
  fi
}

# Carries out `pobj build` with the words after it.
build() {
  local program programs=() words
  case "$*" in
    "") words=run ;;
    run | check | stress | text | explore) words=$1 ;;
    all) words="run check stress text explore" ;;
    *)
      say "build takes run, check, stress, text, explore or all; without a word it builds run"
      exit 2
      ;;
  esac
  need_rt "the program has to be built"
  wait_for_turn
  for program in $words; do
    program=pobj_$program
    list_crates "$program"
    if is_fresh "$program"; then
      say "$program is built, and no source is newer"
    else
      programs+=("$program")
    fi
  done
  [ "${#programs[@]}" -eq 0 ] || build_programs "${programs[@]}"
}
