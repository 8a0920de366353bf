# SPDX-License-Identifier: MIT
# shellcheck shell=bash
# A trial of a program's sources: the toolchain runs them with a check at each operation, and proves nothing. Read by `pobj`.

# The most bytes of standard input that a trial takes, and the most seconds that its program runs.
most_input=67108864
most_seconds=60

# Says why a trial can't serve, and what can, and ends.
refuse_trial() {
  say "$1: a trial of the sources can't take that. '$(build_words "$program")' proves and builds the program, which can"
  exit 5
}

# Says that this is a trial, how long it takes, and how to avoid further ones.
announce_trial() {
  local why="the program isn't built" path
  path_of "$program"
  [ ! -x "$path" ] || why="a source is newer than the program"
  say "$why, so this is an unproved trial of the sources, which takes about a minute"
  say "'$(build_words "$program")' proves and builds it, in $(minutes_of "$program") minutes on 4 processors (this machine has $(nproc)); then an answer takes milliseconds"
}

# Ends the trial if it still runs, and removes what was kept for it.
end_trial() {
  if [ -n "$trial" ]; then
    kill -TERM "$trial" 2>/dev/null || true
    wait "$trial" 2>/dev/null || true
  fi
  rm -rf "$room"
}

# Keeps what the program reads: a trial gets it whole.
keep_input() {
  head -c $((most_input + 1)) >"$room/input" || refuse_trial "the script can't be read"
  [ "$(stat -c %s "$room/input")" -le "$most_input" ] || refuse_trial "the script has more than 64 MiB"
}

# Hands the file with this path to the trial: under the same path if that is below this folder, otherwise under its own name.
# Sets `name` to that.
keep_file() {
  name=$1
  case /$name/ in
    //* | */../*) name=${name##*/} ;;
  esac
  data+=(--data "$name=$(readlink -f "$1")")
}

# Hands over the file with this path. If it is NAME.ads or NAME.adb, hands over the other one too, if it is there: pobj reads both.
keep_pair() {
  local other=""
  case $1 in
    *.ads) other=${1%.ads}.adb ;;
    *.adb) other=${1%.adb}.ads ;;
  esac
  [ ! -f "$other" ] || keep_file "$other"
  keep_file "$1"
}

# Hands over the file that the third word names.
keep_text() {
  local name
  keep_pair "${words[2]}"
  words[2]=$name
}

# Hands over the files of a scene: each that a word names, and the Ada texts that such a file names.
keep_scene() {
  local position path name option
  for ((position = 1; position < ${#words[@]}; position++)); do
    path=${words[position]}
    option=""
    case $path in
      --*=*)
        option=${path%%=*}=
        path=${path#*=}
        ;;
    esac
    if [ -f "$path" ]; then
      keep_pair "$path"
      words[position]=$option$name
      while read -r path; do
        [ ! -f "$path" ] || keep_pair "$path"
      done < <(texts_in "$path")
    fi
  done
}

# Prints the names of the Ada texts that a scene names.
texts_in() { sed -n 's/^[^#"]* file "\([^"]*\)".*/\1/p' "$1" | sort -u; }

# Keeps the input of the program that carries out `words`: of `check FILE` the script, which the program then reads on standard
# input; of `--unit FILE` the Ada text; of `explore` the scene.
keep_input_of_words() {
  : >"$room/input"
  case "${#words[@]} ${words[*]}" in
    "3 run --unit "* | "4 check --unit "*" -")
      [ ! -t 0 ] || refuse_trial "the script is typed"
      keep_input
      keep_text
      ;;
    "3 check --unit "*) keep_text ;;
    *" explore "* | *" --scene"*) keep_scene ;;
    "1 run" | "1 check")
      [ ! -t 0 ] || refuse_trial "the script is typed"
      keep_input
      ;;
    "2 check "[!-]* | "3 check -- "*)
      keep_input <"${words[-1]}"
      words=(check)
      ;;
  esac
}

# Runs the trial, and keeps what the program and the toolchain write.
run_trial() {
  (cd "$top/crates/$program" && exec rt try --seconds "$most_seconds" "${data[@]}" -- "${words[@]}" <"$room/input" >"$room/output" 2>"$room/said") &
  trial=$!
  wait "$trial" || true
  trial=
}

# What the program wrote on standard error: the toolchain's lines come after it.
errors_of_program() {
  awk '{ line[NR] = $0 } !/^(checked|races|interpreter|run|rt)[:=]/ { last = NR } END { for (n = 1; n <= last; n++) print line[n] }' "$room/said"
}

# Passes on what the program wrote, and ends with its status.
hand_on() {
  errors_of_program >&2
  if ! cat "$room/output"; then
    say "write failed"
    exit 4
  fi
  if [ "${words[0]}" = run ] && [ -t 2 ]; then explain_fault "$(errors_of_program)" "$room/input" "${script:-FILE}"; fi
  exit "$1"
}

# Carries out the words by a trial of the program.
try_sources() {
  program=$1
  shift
  words=("$@")
  data=()
  trial=
  room=$(mktemp -d)
  trap end_trial EXIT
  trap 'exit 129' HUP
  trap 'exit 130' INT
  trap 'exit 143' TERM
  keep_input_of_words
  announce_trial
  run_trial
  if [[ $(tail -n 1 "$room/said") =~ ^run=ended\ status=([0-9]+)\  ]]; then
    hand_on "${BASH_REMATCH[1]}"
  fi
  grep -E '^(checked|error|rt)\b' "$room/said" | head -n 5 >&2 || true
  say "the trial gave no answer: a program that runs for more than $most_seconds seconds, or writes more than 1 MiB, needs '$(build_words "$program")'"
  exit 5
}
