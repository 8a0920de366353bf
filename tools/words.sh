# SPDX-License-Identifier: MIT
# shellcheck shell=sh
# The command line of `pobj`: its help, and its answers to wrong words and to files that can't be read. Read by `pobj` and by the
# archive's bin/pobj. Both set `commands`, the commands that they have, `targets`, those that --target takes, if there is a choice,
# and `parts`, the folder of nearest.awk, and define `version`.

say() { printf 'pobj: %s\n' "$*" >&2; }

# Prints what each command takes, and after two spaces or more what it does: of all commands, and with --target.
all_rows() {
  cat <<'ROWS'
  run [--unit TEXT] [FILE]      Carries out a script, on one of eight units or on the protected object of an Ada text
  check [--unit TEXT] [FILE]    Explains each fault of a script, and carries out nothing
  check --unit TEXT             Explains each fault of an Ada text
  check --scene SCENE           Explains each fault of a scene
  explore [--unit TEXT] SCENE   Tries every order of the callers of a scene, and finds what can go wrong
  explore SCENE --picture DIR   Does the same, and draws what it finds in SVG: DIR/1.svg, DIR/2.svg and so on
  picture [FILE] [-o PICTURE]   Draws what a script does as a time line, in SVG
  stress --unit NAME ..         Has threads share an object, and compares each answer with its history
  stress --scene SCENE          Has a thread for each caller of a scene, and compares each answer with its history
  ada DEST [--target TARGET]    Makes a runtime folder for Ada programs of GNAT
  ada --check [DEST]            Compiles and runs a program on such a folder, or on a new one
  ada --linked PROGRAM          Says whether a linked Ada program runs over pobj or on GNAT's own runtime
  ada --sources DIR             Puts the units of GNAT's that pobj changes into DIR, to be read
  c DEST [--target TARGET]      Makes a folder with the library for C, its headers and examples
  c DEST --bare [--target ..]   Makes one for programs without an operating system, with an example
  trace [--all|--waits] FILE    Shows what the objects of an Ada program did, or only what waits
  trace --scene FILE            Makes a scene for explore of what the tasks of an Ada program called
  build [PROGRAM|all]           Proves and builds run, check, stress, text or explore; until then a trial answers, in a minute
  dist [--target TARGET]        Makes an archive of everything, for machines without the toolchain
ROWS
}

# Prints the same, without --target if there is no choice.
rows() {
  if [ -n "$targets" ]; then all_rows; else all_rows | awk '{ sub(/ \[--target TARGET\]/, "                  "); print }'; fi
}

# Prints what --target is, if there is a choice.
say_target() {
  [ -z "$targets" ] || echo "  --target TARGET               The processor: $(printf '%s' "$targets" | awk '{ gsub(/ /, " or "); print }'), by default ${targets%% *}"
}

# Prints the help.
say_help() {
  cat <<'HEAD'
A proved runtime for Ada 2022 protected objects

Usage: pobj COMMAND [WORDS]

Commands:
HEAD
  rows | awk -v there=" $commands " 'index(there, " " $1 " ")'
  cat <<'REST'
  help [COMMAND]                Prints this help, or the command's

Options:
  -h, --help                    Prints this help
  -V, --version                 Prints the version
REST
  say_target
  ! is_command run || cat <<'REST'

If no FILE is named, a script is read from standard input. 'pobj help run' has the commands of scripts.
REST
  cat <<'REST'

The statuses:
  0  a good end
  1  the script is faulty, or `check` finds something
  2  the words of the command line are refused
  3  `stress` finds answers that differ from the history, or `explore` or `stress --scene` finds something
  4  memory runs out, or a file, a read, a write or GNAT fails
  5  a build fails, or a trial gives no answer
  6  the toolchain or Python isn't there
  7  `explore` finds nothing, but didn't try all orders

docs/SCRIPTS.md describes scripts; docs/ADA.md and docs/C.md are for programs in Ada and C.
REST
}

# Prints the help of a command that has none of its own.
say_help_of() {
  rows | awk -F '   *' -v command="$1" '
    { split($2, word, " ") }
    word[1] == command { print (shown++ ? "       pobj " : "Usage: pobj ") $2; does = does "\n" $3 }
    END { print does }'
  case $1 in
    ada | c | dist) say_target ;;
  esac
}

# Copies at most 80 bytes of its input, with a ? for each that isn't a printable character of ASCII.
shown() { tr -d '\n' | head -c 80 | LC_ALL=C tr -c ' -~' '?'; }

# Says that the word is no command, and ends.
refuse_word() {
  # shellcheck disable=SC2086
  near=$(awk -f "$parts/nearest.awk" -- "$1" $commands help --help --version)
  word=$(printf '%s' "$1" | shown)
  if [ -n "$near" ]; then
    say "no command '$word'; did you mean '$near'?"
  else
    say "no command '$word'; the commands are $(printf '%s' "$commands" | awk '{ gsub(/ /, ", "); print }'); --help says what each does"
  fi
  exit 2
}

# Whether the word is one of `commands`.
is_command() {
  for known in $commands; do
    [ "$1" != "$known" ] || return 0
  done
  return 1
}

# Answers words that need no program, and ends: a request for help or the version, and a first word that is no command.
answer_words() {
  case ${1-} in
    "")
      say_help >&2
      exit 2
      ;;
    help | -h | --help)
      say_help
      exit
      ;;
    -V | --version)
      echo "pobj $(version)"
      exit
      ;;
  esac
  is_command "$1" || refuse_word "$1"
  case "$1 ${2-}" in
    "run "* | "check "* | "explore "* | "picture "* | "stress "*) ;;
    *" -h" | *" --help")
      say_help_of "$1"
      exit
      ;;
  esac
}

# Ends if the file can't be read.
need_file() {
  if [ ! -e "$1" ]; then
    why="No such file or directory"
  elif [ -d "$1" ]; then
    why="Is a directory"
  elif [ ! -r "$1" ]; then
    why="Permission denied"
  else
    return 0
  fi
  say "$1 can't be opened: $why"
  exit 4
}

# Sets `file` to the script that the words after `run` or `check` name, and `text` to the Ada text after `--unit`, or each to nothing
# if they name none. Ends if a file can't be read, or if the words are wrong.
take_script() {
  command=$1 file="" text=""
  shift
  if [ "${1-}" = --unit ] && [ $# -ge 2 ]; then
    text=$2
    shift 2
  fi
  case "$# ${1-}" in
    "0 " | "1 -h" | "1 --help") ;;
    "2 --") file=$2 ;;
    "1 "[!-]*) file=$1 ;;
    *)
      say "$command takes one FILE, or a script on standard input"
      exit 2
      ;;
  esac
  [ -z "$file" ] || need_file "$file"
  if [ -z "$text" ] && [ -n "$file" ]; then text=$(text_in "$file"); fi
  [ -z "$text" ] || need_file "$text"
}

# Whether the words are about a scene: `explore`, or `check` or `stress` with --scene.
is_of_scene() {
  case $1 in
    explore) return 0 ;;
    check | stress) ;;
    *) return 1 ;;
  esac
  for word; do
    case $word in --scene | --scene=*) return 0 ;; esac
  done
  return 1
}

# Ends if a file that words on a scene name can't be read.
need_scene() {
  before=
  for word; do
    case "$before $word" in
      "--most "* | "--until "* | "--runs "* | *" -"*) ;;
      *) need_file "$word" ;;
    esac
    before=$word
  done
}

# Prints the name of the Ada text that the script's first command names, by `unit file "NAME"`.
text_in() {
  [ ! -f "$1" ] || awk '
    NF == 0 || $1 ~ /^#/ { next }
    $1 == "unit" && $2 == "file" { split($0, part, "\""); print part[2] }
    { exit }' "$1"
}

# Shows the faulty line of a script, and what explains it: explain_fault ERRORS SCRIPT NAME. ERRORS is what the program wrote on
# standard error, NAME is what the user calls the script, and `text` the Ada text of its object, if it has one.
explain_fault() {
  number=$(printf '%s\n' "$1" | awk '/^pobj: line [0-9]+: / { print $3 + 0; exit }')
  [ -n "$number" ] || return 0
  say "line $number is: $(head -n "$number" "$2" | tail -n 1 | shown)"
  say "'$0 check ${text:+--unit $text }$3' explains each fault"
}

# Carries out the script by a built program, and ends: run_file PROGRAM SCRIPT WORDS.. On a terminal a faulty line is shown too, if
# the script can be read again. Elsewhere standard error has only the program's own text, which users may compare.
run_file() {
  program=$1 script=$2
  shift 2
  if [ ! -t 2 ] || [ ! -f "$script" ]; then exec "$program" "$@" <"$script"; fi
  status=0
  exec 3>&1
  errors=$("$program" "$@" <"$script" 2>&1 >&3 3>&-) || status=$?
  [ -z "$errors" ] || printf '%s\n' "$errors" >&2
  [ "$1" != run ] || explain_fault "$errors" "$script" "$script"
  exit "$status"
}

# Whether one of the words asks for pictures of what is found.
asks_pictures() {
  for word; do
    case $word in
      --) return 1 ;;
      --picture | --picture=*) return 0 ;;
    esac
  done
  return 1
}

# Ends if there is no Python, which draws.
need_python() {
  if ! command -v python3 >/dev/null; then
    say "drawing a picture needs Python 3, and the command python3 isn't found"
    exit 6
  fi
}

# Draws a script: draw PROGRAM WORDS... PROGRAM carries it out.
draw() {
  need_python
  exec python3 "$parts/picture/picture.py" "$@"
}

# Draws what is found in a scene: draw_findings PROGRAM WORDS... PROGRAM explores it, and the first of WORDS is `explore`.
draw_findings() {
  need_python
  exec python3 "$parts/picture/findings.py" "$@"
}
