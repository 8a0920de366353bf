#!/bin/sh
# SPDX-License-Identifier: MIT
# Carries out the words by the programs of the archive, from its folder bin. An archive for another target than x86-64 has no
# programs, and a file TARGET.
set -eu
here=$(cd "$(dirname "$(readlink -f "$0")")" && pwd)
parts=$here/../share/pobj
commands="run check explore picture stress ada trace"
targets=""
of_target=""
if [ -f "$parts/TARGET" ]; then
  commands="ada trace"
  of_target="--target $(cat "$parts/TARGET")"
fi

version() { head -n 1 "$here/../VERSION"; }

# shellcheck source=tools/words.sh
. "$parts/words.sh"

# Carries out `run` or `check` on an Ada text, and ends.
by_text() {
  case "$1 ${file:+file}" in
    "run file") run_file "$here/pobj_text" "$file" run --unit "$text" ;;
    "check file") run_file "$here/pobj_text" "$file" check --unit "$text" - ;;
  esac
  exec "$here/pobj_text" "$@"
}

[ "${1-}" != help ] || [ $# -eq 1 ] || set -- "$2" --help
answer_words "$@"
if [ "$1" = explore ] && asks_pictures "$@"; then draw_findings "$here/pobj_explore" "$@"; fi
if is_of_scene "$@"; then exec "$here/pobj_explore" "$@"; fi
case $1 in
  run | check)
    take_script "$@"
    [ -z "$text" ] || by_text "$@"
    ;;
esac
case $1 in
  ada)
    shift
    # shellcheck disable=SC2086
    exec "$parts/ada/ada.sh" "$here/../lib/libpobj.a" $of_target "${@:-}"
    ;;
  trace)
    shift
    exec "$parts/ada/trace.sh" "$@"
    ;;
  picture)
    shift
    draw "$here/pobj_run" "$@"
    ;;
  run)
    [ -z "$file" ] || run_file "$here/pobj_run" "$file" run
    exec "$here/pobj_run" "$@"
    ;;
  *) exec "$here/pobj_$1" "$@" ;;
esac
