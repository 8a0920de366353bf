#!/bin/sh
# SPDX-License-Identifier: MIT
# Shows the file that a program has written for POBJ_TRACE, by trace.py, or makes a scene of it, by scene.py:
#   trace.sh FILE           object by object, with the calls that still wait at its end
#   trace.sh --all FILE     all events in the order they were noted, with their times
#   trace.sh --waits FILE   only what waits, since when, and which call or procedure went last through its object
#   trace.sh --scene FILE   a scene for `pobj explore`: the objects, and what each task called
set -eu
here=$(cd "$(dirname "$0")" && pwd)

# Says why, and ends with the status.
fail() {
  echo "pobj trace: $2" >&2
  exit "$1"
}

case "$#${1-}" in
  2--all | 2--waits | 2--scene) file=$2 ;;
  1-*) fail 2 "it takes the file that POBJ_TRACE named, after --all, --waits or --scene if there is one" ;;
  1?*) file=$1 ;;
  *) fail 2 "it takes the file that POBJ_TRACE named, or --all, --waits or --scene and that file" ;;
esac
if [ ! -f "$file" ] || [ ! -r "$file" ]; then
  fail 4 "the file $file can't be read; only a program over pobj whose objects have entries writes one (docs/ADA.md)"
fi
command -v python3 >/dev/null || fail 6 "there is no python3, which shows the record"
[ "$1" != --scene ] || exec python3 "$here/scene.py" "$file"
exec python3 "$here/trace.py" "$@"
