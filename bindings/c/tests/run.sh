#!/usr/bin/env bash
# SPDX-License-Identifier: MIT
# Compiles and runs the tests and examples of bindings/c against LIB_DIR/libpobj.a: by gcc and by clang, plainly and with
# sanitizers. With a COMPILER for another processor, and an EMULATOR for it: by that compiler alone, without sanitizers, linked
# statically. Writes a line for each test: passed, failed, or skipped because a program it needs isn't there. The last line is
# 'N passed, M failed, K skipped'. The exit status is 0 if none failed.
set -u
if { [ $# -ne 1 ] && [ $# -ne 3 ]; } || [ ! -f "$1/libpobj.a" ]; then
  echo "usage: bindings/c/tests/run.sh LIB_DIR [COMPILER EMULATOR]    (a folder that has libpobj.a)" >&2
  exit 2
fi
library=$(cd "$1" && pwd)
cross=${2-}
runner=(timeout 60)
# By an emulator on one processor. On several, qemu lets a load pass an earlier store, though both are sequentially consistent
# (STLR, then LDAR); aarch64 forbids that, and litmus.c sees it.
one=$(taskset -cp $$ | sed -E 's/.*: ([0-9]+).*/\1/')
[ $# -eq 1 ] || runner=(timeout 300 taskset -c "$one" "$3")
cd "$(dirname "$0")/.." || exit 2
include=$(cd ../../include && pwd)
scratch=$(mktemp -d) || exit 2
trap 'rm -rf "$scratch"' EXIT
strict=(-Wall -Wextra -Wconversion -Wpedantic -Werror "-I$include" -I.)
link=("-L$library" -lpobj -lpthread)
refusing=-Wl,--wrap=malloc,--wrap=realloc,--wrap=pthread_mutex_init,--wrap=pthread_cond_init
addresses=(-O1 -g "-fsanitize=address,undefined" -fno-sanitize-recover=all)
races=(-O1 -g -fsanitize=thread)
seconds=1
# Changes that make a step of pobj_threads.h weaker: those that the thread sanitizer reports, and the one that two processors show.
weaker_races='/exchange_n\(&call->in_use/s/ACQUIRE/RELAXED/ /store_n\(&call->object,.*RELEASE/s/RELEASE/RELAXED/
  /load_n\(&call->object/s/SEQ_CST/RELAXED/ /store_n\(&call->woken/s/__atomic_store_n\(.*$/call->woken=true;/'
weaker_order='/store_n\(&call->object,.*SEQ_CST/s/SEQ_CST/RELEASE/'

# row NAME COMMAND..: writes whether the command succeeds, and what it said if it fails.
row() {
  local name=$1 said
  shift
  if said=$("$@" 2>&1); then
    echo "passed: $name"
  else
    echo "failed: $name"
    printf '    %s\n' "${said//$'\n'/$'\n    '}"
  fi
}

skip() {
  echo "skipped: $1: $2"
}

is_there() {
  command -v "$1" > /dev/null
}

# test_of NAME PROGRAM COMPILER FLAGS..: compiles tests/NAME.c, or all of tests/NAME, to this program, and runs it: its last
# line has to be 'NAME: passed'.
test_of() {
  local name=$1 program=$2 words=("${@:3}") sources=("tests/$1.c")
  [ -d "tests/$name" ] && sources=("tests/$name"/*.c)
  "${words[@]}" "${sources[@]}" -o "$program" "${link[@]}" || return
  "${runner[@]}" "$program" "$seconds" > "$program.out" 2>&1
  local status=$?
  cat "$program.out"
  [ $status -eq 0 ] && [ "$(tail -n 1 "$program.out")" = "$name: passed" ]
}

# arena_of PROGRAM COMPILER FLAGS..: the same of tests/arena.c, over the arena of bare/. That has functions of the C library's own, so
# it is compiled as it is without one.
arena_of() {
  local program=$1 plain=(-ffreestanding -fno-builtin)
  "$2" --version | grep -q clang || plain+=(-fno-tree-loop-distribute-patterns)
  "${@:2}" "${plain[@]}" -Ibare -c bare/arena.c -o "$program.o" || return
  test_of arena "$program" "${@:2}" -Ibare "$program.o"
}

# example_of NAME PROGRAM COMPILER FLAGS..: compiles examples/NAME.c to this program, and runs it: it has to print
# examples/NAME.out.
example_of() {
  local name=$1 program=$2 words=("${@:3}")
  "${words[@]}" "examples/$name.c" -o "$program" "${link[@]}" || return
  "${runner[@]}" "$program" > "$program.out" && diff "examples/$name.out" "$program.out"
}

# reports_orders PROGRAM COMPILER FLAGS..: whether the thread sanitizer reports two threads that lock two objects in opposite
# orders.
reports_orders() {
  local program=$1
  "${@:2}" tests/opposite.c -o "$program" "${link[@]}" || return
  timeout 60 "$program" > "$program.out" 2>&1
  cat "$program.out"
  grep -q lock-order-inversion "$program.out"
}

# reports_weaker CHANGES PROGRAM COMPILER FLAGS..: whether tests/litmus.c finds each of these changes of pobj_threads.h, which make a step
# weaker than the test's comment says, in at most five runs.
reports_weaker() {
  local changes=$1 program=$2 change try
  mkdir "$program.weaker"
  cp tests/litmus.c tests/check.h "$program.weaker"
  for change in $changes; do
    sed -E "$change" pobj_threads.h > "$program.weaker/pobj_threads.h"
    ! cmp -s pobj_threads.h "$program.weaker/pobj_threads.h" || { echo "no such step: $change"; return 1; }
    "${@:3}" "$program.weaker/litmus.c" -o "$program" "${link[@]}" || return
    for try in 1 2 3 4 5; do
      timeout 60 "$program" > "$program.out" 2>&1 || break
      [ "$try" -lt 5 ] || { echo "not found: $change"; return 1; }
    done
  done
}

# runs_with PROGRAM COMPILER FLAGS..: whether a program compiled with these flags runs.
runs_with() {
  echo 'int main(void) { return 0; }' > "$1.c"
  "${@:2}" "$1.c" -o "$1" > /dev/null 2>&1 && "$1" > /dev/null 2>&1
}

# header_of HEADER LANGUAGE STANDARD COMPILER: whether the header compiles by itself.
header_of() {
  printf '#define _POSIX_C_SOURCE 200809L\n#include "%s"\n' "$1" > "$scratch/$4-$1.$2"
  "$4" "-std=$3" "${strict[@]}" -fsyntax-only "$scratch/$4-$1.$2"
}

# diagnoses COMPILER FLAGS..: whether each mistake of tests/mistakes.c is diagnosed as what it is, and nothing else there is.
diagnoses() {
  local compile=("$@" -Wall -Wextra -Werror "-I$include" -I. -c tests/mistakes.c -o /dev/null) number last missed=0
  local kinds='enum-conversion|enum-compare|unused-result|cannot convert|no matching function'
  last=$(grep -c 'MISTAKE == ' tests/mistakes.c)
  "${compile[@]}" -DMISTAKE=0 || return
  for ((number = 1; number <= last; number++)); do
    if "${compile[@]}" "-DMISTAKE=$number" > "$scratch/$1.said" 2>&1 || ! grep -qE "$kinds" "$scratch/$1.said"; then
      echo "mistake $number of $last isn't diagnosed: $(cat "$scratch/$1.said")"
      missed=1
    fi
  done
  [ "$last" -gt 0 ] && [ $missed -eq 0 ]
}

# version_of COMPILER FLAGS..: whether pobj.h names the version of the file VERSION twice: by its text, and by its three numbers.
version_of() {
  "$@" -std=c11 "${strict[@]}" tests/version.c -o "$scratch/$1-version" || return
  "${runner[@]}" "$scratch/$1-version" | diff <(cat ../../VERSION ../../VERSION) -
}

# all_of COMPILER WORD FLAGS..: runs all tests and examples by this compiler with these flags.
all_of() {
  local compiler=$1 word=$2 flags=("-std=c11" "${strict[@]}" "${@:3}") name
  local at=$scratch/$compiler-$word
  for name in buffer readers_writers; do
    row "$compiler, $word: examples/$name.c" example_of "$name" "$at-$name" "$compiler" "${flags[@]}"
  done
  row "$compiler, $word: tests/litmus.c" test_of litmus "$at-litmus" "$compiler" "${flags[@]}"
  row "$compiler, $word: tests/threads" test_of threads "$at-threads" "$compiler" "${flags[@]}"
  if [ "$word" = races ]; then
    row "$compiler, $word: tests/opposite.c is reported" reports_orders "$at-opposite" "$compiler" "${flags[@]}"
    row "$compiler, $word: weaker steps are reported" reports_weaker "$weaker_races" "$at-weaker" "$compiler" "${flags[@]}"
    return
  fi
  row "$compiler, $word: tests/engine.c" test_of engine "$at-engine" "$compiler" "${flags[@]}"
  row "$compiler, $word: tests/both_ways.c" test_of both_ways "$at-both" "$compiler" "${flags[@]}"
  row "$compiler, $word: tests/refused.c" test_of refused "$at-refused" "$compiler" "${flags[@]}" "$refusing"
}

# sanitized_of COMPILER WORD FLAGS..: the same with sanitizers, if there are any.
sanitized_of() {
  if runs_with "$scratch/$1-$2" "$1" "${@:3}"; then
    all_of "$@"
  else
    skip "$1, $2" "no such sanitizer"
  fi
}

c_of() {
  is_there "$1" || { skip "$1" "no such compiler"; return; }
  row "$1: pobj.h alone" header_of pobj.h c c11 "$1"
  row "$1: pobj_threads.h alone" header_of pobj_threads.h c c11 "$1"
  row "$1: mistakes are diagnosed" diagnoses "$1" -std=c11
  row "$1: the version of pobj.h" version_of "$1"
  row "$1: speed.c" "$1" -std=c11 "${strict[@]}" -O2 speed.c -o "$scratch/$1-speed" "${link[@]}"
  all_of "$1" plain -O2
  [ "$(nproc)" -eq 1 ] \
    || row "$1, plain: a weaker order is seen" reports_weaker "$weaker_order" "$scratch/$1-order" "$1" -std=c11 "${strict[@]}" -O2
  row "$1, plain: tests/arena.c" arena_of "$scratch/$1-arena" "$1" -std=c11 "${strict[@]}" -O2
  sanitized_of "$1" addresses "${addresses[@]}"
  sanitized_of "$1" races "${races[@]}"
}

# The same by a compiler for another processor.
cross_of() {
  is_there "$1" || { skip "$1" "no such compiler"; return; }
  row "$1: pobj.h alone" header_of pobj.h c c11 "$1"
  row "$1: pobj_threads.h alone" header_of pobj_threads.h c c11 "$1"
  row "$1: the version of pobj.h" version_of "$1" -static
  row "$1: speed.c" "$1" -std=c11 "${strict[@]}" -O2 -static speed.c -o "$scratch/$1-speed" "${link[@]}"
  all_of "$1" plain -O2 -static
  row "$1, plain: tests/arena.c" arena_of "$scratch/$1-arena" "$1" -std=c11 "${strict[@]}" -O2 -static
}

cxx_of() {
  is_there "$1" || { skip "$1" "no such compiler"; return; }
  row "$1: pobj.h as C++17" header_of pobj.h cc c++17 "$1"
  row "$1: pobj_threads.h as C++17" header_of pobj_threads.h cc c++17 "$1"
  row "$1: mistakes are diagnosed" diagnoses "$1" -x c++ -std=c++17
}

# Whether an example, compiled as pobj.pc says against an installation in the scratch folder, runs.
installed() {
  local prefix=$scratch/prefix
  mkdir -p "$prefix/include" "$prefix/lib/pkgconfig"
  cp "$include/pobj.h" pobj_threads.h "$prefix/include"
  cp "$library/libpobj.a" "$prefix/lib"
  sed "s|@version@|0|" pobj.pc.in > "$prefix/lib/pkgconfig/pobj.pc"
  local flags
  flags=$(PKG_CONFIG_PATH=$prefix/lib/pkgconfig pkg-config --cflags --libs pobj) || return
  # shellcheck disable=SC2086
  "$1" -std=c11 examples/buffer.c -o "$scratch/installed" $flags && "$scratch/installed" | diff examples/buffer.out -
}

pkg_config() {
  local compiler
  compiler=$(command -v gcc || command -v clang)
  if [ -n "$compiler" ] && is_there pkg-config; then
    row "pkg-config: pobj.pc" installed "$compiler"
  else
    skip "pkg-config: pobj.pc" "no such program"
  fi
}

# By all compilers of this machine.
all_compilers() {
  c_of gcc > "$scratch/gcc.lines" &
  {
    c_of clang
    cxx_of g++
    cxx_of clang++
    pkg_config
  } > "$scratch/others.lines"
  wait
}

if [ -n "$cross" ]; then
  : > "$scratch/gcc.lines"
  cross_of "$cross" > "$scratch/others.lines"
else
  all_compilers
fi
cat "$scratch/gcc.lines" "$scratch/others.lines" | tee "$scratch/lines"
failed=$(grep -c '^failed: ' "$scratch/lines")
echo "$(grep -c '^passed: ' "$scratch/lines") passed, $failed failed, $(grep -c '^skipped: ' "$scratch/lines") skipped"
[ "$failed" -eq 0 ]
