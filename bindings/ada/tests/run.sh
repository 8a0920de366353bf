#!/usr/bin/env bash
# SPDX-License-Identifier: MIT
# Makes a runtime folder from libpobj.a by the GNAT that PATH has first, and runs the programs of this folder over it: linked with
# it, and with its shared library. Writes a line for each test. The last line is 'N passed, M failed, K skipped'. The exit status is
# 0 if none failed. With a second folder the runtime folder stays there. For another processor the words after it are the prefix of
# the cross compiler's commands and what runs a program: aarch64-linux-gnu- qemu-aarch64 -L /usr/aarch64-linux-gnu
set -u
if [ $# -lt 1 ] || [ ! -f "$1/libpobj.a" ]; then
  echo "usage: bindings/ada/tests/run.sh LIB_DIR [DEST [PREFIX RUNNER..]]    (LIB_DIR has libpobj.a)" >&2
  exit 2
fi
library=$(cd "$1" && pwd)/libpobj.a
scratch=$(mktemp -d) || exit 2
trap 'rm -rf "$scratch"' EXIT
dest=${2:-$scratch/runtime}
prefix=${3-}
runner=("${@:4}")
version=$("${prefix}gnatls" --version | sed -n '1s/.* //p')
own_libraries=$(dirname "$(readlink -f "$("${prefix}gnatls" -v | sed -n 's,^ *\(/.*/adalib\)$,\1,p' | head -n 1)/libgnarl.so")")
# GNAT 11 calls Ada 2022 by another name.
standard=-gnat2022
[[ $version != 11.* ]] || standard=-gnat2020
cd "$(dirname "$0")" || exit 2
passed=0 failed=0 skipped=0

# row NAME COMMAND..: writes whether the command succeeds, and what it said if it fails.
row() {
  local name=$1 said
  shift
  if said=$("$@" 2>&1); then
    echo "passed: $name"
    passed=$((passed + 1))
  else
    echo "failed: $name"
    printf '    %s\n' "${said//$'\n'/$'\n    '}"
    failed=$((failed + 1))
  fi
}

# Compile a program of this folder: linked with the runtime folder, or with GNAT's shared libraries.
linked() { (cd "$scratch" && "${prefix}gnatmake" -q -f "$standard" "--RTS=$dest" "$OLDPWD/$1.adb" -o "$1-linked" -bargs -static "${@:2}"); }
shared() { (cd "$scratch" && "${prefix}gnatmake" -q -f "$standard" "$OLDPWD/$1.adb" -o "$1-shared" -bargs -shared); }

# The first processor that this may use.
one=$(taskset -cp $$ | sed -E 's/.*: ([0-9]+).*/\1/')

# Runs a command with libraries of the runtime folder, and after them those that this was run with.
with_shared() { LD_LIBRARY_PATH=$dest/adalib${LD_LIBRARY_PATH:+:$LD_LIBRARY_PATH} "$@"; }

# Whether a program writes what its .out says on one processor, linked with the runtime folder and with shared libraries.
writes() {
  linked "$1" && timeout 60 taskset -c "$one" "${runner[@]}" "$scratch/$1-linked" | diff "$1.out" - || return
  shared "$1" && with_shared timeout 60 taskset -c "$one" "${runner[@]}" "$scratch/$1-shared" | diff "$1.out" -
}

# The same for a program that isn't root's, to which the system allows no real-time priorities.
writes_as_user() {
  linked "$1" && chmod 711 "$scratch" || return
  if [ "$(id -u)" -eq 0 ]; then
    timeout 60 setpriv --reuid=65534 --regid=65534 --clear-groups "${runner[@]}" "$scratch/$1-linked" | diff "$1.out" -
  else
    timeout 60 "${runner[@]}" "$scratch/$1-linked" | diff "$1.out" -
  fi
}

# The same for a program that needs real-time priorities.
writes_urgently() {
  if chrt -f 1 true 2>/dev/null; then
    row "$1.adb" writes "$1"
  else
    echo "skipped: $1.adb: no real-time priorities"
    skipped=$((skipped + 1))
  fi
}

# Whether the record has all entries of an object with many.
many_entries() {
  local number
  {
    echo "procedure Many is protected P is"
    for number in {1..150}; do echo "entry E$number;"; done
    echo "end P; protected body P is"
    for number in {1..150}; do echo "entry E$number when True is begin null; end E$number;"; done
    echo "end P; begin P.E1; P.E149; P.E150; end Many;"
  } >"$scratch/many.adb"
  (cd "$scratch" && "${prefix}gnatmake" -q -f "--RTS=$dest" many.adb -o many -bargs -static) || return
  POBJ_TRACE=$scratch/many.record "${runner[@]}" "$scratch/many" || return
  [ "$(../trace.sh "$scratch/many.record" | grep -cE ' e(1|149|150) +done')" -eq 3 ]
}

# Whether `pobj ada --linked` says what carries out a program's entry calls: linked with the runtime folder, with its shared library,
# with GNAT's, and linked with GNAT's own runtime.
says_what_is_linked() {
  linked hangs && shared hangs || return
  (cd "$scratch" && "${prefix}gnatmake" -q -f "$standard" "$OLDPWD/hangs.adb" -o hangs-own -bargs -static) || return
  [[ $(../linked.sh "$scratch/hangs-linked") == *"runs over pobj, which is linked into it" ]] || return
  [[ $(with_shared ../linked.sh "$scratch/hangs-shared") == *"runs over pobj, by the library $dest/adalib/"* ]] || return
  [[ $(LD_LIBRARY_PATH=$own_libraries ../linked.sh "$scratch/hangs-shared") == *"runs on GNAT's own runtime, by the library "* ]] || return
  [[ $(../linked.sh "$scratch/hangs-own") == *"runs on GNAT's own runtime, which is linked into it"* ]] || return
  ! ../linked.sh "$scratch/hangs-own" && ! ../linked.sh hangs.adb
}

# Whether a program's record survives another program that it starts, and whether a full disk is reported.
records_alone() {
  local said again=("${runner[@]}" "$scratch/two_programs-linked")
  linked two_programs || return
  again[0]=$(command -v "${again[0]}") || return
  said=$(POBJ_TRACE=$scratch/both "${again[@]}" "${again[@]}" 2>&1) || return
  [[ $said == *"another program writes the file"* ]] && ../trace.sh "$scratch/both" | diff two_programs.out - || return
  said=$(POBJ_TRACE=/dev/full "${again[@]}" 2>&1) || return
  [[ $said == *"takes no more"* ]]
}

# Whether the record has every call of tasks that call at once, on objects that are told apart by their lines.
records_all() {
  linked many_callers -cargs -g && POBJ_TRACE=$scratch/callers "${runner[@]}" "$scratch/many_callers-linked" || return
  ../trace.sh --all "$scratch/callers" >"$scratch/all" || return
  [ "$(grep -cE '^ +[0-9]+\.[0-9]{6}  object 1, many_callers.counter, many_callers.adb:20  callers\([1-4]\) +add +done$' "$scratch/all")" -eq 5000 ] || return
  [ "$(grep -c '  object 2, many_callers.counter, many_callers.adb:21  .* done$' "$scratch/all")" -eq 5000 ] || return
  [ "$(wc -l <"$scratch/all")" -eq 10002 ]
}

# Whether the record has the last events if only these are asked for, and whether a wrong number of them is refused.
records_last() {
  local said
  linked many_callers && POBJ_TRACE=$scratch/callers POBJ_TRACE_LAST=100 "${runner[@]}" "$scratch/many_callers-linked" || return
  [ "$(stat -c %s "$scratch/callers")" -lt 300000 ] || return
  said=$(../trace.sh --all "$scratch/callers") || return
  [ "$(wc -l <<<"$said")" -eq 129 ] && [[ $said == "9874 events before these aren't kept"*finalized ]] || return
  said=$(POBJ_TRACE=$scratch/callers POBJ_TRACE_LAST=100x "${runner[@]}" "$scratch/many_callers-linked" 2>&1) || return
  [[ $said == *"has to be a number from 1 to"* ]]
}

# Whether a program goes on when its file takes no more, and the record has what came before.
records_until_full() {
  local said
  linked many_callers || return
  said=$(trap '' XFSZ && ulimit -f 400 && POBJ_TRACE=$scratch/callers "${runner[@]}" "$scratch/many_callers-linked" 2>&1) || return
  [[ $said == *"takes no more"* ]] || return
  said=$(../trace.sh --all "$scratch/callers") || return
  [[ $said == "the record ends before the program did"* ]] && [ "$(wc -l <<<"$said")" -gt 1000 ]
}

# Whether the program copes with each allocation of the library refused in turn, and says so.
refused_memory() {
  "${prefix}gcc" -c refuse.c -o "$scratch/refuse.o" &&
    linked refused_memory -largs "$scratch/refuse.o" -Wl,--wrap=malloc,--wrap=realloc &&
    timeout 120 "${runner[@]}" "$scratch/refused_memory-linked" | diff refused_memory.out -
}

# Whether the record of a program that hangs and is killed shows what waits, and gives a scene.
record() {
  local said
  linked hangs || return
  POBJ_TRACE=$scratch/record timeout -s KILL 3 "${runner[@]}" "$scratch/hangs-linked"
  ../trace.sh "$scratch/record" | diff hangs.out - || return
  ../trace.sh --waits "$scratch/record" | sed -E 's/[0-9]+\.[0-9]{6}/TIME/g' | diff hangs.waits - || return
  said=$(../trace.sh --scene "$scratch/record") || return
  [[ $said == *$'object Buffer file "buffer.adb"\ncaller Getter\n  proc Buffer.Put\n  call Buffer.Get(2)\n'*$'\n  call Buffer.Get(2)\n  # the last call waits'* ]]
}

# Whether `pobj trace` says that there is no Python, and which words it takes.
trace_says() {
  local said
  mkdir "$scratch/bare" && ln -s "$(command -v dirname)" "$scratch/bare/" || return
  said=$(PATH=$scratch/bare /bin/sh ../trace.sh run.sh 2>&1)
  [ $? -eq 6 ] && [[ $said == *"there is no python3"* ]] || return
  said=$(../trace.sh --wait run.sh 2>&1)
  [ $? -eq 2 ] && [[ $said == *"--all, --waits or --scene"* ]] || return
  said=$(../trace.sh run.sh 2>&1)
  [ $? -eq 4 ] && [[ $said == *"run.sh isn't a record"* ]]
}

# Whether the record has the names of an object in the specification of a package, and of its procedures, also if GNARL's code is
# compiled into these.
record_of_package() {
  local how
  for how in -O0 "-O2 -gnatn"; do
    # shellcheck disable=SC2086
    linked in_package -cargs $how || return
    POBJ_TRACE=$scratch/package.record "${runner[@]}" "$scratch/in_package-linked" || return
    ../trace.sh "$scratch/package.record" | diff in_package.out - || return
  done
}

# Whether a program under Priority_Queuing writes no record, and a line says why.
no_record() {
  local said
  linked priority_queuing || return
  said=$(POBJ_TRACE=$scratch/none "${runner[@]}" "$scratch/priority_queuing-linked" 2>&1 >/dev/null)
  [[ $said == *Priority_Queuing* ]] && [ ! -e "$scratch/none" ]
}

# Whether a step that the engine refuses ends the program with a message.
ends_where_refused() {
  local said status
  "${prefix}gcc" -O1 -c refuses.c -o "$scratch/refuses.o" && "${prefix}ar" rc "$scratch/librefuses.a" "$scratch/refuses.o" || return
  ../make.sh "$scratch/refusing" "$scratch/librefuses.a" "$prefix" || return
  (cd "$scratch" && "${prefix}gnatmake" -q -f "--RTS=$scratch/refusing" "$OLDPWD/../there_and_back.adb" -o refused -bargs -static) || return
  said=$(timeout 10 "${runner[@]}" "$scratch/refused" 2>&1)
  status=$?
  [ $status -eq 134 ] && [[ $said == *"refused a step"* ]]
}

# Makes a GNAT of this version with a change in its sources: other_gnat VERSION UNIT CHANGE, as sed makes it.
other_gnat() {
  local sources
  rm -rf "$scratch/other"
  mkdir -p "$scratch/other/bin"
  sources=$("${prefix}gnatls" -v | sed -n 's,^ *\(/.*adainclude\)$,\1,p' | head -n 1)
  cp -r "$sources" "$scratch/other/"
  sed -i "$3" "$scratch/other/adainclude/$2"
  ! cmp -s "$sources/$2" "$scratch/other/adainclude/$2" || return
  {
    echo '#!/bin/sh'
    echo "if [ \"\$1\" = --version ]; then echo 'GNATLS $1'; exit; fi"
    echo "$(command -v "${prefix}gnatls") \"\$@\" | sed 's,$sources,$scratch/other/adainclude,'"
  } >"$scratch/other/bin/${prefix}gnatls"
  chmod +x "$scratch/other/bin/${prefix}gnatls"
}

# Whether a GNAT of this version, with this change, is refused by a message with these words, and nothing is made.
refuses_gnat() {
  local said
  other_gnat "$1" "$2" "$3" || return
  if said=$(PATH=$scratch/other/bin:$PATH ../make.sh "$scratch/never" "$library" "$prefix" 2>&1); then return 1; fi
  echo "$said"
  [[ $said == *"$4"* ]] && [ ! -e "$scratch/never" ] && ! compgen -G "$scratch/never.*" >/dev/null
}

# Whether a program writes what it should over a GNAT whose locks have their parts in another order, as on riscv64. The binder
# tolerates that units which don't look into a lock were compiled with GNAT's own order.
other_order() {
  local dest=$scratch/reordered
  other_gnat "$version" s-taspri.ads '/^      RW : aliased/{h;d}; /^      WO : aliased/G' || return
  PATH=$scratch/other/bin:$PATH ../make.sh "$dest" "$library" "$prefix" || return
  linked expired_twice -t 2>/dev/null && timeout 10 "${runner[@]}" "$scratch/expired_twice-linked" | diff expired_twice.out -
}

# Whether a command succeeds and says nothing.
silently() {
  local said
  said=$("$@" 2>&1) && [ -z "$said" ] && return
  echo "$said"
  return 1
}

# Whether a folder that is something else is left as it is.
leaves_others() {
  mkdir "$scratch/mine" && touch "$scratch/mine/file"
  ! ../make.sh "$scratch/mine" "$library" "$prefix" 2>/dev/null && [ -e "$scratch/mine/file" ]
}

row "the runtime folder" silently ../make.sh "$dest" "$library" "$prefix"
row "the runtime folder, made again" silently ../make.sh "$dest" "$library" "$prefix"
row "pobj ada --check" ../check.sh "$dest"
row "pobj ada --linked" says_what_is_linked
for name in abort_after_refused_call refused_trigger trigger_never_called delay_of_aborted_task \
  exception_of_aborted_trigger timed_call_after_abort expired_on_task parameters_of_trigger \
  timed_call_to_task_after_abort \
  requeue_to_object_inside message_of_trigger requeue_by_task_to_ended_task requeue_by_task_to_finalized_object \
  acceptor_aborted acceptor_aborted_at_requeue \
  priority_after_requeue finalized_as_time_comes expired_twice ceiling_alone ceiling_above message_of_barrier \
  priority_queuing queues_with_limits ended_once ended_once_by_task own_message deferred_call expired_in_finalize \
  abort_before_call abort_before_open_entry abort_before_requeue_to_task abort_before_open_accept abort_at_open_trigger \
  abort_while_trigger_is_served trigger_requeued_to_task conditional_call_to_task; do
  row "$name.adb" writes "$name"
done
for name in priority_after_finalization priority_after_requeue_meanwhile priority_set_meanwhile changed_ceiling \
  urgent_caller_first urgent_requeue_first ceiling_of_requeue acceptor_aborted_before_body; do
  writes_urgently "$name"
done
row "ceiling_above.adb as a user" writes_as_user ceiling_above
row "refused_memory.adb" refused_memory
row "POBJ_TRACE, and pobj trace" record
row "POBJ_TRACE of an object in a package" record_of_package
row "POBJ_TRACE under Priority_Queuing" no_record
row "POBJ_TRACE of two programs, and of a full disk" records_alone
row "POBJ_TRACE of an object with many entries" many_entries
row "POBJ_TRACE of tasks that call at once" records_all
row "POBJ_TRACE_LAST" records_last
row "POBJ_TRACE of a file that takes no more" records_until_full
row "pobj trace without Python, and with wrong words" trace_says
row "a step that is refused" ends_where_refused
row "a GNAT of another version" refuses_gnat 13.1.0 s-taenca.adb '1d' "found is GNATLS 13.1.0"
row "a GNAT with other sources" refuses_gnat "$version" s-taenca.adb 's/Queuing.Dequeue_Call/Queuing.Take_Off/' \
  "s-taenca.adb, Check_Pending_Actions_For_Entry_Call: found 0 times"
row "a GNAT whose locks have another order" other_order
row "a folder that is something else" leaves_others
echo "$passed passed, $failed failed, $skipped skipped"
[ "$failed" -eq 0 ]
