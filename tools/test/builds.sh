# SPDX-License-Identifier: MIT
# shellcheck shell=bash
# Whether `pobj` builds and tries what it has to, in a small repository of its own with a mock of the toolchain. Read by `test`.

# Calls `pobj` there, which has to end with this status.
call_there() {
  local want=$1 got
  shift
  PATH=$scratch/build/bin POBJ_KIT=$scratch/build/kit "$scratch/build/pobj" "$@" </dev/null >"$scratch/out" 2>"$scratch/err"
  got=$?
  if [ "$got" -eq "$want" ]; then pass; else fail "pobj $* there: status $got, wanted $want: $(cat "$scratch/err")"; fi
}

# Whether what the last call wrote has the text: on standard output (out), or on standard error (err).
wrote_there() {
  if grep -qF -- "$2" "$scratch/$1"; then pass; else fail "wanted on $1: $2; written: $(cat "$scratch/$1")"; fi
}

# Makes the mock of the toolchain: its trial does what the text says.
act_as() {
  cat >"$scratch/build/bin/rt" <<END
#!/bin/sh
case "\$1" in
  version) echo rattle-kit-13f ;;
  try) $1 ;;
  *) printf '#!/bin/sh\necho ran\n' >out/pobj_run; chmod +x out/pobj_run ;;
esac
END
  chmod +x "$scratch/build/bin/rt"
}

# Makes the repository, which has no toolchain so far.
make_repository() {
  local work=$scratch/build tool
  mkdir -p "$work/bin" "$work/crates/pobj_run/src"
  cp -r pobj tools VERSION "$work/"
  echo 'pobj_run:' >"$work/crates.txt"
  for tool in awk basename bash sh cat chmod cp cut find flock grep head mkdir mkfifo mktemp mv nproc rm setsid sleep sort stat tail touch tr; do
    ln -s "$(command -v "$tool")" "$work/bin/$tool"
  done
}

# `pobj picture` draws what a trial answers, and what ran before a fault, whose line it names as the script has it. It draws nothing if
# there is no command or no such file, if the words are wrong, or if the run has another status.
pictures_there() {
  local script=$scratch/build/script answers
  ln -s "$(python3 -c 'import sys; print(sys.executable)')" "$scratch/build/bin/python3"
  printf '# A signal.\nunit signal\ncall Wait 1\n' >"$script"
  touch "$scratch/build/crates/pobj_run/src/main.rt"
  answers='printf "value 0\nWait 0\nclock 0\nnext 1\n#1\nvalue 0\nWait 1\nclock 0\nnext 2\n"'
  act_as "$answers; echo 'run=ended status=0 proved=no' >&2; exit"
  call_there 0 picture "$script"
  wrote_there out "<title>Call 1 waits on Wait from line 3 to the end.</title>"
  wrote_there err "an unproved trial"
  act_as "$answers; echo 'pobj: line 8: unknown command' >&2; echo 'run=ended status=1 proved=no' >&2; exit"
  echo 'cal Wait 2' >>"$script"
  call_there 1 picture "$script"
  wrote_there out "Line 4 has a fault, unknown command, and the run ends there: cal Wait 2"
  wrote_there err "pobj: line 4: unknown command"
  act_as "echo 'pobj: out of memory' >&2; echo 'run=ended status=4 proved=no' >&2; exit"
  call_there 4 picture "$script"
  act_as "$answers; echo 'run=ended status=0 proved=no' >&2; exit"
  call_there 4 picture "$script"
  wrote_there err "line 4: there is no answer to it"
  call_there 1 picture
  wrote_there err "the script has no command"
  call_there 4 picture "$script.none"
  wrote_there err "script.none can't be opened: No such file or directory"
  call_there 2 picture "$script" more
  if [ -s "$scratch/out" ]; then fail "words that are refused draw a picture"; else pass; fi
}

# A trial that is told to stop leaves nothing running.
stopped() {
  local pid look
  act_as "echo \$\$ >$scratch/child; exec sleep 60"
  touch "$scratch/build/crates/pobj_run/src/main.rt"
  PATH=$scratch/build/bin "$scratch/build/pobj" run </dev/null >/dev/null 2>&1 &
  pid=$!
  for look in $(seq 100); do
    [ ! -s "$scratch/child" ] || break
    sleep 0.1
  done
  kill -TERM "$pid"
  wait "$pid"
  if [ ! -s "$scratch/child" ] || kill -0 "$(cat "$scratch/child")" 2>/dev/null; then
    fail "a trial that was told to stop, after $look looks, runs on or never ran"
  else
    pass
  fi
}

# Makes a repository of four crates, on a machine that says it has four processors.
make_crates() {
  local work=$scratch/build name
  printf '%s\n' 'po_low:' 'po_side:' 'po_high: po_low po_side' 'pobj_run: po_high' >"$work/crates.txt"
  for name in po_low po_side po_high; do
    mkdir -p "$work/crates/$name/src"
  done
  rm "$work/bin/nproc"
  printf '#!/bin/sh\necho 4\n' >"$work/bin/nproc"
  chmod +x "$work/bin/nproc"
}

# Makes the mock of the toolchain: for each crate it carries out the text in the crate's folder, and then builds the crate.
build_as() {
  rm -f "$scratch/began" "$scratch/child"
  cat >"$scratch/build/bin/rt" <<END
#!/bin/sh
[ "\$1" != version ] || { echo rattle-kit-13f; exit; }
crate=\${PWD##*/}
echo "\$crate" >>$scratch/began
$1
mkdir -p out/rlib
echo >out/rlib/stamp
printf '#!/bin/sh\necho ran\n' >out/pobj_run
chmod +x out/pobj_run
END
}

# Whether the crates whose build began are these, in some order.
began() {
  local names
  names=$(sort "$scratch/began" | tr '\n' ' ')
  if [ "$names" = "$1 " ]; then pass; else fail "there began $names, wanted $1"; fi
}

# Whether a build has left nothing but the crates' folders, with what it had made of po_low.
left_clean() {
  if [ -e "$scratch/build/.build" ] || [ ! -e "$scratch/build/crates/po_low/out/kept" ]; then
    fail "a build that ended early left $(ls -A "$scratch/build" "$scratch/build/crates/po_low/out")"
  else
    pass
  fi
}

# Whether the process whose number is in the file ends within five seconds.
ended_there() {
  local look
  for look in $(seq 50); do
    if [ -s "$scratch/child" ] && ! kill -0 "$(cat "$scratch/child")" 2>/dev/null; then
      pass
      return
    fi
    sleep 0.1
  done
  fail "a build, looked at $look times, runs on or never ran"
}

# A crate is built after those on which it depends, others side by side, and none twice. If one fails, or the build is told to stop,
# the others stop, and what was made stays.
crates_there() {
  local pid look stay="echo >out/kept; echo \$\$ >$scratch/child; exec sleep 60"
  make_crates
  build_as "case \$crate in po_low) other=po_side ;; po_side) other=po_low ;; *) other=\$crate ;; esac
look=0
until grep -q \$other $scratch/began || [ \$look -eq 100 ]; do look=\$((look + 1)); sleep 0.1; done
[ \$look -lt 100 ] || exit 9"
  rm -rf "$scratch"/build/crates/*/out
  call_there 0 build
  wrote_there err "pobj_run is built in"
  began "po_high po_low po_side pobj_run"
  sleep 0.1
  touch "$scratch/build/crates/po_side/src/lib.rt"
  build_as ""
  call_there 0 build
  began "po_high po_side pobj_run"
  rm -rf "$scratch"/build/crates/*/out
  build_as "case \$crate in po_low) $stay ;; po_side) until [ -s $scratch/child ]; do sleep 0.1; done; echo error: bad; exit 3 ;; esac"
  call_there 5 build
  wrote_there err "po_side: error: bad"
  wrote_there err "rt in crates/po_side ended with status 3"
  ended_there
  left_clean
  build_as "case \$crate in po_low) $stay ;; esac"
  PATH=$scratch/build/bin "$scratch/build/pobj" build </dev/null >/dev/null 2>&1 &
  pid=$!
  for look in $(seq 100); do
    [ ! -s "$scratch/child" ] || break
    sleep 0.1
  done
  kill -TERM "$pid"
  wait "$pid"
  ended_there
  left_clean
}

# A mock of the toolchain: its trial of several scripts answers each with the script's own text, and gives status 1 to one that
# has a fault.
answer_cases() {
  cat >"$scratch/build/bin/rt" <<'END'
#!/bin/sh
for file in "$5"/*; do
  echo "== ${file##*/}"
  cat "$file"
  echo "case=${file##*/} run=ended status=$(grep -c fault "$file") runners=1 proved=no" >&2
done
END
  chmod +x "$scratch/build/bin/rt"
}

# Whether `./compare` gets the answers to all its scripts from one trial if the program isn't built, and says so if there is no rt.
comparing_there() {
  local work=$scratch/build asks='import programs; programs.try_scripts(["b\n", "a fault\n", "c\n"]); print(programs.tried)'
  cp -r comparison "$work/"
  touch "$work/crates/pobj_run/src/main.rt"
  answer_cases
  PYTHONPATH=$work/comparison PATH=$work/bin python3 -B -c "$asks" >"$scratch/out" 2>"$scratch/err"
  wrote_there out "{'b\n': 'b\n', 'a fault\n': None, 'c\n': 'c\n'}"
  wrote_there err "an unproved trial"
  rm "$work/bin/rt"
  PYTHONPATH=$work/comparison POBJ_KIT=$work PATH=$work/bin python3 -B -c "$asks" >"$scratch/out" 2>"$scratch/err"
  wrote_there err "pobj isn't built, and the command rt isn't found"
}

# Calls `pobj` without a toolchain; with trials that answer, are refused, and don't end; with a build that fails, and one that makes a
# program; with a newer source, so that a trial answers again; and with words that it refuses.
builds() {
  make_repository
  call_there 6 run
  call_there 6 picture
  wrote_there err "the command python3 isn't found"
  call_there 6 explore it.scene --picture pictures
  wrote_there err "the command python3 isn't found"
  act_as 'cat >/dev/null; echo tried; echo "pobj: own" >&2; echo "checked: ended" >&2; echo "run=ended status=1 proved=no" >&2; exit 1'
  call_there 1 run
  wrote_there out tried
  wrote_there err "an unproved trial"
  wrote_there err "pobj: own"
  if grep -q '^checked' "$scratch/err"; then fail "the toolchain's lines are shown"; else pass; fi
  act_as 'echo "error: refused" >&2; echo "run=none proved=no" >&2; exit 1'
  call_there 5 run
  wrote_there err "the trial gave no answer"
  printf '#!/bin/sh\nexit 1\n' >"$scratch/build/bin/rt"
  call_there 5 build
  act_as 'exit 2'
  call_there 0 build
  call_there 0 run
  wrote_there out ran
  sleep 0.1
  touch "$scratch/build/crates/pobj_run/src/main.rt"
  call_there 5 run
  wrote_there err "a source is newer"
  call_there 0 build
  call_there 2 build everything
  call_there 2 c
  call_there 0 c --help
  pictures_there
  comparing_there
  stopped
  crates_there
}
