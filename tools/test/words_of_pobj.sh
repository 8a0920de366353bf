# SPDX-License-Identifier: MIT
# shellcheck shell=bash
# What `pobj` answers by itself, and what `pobj dist` packs, over the mock of the toolchain; and whether the version and the kit are
# named the same everywhere. Read by `test`, after builds.sh.

# Calls `pobj` there, which has to end with the status, and to write the text on standard output (out) or standard error (err).
answers_there() {
  local status=$1 where=$2 text=$3
  shift 3
  call_there "$status" "$@"
  wrote_there "$where" "$text"
}

# Puts there a program that is built, and does what the text says.
put_program() {
  local program=$scratch/build/crates/$1/out/$1
  mkdir -p "${program%/*}"
  printf '#!/bin/sh\n%s\n' "$2" >"$program"
  chmod +x "$program"
}

# Carries out a command on a terminal, and keeps what is shown there.
on_terminal() {
  python3 -c 'import os, pty, sys; sys.exit(os.waitstatus_to_exitcode(pty.spawn(sys.argv[1:])))' "$@" </dev/null 2>&1 | tr -d '\r' >"$scratch/out"
}

# Help and the version, with no toolchain.
helps_there() {
  local word
  call_there 0 --help
  for word in run check picture stress ada c trace build dist; do
    wrote_there out "  $word "
  done
  answers_there 0 out "Usage: pobj COMMAND" help
  answers_there 0 out "Usage: pobj COMMAND" help help
  answers_there 2 err "Usage: pobj COMMAND"
  answers_there 0 out "Usage: pobj ada DEST" help ada
  answers_there 0 out "Usage: pobj dist" dist --help
  answers_there 0 out "  --target TARGET               The processor: x86_64 or aarch64, by default x86_64" c --help
  answers_there 0 out "pobj $(cat VERSION)" --version
}

# Words that are no command, with no toolchain: one that is near to a command, one that is near to two, and others.
mistyped_there() {
  answers_there 2 err "pobj: no command 'tarce'; did you mean 'trace'?" tarce
  answers_there 2 err "did you mean '--help'?" --hlep
  answers_there 2 err "pobj: no command 'hest'; the commands are run, check, " hest
  answers_there 2 err "pobj: no command 'walk'; the commands are run, check, " walk
  answers_there 2 err "pobj: no command 'a??[1m'; the commands are " $'a\n\e\e[1m'
  answers_there 2 err "run takes one FILE" run one two
  answers_there 2 err "check takes one FILE" check --what
  answers_there 2 err "dist takes no words" dist now
  answers_there 2 err "c takes a folder" c --bare
  answers_there 2 err "c takes a folder" c --target aarch64
  answers_there 2 err "pobj: no target 'arm64'; there are x86_64, aarch64" c here --target arm64
  answers_there 2 err "pobj: no target ''; there are x86_64, aarch64" ada here --target
  answers_there 2 err "pobj: no target 'x86_64 aarch64'; there are " dist "--target=x86_64 aarch64"
}

# Files that can't be read, with no toolchain.
missing_there() {
  local word
  mkdir -p "$scratch/build/bindings/ada"
  cp bindings/ada/trace.sh "$scratch/build/bindings/ada/"
  ln -s "$(command -v dirname)" "$scratch/build/bin/dirname"
  for word in run check picture; do
    answers_there 4 err "pobj: $scratch/none can't be opened: No such file or directory" "$word" "$scratch/none"
  done
  answers_there 4 err "$scratch/none" trace "$scratch/none"
  answers_there 4 err "can't be opened: Is a directory" run -- "$scratch"
}

# If the command line names a script, the program reads that script, whether it is built or run by a trial.
named_there() {
  local script=$scratch/script
  printf '# A buffer.\nunit\tbufer 2\n' >"$script"
  put_program pobj_run cat
  answers_there 0 out "unit" run "$script"
  answers_there 0 out "unit" run -- "$script"
  touch -d @0 "$scratch/build/crates/pobj_run/out/pobj_run"
  act_as "cat; echo 'run=ended status=0 proved=no' >&2; exit"
  answers_there 0 out "unit" run "$script"
}

# If the command line or the script names an Ada text, another program reads the script on standard input, and the text.
texts_there() {
  local script=$scratch/text.pobj text=$scratch/text.adb
  echo "unit file \"$text\" 3" >"$script"
  echo "protected type T" >"$text"
  put_program pobj_text 'echo "$*"; cat'
  echo 'pobj_text:' >>"$scratch/build/crates.txt"
  mkdir -p "$scratch/build/crates/pobj_text/src"
  touch "$scratch/build/crates/pobj_text/out/pobj_text"
  answers_there 0 out "run --unit $text" run "$script"
  wrote_there out "unit file"
  answers_there 0 out "run --unit $text" run --unit "$text" "$script"
  answers_there 0 out "check --unit $text -" check "$script"
  wrote_there out "unit file"
  answers_there 0 out "check --unit $text -" check --unit "$text" "$script"
  answers_there 0 out "check --unit $text" check --unit "$text"
  answers_there 4 err "pobj: $scratch/none can't be opened: No such file or directory" check --unit "$scratch/none"
  answers_there 4 err "pobj: $scratch/none can't be opened: No such file or directory" explore --most 9 "$scratch/none"
}

# `explore SCENE --picture DIR` has the program explore without these two words, shows its report, and draws what it found.
findings_there() {
  local scene=examples/scenes/crossed.scene to=$scratch/found
  put_program pobj_explore "echo \"\$*\"; cat '$PWD/examples/scenes/crossed.out'; exit 3"
  echo 'pobj_explore:' >>"$scratch/build/crates.txt"
  mkdir -p "$scratch/build/crates/pobj_explore/src"
  touch "$scratch/build/crates/pobj_explore/out/pobj_explore"
  answers_there 3 out "callers wait for ever" explore "--picture=$to/one" "$scene"
  answers_there 3 out "callers wait for ever" explore "$scene" --picture "$to/other"
  same "$(head -n 1 "$scratch/out")" "explore $scene" "the words of an exploration with pictures"
  same "$(cat "$scratch/err")" "pobj: drawn: $to/other/1.svg" "what is said of pictures"
  if cmp -s "$to/one/1.svg" docs/pictures/crossed.svg && cmp -s "$to/other/1.svg" docs/pictures/crossed.svg; then pass; else fail "explore --picture draws another picture"; fi
  answers_there 3 out "check --scene $scene" check --scene "$scene"
  answers_there 3 out "stress --scene $scene --runs 9" stress --scene "$scene" --runs 9
  answers_there 4 err "pobj: $scratch/none can't be opened: No such file or directory" check --scene "$scratch/none"
  answers_there 2 err "--picture takes a folder" explore "$scene" --picture
  answers_there 4 err "$scratch/out is a file" explore "$scene" --picture "$scratch/out"
  answers_there 4 err "pobj: $scratch/none can't be opened: No such file or directory" explore "$scratch/none" --picture "$to/no"
  if [ -e "$to/no" ]; then fail "a folder is made for no picture"; else pass; fi
}

# On a terminal a fault is shown with its line, by the built program and by a trial. Elsewhere standard error
# has only the program's own text.
faults_there() {
  local fault="cat >/dev/null; echo 'pobj: line 2: bad unit' >&2" pobj=$scratch/build/pobj
  put_program pobj_run "$fault; exit 1"
  call_there 1 run "$scratch/script"
  same "$(cat "$scratch/err")" "pobj: line 2: bad unit" "standard error of a fault"
  PATH=$scratch/build/bin on_terminal "$pobj" run "$scratch/script"
  wrote_there out "pobj: line 2: bad unit"
  wrote_there out "pobj: line 2 is: unit?bufer 2"
  wrote_there out "pobj: '$pobj check $scratch/script' explains each fault"
  PATH=$scratch/build/bin on_terminal bash -c '"$0" run <(cat "$1")' "$pobj" "$scratch/script"
  same "$(cat "$scratch/out")" "pobj: line 2: bad unit" "a fault of a script that can't be read again"
  touch -d @0 "$scratch/build/crates/pobj_run/out/pobj_run"
  act_as "$fault; echo 'run=ended status=1 proved=no' >&2; exit"
  PATH=$scratch/build/bin on_terminal "$pobj" run "$scratch/script"
  wrote_there out "pobj: line 2 is: unit?bufer 2"
  call_there 1 run "$scratch/script"
  if grep -q "line 2 is" "$scratch/err"; then fail "a fault is explained though nobody reads along"; else pass; fi
}

# The kit is found in its folder, and a line warns if it isn't the kit that is named.
kits_there() {
  act_as "cat >/dev/null; echo 'run=ended status=0 proved=no' >&2; exit"
  mkdir "$scratch/build/kit"
  mv "$scratch/build/bin/rt" "$scratch/build/kit/rt"
  call_there 0 run
  if grep -q warning "$scratch/err"; then fail "the named kit is warned of"; else pass; fi
  sed -i 's/rattle-kit-[a-z0-9]*/rattle-kit-0 logic 1/' "$scratch/build/kit/rt"
  answers_there 0 err "pobj: warning: rt belongs to rattle-kit-0 logic 1, but README.md names rattle-kit-" run
  mv "$scratch/build/kit/rt" "$scratch/build/bin/rt"
}

# A picture is written to its file only if it is whole. If not, the file is unchanged, and no other file is left beside it.
picture_in_file() {
  local to=$scratch/pictures answers='printf "value 0\nWait 0\nclock 0\nnext 1\n"'
  mkdir "$to"
  echo 'unit signal' >"$scratch/script"
  echo before >"$to/old.svg"
  act_as "echo 'run=ended status=4 proved=no' >&2; exit"
  call_there 4 picture "$scratch/script" -o "$to/new.svg"
  call_there 4 picture "$scratch/script" -o "$to/old.svg"
  same "$(ls "$to")" old.svg "files after pictures that can't be drawn"
  same "$(cat "$to/old.svg")" before "a picture that can't be drawn again"
  answers_there 4 err "no/it.svg can't be written" picture "$scratch/script" -o "$to/no/it.svg"
  answers_there 4 err "$to isn't a file" picture "$scratch/script" -o "$to"
  call_there 2 picture "$scratch/script" -o
  act_as "$answers; echo 'run=ended status=0 proved=no' >&2; exit"
  call_there 0 picture -o "$to/old.svg" "$scratch/script"
  call_there 0 picture "$scratch/script"
  if cmp -s "$scratch/out" "$to/old.svg"; then pass; else fail "a picture in a file differs from the one on standard output"; fi
  same "$(ls "$to")" old.svg "files after a picture"
}

# Makes the repository that `pobj dist` packs, with a mock of the toolchain that builds programs and a library which do nothing.
make_packed() {
  local work=$scratch/build program
  cp -r LICENSE README.md bindings docs examples include "$work/"
  printf '%s\n' pobj_run: pobj_check: pobj_stress: pobj_text: pobj_explore: po_c: >"$work/crates.txt"
  for program in pobj_run pobj_check pobj_stress pobj_text pobj_explore; do
    mkdir -p "$work/crates/$program/src"
    echo >"$work/crates/$program/src/main.rt"
  done
  mkdir -p "$work/crates/po_c/src" "$scratch/doc/c" "$scratch/object"
  (cd "$scratch/object" && echo >nothing.o && ar rc "$scratch/doc/c/liblibc_c.a" nothing.o)
  cat >"$work/bin/rt" <<RT
#!/bin/sh
case \$1 in
  version) echo rattle-kit-13f; exit ;;
  doc) echo "$scratch/doc/README.md"; exit ;;
esac
mkdir -p out/rlib
echo >out/rlib/stamp
name=\${PWD##*/}
(cd out && echo "\$*" >po_c.o && ar rcD "lib\$name.a" po_c.o && rm po_c.o)
printf '#!/bin/sh\necho "%s \$*"; cat\n' "\$name" >"out/\$name"
chmod +x "out/\$name"
RT
}

# Calls `pobj` there with all tools of this machine. It has to end with this status.
call_with_tools() {
  local want=$1 got
  shift
  PATH=$scratch/build/bin:$PATH timeout 60 "$scratch/build/pobj" "$@" </dev/null >"$scratch/out" 2>"$scratch/err"
  got=$?
  if [ "$got" -eq "$want" ]; then pass; else fail "pobj $* there: status $got, wanted $want: $(cat "$scratch/err")"; fi
}

# What the archive has, and what its `pobj` answers.
packs_there() {
  local name path to
  name=pobj-$(cat VERSION)-x86_64-linux
  call_with_tools 0 dist
  tar -C "$scratch" -xzf "$scratch/build/$name.tar.gz" || fail "there is no archive $name.tar.gz"
  to=$scratch/$name
  for path in LICENSE VERSION KIT share/pobj/ada/hangs.adb $(grep -oE '\b(bin|docs|examples|include|lib|share)/[A-Za-z0-9_./-]*[A-Za-z0-9]' "$to/README.md"); do
    if [ -e "$to/$path" ]; then pass; else fail "the archive has no $path"; fi
  done
  if (cd "$to" && sha256sum --quiet -c SHA256SUMS); then pass; else fail "the sums of the archive differ"; fi
  same "$("$to/bin/pobj" --version)" "pobj $(cat VERSION)" "the packed version"
  same "$(sed -n 's/^Version: //p' "$to/lib/pkgconfig/pobj.pc")" "$(cat VERSION)" "the version for pkg-config"
  same "$("$to/bin/pobj" --help | awk '/^Commands/ { on = 1 } /^Options/ { on = 0 } on && NF > 1 { print $1 }' | uniq | tr '\n' ' ')" \
    "run check explore picture stress ada trace help " "the packed commands"
  same "$("$to/bin/pobj" tarce 2>&1)" "pobj: no command 'tarce'; did you mean 'trace'?" "the packed answer to a mistyped word"
  same "$("$to/bin/pobj" run "$to/VERSION")" "pobj_run run"$'\n'"$(cat VERSION)" "the packed program's input"
  same "$("$to/bin/pobj" run --unit "$to/VERSION" "$to/VERSION")" "pobj_text run --unit $to/VERSION"$'\n'"$(cat VERSION)" "the packed program for Ada texts"
  same "$("$to/bin/pobj" explore --picture "$to/found" "$to/VERSION" </dev/null)" "pobj_explore explore $to/VERSION" "the packed program that explores"
  same "$("$to/bin/pobj" stress --scene "$to/VERSION")" "pobj_explore stress --scene $to/VERSION" "the packed program that has threads for callers"
  same "$("$to/bin/pobj" run "$to/none" 2>&1)" "pobj: $to/none can't be opened: No such file or directory" "a file that isn't there"
  if git check-ignore -q "$name.tar.gz"; then pass; else fail "git doesn't ignore $name.tar.gz"; fi
}

# Makes mocks of the cross compiler's tools there: what is compiled is the words.
make_cross_compiler() {
  printf '#!/bin/sh\necho "$*" >heap.o\n' >"$scratch/build/bin/aarch64-linux-gnu-gcc"
  printf '#!/bin/sh\nexec ar "$@"\n' >"$scratch/build/bin/aarch64-linux-gnu-ar"
  chmod +x "$scratch"/build/bin/aarch64-linux-gnu-*
}

# The library for another target is built beside that for x86-64, which stays as it is. With --bare there is only the object.
targets_there() {
  local to=$scratch/targets proved=$scratch/build/crates/po_c/out
  make_cross_compiler
  call_with_tools 0 c "$to/cross" --target aarch64
  same "$(ar t "$to/cross/lib/libpobj.a" | tr '\n' ' ')" "heap.o po_c.o " "the objects for aarch64"
  same "$(ar p "$to/cross/lib/libpobj.a" po_c.o)" "lib --target aarch64-unknown-linux-gnu" "the target of what is proved"
  same "$(ar p "$proved/libpo_c.a" po_c.o)" lib "the archive for x86-64, after one for aarch64"
  call_with_tools 0 c --target aarch64 --bare "$to/bare"
  same "$(cat "$to/bare/lib/pobj.o")" "lib --target aarch64-unknown-linux-gnu" "the object for aarch64"
  same "$(ls "$to/bare/include" "$to/bare/lib" | tr '\n' ' ')" "$to/bare/include: pobj.h pobj_arena.h  $to/bare/lib: pobj.o " "what --bare puts"
  if [ -x "$to/bare/share/pobj/bare/build.sh" ]; then pass; else fail "--bare puts no example"; fi
  call_with_tools 0 c "$to/own" --target x86_64
  same "$(ar p "$to/own/lib/libpobj.a" po_c.o)" lib "what is proved for x86-64"
}

# Without the cross compiler, the three memory functions come as heap.c, and a line says so; so too if the compiler can't compile it.
without_compiler() {
  local tool to=$scratch/no-compiler
  printf '#!/bin/sh\nexit 1\n' >"$scratch/build/bin/aarch64-linux-gnu-gcc"
  call_with_tools 5 c "$to" --target aarch64
  wrote_there err "aarch64-linux-gnu-gcc can't compile bindings/c/heap.c"
  rm "$scratch"/build/bin/aarch64-linux-gnu-*
  for tool in ar sed ls uname; do ln -s "$(command -v "$tool")" "$scratch/build/bin/$tool"; done
  answers_there 0 err "there is no aarch64-linux-gnu-gcc (Debian's package gcc-aarch64-linux-gnu): compile heap.c, beside" c "$to" --target aarch64
  same "$(ar t "$to/lib/libpobj.a")" po_c.o "the archive without the functions of memory"
  if cmp -s "$to/lib/heap.c" bindings/c/heap.c; then pass; else fail "heap.c isn't beside the archive"; fi
}

# A build for another target that fails, or is told to stop, leaves the archive for x86-64 as it is.
broken_off_there() {
  local proved=$scratch/build/crates/po_c/out rt=$scratch/build/bin/rt pid look
  cp "$rt" "$scratch/rt"
  printf '#!/bin/sh\n[ "$1" != version ] || exit\necho >out/libpo_c.a\nexit 1\n' >"$rt"
  rm -r "$proved/aarch64"
  call_with_tools 5 c "$scratch/broken" --target aarch64
  printf '#!/bin/sh\n[ "$1" != version ] || exit\necho >out/libpo_c.a\necho $$ >%s\nexec sleep 60\n' "$scratch/child" >"$rt"
  PATH=$scratch/build/bin:$PATH "$scratch/build/pobj" c "$scratch/broken" --target aarch64 </dev/null >/dev/null 2>&1 &
  pid=$!
  for look in $(seq 100); do
    [ ! -s "$scratch/child" ] || break
    sleep 0.1
  done
  kill -TERM "$pid"
  wait "$pid"
  ended_there
  same "$(ar p "$proved/libpo_c.a" po_c.o)" lib "the archive for x86-64, after builds for aarch64 that were broken off"
  same "$(ls "$proved")" $'libpo_c.a\npo_c\nrlib' "what broken builds leave"
  mv "$scratch/rt" "$rt"
}

# What the archive for aarch64 has: no programs, and only the part of `pobj` that is for Ada.
packs_for_aarch64() {
  local name path to
  name=pobj-$(cat VERSION)-aarch64-linux
  call_with_tools 0 dist --target aarch64
  tar -C "$scratch" -xzf "$scratch/build/$name.tar.gz" || fail "there is no archive $name.tar.gz"
  to=$scratch/$name
  for path in LICENSE VERSION KIT share/pobj/ada/hangs.adb $(grep -oE '\b(bin|docs|examples|include|lib|share)/[A-Za-z0-9_./-]*[A-Za-z0-9]' "$to/README.md"); do
    if [ -e "$to/$path" ]; then pass; else fail "the archive for aarch64 has no $path"; fi
  done
  same "$(ls "$to/bin")" pobj "the programs for aarch64"
  same "$("$to/bin/pobj" --help | awk '/^Commands/ { on = 1 } /^Options/ { on = 0 } on && NF > 1 { print $1 }' | uniq | tr '\n' ' ')" \
    "ada trace help " "the packed commands for aarch64"
  if (cd "$to" && sha256sum --quiet -c SHA256SUMS); then pass; else fail "the sums of the archive for aarch64 differ"; fi
  if git check-ignore -q "$name.tar.gz"; then pass; else fail "git doesn't ignore $name.tar.gz"; fi
}

# `pobj c` fills an empty folder, or refills its own, and no other one.
folders_there() {
  local to=$scratch/folders
  mkdir -p "$to/foreign" "$to/empty"
  echo >"$to/foreign/mine"
  call_with_tools 4 c "$to/foreign"
  wrote_there err "$to/foreign exists, and isn't a folder that pobj c made"
  same "$(ls "$to/foreign")" mine "a foreign folder"
  call_with_tools 4 c "$to/foreign/mine"
  call_with_tools 0 c "$to/empty"
  call_with_tools 0 c "$to/empty"
  call_with_tools 0 c "$to/new"
}

# While another call builds, `pobj ada` and `pobj c` don't wait if the library is built.
beside_a_build() {
  printf '#!/bin/sh\n' >"$scratch/build/bindings/ada/make.sh"
  exec 7<"$scratch/build/pobj"
  flock 7
  call_with_tools 0 c "$scratch/beside"
  mkdir -p "$scratch/runtime"
  call_with_tools 0 ada "$scratch/runtime"
  exec 7<&-
}

words_of_pobj() {
  local scratch=$scratch/words
  mkdir "$scratch"
  make_repository
  helps_there
  mistyped_there
  ln -s "$(python3 -c 'import sys; print(sys.executable)')" "$scratch/build/bin/python3"
  missing_there
  named_there
  texts_there
  findings_there
  faults_there
  kits_there
  picture_in_file
  make_packed
  packs_there
  folders_there
  beside_a_build
  targets_there
  packs_for_aarch64
  broken_off_there
  without_compiler
}

# VERSION, the programs and the C header name one version.
version_is_one() {
  local version
  version=$(cat VERSION)
  same "$(sed -nE 's/^const VERSION: &str = "(.*)";$/\1/p' crates/po_command_line/src/commands.rt)" "$version" "the version of the programs"
  same "$(sed -nE 's/^#define POBJ_VERSION "(.*)"$/\1/p' include/pobj.h)" "$version" "the version in include/pobj.h"
}

# README.md and CONTRIBUTING.md name the kit that `pobj` and `test` look for, and no other one.
kit_is_one() {
  local page
  for page in README.md CONTRIBUTING.md; do
    same "$(grep -oE 'rattle-kit-[0-9a-z]+' "$page" | sort -u)" "$kit" "the kit in $page"
  done
}
