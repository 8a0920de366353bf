# SPDX-License-Identifier: MIT
# shellcheck shell=bash
# The library for C, proved and built, and the archive for machines without the toolchain. Read by `pobj`, after crates.sh and
# build.sh.

# The version of the programs, the library and the archive.
version() { head -n 1 "$top/VERSION"; }

# Whether the library is built from its sources as they are. Sets `crates` to those that it needs.
is_library_fresh() {
  list_crates po_c
  ! is_older "$top/crates/po_c/out/libpo_c.a" "$top/crates.txt" "${crates[@]}"
}

# Proves and builds the static library: the crate po_c, with those that it depends on.
build_library() {
  ! is_library_fresh || return 0
  say "the library for C: ${#crates[@]} crates are proved, in 8 to 12 minutes on 4 processors, less if some are proved already"
  build_or_end
  say "the library is built in $(since)"
}

# Builds the library if it isn't fresh. Only then does it wait while another call builds.
need_library() {
  ! is_library_fresh || return 0
  wait_for_turn
  build_library 9<&-
}

# Ends if `target` is none of `targets`.
need_target() {
  local known
  for known in $targets; do
    [ "$target" != "$known" ] || return 0
  done
  say "no target '$(printf '%s' "$target" | shown)'; there are ${targets// /, }"
  exit 2
}

# Sets `target` to the one that the words name with --target, or to x86_64, and `rest` to the other words. Ends if there is no such
# target.
take_target() {
  target=x86_64 rest=()
  while [ $# -gt 0 ]; do
    case $1 in
      --target)
        target=${2-}
        [ $# -eq 1 ] || shift
        ;;
      --target=*) target=${1#*=} ;;
      *) rest+=("$1") ;;
    esac
    shift
  done
  need_target
}

# Prints the file of what is proved, compiled for the target.
proved_for() {
  if [ "$1" = x86_64 ]; then echo "$top/crates/po_c/out/libpo_c.a"; else echo "$top/crates/po_c/out/$1/libpo_c.a"; fi
}

# Builds the library for the target if it isn't fresh. `need_library`, which builds x86-64's, has proved it already.
need_library_for() {
  local crates
  [ "$1" != x86_64 ] || return 0
  list_crates po_c
  is_older "$(proved_for "$1")" "$top/crates.txt" "${crates[@]}" || return 0
  wait_for_turn
  say "the library for C is compiled for $1, in a minute or less"
  crates=("po_c@$1")
  needs["po_c@$1"]=""
  build_or_end 9<&-
}

# Prints the name of a C compiler's tool for the target: this machine's own, or the cross compiler's.
tool_for() {
  if [ "$1" = "$(uname -m)" ]; then echo "$2"; else echo "$1-linux-gnu-$2"; fi
}

# Whether this machine can compile the three memory functions for the target. Those for x86-64 are the kit's.
has_heap_for() { [ "$1" = x86_64 ] || command -v "$(tool_for "$1" gcc)" >/dev/null; }

# Puts into the folder the object file of the three memory functions, over malloc, realloc and free.
put_heap() {
  if [ "$2" = x86_64 ]; then
    (cd "$1" && ar x "$(dirname "$(rt doc)")/c/liblibc_c.a")
  elif ! (cd "$1" && cp "$top/bindings/c/heap.c" . && "$(tool_for "$2" gcc)" -std=c11 -O2 -ffunction-sections -fdata-sections -c heap.c); then
    say "$(tool_for "$2" gcc) can't compile bindings/c/heap.c; if its C library is missing, that is Debian's package libc6-dev-arm64-cross"
    exit 5
  fi
  rm -f "$1/heap.c"
}

# Puts libpobj.a for the target into the folder: what was proved, and the three memory functions. Without a compiler for the
# target, these are put beside it as heap.c.
put_archive() {
  local to=$1 target=${2-x86_64} objects
  need_library_for "$target"
  if ! has_heap_for "$target"; then
    cp "$(proved_for "$target")" "$to/libpobj.a"
    cp "$top/bindings/c/heap.c" "$to/"
    say "there is no $(tool_for "$target" gcc) (Debian's package gcc-$target-linux-gnu): compile heap.c, beside libpobj.a, with your program"
    return
  fi
  objects=$(mktemp -d)
  (cd "$objects" && ar x "$(proved_for "$target")")
  put_heap "$objects" "$target"
  (cd "$objects" && "$(tool_for "$target" ar)" rcsD "$to/libpobj.a" ./*.o)
  rm -rf "$objects"
}

# Puts into the folder what a C program needs: library, headers, the file for pkg-config, and the examples.
put_library() {
  local to=$1
  mkdir -p "$to/share/pobj" "$to/lib/pkgconfig" "$to/include"
  rm -f "$to/lib/libpobj.a" "$to/lib/heap.c"
  put_archive "$to/lib" "$2"
  cp "$top/include/pobj.h" "$top/bindings/c/pobj_threads.h" "$to/include/"
  cp -r "$top/bindings/c/examples" "$to/share/pobj/"
  sed "s,@version@,$(version)," "$top/bindings/c/pobj.pc.in" >"$to/lib/pkgconfig/pobj.pc"
}

# Puts into the folder what a program without an operating system needs: the proved object alone, its header, and the example with
# its own memory.
put_bare() {
  local to=$1 target=$2
  need_library_for "$target"
  mkdir -p "$to/share/pobj" "$to/lib" "$to/include"
  (cd "$to/lib" && ar x "$(proved_for "$target")" po_c.o && mv po_c.o pobj.o)
  cp "$top/include/pobj.h" "$top/bindings/c/bare/pobj_arena.h" "$to/include/"
  cp -r "$top/bindings/c/bare" "$to/share/pobj/"
  rm "$to/share/pobj/bare/pobj_arena.h"
}

# Makes the folder for the library. Ends if that fails, or if the folder has something that isn't pobj's.
make_folder() {
  if [ -e "$1" ] && [ ! -d "$1/share/pobj" ] && [ -n "$(ls -A "$1")" ]; then
    say "$1 exists, and isn't a folder that pobj c made"
    exit 4
  fi
  if ! mkdir -p "$1" 2>/dev/null; then
    say "the folder $1 can't be made"
    exit 4
  fi
}

# Carries out `pobj c DEST` and `pobj c DEST --bare`, for `target`.
library() {
  local to=() bare="" word
  for word; do
    if [ "$word" = --bare ]; then bare=$word; else to+=("$word"); fi
  done
  if [ ${#to[@]} -ne 1 ] || [[ ${to[0]} == -* || -z ${to[0]} ]]; then
    say "c takes a folder, into which it puts the library for C; --bare and --target TARGET may come after it"
    exit 2
  fi
  need_rt "the library has to be built"
  make_folder "${to[0]}"
  need_library
  fill_folder "$(cd "${to[0]}" && pwd)" "$bare"
  say_filled "${to[0]}" "$bare"
}

# Puts into the folder the library, or what --bare asks for.
fill_folder() {
  if [ -n "$2" ]; then put_bare "$1" "$target"; else put_library "$1" "$target"; fi
}

# Says what is in the folder.
say_filled() {
  if [ -n "$2" ]; then
    say "in $1 are lib/pobj.o, include/pobj.h, include/pobj_arena.h and share/pobj/bare, for $target; docs/C.md says how to use them"
  else
    say "in $1 are lib/libpobj.a, include/pobj.h, include/pobj_threads.h and share/pobj/examples; docs/C.md says how to use them"
  fi
}

# Puts into the folder the proved programs.
put_programs() {
  local to=$1 word
  mkdir -p "$to/bin" "$to/share/pobj/picture"
  for word in run check stress text explore; do
    cp "$top/crates/pobj_$word/out/pobj_$word" "$to/bin/"
  done
  cp "$top"/tools/picture/{picture,story,timeline,findings,report,lanes,marks,svg}.py "$to/share/pobj/picture/"
}

# Puts into the folder the command that starts the programs; for a target without programs, only what is for Ada.
put_command() {
  mkdir -p "$1/bin" "$1/share/pobj"
  cp "$top/tools/installed.sh" "$1/bin/pobj"
  cp "$top/tools/words.sh" "$top/tools/nearest.awk" "$1/share/pobj/"
  [ "$2" = x86_64 ] || echo "$2" >"$1/share/pobj/TARGET"
}

# Puts into the folder what makes a runtime folder for Ada, with two Ada programs.
put_ada() {
  mkdir -p "$1/share/pobj/ada"
  cp -r "$top"/bindings/ada/*.* "$top"/bindings/ada/{changes,parts,tests/hangs.adb} "$1/share/pobj/ada/"
}

# Puts into the folder what users read: the README of this name in tools/, the licence, the pages, and the scripts of examples.
put_pages() {
  mkdir -p "$1/docs/pictures"
  sed "s,@version@,$(version)," "$top/tools/$2" >"$1/README.md"
  cp "$top/LICENSE" "$top/VERSION" "$1/"
  cp "$top"/docs/*.md "$top"/docs/*.svg "$1/docs/"
  cp "$top"/docs/pictures/*.svg "$1/docs/pictures/"
  cp -r "$top/examples" "$1/examples"
}

# Puts into the folder what users without the toolchain need. There are programs only for x86-64.
put_all() {
  local to=$1 target=${2-x86_64}
  [ "$target" != x86_64 ] || put_programs "$to"
  put_command "$to" "$target"
  put_library "$to" "$target"
  put_ada "$to"
  if [ "$target" = x86_64 ]; then
    put_pages "$to" archive.md
  else
    put_bare "$to" "$target"
    put_pages "$to" "archive_$target.md"
  fi
  rt version >"$to/KIT"
  (cd "$to" && find . -type f ! -name SHA256SUMS | LC_ALL=C sort | xargs sha256sum >SHA256SUMS)
}

# Packs the folder of this name in the room into an archive: the same bytes from the same files.
pack() {
  (cd "$1" && find "$2" | LC_ALL=C sort | tar -c --no-recursion --mtime=@0 --owner=0 --group=0 --numeric-owner -T - | gzip -n >"$top/$2.tar.gz")
}

# Carries out `pobj dist` for `target`: builds everything, and puts it into one archive, the same bytes from the same sources.
dist() {
  local name room programs=""
  if [ $# -ne 0 ]; then
    say "dist takes no words but --target"
    exit 2
  fi
  [ "$target" != x86_64 ] || programs="the programs, "
  if [ -n "$programs" ]; then build all; else need_rt "the library has to be built"; fi
  need_library
  name=pobj-$(version)-$target-linux
  room=$(mktemp -d)
  put_all "$room/$name" "$target"
  pack "$room" "$name"
  rm -rf "$room"
  say "$name.tar.gz has ${programs}the library, the runtime for Ada, the pages and checksums"
}
