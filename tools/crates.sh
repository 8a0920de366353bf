# SPDX-License-Identifier: MIT
# shellcheck shell=bash
# The crates on which a program depends, and whether it is built from the sources as they are. Read by `pobj`, which sets `top`.

# Sets `program` to the one that carries out the words: the first of them names it, or `--unit` with an Ada text after it.
program_of() {
  case "$* " in
    "explore "* | "check "*--scene* | "stress "*--scene*) program=pobj_explore ;;
    "run --unit"* | "check --unit"*) program=pobj_text ;;
    "check "* | "stress "*) program=pobj_$1 ;;
    *) program=pobj_run ;;
  esac
}

# Prints the call of `pobj build` that builds the program.
build_words() {
  if [ "$1" = pobj_run ]; then echo "./pobj build"; else echo "./pobj build ${1#pobj_}"; fi
}

# Prints how many minutes the first build of the programs takes on four processors.
minutes_of() {
  case $* in
    pobj_run) echo "10 to 20" ;;
    pobj_check) echo "15 to 25" ;;
    pobj_stress) echo "20 to 40" ;;
    *pobj_text* | *pobj_explore*) echo "60 to 120" ;;
    *) echo "25 to 45" ;;
  esac
}

# Adds a crate to `crates`, after those that it depends on.
collect() {
  local dep
  [[ -v "needs[$1]" && " ${crates[*]-} " != *" $1 "* ]] || return 0
  for dep in ${needs[$1]}; do
    collect "$dep"
  done
  crates+=("$1")
}

# Sets `crates` to those of the programs, lowest first, and `needs` to what each crate of crates.txt depends on.
list_crates() {
  local name deps
  declare -gA needs=()
  crates=()
  while IFS=: read -r name deps; do
    name=${name%% *}
    [[ -z $name || $name == "#"* ]] || needs[$name]=$deps
  done <"$top/crates.txt"
  for name; do
    collect "$name"
  done
}

# Whether the file is missing, or older than a source of the crates or than the list of crates. The second word is the path of that
# list ("": no list).
is_older() {
  local file=$1 list=$2 crate part sources=()
  shift 2
  [ -z "$list" ] || sources+=("$list")
  [ -e "$file" ] || return 0
  for crate; do
    for part in src specs proofs; do
      [ ! -d "$top/crates/$crate/$part" ] || sources+=("$top/crates/$crate/$part")
    done
  done
  [ -n "$(find "${sources[@]}" -newer "$file" -print -quit)" ]
}

# Sets `path` to the file of the program, whether it is built or not.
path_of() { path=$top/crates/$1/out/$1; }

# Whether the program, whose crates are in `crates`, is built from the sources as they are. The file PROGRAM.begun has the time when
# its build began; a program that `test` built has none.
is_fresh() {
  local built path
  path_of "$1"
  built=$path.begun
  [ -e "$built" ] || built=$path
  [ -x "$path" ] && ! is_older "$built" "$top/crates.txt" "${crates[@]}"
}
