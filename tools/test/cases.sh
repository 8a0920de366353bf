# SPDX-License-Identifier: MIT
# shellcheck shell=bash
# The scripts of examples/ and cases/: NAME.pobj, or NAME.make, a line that writes it. NAME.out has what it must write; NAME.err,
# NAME.status and NAME.words, if they are there, have the errors, the status and the words of the command line. Read by `test`.

# Sets the words of the case, its status, and the program that carries it out.
read_case() {
  words=run
  want=0
  [ ! -f "$1.words" ] || words=$(cat "$1.words")
  [ ! -f "$1.status" ] || want=$(cat "$1.status")
  # shellcheck disable=SC2086
  program_of $words
}

# The paths of all cases, without their endings.
all_cases() {
  local file
  for file in examples/*.pobj cases/*.pobj cases/*.make; do
    [ ! -f "$file" ] || echo "${file%.*}"
  done
}

# Writes the script of the case.
script_of() {
  if [ -f "$1.make" ]; then bash "$1.make"; else cat "$1.pobj"; fi
}

# Carries out a case by the built program itself: some words are answered by the script `pobj` (words_of_pobj.sh).
run_case() {
  local base=$1 got words want program path
  read_case "$base"
  path_of "$program"
  # shellcheck disable=SC2086
  "$path" $words < <(script_of "$base") >"$scratch/out" 2>"$scratch/err"
  got=$?
  : >"$scratch/want"
  [ ! -f "$base.err" ] || cp "$base.err" "$scratch/want"
  if [ "$got" -eq "$want" ] && cmp -s "$scratch/out" "$base.out" && cmp -s "$scratch/err" "$scratch/want"; then
    pass
  else
    fail "$base: status $got, wanted $want"
    diff "$base.out" "$scratch/out"
    diff "$scratch/want" "$scratch/err"
  fi
}

# Runs a script from one file into another, one of which fails. The last word is the message that this has to give.
broken() {
  local got
  ./pobj run <"$1" >"$2" 2>"$scratch/err"
  got=$?
  if [ "$got" -eq 4 ] && [ "$(cat "$scratch/err")" = "pobj: $3" ]; then
    pass
  else
    fail "from $1 into $2: status $got, $(cat "$scratch/err")"
  fi
}

# Whether the programs are built from the sources as they are. If one isn't, `pobj` would try the sources.
are_built() {
  local program crates=()
  for program in pobj_run pobj_check pobj_stress pobj_text pobj_explore; do
    list_crates "$program"
    if ! is_fresh "$program"; then
      fail "$program isn't built"
      return 1
    fi
  done
}

# Carries out each case by the built programs, and scripts whose reading or writing fails.
scripts_by_programs() {
  local base bases
  mapfile -t bases < <(all_cases)
  steps_in ${#bases[@]} "$scratch/cases"
  for base in "${bases[@]}"; do
    run_case "$base"
    echo "== $base" >>"$scratch/cases"
  done
  broken / "$scratch/out" "read failed"
  broken examples/buffer.pobj /dev/full "write failed"
}

# Prints the Ada text of the unit that a script begins, if there is one; for a script that begins none, that of the buffer.
text_of() {
  local name
  name=$(awk '$1 == "unit" { print $2; exit }' "$1")
  compgen -G "examples/ada/${name:-buffer}.adb"
}

# Prints the scripts that are carried out on Ada texts too: those of one of the eight units that end well, and those of examples/ada.
# Each line has a script without its ending, and its text.
text_cases() {
  local base words want program text
  for base in $(all_cases) examples/ada/*.pobj; do
    base=${base%.pobj}
    read_case "$base"
    [ ! -f "$base.make" ] && [ "$words $want" = "run 0" ] && text=$(text_of "$base.pobj") || continue
    echo "$base $text"
  done
}

# Prints what such a script answers on its text. A message that is a number is kept only if it is less than 2 ** 23 - 1: a greater
# one is answered by the exception's name.
text_answers() { sed 's/ raised 4294967295$/ raised Failure/' "$1.out"; }

# Carries out these scripts on their texts by the built program.
texts_by_program() {
  local base text path
  path_of pobj_text
  while read -r base text; do
    "$path" run --unit "$text" <"$base.pobj" >"$scratch/out" 2>"$scratch/err"
    text_answers "$base" >"$scratch/want"
    if [ ! -s "$scratch/err" ] && cmp -s "$scratch/out" "$scratch/want"; then
      pass
    else
      fail "$base on $text: $(cat "$scratch/err") $(diff "$scratch/want" "$scratch/out")"
    fi
  done < <(text_cases)
}

# Lays out the first of these scripts for each text as a trial takes them; the built program carries out all of them.
lay_out_texts() {
  local base text name
  mkdir -p "$scratch/$1/cases"
  while read -r base text; do
    name=text-$(tr / - <<<"${base#*/}")
    cp "$base.pobj" "$scratch/$1/cases/$name"
    text_answers "$base" >"$scratch/$1/cases/$name.stdout"
    printf '%s\n' run --unit "$text" >"$scratch/$1/cases/$name.args"
    echo 0 >"$scratch/$1/$name.want"
  done < <(text_cases | awk '!seen[$2]++')
}

# The paths of all scenes, without their endings. NAME.out has what `explore` answers, and NAME.status its status; NAME.err and
# NAME.words, if they are there, have the errors and words that follow the scene's name. NAME.check, if it is there, has what
# `check` answers, and NAME.stress what `stress` with ten runs does.
all_scenes() {
  local file
  for file in examples/scenes/*.scene cases/*.scene; do
    echo "${file%.scene}"
  done
}

# Prints the words that follow the scene's name.
scene_words() { [ ! -f "$1.words" ] || cat "$1.words"; }

# Explores each scene by the built program, and checks some.
scenes_by_program() {
  local base path got
  path_of pobj_explore
  for base in $(all_scenes); do
    # shellcheck disable=SC2046
    "$path" explore "$base.scene" $(scene_words "$base") >"$scratch/out" 2>"$scratch/err"
    got=$?
    : >"$scratch/want"
    [ ! -f "$base.err" ] || cp "$base.err" "$scratch/want"
    if [ "$got" -eq "$(cat "$base.status")" ] && cmp -s "$scratch/err" "$scratch/want" && cmp -s "$scratch/out" "$base.out"; then
      pass
    else
      fail "$base.scene: status $got: $(diff "$scratch/want" "$scratch/err") $(diff "$base.out" "$scratch/out")"
    fi
    if [ -f "$base.check" ]; then same "$("$path" check --scene "$base.scene")" "$(cat "$base.check")" "$base.scene, checked"; fi
    if [ -f "$base.stress" ]; then same "$("$path" stress --scene "$base.scene" --runs 10)" "$(cat "$base.stress")" "$base.scene, with threads"; fi
  done
  stuck_threads
  if timeout 120 python3 tools/test/terminal.py ./pobj explore; then pass; else fail "a search that is ended by ^C"; fi
}

# Whether threads that take two forks in opposite orders get stuck once in 1,000 runs.
stuck_threads() {
  "$path" stress --scene examples/scenes/crossed.scene --runs 1000 >"$scratch/out" 2>&1
  if [ $? -eq 3 ] && grep -q '^callers waited for ever in [0-9]* runs\?; in run [0-9]*:$' "$scratch/out" \
    && grep -q '^1000 runs, [0-9]* calls: each answer is that of its object.s history$' "$scratch/out"; then
    pass
  else
    fail "crossed.scene with threads: $(cat "$scratch/out")"
  fi
}

# Lays out words for a trial, which have this status: lay_out_words PROGRAM NAME STATUS ANSWER WORD..
lay_out_words() {
  : >"$scratch/$1/cases/$2"
  cp "$4" "$scratch/$1/cases/$2.stdout"
  printf '%s\n' "${@:5}" >"$scratch/$1/cases/$2.args"
  echo "$3" >"$scratch/$1/$2.want"
}

# Lays out the scenes as a trial takes them, except those with more than 9,999 situations, which take a trial minutes.
lay_out_scenes() {
  local base name
  mkdir -p "$scratch/$1/cases"
  for base in $(all_scenes); do
    if ! grep -qE '^[0-9]{5,} situations' "$base.out"; then
      name=${base##*/}
      # shellcheck disable=SC2046
      lay_out_words "$1" "scene-$name" "$(cat "$base.status")" "$base.out" explore "$base.scene" $(scene_words "$base")
      [ ! -f "$base.check" ] || lay_out_words "$1" "check-$name" 1 "$base.check" check --scene "$base.scene"
      [ ! -f "$base.stress" ] || lay_out_words "$1" "stress-$name" "$(cat "$base.status")" "$base.stress" stress --scene "$base.scene" --runs 10
    fi
  done
}

# Draws the pages' pictures from the built programs' answers.
pictures_by_programs() {
  local file script
  ./pobj explore examples/scenes/crossed.scene --picture "$scratch/found" >/dev/null 2>&1
  if cmp -s "$scratch/found/1.svg" docs/pictures/crossed.svg; then pass; else fail "./pobj explore --picture differs from docs/pictures/crossed.svg"; fi
  for file in docs/pictures/*.out; do
    script=$(find examples comparison/differences -name "$(basename "$file" .out).pobj")
    if ./pobj picture "$script" 2>&1 | cmp -s - "${file%.out}.svg"; then pass; else fail "./pobj picture $script differs from ${file%.out}.svg"; fi
  done
}

# Types a script at a terminal.
typing() {
  if timeout 120 python3 tools/test/terminal.py ./pobj run; then pass; else fail "a script that is typed"; fi
}

# Lays out the cases of the program as a trial takes them, without those that have a NAME.make: their scripts are big.
lay_out_cases() {
  local base name words want program
  mkdir -p "$scratch/$1/cases"
  for base in $(all_cases); do
    read_case "$base"
    name=$scratch/$1/cases/${base#*/}
    if [ "$program" = "$1" ] && [ ! -f "$base.make" ]; then
      cp "$base.pobj" "$name"
      cp "$base.out" "$name.stdout"
      tr ' ' '\n' <<<"$words" | sed '/^$/d' >"$name.args"
      echo "$want" >"$scratch/$1/${base#*/}.want"
    fi
  done
}

# Lays out, for the program that carries out scripts, a copy of each script that a page has a picture of, with the answers that the
# picture was drawn from.
lay_out_pictures() {
  local file name
  for file in docs/pictures/*.out; do
    name=picture-$(basename "$file" .out)
    python3 tools/picture/pages.py asking "${name#picture-}" >"$scratch/$1/cases/$name"
    cp "$file" "$scratch/$1/cases/$name.stdout"
    echo run >"$scratch/$1/cases/$name.args"
    echo 0 >"$scratch/$1/$name.want"
  done
}

# Carries out the cases of the program by one trial of its sources, and compares what they write and their statuses.
scripts() {
  local file name data=()
  lay_out_cases "$1"
  case $1 in
    pobj_run) lay_out_pictures "$1" ;;
    pobj_text) lay_out_texts "$1" ;;
    pobj_explore) lay_out_scenes "$1" ;;
  esac
  case $1 in
    pobj_text | pobj_explore)
      for file in {examples/ada,examples/scenes,cases}/*.{ads,adb,scene}; do
        [ -f "$file" ] || continue
        data+=(--data "$file=$top/$file")
      done
      ;;
  esac
  steps_in "$(find "$scratch/$1" -maxdepth 1 -name '*.want' | wc -l)" "$scratch/$1/said"
  (cd "crates/$1" && rt try --seconds 120 "${data[@]}" --cases "$scratch/$1/cases") >"$scratch/$1/said" 2>&1
  for file in "$scratch/$1"/*.want; do
    name=$(basename "$file" .want)
    if grep -qE "^case=$name run=ended status=$(cat "$file") .*output=expected" "$scratch/$1/said"; then
      pass
    else
      fail "$name, by a trial: $(grep "^case=$name " "$scratch/$1/said" || tail -n 3 "$scratch/$1/said")"
    fi
  done
}
