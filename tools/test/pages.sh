# SPDX-License-Identifier: MIT
# shellcheck shell=bash
# Whether the pages are right about the tree: each crate is in the map, links and claims lead somewhere, definitions are listed, what
# must be believed is counted, paragraphs are short, words are plain, wrong bodies are few. Read by `test`, after count.sh.

# How many wrong bodies the tree may have: each costs a quarter of a minute of a full run (CONTRIBUTING.md).
most_edits=237

# How many words all pages together may have, outside of code.
most_words=28500

# Each crate of crates.txt has a row in the map, and each row has a crate.
map_is_whole() {
  local rows names
  rows=$(grep -E '^\| `[a-z]+_[a-z_]+`[ ,]' docs/ARCHITECTURE.md | cut -d'|' -f2 | grep -oE '\b(po|pobj|example|test|bench)_[a-z_]+' | LC_ALL=C sort)
  names=$(crate_names | LC_ALL=C sort)
  if [ "$rows" = "$names" ]; then pass; else fail "docs/ARCHITECTURE.md and crates.txt differ: $(diff <(echo "$rows") <(echo "$names"))"; fi
}

# Each file that a page names is there. A page names it by its path, or by the beginning of its path and a star.
paths_lead_somewhere() {
  local page path
  for page in README.md CONTRIBUTING.md docs/*.md; do
    for path in $(grep -oE '\b(docs|crates|examples|cases|tools|comparison)/[A-Za-z0-9_./-]*[A-Za-z0-9_]' "$page" | grep -v '/out\b' | LC_ALL=C sort -u); do
      if compgen -G "$path*" >/dev/null; then pass; else fail "$page names $path, which isn't there"; fi
    done
  done
}

# Runs a script of Python, shows what it found, and adds its counts.
run_script() {
  local said=$scratch/said-$1
  python3 "tools/test/$1" >"$said" 2>&1
  sed '$d' "$said"
  count "$said" "tools/test/$1"
}

# docs/DEFINITIONS.md has each definition that a public clause cites, and no other.
definitions_are_listed() { run_script definitions.py; }

# No page and no comment has a word that CONTRIBUTING.md ("Words") asks not to use.
words_are_plain() { run_script words.py; }

# docs/TESTING.md has the numbers of schedules that tools/test/every_order.out has.
schedules_are_counted() { run_script schedules.py; }

# docs/PROVED.md has the tables of what must be believed, as believed.py counts them.
believed_is_counted() {
  if diff <(python3 tools/test/believed.py) <(sed -n '/^<!-- what /,/^<!-- until here/p' docs/PROVED.md) >"$scratch/believed"; then
    pass
  else
    fail "docs/PROVED.md and tools/test/believed.py (<) differ: $(cat "$scratch/believed")"
  fi
}

# README.md has the counts of what the headline rests on, alone and with the commands' clauses, of the premise, and of the views.
headline_is_counted() {
  local counted
  while IFS= read -r counted; do
    if grep -qF "$counted" README.md; then pass; else fail "README.md doesn't say '$counted', as docs/PROVED.md counts"; fi
  done < <(sed -nE \
    -e 's/^\| all, for .* \| ([0-9]+) \| ([0-9]+) \|$/\1 definitions in \2 lines/p' \
    -e 's/^\| more, for the premise.* \| [0-9]+ \| ([0-9]+) \|$/(\1 lines)/p' \
    -e 's/^\| more, for the views.* \| [0-9]+ \| ([0-9]+) \|$/(\1 lines)/p' \
    docs/PROVED.md)
}

# Each file, type, function and clause that the table of claims of docs/PROVED.md names is there. A name is followed by its file.
claims_lead_somewhere() {
  local part name names file
  while read -r part; do
    names=$(grep -oE '`[A-Za-z_:]+`' <<<"$part" | tr -d '`' | sed 's/::/\n/')
    file=$(grep -oE '(po|example)_[a-z_]+/src/[a-z_/]+\.rt' <<<"$part" | sed 's:^:crates/:')
    [ -n "$names$file" ] || continue
    if [ -f "$file" ]; then pass; else fail "docs/PROVED.md names '$file', which isn't there"; fi
    for name in $names; do
      if grep -qsE "\\b(fn|struct|trait|impl.*[ :]) ?$name\\b|^> $name\\b|\\bensures $name \\{" "$file"; then pass; else fail "docs/PROVED.md: $name isn't in $file"; fi
    done
  done < <(awk -F'|' '$3 ~ /(po|example)_.*\/src\// { print $3 }' docs/PROVED.md | sed -E 's:`(po|example)_[a-z_]+/src/[a-z_/]+\.rt`:&\n:g')
}

# The code in docs/OBJECTS.md is in the example, word for word.
code_is_the_example() {
  local block source
  source=$(<crates/example_object/src/main.rt)$'\n'
  while IFS= read -r -d '' block; do
    if [[ $source == *"$block"* ]]; then pass; else fail "docs/OBJECTS.md has code that isn't in example_object: $block"; fi
  done < <(awk '/^```$/ && inside { printf "%c", 0; inside = 0 } inside { print } /^```rust$/ { inside = 1 }' docs/OBJECTS.md)
}

# The Ada text at the head of each unit is that of its file in examples/ada/, word for word.
heads_are_the_texts() {
  local head unit text
  for head in $(grep -l '^//! ```ada$' crates/po_classic_units/src/*.rt); do
    unit=$(basename "$head" .rt)
    text=$(sed -n '/^\/\/! ```ada$/,/^\/\/! ```$/{/```/d; s:^//! \{0,1\}::; p}' "$head")
    if [[ $(<"examples/ada/$unit.adb") == *"$text"* ]]; then pass; else fail "the head of $head isn't in examples/ada/$unit.adb"; fi
  done
}

# Each line of code and of definitions that the page quotes is in the crate.
lines_stand_in() {
  local line
  while IFS= read -r line; do
    if grep -rqF --include='*.rt' --include='*.antt' --exclude-dir=out -e "$line" "crates/$2"; then pass; else fail "docs/$1 quotes, not from $2: $line"; fi
  done < <(awk '/^```$/ { inside = 0 } inside && NF { print } /^```(rust|antt)$/ { inside = 1 }' "docs/$1")
}

# No paragraph of a page, outside of tables and code, has more than 500 characters.
paragraphs_are_short() {
  local long
  long=$(awk '/^```/ { code = !code } !code && !/^[|]/ && length > 500 { print FILENAME ":" FNR }' README.md CONTRIBUTING.md docs/*.md)
  if [ -z "$long" ]; then pass; else fail "paragraphs of more than 500 characters: $long"; fi
}

# All pages together are short. A word is anything outside of code that has a letter or a digit.
pages_are_short() {
  local words
  words=$(awk '/^```/ { code = !code } !code && !/^    / { for (at = 1; at <= NF; at++) words += $at ~ /[[:alnum:]]/ } END { print words }' README.md CONTRIBUTING.md docs/*.md)
  if [ "$words" -le "$most_words" ]; then pass; else fail "the pages have $words words, at most $most_words are to be"; fi
}

# The product has no more wrong bodies than a full run has time for.
edits_are_few() {
  local number
  number=$(find crates/po_*/must-fail -name '*.edit' | wc -l)
  if [ "$number" -le "$most_edits" ]; then pass; else fail "$number wrong bodies, at most $most_edits are to be"; fi
}

# Threads share only what po_object has: it asks its `Hook` before each use of its lock, flags and parkers (steps.rt). No other crate
# has any of these, except three files with flags of their own.
steps_are_asked() {
  local file uses asks files
  files=$(grep -rlE '\b(RwLock|Mutex|Condvar|OnceLock|Parker|Unparker|Atomic[A-Z][a-z0-9]*)\b' crates/*/src | grep -vE 'crates/(test|example|bench)_' | sed 's:^crates/::; s:/src/:/:' | LC_ALL=C sort | tr '\n' ' ')
  if [ "$files" = "po_object/object.rt po_object/opening.rt po_object/pass.rt po_object/seat.rt po_scene_stress/course.rt po_scene_stress/tally.rt po_scene_stress/turns.rt po_stress/progress.rt po_threads/watch.rt pobj_stress/watch.rt " ]; then pass; else fail "files with locks, flags or parkers: $files"; fi
  for file in object pass seat; do
    uses=$(grep -cE '\.(try_write|try_read|unpark)\(\)|\.(write|read|park)\(rt\)|\.(load|store|swap|compare_exchange)\(' "crates/po_object/src/$file.rt")
    asks=$(grep -cE 'steps\.(reach|sleeps)\(' "crates/po_object/src/$file.rt")
    if [ "$uses" -eq "$asks" ]; then pass; else fail "$file.rt of po_object uses what threads share $uses times, and asks $asks times"; fi
  done
}

pages() {
  steps_are_asked
  map_is_whole
  paths_lead_somewhere
  definitions_are_listed
  believed_is_counted
  headline_is_counted
  claims_lead_somewhere
  code_is_the_example
  heads_are_the_texts
  lines_stand_in LAWS.md example_readers
  lines_stand_in YOUR_UNIT.md example_unit
  paragraphs_are_short
  pages_are_short
  words_are_plain
  schedules_are_counted
  edits_are_few
  version_is_one
  kit_is_one
}
