# SPDX-License-Identifier: MIT
# shellcheck shell=bash
# Tests of what draws the pictures, and of the pages' pictures, which have to be as they would be drawn now. Read by `test`.

pictures() {
  local name
  for name in pictures finding_pictures; do
    python3 "tools/test/$name.py" >"$scratch/$name" 2>&1 || sed '$d' "$scratch/$name"
    count "$scratch/$name" "tools/test/$name.py"
  done
}
