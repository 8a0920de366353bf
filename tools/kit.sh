# SPDX-License-Identifier: MIT
# shellcheck shell=bash
# The kit: finds its command `rt`, and checks that it is the kit that README.md names. Read by `pobj` and `test`.

# The kit by which everything was proved.
kit=rattle-kit-13f

# The folder of `rt` if it isn't on PATH; POBJ_KIT names another one.
kit_folder=${POBJ_KIT:-/opt/rattle/bin}

# Puts the kit's folder on PATH, if `rt` isn't found without it.
find_kit() {
  if ! command -v rt >/dev/null && [ -x "$kit_folder/rt" ]; then PATH=$PATH:$kit_folder; fi
}

# Warns in one line if `rt` belongs to another kit.
check_kit() {
  local found
  found=$(rt version 2>/dev/null) || true
  [ "${found%% *}" = "$kit" ] || echo "${0##*/}: warning: rt belongs to ${found:-an unknown kit}, but README.md names $kit" >&2
}
