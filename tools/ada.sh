# SPDX-License-Identifier: MIT
# shellcheck shell=bash
# The runtime folder for Ada programs of GNAT, and its check. Read by `pobj`, after library.sh, which sets `target`. In the archive
# bin/pobj does the same with the library that is there.

# Carries out `pobj ada`: builds the library if it is needed and isn't built, and leaves the rest to bindings/ada/. A call
# with two words needs no library.
ada() {
  local room status=0 of_target=()
  [ "${target-x86_64}" = x86_64 ] || of_target=(--target "$target")
  "$top/bindings/ada/ada.sh" - "${of_target[@]}" "${@:-}" || exit
  [ $# -ne 2 ] || exit 0
  need_rt "the library has to be built"
  need_library
  room=$(mktemp -d)
  put_archive "$room" "${target-x86_64}"
  "$top/bindings/ada/ada.sh" "$room/libpobj.a" "${of_target[@]}" "${@:-}" || status=$?
  rm -rf "$room"
  exit "$status"
}
