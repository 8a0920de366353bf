#!/usr/bin/env bash
# SPDX-License-Identifier: MIT
# Unpacks Debian 12's GNAT 11 into a folder outside the repository, for the tests that run over it: Debian's packages of GNAT 11 and
# 12 exclude each other.
#   gnat_11.sh FOLDER
set -eu
if [ $# -ne 1 ] || [ -z "$1" ]; then
  echo "usage: tools/test/gnat_11.sh FOLDER" >&2
  exit 2
fi
if [ -x "$1/usr/bin/gnatls-11" ]; then exit; fi
mkdir -p "$1"
cd "$1"
apt-get download -q gnat-11 libgnat-11 gcc-11 libgcc-11-dev
for package in ./*.deb; do
  dpkg-deb -x "$package" .
  rm "$package"
done
