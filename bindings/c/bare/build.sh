#!/bin/sh
# SPDX-License-Identifier: MIT
# Builds the example in a folder that `pobj c DEST --bare` made: build.sh [COMPILER] makes DEST/share/pobj/bare/control. The compiler
# is gcc, or for aarch64 aarch64-linux-gnu-gcc.
set -eu
cd "$(dirname "$0")"
root=../../..
words="-std=c11 -O2 -Wall -Wextra -ffreestanding -fno-builtin -fno-stack-protector -fno-pie"
words="$words -ffunction-sections -fdata-sections -nostdlib -static -no-pie -Wl,--gc-sections -Wl,--build-id=none"
# e_machine of the object: 183 is aarch64's.
case $(od -An -tu2 -j18 -N2 $root/lib/pobj.o | tr -d ' ') in
  183)
    compiler=${1-aarch64-linux-gnu-gcc}
    machine="virt.c -Wl,-T,virt.ld"
    run="qemu-system-aarch64 -M virt -cpu cortex-a53 -nographic -nic none -semihosting -kernel $PWD/control"
    ;;
  *)
    compiler=${1-gcc}
    machine=linux.c
    run=$PWD/control
    ;;
esac
if ! command -v "$compiler" >/dev/null; then
  echo "build.sh: there is no compiler $compiler" >&2
  exit 1
fi
"$compiler" --version | grep -q clang || words="$words -fno-tree-loop-distribute-patterns"
# shellcheck disable=SC2086
"$compiler" $words "-I$root/include" control.c arena.c $machine $root/lib/pobj.o -o control
echo "to run it: $run"
