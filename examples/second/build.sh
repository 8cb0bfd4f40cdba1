#!/usr/bin/env bash
# Makes sum.bin from sum.s, and schedule.txt. The sum.bin beside them was made by binutils 2.40, of Debian's package
# binutils-aarch64-linux-gnu.

set -e
cd "$(dirname "$(readlink -f "${BASH_SOURCE[0]}")")"
room="$(mktemp -d)"
trap 'rm -rf "$room"' EXIT

# The program names no address that moves, so it needs no linker.
aarch64-linux-gnu-as -o "$room/sum.o" sum.s
aarch64-linux-gnu-objcopy -O binary "$room/sum.o" sum.bin
chmod a-x sum.bin

# 50 steps, of which the program needs 39 to come to its last instruction
for digit in {0..4}; do
    printf "s 0 $digit\n%.0s" {1..10}
done >schedule.txt
