#!/usr/bin/env bash
# Makes a.bin from checksum.c, and schedule.txt. The report in `expected` is what scripts/report-by-qemu.py makes of a.bin and
# schedule.txt.

set -e
cd "$(dirname "$(readlink -f "${BASH_SOURCE[0]}")")"
../guest/build.sh a.bin 0x100000 0x8000 0x10000 checksum.c

# 1,000 steps, of which the program needs 896 to come to its last instruction
for digit in {0..9}; do
    printf "s 0 $digit\n%.0s" {1..100}
done >schedule.txt
