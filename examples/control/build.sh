#!/usr/bin/env bash
# Makes control.bin, monitor.bin and schedule.txt.

set -e
cd "$(dirname "$(readlink -f "${BASH_SOURCE[0]}")")"
../guest/build.sh control.bin 0x100000 0x2000 0x10000 control.c ../guest/vectors.s
../guest/build.sh monitor.bin 0x140000 0x2000 0x10000 monitor.c ../guest/vectors.s

# 9,000 steps, which are eight ticks, the cores in turn; a pulse of the wheel each 200 steps; the operator types 7 shortly
# before the third tick, and 3 in the middle of the sixth
../../scripts/schedule.py 9000 --cores 2 --every 12=200 --at 2960=0=7 --at 6130=0=3 >schedule.txt
