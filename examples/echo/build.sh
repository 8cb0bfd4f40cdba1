#!/usr/bin/env bash
# Makes echo.bin from echo.c, and schedule.txt, which feeds the console.

set -e
cd "$(dirname "$(readlink -f "${BASH_SOURCE[0]}")")"
../guest/build.sh echo.bin 0x100000 0x1000 0x4000 echo.c

# 1,500 steps, between which two lines and an empty one come in
../../scripts/schedule.py 1500 --text 0=$'hello\nworld 42\n\n' >schedule.txt
