#!/usr/bin/env bash
# Makes client.bin, server.bin and schedule.txt.

set -e
cd "$(dirname "$(readlink -f "${BASH_SOURCE[0]}")")"
../guest/build.sh client.bin 0x100000 0x1000 0x10000 client.c
../guest/build.sh server.bin 0x140000 0x1000 0x10000 server.c ../guest/start_secondary.s

# 4,400 steps, of which 4,279 are needed: of each seven the client takes two, and the server's cores three and two
../../scripts/schedule.py 4400 --weights 2,3,2 >schedule.txt
