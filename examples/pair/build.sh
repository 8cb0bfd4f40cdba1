#!/usr/bin/env bash
# Makes sender.bin, receiver.bin and schedule.txt. Those beside it were made by binutils 2.40, of Debian's package
# binutils-aarch64-linux-gnu.

set -e
cd "$(dirname "$(readlink -f "${BASH_SOURCE[0]}")")"
room="$(mktemp -d)"
trap 'rm -rf "$room"' EXIT

# The programs name no address that moves, so they need no linker.
for name in sender receiver; do
    aarch64-linux-gnu-as -o "$room/$name.o" "$name.s"
    aarch64-linux-gnu-objcopy -O binary "$room/$name.o" "$name.bin"
    chmod a-x "$name.bin"
done

# both cores in turn, 100 steps each
../../scripts/schedule.py 200 --cores 2 >schedule.txt
