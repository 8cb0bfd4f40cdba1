#!/usr/bin/env bash
# The build line of a guest in C: guest/build.sh IMAGE LOAD ROOM MEMORY SOURCE..
# Makes the image from the sources, for a VM whose image is loaded at LOAD, has ROOM bytes at most, and whose memory is the
# MEMORY bytes from LOAD on. The images in the examples were made by gcc 12.2.0 and binutils 2.40, of Debian's packages
# gcc-aarch64-linux-gnu and binutils-aarch64-linux-gnu; other versions may give other images.

set -e
guest="$(dirname "$(readlink -f "${BASH_SOURCE[0]}")")"
image="$1" load="$2" room="$3" memory="$4"
shift 4
elf="$(mktemp)"
trap 'rm -f "$elf"' EXIT

aarch64-linux-gnu-gcc -O2 -Wall -Wextra -ffreestanding -nostdlib -static -mgeneral-regs-only -mno-outline-atomics \
    -mstrict-align -fno-pic -no-pie -fno-stack-protector -fno-asynchronous-unwind-tables -Wl,--build-id=none \
    -Wl,--no-warn-rwx-segments -Wl,--defsym=load="$load",--defsym=room="$room",--defsym=memory="$memory" \
    -I "$guest" -T "$guest/link.ld" -o "$elf" "$guest/start.s" "$@"
aarch64-linux-gnu-objcopy -O binary "$elf" "$image"
chmod a-x "$image"
