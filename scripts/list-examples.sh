#!/usr/bin/env bash
# Lists each image of examples/, and of the files that are named, and assembles the listing again: it must be the image.
# Outside the gate, which tries the same with the bytes as they stand in asm_tests. Status 1 where an image doesn't come back.

top="$(dirname "$(dirname "$(readlink -f "${BASH_SOURCE[0]}")")")"
room="$(mktemp -d)" || exit 2
trap 'rm -rf "$room"' EXIT
status=0
for image in "$top"/examples/*/*.bin "$@"; do
    image="$(readlink -f "$image")"
    if "$top/bin/bao_asm" list "$image" >"$room/listing" && "$top/bin/bao_asm" asm "$room/listing" >"$room/image" &&
        cmp -s "$room/image" "$image"; then
        echo "$image: $(wc -l <"$room/listing") lines"
    else
        echo "list-examples: $image doesn't come back" >&2
        status=1
    fi
done
exit "$status"
