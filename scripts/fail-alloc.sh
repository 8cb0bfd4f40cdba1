#!/usr/bin/env bash
# Refuses each allocation of the first example's run in turn, then each of the check of its configuration, and then each of the
# workload of 0. Each such run must end with status 10, the one line `out of memory` and nothing else; or, where std asks for
# memory that it can do without, with the whole text. The runs with no refusal must print the first report, the packing and the
# summary. `fail-alloc.sh run`, `check` or `gen` does one of the three alone. The variable PROGRAM
# names another program, which is then taken as it is.
#
# Outside the gate: it runs the proved program with a small library before the C library's, which refuses the call of a number.
# It wants cc.

top="$(dirname "$(dirname "$(readlink -f "${BASH_SOURCE[0]}")")")"
program="${PROGRAM:-$top/crates/bao/out/bao}"
first="$top/examples/first"

room="$(mktemp -d)" || exit 2
trap 'rm -rf "$room"' EXIT
printf 'out of memory\n' >"$room/refused"
cat >"$room/packing" <<'TEXT'
core 0 vm a runs 3 entries 16
entry 0 0000000000000002 000000000000ffc1
entry 1 0000000000100004 000000000010ffc1
entry 2 000000009c090006 000000009c090003
ok
TEXT
# As a program of another language computes it from docs/formats.md.
cat >"$room/summary" <<'TEXT'
vm g0 x0 000000000219ea63 out 18676 sum 00245586
vm g1 x0 0000000000f6827a out 18832 sum 0024a198
done
TEXT
cat >"$room/refuse.c" <<'CODE'
#define _GNU_SOURCE
#include <dlfcn.h>
#include <stdio.h>
#include <stdlib.h>

static unsigned long calls;

// Whether this call is the one of the number in FAIL_ALLOC, counted from 1.
static int is_refused(void)
{
    return ++calls == strtoul(getenv("FAIL_ALLOC"), NULL, 10);
}

void *malloc(size_t size)
{
    static void *(*next)(size_t);
    if (next == NULL) next = (void *(*)(size_t))dlsym(RTLD_NEXT, "malloc");
    return is_refused() ? NULL : next(size);
}

void *realloc(void *old, size_t size)
{
    static void *(*next)(void *, size_t);
    if (next == NULL) next = (void *(*)(void *, size_t))dlsym(RTLD_NEXT, "realloc");
    return is_refused() ? NULL : next(old, size);
}

__attribute__((destructor)) static void tell(void)
{
    fprintf(stderr, "%lu\n", calls);
}
CODE
"${CC:-cc}" -O1 -shared -fPIC -o "$room/refuse.so" "$room/refuse.c" -ldl || exit 2
if [[ ! -x $program ]]; then
    echo "fail-alloc: there is no proved program; 'rt ci' or 'rt run' in crates/bao makes it" >&2
    exit 2
fi
mkdir "$room/files"
cp "$first/config.toml" "$first/schedule.txt" "$first/a.bin" "$room/files/" || exit 2
cd "$room/files" || exit 2

# Does the words with the allocation of this number refused. What the program wrote is in out, and its status in status.
run() {
    local number="$1"
    shift
    FAIL_ALLOC="$number" LD_PRELOAD="$room/refuse.so" "$program" "$@" </dev/null >"$room/out" 2>"$room/said"
    status=$?
}

is_text() {
    [[ $status == 0 ]] && cmp -s "$room/out" "$1"
}

is_refusal() {
    [[ $status == 10 ]] && cmp -s "$room/out" "$room/refused"
}

otherwise=0
tell_otherwise() {
    otherwise=$((otherwise + 1))
    echo "allocation $1 of $2 refused: status $status, and this was written:"
    head -c 2000 "$room/out"
}

# Refuses each allocation of these words in turn. With none refused they must give the text of this file.
refuse_each() {
    local text="$1" number count refused=0
    shift
    run 0 "$@"
    is_text "$text" || tell_otherwise none "$1"
    count="$(tail -n 1 "$room/said")"
    for ((number = 1; number <= count; number++)); do
        run "$number" "$@"
        if is_refusal; then
            refused=$((refused + 1))
        else
            is_text "$text" || tell_otherwise "$number" "$1"
        fi
    done
    echo "allocations of $1: $count, of which $refused are needed"
    ((refused > 0)) || otherwise=$((otherwise + 1))
}

commands=("$@")
[[ $# != 0 ]] || commands=(run check gen)
for command in "${commands[@]}"; do
    case "$command" in
        run) refuse_each "$top/crates/bao/stdout" run config.toml schedule.txt ;;
        check) refuse_each "$room/packing" check config.toml ;;
        gen) refuse_each "$room/summary" gen 0 ;;
        *) echo "fail-alloc: $command is none of run, check and gen" >&2; exit 2 ;;
    esac
done
echo "with one of them refused, answers other than these: $otherwise"
((otherwise == 0))
