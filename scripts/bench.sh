#!/usr/bin/env bash
# Measures the proved program: how many steps it makes in a second in three loops (data processing alone, branches and
# calls, loads and stores), in a guest that takes an interrupt of its timer every 103 steps and the same guest with the timer
# off, in the example of two VMs that work by interrupts (examples/control, over 1,000,000 events), and in eight VMs in turn;
# how many events of a generated workload; how often runs of few and of many steps took memory; the most memory that it had,
# also by how much of its banks a VM uses; and how long the check of the largest lawful configuration takes.
# `bench.sh IMAGE` measures another image that runs for ever in the place of the three. The variable PROGRAM names another
# program to measure, which is then taken as it is.
#
# Outside the gate, and no judge of time. The status is 1 where a run fails, where its report isn't the one that qemu
# made (bench/LOOP.expected), where a guest took another number of interrupts or messages than it should, where steps take
# memory, or where a small VM of a large bank takes 4 MiB or more; 2 where nothing could be measured. It wants Debian's
# packages time and valgrind, and makes the proved program where it isn't there yet.
#
# bench/LOOP.bin, and timer.bin, is made from its source by aarch64-linux-gnu-as and aarch64-linux-gnu-objcopy -O binary
# (binutils 2.40). bench/LOOP.expected is the report after 1,000,000 steps in qemu-aarch64, as scripts/report-by-qemu.py
# prints it.

top="$(dirname "$(dirname "$(readlink -f "${BASH_SOURCE[0]}")")")"
program="${PROGRAM:-$top/crates/bao/out/bao}"
loops=(data branch memory)
[[ $# == 0 ]] || loops=("$(readlink -f "$1")")
few=1
some=700000
many=1000000
runs=3   # timed ones of each kind, of which the fastest counts
lists=64 # a bound on the times that the schedule's two lists double from few to many
small=4096 # KiB that a run of few steps stays below, with 64 KiB in use of 64 MiB

# Reading a schedule fills two lists, which double where they are full: its bytes, and its events. So the number of
# allocations grows with the schedule, but is the same for some and for many steps: in bytes and in lines these two
# lie between the same powers of two.

give_up() {
    echo "bench: $2" >&2
    exit "$1"
}

for needed in valgrind /usr/bin/time python3 rt; do
    command -v "$needed" >/dev/null || give_up 2 "$needed is missing"
done
room="$(mktemp -d)" || exit 2
trap 'rm -rf "$room"' EXIT

# What is newer than the program: it is made anew then, by a proof of all crates, which takes minutes.
newer() {
    find "$top/crates.txt" "$top"/crates/*/{src,specs,proofs} -newer "$program" -print -quit 2>/dev/null
}

# Without words the program tells its usage, so this shows that it was proved, made and run.
if [[ -z ${PROGRAM:-} && (! -x $program || -n $(newer)) ]]; then
    (cd "$top/crates/bao" && rt run </dev/null 2>"$room/said") >"$room/out"
    grep -q '^usage: ' "$room/out" || give_up 2 "rt run made no proved program: $(tail -n 1 "$room/said")"
fi

cd "$room" || exit 2
cp "$top/examples/first/config.toml" . || exit 2
for steps in "$few" "$some" "$many"; do
    yes 's 0 0' | head -n "$steps" >"schedule-$steps"
done

# Now, in microseconds.
now() {
    echo "${EPOCHREALTIME/[.,]/}"
}

# Runs this many steps below the command of the other words. What the program wrote is in out, and its time in took.
run() {
    local steps="$1" begin
    shift
    begin="$(now)"
    "$@" "$program" run config.toml "schedule-$steps" </dev/null >out ||
        give_up 1 "a run of $steps steps failed: $(head -c 200 out)"
    took=$(($(now) - begin))
    [[ $(tail -n 1 out) == "done" ]] || give_up 1 "a run of $steps steps put out no whole report"
}

# The peak memory, in KiB, of a run of few steps where a VM uses this many bytes of a bank of this many.
peak_of() {
    local used="$1" bank="$2" made="config-$1-$2.toml"
    sed -e "s/size = 0x200000 }/size = $bank }/" -e "s/size = 0x10000, access/size = $used, access/" config.toml >"$made"
    /usr/bin/time -f %M -o memory "$program" run "$made" "schedule-$few" </dev/null >out ||
        give_up 1 "a run with $used bytes in use of $bank failed: $(head -c 200 out)"
    [[ $(tail -n 1 out) == "done" ]] || give_up 1 "a run with $used bytes in use of $bank put out no whole report"
    cat memory
}

# Checks the largest lawful configuration. Its time is in took.
check_largest() {
    local begin
    begin="$(now)"
    /usr/bin/time -f %M -o memory "$program" check largest.toml </dev/null >out ||
        give_up 1 "the check of the largest configuration failed: $(head -c 200 out)"
    took=$(($(now) - begin))
    [[ $(tail -n 1 out) == "ok" ]] || give_up 1 "the check of the largest configuration put out no whole packing"
}

# The image of a loop of bench/, by its name, or any other, by its path.
take_image() {
    local image="$1"
    [[ $image == /* ]] || image="$top/scripts/bench/$1.bin"
    cp "$image" a.bin || give_up 2 "there is no image $image"
}

is_expected() {
    [[ $1 == /* ]] || cmp -s out "$top/scripts/bench/$1.expected"
}

# Measures one loop, and prints how many of its steps a second has.
measure() {
    local loop="$1" number fastest=
    take_image "$loop"
    for ((number = 0; number < runs; number++)); do
        run "$many"
        is_expected "$loop" || give_up 1 "the report after $many steps of $loop isn't the expected one"
        [[ -n $fastest && $took -ge $fastest ]] || fastest="$took"
    done
    echo "$(basename "$loop"): $((many * 1000000 / fastest)) steps per second" \
        "($many steps in $((fastest / 1000)) ms, with reading and report)"
}

for loop in "${loops[@]}"; do
    measure "$loop"
done

# Runs the program on the words some times, by a name for what is run. The least time is in fastest.
run_fastest() {
    local name="$1" number begin took
    shift
    fastest=
    for ((number = 0; number < runs; number++)); do
        begin="$(now)"
        "$program" "$@" </dev/null >out || give_up 1 "a run with $name failed: $(head -c 200 out)"
        took=$(($(now) - begin))
        [[ $(tail -n 1 out) == "done" ]] || give_up 1 "a run with $name put out no whole report"
        [[ -n $fastest && $took -ge $fastest ]] || fastest="$took"
    done
}

# Measures the guest that sets its timer, by a name, the lowest 16 bits of what it writes to CNTV_CTL_EL0, and how many
# interrupts it is to take, which it counts in X4. Each step is handed one count more than the one before.
measure_timer() {
    local name="$1" control="$2" interrupts="$3" found
    take_image timer
    # `movz x0, #control`
    python3 -c "import struct, sys; sys.stdout.buffer.write(struct.pack('<I', 0xd2800000 + ($control << 5)))" |
        dd of=a.bin conv=notrunc status=none || give_up 2 "the image of the timer can't be changed"
    run_fastest "$name" run config.toml counts
    found="$(sed -n 's/^x4 //p' out)"
    ((16#${found:-0} == interrupts)) || give_up 1 "a run with $name took $((16#${found:-0})) interrupts, and not $interrupts"
    echo "$name: $((many * 1000000 / fastest)) steps per second ($many steps in $((fastest / 1000)) ms)"
}

# Measures the example of two VMs that work by interrupts, over a longer schedule of the same kind: 995,024 steps, 4,975 pulses
# and a digit are 1,000,000 events. By then there were 994 ticks, the first at count 1,070 and one each 1,000, and each sample
# was sent and received, as the first two words of the window tell.
measure_control() {
    local example="$top/examples/control"
    cp "$example"/{control.bin,monitor.bin} . && cp "$example/config.toml" control.toml ||
        give_up 2 "examples/control can't be copied"
    "$top/scripts/schedule.py" 995024 --cores 2 --every 12=200 --at 2960=0=7 >control.txt &&
        (($(wc -l <control.txt) == many)) || give_up 2 "scripts/schedule.py made no schedule of $many events"
    run_fastest "two VMs that work by interrupts" run control.toml control.txt
    grep -q '^m 0000000000180000 e2030000e2030000' out || give_up 1 "two VMs that work by interrupts passed other messages"
    echo "two VMs that work by interrupts: $((many * 1000000 / fastest)) events per second" \
        "($many events in $((fastest / 1000)) ms)"
}

if [[ $# == 0 ]]; then
    seq -f 's 0 %.0f' 0 $((many - 1)) >counts
    measure_timer "a timer that is off" 0 0
    measure_timer "a timer's interrupt every 103 steps" 1 9708 # at 114, 217, .. 999,935
    measure_control
fi

# Eight VMs on eight cores, each with the loop of data processing in memory of its own. Whether the time grows as the
# number of steps does shows in the two speeds.
eight_vms() {
    local v ports=
    for ((v = 0; v < 8; v++)); do
        ports+="{ id = $v, base = $((0x9c090000 + 64 * v)), spi = $((32 + v)) }, "
    done
    echo "version = 1
[platform]
banks = [{ base = 0x0, size = 0x1000000 }]
cores = [3, 3, 3, 3, 3, 3, 3, 3]
gicd = 0xaf000000
gicr = 0xaf100000
ports = [$ports]
[hypervisor]
base = 0x0
size = 0x10000"
    for ((v = 0; v < 8; v++)); do
        echo "[[vm]]
name = \"vm$v\"
image = \"a.bin\"
load = $(((v + 1) * 0x100000))
room = 0x8000
entry = $(((v + 1) * 0x100000))
cores = [$v]
regions = [{ base = $(((v + 1) * 0x100000)), size = 0x10000, access = \"rwx\" }]
devs = [{ port = $v, irq = 40 }]"
    done
}

# Measures eight VMs over this many steps, and prints how many a second has.
measure_eight() {
    local steps="$1"
    "$top/scripts/schedule.py" "$steps" --cores 8 >eight.txt || give_up 2 "scripts/schedule.py made no schedule"
    run_fastest "eight VMs" run eight.toml eight.txt
    echo "eight VMs: $((steps * 1000000 / fastest)) steps per second ($steps steps in $((fastest / 1000)) ms)"
}

# Measures the workload of 0, which has 200,000 events.
measure_workload() {
    local begin number fastest= took
    for ((number = 0; number < runs; number++)); do
        begin="$(now)"
        /usr/bin/time -f %M -o memory "$program" gen 0 </dev/null >out || give_up 1 "gen 0 failed: $(head -c 200 out)"
        took=$(($(now) - begin))
        [[ $(tail -n 1 out) == "done" ]] || give_up 1 "gen 0 put out no whole summary"
        [[ -n $fastest && $took -ge $fastest ]] || fastest="$took"
    done
    echo "gen 0: $((200000 * 1000000 / fastest)) events per second (200000 events in $((fastest / 1000)) ms)," \
        "peak memory $(cat memory) KiB"
}

if [[ $# == 0 ]]; then
    measure_workload
    take_image data
    eight_vms >eight.toml
    measure_eight $((many / 2))
    measure_eight "$many"
    take_image "${loops[-1]}"
fi

# What follows is of the last loop.
run "$many" /usr/bin/time -f %M -o memory
peak="$(cat memory)"

# How often a run of this many steps takes memory.
allocations() {
    run "$1" valgrind --leak-check=no --log-file=said
    sed -n 's/.*total heap usage: \([0-9,]*\) allocs.*/\1/p' said | tr -d ,
}

for_few="$(allocations "$few")" && for_some="$(allocations "$some")" && for_many="$(allocations "$many")" || exit 1
[[ $for_few -gt 0 && $for_some -gt 0 && $for_many -gt 0 ]] || give_up 2 "valgrind counted no allocation"

echo "peak memory: $peak KiB"
echo "allocations: $for_few with $few step, $for_some with $some steps, $for_many with $many steps"

narrow="$(peak_of 0x10000 0x200000)" && wide="$(peak_of 0x10000 0x4000000)" && full="$(peak_of 0x3f00000 0x4000000)" || exit 1
echo "peak memory of $few step: $narrow KiB with 64 KiB in use of 2 MiB, $wide KiB with 64 KiB of 64 MiB," \
    "$full KiB with 63 MiB of 64 MiB"

"$top/scripts/bench/largest.py" >largest.toml || give_up 2 "the largest configuration can't be made"
quickest=
for ((number = 0; number < runs; number++)); do
    check_largest
    [[ -n $quickest && $took -ge $quickest ]] || quickest="$took"
done
echo "check of the largest configuration: $((quickest / 1000)) ms, $(cat memory) KiB"

((for_many == for_some)) || give_up 1 "the steps beyond $some took memory"
((for_many - for_few <= lists)) || give_up 1 "more allocations came with the steps than the schedule takes"
((wide < small)) || give_up 1 "$few step took $small KiB or more with 64 KiB in use of 64 MiB"
