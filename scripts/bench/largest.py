#!/usr/bin/env python3
"""Prints the largest configuration that is lawful: as many banks, cores, ports, shared memories and VMs, and in each VM
as many regions, windows and guards, as the key table allows, all 64 interrupt numbers of each VM, and 32 runs a core.
"""

BANK = 0x800000  # eight of these are 64 MiB
VMS = 8
EVENTS = [8, 8, 8, 8, 8, 8, 7, 7]  # 62 interrupt numbers, and two for the ports


def bank(number):
    return 0x10000000 * (number + 1)


def table(**keys):
    return "{ " + ", ".join(f"{key} = {value}" for key, value in keys.items()) + " }"


def listed(name, tables):
    return f"{name} = [\n" + "".join(f"    {one},\n" for one in tables) + "]"


def regions_and_guards(number):
    """Five guards in the middle of a region, which make two runs of it, and eleven at a region's end."""
    first = bank(number) + 0x200000
    bases = [first + 0x4000 * i for i in range(16)]
    regions = [table(base=hex(base), size="0x2000", access='"rwx"' if i % 2 == 0 else '"r"') for i, base in enumerate(bases)]
    spots = [base + (0x1000 if 1 <= i <= 5 else 0x1FC0) for i, base in enumerate(bases)]
    return regions, [table(base=hex(spot), size="0x40") for spot in spots]


def windows():
    irq = 34
    for shmem, events in enumerate(EVENTS):
        irqs = list(range(irq, irq + events))
        irq += events
        yield table(shmem=shmem, access='"rw"' if shmem % 2 == 0 else '"r"', irqs=irqs)


def vm_lines(number):
    regions, guards = regions_and_guards(number)
    load = hex(bank(number) + 0x200000)
    ports = (2 * number, 2 * number + 1)
    yield "[[vm]]"
    yield f'name = "virtual-machine{number}"'
    yield f'image = "{number}.bin"'
    yield f"load = {load}"
    yield "room = 0x1fc0"
    yield f"entry = {load}"
    yield f"cores = [{number}]"
    yield listed("regions", regions)
    yield listed("devs", [table(port=port, irq=32 + i) for i, port in enumerate(ports)])
    yield listed("ipcs", windows())
    yield listed("guards", guards)


def lines():
    yield "version = 1"
    yield "[platform]"
    yield listed("banks", [table(base=hex(bank(i)), size=hex(BANK)) for i in range(8)])
    yield f"cores = {[32] * VMS}"
    yield "gicd = 0xaf000000"
    yield "gicr = 0xaf100000"
    yield listed("ports", [table(id=i, base=hex(0x9C090000 + 0x10000 * i), spi=32 + i) for i in range(16)])
    yield "[hypervisor]"
    yield f"base = {hex(bank(0))}"
    yield "size = 0x10000"
    for i, events in enumerate(EVENTS):
        yield "[[shmem]]"
        yield f"base = {hex(bank(0) + 0x100000 + 0x1000 * i)}"
        yield "size = 0x1000"
        yield f"events = {events}"
    for number in range(VMS):
        yield from vm_lines(number)


if __name__ == "__main__":
    print("\n".join(lines()))
