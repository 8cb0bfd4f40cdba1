#!/usr/bin/env python3
"""Draws a configuration as an SVG picture, on standard output:

    memory-map.py CONFIG [PACKING]

PACKING is a file with what `bao check CONFIG` prints. Without it the proved program is asked, where it is there; else the
picture has no counts of entries. It wants Python 3.11, and judges nothing: `check` does. A dev without its port and a
window without its shared memory have no bytes, and aren't drawn.

Addresses go from top to bottom. A stretch between two of them has the same height however long it is, and a stretch
where nothing is stands as a gap. What a column shows of a byte is what the VM has there: a later kind lies over an
earlier one, as in the map of a VM.
"""

import subprocess
import sys
import tomllib
from dataclasses import dataclass
from html import escape
from pathlib import Path

TOP = Path(__file__).resolve().parent.parent
PORT_SIZE = 0x40
GICD_SIZE = 0x10000
GICR_SIZE = 0x20000  # for each core

HEAD = 46  # height of the columns' names
ROW = 26  # height of a stretch of addresses
GAP = 14  # height of a stretch where nothing is
SIDE = 150  # width of the addresses
COLUMN = 150
SPACE = 26  # between columns
LINE = 22  # height of a core's line
CELL = 11  # width of an entry

FILLS = {
    "bank": "#e9e9e9",
    "frame": "#d9d2e9",
    "port": "#f9d58b",
    "hypervisor": "#e8a3a0",
    "shmem": "#a9d3c8",
    "memory": "#a8c8ea",
    "window": "#a9d3c8",
    "guard": "url(#guard)",
}


@dataclass
class Box:
    """A range of addresses in a column."""

    kind: str
    base: int
    size: int
    label: str

    @property
    def end(self):
        return self.base + self.size


@dataclass
class Column:
    name: str
    under: str  # a second line below the name
    boxes: list
    image: Box | None = None
    entry: int | None = None


@dataclass
class Core:
    """What a check says of a core; nothing of its entries in use where it wasn't asked."""

    number: int
    owner: str
    used: int | None
    entries: int


def size_text(size):
    for unit, name in ((1 << 40, "TiB"), (1 << 30, "GiB"), (1 << 20, "MiB"), (1 << 10, "KiB")):
        if size % unit == 0:
            return f"{size // unit} {name}"
    return f"{size} bytes"


def sized(kind, label, table):
    return Box(kind, table["base"], table["size"], f"{label} {size_text(table['size'])}")


def platform_column(config):
    platform = config["platform"]
    boxes = [sized("bank", f"bank {i},", bank) for i, bank in enumerate(platform["banks"])]
    boxes.append(Box("frame", platform["gicd"], GICD_SIZE, "distributor"))
    boxes.append(Box("frame", platform["gicr"], GICR_SIZE * len(platform["cores"]), "redistributors"))
    for port in platform.get("ports", []):
        boxes.append(Box("port", port["base"], PORT_SIZE, f"port {port['id']}, spi {port['spi']}"))
    return Column("platform", f"{len(platform['cores'])} cores", boxes)


def shared_column(config):
    boxes = [sized("hypervisor", "hypervisor", config["hypervisor"])]
    boxes += [sized("shmem", f"shared {i},", shmem) for i, shmem in enumerate(config.get("shmem", []))]
    return Column("shared", "and the hypervisor's", boxes)


def vm_column(config, vm):
    ports = {port["id"]: port["base"] for port in config["platform"].get("ports", [])}
    shmems = config.get("shmem", [])
    boxes = [sized("memory", region["access"], region) for region in vm["regions"]]
    for dev in vm.get("devs", []):
        if dev["port"] in ports:
            boxes.append(Box("port", ports[dev["port"]], PORT_SIZE, f"port {dev['port']}, irq {dev['irq']}"))
    for ipc in vm.get("ipcs", []):
        if ipc["shmem"] < len(shmems):
            boxes.append(sized("window", f"window {ipc['shmem']}, {ipc['access']}", shmems[ipc["shmem"]]))
    boxes += [sized("guard", "guard", guard) for guard in vm.get("guards", [])]
    cores = ", ".join(str(core) for core in vm["cores"])
    image = Box("image", vm["load"], vm["room"], "image")
    return Column(vm["name"], f"cores {cores}" if len(vm["cores"]) > 1 else f"core {cores}", boxes, image, vm["entry"])


class Scale:
    """From addresses to heights."""

    def __init__(self, columns):
        boxes = [box for column in columns for box in column.boxes]
        boxes += [column.image for column in columns if column.image]
        self.cuts = sorted({cut for box in boxes for cut in (box.base, box.end)})
        self.heights = [HEAD]
        for low, high in zip(self.cuts, self.cuts[1:]):
            is_gap = not any(box.base <= low and high <= box.end for box in boxes)
            self.heights.append(self.heights[-1] + (GAP if is_gap else ROW))

    @property
    def bottom(self):
        return self.heights[-1]

    def at(self, address):
        for low, high, top, bottom in zip(self.cuts, self.cuts[1:], self.heights, self.heights[1:]):
            if low <= address < high:
                return top + (bottom - top) * (address - low) / (high - low)
        return self.bottom


def text(x, y, words, extra=""):
    return f'<text x="{x:g}" y="{y:g}" {extra}>{escape(words)}</text>'


def rect(x, y, width, height, fill, extra='stroke="#444"'):
    return f'<rect x="{x:g}" y="{y:g}" width="{width:g}" height="{height:g}" fill="{fill}" {extra}/>'


def draw_axis(scale, width):
    for cut, y in zip(scale.cuts, scale.heights):
        yield f'<line x1="{SIDE - 6}" x2="{width}" y1="{y:g}" y2="{y:g}" stroke="#ddd"/>'
        yield text(SIDE - 10, y + 4, f"0x{cut:x}", 'text-anchor="end" font-family="monospace"')


def draw_box(scale, left, box):
    top, bottom = scale.at(box.base), scale.at(box.end)
    yield rect(left, top, COLUMN, bottom - top, FILLS[box.kind])
    yield text(left + COLUMN / 2, min((top + bottom) / 2, top + ROW / 2) + 4, box.label, 'text-anchor="middle"')


def draw_column(scale, left, column):
    middle = left + COLUMN / 2
    yield text(middle, 16, column.name, 'text-anchor="middle" font-weight="bold"')
    yield text(middle, 32, column.under, 'text-anchor="middle"')
    for box in column.boxes:
        yield from draw_box(scale, left, box)
    if column.image:
        top, bottom = scale.at(column.image.base), scale.at(column.image.end)
        yield rect(left - 8, top, 6, bottom - top, "#33608c", "")
    if column.entry is not None:
        y = scale.at(column.entry)
        yield f'<path d="M{left - 18:g} {y - 4:g} l8 4 l-8 4 z" fill="#b03030"/>'


def draw_joins(scale, lefts, columns):
    """A line from each window to the shared memory, whose address is the same."""
    shared = lefts[1] + COLUMN
    for left, column in zip(lefts, columns):
        for box in column.boxes:
            if box.kind == "window":
                y = (scale.at(box.base) + scale.at(box.end)) / 2
                yield f'<line x1="{shared}" x2="{left}" y1="{y:g}" y2="{y:g}" stroke="#2a7d6b" stroke-width="2"/>'


def draw_key(y):
    yield rect(SIDE - 8, y - 10, 6, 14, "#33608c", "")
    yield text(SIDE + 6, y, "place of the image")
    yield f'<path d="M{SIDE + 132} {y - 7} l8 4 l-8 4 z" fill="#b03030"/>'
    yield text(SIDE + 148, y, "first instruction")


def draw_core(y, core):
    yield text(SIDE - 10, y, f"core {core.number}, {core.owner}", 'text-anchor="end"')
    for entry in range(core.entries):
        is_used = core.used is not None and entry < core.used
        yield rect(SIDE + CELL * entry, y - 10, CELL - 2, 12, "#33608c" if is_used else "#fff")
    used = "" if core.used is None else f"{core.used} of "
    yield text(SIDE + CELL * core.entries + 8, y, f"{used}{core.entries} entries")


def draw(config, cores):
    columns = [platform_column(config), shared_column(config)] + [vm_column(config, vm) for vm in config["vm"]]
    scale = Scale(columns)
    lefts = [SIDE + SPACE + (COLUMN + SPACE) * i for i in range(len(columns))]
    width = lefts[-1] + COLUMN + SPACE
    below = scale.bottom + 34
    height = below + LINE * (len(cores) + 1)
    parts = [
        f'<svg xmlns="http://www.w3.org/2000/svg" width="{width}" height="{height:g}" font-family="sans-serif" font-size="12">',
        '<defs><pattern id="guard" width="6" height="6" patternUnits="userSpaceOnUse">',
        '<rect width="6" height="6" fill="#fff"/><path d="M0 6 L6 0" stroke="#888"/></pattern></defs>',
        rect(0, 0, width, height, "#fff", ""),
        *draw_axis(scale, width),
        *draw_joins(scale, lefts, columns),
    ]
    for left, column in zip(lefts, columns):
        parts += draw_column(scale, left, column)
    parts += draw_key(below)
    for i, core in enumerate(cores):
        parts += draw_core(below + LINE * (i + 1), core)
    return "\n".join([*parts, "</svg>"])


def packed_cores(packing):
    """The cores in what `check` prints."""
    lines = packing.splitlines()
    if not lines or lines[-1] != "ok":
        sys.exit(f"memory-map: check says: {lines[0] if lines else 'nothing'}")
    words = [line.split() for line in lines if line.startswith("core ")]
    return [Core(int(core), name, int(runs), int(most)) for _, core, _, name, _, runs, _, most in words]


def unpacked_cores(config):
    owners = {core: vm["name"] for vm in config["vm"] for core in vm["cores"]}
    return [Core(i, owners.get(i, "-"), None, most) for i, most in enumerate(config["platform"]["cores"])]


def main():
    if len(sys.argv) not in (2, 3):
        sys.exit("usage: memory-map.py CONFIG [PACKING]")
    path = Path(sys.argv[1]).resolve()
    config = tomllib.loads(path.read_text())
    if len(sys.argv) == 3:
        cores = packed_cores(Path(sys.argv[2]).read_text())
    elif (TOP / "crates/bao/out/bao").exists():
        check = [TOP / "bin/bao", "check", path]
        cores = packed_cores(subprocess.run(check, capture_output=True, text=True, check=False).stdout)
    else:
        cores = unpacked_cores(config)
    print(draw(config, cores))


if __name__ == "__main__":
    main()
