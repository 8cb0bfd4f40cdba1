#!/usr/bin/env python3
"""Compares the proved program with qemu-aarch64 on random guests:

    compare-with-qemu.py SEED COUNT

Outside the gate: it wants the proved program (crates/bao/out/bao, or what the variable BAO names), qemu-aarch64 as
report-by-qemu.py does, and aarch64-linux-gnu-objdump to show a difference. It prints how much agreed, or the first
difference, and then the status is 1.

A guest sets all registers and the flags, and then come cases: each is one word of a row of the A64 base integer set
with random fields, edge values favoured, and the words before it that make its registers fit. After each case both
reports must be the same, byte by byte. Words that are undefined or unpredictable aren't drawn, nor YIELD and WFE, over
which qemu goes two words in one step. Loads and stores go to the end of the image, where random bytes lie, and after
it. Branches lead over some words, or back to them.
"""

import difflib
import importlib.util
import os
import random
import shutil
import struct
import subprocess
import sys
import tempfile
import types

sys.dont_write_bytecode = True  # the import would leave a folder behind
# By its own choice qemu has pointer authentication, and then some of the hints do more than nothing.
os.environ.setdefault("QEMU_CPU", "cortex-a57")

HERE = os.path.dirname(os.path.abspath(__file__))
SPEC = importlib.util.spec_from_file_location("by_qemu", os.path.join(HERE, "report-by-qemu.py"))
by_qemu = importlib.util.module_from_spec(SPEC)
SPEC.loader.exec_module(by_qemu)

BAO = os.path.abspath(os.environ.get("BAO", os.path.join(HERE, "../crates/bao/out/bao")))
CONFIG = os.path.join(HERE, "../examples/first/config.toml")
CASES = 200
ORIGIN = by_qemu.BASE
END = ORIGIN + by_qemu.SIZE
LIMIT = ORIGIN + 0x8000  # the end of the largest image
FILLED = 0x100  # random bytes at the image's end
FAR = 0x10F000  # loads and stores go below, or to the last bytes of memory
ONES = 2**64 - 1
TO_ITSELF = 0x14000000
SP = ZR = 31
LINK = 30


def number(r, width):
    """A number of this many bits."""
    top = 1 << width
    return r.choice((0, 1, top // 2 - 1, top // 2, top - 1)) if r.random() < 0.4 else r.randrange(top)


def value(r):
    """What a register holds: numbers of several widths, with zeros or ones above them."""
    low = number(r, r.choice((8, 16, 32, 64, 64)))
    return low if r.random() < 0.7 else low ^ ONES


def register(r):
    return r.choice((0, 1, LINK, ZR, ZR)) if r.random() < 0.3 else r.randrange(32)


def signed(bits, width):
    return bits - (bits >> (width - 1) << width)


class Row:
    """Words of one form. Its parts from bit 31 down are fixed digits, registers (r..), or fields with their widths."""

    def __init__(self, parts, lawful=lambda fields: True):
        self.lawful = lawful
        self.parts = []  # name and width of a field, or digits
        for part in parts.split():
            name, _, width = part.partition(":")
            self.parts.append((name, len(name) if name[0] in "01" else int(width or (5 if name[0] == "r" else 1))))
        assert sum(width for _, width in self.parts) == 32, parts

    def draw(self, r):
        while True:
            free = [(name, width) for name, width in self.parts if name[0] not in "01"]
            drawn = {name: register(r) if name[0] == "r" else number(r, width) for name, width in free}
            fields = types.SimpleNamespace(**drawn)
            if self.lawful(fields):
                return fields

    def word(self, fields):
        word = 0
        for name, width in self.parts:
            bits = int(name, 2) if name[0] in "01" else getattr(fields, name)
            word = word << width | bits % (1 << width)
        return word


def is_mask(f):
    """Whether a logical immediate isn't reserved."""
    length = (f.n << 6 | f.imms ^ 63).bit_length() - 1
    ones = (1 << max(length, 0)) - 1
    return f.n <= f.sf and length >= 1 and f.imms & ones != ones


PLAIN = [
    Row("op immlo:2 10000 immhi:19 rd"),
    Row("sf op s 100010 sh imm:12 rn rd"),
    Row("sf opc:2 100100 n immr:6 imms:6 rn rd", is_mask),
    Row("sf opc:2 100101 hw:2 imm:16 rd", lambda f: f.opc != 1 and f.hw < 2 + 2 * f.sf),
    Row(
        "sf opc:2 100110 n immr:6 imms:6 rn rd",
        lambda f: f.opc < 3 and f.n == f.sf and max(f.immr, f.imms) < 32 + 32 * f.sf,
    ),
    Row("sf 00100111 n 0 rm imms:6 rn rd", lambda f: f.n == f.sf and f.imms < 32 + 32 * f.sf),
    Row("sf opc:2 01010 shift:2 n rm amount:6 rn rd", lambda f: f.amount < 32 + 32 * f.sf),
    Row("sf op s 01011 shift:2 0 rm amount:6 rn rd", lambda f: f.shift < 3 and f.amount < 32 + 32 * f.sf),
    Row("sf op s 01011001 rm option:3 amount:3 rn rd", lambda f: f.amount <= 4),
    Row("sf op s 11010000 rm 000000 rn rd"),
    Row("sf op 111010010 rm cond:4 i 0 rn 0 nzcv:4"),
    Row("sf op 011010100 rm cond:4 0 o2 rn rd"),
    Row("sf 0011011 op31:3 rm o0 ra rn rd", lambda f: f.op31 == 0 or f.sf and f.op31 in (1, 5)),
    Row("10011011 u 10 rm 011111 rn rd"),  # the high halves, whose unused register must be 31
    Row("sf 0011010110 rm opcode:6 rn rd", lambda f: f.opcode in (2, 3, 8, 9, 10, 11)),
    Row("sf 101101011000000 opcode:6 rn rd", lambda f: f.opcode < 6 and (f.sf, f.opcode) != (0, 3)),
    Row("11010101000000110010 crm:4 op2:3 11111", lambda f: (f.crm, f.op2) not in ((0, 1), (0, 2))),
    Row("11010101000000110011 crm:4 op2:3 11111", lambda f: f.op2 in (2, 4, 5, 6)),
]


def is_pair(f):
    """Not mode 0, nor a signed store, a load of one register twice, or write-back to a register of the pair."""
    overwritten = f.mode != 2 and f.rn != SP and f.rn in (f.rt, f.rt2)
    return 0 < f.mode < 4 and f.opc < 3 and not (overwritten or (f.rt == f.rt2 if f.l else f.opc == 1))


def is_transfer(f):
    return f.size < 2 or f.opc < 3


def is_prefetch(f):
    return f.size == 3 and f.opc == 2


def is_indexed(f):
    overwritten = f.rn != SP and f.rn == f.rt
    return is_transfer(f) and f.m != 2 and (f.m == 0 or not (is_prefetch(f) or overwritten))


LITERAL = Row("opc:2 011000 imm:19 rt")
PAIR = Row("opc:2 1010 mode:3 l imm:7 rt2 rn rt", is_pair)
UNSIGNED = Row("size:2 111001 opc:2 imm:12 rn rt", is_transfer)
INDEXED = Row("size:2 111000 opc:2 0 imm:9 m:2 rn rt", is_indexed)
REGISTER = Row("size:2 111000 opc:2 1 rm option:3 s 10 rn rt", lambda f: is_transfer(f) and f.option & 2)

JUMP = Row("op 00101 imm:26")
TO_REGISTER = Row("110101100 opc:2 11111000000 rn 00000", lambda f: f.opc < 3 and f.rn != ZR)
COMPARED = Row("sf 011010 op imm:19 rt")
TESTED = Row("b5 011011 op b40:5 imm:14 rt")
BRANCHES = [JUMP, Row("01010100 imm:19 0 cond:4"), COMPARED, TESTED, TO_REGISTER]


def moves(target, whole):
    """MOVZ, and MOVK where there is something to keep."""
    parts = [(at, whole >> 16 * at & 0xFFFF) for at in range(4)]
    return [(0xF2800000 if at else 0xD2800000) | at << 21 | part << 5 | target for at, part in parts if part or not at]


def plain(r, here):
    row = r.choice(PLAIN)
    fields = row.draw(r)
    words = []
    for name in ("rn", "rm", "ra"):
        source = vars(fields).get(name, ZR)
        if source != ZR and r.random() < 0.4:
            words += moves(source, value(r))
    return words + [row.word(fields)]


def place(r, width):
    """Where this many bytes lie that may be read and written."""
    near = r.randrange(LIMIT - FILLED, LIMIT + FILLED)
    return r.choice((near, near, near, r.randrange(LIMIT, FAR), END - width))


def literal(r, here):
    fields = LITERAL.draw(r)
    if fields.opc < 3:
        target = r.choice((r.randrange(ORIGIN, here + 4, 4), place(r, 8) & ~3))
        fields.imm = (target - here) // 4
    return [LITERAL.word(fields)]


def extended(whole, option):
    """An offset of 32 or 64 bits, signed where the option's first bit is set."""
    width = 64 if option & 1 else 32
    low = whole % (1 << width)
    return signed(low, width) if option & 4 else low


def transfer(r, here):
    """A load or store at a base; base and offset are set so that it lies in memory. Prefetches may go anywhere."""
    row = r.choice((PAIR, UNSIGNED, INDEXED, REGISTER))
    f = row.draw(r)
    if row is not PAIR and is_prefetch(f):
        return [row.word(f)]
    scale = 2 + f.opc // 2 if row is PAIR else f.size
    target = place(r, (2 if row is PAIR else 1) << scale)
    words = []
    offset = 0  # of the access: the modes that write back afterwards have none
    if row is PAIR and f.mode != 1:
        offset = signed(f.imm, 7) << scale
    elif row is UNSIGNED:
        offset = f.imm << scale
    elif row is INDEXED and f.m != 1:
        offset = signed(f.imm, 9)
    elif row is REGISTER and f.rm == f.rn != ZR:
        offset = target - target // (1 + (1 << scale * f.s))  # the base is its own offset, but for some bytes
    elif row is REGISTER and f.rm != ZR:
        index = value(r)
        words = moves(f.rm, index)
        offset = extended(index, f.option) << scale * f.s
    base = (target - offset) & ONES
    if f.rn != SP:
        return words + moves(f.rn, base) + [row.word(f)]
    spare = r.choice([one for one in range(31) if one != vars(f).get("rm")])
    return words + moves(spare, base) + [0x9100001F | spare << 5, row.word(f)]


def straight(r, here):
    return r.choices((plain, transfer, literal), (12, 6, 1))[0](r, here)


def some(r, here):
    """The words of a few cases without branches."""
    words = []
    for _ in range(r.randrange(4)):
        words += straight(r, here + 4 * len(words))
    return words


def jump(place, target):
    return TO_ITSELF | (target - place) // 4 % (1 << 26)


def branch(r, here):
    """A branch over some words, or back to words that end in a jump after it."""
    row = r.choice(BRANCHES)
    fields = row.draw(r)
    before = []
    if row is TO_REGISTER:
        before = moves(fields.rn, ORIGIN)  # as many words as any place in the code takes
    elif row in (COMPARED, TESTED) and fields.rt != ZR and r.random() < 0.5:
        before = moves(fields.rt, value(r))
    if r.random() < 0.7:
        place = here + 4 * len(before)
        after = some(r, place + 4)
        target = place + 4 + 4 * len(after)
        back = []
    else:
        over = some(r, here + 4)
        place = here + 4 * (len(over) + 2 + len(before))
        after = []
        target = here + 4
        back = [jump(here, place - 4 * len(before)), *over, jump(place - 4 * len(before) - 4, place + 4)]
    if row is TO_REGISTER:
        before = moves(fields.rn, target)
    else:
        fields.imm = (target - place) // 4
    return back + before + [row.word(fields)] + after


def guest(r):
    """An image, and where its cases begin, with its end after them."""
    words = []
    for target in range(31):
        words += moves(target, value(r))
    words.append(0xFA400800 | r.randrange(16))  # CCMP where Z is set, which it isn't
    starts = []
    for _ in range(CASES):
        starts.append(ORIGIN + 4 * len(words))
        words += r.choices((straight, branch), (4, 1))[0](r, starts[-1])
    starts.append(ORIGIN + 4 * len(words))
    words.append(TO_ITSELF)
    code = b"".join(struct.pack("<I", word) for word in words)
    return code.ljust(LIMIT - FILLED - ORIGIN, b"\0") + r.randbytes(FILLED), starts


def report_of(room, steps):
    """What the proved program prints after this many steps."""
    with open(os.path.join(room, "schedule.txt"), "w") as target:
        target.write("s 0 0\n" * steps)
    command = [BAO, "run", "config.toml", "schedule.txt"]
    return subprocess.run(command, cwd=room, stdin=subprocess.DEVNULL, stdout=subprocess.PIPE, text=True).stdout


def listing(image, begin, end, room):
    """The words of a case, as they are disassembled."""
    words = image[begin - ORIGIN : end - ORIGIN]
    tool = shutil.which("aarch64-linux-gnu-objdump")
    if not tool:
        return " ".join(f"{word:08x}" for (word,) in struct.iter_unpack("<I", words))
    path = os.path.join(room, "words")
    with open(path, "wb") as target:
        target.write(words)
    command = [tool, "-D", "-b", "binary", "-m", "aarch64", f"--adjust-vma={begin:#x}", path]
    return subprocess.run(command, stdout=subprocess.PIPE, text=True).stdout.partition("<.data>:\n")[2]


def is_code(line):
    return line.startswith("m ") and int(line.split()[1], 16) < LIMIT - FILLED


def both_reports(theirs, ours):
    """Line by line, those of the code left out where they're the same."""
    pair = [report.split("\n") for report in (theirs, ours)]
    same = {line for line in pair[0] if is_code(line)} & set(pair[1])
    pair = [[line for line in lines if line not in same] for lines in pair]
    return "\n".join(difflib.unified_diff(*pair, "qemu", "bao", lineterm="", n=len(pair[0])))


def compare(image, starts, room):
    """Runs a guest by both; the number of its steps, or the difference."""
    shutil.copy(CONFIG, room)
    with open(os.path.join(room, "a.bin"), "wb") as target:
        target.write(image)
    with by_qemu.debugged(image) as debugger:
        core = by_qemu.start(debugger)
        steps = 0
        theirs = ""
        while core[by_qemu.PC] != starts[-1]:
            begin, earlier = core[by_qemu.PC], theirs
            while core[by_qemu.PC] == begin or core[by_qemu.PC] not in starts:
                core = by_qemu.step(debugger, core)
                steps += 1
            theirs = by_qemu.report(core, debugger.memory())
            ours = report_of(room, steps)
            if ours != theirs:
                before = "\n".join(line for line in earlier.split("\n") if not is_code(line))
                words = listing(image, begin, core[by_qemu.PC], room)
                return steps, f"step {steps}, after\n{before}\n{words}\n{both_reports(theirs, ours)}"
    return steps, None


def main():
    seed, count = sys.argv[1], int(sys.argv[2])
    steps = 0
    for number in range(count):
        image, starts = guest(random.Random(f"{seed} {number}"))
        with tempfile.TemporaryDirectory() as room:
            try:
                more, difference = compare(image, starts, room)
            except SystemExit as reason:
                more, difference = 0, str(reason)
        if difference:
            sys.exit(f"guest {number} of seed {seed}: {difference}")
        steps += more
    print(f"seed {seed}: {count} guests with {count * CASES} random words agreed, {steps} steps in all")


if __name__ == "__main__":
    main()
