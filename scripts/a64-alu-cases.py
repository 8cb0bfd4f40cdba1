#!/usr/bin/env python3
"""Writes the tables of crates/a64_tests/src/cases.rt: what each instruction does when qemu-aarch64 runs it.

Outside the gate: it wants llvm-mc, llvm-objcopy and qemu-aarch64 (of Debian's package qemu-user), whose path the
variable QEMU gives. All files are in a folder of its own, which it removes. The tables come on standard output.

Before each case x0 to x3 have the row's numbers, SP has the constant STACK, and the flags are the row's.
"""

import os
import struct
import subprocess
import tempfile

ORIGIN = 0x400000
HEADER = 0x1000  # the program begins at the second page of its file
STACK = 0x8000_0000_0000_1010
OLD = 0xFEDC_BA98_7654_3210  # x0
ADDED = 0x0123_4567_89AB_CDEF  # x3
ONES = 2**64 - 1
WORD = 2**32 - 1
MANY = 0xF0E1_D2C3_B4A5_9687


def additions():
    edges = [(0, 0), (0, 1), (1, ONES), (2**31, 2**31), (2**31 - 1, 1), (2**63, 2**63), (2**63 - 1, 1), (ONES, ONES)]
    for r in "xw":
        for op in ("adds", "subs"):
            for x1, x2 in edges:
                yield f"{op} {r}0, {r}1, {r}2", x1, x2, 0
        for op in ("adcs", "sbcs"):
            for x1, x2, flags in ((0, 0, 0), (0, 0, 2), (ONES, 0, 2), (2**31, WORD, 0), (2**63, 1, 13), (2**63 - 1, 0, 2)):
                yield f"{op} {r}0, {r}1, {r}2", x1, x2, flags
        yield f"adc {r}0, {r}1, {r}2", ONES, 0, 15
        yield f"sbc {r}0, {r}1, {r}2", 5, 6, 0
        yield f"adds {r}0, {r}1, {r}2, lsl #31", 1, 3, 0
        yield f"sub {r}0, {r}1, {r}2, asr #31", 7, MANY, 15
        yield f"cmn {r}1, {r}2, lsr #1", ONES, ONES, 0
        yield f"cmp {r}1, {r}2", 2**31, 2**31, 0
        yield f"adds {r}0, {r}1, #4095", ONES, 0, 0
        yield f"subs {r}0, {r}1, #4095, lsl #12", 1, 0, 0
        yield f"add {r}0, {r}1, #1", ONES, 0, 5
        yield f"sub {r}0, {r}1, #1", 0, 0, 10
    for shift in ("lsl", "lsr", "asr"):
        for amount in (0, 32, 63):
            yield f"adds x0, x1, x2, {shift} #{amount}", 1, MANY, 0
    for extend in ("uxtb", "uxth", "uxtw", "sxtb", "sxth", "sxtw"):
        yield f"add x0, x1, w2, {extend} #4", 0, MANY, 0
        yield f"adds w0, w1, w2, {extend} #1", 1, MANY, 0
    for extend in ("uxtx", "sxtx"):
        yield f"subs x0, x1, x2, {extend} #3", 0, MANY, 0


def logic():
    for r, masks in (("x", (1, 0x5555_5555_5555_5555, 0xFFFF_FFFF_FFFF_FFF0)), ("w", (1, 0x5555_5555, 0x8000_0001))):
        for op in ("and", "orr", "eor", "ands"):
            for mask in masks:
                yield f"{op} {r}0, {r}1, #{mask:#x}", MANY, 0, 15
        for op in ("and", "orr", "eor", "ands", "bic", "orn", "eon", "bics"):
            yield f"{op} {r}0, {r}1, {r}2", 0x00FF_00FF_00FF_00FF, MANY, 11
        for shift in ("lsl", "lsr", "asr", "ror"):
            for amount in (1, 31):
                yield f"orr {r}0, {r}1, {r}2, {shift} #{amount}", 0, MANY, 0
        yield f"ands {r}0, {r}1, {r}2", 2**63 + 2**31, ONES, 3
        yield f"bics {r}0, {r}1, {r}2", ONES, ONES, 3
        yield f"tst {r}1, {r}2, ror #1", 2**31, 1, 0
    for shift in ("lsl", "lsr", "asr", "ror"):
        for amount in (32, 63):
            yield f"eon x0, x1, x2, {shift} #{amount}", 0, MANY, 0


def moves():
    for op in ("movn", "movz", "movk"):
        for r, places in (("x", (0, 16, 32, 48)), ("w", (0, 16))):
            for place in places:
                yield f"{op} {r}0, #0xa5c3, lsl #{place}", 0, 0, 0
    for op in ("sbfm", "bfm", "ubfm"):
        for r, pairs in (
            ("x", ((0, 0), (0, 63), (63, 63), (63, 0), (63, 62), (8, 15), (60, 3), (1, 31), (32, 31))),
            ("w", ((0, 0), (0, 31), (31, 31), (31, 0), (31, 30), (8, 15), (28, 3))),
        ):
            for immr, imms in pairs:
                yield f"{op} {r}0, {r}1, #{immr}, #{imms}", MANY, 0, 0
    for r, amounts in (("x", (0, 1, 31, 32, 63)), ("w", (0, 1, 31))):
        for amount in amounts:
            yield f"extr {r}0, {r}1, {r}2, #{amount}", MANY, 0x0123_4567_89AB_CDEF, 0


def conditions():
    names = ("eq", "ne", "cs", "cc", "mi", "pl", "vs", "vc", "hi", "ls", "ge", "lt", "gt", "le", "al", "nv")
    for name in names:
        for flags in (2, 6, 8, 9):
            yield f"csel x0, x1, x2, {name}", 1, 2, flags
    for r in "xw":
        for op in ("csinc", "csinv", "csneg"):
            for x2 in (0, 1, ONES, 2**31, 2**63):
                yield f"{op} {r}0, {r}1, {r}2, ne", 7, x2, 4
            yield f"{op} {r}0, {r}1, {r}2, eq", MANY, 0, 4
        for op in ("ccmn", "ccmp"):
            yield f"{op} {r}1, {r}2, #5, eq", ONES, 1, 4
            yield f"{op} {r}1, {r}2, #5, ne", ONES, 1, 4
            yield f"{op} {r}1, #31, #10, ge", 31, 0, 9
            yield f"{op} {r}1, #31, #10, lt", 31, 0, 9


def products():
    for r in "xw":
        for x1, x2 in ((0, 0), (ONES, ONES), (2**31, 2), (2**63, 2), (MANY, MANY)):
            yield f"madd {r}0, {r}1, {r}2, {r}3", x1, x2, 0
            yield f"msub {r}0, {r}1, {r}2, {r}3", x1, x2, 0
        for op in ("udiv", "sdiv"):
            for x1, x2 in (
                (7, 0),
                (7, 2),
                (2**64 - 7, 2),
                (7, 2**64 - 2),
                (2**64 - 7, 2**64 - 2),
                (2**31, ONES),
                (2**63, ONES),
                (2**63, 1),
                (ONES, 2**63),
                (MANY, 2**31),
            ):
                yield f"{op} {r}0, {r}1, {r}2", x1, x2, 0
    for op in ("smaddl", "smsubl", "umaddl", "umsubl"):
        for x1, x2 in ((2**31, 2**31), (WORD, WORD), (2**31 - 1, 2**31), (MANY, 2**32 + 3)):
            yield f"{op} x0, w1, w2, x3", x1, x2, 0
    for op in ("smulh", "umulh"):
        for x1, x2 in ((ONES, ONES), (2**63, 2**63), (2**63, 2), (1, ONES), (MANY, MANY)):
            yield f"{op} x0, x1, x2", x1, x2, 0


def reversals():
    for r in "xw":
        for op in ("lsl", "lsr", "asr", "ror"):
            for x2 in (31, 32, 63, ONES):
                yield f"{op} {r}0, {r}1, {r}2", MANY, x2, 0
        for op in ("rbit", "rev16", "rev", "clz", "cls"):
            for x1 in (0, 1, ONES, 2**31, 2**63, MANY):
                yield f"{op} {r}0, {r}1", x1, 0, 0
    for x1 in (1, MANY):
        yield "rev32 x0, x1", x1, 0, 0


def special():
    for text in (
        "add x0, sp, #16",
        "add sp, sp, #16",
        "sub wsp, w1, #1",
        "adds x0, sp, #16",
        "cmn sp, #16",
        "add sp, x1, w2, uxtb #2",
        "sub x0, sp, x2, lsl #1",
        "subs xzr, sp, x2",
        "and sp, x1, #0xff",
        "orr wsp, wzr, #1",
        "ands xzr, x1, #0xff",
        "orr x0, xzr, x2",
        "add x0, xzr, x2",
        "movz xzr, #1",
        "sbfm xzr, x1, #0, #3",
        "csinc x0, xzr, xzr, ne",
        "mul x0, x1, x2",
        "udiv x0, x1, xzr",
        "cls x0, xzr",
        "extr x0, xzr, x2, #4",
    ):
        yield text, 0x11, 0xFFFF_FFFF_0000_0300, 4


TABLES = {
    "ADDITIONS": additions,
    "LOGIC": logic,
    "MOVES": moves,
    "CONDITIONS": conditions,
    "PRODUCTS": products,
    "REVERSALS": reversals,
    "SPECIAL": special,
}


def assembly(cases):
    """A program that runs each case and then writes all that it left: x0, SP and the flags, 24 bytes a case."""
    lines = [".text", "start:"]
    for place, (text, x1, x2, flags) in enumerate(cases):
        numbers = (OLD, x1, x2, ADDED, STACK, flags << 28)
        lines += [f"b begin{place}", ".p2align 3", f"data{place}: .quad " + ", ".join(map(str, numbers))]
        lines += [f"begin{place}: adr x20, data{place}", "ldp x0, x1, [x20]", "ldp x2, x3, [x20, #16]"]
        lines += ["ldp x4, x5, [x20, #32]", "mov sp, x4", "msr nzcv, x5"]
        lines += [f"case{place}: {text}", "mov x4, sp", "mrs x5, nzcv", "stp x0, x4, [x20]", "str x5, [x20, #16]"]
        lines += ["mov x0, #1", "mov x1, x20", "mov x2, #24", "mov x8, #64", "svc #0"]
        lines += [f"adr x1, case{place}", "mov x0, #1", "mov x2, #4", "mov x8, #64", "svc #0"]
    return "\n".join(lines + ["mov x0, #0", "mov x8, #93", "svc #0", ""])


def program(code):
    """An executable of one segment that may be read, written and run."""
    size = HEADER + len(code)
    head = b"\x7fELF\2\1\1" + bytes(9)
    head += struct.pack("<HHIQQQIHHHHHH", 2, 183, 1, ORIGIN + HEADER, 64, 0, 0, 64, 56, 1, 0, 0, 0)
    head += struct.pack("<IIQQQQQQ", 1, 7, 0, ORIGIN, ORIGIN, size, size, 0x1000)
    return head.ljust(HEADER, b"\0") + code


def outcomes(cases, room):
    paths = [os.path.join(room, name) for name in ("cases.s", "cases.o", "cases.bin", "cases")]
    with open(paths[0], "w") as file:
        file.write(assembly(cases))
    subprocess.run(["llvm-mc", "--triple=aarch64", "--filetype=obj", paths[0], "-o", paths[1]], check=True)
    subprocess.run(["llvm-objcopy", "-O", "binary", "-j", ".text", paths[1], paths[2]], check=True)
    with open(paths[2], "rb") as file:
        code = file.read()
    with open(paths[3], "wb") as file:
        file.write(program(code))
    os.chmod(paths[3], 0o755)
    qemu = os.environ.get("QEMU", "qemu-aarch64")
    out = subprocess.run([qemu, paths[3]], check=True, stdout=subprocess.PIPE).stdout
    return list(struct.iter_unpack("<QQQI", out))


def hexadecimal(number):
    digits = f"{number:X}"
    groups = [digits[max(0, end - 4) : end] for end in range(len(digits), 0, -4)]
    return "0x" + "_".join(reversed(groups))


def place_of(sp):
    return "STACK" if sp == STACK else hexadecimal(sp)


def main():
    print("//! Written by scripts/a64-alu-cases.py: what each instruction does when qemu-aarch64 runs it.")
    print()
    print("/// An instruction's word, x1, x2 and the flags before it, and x0, SP and the flags after it.")
    print("pub(crate) type Row = (u32, u64, u64, u32, u64, u64, u32);")
    print("\n// x0, x3 and SP before each instruction.")
    for name, number in (("OLD", OLD), ("ADDED", ADDED), ("STACK", STACK)):
        print(f"pub(crate) const {name}: u64 = {hexadecimal(number)};\n")
    for name, table in TABLES.items():
        cases = list(table())
        with tempfile.TemporaryDirectory() as room:
            rows = outcomes(cases, room)
        assert len(rows) == len(cases)
        cells = []
        for (text, x1, x2, flags), (x0, sp, after, word) in zip(cases, rows):
            before = (hexadecimal(word), hexadecimal(x1), hexadecimal(x2), str(flags))
            cells.append((text, before + (hexadecimal(x0), place_of(sp), str(after >> 28))))
        heads = ("// word", "x1 before", "x2 before", "flags", "x0 after", "SP after", "flags after")
        widths = [max(map(len, column)) for column in zip(heads, *(row for _, row in cells))]
        print(f"#[rattlefmt::skip]\npub(crate) static {name}: [Row; {len(rows)}] = [")
        print("    " + "  ".join(head.ljust(width) for head, width in zip(heads, widths)))
        for text, row in cells:
            aligned = (f"{cell},".ljust(width + 1) for cell, width in zip(row[:-1], widths))
            print("    (" + " ".join(aligned) + f" {row[-1]}), // {text}")
        print("];" if name == "SPECIAL" else "];\n")


main()
