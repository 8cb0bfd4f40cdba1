#!/usr/bin/env python3
"""Prints the report of a run as qemu-aarch64 makes it, without this repository's program:

    report-by-qemu.py IMAGE SCHEDULE

Outside the gate: it wants qemu-aarch64 (of Debian's package qemu-user), whose path the variable QEMU gives. The image
lies at 0x100000 in 64 KiB that are otherwise zero, all registers begin as zero, and qemu makes a single step for each
line of the schedule. qemu runs the image as a Linux process, so of PSTATE it gives the flags alone; all else of it stays
as at the start. So this is for images without exceptions, system registers and accesses outside that memory, and
without YIELD and WFE, over which qemu goes two words in one step. Standard error tells after how many steps the PC
first stayed where it was.
"""

import contextlib
import os
import socket
import struct
import subprocess
import sys
import tempfile
import time

BASE = 0x100000
SIZE = 0x10000
HEADER = 0x1000  # the image begins at the second page of its file
START_PSTATE = 0x3C5
FLAGS = 0xF000_0000
CORE = struct.Struct("<33QI")  # X0 to X30, SP, PC and the flags, as qemu's debugger port gives them
PC = 32


def program(image):
    """An ELF file that maps the image where the machine has it."""
    head = b"\x7fELF\x02\x01\x01" + bytes(9)
    head += struct.pack("<HHIQQQIHHHHHH", 2, 183, 1, BASE, 64, 0, 0, 64, 56, 1, 0, 0, 0)
    head += struct.pack("<IIQQQQQQ", 1, 7, HEADER, BASE, BASE, len(image), SIZE, HEADER)
    return head.ljust(HEADER, b"\0") + image


class Debugger:
    """The port over which qemu lets a debugger step a program and see it."""

    def __init__(self, path):
        self.port = socket.socket(socket.AF_UNIX)
        for _ in range(100):
            try:
                self.port.connect(path)
                break
            except OSError:
                time.sleep(0.05)
        else:
            sys.exit("qemu opened no port")
        self.left = b""

    def ask(self, words):
        self.port.sendall(b"+$%s#%02x" % (words, sum(words) % 256))
        while self.left.count(b"#") == 0 or len(self.left) < self.left.index(b"#") + 3:
            more = self.port.recv(4096)
            if not more:
                sys.exit("qemu ended")
            self.left += more
        answer, _, rest = self.left.partition(b"#")
        self.left = rest[2:]
        return answer.partition(b"$")[2]

    def core(self):
        return list(CORE.unpack(bytes.fromhex(self.ask(b"g").decode())[: CORE.size]))

    def memory(self):
        chunk = 0x400
        return b"".join(bytes.fromhex(self.ask(b"m%x,%x" % (at, chunk)).decode()) for at in range(BASE, BASE + SIZE, chunk))


def start(debugger):
    """The core as the machine has it at its start."""
    core = CORE.pack(*[0] * PC, BASE, 0)
    if debugger.ask(b"G" + core.hex().encode()) != b"OK":
        sys.exit("qemu took no registers")
    return debugger.core()


def step(debugger, before):
    """The core a step later."""
    answer = debugger.ask(b"s")
    if not answer.startswith(b"T05"):
        sys.exit(f"at {before[PC]:#x} qemu answered {answer.decode()}")
    core = debugger.core()
    if core[PC] == before[PC] and core != before:
        sys.exit(f"at {core[PC]:#x} a branch to itself changed a register")
    return core


def run(debugger, steps):
    """The core and the memory after this many steps from the machine's start."""
    core = start(debugger)
    for number in range(steps):
        before, core = core, step(debugger, core)
        if core[PC] == before[PC]:
            print(f"the PC stays at {core[PC]:#x} after {number} steps", file=sys.stderr)
            break
    return core, debugger.memory()


def report(core, memory):
    lines = ["vm a", "core 0 on", f"pc {core[PC]:016x}", f"pstate {START_PSTATE | core[PC + 1] & FLAGS:08x}"]
    names = ["sp_el1"] + [f"x{number}" for number in range(31)]
    values = [core[31]] + core[:31]
    lines += [f"{name} {value:016x}" for name, value in zip(names, values) if value]
    lines += ["console 0="]
    pieces = [(at, memory[at : at + 16]) for at in range(0, SIZE, 16)]
    lines += [f"m {BASE + at:016x} {piece.hex()}" for at, piece in pieces if any(piece)]
    return "\n".join(lines + ["end a", "done", ""])


@contextlib.contextmanager
def debugged(image):
    """The debugger of a qemu that runs the image."""
    with tempfile.TemporaryDirectory() as room:
        path = os.path.join(room, "program")
        with open(path, "wb") as target:
            target.write(program(image))
        os.chmod(path, 0o755)
        port = os.path.join(room, "port")
        qemu = subprocess.Popen([os.environ.get("QEMU", "qemu-aarch64"), "-g", port, path])
        try:
            yield Debugger(port)
        finally:
            qemu.kill()
            qemu.wait()


def main():
    image, schedule = sys.argv[1:]
    with open(image, "rb") as source:
        image = source.read()
    with open(schedule, "rb") as source:
        steps = len(source.readlines())
    with debugged(image) as debugger:
        core, memory = run(debugger, steps)
    sys.stdout.write(report(core, memory))


if __name__ == "__main__":
    main()
