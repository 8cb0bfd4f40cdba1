#!/usr/bin/env python3
"""Runs the commands of README.md and docs/guests.md that run a program, in a fresh clone, and looks for what the pages show of them.

try-pages.py, from anywhere. It clones the last commit, and takes the proved programs along where the checkout has them; else each
command takes as long as the pages say. It prints a line for each command, and ends with status 1 where one fails or prints another
text than its page shows.
"""

import re
import shutil
import subprocess
import sys
import tempfile
from pathlib import Path

TOP = Path(__file__).resolve().parent.parent
PROGRAMS = ("bao", "bao_asm")
COMMAND = re.compile(r"(cd (?P<folder>\S+) && )?(?P<words>(\.\./\.\./)?bin/bao.*)")


def blocks(text):
    """Each fenced block of a page with the line before it, and each row of a table with the commands in its cells."""
    before, inside = "", None
    for line in text.splitlines():
        if inside is not None:
            if line.startswith("```"):
                yield before, inside
                before, inside = "", None
            else:
                inside.append(line)
        elif line.startswith("```"):
            inside = []
        elif line.startswith("| "):
            for cell in re.findall(r"`([^`]+)`", line):
                yield "", [cell]
        elif line.strip():
            before = line


def shown(text):
    """The commands of a page in order: the folder, the words, and the lines that the page shows of their output."""
    folder, found = ".", []
    for before, lines in blocks(text):
        command = COMMAND.fullmatch(lines[0])
        named = re.search(r"`(\.\./\.\./bin/bao[^`]*)` shows", before)
        if command and len(lines) == 1 and not re.search(r"\b[A-Z]{2,}\b", lines[0]):
            folder = command["folder"] or ("." if command["words"].startswith("bin/") else folder)
            found.append((folder, command["words"], []))
        elif named:
            place = re.match(r"In `(\S+)`", before)
            folder = place[1] if place else folder
            found.append((folder, named[1], lines))
        elif before.startswith("prints") and found:
            found[-1] = (*found[-1][:2], lines)
    return found


def fresh_clone(to):
    subprocess.run(["git", "clone", "-q", TOP, to], check=True)
    for name in PROGRAMS:
        program = TOP / f"crates/{name}/out/{name}"
        if program.is_file():
            (to / f"crates/{name}/out").mkdir()
            shutil.copy(program, to / f"crates/{name}/out/{name}")


def stand_in_order(lines, output):
    rest = iter(output.splitlines())
    return all(line in rest for line in lines)


def main():
    wrong = 0
    with tempfile.TemporaryDirectory() as room:
        clone = Path(room) / "clone"
        fresh_clone(clone)
        for page in ("README.md", "docs/guests.md"):
            for folder, words, lines in shown((TOP / page).read_text()):
                ran = subprocess.run(["bash", "-o", "pipefail", "-c", words], cwd=clone / folder, stdout=subprocess.PIPE, stderr=subprocess.DEVNULL, text=True)
                holds = ran.returncode == 0 and stand_in_order(lines, ran.stdout)
                wrong += not holds
                told = f"status {ran.returncode}, {'as shown' if holds and lines else 'ends' if holds else 'not as shown'}"
                print(f"{page}: in {folder}: {words}: {told}", flush=True)
        left = subprocess.run(["git", "status", "--porcelain"], cwd=clone, stdout=subprocess.PIPE, text=True).stdout
    print(left, end="")
    sys.exit(1 if wrong or left else 0)


if __name__ == "__main__":
    main()
