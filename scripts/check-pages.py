#!/usr/bin/env python3
"""Checks what the pages name: each edit of docs/security.md stands in its crate, each crate is told of, each link leads on. And whether the stored run has the files of the example that it is a copy of.

check-pages.py, from anywhere. It prints a line for each name that isn't there, and ends with status 1 where there is one.
"""

import re
import sys
from pathlib import Path

TOP = Path(__file__).resolve().parent.parent
EXAMPLE = TOP / "examples/control"
STORED = TOP / "crates/bao_control"
PAGES = [TOP / "README.md", TOP / "CONTRIBUTING.md", *sorted((TOP / "docs").glob("*.md"))]


def crates():
    rows = (TOP / "crates.txt").read_text().splitlines()
    return [row.partition(":")[0].split()[0] for row in rows if row.strip() and not row.startswith("#")]


def edits_named():
    """The crate and the name of each edit in the last column of the tables of threats."""
    for row in (TOP / "docs/security.md").read_text().splitlines():
        cells = row.split(" | ")
        if len(cells) < 3 or not row.startswith("|"):
            continue
        for crate, names in re.findall(r"`(\w+)`: ((?:`\w+`(?:, )?)+)", cells[-1]):
            yield from ((crate, name) for name in re.findall(r"`(\w+)`", names))


def missing():
    for crate, name in edits_named():
        if not (TOP / f"crates/{crate}/must-fail/{name}.edit").is_file():
            yield f"docs/security.md names the edit {name} of {crate}"
    for page in ("proofs.md", "architecture.md"):
        text = (TOP / "docs" / page).read_text()
        for crate in crates():
            if f"`{crate}`" not in text:
                yield f"docs/{page} says nothing of {crate}"
    for name in ("config.toml", "control.bin", "monitor.bin", "schedule.txt"):
        if (EXAMPLE / name).read_bytes() != (STORED / "data" / name).read_bytes():
            yield f"{name} of crates/bao_control isn't that of examples/control"
    for page in PAGES:
        for link in re.findall(r"\]\(([^)#:]+)\)", page.read_text()):
            if not (page.parent / link).exists():
                yield f"{page.relative_to(TOP)} links to {link}"


found = list(missing())
print("\n".join(found) or "all names are there")
sys.exit(1 if found else 0)
