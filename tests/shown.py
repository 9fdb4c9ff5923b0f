#!/usr/bin/env python3
"""Tests the commands that the pages show with what they write: blocks of code with a line `$ COMMAND`.

    PROGRAM=FILE EXPLAIN=FILE EMIT=FILE PLACES=FILE tests/shown.py

Each command runs at the top of a copy of the repository whose ./replay, ./explain, ./emit and ./places run these
programs, and what it writes to standard output and standard error is compared with the lines below it, up to the next command or the
end of the block.
"""

import os
import re
import sys
import tempfile
from pathlib import Path

sys.dont_write_bytecode = True

from harness import EXPLAIN, PROGRAM, TOP, Test, difference, main, run

EMIT = os.path.abspath(os.environ.get("EMIT") or TOP / "emit")
PLACES = os.path.abspath(os.environ.get("PLACES") or TOP / "places")
BLOCK = re.compile(r"^```\w*\n(.*?)^```$", re.M | re.S)
ROOM = tempfile.TemporaryDirectory()


def pages():
    """README.md, the other pages at the top, and those of docs."""
    return sorted([*TOP.glob("*.md"), *TOP.glob("docs/*.md"), *TOP.glob("examples/*.md")])


def shown_in(text):
    """The commands of a page with what is shown below each."""
    for block in BLOCK.findall(text):
        for part in re.split(r"^\$ ", block, flags=re.M)[1:]:
            command, _, wanted = part.partition("\n")
            yield command, wanted


def copy():
    """The repository, by links, with scripts that run the programs that are tested."""
    top = Path(ROOM.name)
    for path in TOP.iterdir():
        if path.name not in ("replay", "explain", "emit", "places", "out", ".git"):
            (top / path.name).symlink_to(path)
    for name, program in (("replay", PROGRAM), ("explain", EXPLAIN), ("emit", EMIT), ("places", PLACES)):
        (top / name).write_text(f'#!/bin/sh\nexec "{program}" "$@"\n')
        (top / name).chmod(0o755)
    return top


def judge(command, wanted, top):
    """What a command writes is what is shown."""
    ran = run(["sh", "-c", f"{command} 2>&1"], cwd=top)
    return difference(wanted.encode(), ran.output)


def all_tests():
    """One for each command."""
    top = copy()
    for page in pages():
        for command, wanted in shown_in(page.read_text(encoding="utf-8")):
            yield Test(f"{page.relative_to(TOP)}: {command}", lambda c=command, w=wanted: judge(c, w, top))


if __name__ == "__main__":
    sys.exit(main(all_tests(), (PROGRAM, EXPLAIN, EMIT, PLACES)))
