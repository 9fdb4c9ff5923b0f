"""What the programs answer to a trace, as Python objects."""

import json
import os
import subprocess
from pathlib import Path
from typing import List, NamedTuple, Optional, Tuple

import trace_forms as forms

from .library import JSON, ORDERS, TEXT, library
from .names import Wrong, number

TOP = Path(__file__).resolve().parent.parent.parent
# The exit statuses of `replay`.
REPLAYED, REFUSED, NO_TRACE, STOPPED = 0, 1, 2, 3


class Failed(RuntimeError):
    """A program, or the C library, that didn't answer."""


class Verdict(NamedTuple):
    """What `explain` says. `object` has all members of `explain --json` (docs/USING.md)."""

    accepted: bool
    # The refused point, its rule and the file and line of the call that it stands for; none where it is accepted.
    at: Optional[str]
    rule: Optional[str]
    site: Optional[str]
    # The explanation.
    text: str
    object: dict

    def __str__(self):
        return f"{self.site}: {self.text}" if self.site else self.text


class Replay(NamedTuple):
    """What `replay` answers."""

    # What the host reads: the entry and its bytes.
    reads: List[Tuple[int, bytes]]
    # The refused point and its rule, or the entry that found no room; none where all entries were applied.
    refused: Optional[Tuple[str, str]]
    stopped: Optional[int]


def run(program, variable, name, arguments, text):
    """What a program answers to a text: its status and what it wrote."""
    program = program or os.environ.get(variable) or str(TOP / name)
    try:
        ran = subprocess.run([program, *arguments], input=text.encode(), capture_output=True, check=False)
    except OSError as error:
        raise Failed(f"{program}: {error.strerror}") from error
    if ran.returncode not in (REPLAYED, REFUSED, NO_TRACE, STOPPED):
        raise Failed(f"{program}: status {ran.returncode}: {ran.stderr.decode(errors='replace').strip()}")
    return ran.returncode, ran.stdout.decode()


def named_library():
    """The C library that is to answer, if one is named."""
    try:
        return library()
    except (OSError, AttributeError) as error:
        raise Failed(f"the C library can't be loaded: {error}") from error


def answered(call, *arguments):
    """What a call of the C library answers: its status and its text."""
    try:
        return call(*arguments)
    except MemoryError as error:
        raise Failed(str(error)) from error


def explained(program, text, form):
    """What `explain` says of a text, in a form: by the C library where there is one, else by the program."""
    loaded = None if program else named_library()
    if loaded:
        return answered(loaded.explain, text, form)[1]
    return run(program, "EXPLAIN", "explain", ["--json"] if form == JSON else [], text)[1]


def judged(trace, program):
    """What `explain` says of a trace."""
    text = trace.json()
    found = json.loads(explained(program, text, JSON))
    words = explained(program, text, TEXT)
    at = found.get("at")
    return Verdict(found["verdict"] == "accepted", at, found.get("rule"), trace.site_of(at), words.strip(), found)


def replayed(trace, program, order, seed):
    """What `replay` answers to a trace."""
    if order not in ORDERS:
        raise Wrong(f"replay: order: {order!r}: not one of {', '.join(ORDERS)}")
    number(seed, forms.LARGE, "replay: seed")
    loaded = None if program else named_library()
    if loaded:
        status, said = answered(loaded.replay, trace.json(), order, seed)
    else:
        status, said = run(program, "PROGRAM", "replay", ["--order", order, "--seed", str(seed)], trace.json())
    lines = [line.split() for line in said.splitlines()]
    if status == REFUSED:
        return Replay([], (lines[0][1], lines[0][2]), None)
    if status == NO_TRACE:
        raise Failed("replay: not a valid trace")
    stopped = int(lines[-1][1]) if status == STOPPED else None
    reads = [(int(entry), bytes.fromhex(read)) for entry, read in (lines[:-1] if status == STOPPED else lines)]
    return Replay(reads, None, stopped)
