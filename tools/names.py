#!/usr/bin/env python3
"""Reads a trace that people write, with Vulkan's names for numbers, and writes the trace that the programs read.

    tools/names.py [FILE]                          the trace, on the same lines
    tools/names.py --map MAP [FILE]                and where each of its values stands in FILE
    tools/names.py --explain [--json] [FILE]       what `explain` says, with the lines and columns of FILE
    tools/names.py --to-names [FILE]               a trace with names for its numbers

Without FILE, or with `-`, standard input is read. A name stands for a number where a mask, a layout, a family or a
memory type does: "TRANSFER|HOST", "TRANSFER_DST_OPTIMAL", "IGNORED", "HOST_CACHED"; with Vulkan's prefix too. The
text may have comments (`//`, `/* */`), commas behind a last member, and numbers in hex (0x1000). A number is allowed
wherever a name is. MAP is a JSON array of [line, column, line of FILE, column of FILE].

EXPLAIN names the program that explains; else it is ./explain at the top. The status is 0 where the text is a trace
(with --explain that of `explain`), 2 where it isn't, 5 where something can't be read or written, 6 where the command
line isn't right.
"""

import json
import re
import subprocess
import sys
from bisect import bisect_right
from pathlib import Path

sys.dont_write_bytecode = True
sys.path.append(str(Path(__file__).resolve().parent.parent / "tests"))

from command_line import NOT_A_TRACE, Arguments, name_of, read_all, run_tool, write_all
from harness import EXPLAIN
from trace_forms import BATCH, BATCHES, COMMANDS, ENTRY, TRACE, Choice, Many, Number, Row
from trace_reading import Reading
from trace_text import as_json

WIDTH = 100
INDENT = "  "
PLACE = re.compile(r"\bline ([0-9]+), column ([0-9]+)")


# ---- from numbers to names


def leaf(value, form):
    """A number, a word or bytes, with names for a number that has some."""
    if isinstance(form, Number):
        name = form.names.text(value) if form.names else None
        if name is not None:
            return json.dumps(name)
        return f"0x{value:08x}" if form.is_hex else str(value)
    return json.dumps(value)


def parts_of(value, form):
    """The members of an array with their forms, behind its word, if it has one."""
    if isinstance(form, Many):
        return [], [(item, form.item) for item in value]
    if isinstance(form, Choice):
        members = [member for _, member in form.rows[value[0]].members]
        return [json.dumps(value[0])], list(zip(value[1:], members))
    return [], list(zip(value, (member for _, member in form.members)))


def flat(value, form):
    """A value on one line."""
    if not isinstance(form, (Many, Row, Choice)):
        return leaf(value, form)
    begins, members = parts_of(value, form)
    return f"[{', '.join([*begins, *(flat(*member) for member in members)])}]"


def has_commands(value, form):
    """Whether a value has commands, which stand on lines of their own."""
    if form is BATCH:
        return bool(value[1])
    if form is COMMANDS:
        return bool(value)
    if form is BATCHES:
        return any(has_commands(batch, BATCH) for batch in value)
    return form is ENTRY and value[0] == "submit" and has_commands(value[2], BATCHES)


def laid_out(value, form, width=WIDTH):
    """The lines of a value: one where it fits and has no commands."""
    is_array = isinstance(form, (Many, Row, Choice))
    if not is_array or form is not TRACE and not has_commands(value, form):
        line = flat(value, form)
        if not is_array or len(line) <= width:
            return [line]
    begins, members = parts_of(value, form)
    if not members and not begins:
        return ["[]"]
    if isinstance(form, Many) or form is BATCH:
        return below(members, width)
    lines = [f"[{', '.join(begins)}"]
    for number, member in enumerate(members):
        first, *rest = laid_out(*member, width)
        lines[-1] += f", {first}" if begins or number else first
        lines += rest
    lines[-1] += "]"
    return lines


def below(members, width):
    """The lines of an array whose members stand below each other."""
    lines = ["["]
    for number, member in enumerate(members, 1):
        lines += [INDENT + line for line in laid_out(*member, width - len(INDENT))]
        lines[-1] += "," if number < len(members) else ""
    return [*lines, "]"]


# ---- what explain says


class Places:
    """Where what stands in the trace that was written stands in the text."""

    def __init__(self, reading, written):
        self.starts = [(line, column) for line, column, _ in written]
        self.offsets = [at for _, _, at in written]
        self.lines = reading.lines

    def all(self):
        """Each line and column, with the line and the column in the text."""
        return [[*start, *self.lines.place(at)] for start, at in zip(self.starts, self.offsets)]

    def of(self, line, column):
        """The line and the column in the text of what begins there in the trace, or else last before it."""
        found = bisect_right(self.starts, (line, column)) - 1
        return self.lines.place(self.offsets[max(found, 0)])

    def in_text(self, explanation):
        """An explanation with the lines and columns of the text."""

        def replaced(found):
            return "line {}, column {}".format(*self.of(int(found[1]), int(found[2])))

        return PLACE.sub(replaced, explanation)

    def in_object(self, value):
        """The same of an explanation as a value of JSON."""
        if isinstance(value, list):
            return [self.in_object(item) for item in value]
        if isinstance(value, str):
            return self.in_text(value)
        if not isinstance(value, dict):
            return value
        changed = {name: self.in_object(item) for name, item in value.items()}
        if isinstance(value.get("line"), int) and isinstance(value.get("column"), int):
            changed["line"], changed["column"] = self.of(value["line"], value["column"])
        return changed


def explained(trace, places, as_object):
    """What `explain` says of a trace, with the places of the text, and its status."""
    command = [EXPLAIN, *(["--json"] if as_object else [])]
    ended = subprocess.run(command, input=trace.encode(), stdout=subprocess.PIPE, check=False)
    said = ended.stdout.decode()
    if as_object and said:
        compact = {"ensure_ascii": False, "separators": (",", ":")}
        said = json.dumps(places.in_object(json.loads(said)), **compact) + "\n"
    elif not as_object:
        said = places.in_text(said)
    return said, ended.returncode


# ---- the command line


def arguments():
    """What is asked for."""
    line = Arguments(description="Reads a trace with Vulkan's names for numbers, or writes one so.")
    line.add_argument("file", nargs="?", default="-", metavar="FILE", help="- is standard input")
    ways = line.add_mutually_exclusive_group()
    ways.add_argument("--to-names", action="store_true", help="write names for numbers")
    ways.add_argument("--explain", action="store_true", help="write what `explain` says of it")
    ways.add_argument("--map", metavar="MAP", help="write to MAP where each value stands in FILE")
    line.add_argument("--json", action="store_true", help="with --explain: as JSON")
    asked = line.parse_args()
    if asked.json and not asked.explain:
        line.error("--json is for --explain alone")
    return asked


def answer():
    """Does what is asked, and answers the status."""
    asked = arguments()
    reading = Reading(read_all(asked.file))
    for line in reading.said(name_of(asked.file)):
        print(line, file=sys.stderr)
    if reading.mistakes:
        return NOT_A_TRACE
    if asked.to_names:
        write_all("\n".join(laid_out(reading.trace, TRACE)) + "\n")
        return 0
    trace, written = as_json(reading.text, reading.changes)
    places = Places(reading, written)
    if asked.explain:
        said, status = explained(trace, places, asked.json)
        write_all(said)
        return status
    if asked.map:
        Path(asked.map).write_text(json.dumps(places.all(), separators=(",", ":")) + "\n")
    write_all(trace)
    return 0


if __name__ == "__main__":
    sys.exit(run_tool(answer))
