#!/usr/bin/env python3
"""Makes a refused trace as small as leaving things out makes it, for a report of a bug.

    tools/smallest.py [FILE]                        while its rule is broken at the same kind of point
    tools/smallest.py --rule RULE [FILE]            while RULE is broken, at whichever point
    tools/smallest.py --command 'COMMAND' [FILE]    while the shell's COMMAND, given the trace, ends with 0

Without FILE, or with `-`, standard input is read; the trace may have names, as for tools/names.py. Objects with all
that names them are left out first, then entries, batches, commands, and last elements, regions, ranges, waits and
signals: all, halves, quarters and so on, until nothing more can be left out. What is left is written to standard
output, and the count of runs to standard error. A point's kind is the name of its entry or command, or that it is a
wait or a signal of a batch, and which objects it names (those in lists, as of a barrier, aside).

PROGRAM names the program that judges; else it is ./replay at the top. The status is 0 where the trace was made small,
1 where there is nothing to keep (it is accepted, or doesn't break RULE, or COMMAND ends otherwise), 2 where it isn't a
trace, 5 where something can't be read, written or run, 6 where the command line isn't right.
"""

import hashlib
import json
import re
import sys
import time
from pathlib import Path

sys.dont_write_bytecode = True
sys.path.append(str(Path(__file__).resolve().parent.parent / "tests"))

from command_line import NOT_A_TRACE, Arguments, name_of, read_all, run_tool, write_all
from harness import PROGRAM, run
from trace_forms import BATCH, COMMAND, ENTRY, TRACE, Choice, Many, Number, Row
from trace_reading import Reading

NOTHING_TO_KEEP = 1
ACCEPTED, REFUSED, STOPPED = 0, 1, 3
VERDICT = re.compile(rb"refused ([0-9.sw]+) ([A-Z_]+)\n")
# After so many seconds it is said on a terminal how far it is.
QUIET_SECONDS = 2


# ---- the parts of a trace


def members_of(value, form):
    """The members of an array with their numbers and forms."""
    if isinstance(form, Many):
        return [(number, item, form.item) for number, item in enumerate(value)]
    if isinstance(form, Choice):
        members = form.rows[value[0]].members
        return [(k, value[k], member) for k, (_, member) in enumerate(members, 1)]
    if isinstance(form, Row):
        return [(k, value[k], member) for k, (_, member) in enumerate(form.members)]
    return []


def items_of(value, form, at=()):
    """Each item of a list anywhere in a value, the outer one first: its path, the item, and its form."""
    for number, item, inner in members_of(value, form):
        path = (*at, number)
        if isinstance(form, Many):
            yield path, item, inner
        yield from items_of(item, inner, path)


def ids_in(value, form):
    """The ids that a value has outside the lists in it; all of a submit's are in such lists."""
    if isinstance(form, Number):
        return {value} if form.of else set()
    inner = members_of(value, form) if not isinstance(form, Many) else ()
    return set().union(*(ids_in(member, member_form) for _, member, member_form in inner))


def without(trace, paths):
    """The trace without the items at these paths, none of which is inside another one; and without the waits of the
    host of which nothing is left, since that breaks a rule of its own."""
    left_out = {}
    for path in paths:
        left_out.setdefault(path[:-1], set()).add(path[-1])
    inside = {path[:depth] for path in left_out for depth in range(len(path) + 1)}

    def copied(value, at):
        if at not in inside:
            return value
        gone = left_out.get(at, ())
        items = [copied(item, (*at, k)) for k, item in enumerate(value) if k not in gone]
        return items if at else [item for item in items if item != ["wait", []] or item in value]

    return copied(trace, ())


def by_object(trace):
    """For each id the paths of the items that name it, the outermost ones."""
    found = {}
    for path, item, form in items_of(trace, TRACE):
        for number in ids_in(item, form):
            found.setdefault(number, []).append(path)
    return list(found.values())


def by_form(*forms):
    """What answers the items of these forms, each alone."""
    return lambda trace: [[path] for path, _, form in items_of(trace, TRACE) if form in forms]


def inner_items(trace):
    """The items of other lists, each alone."""
    found = items_of(trace, TRACE)
    return [[path] for path, _, form in found if form not in (ENTRY, BATCH, COMMAND)]


LEVELS = [by_object, by_form(ENTRY), by_form(BATCH), by_form(COMMAND), inner_items]


# ---- what is to stay


def kind_of(point, trace):
    """The kind of a point: the name of its entry or command, or that it is a wait or a signal of a batch; with the
    ids that it names outside of lists."""
    entry, *inner = point.split(".")
    value, form = trace[int(entry)], ENTRY
    if not inner:
        return value[0], ids_in(value, form)
    batch, part = value[2][int(inner[0])], inner[1]
    if part[0] in "ws":
        return part[0], {batch[0 if part[0] == "w" else 2][int(part[1:])][0]}
    command = batch[1][int(part)]
    return command[0], ids_in(command, COMMAND)


class Judge:
    """Says of a trace whether what is to stay is still there, and counts its runs."""

    def __init__(self, wanted_rule, command):
        self.rule = wanted_rule
        self.command = command
        self.kind = None
        self.runs = 0
        self.known = {}
        self.next = time.monotonic() + QUIET_SECONDS
        self.is_said = False

    def run(self, trace):
        """What the program or the command answers to a trace."""
        self.runs += 1
        command = ["sh", "-c", self.command] if self.command else [PROGRAM]
        return run(command, compact(trace).encode())

    def verdict(self, trace):
        """The point and the rule at which a trace is refused, nothing where it isn't; and the whole answer."""
        answer = self.run(trace)
        found = VERDICT.fullmatch(answer.output) if answer.status == REFUSED else None
        return (found[1].decode(), found[2].decode()) if found else None, answer

    def is_kept(self, trace):
        """Whether what is to stay is there."""
        text = hashlib.sha256(compact(trace).encode()).digest()
        if text not in self.known:
            self.known[text] = self.judged(trace)
        self.progress(trace)
        return self.known[text]

    def judged(self, trace):
        """The same, by a run."""
        if self.command:
            return self.run(trace).status == 0
        found, _ = self.verdict(trace)
        if found is None or found[1] != self.rule:
            return False
        return self.kind is None or kind_of(found[0], trace) == self.kind

    def missing(self, trace, name):
        """What is to stay is found in the given trace; a sentence where there is nothing."""
        if self.command:
            status = self.run(trace).status
            return f"{name}: the command ends with {status}, where 0 is to stay" if status else None
        found, answer = self.verdict(trace)
        if found is None:
            if answer.status in (ACCEPTED, STOPPED):
                return f"{name} isn't refused, so there is nothing to keep"
            raise OSError(None, f"it gives no verdict: {answer}", PROGRAM)
        point, rule = found
        if self.rule not in (None, rule):
            return f"{name} is refused at {point} by {rule}, and not by {self.rule}"
        if self.rule is None:
            self.kind = kind_of(point, trace)
        self.rule = rule
        return None

    def progress(self, trace):
        """Says on a terminal from time to time how far it is."""
        now = time.monotonic()
        if sys.stderr.isatty() and now >= self.next:
            self.next = now + 0.5
            self.is_said = True
            print(f"\r{self.runs} runs, {len(trace)} entries ", end="", file=sys.stderr, flush=True)

    def clear(self):
        """Takes away what was said."""
        if self.is_said:
            print("\r\x1b[K", end="", file=sys.stderr, flush=True)


# ---- leaving out


def leave_out(trace, groups, is_kept):
    """The trace without as many of the groups of paths as can be left out: first all of them, then halves, and so on
    down to single ones. One that overlaps one which is gone is gone with it."""

    def fewer(gone):
        paths = sorted({path for number in gone for path in groups[number]})
        outer = []
        for path in paths:
            if not outer or path[: len(outer[-1])] != outer[-1]:
                outer.append(path)
        return without(trace, outer)

    gone, left, size = [], list(range(len(groups))), len(groups)
    best = trace
    while left:
        start = 0
        has_changed = False
        while start < len(left):
            part = left[start : start + size]
            smaller = fewer(gone + part)
            if is_kept(smaller):
                gone, best, has_changed = gone + part, smaller, True
                del left[start : start + size]
            else:
                start += size
        if size == 1 and not has_changed:
            break
        size = max(1, min(size, len(left)) // 2)
    return best


def smallest(trace, is_kept):
    """The trace from which nothing can be left out."""
    before = None
    while before != trace:
        before = trace
        for level in LEVELS:
            trace = leave_out(trace, level(trace), is_kept)
    return trace


def compact(trace):
    """A trace as text."""
    return json.dumps(trace, separators=(",", ":"))


def as_text(trace):
    """A trace as it is written: an entry a line."""
    lines = ",\n".join(f"  {compact(entry)}" for entry in trace)
    return f"[\n{lines}\n]\n" if trace else "[]\n"


def size_of(trace):
    """How large a trace is, in words."""
    commands = sum(form is COMMAND for _, _, form in items_of(trace, TRACE))
    return f"{counted(len(trace), 'entry', 'entries')}, {counted(commands, 'command', 'commands')}"


def counted(number, one, several):
    """A number of things."""
    return f"{number} {one if number == 1 else several}"


# ---- the command line


def arguments():
    """What is asked for."""
    line = Arguments(description="Makes a refused trace as small as leaving things out makes it.")
    line.add_argument("file", nargs="?", default="-", metavar="FILE", help="- is standard input")
    kept = line.add_mutually_exclusive_group()
    kept.add_argument("--rule", metavar="RULE", help="keep that RULE is broken, at whichever point")
    kept.add_argument("--command", metavar="COMMAND", help="keep that the shell's COMMAND ends with 0")
    return line.parse_args()


def answer():
    """Does what is asked, and answers the status."""
    asked = arguments()
    name = name_of(asked.file)
    reading = Reading(read_all(asked.file))
    for line in reading.said(name):
        print(line, file=sys.stderr)
    if reading.mistakes:
        return NOT_A_TRACE
    judge = Judge(asked.rule, asked.command)
    missing = judge.missing(reading.trace, name)
    if missing:
        print(missing, file=sys.stderr)
        return NOTHING_TO_KEEP
    try:
        found = smallest(reading.trace, judge.is_kept)
    finally:
        judge.clear()
    write_all(as_text(found))
    what = counted(judge.runs, "run", "runs")
    print(f"{size_of(reading.trace)}; left {size_of(found)}; {what}", file=sys.stderr)
    return 0


if __name__ == "__main__":
    sys.exit(run_tool(answer))
