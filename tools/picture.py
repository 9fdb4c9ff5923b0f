#!/usr/bin/env python3
"""Draws a trace as an SVG picture: what happened before what, on the host and on each queue.

    tools/picture.py [FILE] > picture.svg              what lies around the refused point
    tools/picture.py --timeline [FILE] > picture.svg   the whole trace, of at most 400 points

`./explain --picture FILE` and `./explain --timeline FILE` write the same beside an explanation. Without FILE, or with
`-`, standard input is read. Time goes down, in the order in which points are judged. The refused point is red, the
earlier access amber, what else the facts name blue; a dashed arrow is the link that is missing, and dashed boxes are
the edits of the repair. The picture follows the reader's choice of light or dark.

EXPLAIN names the program that explains; else it is ./explain at the top. The status is 0 where a picture was written,
2 where the text isn't a trace, 5 where something can't be read or written, 6 where the command line isn't right, or
the whole trace has too many points.
"""

import json
import os
import subprocess
import sys
from pathlib import Path

sys.dont_write_bytecode = True

from command_line import NOT_A_TRACE, NOT_UNDERSTOOD, Arguments, read_all, run_tool, write_all
from pictured import MOST_POINTS, Drawing

EXPLAIN = os.environ.get("EXPLAIN") or str(Path(__file__).resolve().parent.parent / "explain")


class TooLong(ValueError):
    """A trace that is drawn whole has too many points."""


def explained(text):
    """What `explain --json` says of a trace."""
    ran = subprocess.run([EXPLAIN, "--json"], input=text, stdout=subprocess.PIPE, stderr=subprocess.PIPE, check=False)
    if ran.returncode not in (0, 1, 2):
        said = ran.stderr.decode(errors="replace").strip()
        raise OSError(None, f"it ended with status {ran.returncode}: {said}", EXPLAIN)
    return json.loads(ran.stdout)


def pictured(text, said, is_whole):
    """The picture of a trace of which this was said."""
    drawing = Drawing(json.loads(text), said)
    count = len(drawing.points)
    if count > MOST_POINTS and (is_whole or drawing.at is None):
        raise TooLong(f"the trace has {count} points; a whole one is drawn of at most {MOST_POINTS}")
    return drawing.svg(is_whole)


def answer():
    """Does what the command line asks."""
    parser = Arguments(description=__doc__.splitlines()[0])
    parser.add_argument("--timeline", action="store_true", help="draw the whole trace")
    parser.add_argument("file", nargs="?", default="-", metavar="FILE", help="the trace; - for standard input")
    options = parser.parse_args()
    text = read_all(options.file)
    said = explained(text)
    if said["verdict"] == "no trace":
        place = f"line {said['line']}, column {said['column']}: " if "line" in said else ""
        what = f"expected {said['expected']}; found {said['found']}"
        print(f"picture.py: not a valid trace: {place}{what}", file=sys.stderr)
        return NOT_A_TRACE
    try:
        write_all(pictured(text, said, options.timeline))
    except TooLong as why:
        print(f"picture.py: {why}", file=sys.stderr)
        return NOT_UNDERSTOOD
    return 0


if __name__ == "__main__":
    sys.exit(run_tool(answer))
