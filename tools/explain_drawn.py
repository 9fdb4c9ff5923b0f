#!/usr/bin/env python3
"""Explains a trace, and draws it: what ./explain does with --picture or --timeline.

    explain --picture FILE | --timeline FILE [--json] [--names FILE] [TRACE]

The explanation is written to standard output, as without these options, and then each picture (tools/picture.py) to
its FILE. The status is that of the explanation; 5 where a picture can't be written, and 6 where the command line isn't
right or a whole trace has too many points. Of a text that isn't a trace no picture is written.

EXPLAIN names the program that explains; else it is ./explain at the top.
"""

import os
import subprocess
import sys
from pathlib import Path

if sys.version_info < (3, 8):
    print("explain: --picture and --timeline need python3, 3.8 or later", file=sys.stderr)
    sys.exit(70)
sys.dont_write_bytecode = True

from command_line import NOT_DONE, STANDARD_INPUT, Arguments, read_all, run_tool
from picture import EXPLAIN, TooLong, explained, pictured

ACCEPTED, REFUSED = 0, 1


def arguments():
    """The command line."""
    parser = Arguments(prog="explain", allow_abbrev=False, description=__doc__.splitlines()[0])
    parser.add_argument("--picture", metavar="FILE", help="draw what lies around the refused point")
    parser.add_argument("--timeline", metavar="FILE", help="draw the whole trace")
    parser.add_argument("--json", action="store_true", help="as without a picture")
    parser.add_argument("--repaired", action="store_true", help="isn't drawn")
    parser.add_argument("--names", metavar="FILE", help="as without a picture")
    parser.add_argument("traces", nargs="*", metavar="TRACE", help="the trace; - for standard input")
    return parser


def options_of(parser):
    """What the command line asks for: the options, and the trace."""
    options = parser.parse_args()
    trace = options.traces[0] if options.traces else "-"
    if len(options.traces) > 1:
        parser.error("one trace is drawn, and several files are named")
    if options.repaired:
        parser.error("--repaired writes no explanation: it goes without --picture and --timeline")
    for file in (options.picture, options.timeline):
        if file in ("-", ""):
            parser.error("--picture and --timeline take the name of a file")
        if file is not None and os.path.exists(file) and os.path.exists(trace) and os.path.samefile(file, trace):
            parser.error(f"{file} is the trace: the picture would take its place")
    return options, trace


def pictures(options, text):
    """The pictures that are asked for, each with its file; none where the text isn't a trace."""
    wanted = [(options.picture, False), (options.timeline, True)]
    said = explained(text)
    if said["verdict"] == "no trace":
        return []
    return [(file, pictured(text, said, is_whole)) for file, is_whole in wanted if file is not None]


def answer():
    """Does what the command line asks."""
    parser = arguments()
    options, trace = options_of(parser)
    if trace == "-" and sys.stdin.isatty():
        print(f"reading a trace from {STANDARD_INPUT}", file=sys.stderr)
    text = read_all(trace)
    try:
        drawn = pictures(options, text)
    except TooLong as why:
        parser.error(str(why))
    ways = (["--json"] if options.json else []) + (["--names", options.names] if options.names is not None else [])
    status = subprocess.run([EXPLAIN, *ways], input=text, check=False).returncode
    if status not in (ACCEPTED, REFUSED):
        return status
    for file, picture in drawn:
        try:
            Path(file).write_bytes(picture.encode())
        except OSError as error:
            print(f"{file}: {error.strerror}", file=sys.stderr)
            status = NOT_DONE
    return status


if __name__ == "__main__":
    sys.exit(run_tool(answer))
