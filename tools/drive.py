#!/usr/bin/env python3
"""Performs a trace on the Vulkan driver of this machine, and compares what the host reads with what it has to read.

    drive [--runs N] [--device TEXT] [--list] [--keep FILE] [--layers] [--refused] [--heap0 BYTES] [--heap1 BYTES] TRACE

The trace (- for standard input) becomes a program in C by `emit`, which is compiled by cc, or by what CC names, and is
run. `--keep` keeps that program, which stands alone. EMIT and EXPLAIN name the programs; else they are ./emit and
./explain at the top. docs/USING.md, "Try a trace on your driver", says what is printed and what each status means.
"""

import os
import shutil
import signal
import subprocess
import sys
import tempfile
from pathlib import Path

sys.dont_write_bytecode = True

from command_line import INTERRUPTED, Arguments, name_of, read_all

TOP = Path(__file__).resolve().parent.parent
HEADER = TOP / "tools" / "drive" / "zw_drive.h"
LAYER = "VK_LAYER_KHRONOS_validation"
SYNCHRONIZATION = "VK_VALIDATION_FEATURE_ENABLE_SYNCHRONIZATION_VALIDATION_EXT"

# The statuses, which the compiled program has too, but for 2.
EQUAL, DIFFERS, NO_TRACE, REFUSED, ENDLESS, CANT, NOT_HERE = range(7)
# Those of `emit`.
WRITTEN, BREAKS_A_RULE, IS_NO_TRACE, FINDS_NO_ROOM = range(4)


class Ended(Exception):
    """Nothing more can be done: what is said on standard error, and the status."""

    def __init__(self, status, text):
        super().__init__(text)
        self.status = status


def options_of(arguments):
    """What the command line asks for."""
    parser = Arguments(prog="drive", description="Performs a trace on the Vulkan driver of this machine.")
    parser.add_argument("trace", nargs="?", metavar="TRACE", help="the file of the trace; - for standard input")
    parser.add_argument("--runs", type=int, default=1, metavar="N", help="perform it N times; 1 by default")
    parser.add_argument("--device", metavar="TEXT", help="the first whose name has TEXT, or of this number")
    parser.add_argument("--list", action="store_true", help="list the devices, and perform nothing")
    parser.add_argument("--keep", metavar="FILE", help="keep the program in C, which stands alone")
    parser.add_argument("--layers", action="store_true", help="run it under the validation layer of Khronos")
    parser.add_argument("--refused", action="store_true", help="perform a trace that breaks a rule, too")
    for heap in ("--heap0", "--heap1"):
        parser.add_argument(heap, metavar="BYTES", help="the size of the heap, as for replay")
    options = parser.parse_args(arguments)
    if options.trace is None and not options.list:
        parser.error("a trace is named, or --list")
    if options.runs < 1:
        parser.error("--runs takes 1 or more")
    return options


def answer_of(name, arguments, trace):
    """What a program of this repository answers to a trace."""
    command = [os.environ.get(name.upper()) or str(TOP / name), *arguments]
    return subprocess.run(command, input=trace, stdout=subprocess.PIPE, stderr=subprocess.PIPE, check=False)


def explain(trace):
    """Says what `explain` says of a trace."""
    print(answer_of("explain", [], trace).stdout.decode(errors="backslashreplace"), end="", flush=True)


def emitted(trace, options):
    """The program in C of a trace, and the status of `emit`."""
    arguments = ["--header", str(HEADER)]
    arguments += ["--refused"] if options.refused else []
    arguments += ["--heap0", options.heap0] if options.heap0 else []
    arguments += ["--heap1", options.heap1] if options.heap1 else []
    answer = answer_of("emit", arguments, trace)
    if answer.returncode == IS_NO_TRACE:
        explain(trace)
        raise Ended(NO_TRACE, "")
    if answer.returncode not in (WRITTEN, BREAKS_A_RULE, FINDS_NO_ROOM):
        said = answer.stderr.decode(errors="backslashreplace")
        raise Ended(NOT_HERE, f"emit ended with status {answer.returncode}\n{said}".rstrip())
    if answer.returncode == FINDS_NO_ROOM:
        entry = answer.stderr.decode(errors="backslashreplace").partition(" ")[2].partition(" ")[0]
        print(f"note: entry {entry} finds no room: what comes before it is performed", flush=True)
    return answer.stdout, answer.returncode


def compiled(text, room):
    """The program that a text in C is compiled to."""
    compiler = os.environ.get("CC") or shutil.which("cc")
    if not compiler:
        raise Ended(NOT_HERE, "there is no C compiler: neither cc, nor one that CC names")
    source, program = room / "main.c", room / "main"
    source.write_bytes(text)
    command = [*compiler.split(), "-o", str(program), str(source), "-lvulkan"]
    done = subprocess.run(command, stdout=subprocess.PIPE, stderr=subprocess.STDOUT, check=False)
    if done.returncode:
        said = done.stdout.decode(errors="backslashreplace")[:2000].rstrip()
        raise Ended(NOT_HERE, f"{compiler} refuses it: are Vulkan's headers and its loader here?\n{said}")
    return program


def performed(program, options):
    """Runs the compiled program, which says what came of it, and answers its status."""
    command = [str(program), "--runs", str(options.runs)]
    command += ["--device", options.device] if options.device else []
    surroundings = dict(os.environ)
    if options.layers:
        known = surroundings.get("VK_INSTANCE_LAYERS")
        surroundings["VK_INSTANCE_LAYERS"] = os.pathsep.join([LAYER, *([known] if known else [])])
        surroundings.setdefault("VK_LAYER_ENABLES", SYNCHRONIZATION)
    status = subprocess.run([*command, "--list"] if options.list else command, env=surroundings, check=False).returncode
    if status < 0:
        raise Ended(CANT, f"can't be done: the driver ends the program by {signal.Signals(-status).name}")
    return status


def drive(options):
    """Does what the command line asks, and answers the status."""
    trace = b"[]" if options.list else read_all(options.trace)
    text, status = emitted(trace, options)
    if status == BREAKS_A_RULE:
        explain(trace)
        if not options.refused:
            return REFUSED
    if options.keep:
        Path(options.keep).write_bytes(text)
    with tempfile.TemporaryDirectory() as room:
        return performed(compiled(text, Path(room)), options)


def main(arguments):
    """Runs the script, and answers the status."""
    try:
        return drive(options_of(arguments))
    except Ended as end:
        if str(end):
            print(f"drive: {end}", file=sys.stderr)
        return end.status
    except OSError as error:
        print(f"drive: {name_of(error.filename or '')}: {error.strerror}", file=sys.stderr)
        return NOT_HERE
    except KeyboardInterrupt:
        return INTERRUPTED


if __name__ == "__main__":
    sys.exit(main(sys.argv[1:]))
