#!/usr/bin/env python3
"""Runs both programs on inputs of up to 16 MiB of each shape, and says what took longer or more memory than it may.

    PROGRAM=FILE EXPLAIN=FILE bench/largest.py [--runs N] [--seconds N] [WORD]..

Of each shape (largest_shapes.py) whose name has one of the words, `replay` (heaps of 64 MiB), `explain`
and `explain --repaired` are run: the seconds of the processor, the least of N runs (one where nothing is said), and the
most mebibytes. A program is ended after so many such seconds as are given, 100 where none are. Behind a number stands `!`
where it is over 10 seconds or 2,048 MiB, and behind the status where that isn't one of 0 to 3, or `replay` and
`explain` differ in what they are to say alike. The exit status is 1 where there is such a mark.
"""

import argparse
import os
import pathlib
import resource
import sys
import tempfile

sys.dont_write_bytecode = True
sys.path.append(str(pathlib.Path(__file__).resolve().parent.parent / "tests"))

from harness import EXPLAIN, PROGRAM, build
from largest_shapes import MOST_BYTES, SHAPES

MOST_SECONDS, MOST_MEBIBYTES = 10, 2_048
HEAPS = ("--heap0", "67108864", "--heap1", "67108864")
WAYS = (("replay", PROGRAM, HEAPS), ("explain", EXPLAIN, ()), ("repaired", EXPLAIN, ("--repaired",)))
# The status of `explain` for one of `replay`.
EXPLAINED = {0: 0, 1: 1, 2: 2, 3: 0}


def measured(command, path, seconds):
    """The seconds of the processor, the mebibytes and the exit status of one run; a signal is below 0."""
    files = [
        (os.POSIX_SPAWN_OPEN, 0, path, os.O_RDONLY, 0),
        (os.POSIX_SPAWN_OPEN, 1, os.devnull, os.O_WRONLY, 0),
        (os.POSIX_SPAWN_OPEN, 2, os.devnull, os.O_WRONLY, 0),
    ]
    process = os.posix_spawn(command[0], command, os.environ, file_actions=files)
    resource.prlimit(process, resource.RLIMIT_CPU, (seconds, seconds))
    _, status, used = os.wait4(process, 0)
    code = os.WEXITSTATUS(status) if os.WIFEXITED(status) else -os.WTERMSIG(status)
    return used.ru_utime + used.ru_stime, used.ru_maxrss / 1024, code


def write(path, text):
    """Writes a text to a file, in a process of its own: what is measured begins with the memory of this one."""
    process = os.fork()
    if process == 0:
        pathlib.Path(path).write_bytes(text().encode())
        os._exit(0)
    os.waitpid(process, 0)
    assert 0 < os.path.getsize(path) <= MOST_BYTES, path


def best(options, command, path):
    """The least time of some runs, with the most memory and the last status."""
    runs = [measured(command, path, options.seconds) for _ in range(options.runs)]
    return min(run[0] for run in runs), max(run[1] for run in runs), runs[-1][2]


def marked(text, is_over):
    """A number with a mark where it is over what it may be."""
    return f"{text}{'!' if is_over else ' '}"


def row(options, name, path):
    """Prints what a shape takes, and answers whether a mark was set."""
    shown, statuses, is_marked = [], {}, False
    for way, program, arguments in WAYS:
        seconds, mebibytes, status = best(options, [program, *arguments], path)
        statuses[way] = status
        is_odd = status not in EXPLAINED or way == "explain" and EXPLAINED.get(statuses["replay"]) != status
        shown.append(marked(f"{seconds:7.2f}", seconds > MOST_SECONDS))
        shown.append(marked(f"{mebibytes:6.0f}", mebibytes > MOST_MEBIBYTES) + marked(f"{status:4}", is_odd))
        is_marked |= seconds > MOST_SECONDS or mebibytes > MOST_MEBIBYTES or is_odd
    print(f"{name:44}{os.path.getsize(path) / (1 << 20):5.1f} {' '.join(shown)}", flush=True)
    return is_marked


def main():
    """Runs the shapes that the command line names, and answers the exit status."""
    parser = argparse.ArgumentParser(description=__doc__.splitlines()[0])
    parser.add_argument("--runs", type=int, default=1)
    parser.add_argument("--seconds", type=int, default=100)
    parser.add_argument("words", nargs="*")
    options = parser.parse_args()
    for program in (PROGRAM, EXPLAIN):
        build(program)
    heads = "".join(f"{way:>8} s   MiB status" for way, _, _ in WAYS)
    print(f"{'shape':44}{'MiB':>5} {heads}")
    is_marked = False
    with tempfile.TemporaryDirectory() as folder:
        path = os.path.join(folder, "trace")
        for name, text in SHAPES.items():
            if options.words and not any(word in name for word in options.words):
                continue
            write(path, text)
            is_marked |= row(options, name, path)
    return 1 if is_marked else 0


if __name__ == "__main__":
    sys.exit(main())
