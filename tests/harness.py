"""What the tests share: the two programs, runs with a time limit, comparisons, and the counting.

The programs are those that PROGRAM and EXPLAIN name in the environment, else `replay` and `explain` at the top.
"""

import os
import pathlib
import subprocess
import sys
import time
from concurrent.futures import ThreadPoolExecutor
from typing import Callable, NamedTuple, Union

TOP = pathlib.Path(__file__).resolve().parent.parent
PROGRAM = os.path.abspath(os.environ.get("PROGRAM") or TOP / "replay")
EXPLAIN = os.path.abspath(os.environ.get("EXPLAIN") or TOP / "explain")

# A program that takes longer is ended, and has failed.
SECONDS = 60
# Of an output that differs so many bytes are shown.
SHOWN = 400
# After so many seconds it is said how far a part is, where standard error is a terminal.
QUIET_SECONDS = 5


class Answer(NamedTuple):
    """What a program wrote to standard output, how it ended, and what it wrote to standard error."""

    output: bytes
    status: Union[int, str]
    error: bytes

    def __str__(self):
        return f"status {self.status}, output {shown(self.output)}, error {shown(self.error)}"


class Test(NamedTuple):
    """A name, and what answers nothing where all is as it should be, else what differs."""

    name: str
    judge: Callable


class Skipped(Exception):
    """A test that can't be run here, with the reason."""


def shown(text):
    """Bytes as they are shown, without what is too long."""
    rest = f" and {len(text) - SHOWN} bytes" if len(text) > SHOWN else ""
    return f"{text[:SHOWN].decode(errors='backslashreplace')!a}{rest}"


def answered(output="", status=0, error=""):
    """The answer that is wanted, from texts."""
    return Answer(output.encode(), status, error.encode())


def run(command, data=b"", seconds=SECONDS, **streams):
    """What a program answers to the data on standard input, or to the streams that are given."""
    if "stdin" not in streams:
        streams["input"] = data
    streams.setdefault("stdout", subprocess.PIPE)
    streams.setdefault("stderr", subprocess.PIPE)
    try:
        ended = subprocess.run(command, timeout=seconds, check=False, **streams)
    except subprocess.TimeoutExpired as late:
        return Answer(late.stdout or b"", f"none: no end in {seconds} s", late.stderr or b"")
    return Answer(ended.stdout or b"", ended.returncode, ended.stderr or b"")


def difference(wanted, answer):
    """Nothing where the two are the same, else both."""
    return None if wanted == answer else f"wanted: {wanted}\n  came:   {answer}"


def compared(name, wanted, command, data=b"", **streams):
    """A test that runs a command and compares its answer."""
    return Test(name, lambda: difference(wanted, run(command, data, **streams)))


def outcome(test):
    """What differs, if anything; and whether the test was skipped, and why."""
    try:
        return test.judge(), None
    except Skipped as why:
        return None, str(why)
    except (OSError, ValueError) as error:
        return f"{type(error).__name__}: {error}", None


def processors():
    """How many processors may be used."""
    return len(os.sched_getaffinity(0)) if hasattr(os, "sched_getaffinity") else os.cpu_count() or 1


class Progress:
    """Says on a terminal from time to time how far a part is."""

    def __init__(self, total):
        self.total = total
        self.next = time.monotonic() + QUIET_SECONDS
        self.is_said = False

    def note(self, done):
        """Says it, where it is time to."""
        now = time.monotonic()
        if sys.stderr.isatty() and now >= self.next:
            self.next = now + 0.5
            self.is_said = True
            print(f"\r  {done} of {self.total}", end="", file=sys.stderr, flush=True)

    def clear(self):
        """Takes away what was said."""
        if self.is_said:
            print("\r\x1b[K", end="", file=sys.stderr, flush=True)


def outcomes(tests):
    """What came of each test, in order; as many are run side by side as there are processors."""
    progress = Progress(len(tests))
    with ThreadPoolExecutor(processors()) as pool:
        waiting = [pool.submit(outcome, test) for test in tests]
        try:
            for done, future in enumerate(waiting):
                progress.note(done)
                yield future.result()
        finally:
            progress.clear()
            for future in waiting:
                future.cancel()


def build(program):
    """Runs a program at the top once, which may build it."""
    if os.path.dirname(program) == str(TOP):
        subprocess.run([program], input=b"[]", stdout=subprocess.DEVNULL, check=False)


def last_line(passed, failed, skipped=0):
    """The line with which tests end."""
    return f"{passed} passed, {failed} failed" + (f", {skipped} skipped" if skipped else "")


def main(tests, programs=(PROGRAM, EXPLAIN)):
    """Runs the tests, which need these programs, prints what differs, and answers the exit status."""
    tests = list(tests)
    try:
        for program in programs:
            build(program)
        return judged(tests)
    except KeyboardInterrupt:
        return 130


def judged(tests):
    """The same, once the programs are there."""
    passed = failed = skipped = 0
    for test, (found, why) in zip(tests, outcomes(tests)):
        if why is not None:
            skipped += 1
            print(f"skipped: {test.name}: {why}", flush=True)
        elif found is not None:
            failed += 1
            print(f"{test.name}\n  {found}", flush=True)
        else:
            passed += 1
    # (where nothing was run, the tests are broken)
    if not tests:
        failed = 1
    print(last_line(passed, failed, skipped))
    return 1 if failed else 0
