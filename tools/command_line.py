"""What the tools for traces share: their arguments, statuses, input and output."""

import argparse
import gc
import os
import sys
from pathlib import Path

NOT_A_TRACE, NOT_DONE, NOT_UNDERSTOOD, INTERRUPTED = 2, 5, 6, 130
STANDARD_INPUT, STANDARD_OUTPUT = "standard input", "standard output"


class Arguments(argparse.ArgumentParser):
    """A command line, whose mistakes have a status of their own."""

    def error(self, message):
        """Says what is wrong with the command line, and ends."""
        self.print_usage(sys.stderr)
        self.exit(NOT_UNDERSTOOD, f"{self.prog}: {message}\n")


def name_of(file):
    """How a file is called; `-` is standard input."""
    return STANDARD_INPUT if file == "-" else file


def read_all(file):
    """The bytes of a file, or of standard input."""
    try:
        return sys.stdin.buffer.read() if file == "-" else Path(file).read_bytes()
    except OSError as error:
        raise OSError(error.errno, error.strerror, name_of(file)) from error


def write_all(text):
    """Writes a text to standard output, all of it."""
    data = text.encode()
    try:
        while data:
            data = data[os.write(1, data) :]
    except OSError as error:
        raise OSError(error.errno, error.strerror, STANDARD_OUTPUT) from error


def run_tool(answer):
    """Runs what answers a status, and says what couldn't be read or written."""
    sys.stderr.reconfigure(errors="backslashreplace")
    # (what a tool makes has no cycles, and large traces have millions of values)
    gc.disable()
    try:
        return answer()
    except OSError as error:
        print(f"{error.filename or STANDARD_OUTPUT}: {error.strerror}", file=sys.stderr)
        # (what is left for standard output isn't tried again)
        os.dup2(os.open(os.devnull, os.O_WRONLY), 1)
        return NOT_DONE
    except KeyboardInterrupt:
        return INTERRUPTED
