"""What the tests of the tools for people share: the tools, and a trace with names and comments."""

import sys

from harness import TOP, difference, run

EXAMPLES = TOP / "examples"
NAMES, SMALLEST, EACH = (
    [sys.executable, "-B", str(TOP / "tools" / tool)] for tool in ("names.py", "smallest.py", "each")
)
NO_TRACE, NOT_DONE, NOT_UNDERSTOOD = 2, 5, 6

COMMENTED = """\
// An upload /* of 16 bytes */
[
\t["buffer", 1, 0x10, "TRANSFER_SRC|TRANSFER_DST", "exclusive", ["dedicated", "HOST_COHERENT",],], // é
  /* a semaphore,
     ["not", "an", "entry"] */ ["semaphore", 2, 0], ["submit", 0, [
    [[], [
      ["fill", 1, 0, "whole", 0x04030201], // the word
    ], [[2, 1, "ALL_COMMANDS"]],],
  ]],

  ["wait", [[2, 1]]], ["map", 1], /* now */ ["read", 1, 0, 0X4], // here
]
"""


def judge_refused(tool, arguments):
    """A command line that isn't right."""
    answer = run([*tool, *arguments], b"[]")
    begins = answer.error.startswith(b"usage: ")
    return difference((b"", NOT_UNDERSTOOD, True), (answer.output, answer.status, begins))
