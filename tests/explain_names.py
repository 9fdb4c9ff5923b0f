"""Tests the option `--names` of `explain`: which call of a captured program a point is.

They are run by tests/explain_options.py. What the captures of tests/captures/ say is tested by tests/captures.py.
"""

import json
import tempfile
from pathlib import Path

from explain_options import ACCEPTED, BROKEN, ESCAPE, INVALID
from explain_options import file_of, judge_refused, listed, run_on_terminal, said_of, text_of
from harness import EXPLAIN, Answer, Test, answered, compared, difference, run

NO_NAMES = 7
# The calls of the points of `missing_dependency`, of which one is put in by the tool.
CALLED = [
    {"call": 3, "name": "vkBindBufferMemory"},
    {"call": 4, "name": "vkCreateSemaphore"},
    {"call": 9, "name": "vkQueueSubmit2", "batches": [[[7, "vkCmdFillBuffer"]]]},
    {"call": 10, "name": "vkWaitSemaphores"},
    {"call": 11, "name": "vkMapMemory"},
    {"call": 12, "name": "vkUnmapMemory", "why": "the host reads"},
]
CALLS_SAID = [
    ("entry 5 reads", "entry 5 (call 12 vkUnmapMemory: the host reads) reads"),
    ("access: command 2.0.0;", "access: command 2.0.0 (call 7 vkCmdFillBuffer);"),
    ("by signal 2.0.s0\n", "by signal 2.0.s0 (call 9 vkQueueSubmit2)\n"),
]
CALLS_LISTED = [
    {"point": "2.0.0", "call": 7, "name": "vkCmdFillBuffer"},
    {"point": "2.0.s0", "call": 9, "name": "vkQueueSubmit2"},
    {"point": "5", "call": 12, "name": "vkUnmapMemory", "why": "the host reads"},
]


def names_text(entries):
    """The text of a file of `--names`."""
    return json.dumps({"capture": "program.gfxr", "objects": {}, "entries": entries}).encode()


def with_names(names, arguments, data=b""):
    """What the program answers with a file of `--names`, whose name is FILE in what it says."""
    with tempfile.TemporaryDirectory() as room:
        path = Path(room) / "names.json"
        path.write_bytes(names)
        answer = run([EXPLAIN, "--names", str(path), *arguments], data)
    return Answer(answer.output, answer.status, answer.error.replace(str(path).encode(), b"FILE"))


def called_text(text):
    """An explanation of `missing_dependency` with the calls of its points, each where it is named first."""
    for plain, called in CALLS_SAID:
        text = text.replace(plain, called, 1)
    return text


def named(name, wanted, names, arguments, data=b""):
    """A test with a file of `--names`."""
    return Test(f"explain --names: {name}", lambda: difference(wanted, with_names(names, arguments, data)))


def names_tests():
    """Files with calls, good and bad ones; they change no verdict."""
    names, broken = names_text(CALLED), said_of(BROKEN)
    wanted = answered(called_text(broken), 1)
    yield named("lines", wanted, names, [file_of(BROKEN)])
    yield named("standard input", wanted, names, [], text_of(BROKEN))
    yield named("an accepted trace", answered(said_of(ACCEPTED)), names, [file_of(ACCEPTED)])
    yield named("no trace", answered(said_of(INVALID), 2), names, [file_of(INVALID)])
    yield named("fewer entries", answered(broken, 1), names_text([]), [file_of(BROKEN)])
    both = listed(BROKEN, ACCEPTED).replace(broken, called_text(broken))
    yield named("several", answered(both, 1), names, [file_of(BROKEN), file_of(ACCEPTED)])
    member = f',"calls":{json.dumps(CALLS_LISTED, separators=(",", ":"))}}}\n'
    as_object = said_of(BROKEN, "explained.json").replace("}\n", member)
    yield named("--json", answered(as_object, 1), names, ["--json", file_of(BROKEN)])
    accepted = said_of(ACCEPTED, "explained.json").replace("}\n", ',"calls":[]}\n')
    yield named("--json, an accepted trace", answered(accepted), names, ["--json", file_of(ACCEPTED)])
    yield Test("explain --names on a terminal", judge_called_colours)
    yield from bad_names_tests()


def judge_called_colours():
    """With colours the text is the same."""
    with tempfile.TemporaryDirectory() as room:
        path = Path(room) / "names.json"
        path.write_bytes(names_text(CALLED))
        answer = run_on_terminal([EXPLAIN, "--names", str(path)], text_of(BROKEN))
    plain = Answer(ESCAPE.sub(b"", answer.output), answer.status, answer.error)
    return difference(answered(called_text(said_of(BROKEN)), 1), plain)


A_NAME = "a string of printable ASCII without quotes and backslashes"
A_NUMBER = "a number from 0 to 18446744073709551615"
NOT_DEEPER = "at most six arrays and objects nested in each other"


def bad_names_tests():
    """What is no file of `--names` is told with its place, and nothing is explained."""
    one, pairs = [{"call": 1, "name": "vkX"}], [{"call": 1, "name": "vkX", "batches": [[[1, 2]]]}]
    for name, names, place, expected, found in (
        ("no JSON", b'{"entries": [\n  1 2', "line 2, column 5", "valid JSON", "a syntax error"),
        ("an end too early", b'{"entries": [', "line 1, column 13", "valid JSON", "the end of the file"),
        ("no UTF-8", b'{"entries":\n["\xff"]}', "line 2, column 3", "UTF-8", "other bytes"),
        ("a trace", text_of(BROKEN), "member /entries", "an array", "nothing"),
        ("no entries", b"{}", "member /entries", "an array", "nothing"),
        ("entries that are none", b'{"entries": 5}', "member /entries", "an array", "a number"),
        ("no call", names_text(one + [{}]), "member /entries/1/call", A_NUMBER, "nothing"),
        ("a call below 0", names_text([{"call": -1, "name": "x"}]), "member /entries/0/call", A_NUMBER, "a number"),
        ("no name", names_text([{"call": 1}]), "member /entries/0/name", A_NAME, "nothing"),
        ("a name with a line", names_text([{"call": 1, "name": "a\nb"}]), "member /entries/0/name", A_NAME, "a string"),
        ("why", names_text([{"call": 1, "name": "x", "why": 5}]), "member /entries/0/why", A_NAME, "a number"),
        ("batches", names_text([{**one[0], "batches": 5}]), "member /entries/0/batches", "an array", "a number"),
        ("a command", names_text(pairs), "member /entries/0/batches/0/0/1", A_NAME, "a number"),
        ("nested deep", b"[" * 7 + b"]" * 7, "line 1, column 7", NOT_DEEPER, "one more"),
    ):
        said = f"FILE isn't a file of from_capture.py --names: {place}: expected {expected}; found {found}\n"
        yield named(name, answered("", NO_NAMES, said), names, [file_of(BROKEN)])
    missing = [EXPLAIN, "--names", "/nonexistent", file_of(BROKEN)]
    said = "/nonexistent: No such file or directory (os error 2)\n"
    yield compared("explain --names /nonexistent", answered("", 5, said), missing)
    both = ["--names", "x", "--repaired"]
    yield Test("explain --names FILE --repaired", lambda: judge_refused(both, "error: the argument"))
    yield Test("explain --names", lambda: judge_refused(["--names"], "error: a value is required"))
