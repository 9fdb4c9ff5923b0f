"""Tests of tools/smallest.py."""

import json
import os
from pathlib import Path

from harness import EXPLAIN, PROGRAM, Test, answered, compared, difference, run
from people_tools import COMMENTED, EXAMPLES, NO_TRACE, NOT_DONE, SMALLEST, judge_refused

NOTHING_TO_KEEP = 1


TO_GENERAL = ["barrier", [], [], [[0, 0, 4096, 4096, 4294967295, 4294967295, 2, 0, 1, [0, 3, 0, 1]]]]
FIRST_LEVEL = [0, 0, 0, 0, 0, 1, 0, 0, 4, 4]
# An example, and what is left of it: that it is refused so depends on nothing else.
SMALL = {
    "missing_dependency": [
        ["buffer", 1, 16, 3, "exclusive", ["dedicated", 1]],
        ["submit", 0, [[[], [["fill", 1, 0, 16, 67305985]], []]]],
        ["map", 1],
        ["read", 1, 0, 4],
    ],
    "overlapping_fills": [
        ["buffer", 1, 16, 3, "exclusive", ["dedicated", 1]],
        ["submit", 0, [[[], [["fill", 1, 0, 8, 67305985], ["fill", 1, 4, 8, 134678021]], []]]],
    ],
    "undefined_bytes": [
        ["buffer", 1, 18, 3, "exclusive", ["dedicated", 1]],
        ["map", 1],
        ["read", 1, 12, 5],
    ],
    "signal_not_above": [
        ["semaphore", 1, 0],
        ["submit", 0, [[[], [], [[1, 5, 65536]]]]],
        ["signal", 1, 5],
    ],
    "endless_wait": [["semaphore", 1, 0], ["wait", [[1, 1]]]],
    "staging_without_barrier": [
        ["memory", 1, 1, 4096],
        ["buffer", 2, 256, 1, "exclusive", ["memory", 1, 0]],
        ["buffer", 3, 256, 3, "exclusive", ["dedicated", 0]],
        ["buffer", 4, 256, 2, "exclusive", ["memory", 1, 256]],
        ["submit", 0, [[[], [["copy", 2, 3, [[0, 16, 5]]], ["copy", 3, 4, [[16, 0, 5]]]], []]]],
    ],
    "image_without_barrier": [
        ["image", 2, "R8_UINT", 4, 4, 3, 1, "optimal", 3, "exclusive", ["dedicated", 0]],
        ["buffer", 3, 24, 2, "exclusive", ["dedicated", 1]],
        ["submit", 0, [[[], [TO_GENERAL, ["copy_out", 2, 1, 3, [FIRST_LEVEL]]], []]]],
    ],
}
# What is left of the trace with names.
SMALL_COMMENTED = [
    ["buffer", 1, 16, 3, "exclusive", ["dedicated", 1]],
    ["submit", 0, [[[], [["fill", 1, 0, "whole", 67305985]], []]]],
    ["map", 1],
    ["read", 1, 0, 4],
]
FILLS = [["fill", 1, 0, 8, 1], ["fill", 1, 4, 8, 2]]
OTHER_FILLS = [["fill", 2, 0, 8, 1], ["fill", 2, 4, 8, 2]]
BUFFERS = [["buffer", number, 16, 3, "exclusive", ["dedicated", 1]] for number in (1, 2)]
# Traces with what is left of them: one whose other fault isn't taken for the first one, and one whose fault is a list
# without members.
KEPT = [
    (
        [*BUFFERS, ["submit", 0, [[[], [FILLS[0], OTHER_FILLS[0], FILLS[1], OTHER_FILLS[1]], []]]]],
        [BUFFERS[0], ["submit", 0, [[[], FILLS, []]]]],
    ),
    ([["semaphore", 1, 0], ["wait", []], ["signal", 1, 1], ["wait", [[1, 1]]]], [["wait", []]]),
]
# The ids of objects that don't matter begin here.
FIRST_ID = 1000
# So often there are such entries in a long trace, which is made small in so many runs at most.
OFTEN, MOST_RUNS = 75, 120


def as_text(trace):
    """A trace as it is written: an entry a line."""
    lines = ",\n".join(f"  {json.dumps(entry, separators=(',', ':'))}" for entry in trace)
    return f"[\n{lines}\n]\n"


def padding(number):
    """Entries that break no rule and have nothing to do with other ones, by a number."""
    buffer, semaphore = FIRST_ID + 2 * number, FIRST_ID + 2 * number + 1
    element = [4096, 4096, 16384, 8192, 0, 0, buffer, 0, "whole"]
    commands = [["fill", buffer, 0, 64, number], ["barrier", [], [element], []]]
    return [
        ["buffer", buffer, 64, 3, "exclusive", ["dedicated", 1]],
        ["semaphore", semaphore, 0],
        ["submit", 3, [[[], commands, [[semaphore, 1, 65536]]]]],
        ["wait", [[semaphore, 1]]],
        ["map", buffer],
        ["read", buffer, 0, 8],
        ["unmap", buffer],
        ["destroy", buffer],
    ]


def padded(trace, times):
    """A trace with such entries before, between and behind its own."""
    made = []
    for number in range(times):
        low, high = (len(trace) * k // times for k in (number, number + 1))
        made += [*padding(number), *trace[low:high]]
    return made


def judge_smallest(name, wanted, times, arguments=()):
    """What is left of an example with such entries: what is wanted, in no more runs than halving needs."""
    trace = padded(json.loads((EXAMPLES / f"{name}.json").read_bytes()), times)
    answer = run([*SMALLEST, *arguments], json.dumps(trace).encode())
    found = difference((as_text(wanted).encode(), 0), (answer.output, answer.status))
    said = answer.error.decode()
    if found or not said.startswith(f"{len(trace)} entries, ") or not said.endswith(" runs\n"):
        return found or f"standard error: {said}"
    runs = int(said.split()[-2])
    return None if runs <= MOST_RUNS else f"{runs} runs"


def smallest_tests():
    """Refused examples with entries that don't matter; what is to stay in other ways; and what can't be."""
    for name, wanted in SMALL.items():
        yield Test(f"smallest {name}", lambda n=name, w=wanted: judge_smallest(n, w, 12))
    for name in ("missing_dependency", "overlapping_fills"):
        wanted = SMALL[name]
        yield Test(f"smallest {name}, long", lambda n=name, w=wanted: judge_smallest(n, w, OFTEN))
    for trace, wanted in KEPT:
        text = json.dumps(trace)
        yield Test(f"smallest of {text[:60]}", lambda t=text, w=wanted: judge_left(t, as_text(w)))
    yield Test("smallest --rule", lambda: judge_rule("HAZARD_RAW", 4))
    command = f"{EXPLAIN} | grep -q 'made available by signal'"
    signaled = SMALL["missing_dependency"][:1] + [["semaphore", 2, 0]] + SMALL["missing_dependency"][1:]
    signaled[2] = ["submit", 0, [[[], [["fill", 1, 0, 16, 67305985]], [[2, 1, 65536]]]]]
    yield Test(
        "smallest --command",
        lambda: judge_smallest("missing_dependency", signaled, 2, ["--command", command]),
    )
    left = as_text(SMALL_COMMENTED)
    yield Test("smallest of a trace with names", lambda: judge_left(COMMENTED, left))
    yield from unkept_tests()


def judge_left(text, wanted):
    """What is left of a text."""
    answer = run(SMALLEST, text.encode())
    return difference((wanted.encode(), 0), (answer.output, answer.status))


def judge_rule(rule, entries):
    """What is left breaks the rule, at whichever point, and has so many entries."""
    trace = padded(json.loads((EXAMPLES / "missing_dependency.json").read_bytes()), 12)
    answer = run([*SMALLEST, "--rule", rule], json.dumps(trace).encode())
    verdict = run([PROGRAM], answer.output).output.decode().split()
    return difference((0, rule, entries), (answer.status, verdict[2], len(json.loads(answer.output))))


def unkept_tests():
    """Where there is nothing to keep, no trace, no program, or no such option."""
    accepted, broken = (str(EXAMPLES / f"{name}.json") for name in ("first_upload", "missing_dependency"))
    full = str(EXAMPLES / "full_heap.json")
    for file in (accepted, full):
        said = f"{file} isn't refused, so there is nothing to keep\n"
        wanted = answered("", NOTHING_TO_KEEP, said)
        yield compared(f"smallest {Path(file).stem}", wanted, [*SMALLEST, file])
    said = f"{broken} is refused at 5 by HAZARD_RAW, and not by NEW_ID\n"
    wanted = answered("", NOTHING_TO_KEEP, said)
    yield compared("smallest --rule that isn't broken", wanted, [*SMALLEST, "--rule", "NEW_ID", broken])
    said = f"{broken}: the command ends with 3, where 0 is to stay\n"
    wanted = answered("", NOTHING_TO_KEEP, said)
    yield compared("smallest --command that fails", wanted, [*SMALLEST, "--command", "exit 3", broken])
    wanted = answered("[]\n", error="6 entries, 1 command; left 0 entries, 0 commands; 3 runs\n")
    yield compared("smallest --command true", wanted, [*SMALLEST, "--command", "true", broken])
    said = 'standard input:1:11: id of an entry "event": expected a number from 0 to 4294967295; found -1\n'
    wanted = answered("", NO_TRACE, said)
    yield compared("smallest of what isn't a trace", wanted, SMALLEST, b'[["event",-1]]')
    for program, said in (
        ("/there/is/no/replay", "/there/is/no/replay: No such file or directory\n"),
        ("/bin/false", "/bin/false: it gives no verdict: status 1, output '', error ''\n"),
    ):
        environment = {**os.environ, "PROGRAM": program}
        wanted = answered("", NOT_DONE, said)
        yield compared(f"smallest by {program}", wanted, [*SMALLEST, broken], env=environment)
    for arguments in (["--nothing"], ["a", "b"], ["--rule"], ["--rule", "SIZE", "--command", "true"]):
        yield Test(f"smallest {' '.join(arguments)}", lambda a=arguments: judge_refused(SMALLEST, a))
