#!/usr/bin/env python3
"""Tests what both programs make of little memory and little stack: statuses and texts.

    PROGRAM=FILE EXPLAIN=FILE tests/room.py [WORD]

With WORD only the tests run whose names have it.
"""

import sys

sys.dont_write_bytecode = True

from harness import TOP, Skipped, Test, answered, difference, main, run
from streams import ANSWERS, MOST_BYTES, PROGRAMS, TRACE

NO_MEMORY = answered("", 4, "no memory\n")


# ---- little memory


def limited(mebibytes, program, data):
    """What the program answers with so much address space."""
    command = ["sh", "-c", f'ulimit -v {mebibytes * 1024} && exec "$@"', "sh", program]
    return run(command, data)


def room_needed(program):
    """The least number of mebibytes with which the program answers to a trace without entries."""
    low, high = 0, 4096
    if limited(high, program, b"[]").status != 0:
        raise Skipped(f"the program doesn't start in {high} MiB, as one with a sanitizer doesn't")
    while high - low > 1:
        middle = (low + high) // 2
        if limited(middle, program, b"[]").status == 0:
            high = middle
        else:
            low = middle
    return high


def memory_tests(name, program):
    """Of what needs more memory than there is nothing is written, and it is said."""
    entries = b",".join(b'["semaphore",%d,0]' % k for k in range(120_000))
    texts = {"blanks": TRACE.ljust(MOST_BYTES, b" "), "entries": b"[" + entries + b"]"}
    for what, text in texts.items():
        title = f"{name}: little memory for many {what}"
        yield Test(title, lambda t=text: judge_little(program, t))
    yield Test(f"{name}: just enough memory to start", lambda: judge_start(program, ANSWERS[name]))


def judge_little(program, text):
    """Runs the program with room to start and little more, and with enough."""
    needed = room_needed(program)
    for more in (0, 1, 2, 4, 8):
        found = difference(NO_MEMORY, limited(needed + more, program, text))
        if found:
            return f"with {needed + more} MiB: {found}"
    answer = limited(needed + 2048, program, text)
    return None if answer.status == 0 else f"with {needed + 2048} MiB: {answer}"


def judge_start(program, whole):
    """With too little memory to start nothing is written, and the status isn't 0."""
    needed = room_needed(program)
    for mebibytes in range(1, needed + 3):
        answer = limited(mebibytes, program, TRACE)
        is_whole = answer == whole
        if not is_whole and (answer.status == 0 or answer.output):
            return f"with {mebibytes} MiB: {answer}"
        if answer.status == 4 and answer != NO_MEMORY:
            return f"with {mebibytes} MiB: {answer}"
    return None


def address_tests(name, program):
    """Address space from nothing up, in steps of 64 KiB: no signal once the program has begun, and no half output."""
    yield Test(f"{name}: address space in small steps", lambda: judge_steps(program, ANSWERS[name]))


def judge_steps(program, whole):
    """Where the program begins, each answer is the whole one or that of want of memory."""
    has_begun = False
    for kibibytes in range(0, room_needed(program) * 1024 + 2_048, 64):
        command = ["sh", "-c", f'ulimit -v {kibibytes} && exec "$@"', "sh", program]
        answer = run(command, TRACE)
        has_begun |= answer in (whole, NO_MEMORY)
        if answer not in (whole, NO_MEMORY) and (has_begun or answer.output or answer.status == 0):
            return f"with {kibibytes} KiB: {answer}"
    return None if answer == whole else f"with {kibibytes} KiB: {answer}"


# ---- little stack

STACK = 64
# Texts with much that lies in each other; `replay` says of each that it is no trace, and so does `explain`.
NESTED = {
    "arrays": b"[" * 8_388_608 + b"]" * 8_388_608,
    "arrays that don't end": b"[" * MOST_BYTES,
    "127 arrays": b"[" * 127 + b"]" * 127,
    "9 objects": b'{"a":' * 9 + b"1" + b"}" * 9,
    "16 objects": b'{"a":' * 16 + b"1" + b"}" * 16,
    "an object in 8 arrays": b"[" * 8 + b'{"a":1}' + b"]" * 8,
    "127 objects": b'{"a":' * 127 + b"1" + b"}" * 127,
    "a million objects": b'{"a":' * 1_000_000,
    "arrays and objects": b'[{"a":' * 63 + b"1" + b"}]" * 63,
    "arrays in an entry": b'[["buffer",' + b"[" * 120 + b"]" * 120 + b"]]",
    "arrays in a barrier": b'[["submit",0,[[[],[["barrier",' + b"[" * 100 + b"]" * 100 + b",[],[]]],[]]]]]",
}


def on_small_stack(command, text):
    """What a program answers with a small stack."""
    return run(["sh", "-c", f'ulimit -s {STACK} && exec "$@"', "sh", *command], text)


def stack_tests(name, program):
    """With a small stack nested texts and all examples are answered as with a large one."""
    ways = [[], ["--json"], ["--repaired"]] if name == "explain" else [[]]
    texts = {f"{what} in each other": text for what, text in NESTED.items()}
    for path in sorted((TOP / "examples").glob("*.json")):
        if not path.name.endswith((".explained.json", ".repaired.json")):
            texts[f"examples/{path.stem}"] = path.read_bytes()
    for what, text in texts.items():
        title = f"{name}: a stack of {STACK} KiB, {what}"
        yield Test(title, lambda t=text: judge_stack([[program, *way] for way in ways], t))


def judge_stack(commands, text):
    """Compares each answer on a small stack with that on a large one."""
    for command in commands:
        wanted = run(command, text)
        found = difference(wanted, on_small_stack(command, text))
        if found or wanted.status not in (0, 1, 2, 3):
            return f"{' '.join(command[1:])}: {found or wanted}"
    return None


def all_tests():
    """All of them."""
    word = sys.argv[1] if len(sys.argv) > 1 else ""
    tests = []
    for name, program in PROGRAMS:
        tests += memory_tests(name, program)
        tests += address_tests(name, program)
        tests += stack_tests(name, program)
    return [test for test in tests if word in test.name]


if __name__ == "__main__":
    sys.exit(main(all_tests()))
