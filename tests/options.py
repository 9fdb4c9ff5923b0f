#!/usr/bin/env python3
"""Tests each option of `replay`: values that are good and bad, and the texts on standard error.

    PROGRAM=FILE tests/options.py
"""

import json
import re
import sys

sys.dont_write_bytecode = True

from harness import PROGRAM, TOP, Test, answered, compared, difference, main, run

REFUSED = 6
MORE = "\nFor more information, try '--help'.\n"
USAGE = "\nUsage: replay [OPTIONS]\n"
FIRST_UPLOAD = (TOP / "examples" / "first_upload.json").read_bytes()
READ_BACK = answered((TOP / "examples" / "first_upload.expected").read_text(encoding="utf-8"))

HELP = """\
Replays a trace of Vulkan transfers from standard input, or reports the first rule that it breaks

Usage: replay [OPTIONS]

Options:
      --order <ORDER>  Which of the pieces of commands that may run next is run [default: first] \
[possible values: first, last, seed]
      --seed <N>       Where --order seed begins [default: 0]
      --caches         Replay on a device whose queues each keep a write-back cache
      --heap0 <BYTES>  The size of heap 0, device memory [default: 4194304]
      --heap1 <BYTES>  The size of heap 1, host memory [default: 4194304]
  -h, --help           Print help
"""

# Each option with its placeholder, a value that it takes, and another one.
OPTIONS = [
    ("--order", "ORDER", "first", "last"),
    ("--seed", "N", "0", "1"),
    ("--heap0", "BYTES", "65536", "65537"),
    ("--heap1", "BYTES", "65536", "65537"),
]
ORDERS = "\n  [possible values: first, last, seed]"
FIRST_IS_SIMILAR = "\n\n  tip: a similar value exists: 'first'"
TOO_LARGE = "number too large to fit in target type"
NO_DIGIT = "invalid digit found in string"
EMPTY = "cannot parse integer from empty string"

# Values that are taken.
TAKEN = [
    *(("--order", value) for value in ("first", "last", "seed")),
    *(("--seed", value) for value in ("0", "1", "4294967296", "18446744073709551615")),
    *(("--heap0", value) for value in ("65536", "65537", "4194304", "67108863", "67108864")),
    *(("--heap1", value) for value in ("65536", "65537", "4194304", "67108863", "67108864")),
]

# Values that are refused, and why.
NOT_TAKEN = [
    *(("--order", value, ORDERS) for value in ("middle", "FIRST", "0", "both")),
    *(("--order", value, f"{ORDERS}{FIRST_IS_SIMILAR}") for value in ("firs", "first ")),
    *(("--seed", value, f": {TOO_LARGE}") for value in ("18446744073709551616", "9" * 40)),
    *(("--seed", value, f": {NO_DIGIT}") for value in ("first", "1.0", "1e3", "0x10", " 1", "1 ")),
    *(
        (heap, value, f": {value} is not in 65536..=67108864")
        for heap in ("--heap0", "--heap1")
        for value in ("0", "65535", "67108865", "18446744073709551615")
    ),
    *((heap, "18446744073709551616", f": {TOO_LARGE}") for heap in ("--heap0", "--heap1")),
    *((heap, "64K", f": {NO_DIGIT}") for heap in ("--heap0", "--heap1")),
]


def replayed(arguments, answer=READ_BACK, trace=FIRST_UPLOAD):
    """A test that the arguments are taken."""
    return compared(" ".join(["replay", *arguments]), answer, [PROGRAM, *arguments], trace)


def refused(arguments, text):
    """A test that the arguments are refused with a text, and nothing is written; the trace is one that would be
    replayed."""
    name = " ".join(["replay", *(a if isinstance(a, str) else repr(a) for a in arguments)])
    return Test(name, lambda: judge_refused(arguments, text))


def judge_refused(arguments, text):
    """Compares, but for the name under which the program was started."""
    answer = run([PROGRAM, *arguments], FIRST_UPLOAD)
    error = re.sub(rb"(?m)^Usage: \S+ \[OPTIONS\]$", b"Usage: replay [OPTIONS]", answer.error)
    return difference(answered("", REFUSED, text), answer._replace(error=error))


def taken_tests():
    """Good values in both forms, and options together."""
    for option, value in TAKEN:
        yield replayed([option, value])
        yield replayed([f"{option}={value}"])
    yield replayed(["--heap1", "65536", "--seed=7", "--heap0=67108864", "--order", "seed"])
    yield replayed(["--order=seed", "--heap0", "65536", "--seed", "7", "--heap1=67108864"])
    # (a seed is read, and not used, with another order)
    yield replayed(["--seed", "7", "--order", "last"])
    yield replayed(["--order=first", "--seed=7"])
    yield replayed(["--caches"])
    yield replayed(["--order", "last", "--caches", "--heap1", "65536"])
    yield replayed(["--"])


def refused_tests():
    """Bad values in both forms, values left out, options given twice, and what is none."""
    for option, value, why in NOT_TAKEN:
        placeholder = next(p for o, p, _, _ in OPTIONS if o == option)
        text = f"error: invalid value '{value}' for '{option} <{placeholder}>'{why}\n{MORE}"
        yield refused([option, value], text)
        yield refused([f"{option}={value}"], text)
    for option, placeholder, value, other in OPTIONS:
        name = f"{option} <{placeholder}>"
        choices = ORDERS if option == "--order" else ""
        needed = f"error: a value is required for '{name}' but none was supplied{choices}\n{MORE}"
        yield refused([option], needed)
        invalid = f"error: invalid value '' for '{name}': {EMPTY}\n{MORE}"
        for arguments in ([option, ""], [f"{option}="]):
            yield refused(arguments, needed if option == "--order" else invalid)
        twice = f"error: the argument '{name}' cannot be used multiple times\n"
        yield refused([option, value, option, value], f"{twice}{USAGE}{MORE}")
        yield refused([f"{option}={value}", option, other], f"{twice}{USAGE}{MORE}")
    caches = "error: the argument '--caches' cannot be used multiple times\n"
    yield refused(["--caches", "--caches"], f"{caches}{USAGE}{MORE}")
    for argument in ("--nothing", "more", "-x", "-1", "first"):
        yield refused([argument], f"error: unexpected argument '{argument}' found\n{USAGE}{MORE}")
    yield refused(["--", "more"], f"error: unexpected argument 'more' found\n{USAGE}{MORE}")
    for option in ("--seed", "--heap0", "--heap1"):
        yield refused([option, "-1"], f"error: unexpected argument '-1' found\n{USAGE}{MORE}")
    for argument in (b"\xff", b"--order=\xff", b"--seed=\xe2\x82"):
        yield refused([argument], "an argument is not UTF-8\n")
    yield refused(["--order", b"first\xff"], "an argument is not UTF-8\n")


def help_tests():
    """The help, by itself, and before and behind what is good and bad."""
    for arguments in (["--help"], ["-h"], ["--order", "last", "--help"], ["--help", "--nothing"]):
        yield refused(arguments, HELP)
    unexpected = f"error: unexpected argument '--nothing' found\n{USAGE}{MORE}"
    yield refused(["--nothing", "--help"], unexpected)


def objects(memory_type, *sizes):
    """A trace of memory objects of so many bytes."""
    return json.dumps([["memory", k, memory_type, size] for k, size in enumerate(sizes)]).encode()


def heap_tests():
    """A heap has exactly as many bytes as are asked for, and the other one as many as before."""
    for heap in (0, 1):
        for size in (65_536, 65_537, 1_000_000, 67_108_864):
            option = [f"--heap{heap}", str(size)]
            yield replayed(option, answered(), objects(heap, size))
            stop = answered("stopped 1 NO_ROOM\n", 3)
            yield replayed(option, stop, objects(heap, size, 1))
            yield replayed(option, stop, objects(1 - heap, 4_194_304, 1))
        small = [f"--heap{heap}", "65536"]
        yield replayed(small, answered("stopped 0 NO_ROOM\n", 3), objects(heap, 65_537))
        yield replayed([], answered("stopped 1 NO_ROOM\n", 3), objects(heap, 4_194_304, 1))
    both = ["--heap0", "65536", "--heap1", "131072"]
    yield replayed(both, answered("stopped 1 NO_ROOM\n", 3), objects(0, 65_536, 1))
    yield replayed(both, answered("stopped 1 NO_ROOM\n", 3), objects(1, 131_072, 1))
    yield replayed(both, answered("stopped 1 NO_ROOM\n", 3), objects(2, 131_072, 1))


if __name__ == "__main__":
    sys.exit(main([*taken_tests(), *refused_tests(), *help_tests(), *heap_tests()], [PROGRAM]))
