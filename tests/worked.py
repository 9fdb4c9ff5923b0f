#!/usr/bin/env python3
"""Runs the worked traces of tests/worked/, and those of examples/, in every order.

    PROGRAM=FILE EXPLAIN=FILE tests/worked.py [WORD]

With WORD only those run whose names have it. Each trace whose entries are replayed, all of them or up to one
without room, is run under `first`, `last` and the seeds 0 to 15, with `--caches` and without: output, exit
status and standard error are the same under each. Others are run once. What `explain` says of each has the same verdict. Of the pairs of
examples/rules/, which docs/judge runs too, the corrected ones are run in every order, and nothing else is asked.

A file of tests/worked/ is an array of objects, each of a trace:

- `name`: what it shows.
- One of `trace`, as it is; `text`, in place of a trace, with blanks behind it up to `blanks_to` bytes where that
  is there; `hex`, the bytes of a text; `pieces`, texts that are repeated so many times; `repeated`, an entry with
  `{k}` for a number, for all numbers `from` one `to` another, which isn't among them; or `fronts_of`, a trace of
  which each front is run that isn't the whole of it.
- `arguments` of `replay`, where it has some. Where one says the order, no other is tried.
- `output`, a list of lines; `status`; `error`, the line on standard error. Where one isn't there: none, 0, none.
"""

import json
import sys

sys.dont_write_bytecode = True

from harness import EXPLAIN, PROGRAM, TOP, Test, answered, compared, difference, main, run

ORDERS = [
    ["--order", "first"],
    ["--order", "last"],
    *(["--order", "seed", "--seed", str(seed)] for seed in range(16)),
]
# The same on a device whose queues have caches.
ORDERS += [[*order, "--caches"] for order in ORDERS]
REPLAYED, REFUSED, NO_TRACE, STOPPED = 0, 1, 2, 3


def compact(trace):
    """A trace as text."""
    return json.dumps(trace, separators=(",", ":"))


def texts_of(row):
    """The texts of a row, as bytes; several where its fronts are meant."""
    if "fronts_of" in row:
        whole = compact(row["fronts_of"]).encode()
        return [whole[:end] for end in range(len(whole))]
    if "trace" in row:
        text = compact(row["trace"]).encode()
    elif "hex" in row:
        text = bytes.fromhex(row["hex"])
    elif "pieces" in row:
        text = "".join(piece * times for piece, times in row["pieces"]).encode()
    elif "repeated" in row:
        numbers = range(row["from"], row["to"])
        text = f"[{','.join(row['repeated'].replace('{k}', str(k)) for k in numbers)}]".encode()
    else:
        text = row["text"].encode()
    return [text.ljust(row.get("blanks_to", 0), b" ")]


def answer_of(row):
    """What `replay` is to answer to a row."""
    output = "".join(f"{line}\n" for line in row.get("output", []))
    error = row.get("error")
    return answered(output, row.get("status", REPLAYED), f"{error}\n" if error else "")


def verdict_of(answer):
    """The first line that `explain` is to write, and its status."""
    if answer.status == REFUSED:
        return answer.output, REFUSED
    if answer.status == NO_TRACE:
        return b"no trace\n", NO_TRACE
    if answer.status in (REPLAYED, STOPPED):
        return b"accepted\n", REPLAYED
    return b"", answer.status


def judge_explanation(text, wanted):
    """Compares what `explain` says with what `replay` is to answer."""
    answer = run([EXPLAIN], text)
    first_line, status = verdict_of(wanted)
    begins = answer.output[: answer.output.find(b"\n") + 1]
    error = b"" if status in (REPLAYED, REFUSED, NO_TRACE) else wanted.error
    return difference((first_line, status, error), (begins, answer.status, answer.error))


def orders_of(arguments, answer):
    """The arguments by which a trace is run."""
    if answer.status in (REPLAYED, STOPPED) and not any("--order" in a for a in arguments):
        return [[*arguments, *order] for order in ORDERS]
    return [arguments]


def tests_of(name, text, answer, arguments=()):
    """The tests of a text: each order, and the explanation."""
    for options in orders_of(list(arguments), answer):
        yield compared(" ".join([f"{name}:", *options]), answer, [PROGRAM, *options], text)
    yield Test(f"{name}: explain", lambda: judge_explanation(text, answer))


def worked_tests():
    """The tests of tests/worked/."""
    for path in sorted((TOP / "tests" / "worked").glob("*.json")):
        for row in json.loads(path.read_text(encoding="utf-8")):
            name = f"{path.stem}: {row['name']}"
            texts = texts_of(row)
            for text in texts:
                part = f"{name} ({len(text)} bytes)" if len(texts) > 1 else name
                yield from tests_of(part, text, answer_of(row), row.get("arguments", []))


def example_tests():
    """The tests of the traces of examples/, by their answers."""
    for expected in sorted((TOP / "examples").glob("*.expected")):
        status = expected.with_suffix(".status")
        number = int(status.read_text(encoding="utf-8")) if status.exists() else REPLAYED
        answer = answered(expected.read_text(encoding="utf-8"), number)
        text = expected.with_suffix(".json").read_bytes()
        yield from tests_of(f"examples/{expected.stem}", text, answer)


def judge_alike(text):
    """Compares what is answered to a trace in each order with what is answered in the first one."""
    first = run([PROGRAM, *ORDERS[0]], text)
    if first.status != REPLAYED:
        return f"it isn't replayed: {first}"
    for order in ORDERS[1:]:
        found = difference(first, run([PROGRAM, *order], text))
        if found:
            return f"{' '.join(order)}: {found}"
    return None


def rule_tests():
    """The tests of the corrected traces of examples/rules/."""
    for path in sorted((TOP / "examples" / "rules").glob("*.corrected.json")):
        text = path.read_bytes()
        yield Test(f"examples/rules/{path.stem}: every order", lambda t=text: judge_alike(t))


def all_tests():
    """All of them."""
    word = sys.argv[1] if len(sys.argv) > 1 else ""
    tests = [*worked_tests(), *example_tests(), *rule_tests()]
    return [test for test in tests if word in test.name]


if __name__ == "__main__":
    sys.exit(main(all_tests()))
