#!/usr/bin/env python3
"""Runs both programs on mutated traces, and looks for what neither may do.

    tools/hostile.py --count 100000 --seed 2 [--jobs N] [REPLAY EXPLAIN]

Each input is made from the seed and its number: a trace of examples/, of tests/worked/ or a drawn one (drawing.py),
with one to four changes (mutations.py). Of each input it has to hold that

- `replay` and `explain` end with a status of their tables, and not by a signal, within the limits on time and memory,
  with the texts on standard output and standard error that go with the status;
- both say that it is a trace exactly where a reading by its forms does (strict_reading.py);
- both refuse it at the same point by the same rule, or neither does; the JSON of `explain` says the same;
- `replay` answers the same in another order;
- what `explain --repaired` writes is a trace, with the verdict that its status says, and it tells of the first fault;
  of an input that is accepted it writes the same text, and tells nothing.

As many inputs are run side by side as there are processors, or as `--jobs` says. What doesn't hold is printed, with
the input if it is short; `--keep FOLDER` writes such inputs there. At the end the inputs are counted by what came of
them and by what was changed, and the last line is 'N passed, M failed'. `--only N` writes input N and runs nothing.
"""

import argparse
import functools
import json
import multiprocessing
import pathlib
import random
import re
import resource
import sys
from collections import Counter
from typing import NamedTuple, Optional

sys.dont_write_bytecode = True
sys.path.append(str(pathlib.Path(__file__).resolve().parent.parent / "tests"))

from drawing import draw
from harness import EXPLAIN, PROGRAM, TOP, Progress, build, last_line, processors, run
from mutations import MEMBERS, TEXT
from random_traces import ignore_interrupts, positive
from strict_reading import is_trace
from worked import NO_TRACE, REFUSED, REPLAYED, STOPPED, compact, texts_of, verdict_of

# What an input may take: seconds of the processor, and bytes of memory; and how long a program is waited for.
MOST_SECONDS, LONGEST_WAIT = 10, 600
MOST_MEMORY = 512 << 20
# Inputs that are made of one drawn trace, one after another.
OF_ONE_TRACE = 50
# Longer texts of traces aren't changed here, and what has become longer isn't changed again.
LONGEST, LONGEST_CHANGED = 20_000, 200_000
SHOWN = 2_000

ANSWERS = {
    REPLAYED: (rb"(\d+ ([0-9a-f]{2})*\n)*", b""),
    REFUSED: (rb"refused \d+(\.\d+\.[sw]?\d+)? [A-Z_]+\n", b""),
    NO_TRACE: (b"", b"no trace\n"),
    STOPPED: (rb"(\d+ ([0-9a-f]{2})*\n)*stopped \d+ NO_ROOM\n", b""),
}


# ---- inputs


@functools.lru_cache(None)
def written():
    """The texts of the traces of examples/ and tests/worked/, but the long ones."""
    texts = [p.read_bytes() for p in sorted((TOP / "examples").glob("**/*.json"))]
    for path in sorted((TOP / "tests" / "worked").glob("*.json")):
        for row in json.loads(path.read_text(encoding="utf-8")):
            texts += texts_of(row) if "fronts_of" not in row else []
    return [text for text in texts if len(text) <= LONGEST]


@functools.lru_cache(4)
def drawn(seed, number):
    """The text of a drawn trace."""
    return compact(draw(random.Random(f"{seed}/drawn/{number}"))[0]).encode()


def parsed(text):
    """A text as lists, numbers and words; nothing where it is none."""
    try:
        value = json.loads(text)
    except ValueError:
        return None
    return value if isinstance(value, list) else None


def made(seed, number):
    """An input, and the names of the changes that it has."""
    chance = random.Random(f"{seed}/{number}")
    text = bytearray(chance.choice(written()) if chance.random() < 0.6 else drawn(seed, number // OF_ONE_TRACE))
    trace = parsed(bytes(text))
    changes = []
    if trace is not None and chance.random() < 0.85:
        for _ in range(chance.choice((1, 1, 1, 1, 2, 3, 4))):
            if len(text) > LONGEST_CHANGED:
                break
            changes.append(chance.choice(MEMBERS))
            changes[-1](chance, trace)
            text = bytearray(compact(trace).encode())
    if not changes or chance.random() < 0.03:
        for _ in range(chance.choice((1, 1, 2))):
            changes.append(chance.choice(TEXT))
            changes[-1](chance, text)
    return bytes(text), {change.__name__ for change in changes}


# ---- what has to hold


class Came(NamedTuple):
    """What came of an input: what doesn't hold, if anything; what `replay` said; and what it took."""

    wrong: Optional[str]
    said: str
    seconds: float
    memory: int


class Wrong(Exception):
    """What doesn't hold."""


def need(holds, what):
    """Says what doesn't hold."""
    if not holds:
        raise Wrong(what)


class Watch:
    """Runs programs, and knows how long the longest one took, and the most memory."""

    def __init__(self):
        self.seconds = 0.0

    def run(self, command, text):
        """What a program answers."""
        before = resource.getrusage(resource.RUSAGE_CHILDREN)
        answer = run(command, text, LONGEST_WAIT)
        after = resource.getrusage(resource.RUSAGE_CHILDREN)
        seconds = after.ru_utime + after.ru_stime - before.ru_utime - before.ru_stime
        self.seconds = max(self.seconds, seconds)
        name = " ".join([pathlib.Path(command[0]).name, *command[1:]])
        need(isinstance(answer.status, int) and answer.status >= 0, f"{name}: {answer}")
        need(seconds <= MOST_SECONDS, f"{name}: {seconds:.1f} s of the processor")
        memory = after.ru_maxrss * 1024
        # (it is the most of all that ran so far)
        is_more = after.ru_maxrss > before.ru_maxrss
        need(not is_more or memory <= MOST_MEMORY, f"{name}: {memory >> 20} MiB of memory")
        return answer


def judge_replay(watch, program, text, order):
    """What `replay` answers, which has a form, and is the same in another order."""
    answer = watch.run([program], text)
    need(answer.status in ANSWERS, f"replay: {answer}")
    output, error = ANSWERS[answer.status]
    need(re.fullmatch(output, answer.output) and answer.error == error, f"replay: {answer}")
    need((answer.status != NO_TRACE) == is_trace(text), f"replay: {answer}; by the forms it's the other way")
    if answer.status in (REPLAYED, STOPPED):
        other = watch.run([program, *order], text)
        need(other == answer, f"replay: {answer}; {' '.join(order)}: {other}")
    return answer


def judge_explain(watch, program, text, wanted):
    """What `explain` says has the verdict of `replay`, in both forms."""
    first_line, status = verdict_of(wanted)
    said = watch.run([program], text)
    begins = said.output[: said.output.find(b"\n") + 1]
    need((begins, said.status, said.error) == (first_line, status, b""), f"replay: {wanted}; explain: {said}")
    said = watch.run([program, "--json"], text)
    need(said.status == status and not said.error and said.output[-2:] == b"}\n", f"explain --json: {said}")
    told = json.loads(said.output.decode())
    verdict = told["verdict"]
    if verdict == "refused":
        verdict = f"refused {told['at']} {told['rule']}"
    need(verdict == first_line.decode().strip(), f"replay: {wanted}; explain --json: {said}")


def judge_repaired(watch, programs, text, wanted):
    """What `explain --repaired` writes is a trace with the verdict of its status."""
    replay, explain = programs
    said = watch.run([explain, "--repaired"], text)
    if wanted.status == NO_TRACE:
        whole = watch.run([explain], text)
        need(said == whole, f"explain: {whole}; --repaired: {said}")
        return
    told = verdict_of(wanted)[0] if wanted.status == REFUSED else b""
    is_told = said.error.startswith(told) and bool(said.error) == bool(told)
    need(said.status in (REPLAYED, REFUSED) and is_told, f"explain --repaired: {said}")
    need(is_trace(said.output), f"explain --repaired writes no trace: {said}")
    again = watch.run([replay], said.output)
    statuses = (REFUSED,) if said.status == REFUSED else (REPLAYED, STOPPED)
    need(again.status in statuses, f"explain --repaired: {said}; replay of that: {again}")
    if wanted.status != REFUSED:
        need(said.output == text, f"explain --repaired of what is accepted: {said}")


def came_of(programs, text, order):
    """What comes of an input."""
    watch = Watch()
    said = "wrong"
    try:
        wanted = judge_replay(watch, programs[0], text, order)
        said = wanted.output.decode().split()[2] if wanted.status == REFUSED else STATUSES[wanted.status]
        judge_explain(watch, programs[1], text, wanted)
        judge_repaired(watch, programs, text, wanted)
        wrong = None
    except Wrong as what:
        wrong = str(what)
    memory = resource.getrusage(resource.RUSAGE_CHILDREN).ru_maxrss * 1024
    return Came(wrong, said, watch.seconds, memory)


STATUSES = {REPLAYED: "replayed", NO_TRACE: "no trace", STOPPED: "stopped, for want of room"}


# ---- the program


def arguments():
    """The command line."""
    parser = argparse.ArgumentParser(description=__doc__.splitlines()[0])
    for name, program in (("replay", PROGRAM), ("explain", EXPLAIN)):
        parser.add_argument(name, nargs="?", default=program, help=f"the program `{name}`")
    parser.add_argument("--count", type=positive, default=2_000, help="how many inputs are made")
    parser.add_argument("--seed", type=int, default=0, help="where the making begins")
    parser.add_argument("--jobs", type=positive, default=processors(), help="how many run side by side")
    parser.add_argument("--only", type=int, help="writes the input of this number, and runs nothing")
    parser.add_argument("--keep", type=pathlib.Path, help="a folder for the inputs of which something doesn't hold")
    return parser.parse_args()


def judged(task):
    """What comes of the input of a number, and what was changed in it."""
    options, number = task
    text, changes = made(options.seed, number)
    order = ["--order", *random.Random(number).choice((["last"], ["seed", "--seed", str(number)]))]
    return came_of((options.replay, options.explain), text, order), changes


def tell(options, number, wrong):
    """Says what doesn't hold of an input."""
    text, _ = made(options.seed, number)
    print(f"input {number} of seed {options.seed}, of {len(text)} bytes: {wrong}")
    if len(text) <= SHOWN:
        print(f"  {text!a}")
    if options.keep:
        options.keep.mkdir(parents=True, exist_ok=True)
        (options.keep / f"{options.seed}-{number}.json").write_bytes(text)


def run_all(options):
    """Makes and runs all inputs, and answers of how many something doesn't hold."""
    said, changed, failed = Counter(), Counter(), 0
    longest, memory = (0.0, 0), 0
    progress = Progress(options.count)
    tasks = ((options, number) for number in range(options.count))
    with multiprocessing.Pool(options.jobs, ignore_interrupts) as pool:
        for number, (came, changes) in enumerate(pool.imap(judged, tasks, OF_ONE_TRACE)):
            progress.note(number)
            said[came.said] += 1
            changed.update(changes)
            longest, memory = max(longest, (came.seconds, number)), max(memory, came.memory)
            if came.wrong is not None:
                progress.clear()
                failed += 1
                tell(options, number, came.wrong)
    progress.clear()
    print(f"{options.count} inputs; the longest took {longest[0]:.2f} s of the processor (input {longest[1]})")
    print(f"the most memory of a program was {memory >> 20} MiB or less")
    for what, counts in (("", said), ("changed by ", changed)):
        for name, count in counts.most_common():
            print(f"  {count:7} {what}{name}")
    return failed


def main():
    """Does what the command line asks, and answers the exit status."""
    options = arguments()
    if options.only is not None:
        sys.stdout.buffer.write(made(options.seed, options.only)[0])
        return 0
    print(f"seed {options.seed}", flush=True)
    try:
        for program in (options.replay, options.explain):
            build(program)
        failed = run_all(options)
    except KeyboardInterrupt:
        return 130
    print(last_line(options.count - failed, failed))
    return 1 if failed else 0


if __name__ == "__main__":
    sys.exit(main())
