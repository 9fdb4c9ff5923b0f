#!/usr/bin/env python3
"""Refuses what both programs ask of the C library, one call after another, and compares what they answer then.

    PROGRAM=FILE EXPLAIN=FILE tests/refused_calls.py [--all] [--counts] [WORD]

A library that is made of refused_calls.c (by `cc`, or by what CC names) runs a program again and again:

- Each allocation fails once alone, and once with all that come later: the answer is that no memory is left, and
  nothing is written; or it is the whole one.
- The address space grows page by page: the same.
- Each read of standard input fails: the answer is that reading failed, and nothing is written.
- Each write to standard output fails, where each takes three bytes: the answer is how much was written.

In the last run of each nothing fails. With WORD only the tests run whose names have it; with `--all` the allocations
of all examples and worked traces are refused; and `--counts` prints how often each program was refused something.
"""

import json
import os
import shutil
import subprocess
import sys
import tempfile
from typing import NamedTuple

sys.dont_write_bytecode = True

from harness import EXPLAIN, PROGRAM, SECONDS, TOP, Answer, Skipped, Test, answered, difference, main, run
from worked import texts_of

NO_MEMORY = answered("", 4, "no memory\n")
READ_FAILED = answered("", 5, "read failed\n")
KINDS = ("once", "later")
# What a write takes where writes fail.
TAKEN = 3
# The examples of which reads and writes fail as well.
STREAMED = ("first_upload", "destroyed_in_use", "full_heap", "no_traces/misspelled_entry")
# The programs, and how they are asked.
WAYS = [
    ("replay", ("replay",)),
    ("replay --order seed", ("replay", "--order", "seed", "--seed", "7")),
    ("replay --caches", ("replay", "--order", "seed", "--seed", "7", "--caches")),
    ("explain", ("explain",)),
    ("explain --json", ("explain", "--json")),
    ("explain --repaired", ("explain", "--repaired")),
]
# Traces that have each form of entry and command between them, each way in which resources get their memory, and
# each kind of report: the examples of these names, and the worked traces whose names begin so.
EXAMPLES = (
    *("first_upload", "every_entry", "every_command", "passes_with_limits", "full_heap", "full_pool"),
    *("destroyed_in_use", "undefined_bytes", "overlapping_fills", "wrong_old_layout", "endless_wait"),
    *("written_in_pass", "no_traces/misspelled_entry"),
)
WORKED = (
    "host_accesses: a copy of a host write that isn't flushed",
    "host_accesses: a copy of a host write that is flushed before the submit",
    "images: rows of nine texels through an optimal image, from rows of twelve",
    "queues: a buffer is released to another family, acquired there and copied",
    "queues: an acquire without its release",
    "queues: a release of a part of a buffer",
    "passes: a pass moves two buffers down, and gives a block back in which there is room then",
    "passes: the places that buffers leave are taken until the pass ends",
    "passes: a copy from a buffer of the pool inside a pass without moves",
    "passes: a fill of such a buffer",
    "passes: a pass ends before the host knows the copy to be complete",
    "passes: a linear pool is defragmented",
    "pools: a ring that goes round to the start of its block",
    "pools: a ring that is full",
)
# Longer worked traces are left out.
LONGEST = 10_000
# Arguments with which an answer is about them.
ARGUMENTS = [
    *(("explain", argument) for argument in ("--help", "--version", "--nothing", "no/such/file")),
    *(("replay", *arguments) for arguments in (["--help"], ["--order", "firs"], ["--heap0", "1"])),
]


class Record(NamedTuple):
    """What came of a program that was refused something for the k-th time."""

    k: int
    refused: int
    answer: Answer


class Refusing:
    """The library, once it is made, and the programs that it is loaded before."""

    def __init__(self, folder):
        self.folder = folder
        self.library = os.path.join(folder, "refused_calls.so")
        self.programs = {
            "replay": at_once(PROGRAM, "vk_replay", "replay"),
            "explain": at_once(EXPLAIN, "explain", "explain"),
        }

    def make(self):
        """Makes it; where that can't be done, nothing is tested."""
        compiler = os.environ.get("CC") or "cc"
        if shutil.which(compiler) is None:
            raise Skipped(f"there is no C compiler {compiler}")
        source = str(TOP / "tests" / "refused_calls.c")
        made = run([compiler, "-O1", "-shared", "-fPIC", "-o", self.library, source, "-ldl"])
        if made.status != 0:
            raise Skipped(f"{compiler} doesn't compile refused_calls.c: {made.error.decode(errors='replace')}")
        for name in self.programs:
            if not self.records([name], b"[]", "once"):
                raise Skipped(f"{name} can't be run with another allocator")

    def command(self, arguments):
        """The program that is named first, with its arguments."""
        return [self.programs[arguments[0]], *arguments[1:]]

    def records(self, arguments, text, kind):
        """What came of each refusal; of the last one, in which nothing was refused, too."""
        with tempfile.TemporaryDirectory(dir=self.folder) as folder:
            paths = {name: os.path.join(folder, name) for name in ("input", "report")}
            with open(paths["input"], "wb") as file:
                file.write(text)
            settings = {
                "LD_PRELOAD": self.library,
                "REFUSALS_KIND": kind,
                "REFUSALS_INPUT": paths["input"],
                "REFUSALS_REPORT": paths["report"],
                "REFUSALS_SECONDS": str(SECONDS),
            }
            subprocess.run(
                self.command(arguments),
                env={**os.environ, **settings},
                stdin=subprocess.DEVNULL,
                capture_output=True,
                check=False,
            )
            return list(read_report(paths["report"]))


def at_once(program, crate, name):
    """The program itself, where the script at the top is meant that runs it."""
    if os.path.dirname(program) != str(TOP):
        return program
    found = run([str(TOP / "tools" / "program"), "--at-once", crate, name])
    return os.fsdecode(found.output).strip() or program


def read_report(path):
    """The records of a report."""
    if not os.path.exists(path):
        return
    with open(path, "rb") as report:
        for line in report:
            k, status, refused, output, error = map(int, line.split())
            yield Record(k, refused, Answer(report.read(output), status, report.read(error)))


# ---- the tests


def wanted(kind, record, whole):
    """The answers that may come of a refusal."""
    if not record.refused:
        return (whole,)
    if kind == "read":
        return (READ_FAILED,)
    if kind == "write":
        length = TAKEN * (record.k - 1)
        return (Answer(whole.output[:length], 5, f"write failed after {length} bytes\n".encode()),)
    return NO_MEMORY, whole


def judge(refusing, name, arguments, text, kind, others=()):
    """Whether each answer is one that may come of its refusal, or one of the others."""
    whole = run(refusing.command(arguments), text)
    records = refusing.records(arguments, text, kind)
    for record in records:
        answers = wanted(kind, record, whole)
        if record.answer not in (*answers, *others):
            return f"refusal {record.k}: {difference(answers[0], record.answer)}"
    if not records or records[-1].refused:
        return "the last run was refused something"
    if "--counts" in sys.argv:
        print(f"{len(records) - 1:6} {name}", flush=True)
    return None


def tests_of(refusing, title, text, kinds):
    """The tests of a trace."""
    for way, arguments in WAYS:
        for kind in kinds:
            name = f"{title}: {way}, {kind}"
            yield Test(name, lambda n=name, a=arguments, k=kind: judge(refusing, n, a, text, k))


def all_examples():
    """The names of all examples and of their texts."""
    for path in sorted((TOP / "examples").glob("**/*.json")):
        if not path.name.endswith((".explained.json", ".repaired.json")):
            yield str(path.relative_to(TOP / "examples").with_suffix(""))


def all_worked():
    """The worked traces with their names, but those that are run by their fronts."""
    for path in sorted((TOP / "tests" / "worked").glob("*.json")):
        for row in json.loads(path.read_text(encoding="utf-8")):
            texts = texts_of(row)
            # (what a long text asks for takes hours to be refused)
            if len(texts) == 1 and len(texts[0]) < LONGEST:
                yield f"{path.stem}: {row['name']}", texts[0]


def texts():
    """The names and texts of the traces, and what is refused."""
    is_all = "--all" in sys.argv
    for name in all_examples() if is_all else EXAMPLES:
        kinds = (*KINDS, "read", "write") if name in STREAMED else KINDS
        yield f"examples/{name}", (TOP / "examples" / f"{name}.json").read_bytes(), kinds
    worked = dict(all_worked())
    for name in worked if is_all else WORKED:
        yield name, worked[name], KINDS


def argument_tests(refusing):
    """Where the answer is about the arguments, or about several files."""
    text = (TOP / "examples" / "first_upload.json").read_bytes()
    for arguments in ARGUMENTS:
        for kind in KINDS:
            name = f"{' '.join(arguments)}: {kind}"
            yield Test(name, lambda n=name, a=arguments, k=kind: judge(refusing, n, a, text, k))
    for form in ([], ["--json"]):
        for kind in KINDS:
            name = f"explain {' '.join([*form, 'of two files'])}: {kind}"
            yield Test(name, lambda n=name, f=form, k=kind: judge_files(refusing, n, f, k))


def judge_files(refusing, name, form, kind):
    """Of two files each is explained, or said to find no memory, whatever came of the other one."""
    files = [str(TOP / "examples" / f"{f}.json") for f in ("first_upload", "missing_dependency")]
    lacks = [f"{file}: no memory\n".encode() for file in files]
    others = [Answer(b"", 4, b"".join(lacks))]
    for named, lack in (([files[0], "no/such/file"], lacks[1]), (["no/such/file", files[1]], lacks[0])):
        alone = run(refusing.command(["explain", *form, *named]))
        others.append(Answer(alone.output, 4, lack))
    both = ["explain", *form, *files]
    return judge(refusing, name, both, b"", kind, others)


def room_tests(refusing):
    """Address space that grows page by page, for a trace that needs more than a program begins with."""
    entries = [f'["semaphore",{k},0]' for k in range(2_000)]
    entries += [f'["buffer",{k},4096,3,"exclusive",["dedicated",1]]' for k in range(2_000, 2_100)]
    text = f"[{','.join(entries)}]".encode()
    return tests_of(refusing, "2100 objects", text, ("room",))


def all_tests(refusing):
    """All of them, or one that is skipped."""
    words = [argument for argument in sys.argv[1:] if not argument.startswith("--")]
    try:
        refusing.make()
    except Skipped as why:
        return [Test("refused calls", lambda w=why: skip(w))]
    tests = [*argument_tests(refusing), *room_tests(refusing)]
    for name, text, kinds in texts():
        tests += tests_of(refusing, name, text, kinds)
    return [test for test in tests if all(word in test.name for word in words)]


def skip(why):
    """What a test does that can't be run."""
    raise why


if __name__ == "__main__":
    with tempfile.TemporaryDirectory() as room:
        sys.exit(main(all_tests(Refusing(room))))
