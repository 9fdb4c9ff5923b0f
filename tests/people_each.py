"""Tests of tools/each, on folders that are made for it."""

import os
import tempfile
import xml.etree.ElementTree as tree
from collections import Counter
from pathlib import Path

from harness import Test, answered, compared, difference, run
from people_tools import EACH, EXAMPLES, NOT_DONE, judge_refused


FIRST, BROKEN, FULL, INVALID = "first_upload", "missing_dependency", "full_heap", "no_traces/odd_hex"
VERDICTS = {FIRST: "accepted", BROKEN: "refused 5 HAZARD_RAW", FULL: "stopped 1 NO_ROOM", INVALID: "no trace"}


def trace_of(name):
    """The bytes of an example."""
    return (EXAMPLES / f"{name}.json").read_bytes()


def beside(name, *endings):
    """Files beside an example, by the ending of their names."""
    return {ending: (EXAMPLES / f"{name}.{ending}").read_bytes() for ending in endings}


# Traces of a folder: the file's name without its ending, the example, what is beside it, and what is said behind its
# verdict.
TRACES = [
    ("accepted", FIRST, {}, ""),
    ("accepted with all", FIRST, beside(FIRST, "expected", "explained", "explained.json"), ""),
    ("accepted, not refused", FIRST, {"status": b"1\n"}, ", not as expected; expected: status 1"),
    ("broken", BROKEN, {}, ", not as expected; expected: accepted"),
    ("broken <&> 'all'", BROKEN, beside(BROKEN, "expected", "status", "explained", "repaired.json"), ""),
    ("broken by status", BROKEN, {"status": b"1"}, ""),
    ("broken by output", BROKEN, beside(BROKEN, "expected"), ", not as expected; expected: status 0"),
    ("broken by explanation", BROKEN, beside(BROKEN, "explained"), ""),
    (
        "broken elsewhere",
        BROKEN,
        {"expected": b"refused 4 HAZARD_RAW\n", "status": b"1"},
        ", not as expected; expected: 'refused 4 HAZARD_RAW\\n'; came: 'refused 5 HAZARD_RAW\\n'",
    ),
    (
        "broken, explained as another one",
        BROKEN,
        {"explained": beside(BROKEN, "explained")["explained"].replace(b"line 7", b"line 8")},
        ", not as expected; explain writes other lines than .explained: line 2: expected: "
        "'entry 5 reads bytes 0 to 3 of buffer 1 (line 8, column 3)'; came: "
        "'entry 5 reads bytes 0 to 3 of buffer 1 (line 7, column 3)'",
    ),
    (
        "broken, repaired as another one",
        BROKEN,
        {**beside(BROKEN, "explained"), "repaired.json": b"[]\n"},
        ", not as expected; explain --repaired writes other lines than .repaired.json: line 1: "
        "expected: '[]'; came: '['",
    ),
    (
        "broken, explained as accepted",
        BROKEN,
        beside(FIRST, "explained"),
        ", not as expected; expected: accepted",
    ),
    ("full", FULL, {}, ", not as expected; expected: accepted"),
    ("full by status", FULL, {"status": b"3\n"}, ""),
    ("invalid", INVALID, {}, ", not as expected; expected: accepted"),
    ("invalid é漢 \"quoted\"", INVALID, beside(INVALID, "explained"), ""),
    ("within/a folder/within/accepted", FIRST, {}, ""),
    ("within/broken", BROKEN, {}, ", not as expected; expected: accepted"),
    (
        "with a status in words",
        FIRST,
        {"status": b"one"},
        ", not as expected; its .status has no number: 'one'",
    ),
]
# Files that aren't traces of the folder.
OTHERS = ("notes.txt", "accepted.explained.json", "accepted.repaired.json", "json", "accepted.json~")


def make_folder(folder, traces):
    """A folder with traces, and other files."""
    for name, example, files, _ in traces:
        path = Path(folder, name)
        path.parent.mkdir(parents=True, exist_ok=True)
        for ending, data in {"json": trace_of(example), **files}.items():
            Path(f"{path}.{ending}").write_bytes(data)


def wanted_lines(traces):
    """The lines that are to be said of traces."""
    rows = sorted((f"{name}.json", VERDICTS[example] + said) for name, example, _, said in traces)
    return [f"{name}: {said}" for name, said in rows]


def suite_of(report):
    """What a report has."""
    try:
        return tree.parse(report).getroot()[0]
    except tree.ParseError as error:
        raise ValueError(f"the report isn't XML: {error}") from error


def judge_folder(arguments=()):
    """A folder with traces as they come: each line, the counts, and the report."""
    with tempfile.TemporaryDirectory() as folder:
        make_folder(folder, TRACES)
        for name in OTHERS[:1] + OTHERS[3:]:
            Path(folder, name).write_bytes(b"no trace of the folder")
        report = Path(folder, "report.xml")
        answer = run([*EACH, folder, "--junit", str(report), *arguments])
        suite = suite_of(report)
    wrong = sum(bool(said) for *_, said in TRACES)
    kinds = Counter(VERDICTS[example].split()[-1] for _, example, *_ in TRACES)
    totals = [
        f"{kinds['HAZARD_RAW']:2} HAZARD_RAW",
        f"{kinds['accepted']:2} accepted",
        f"{kinds['NO_ROOM']:2} stopped",
        f"{kinds['trace']:2} no trace",
    ]
    totals.sort(key=lambda line: (-int(line[:2]), line[3:]))
    lines = [*wanted_lines(TRACES), *totals, f"{len(TRACES)} traces, {wrong} not as expected"]
    found = difference(answered("\n".join(lines) + "\n", 1), answer)
    return found or judge_report(suite, folder, wrong)


def judge_report(suite, folder, wrong):
    """The report says the same."""
    counts = {"name": folder, "tests": str(len(TRACES)), "failures": str(wrong), "errors": "0"}
    found = difference(counts, {name: suite.get(name) for name in counts})
    rows = {(case.get("classname"), case.get("name")): case for case in suite}
    for name, example, _, said in TRACES:
        at, last = os.path.split(f"{name}.json")
        failure = rows[(at or ".", last)].find("failure")
        message = said.partition("; ")[2] or None
        found = found or difference(message, None if failure is None else failure.get("message"))
        output = rows[(at or ".", last)].find("system-out").text
        found = found or difference(VERDICTS[example], output)
    return found


def each_tests():
    """Folders of traces; files that give no verdict; and what isn't a folder of traces."""
    yield Test("each: a folder", judge_folder)
    yield Test("each: a folder, one by one", lambda: judge_folder(["--jobs", "1"]))
    yield Test("each: all as expected", judge_good_folder)
    yield Test("each: the examples", judge_examples)
    yield Test("each: files that can't be read", judge_unread)
    yield Test("each: names of bytes", judge_odd_names)
    yield Test("each: an empty folder", judge_empty)
    yield Test("each: a program that fails", judge_failing_program)
    missing, file = str(EXAMPLES / "there_is_no_such_folder"), str(EXAMPLES / f"{FIRST}.json")
    for at, why in ((missing, "No such file or directory"), (file, "Not a directory")):
        yield compared(f"each {at}", answered("", NOT_DONE, f"{at}: {why}\n"), [*EACH, at])
    for arguments in ([], ["a", "b"], ["a", "--jobs", "0"], ["a", "--jobs", "x"], ["a", "--junit"]):
        yield Test(f"each {' '.join(arguments)}", lambda a=arguments: judge_refused(EACH, a))
    full = ["sh", "-c", 'exec "$@" >/dev/full', "sh", *EACH, str(EXAMPLES / "no_traces")]
    wanted = answered("", NOT_DONE, "standard output: No space left on device\n")
    yield compared("each: a full device", wanted, full)
    no_report = str(EXAMPLES / "no_such_folder" / "report.xml")
    yield Test("each: a report that can't be written", lambda: judge_no_report(no_report))


def judge_good_folder():
    """A folder whose traces are as expected has status 0."""
    with tempfile.TemporaryDirectory() as folder:
        make_folder(folder, TRACES[:1])
        answer = run([*EACH, folder])
    wanted = "accepted.json: accepted\n1 accepted\n1 trace, none not as expected\n"
    return difference(answered(wanted), answer)


def judge_examples():
    """All examples are as expected."""
    answer = run([*EACH, str(EXAMPLES)])
    last = answer.output.decode().splitlines()[-1:]
    names = [path.name for path in EXAMPLES.glob("**/*.json")]
    number = sum(not name.endswith((".explained.json", ".repaired.json")) for name in names)
    return difference(([f"{number} traces, none not as expected"], 0), (last, answer.status))


def judge_unread():
    """What can't be read is said, and counted as an error."""
    with tempfile.TemporaryDirectory() as folder:
        os.symlink("nowhere", Path(folder, "away.json"))
        os.mkfifo(Path(folder, "pipe.json"))
        Path(folder, "folder.json").mkdir()
        Path(folder, "good.json").write_bytes(trace_of(FIRST))
        Path(folder, "odd.json").write_bytes(trace_of(FIRST))
        Path(folder, "odd.expected").mkdir()
        report = Path(folder, "report.xml")
        answer = run([*EACH, folder, "--junit", str(report)])
        suite = suite_of(report)
    wanted = (
        "away.json: no verdict: it can't be read: No such file or directory\n"
        "good.json: accepted\n"
        "odd.json: accepted, not as expected; odd.expected can't be read: Is a directory\n"
        "pipe.json: no verdict: it isn't a regular file\n"
        "2 accepted\n2 no verdict\n4 traces, 3 not as expected\n"
    )
    found = difference(answered(wanted, 1), answer)
    return found or difference(("1", "2"), (suite.get("failures"), suite.get("errors")))


def judge_odd_names():
    """Names that end lines, that aren't UTF-8, and that XML doesn't have."""
    names = [b"a\nline.json", b"not \xff UTF-8.json", b"\x1b[31mred.json"]
    with tempfile.TemporaryDirectory() as folder:
        for name in names:
            with open(os.path.join(os.fsencode(folder), name), "wb") as file:
                file.write(trace_of(FIRST))
        report = Path(folder, "report.xml")
        environment = {**os.environ, "LC_ALL": "C.UTF-8"}
        answer = run([*EACH, folder, "--junit", str(report)], env=environment)
        found = sorted(case.get("name") for case in suite_of(report))
    shown_names = ["\\x1b[31mred.json", "a\\nline.json", "not \\xff UTF-8.json"]
    lines = "".join(f"{name}: accepted\n" for name in shown_names)
    wanted = answered(lines + "3 accepted\n3 traces, none not as expected\n")
    return difference(wanted, answer) or difference(
        ["\\x1b[31mred.json", "a\nline.json", "not \\xff UTF-8.json"], found
    )


def judge_empty():
    """A folder without traces isn't taken for a good one."""
    with tempfile.TemporaryDirectory() as folder:
        Path(folder, "notes.txt").write_bytes(b"")
        answer = run([*EACH, folder])
    said = f"{folder} has no trace: no file's name ends with .json\n"
    return difference(answered("", 1, said), answer)


def judge_failing_program():
    """A program that gives no verdict."""
    with tempfile.TemporaryDirectory() as folder:
        make_folder(folder, TRACES[:1])
        environment = {**os.environ, "PROGRAM": "/bin/false"}
        answer = run([*EACH, folder], env=environment)
    wanted = (
        "accepted.json: no verdict: replay: status 1, output '', error ''\n"
        "1 no verdict\n1 trace, 1 not as expected\n"
    )
    return difference(answered(wanted, 1), answer)


def judge_no_report(file):
    """The lines are said all the same."""
    with tempfile.TemporaryDirectory() as folder:
        make_folder(folder, TRACES[:1])
        answer = run([*EACH, folder, "--junit", file])
    wanted = "accepted.json: accepted\n1 accepted\n1 trace, none not as expected\n"
    return difference(answered(wanted, NOT_DONE, f"{file}: No such file or directory\n"), answer)
