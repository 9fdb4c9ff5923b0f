#!/usr/bin/env python3
"""Converts the captures of tests/captures/ and judges the traces that tools/from_capture.py makes of them.

    PROGRAM=FILE EXPLAIN=FILE tests/captures.py [WORD]

With WORD only those tests run whose names have it. The captures are of tests/captures/transfers.c, right and
with each fault, of ffmpeg and of vkcube, each with the JSON of gfxrecon-convert; what few drivers have is in
captures of programs that aren't run (orders.py and resources.py there). Each trace has to be accepted, or refused
by the rule that is named, at the call that is named, which `explain --names` has to say. What needs
gfxrecon-convert is skipped where it isn't installed.
"""

import gzip
import json
import pathlib
import re
import shutil
import sys

sys.dont_write_bytecode = True
sys.path.insert(1, str(pathlib.Path(__file__).resolve().parent / "captures"))

from harness import EXPLAIN, PROGRAM, TOP, Skipped, Test, difference, main, run
from orders import CASES as ORDERS
from refusals import TOOL, folder, refused_tests
from resources import CASES as RESOURCES
from resources import too_many

KEPT = TOP / "tests" / "captures"
CONVERTER = "gfxrecon-convert"
ALL_BYTES = bytes(range(256)).hex()
# The right bytes after the update and the fill of the second generation.
CHANGED = f"{ALL_BYTES[:16]}09080706{ALL_BYTES[24:32]}0403020104030201{ALL_BYTES[48:]}"
COHERENT, CACHED = b'"propertyFlags":15', b'"propertyFlags":11'


def where(point, names):
    """The call that a point stands for, as its index."""
    answer = run([*TOOL, "--where", point, "--names", str(names)])
    words = answer.output.decode().split()
    if answer.status != 0 or len(words) < 3 or words[0] != "call":
        raise ValueError(f"--where {point}: {answer}")
    return int(words[1]), " ".join(words[2:])


def converted(arguments, names, status=0):
    """What the tool makes of a capture."""
    made = run([*TOOL, "--names", str(names), *map(str, arguments)])
    if made.status != status:
        raise ValueError(f"status {status} is wanted: {made}")
    return made


CALL = re.compile(r" \(call (\d+) (\w+|\([^()]*\))(: [^()]*)?\)")


def called(trace, names):
    """What `explain` says with the calls of points: the text without them, and the calls in it."""
    text = run([EXPLAIN, "--names", str(names)], trace).output.decode()
    return CALL.sub("", text), [(int(m[1]), f"{m[2]} ({m[3][2:]})" if m[3] else m[2]) for m in CALL.finditer(text)]


def objects(trace, names):
    """The calls of points in the object of `explain --json`, and the object without them."""
    plain = run([EXPLAIN, "--json"], trace).output
    with_calls = json.loads(run([EXPLAIN, "--json", "--names", str(names)], trace).output)
    calls = with_calls.pop("calls")
    if with_calls != json.loads(plain):
        raise ValueError(f"--json --names: {with_calls}")
    return [(c["point"], c["call"], f"{c['name']} ({c['why']})" if "why" in c else c["name"]) for c in calls]


def calls_are_said(trace, names, point, call):
    """Raises an error unless `explain --names` says the call of the refused point first, and nothing else anew."""
    plain = run([EXPLAIN], trace).output.decode()
    text, calls = called(trace, names)
    listed = objects(trace, names)
    if (text, calls[:1]) != (plain, [call]) or (point, *call) not in listed or len(listed) != len(calls):
        raise ValueError(f"--names: {calls} and {listed} in {text!r}, wanted {call} in {plain!r}")


def judged(arguments, room, status=0):
    """What comes of a capture: the rule, the call, the bytes that are read, the summary."""
    names = room / "names.json"
    made = converted(arguments, names, status)
    words = run([EXPLAIN], made.output).output.split(b"\n")[0].decode().split()
    if words[0] == "refused":
        index, name = where(words[1], names)
        calls_are_said(made.output, names, words[1], (index, name))
        return words[2], index, name, made.error.decode()
    if words != ["accepted"]:
        raise ValueError(f"explain: {words}")
    answer = run([PROGRAM, "--heap0", "67108864", "--heap1", "67108864"], made.output)
    if answer.status != 0:
        raise ValueError(f"replay: {answer}")
    reads = [line.split()[1] for line in answer.output.decode().splitlines()]
    return None, None, "".join(reads), made.error.decode()


def case_fault(make):
    """What differs for a program that isn't run."""
    case = make()
    with folder() as room:
        path = room / "made.jsonl"
        path.write_bytes(case.program.text())
        rule, call, text, said = judged(["--json", path], room, case.status)
    found = difference((case.rule, case.call), (rule, call))
    if found is None and case.reads is not None:
        found = difference(case.reads, text)
    missing = [part for part in case.says if part not in said]
    return found or (f"the summary doesn't say {missing}: {said}" if missing else None)


def case_tests():
    """The tests of programs that aren't run."""
    for name, make in {**ORDERS, **RESOURCES}.items():
        yield Test(f"made: {name}", lambda make=make: case_fault(make))


# ---- the captures of transfers.c: the rule and the call of each fault, in coherent memory and in other

READ_AT_MAP = "vkMapMemory (the host reads what commands wrote when it maps it)"
READ_AT_UNMAP = "vkUnmapMemory (the host reads what commands wrote before it unmaps it)"
READ_AT_INVALIDATION = (
    "vkInvalidateMappedMemoryRanges (the host reads what commands wrote after it invalidates it)"
)
KEPT_CASES = {
    "right": [(None, ALL_BYTES), (None, ALL_BYTES)],
    "second_generation": [(None, CHANGED), (None, CHANGED)],
    "no_flush": [(None, ALL_BYTES), ("HAZARD_RAW", "vkCmdCopyBuffer")],
    "no_barrier": [("HAZARD_RAW", "vkCmdCopyBuffer")] * 2,
    "no_host_barrier": [("HAZARD_RAW", READ_AT_MAP), ("HAZARD_RAW", READ_AT_INVALIDATION)],
    "no_wait": [("HAZARD_RAW", READ_AT_UNMAP)] * 2,
    "no_invalidation": [(None, ALL_BYTES), ("HAZARD_RAW", READ_AT_UNMAP)],
    "write_in_use": [("HAZARD_WAR", "(a write of the host)")] * 2,
    "destroyed_in_use": [("IN_USE", "vkDestroyBuffer")] * 2,
    "ring": [(None, "41" * 128 + "51" * 128), ("HAZARD_RAW", "vkCmdCopyBuffer")],
    "ring_no_wait": [("HAZARD_WAR", "(a write of the host)"), ("HAZARD_RAW", "vkCmdCopyBuffer")],
}


def kept_fault(name, is_cached):
    """What differs for a capture of transfers.c, as it was or as if its memory weren't coherent."""
    with folder() as room:
        path = room / "kept.jsonl"
        text = gzip.decompress((KEPT / f"{name}.jsonl.gz").read_bytes())
        path.write_bytes(text.replace(COHERENT, CACHED) if is_cached else text)
        rule, _, text, _ = judged(["--json", path, KEPT / f"{name}.gfxr.gz"], room)
    return difference(KEPT_CASES[name][is_cached], (rule, text))


def kept_tests():
    """The tests of the captures of transfers.c."""
    for name in KEPT_CASES:
        yield Test(f"{name}: coherent", lambda name=name: kept_fault(name, False))
        yield Test(f"{name}: not coherent", lambda name=name: kept_fault(name, True))


# ---- the captures of other programs

FFMPEG = [
    "calls judged: 214",
    "calls left out: 0",
    "resources not judged: 0",
    "assumed: the host wrote all of the imported memory",
]
VKCUBE = [
    "calls judged: 72",
    "calls left out: 27 (vkAcquireNextImage 3, vkCmdBeginRenderPass 3,",
    "resources not judged: 0",
    "assumed: layouts of graphics count as GENERAL",
]


def program_fault(name, options, wanted, says):
    """What differs for the capture of another program."""
    with folder() as room:
        arguments = [*options, "--json", KEPT / f"{name}.jsonl.gz", KEPT / f"{name}.gfxr.gz"]
        rule, call, _, said = judged(arguments, room)
    missing = [part for part in says if part not in said]
    return difference(wanted, (rule, call)) or (
        f"the summary doesn't say {missing}: {said}" if missing else None
    )


def program_tests():
    """The tests of ffmpeg and vkcube."""
    for reads in ("mapped", "all"):
        yield Test(
            f"ffmpeg, --reads {reads}: no barrier to the host",
            lambda reads=reads: program_fault(
                "ffmpeg", ["--reads", reads], ("HAZARD_RAW", 335), FFMPEG
            ),
        )
    yield Test(
        "ffmpeg, --reads none",
        lambda: program_fault("ffmpeg", ["--reads", "none"], (None, None), FFMPEG),
    )
    yield Test(
        "vkcube, compressed by LZ4", lambda: program_fault("vkcube", [], (None, None), VKCUBE)
    )


# ---- what needs gfxrecon-convert


def needs_converter():
    """Skips a test where gfxrecon-convert isn't installed."""
    if shutil.which(CONVERTER) is None:
        raise Skipped(f"this needs {CONVERTER}, in Debian's package gfxreconstruct")


def converted_fault(name):
    """What differs where the JSON is made anew."""
    needs_converter()
    kept = run([*TOOL, "--json", str(KEPT / f"{name}.jsonl.gz"), str(KEPT / f"{name}.gfxr.gz")])
    return difference(kept, run([*TOOL, str(KEPT / f"{name}.gfxr.gz")]))


def too_many_fault():
    """What differs where a trace would be too long: it ends before, and that is said."""
    program = too_many()
    with folder() as room:
        path = room / "made.jsonl"
        path.write_bytes(program.text())
        made = converted(["--json", path], room / "names.json", 3)
    if b"with it the trace would have more than 131072 points" not in made.error:
        return f"it isn't said: {made.error.decode()}"
    entries = json.loads(made.output)
    points = sum(
        1 + (sum(len(part) for batch in entry[2] for part in batch) if entry[0] == "submit" else 0)
        for entry in entries
    )
    return None if 130000 < points <= 131072 else f"{points} points"


def cut_fault():
    """What differs for a capture that ends within a block: what comes before it is judged."""
    needs_converter()
    with folder() as room:
        path = room / "cut.gfxr"
        path.write_bytes(gzip.decompress((KEPT / "no_barrier.gfxr.gz").read_bytes())[:-100])
        rule, _, name, said = judged([path], room)
    if "the capture ends within block" not in said:
        return said
    return difference(("HAZARD_RAW", "vkCmdCopyBuffer"), (rule, name))


def missing_fault():
    """What differs where gfxrecon-convert isn't there."""
    answer = run([*TOOL, str(KEPT / "right.gfxr.gz")], env={"PATH": "/nonexistent"})
    if answer.status != 1 or b"gfxrecon-convert isn't installed" not in answer.error:
        return str(answer)
    return None


def failing_fault():
    """What differs where gfxrecon-convert fails."""
    with folder() as room:
        program = room / CONVERTER
        program.write_text("#!/bin/sh\necho no such thing\nexit 7\n", encoding="utf-8")
        program.chmod(0o755)
        answer = run([*TOOL, str(KEPT / "right.gfxr.gz")], env={"PATH": f"{room}:/usr/bin:/bin"})
    if answer.status != 1 or b"status 7: no such thing" not in answer.error:
        return str(answer)
    return None


def converter_tests():
    """The tests of gfxrecon-convert."""
    for name in ("right", "second_generation", "ffmpeg", "vkcube"):
        yield Test(f"{name}: converted anew", lambda name=name: converted_fault(name))
    yield Test("a capture that ends within a block", cut_fault)
    yield Test("too many points", too_many_fault)
    yield Test("no gfxrecon-convert", missing_fault)
    yield Test("a gfxrecon-convert that fails", failing_fault)


def all_tests():
    """All of them."""
    word = sys.argv[1] if len(sys.argv) > 1 else ""
    tests = [*case_tests(), *kept_tests(), *program_tests(), *refused_tests(), *converter_tests()]
    return [test for test in tests if word in test.name]


if __name__ == "__main__":
    sys.exit(main(all_tests()))
