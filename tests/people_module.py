"""Tests of the module tools/zorthewin, which writes traces from Python."""

import json
import os
import sys
import tempfile
from pathlib import Path

from harness import EXPLAIN, PROGRAM, TOP, Test, answered, difference, run
from people_tools import EXAMPLES

sys.path.append(str(TOP / "tools"))

import zorthewin
from strict_reading import is_trace
from trace_forms import COMMAND, ENTRY

PATHS = {**os.environ, "PROGRAM": PROGRAM, "EXPLAIN": EXPLAIN, "PYTHONDONTWRITEBYTECODE": "1"}
ACCEPTED = """accepted
10 entries, 16 points
makes 2 buffers, 1 image, 1 semaphore
queue 0: 1 batch, 5 commands
the host reads 1364 bytes
[0, 1024, 1280, 1344, 1360] True
"""


def unlike(found, wanted):
    """What is found, where it isn't what is wanted."""
    return None if found == wanted else f"found {found!r}; wanted {wanted!r}"


def every_form():
    """A trace with each entry and each command, without a fault."""
    t = zorthewin.Trace()
    memory = t.memory("HOST_CACHED", 4096)
    pool = t.pool("DEVICE_LOCAL", 65536, most=2)
    here = t.buffer(256, memory=memory, offset=1024, usage="VK_BUFFER_USAGE_TRANSFER_SRC_BIT|TRANSFER_DST")
    there = t.buffer(256, memory=pool, sharing="concurrent")
    one = t.image("R8G8B8A8_UINT", 8, 8)
    other = t.image("VK_FORMAT_R8G8B8A8_UINT", 8, 8, memory=pool)
    done, event = t.semaphore(), t.event()
    t.map(here)
    t.write(here, bytes(256))
    t.flush(here)
    with t.submit(queue=0) as s:
        with s.batch() as b:
            b.update(there, b"\x01\x02\x03\x04")
            b.barrier(src="TRANSFER:TRANSFER_WRITE", dst="TRANSFER:TRANSFER_READ|TRANSFER_WRITE")
            b.fill(there, 7, offset=4)
            b.set(event, src="TRANSFER:TRANSFER_WRITE", dst="TRANSFER:TRANSFER_READ|TRANSFER_WRITE")
            for image in (one, other):
                b.transition(image, "UNDEFINED", "GENERAL", "TRANSFER", "TRANSFER:TRANSFER_WRITE")
            b.wait_event(event, src="TRANSFER:TRANSFER_WRITE", dst="TRANSFER:TRANSFER_READ|TRANSFER_WRITE")
            b.clear(one, (1, 2, 3, 4), layout="GENERAL")
            wrote, access = "TRANSFER:TRANSFER_WRITE", "TRANSFER:TRANSFER_READ|TRANSFER_WRITE"
            b.barrier(images=[zorthewin.on_image(one, "GENERAL", "GENERAL", wrote, access, levels=(0, 1))])
            b.copy_image(one, other, "GENERAL", "GENERAL")
            b.barrier(src=access, dst=access)
            b.copy_in(there, one, "GENERAL")
            b.barrier(buffers=[zorthewin.on_buffer(there, access, access)], src=access, dst=access)
            b.copy_out(other, here, "GENERAL")
        with s.batch(signals=[(done, 1)]) as b:
            b.barrier(src="TRANSFER:TRANSFER_WRITE", dst="TRANSFER|HOST:TRANSFER_READ|HOST_READ|TRANSFER_WRITE")
            b.copy(here, there, (0, 128, 64))
    t.wait((done, 1))
    t.invalidate(here)
    t.read(here, 16, offset=16)
    t.unmap(here)
    t.signal(done, 2)
    defragmentation = t.defragment(pool, most_moves=1)
    t.begin_pass(defragmentation)
    t.end_pass(defragmentation, stay=[there], destroyed=[other])
    t.end_defragmentation(defragmentation)
    t.destroy(there)
    t.drop_pool(pool)
    t.destroy(here)
    t.free(memory)
    return t


def judge_forms():
    """Each entry and each command of the format can be written, and the trace is accepted."""
    trace = every_form()
    text = trace.json()
    entries = json.loads(text)
    commands = {
        command[0] for entry in entries if entry[0] == "submit" for batch in entry[2] for command in batch[1]
    }
    missing = ({*ENTRY.rows} - {entry[0] for entry in entries}) | ({*COMMAND.rows} - commands)
    if missing:
        return f"not written: {', '.join(sorted(missing))}"
    if not is_trace(text.encode()):
        return f"not a trace: {text}"
    verdict = trace.judge(EXPLAIN)
    return None if verdict.accepted else str(verdict)


def judge_site():
    """A refusal names the line of the call, and the earlier access isn't taken for it."""
    t = zorthewin.Trace()
    data = t.buffer(16, memory=1)
    with t.batch() as b:
        b.fill(data, 1)
        b.fill(data, 2)
    verdict = t.judge(EXPLAIN)
    line = judge_site.__code__.co_firstlineno + 6
    wanted = ("1.0.1", "HAZARD_WAW", f"{__file__}:{line}")
    return unlike((verdict.at, verdict.rule, verdict.site), wanted)


def judge_answers():
    """What a replay answers: bytes, a refusal, and an entry without room."""
    t = zorthewin.Trace()
    data = t.buffer(8, memory="HOST_COHERENT")
    t.map(data)
    t.write(data, b"zorthewi")
    t.read(data, 4, offset=2)
    first = t.replay(PROGRAM, order="seed", seed=3)
    t.memory("HOST_COHERENT", 1 << 23)
    stopped = t.replay(PROGRAM)
    t.map(t.buffer(8, memory=0))
    refused = t.replay(PROGRAM)
    wanted = (([(3, b"rthe")], None, None), ([(3, b"rthe")], None, 4), ([], ("6", "HOST_VISIBLE"), None))
    return unlike((first, stopped, refused), wanted)


T = zorthewin.Trace()
BUFFER, IMAGE, SEMAPHORE = T.buffer(64), T.image("R8_UINT", 8, 8, levels=2), T.semaphore()
BATCH = T.batch()
OTHER = zorthewin.Trace()
OTHER_BUFFER, OTHER_IMAGE, OTHER_SEMAPHORE = OTHER.buffer(64), OTHER.image("R8_UINT", 8, 8), OTHER.semaphore()
WRONG = {
    "a stage": (lambda: BATCH.barrier(src="COPPY"), "'COPPY': not one of NONE, TRANSFER, HOST, ALL_COMMANDS"),
    "an access": (lambda: BATCH.barrier(dst="HOST:HOST"), "'HOST': not one of NONE, TRANSFER_READ, TRANSFER_WRITE"),
    "a stage that the profile lacks": (lambda: BATCH.barrier(src="TOP_OF_PIPE"), "write NONE"),
    "a format": (lambda: T.image("R8G8B8A8_UNORM", 4, 4), "'R8G8B8A8_UNORM': not one of R8_UINT"),
    "a layout": (lambda: BATCH.clear(IMAGE, (0, 0, 0, 0), "PRESENT"), "not one of UNDEFINED, GENERAL"),
    "a number below 0": (lambda: T.buffer(-1), "-1 is not from 0 to 18446744073709551615"),
    "a number that is a text": (lambda: T.buffer("16"), "buffer: size: expected a number; found '16'"),
    "a memory type": (lambda: T.buffer(1, memory="LOCAL"), "not one of DEVICE_LOCAL, HOST_COHERENT, HOST_CACHED"),
    "an image for a buffer": (lambda: BATCH.fill(IMAGE, 0), f"fill: expected a buffer; found {IMAGE}"),
    "a color of three numbers": (
        lambda: BATCH.clear(IMAGE, (0, 0, 0)),
        "expected 4 numbers (red, green, blue, alpha)",
    ),
    "a region of two numbers": (lambda: BATCH.copy(BUFFER, BUFFER, (0, 1)), "expected 3 numbers (source offset"),
    "a region of nine numbers": (
        lambda: BATCH.copy_in(BUFFER, IMAGE, regions=[[0] * 9]),
        "copy_in: region: expected 10 numbers (buffer offset, row length",
    ),
    "a row length of 64 bits": (
        lambda: BATCH.copy_out(IMAGE, BUFFER, regions=[(0, 1 << 32, 0, 0, 0, 1, 0, 0, 8, 8)]),
        "copy_out: region: row length: 4294967296 is not from 0 to 4294967295",
    ),
    "rows of 0 bytes": (lambda: BATCH.copy_in(BUFFER, IMAGE, row_bytes=0), "row_bytes: expected 1 or more; found 0"),
    "levels past the last": (lambda: BATCH.copy_in(BUFFER, IMAGE, levels=range(1, 3)), "among the 2 of the image"),
    "a wait without a value": (lambda: T.wait((SEMAPHORE,)), "wait: expected (semaphore, value)"),
    "text for bytes": (lambda: T.write(BUFFER, "00"), "write: expected bytes; found '00'"),
    "an offset in memory of its own": (lambda: T.buffer(1, offset=16), "an offset is one in a memory object"),
    "an object of another trace": (lambda: zorthewin.Trace().map(BUFFER), "is of another trace"),
    "a buffer of another trace": (lambda: BATCH.fill(OTHER_BUFFER, 0), "fill: buffer 1 is of another trace"),
    "an element of another trace": (
        lambda: BATCH.transition(OTHER_IMAGE, "UNDEFINED", "GENERAL"),
        "barrier: images: image 2 is of another trace",
    ),
    "a signal of another trace": (lambda: T.batch(signals=[(OTHER_SEMAPHORE, 1)]), "semaphore 3 is of another trace"),
    "a signal without its list": (lambda: T.batch(signals=SEMAPHORE), "signals: expected a list of (semaphore, value)"),
    "an element of an image for one of a buffer": (
        lambda: BATCH.barrier(buffers=[zorthewin.on_image(IMAGE, "UNDEFINED", "GENERAL")]),
        f"barrier: buffers: expected a buffer; found {IMAGE}",
    ),
    "an element without its list": (
        lambda: BATCH.barrier(buffers=zorthewin.on_buffer(BUFFER)),
        "barrier: buffers: expected a list of what on_buffer answers; found one alone",
    ),
    "an element of numbers": (
        lambda: BATCH.barrier(images=[[0] * 11]),
        "barrier: images: expected a list of what on_image answers; found [0, 0",
    ),
    "a number for a region": (lambda: BATCH.copy(BUFFER, BUFFER, 16), "copy: region: expected 3 numbers"),
    "a number for regions": (lambda: BATCH.copy_in(BUFFER, IMAGE, regions=16), "expected a list of regions; found 16"),
    "a region of images for regions": (
        lambda: BATCH.copy_image(IMAGE, IMAGE, regions=(0,) * 11),
        "copy_image: region: expected 11 numbers",
    ),
    "a resource without its list": (
        lambda: T.end_pass(None, stay=BUFFER),
        f"end_pass: stay: expected a list of resources; found {BUFFER}",
    ),
    "a read from past the end": (lambda: T.read(BUFFER, offset=65), f"offset: 65 is past the 64 bytes of {BUFFER}"),
    "an order": (lambda: T.replay(PROGRAM, order="middle"), "'middle': not one of first, last, seed"),
    "a seed": (lambda: T.replay(PROGRAM, seed=-1), "replay: seed: -1 is not from 0 to 18446744073709551615"),
}


def judge_rows():
    """Levels whose rows take a multiple of some bytes, and a part of a level as a region of ten numbers."""
    t = zorthewin.Trace()
    image = t.image("R8G8B8A8_UINT", 5, 3, levels=2, layers=2)
    places, size = image.packed(row_bytes=16)
    found = (places, size, image.row_length(0, 16), image.row_length(1, 6), image.level_bytes(0, 16))
    if found != ([0, 192], 224, 8, 3, 96):
        return f"found {found}"
    upload, download = (t.buffer(size, memory="HOST_COHERENT") for _ in range(2))
    done = t.semaphore()
    data = bytes(range(size))
    t.map(upload)
    t.write(upload, data)
    wrote, read = "TRANSFER:TRANSFER_WRITE", "TRANSFER:TRANSFER_READ"
    with t.batch(signals=[(done, 1)]) as b:
        b.transition(image, "UNDEFINED", "GENERAL", dst=wrote)
        b.copy_in(upload, image, "GENERAL", row_bytes=16)
        b.barrier(src=wrote, dst=read)
        b.copy_out(image, download, "GENERAL", regions=[(0, 0, 0, 0, 1, 1, 2, 1, 3, 2)])
        b.barrier(src=wrote, dst="HOST:HOST_READ")
    t.wait((done, 1))
    t.map(download)
    t.read(download, 24)
    # (texels 2 to 4 of rows 1 and 2 of layer 1, of rows that take 32 bytes)
    wanted = b"".join(data[96 + 32 * row + 8 : 96 + 32 * row + 20] for row in (1, 2))
    return unlike([each[1] for each in t.replay(PROGRAM).reads], [wanted])


def judge_wrong(call, wanted):
    """A wrong call says what is wrong, and adds nothing."""
    before = len(T.entries), len(T.objects)
    try:
        call()
    except zorthewin.Wrong as error:
        if wanted not in str(error):
            return f"said: {error}"
        return unlike((len(T.entries), len(T.objects)), before)
    return "no error"


def judge_example():
    """The example of docs/USING.md, and a copy of the module elsewhere."""
    with tempfile.TemporaryDirectory() as folder:
        ran = run([sys.executable, str(EXAMPLES / "python" / "mips.py")], env=PATHS, cwd=folder)
        return difference(answered(ACCEPTED), ran)


def judge_absent():
    """A program that isn't there is an error with its name."""
    try:
        zorthewin.Trace().judge("/no/such/explain")
    except zorthewin.Failed as error:
        return unlike(str(error), "/no/such/explain: No such file or directory")
    return "no error"


def module_tests():
    """All of them."""
    yield Test("module: every form", judge_forms)
    yield Test("module: the line of a call", judge_site)
    yield Test("module: what a replay answers", judge_answers)
    yield Test("module: rows and regions", judge_rows)
    yield Test("module: a program that isn't there", judge_absent)
    yield Test("module: the example of the pages", judge_example)
    for what, (call, wanted) in WRONG.items():
        yield Test(f"module: {what}", lambda c=call, w=wanted: judge_wrong(c, w))
