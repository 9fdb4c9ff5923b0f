#!/usr/bin/env python3
"""Performs traces on lavapipe by `drive`, and tests what `emit` writes and how both end.

    PROGRAM=FILE EXPLAIN=FILE EMIT=FILE tests/drive.py [WORD]

With WORD only those tests run whose names have it. The examples and the worked traces that are accepted, up to one
without room, and 40 random ones are performed 20 times each: each read has to give the promised bytes. Those that are
refused are performed as far as they can be. What needs a C compiler, Vulkan's headers and loader or lavapipe is
skipped where it isn't there; it is in Debian's packages gcc, libvulkan-dev and mesa-vulkan-drivers.
"""

import functools
import json
import os
import random
import re
import shutil
import subprocess
import sys
import tempfile
from pathlib import Path

sys.dont_write_bytecode = True
sys.path.append(str(Path(__file__).resolve().parent.parent / "tools"))

from drawing import draw
from harness import PROGRAM, TOP, Skipped, Test, answered, build, compared, difference, main, run
from worked import REFUSED, REPLAYED, STOPPED, texts_of

EMIT = os.path.abspath(os.environ.get("EMIT") or TOP / "emit")
DRIVE = [sys.executable, str(TOP / "tools" / "drive.py")]
HEADER = TOP / "tools" / "drive" / "zw_drive.h"
LAVAPIPE = "llvmpipe"
RUNS = 20
# How many random traces are performed, and where their drawing begins.
RANDOM, SEED = 40, 7
EQUAL, DIFFERS, NO_TRACE, IS_REFUSED, ENDLESS, NOT_HERE = 0, 1, 2, 3, 4, 6
SECONDS = 300
FIRST_UPLOAD = (TOP / "examples" / "first_upload.json").read_bytes()
# The only example that has a clear by a component too large for its format: lavapipe clamps, and the profile takes
# the low bits. So do some worked traces and random ones.
OF_THE_PROFILE = "image_formats"


# ---- emit: what it writes, and how it ends

TABLE = """
static const ZwWord zw_trace[] = {
    /* 0 */ CREATE_BUFFER(1, 16, TRANSFER_SRC | TRANSFER_DST, EXCLUSIVE, DEDICATED(1))
    /* 1 */ CREATE_SEMAPHORE(2, 0)
    /* 2 */ SUBMIT(0, 1)
    /* 2.0 */ BATCH(2, 0, 0)
        /* 2.0.0 */ CMD_FILL_BUFFER(1, 0, 16, 0x4030201)
        /* 2.0.1 */ CMD_PIPELINE_BARRIER(1, 0, 0)
            MEMORY_BARRIER(TRANSFER, TRANSFER_WRITE, HOST, HOST_READ)
        BATCH_SIGNAL(2, 1, ALL_COMMANDS)
    END_BATCH
    /* 3 */ WAIT_SEMAPHORES(1)
            SEMAPHORE(2, 1)
    /* 4 */ MAP_MEMORY(1)
    /* 5 */ READ(1, 0, 4)
    END_TRACE
};

// The bytes of writes, of updates and of reads, in the order of their rows.
static const char *const zw_bytes[] = {
    /* 5 */ "01020304",
    0};
"""


def example(name):
    """The bytes of an example."""
    return (TOP / "examples" / f"{name}.json").read_bytes()


def emitted(trace, arguments=(), status=REPLAYED):
    """The program in C of a trace, as text."""
    answer = run([EMIT, *arguments], trace)
    if answer.status != status:
        raise ValueError(f"status {status} is wanted: {answer}")
    return answer.output.decode()


def table_fault():
    """What differs in what is written of the first example."""
    text = emitted(FIRST_UPLOAD)
    return None if TABLE in text and '#include "zw_drive.h"\n' in text else text


def whole_fault():
    """What differs where the header is written, too."""
    text, header = emitted(FIRST_UPLOAD), HEADER.read_text(encoding="utf-8")
    wanted = text.replace('#include "zw_drive.h"\n', header)
    if emitted(FIRST_UPLOAD, ["--header", str(HEADER)]) != wanted:
        return "--header writes another text"
    whole = run([str(TOP / "emit"), "--whole"], FIRST_UPLOAD) if EMIT == str(TOP / "emit") else None
    return None if whole is None or whole.output.decode() == wanted else "--whole writes another text"


def refused_fault():
    """What differs where a refused trace is written."""
    text = emitted(example("missing_dependency"), ["--refused"], REFUSED)
    wanted = ("    /* 5 */ 0,\n", 'zw_main(argc, argv, zw_trace, zw_bytes, "5 HAZARD_RAW")')
    return None if all(part in text for part in wanted) else text


def stopped_fault():
    """What differs where an entry finds no room: it isn't written."""
    text = emitted(example("full_heap"), (), STOPPED)
    stop = re.search(r"^// Entry (\d+) of the trace finds no room", text, re.M)
    return None if stop and f"/* {stop[1]} */" not in text else text


def emit_tests():
    """The tests of `emit`."""
    yield Test("emit: the table of a trace", table_fault)
    yield Test("emit: with the header in it", whole_fault)
    yield Test("emit: a refused trace, with nothing promised", refused_fault)
    yield Test("emit: up to an entry without room", stopped_fault)
    said = "refused 5 HAZARD_RAW\n"
    yield compared("emit: a refused trace", answered("", REFUSED, said), [EMIT], example("missing_dependency"))
    yield compared("emit: no trace", answered("", 2, "no trace\n"), [EMIT], b"[1]")
    missing = "/nonexistent: No such file or directory (os error 2)\n"
    header = [EMIT, "--header", "/nonexistent"]
    yield compared("emit: a header that isn't there", answered("", 5, missing), header, FIRST_UPLOAD)
    large = [EMIT, "--heap0", "67108864", "--heap1", "67108864"]
    yield Test("emit: larger heaps", lambda: None if run(large, example("full_heap")).status == 0 else "no room")
    yield Test("emit: --help", lambda: None if b"Usage: emit" in run([EMIT, "--help"]).error else "no help")


# ---- what is performed on lavapipe


@functools.lru_cache(maxsize=None)
def why_not():
    """Why nothing can be performed here; nothing where it can."""
    if shutil.which("cc") is None:
        return "this needs a C compiler"
    answer = run([*DRIVE, "--list"], seconds=SECONDS)
    if answer.status != EQUAL:
        return "this needs Vulkan's headers and loader, and a driver"
    return None if LAVAPIPE in answer.output.decode() else "this needs lavapipe"


def drive(arguments, trace, **streams):
    """What `drive` answers to a trace on lavapipe."""
    if why_not():
        raise Skipped(why_not())
    return run([*DRIVE, "--device", LAVAPIPE, *arguments, "-"], trace, SECONDS, **streams)


def performed_fault(trace, arguments=()):
    """What differs where an accepted trace is performed."""
    answer = drive(["--runs", str(RUNS), *arguments], trace)
    said = answer.output.decode()
    last = re.search(rf"^(\d+) of \1 reads equal in {RUNS} runs\n\Z", said, re.M)
    return None if answer.status == EQUAL and last and not answer.error else str(answer)


def of_the_profile(answer):
    """Whether all that differs rests on a choice of the profile, and that is said."""
    lines = answer.output.decode().splitlines()
    noted = [lines[k + 1 : k + 2] for k, line in enumerate(lines) if " differs in " in line]
    return answer.status == DIFFERS and all(note and "the profile's choice" in note[0] for note in noted)


def profile_fault(trace, arguments=()):
    """What differs where it may do so by the profile's choice alone."""
    answer = drive(["--runs", str(RUNS), *arguments], trace)
    return None if answer.status == EQUAL or of_the_profile(answer) else str(answer)


def attempted_fault(trace, arguments=()):
    """What is wrong where a refused trace is performed: the driver may end it, and nothing else."""
    answer = drive(["--runs", "2", "--refused", *arguments], trace)
    wanted = answer.status == IS_REFUSED and b"nothing is promised" in answer.output
    return None if wanted else str(answer)


def test_of(name, trace, arguments=()):
    """The test of a trace, by what `replay` answers to it; none of what is no trace."""
    status = run([PROGRAM, *arguments], trace).status
    if status == REFUSED:
        return Test(f"refused: {name}", lambda: attempted_fault(trace, arguments))
    if status not in (REPLAYED, STOPPED):
        return None
    is_plain = (TOP / "examples" / f"{name}.json").exists() and name != OF_THE_PROFILE
    judge = performed_fault if is_plain else profile_fault
    return Test(name, lambda: judge(trace, arguments))


def traces():
    """The examples, the worked traces and random ones, each with its name and its heaps."""
    for path in sorted((TOP / "examples").glob("*.json")):
        if not path.name.endswith((".explained.json", ".repaired.json")):
            yield path.stem, path.read_bytes(), ()
    for path in sorted((TOP / "tests" / "worked").glob("*.json")):
        for row in json.loads(path.read_text(encoding="utf-8")):
            if "trace" in row and "arguments" not in row:
                yield row["name"], *texts_of(row), ()
    for number in range(RANDOM):
        trace, heaps = draw(random.Random(f"{SEED}/{number}"))
        sizes = ["--heap0", str(heaps[0]), "--heap1", str(heaps[1])]
        yield f"random trace {number} of seed {SEED}", json.dumps(trace).encode(), sizes


# ---- how drive ends


def by_hand_fault():
    """What differs where a promised byte is changed by hand: that is told."""
    if why_not():
        raise Skipped(why_not())
    with tempfile.TemporaryDirectory() as room:
        source, program = Path(room) / "main.c", Path(room) / "main"
        text = emitted(FIRST_UPLOAD, ["--header", str(HEADER)]).replace('"01020304"', '"01020904"')
        source.write_text(text, encoding="utf-8")
        subprocess.run(["cc", "-o", program, source, "-lvulkan"], check=True)
        answer = run([program, "--runs", "3", "--device", LAVAPIPE], seconds=SECONDS)
    told = b"5 differs in 3 of 3 runs: byte 2 promised 09, read 03; written last by 2.0.0\n"
    return None if answer.status == DIFFERS and told in answer.output else str(answer)


def warnings_fault():
    """What a compiler warns of in the header."""
    if why_not():
        raise Skipped(why_not())
    with tempfile.TemporaryDirectory() as room:
        source = Path(room) / "main.c"
        source.write_text(emitted(example("every_command"), ["--header", str(HEADER)]), encoding="utf-8")
        flags = ["-std=c99", "-pedantic", "-Wall", "-Wextra", "-Wno-missing-field-initializers", "-Werror"]
        return difference(answered(), run(["cc", *flags, "-c", "-o", Path(room) / "main.o", source], seconds=SECONDS))


def kept_fault():
    """What differs where the program is kept."""
    with tempfile.TemporaryDirectory() as room:
        path = Path(room) / "kept.c"
        answer = drive(["--keep", str(path)], FIRST_UPLOAD)
        kept = path.read_text(encoding="utf-8") if path.exists() else ""
    wanted = emitted(FIRST_UPLOAD, ["--header", str(HEADER)])
    return None if answer.status == EQUAL and kept == wanted else str(answer)


# What a compiler is to include, so that the driver loses what it is asked for: batches, and signals of the host.
BEFORE = "#define VK_ENABLE_BETA_EXTENSIONS\n#include <vulkan/vulkan.h>\n"
LOSES_BATCHES = """
static VkResult lose_batches(VkQueue queue, uint32_t count, const VkSubmitInfo2 *batches, VkFence fence) {
    return count ? VK_SUCCESS : vkQueueSubmit2(queue, count, batches, fence);
}
#define vkQueueSubmit2 lose_batches
"""
LOSES_SIGNALS = """
static VkResult lose_signals(VkDevice device, const VkSemaphoreSignalInfo *signal) {
    return device && signal ? VK_SUCCESS : VK_ERROR_UNKNOWN;
}
#define vkSignalSemaphore lose_signals
"""
# A batch that waits for a later signal of the host.
LATE_SIGNAL = b'[["semaphore",1,0],["submit",0,[[[[1,1,65536]],[],[]]]],["signal",1,1]]'


def endless(name, lost, trace, said):
    """A test that `drive` ends, and says where, on a driver that loses what it is asked for."""

    def judge():
        with tempfile.TemporaryDirectory() as room:
            losing = Path(room) / "losing.h"
            losing.write_text(BEFORE + lost, encoding="utf-8")
            answer = drive([], trace, env={**os.environ, "CC": f"cc -include {losing}"})
        return None if answer.status == ENDLESS and said in answer.output else str(answer)

    return Test(f"drive: {name}", judge)


def ended(name, status, said, arguments, trace=FIRST_UPLOAD, **streams):
    """A test that `drive` ends with a status, and says this."""

    def judge():
        answer = drive(arguments, trace, **streams)
        return None if answer.status == status and said in answer.output + answer.error else str(answer)

    return Test(f"drive: {name}", judge)


def ending_tests():
    """The tests of how `drive` ends."""
    yield Test("drive: a promised byte that is changed by hand", by_hand_fault)
    yield Test("drive: the program in C is kept", kept_fault)
    yield Test("the header, with all warnings", warnings_fault)
    yield ended("no trace", NO_TRACE, b"no trace\n", [], b"[1]")
    yield ended("a refused trace", IS_REFUSED, b"refused 5 HAZARD_RAW\n", [], example("missing_dependency"))
    yield ended("what a driver did beside the rules", IS_REFUSED, b"5 read 01020304 in 1 of 1 runs\n", ["--refused"],
                example("missing_dependency"))
    yield ended("an entry that finds no room", EQUAL, b"finds no room", [], example("full_heap"))
    yield endless("a wait that doesn't end", LOSES_BATCHES, FIRST_UPLOAD, b"no end at 3: the wait took more than 10 s\n")
    yield endless("work that doesn't end", LOSES_SIGNALS, LATE_SIGNAL, b"no end at the end: a queue has work after 10 s\n")
    yield ended("no such device", NOT_HERE, b"no device", ["--device", "no such device"])
    yield ended("no compiler", NOT_HERE, b"drive: ", [], env={**os.environ, "CC": "/nonexistent"})
    yield ended("no run", NOT_HERE, b"--runs takes 1 or more", ["--runs", "0"])


def all_tests():
    """All of them."""
    word = sys.argv[1] if len(sys.argv) > 1 else ""
    build(PROGRAM)
    performed = (test_of(*trace) for trace in traces())
    tests = [*emit_tests(), *ending_tests(), *filter(None, performed)]
    return [test for test in tests if word in test.name]


if __name__ == "__main__":
    sys.exit(main(all_tests(), (PROGRAM, EMIT)))
