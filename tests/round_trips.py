#!/usr/bin/env python3
"""Performs examples on lavapipe by `drive` under the capture layer, converts the captures, and judges them.

    PROGRAM=FILE EXPLAIN=FILE EMIT=FILE tests/round_trips.py [WORD]

With WORD only those tests run whose names have it. The capture of each accepted example becomes a trace that is
accepted again, with the bytes of each read. The captures of refused examples become traces that are refused by the same
rule, at the same call. What needs GFXReconstruct (Debian's package gfxreconstruct), a C compiler, Vulkan's headers or
lavapipe is skipped where it isn't there.
"""

import os
import shutil
import sys
import tempfile
from pathlib import Path

sys.dont_write_bytecode = True

from drive import EMIT, EQUAL, IS_REFUSED, OF_THE_PROFILE, drive, example
from harness import EXPLAIN, PROGRAM, TOP, Skipped, Test, difference, main, run

TOOL = [sys.executable, str(TOP / "tools" / "from_capture.py")]
CAPTURING = {
    "VK_INSTANCE_LAYERS": "VK_LAYER_LUNARG_gfxreconstruct",
    "GFXRECON_CAPTURE_FILE_TIMESTAMP": "false",
    "GFXRECON_MEMORY_TRACKING_MODE": "page_guard",
    "GFXRECON_CAPTURE_COMPRESSION_TYPE": "NONE",
    "GFXRECON_LOG_LEVEL": "error",
}
HEAPS = ["--heap0", "67108864", "--heap1", "67108864"]
# The refused examples that lavapipe performs whole, by the call that breaks the rule.
REFUSED_AT = {
    "discarding_transition": "vkMapMemory",
    "image_without_barrier": "vkCmdCopyImageToBuffer",
    "missing_dependency": "vkMapMemory",
    "overlapping_fills": "vkCmdFillBuffer",
    "staging_without_barrier": "vkCmdCopyBuffer",
    "undefined_bytes": "vkMapMemory",
    "unordered_queues": "vkCmdFillBuffer",
    "wrong_old_layout": "vkCmdPipelineBarrier2",
}
# Those whose host reads what it wrote itself: a capture doesn't tell that, so that they are only to be accepted.
READ_WHAT_THEY_WRITE = {
    "block_given_back",
    "cached_read_back",
    "defragmented_pool",
    "double_stack",
    "full_pool",
    "passes_with_limits",
}


def converted(name, room, status, arguments=()):
    """The trace of the capture of an example that `drive` performs."""
    if shutil.which("gfxrecon-convert") is None:
        raise Skipped("this needs gfxrecon-convert, in Debian's package gfxreconstruct")
    capture = room / "capture.gfxr"
    surroundings = {**os.environ, **CAPTURING, "GFXRECON_CAPTURE_FILE": str(capture)}
    answer = drive(arguments, example(name), env=surroundings)
    if answer.status != status or not capture.exists():
        raise ValueError(f"status {status} and a capture are wanted: {answer}")
    made = run([*TOOL, "--names", str(room / "names.json"), str(capture)])
    if made.status != 0:
        raise ValueError(f"from_capture.py: {made}")
    return made.output


def reads_of(answer):
    """The bytes of each read in an answer of `replay`, in hex."""
    return [line.split()[1] for line in answer.decode().splitlines() if line[:1].isdigit()]


def accepted_fault(name):
    """What differs where an accepted example goes round."""
    with tempfile.TemporaryDirectory() as room:
        trace = converted(name, Path(room), EQUAL)
    if run([EXPLAIN], trace).output.split(b"\n")[0] != b"accepted":
        return str(run([EXPLAIN], trace))
    if name in READ_WHAT_THEY_WRITE:
        return None
    # (the host reads all that it has mapped there, and what the example reads is among it)
    reads = reads_of(run([PROGRAM, *HEAPS], trace).output)
    wanted = reads_of((TOP / "examples" / f"{name}.expected").read_bytes())
    missing = [read for read in wanted if not any(read in other for other in reads)]
    return f"not read: {missing}; read: {reads}" if missing else None


def refused_fault(name):
    """What differs where a refused example goes round."""
    rule = (TOP / "examples" / f"{name}.expected").read_text(encoding="utf-8").split()[2]
    with tempfile.TemporaryDirectory() as room:
        trace = converted(name, Path(room), IS_REFUSED, ["--refused"])
        words = run([EXPLAIN], trace).output.split(b"\n")[0].decode().split()
        if words[0] != "refused":
            return f"the trace of the capture is {words}"
        where = run([*TOOL, "--where", words[1], "--names", str(Path(room) / "names.json")]).output.decode().split()
    return difference((rule, REFUSED_AT[name]), (words[2], where[2]))


def all_tests():
    """All of them."""
    word = sys.argv[1] if len(sys.argv) > 1 else ""
    names = sorted(path.stem for path in (TOP / "examples").glob("*.expected"))
    tests = [Test(f"refused: {name}", lambda name=name: refused_fault(name)) for name in REFUSED_AT]
    for name in names:
        if name != OF_THE_PROFILE and b"refused" not in (TOP / "examples" / f"{name}.expected").read_bytes():
            tests.append(Test(name, lambda name=name: accepted_fault(name)))
    return [test for test in tests if word in test.name]


if __name__ == "__main__":
    sys.exit(main(all_tests(), (PROGRAM, EXPLAIN, EMIT)))
