"""Writes traces from Python with Vulkan's names, and has them judged and replayed.

    import zorthewin

    t = zorthewin.Trace()
    data = t.buffer(16, memory="HOST_COHERENT", name="data")
    done = t.semaphore()
    with t.batch(queue=0, signals=[(done, 1)]) as b:
        b.fill(data, 0x04030201)
        b.barrier(src="TRANSFER:TRANSFER_WRITE", dst="HOST:HOST_READ")
    t.wait((done, 1))
    t.map(data)
    t.read(data, 4)
    print(t.judge())         # accepted .., or which line of this file breaks which rule, and how to mend it
    print(t.replay().reads)  # [(5, b'\\x01\\x02\\x03\\x04')]

A scope is text, `STAGES:ACCESSES`, with `|` between names of each; a part that is left out is NONE. Names may have
Vulkan's prefixes. A name, a mask, a count or a kind of object that is wrong is an error at once, `Wrong`, which says
what there is. Ids are given by the trace, from 1 on. docs/FORMAT.md says what each form means.

`judge` and `replay` run the programs ./explain and ./replay at the top, or those that the environment's EXPLAIN and
PROGRAM name; where its ZORTHEWIN_LIBRARY names the C library libzorthewin.so they call that. It needs Python 3.8 or
later, and its standard library alone.
"""

import sys
from pathlib import Path

sys.path.append(str(Path(__file__).resolve().parent.parent))

from .answers import Failed, Replay, Verdict
from .commands import on_buffer, on_image
from .names import IGNORED, Wrong
from .objects import Buffer, Defragmentation, Event, Image, Memory, Pool, Semaphore
from .trace import Trace

__all__ = (
    *("Trace", "Wrong", "Failed", "Verdict", "Replay", "IGNORED", "on_buffer", "on_image"),
    *("Buffer", "Image", "Memory", "Pool", "Semaphore", "Event", "Defragmentation"),
)
