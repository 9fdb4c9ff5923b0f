"""What the host writes to memory that commands read, and what it is taken to read of what they write.

A capture has the pages in which the host wrote, and not the bytes. So for each byte of a buffer that the host
may access one of these is known: it is fresh; it is pending, which is that the capture has a value of it that no
command has read yet, flushed or not; it is in the trace; or a command has written it, and then what the capture
has of it may be what the command wrote. A pending byte becomes a write of the host where a command reads it
first, and a byte in the trace does where its value changes.

A trace has two digits for a byte, and 16 MiB. So many bytes at once are a fill in the place of a write, where no
flush of them is to be judged: by a batch on the other queue of the family, which has nothing else to do, and for
which the batch that reads them waits.
"""

import re

from captured_calls import Call
from captured_masks import ALL_COMMANDS

FRESH, IN_TRACE, OF_COMMAND, PENDING, FLUSHED = range(5)
RUNS = re.compile(rb"[\x00\x03\x04]+|\x01+|\x02+")
WAITING = re.compile(rb"\x03+|\x04+")
# Bytes that have changed, with up to three between them that haven't.
CHANGED = re.compile(rb"[^\x00](?:\x00{0,3}[^\x00])*")
COHERENT_TYPE, CACHED_TYPE = 1, 2
TARGET_USAGE = 2
# A write of so many bytes is a fill, where their values aren't known, and where they are.
MANY_UNKNOWN, MANY = 4096, 262144
# Ranges with no more bytes than these between them are written as one.
NEAR = 256
# What the host wrote is kept by pages of so many bytes.
PAGE = 4096
# So many ranges that the host hasn't read are joined.
MANY_RANGES = 256
# The bytes of all writes of a trace.
MOST_WRITTEN = 6291456
ON_HOST = ["barrier", [[0x1000, 0x1000, 0x4000, 0x6000]], [], []]

EARLIER = "the host wrote these bytes before it"
FLUSHED_EARLIER = "the host flushed these bytes before it"
FILLED = (
    "many bytes that the host wrote at once are a fill with zeros, on the other queue of the family, in the"
    " place of a write; buffers as large have the usage TRANSFER_DST for it"
)
IMPORTED = "the host wrote all of the imported memory that commands read, as zeros, before the first of them"
MIXED = "what the host wrote over bytes of commands isn't told apart from what these wrote, and is left out"
TOO_MANY = (
    f"the host's writes of the trace would be more than {MOST_WRITTEN} bytes with those to it"
)


class Shadow:
    """What is known of the bytes of a buffer."""

    def __init__(self, size):
        self.value = bytearray(size)
        self.state = bytearray(size)


def shadow_of(buffer):
    """What is known of the bytes of a buffer."""
    if buffer.shadow is None:
        buffer.shadow = Shadow(buffer.size)
    return buffer.shadow


def parts_in(memory, start, end):
    """The judged buffers that a range of a memory object meets, and the range in each."""
    for buffer in memory.places.meeting(start, end):
        low, high = max(start - buffer.offset, 0), min(end - buffer.offset, buffer.extent)
        if low < high and buffer.kind == "buffer" and buffer.is_judged:
            yield buffer, low, high


# ---- what the host writes


def host_wrote(world, memory, start, data):
    """The capture has bytes of a memory object."""
    for buffer, low, high in parts_in(memory, start, start + len(data)):
        first = low + buffer.offset - start
        if buffer_written(world, buffer, low, data[first : first + high - low]):
            memory.is_written = True


def fill(world, part):
    """A write that the capture has."""
    memory = world.memories.get(part.memory)
    if memory is None:
        return
    world.call = Call(part.index, "(a write of the host)", {}, None)
    start = part.offset + (memory.mapping[0] if memory.mapping else 0)
    keep(memory, start, part.data)
    host_wrote(world, memory, start, part.data)


def keep(memory, start, data):
    """Keeps a write by pages, for a buffer that is bound later."""
    place = 0
    while place < len(data):
        page, first = divmod(start + place, PAGE)
        count = min(PAGE - first, len(data) - place)
        kept = memory.pages.setdefault(page, bytearray(PAGE))
        kept[first : first + count] = data[place : place + count]
        place += count


def written_before(world, buffer):
    """What the host wrote to the memory of a buffer before it was bound there; that is taken as flushed."""
    offset, pages = buffer.offset, buffer.memory.pages
    last = (offset + buffer.size - 1) // PAGE if pages else -1
    for page in range(offset // PAGE, last + 1):
        if page in pages:
            start = page * PAGE - offset
            low, high = max(start, 0), min(start + PAGE, buffer.size)
            buffer_written(world, buffer, low, bytes(pages[page][low - start : high - start]))
    mapping = buffer.memory.mapping
    if not world.has_blocks and mapping:
        taken = slice(max(mapping[0] - offset, 0), max(mapping[1] - offset, 0))
        state = shadow_of(buffer).state
        state[taken] = state[taken].replace(bytes([FRESH]), bytes([PENDING]))
    elif buffer.shadow is not None:
        state = buffer.shadow.state
        state[:] = state.replace(bytes([PENDING]), bytes([FLUSHED]))


def buffer_written(world, buffer, low, data):
    """The capture has these bytes of a buffer: whether the host wrote some of them."""
    shadow, is_written = shadow_of(buffer), False
    for run in RUNS.finditer(bytes(shadow.state[low : low + len(data)])):
        state, start, end = run.group()[0], low + run.start(), low + run.end()
        fresh = data[run.start() : run.end()]
        if state == OF_COMMAND:
            world.summary.note(MIXED)
        elif state == IN_TRACE:
            is_written |= changed(world, buffer, start, fresh)
        else:
            is_written = True
            shadow.state[start:end] = bytes([PENDING]) * (end - start)
        if state != OF_COMMAND:
            shadow.value[start:end] = fresh
    return is_written


def changed(world, buffer, start, fresh):
    """Writes those of the bytes in the trace that have changed."""
    old = buffer.shadow.value[start : start + len(fresh)]
    if old == fresh:
        return False
    other = int.from_bytes(old, "little") ^ int.from_bytes(fresh, "little")
    for run in CHANGED.finditer(other.to_bytes(len(fresh), "little")):
        write(world, buffer, start + run.start(), fresh[run.start() : run.end()])
    return True


def ensure_mapped(world, buffer):
    """Maps a buffer in the trace, where it isn't."""
    if not buffer.is_mapped:
        buffer.is_mapped = True
        world.emit(["map", buffer.id])


def write(world, buffer, start, data, why=None):
    """Adds a write of the host; where too much was written already, the buffer isn't judged."""
    if world.written + len(data) > MOST_WRITTEN:
        world.make_opaque(buffer, TOO_MANY)
        return
    world.written += len(data)
    ensure_mapped(world, buffer)
    world.emit(["write", buffer.id, start, bytes(data).hex()], why)


def commands_read(world, buffer, ranges, context):
    """A command of the next submit reads these ranges: what is pending there is written. Whether the buffer is
    judged then."""
    if buffer.shadow is None:
        return True
    state = buffer.shadow.state
    # (what is pending between rows may be written with them)
    for low, high in joined((low, high + NEAR) for low, high in ranges):
        high = min(high - NEAR, buffer.size)
        for run in WAITING.finditer(bytes(state[low:high])):
            start, end = low + run.start(), low + run.end()
            state[start:end] = bytes([IN_TRACE]) * (end - start)
            is_flushed = buffer.type != CACHED_TYPE or run.group()[0] == FLUSHED
            if buffer.memory.is_imported:
                world.summary.note(IMPORTED, 0)
            is_fill = is_many(world, buffer, end - start) and start % 4 == end % 4 == 0
            if is_flushed and is_fill and context.has_stand_in:
                context.fills.append(["fill", buffer.id, start, end - start, 0])
                world.summary.note(FILLED, 0)
                continue
            write(world, buffer, start, buffer.shadow.value[start:end], EARLIER)
            if not buffer.is_judged:
                return False
            if is_flushed and buffer.type == CACHED_TYPE:
                world.emit(["flush", buffer.id, start, end - start], FLUSHED_EARLIER)
    return True


def is_many(world, buffer, size):
    """Whether so many bytes of the host are a fill in the place of a write."""
    return size >= (MANY_UNKNOWN if buffer.memory.is_imported or not world.has_blocks else MANY)


def stand_in(world, queue, fills):
    """Fills bytes in the place of the host: the wait that the batch has that reads them."""
    number = queue.number ^ 1
    if number not in world.stand_ins:
        world.stand_ins[number] = [world.trace.new_id(), 0]
        world.emit(["semaphore", world.stand_ins[number][0], 0], EARLIER)
    semaphore = world.stand_ins[number]
    semaphore[1] += 1
    batch = [[], [*fills, ON_HOST], [[*semaphore, ALL_COMMANDS]]]
    origins = [[world.call.index, world.call.name]] * (len(fills) + 1)
    world.trace.add(["submit", number, [batch]], world.call, EARLIER, [origins], len(fills) + 3)
    world.emit(["wait", [list(semaphore)]], EARLIER)
    return [*semaphore, ALL_COMMANDS]


def commands_write(world, buffer, ranges, batch):
    """Commands of a batch write these ranges."""
    if not buffer.memory.is_visible:
        return
    state = shadow_of(buffer).state
    for low, high in ranges:
        state[low:high] = bytes([OF_COMMAND]) * (high - low)
        if world.reads != "none":
            buffer.unread.append((batch, low, high))
            if len(buffer.unread) % MANY_RANGES == 0:
                join_complete(world, buffer)
            if world.reads == "all" or buffer.memory.mapping or buffer.memory.is_imported:
                world.unread[buffer.handle] = buffer


def join_complete(world, buffer):
    """Joins the ranges that are known complete, of many that the host hasn't read."""
    complete = [part for part in buffer.unread if world.queues.is_complete(part[0])]
    if complete:
        left = [part for part in buffer.unread if not world.queues.is_complete(part[0])]
        spans = joined((low, high) for _, low, high in complete)
        buffer.unread = [(complete[-1][0], low, high) for low, high in spans] + left


def unmap(world, buffer):
    """Unmaps a buffer in the trace."""
    if buffer.is_mapped:
        buffer.is_mapped = False
        world.emit(["unmap", buffer.id])


# ---- what the host reads


def reads_after_wait(world):
    """The host has waited: it reads what is known, where it can without an invalidation."""
    for buffer in list(world.unread.values()):
        memory = buffer.memory
        is_mapped = memory.mapping is not None or memory.is_imported or world.reads == "all"
        if buffer.is_judged and is_mapped and buffer.type == COHERENT_TYPE:
            low, high = 0, buffer.size
            if memory.mapping and world.reads != "all":
                low, high = (max(0, edge - buffer.offset) for edge in memory.mapping[:2])
            put_reads(
                world,
                buffer,
                low,
                high,
                "the host reads what commands wrote after it waits for them",
            )


def put_reads(world, buffer, low, high, why, marks=None):
    """Reads what commands have written in a range and the host hasn't read since, where they are known complete or
    were submitted before the marks, and no later command that isn't writes there."""
    taken, left, busy = [], [], []
    for part in buffer.unread:
        batch, start, end = part
        is_ready = (
            world.queues.is_complete(batch)
            or marks is not None
            and world.queues.is_before(batch, marks)
        )
        if not is_ready:
            busy.append((start, end))
        (taken if is_ready and low < end and start < high else left).append(part)
    spans = joined((max(low, start), min(high, end)) for _, start, end in taken)
    for start, end in without(spans, joined(busy)):
        ensure_mapped(world, buffer)
        world.emit(["read", buffer.id, start, end - start], why)
        world.summary.note(why)
    left += [(batch, start, min(end, low)) for batch, start, end in taken if start < low]
    left += [(batch, max(start, high), end) for batch, start, end in taken if high < end]
    buffer.unread = left
    if not buffer.unread:
        world.unread.pop(buffer.handle, None)


def joined(spans):
    """Ranges in order, with those that touch made one."""
    made = []
    for start, end in sorted(spans):
        if made and start <= made[-1][1]:
            made[-1] = (made[-1][0], max(end, made[-1][1]))
        else:
            made.append((start, end))
    return made


def without(spans, holes):
    """Ranges in order without others in order."""
    place = 0
    for start, end in spans:
        while place < len(holes) and holes[place][1] <= start:
            place += 1
        at = place
        while at < len(holes) and holes[at][0] < end:
            if start < holes[at][0]:
                yield start, holes[at][0]
            start = max(start, holes[at][1])
            at += 1
        if start < end:
            yield start, end
