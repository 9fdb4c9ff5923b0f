"""Memory of a captured program: what is bound to it, its mappings, flushes and invalidations."""

from captured_host import (
    CACHED_TYPE,
    COHERENT_TYPE,
    FLUSHED,
    FRESH,
    IN_TRACE,
    PENDING,
    TARGET_USAGE,
    ensure_mapped,
    is_many,
    parts_in,
    put_reads,
    shadow_of,
    unmap,
    written_before,
)
from captured_masks import WHOLE
from captured_state import MOST_MEMORY, Memory

LOCAL, VISIBLE, COHERENT = 1, 2, 4

HOST_ACCESS = "the host may access the image, which a trace can't say"
NO_BLOCKS = (
    "what the host wrote to mapped memory isn't in the JSON: until a command writes them, all mapped"
    " bytes count as written by the host, as zeros"
)
OUTSIDE = "its memory is shared with what is outside"


def chain(info):
    """The structures behind `pNext`."""
    link = info.get("pNext")
    while isinstance(link, dict):
        yield link
        link = link.get("pNext")


def memory_types(world, call):
    """Notes the memory types of a physical device."""
    properties = call.args["pMemoryProperties"]
    properties = properties.get("memoryProperties", properties)
    flags = dict(enumerate(part["propertyFlags"] for part in properties["memoryTypes"]))
    world.physical[call.args["physicalDevice"]].types.update(flags)


def allocate(world, call):
    """A memory object."""
    info = call.args["pAllocateInfo"]
    flags = world.device(call.args["device"]).types.get(info["memoryTypeIndex"])
    if flags is None:
        world.summary.note(
            "memory of a type whose properties the program didn't ask for is host visible"
        )
        flags = VISIBLE | COHERENT
    kind = 0 if not flags & VISIBLE else COHERENT_TYPE if flags & COHERENT else CACHED_TYPE
    imports = [link["sType"] for link in chain(info) if "_IMPORT_MEMORY_" in link.get("sType", "")]
    is_host = any("HOST_POINTER" in name for name in imports)
    made = Memory(
        call.args["pMemory"], info["allocationSize"], kind, bool(flags & VISIBLE), is_host
    )
    made.is_foreign = bool(imports) and not is_host
    world.memories[made.handle] = made


def place(world, part, memory, offset):
    """Binds a resource; what shares bytes with another one, or comes from outside, isn't judged."""
    part.memory, part.offset = memory, offset
    if memory.is_foreign:
        world.make_opaque(part, OUTSIDE)
    for other in memory.places.add(offset, offset + max(part.extent, 1), part):
        world.make_opaque(other, f"{world.name(part)} is bound to the same bytes")
        world.make_opaque(part, f"{world.name(other)} is bound to the same bytes")


def export(world, call):
    """vkGetMemoryFd: a memory object is handed out of Vulkan."""
    memory = world.memories[call.args["pGetFdInfo"]["memory"]]
    memory.is_foreign = True
    for part in memory.places.all():
        world.make_opaque(part, OUTSIDE)


def bind_buffer(world, handle, memory_handle, offset):
    """Binds a buffer, which is made in the trace."""
    buffer, memory = world.resources[handle], world.memories[memory_handle]
    buffer.type = memory.type
    place(world, buffer, memory, offset)
    if buffer.why is not None:
        return
    if buffer.size > MOST_MEMORY:
        world.make_opaque(buffer, f"its {buffer.size} bytes are more than {MOST_MEMORY}")
        return
    buffer.id = world.trace.new_id()
    buffer.is_concurrent = buffer.is_concurrent or handle in world.shared
    sharing = "concurrent" if buffer.is_concurrent else "exclusive"
    if memory.is_visible and is_many(world, buffer, buffer.size):
        buffer.usage |= TARGET_USAGE
    world.emit(
        ["buffer", buffer.id, buffer.size, buffer.usage & 3, sharing, ["dedicated", memory.type]]
    )
    world.grow_heap(memory.type, buffer.size)
    if memory.is_imported:
        shadow_of(buffer).state[:] = bytes([FLUSHED]) * buffer.size
    else:
        written_before(world, buffer)


# ---- maps, flushes and invalidations


def map_memory(world, call):
    """Maps memory; what a wait has made known there is read."""
    memory = world.memories[call.args["memory"]]
    offset, size = call.args["offset"], call.args["size"]
    end = memory.size if size == WHOLE else offset + size
    memory.mapping = (offset, end, world.queues.marks())
    memory.is_written = False
    for part in memory.places.all() if memory.has_linear else []:
        if part.kind == "image" and part.is_linear:
            world.make_opaque(part, HOST_ACCESS)
    for buffer, low, high in parts_in(memory, offset, end):
        if buffer.unread:
            world.unread[buffer.handle] = buffer
        if not world.has_blocks:
            world.summary.note(NO_BLOCKS, 0)
            state = shadow_of(buffer).state
            state[low:high] = state[low:high].replace(bytes([FRESH]), bytes([PENDING]))
        if buffer.type == COHERENT_TYPE:
            put_reads(
                world, buffer, low, high, "the host reads what commands wrote when it maps it"
            )


def unmap_memory(world, call):
    """Unmaps memory."""
    end_mapping(world, world.memories[call.args["memory"]])


def end_mapping(world, memory):
    """Ends a mapping: one in which the host wrote nothing was for reading what had been submitted before."""
    if memory.mapping is None:
        return
    offset, end, marks = memory.mapping
    for buffer, low, high in parts_in(memory, offset, end):
        if not memory.is_written:
            put_reads(
                world,
                buffer,
                low,
                high,
                "the host reads what commands wrote before it unmaps it",
                marks,
            )
        elif buffer.type == CACHED_TYPE:
            put_reads(
                world, buffer, low, high, "the host reads what commands wrote before it unmaps it"
            )
        unmap(world, buffer)
    memory.mapping = None


def mapped_ranges(world, call):
    """The judged buffers in the ranges of a flush or an invalidation, with their ranges."""
    for part in call.args["pMemoryRanges"]:
        memory = world.memories[part["memory"]]
        if part["size"] != WHOLE:
            end = part["offset"] + part["size"]
        else:
            end = memory.mapping[1] if memory.mapping else memory.size
        yield from parts_in(memory, part["offset"], end)


def flush(world, call):
    """Flushes ranges."""
    for buffer, low, high in mapped_ranges(world, call):
        if buffer.type != CACHED_TYPE or buffer.shadow is None:
            continue
        state = buffer.shadow.state
        state[low:high] = state[low:high].replace(bytes([PENDING]), bytes([FLUSHED]))
        if IN_TRACE in state[low:high]:
            ensure_mapped(world, buffer)
            world.emit(["flush", buffer.id, low, high - low])


def invalidate(world, call):
    """Invalidates ranges; what a wait has made known there is read."""
    for buffer, low, high in mapped_ranges(world, call):
        if buffer.type == CACHED_TYPE and buffer.shadow is not None:
            ensure_mapped(world, buffer)
            world.emit(["invalidate", buffer.id, low, high - low])
            put_reads(
                world,
                buffer,
                low,
                high,
                "the host reads what commands wrote after it invalidates it",
            )


def free(world, call):
    """Frees memory: what is bound to it ends."""
    memory = world.memories.pop(call.args["memory"], None)
    if memory is not None:
        for part in memory.places.all():
            end_resource(world, part)
        memory.mapping = None


def end_resource(world, part):
    """A resource ends: the host has read what it does read of it."""
    if part.memory is not None and not part.is_ended:
        part.memory.places.remove(part.offset, part.offset + max(part.extent, 1), part)
    if (
        part.kind == "buffer"
        and part.is_judged
        and part.type == CACHED_TYPE
        and part.memory.mapping
    ):
        put_reads(world, part, 0, part.size, "the host reads what commands wrote before its end")
    if part.id is not None and not part.is_ended:
        if part.kind == "buffer":
            unmap(world, part)
            world.unread.pop(part.handle, None)
        world.emit(["destroy", part.id])
        world.grow_heap(part.type, -part.size)
    part.is_ended = True
