"""Programs that aren't run: what is judged of their resources, and what isn't."""

from case import Case
from made import (
    AREA,
    CACHED,
    COHERENT,
    COMPUTE,
    DEVICE,
    LOCAL,
    Program,
    READ,
    SHADER,
    SOURCE,
    TARGET,
    TOP,
    TO_COPY,
    TO_HOST,
    TRANSFER,
    UNDEFINED,
    WHOLE,
    WRITE,
    barrier,
    copy,
    copy_out,
    fill,
    on_image,
    on_memory,
)


def blit():
    """What is copied from the target of a blit isn't judged, nor is a barrier on it; its order stays."""
    program = Program()
    queue, image, (target, memory) = program.queue(), program.image(), program.buffer(COHERENT, 64)
    other, _ = program.buffer()
    program.submit(
        queue,
        [
            program.commands(
                fill(other),
                ("vkCmdBlitImage", {"srcImage": image, "dstImage": image, "pRegions": []}),
                barrier(
                    TRANSFER,
                    TRANSFER,
                    [on_memory(WRITE, WRITE)],
                    images=[on_image(image, (0, 0), (SHADER, SOURCE))],
                ),
                copy_out(image, target),
                fill(other),
            )
        ],
    )
    program.idle()
    program.read_back(memory)
    return Case(
        program,
        None,
        None,
        (
            f"image {image}, from call 16 vkCmdBlitImage on: vkCmdBlitImage writes it",
            f"buffer {target}, from call 18 vkCmdCopyImageToBuffer on",
            "resources not judged: 2",
        ),
        "",
    )


def dispatch(usage):
    """A dispatch may write a buffer that shaders may write, and no other."""
    program = Program()
    queue, (target, _) = program.queue(), program.buffer(COHERENT, 16, usage)
    program.submit(
        queue,
        [
            program.commands(
                fill(target), barrier(TRANSFER, COMPUTE), ("vkCmdDispatch", {}), fill(target)
            )
        ],
    )
    at = len(program.lines) - 2
    if usage & 0x20:
        return Case(program, None, None, (f"buffer {target}, from call {at - 1} vkCmdDispatch on",))
    return Case(program, "HAZARD_WAW", at)


def not_flushed(is_flushed):
    """Imported memory, and memory that isn't coherent, in JSON alone: what the host wrote isn't known."""
    program = Program()
    queue = program.queue()
    (source, memory), (target, _) = program.buffer(CACHED), program.buffer()
    program.mapped(memory)
    if is_flushed:
        program.call(
            "vkFlushMappedMemoryRanges",
            device=DEVICE,
            pMemoryRanges=[{"memory": memory, "offset": 0, "size": WHOLE}],
        )
    program.submit(queue, [program.commands(copy(source, target))])
    says = ("what the host wrote to mapped memory isn't in the JSON",)
    return (
        Case(program, None, None, says)
        if is_flushed
        else Case(program, "HAZARD_RAW", len(program.lines) - 2, says)
    )


def imported(is_right):
    """The host reads memory that it imported, with and without a barrier."""
    program = Program()
    queue, buffer = program.queue(), program.loose_buffer()
    link = {"sType": "VK_STRUCTURE_TYPE_IMPORT_MEMORY_HOST_POINTER_INFO_EXT", "pNext": None}
    program.bound(buffer, program.memory(COHERENT, 4096, link))
    program.submit(queue, [program.commands(fill(buffer), *([TO_HOST] if is_right else []))])
    at = program.idle()
    return (
        Case(program, None, None, (), "01000000" * 4)
        if is_right
        else Case(program, "HAZARD_RAW", at)
    )


def without_place(way):
    """Resources that a trace can't have, or that share their bytes."""
    program = Program()
    queue = program.queue()
    if way == "shared":
        first, second, memory = (
            program.loose_buffer(),
            program.loose_buffer(),
            program.memory(LOCAL, 64),
        )
        program.bound(first, memory, 0)
        program.bound(second, memory, 8)
        says = f"buffer {first}, from call 9 vkBindBufferMemory on: buffer {second} is bound to the same bytes"
    elif way == "large":
        first, _ = program.buffer(LOCAL, 67108865)
        says = "its 67108865 bytes are more than 67108864"
    elif way == "depth":
        first = program.image(form="VK_FORMAT_D32_SFLOAT")
        says = "its format VK_FORMAT_D32_SFLOAT"
    elif way == "wide":
        first = program.image(side=5000)
        says = "its sides or layers are over 4096 or 256"
    else:
        first = program.image(samples="VK_SAMPLE_COUNT_4_BIT")
        says = "it is multisampled"
    name = "vkCmdFillBuffer" if way in ("shared", "large") else "vkCmdClearColorImage"
    call = (
        fill(first)
        if way in ("shared", "large")
        else (
            "vkCmdClearColorImage",
            {"image": first, "imageLayout": TARGET, "pColor": {}, "pRanges": []},
        )
    )
    program.submit(queue, [program.commands(call, call)])
    return Case(program, None, None, (says, f"{name} 2"), "")


def cleared(form, words):
    """The color of a clear, as the bytes of the image's format."""
    program = Program()
    queue, image, (target, memory) = (
        program.queue(),
        program.image(form=form),
        program.buffer(COHERENT, 64),
    )
    begin = barrier(TOP, TRANSFER, images=[on_image(image, (0, WRITE), (UNDEFINED, TARGET))])
    turn = barrier(TRANSFER, TRANSFER, images=[on_image(image, (WRITE, READ), (TARGET, SOURCE))])
    clear = "vkCmdClearColorImage", {
        "image": image,
        "imageLayout": TARGET,
        "pColor": {"uint32": words},
        "pRanges": [AREA],
    }
    program.submit(queue, [program.commands(begin, clear, turn, copy_out(image, target), TO_HOST)])
    program.idle()
    program.read_back(memory)
    return program


ONE = 0x3F800000


def too_many():
    """A program whose trace would have more points than one may have."""
    program = Program()
    queue, (target, _) = program.queue(), program.buffer()
    buffer = program.commands(*[fill(target), TO_COPY] * 500)
    for _ in range(140):
        program.submit(queue, [buffer])
    return program


def large(kind):
    """More bytes of the host than are written one by one, in imported memory or in JSON alone."""
    program = Program()
    queue, size = program.queue(), 65536
    source, (target, memory) = program.loose_buffer(size, 1), program.buffer(COHERENT, size)
    link = {"sType": "VK_STRUCTURE_TYPE_IMPORT_MEMORY_HOST_POINTER_INFO_EXT", "pNext": None}
    place = program.memory(COHERENT, size, link if kind == "imported" else None)
    program.bound(source, place)
    if kind == "mapped":
        program.mapped(place)
    for _ in range(2):
        program.submit(queue, [program.commands(TO_COPY, copy(source, target, size), TO_HOST)])
        program.idle()
    program.read_back(memory)
    return Case(program, None, None, ("are a fill with zeros",), "00" * size)


def bound_later():
    """A buffer is bound to memory that is mapped already, beside another one."""
    program = Program()
    queue, memory = program.queue(), program.memory(COHERENT, 64)
    first, second = program.loose_buffer(), program.loose_buffer()
    target, place = program.buffer(COHERENT)
    program.bound(first, memory, 0)
    program.mapped(memory)
    program.bound(second, memory, 32)
    program.submit(queue, [program.commands(copy(second, target), TO_HOST)])
    program.idle()
    program.read_back(place)
    return Case(program, reads="00" * 16)


def named():
    """Debug names, in the summary."""
    program = Program()
    queue, (target, _) = program.queue(), program.buffer(LOCAL, 16, 0x23)
    program.call(
        "vkSetDebugUtilsObjectNameEXT",
        device=DEVICE,
        pNameInfo={"objectHandle": target, "pObjectName": "particles"},
    )
    program.submit(queue, [program.commands(("vkCmdDispatch", {}))])
    return Case(program, None, None, (f"buffer {target} 'particles', from call",))


CASES = {
    "a blit": blit,
    "a dispatch": lambda: dispatch(0x23),
    "a dispatch that can't write": lambda: dispatch(3),
    "flushed, JSON alone": lambda: not_flushed(True),
    "not flushed, JSON alone": lambda: not_flushed(False),
    "imported memory": lambda: imported(True),
    "imported memory, no barrier": lambda: imported(False),
    **{
        f"without a place, {way}": lambda way=way: without_place(way)
        for way in ("shared", "large", "depth", "wide", "samples")
    },
    "a clear of BGRA": lambda: Case(
        cleared("VK_FORMAT_B8G8R8A8_UNORM", [ONE, 0, 0x3F000000, ONE]), reads="8000ffff" * 16
    ),
    "a clear of a packed format": lambda: Case(
        cleared("VK_FORMAT_A2B10G10R10_UNORM_PACK32", [ONE, 0, 0, 0]),
        says=("the color of a clear",),
        reads="00000000" * 16,
    ),
    "many bytes, imported": lambda: large("imported"),
    "many bytes, mapped": lambda: large("mapped"),
    "bound after the map": bound_later,
    "debug names": named,
}
