"""Programs that aren't run: how their commands and the host are ordered."""

from case import Case
from made import (
    ALL,
    AREA,
    BOTTOM,
    COMPUTE,
    COHERENT,
    DEVICE,
    FRAGMENT,
    GRAPHICS_FAMILY,
    LOCAL,
    NULL,
    Program,
    READ,
    SHADER_READ,
    SHADER_WRITE,
    SOURCE,
    TARGET,
    TOP,
    TO_COPY,
    TO_HOST,
    TRANSFER,
    TRANSFER_FAMILY,
    UNDEFINED,
    WRITE,
    barrier,
    copy,
    copy_in,
    copy_out,
    fill,
    on_buffer,
    on_image,
    on_memory,
)


def two_queues(is_waited):
    """A binary semaphore orders a fill before a copy on another queue."""
    program = Program()
    first, second = program.queue(0, 0), program.queue(0, 1)
    (source, _), (target, memory) = program.buffer(), program.buffer(COHERENT)
    done = program.semaphore()
    program.submit(first, [program.commands(fill(source))], [], [(done, 0)])
    buffer = program.commands(copy(source, target), TO_HOST)
    at = len(program.lines) - 2
    program.submit(second, [buffer], [(done, TRANSFER, 0)] if is_waited else [])
    program.idle()
    program.read_back(memory)
    return (
        Case(program, None, None, (), "01000000" * 4)
        if is_waited
        else Case(program, "HAZARD_RAW", at)
    )


def fences(way):
    """The host waits for a fence in several ways, or doesn't."""
    program = Program()
    queue, fence, other = program.queue(), program.fence(), program.fence()
    target, memory = program.buffer(COHERENT)
    program.submit(queue, [program.commands(fill(target), TO_HOST)], fence=fence)
    program.submit(queue, [program.commands()], fence=other)
    if way == "any":
        program.call("vkWaitForFences", device=DEVICE, pFences=[fence, other], waitAll=0, timeout=1)
    elif way == "status":
        program.call("vkGetFenceStatus", device=DEVICE, fence=fence)
    elif way == "later":
        program.call("vkWaitForFences", device=DEVICE, pFences=[other], waitAll=1, timeout=1)
    elif way == "late":
        program.call(
            "vkWaitForFences", "VK_TIMEOUT", device=DEVICE, pFences=[fence], waitAll=1, timeout=1
        )
    elif way == "queue":
        program.call("vkQueueWaitIdle", queue=queue)
    program.mapped(memory)
    at = program.call("vkUnmapMemory", None, device=DEVICE, memory=memory)
    if way in ("late", "none"):
        return Case(
            program,
            "HAZARD_RAW",
            at,
            ("assumed: the host reads what commands wrote before it unmaps it",),
        )
    return Case(program, None, None, ("several fences",) if way == "any" else (), "01000000" * 4)


def timeline(way):
    """The host waits for a timeline semaphore, or asks for its value; a batch waits for the host."""
    program = Program()
    queue, done, go = program.queue(), program.semaphore(3), program.semaphore(0)
    target, memory = program.buffer(COHERENT)
    buffer = program.commands(fill(target), TO_HOST)
    program.submit(queue, [buffer], [(go, TRANSFER, 1)], [(done, 5)])
    program.call("vkSignalSemaphoreKHR", device=DEVICE, pSignalInfo={"semaphore": go, "value": 1})
    if way == "wait":
        program.call(
            "vkWaitSemaphoresKHR",
            device=DEVICE,
            pWaitInfo={"flags": 0, "pSemaphores": [done], "pValues": [4]},
        )
    else:
        program.call(
            "vkGetSemaphoreCounterValue",
            device=DEVICE,
            semaphore=done,
            pValue=5 if way == "count" else 3,
        )
    program.mapped(memory)
    at = program.call("vkUnmapMemory", None, device=DEVICE, memory=memory)
    return (
        Case(program, "HAZARD_RAW", at)
        if way == "old"
        else Case(program, None, None, (), "01000000" * 4)
    )


def ownership(is_acquired):
    """A buffer goes from the family of graphics to that of transfers."""
    program = Program((GRAPHICS_FAMILY, TRANSFER_FAMILY))
    first, second, done = program.queue(0), program.queue(1), program.semaphore()
    (source, _), (target, memory) = program.buffer(), program.buffer(COHERENT)
    release = barrier(TRANSFER, BOTTOM, buffers=[on_buffer(source, WRITE, 0, (0, 1))])
    acquire = barrier(TOP, TRANSFER, buffers=[on_buffer(source, 0, READ, (0, 1))])
    program.submit(first, [program.commands(fill(source), release)], [], [(done, 0)])
    other = barrier(TRANSFER, TRANSFER, [on_memory(WRITE, READ)])
    buffer = program.commands(acquire if is_acquired else other, copy(source, target), TO_HOST)
    program.submit(second, [buffer], [(done, ALL, 0)])
    program.idle()
    at = program.read_back(memory)
    return (
        Case(program, None, None, (), "01000000" * 4)
        if is_acquired
        else Case(program, "READ_UNDEFINED", at)
    )


def merged_families(is_part):
    """An image goes between two families that are one in the trace, or a part of it between two."""
    program = Program((GRAPHICS_FAMILY, TRANSFER_FAMILY if is_part else 2))
    first, second, done = program.queue(0), program.queue(1), program.semaphore()
    image, (source, _) = program.image(levels=2), program.buffer(LOCAL, 64)
    target, memory = program.buffer(COHERENT, 64)
    area = AREA if is_part else {**AREA, "levelCount": 0xFFFFFFFF}
    begin = barrier(
        TOP, TRANSFER, images=[on_image(image, (0, WRITE), (UNDEFINED, TARGET), area=area)]
    )
    move = on_image(image, (WRITE, 0), (TARGET, SOURCE), (0, 1), area)
    take = on_image(image, (0, READ), (TARGET, SOURCE), (0, 1), area)
    program.submit(
        first,
        [
            program.commands(
                fill(source),
                TO_COPY,
                begin,
                copy_in(source, image),
                barrier(TRANSFER, BOTTOM, images=[move]),
            )
        ],
        [],
        [(done, 0)],
    )
    program.submit(
        second,
        [program.commands(barrier(ALL, TRANSFER, images=[take]), copy_out(image, target), TO_HOST)],
        [(done, ALL, 0)],
    )
    program.idle()
    program.read_back(memory)
    return Case(program, None, None, ("assumed: ownership isn't judged",), "01000000" * 16)


def event(generation, is_awaited=True):
    """An event is set and awaited, twice."""
    program = Program()
    queue, made = program.queue(), program.handle()
    (source, _), (target, memory) = program.buffer(), program.buffer(COHERENT)
    element = {
        "srcStageMask": "VK_PIPELINE_STAGE_2_CLEAR_BIT|VK_PIPELINE_STAGE_2_COPY_BIT",
        "srcAccessMask": "VK_ACCESS_2_TRANSFER_WRITE_BIT",
        "dstStageMask": "VK_PIPELINE_STAGE_2_COPY_BIT",
        "dstAccessMask": "VK_ACCESS_2_TRANSFER_READ_BIT",
    }
    info = {
        "pMemoryBarriers": [element],
        "pBufferMemoryBarriers": None,
        "pImageMemoryBarriers": None,
    }
    if generation == 2:
        sets = "vkCmdSetEvent2", {"event": made, "pDependencyInfo": info}
        waits = "vkCmdWaitEvents2KHR", {"pEvents": [made], "pDependencyInfos": [info]}
    else:
        sets = "vkCmdSetEvent", {"event": made, "stageMask": TRANSFER}
        waits = "vkCmdWaitEvents", {
            **barrier(TRANSFER, TRANSFER, [on_memory(WRITE, READ)])[1],
            "pEvents": [made],
        }
    reset = "vkCmdResetEvent", {"event": made, "stageMask": TRANSFER}
    calls = (
        [fill(source), sets, waits, copy(source, target)]
        if is_awaited
        else [fill(source), sets, copy(source, target)]
    )
    program.submit(queue, [program.commands(*calls)])
    at = program.idle() - 2
    if is_awaited:
        program.submit(queue, [program.commands(reset, *calls[1:3], TO_HOST)])
        program.idle()
        program.read_back(memory)
        return Case(program, None, None, (), "01000000" * 4)
    return Case(program, "HAZARD_RAW", at)


def event_of_host():
    """Commands wait for an event that the host sets: the trace ends before."""
    program = Program()
    queue, made = program.queue(), program.handle()
    target, _ = program.buffer()
    waits = "vkCmdWaitEvents", {**barrier(0x4000, TRANSFER)[1], "pEvents": [made]}
    program.submit(queue, [program.commands(fill(target))])
    program.submit(queue, [program.commands(waits, fill(target))])
    return Case(
        program, None, None, ("the trace ends before", "which no earlier command sets"), "", 3
    )


def again(is_second):
    """A command buffer with a secondary one is submitted twice, without and with an order between both."""
    program = Program()
    queue, (target, _) = program.queue(), program.buffer()
    inner = program.commands(fill(target))
    at = len(program.lines) - 1
    outer = program.commands(
        ("vkCmdExecuteCommands", {"pCommandBuffers": [inner]}), *([TO_COPY] if is_second else [])
    )
    program.submit(queue, [outer])
    program.submit(queue, [outer])
    return Case(program) if is_second else Case(program, "HAZARD_WAW", at)


def widened(first, second):
    """Two copies are ordered by way of a stage of graphics or compute, or by none."""
    program = Program()
    queue, (target, _) = program.queue(), program.buffer()
    program.submit(
        queue,
        [
            program.commands(
                fill(target),
                barrier(TRANSFER, first, [on_memory(WRITE, SHADER_READ)]),
                barrier(second, TRANSFER, [on_memory(SHADER_WRITE, WRITE)]),
                fill(target),
            )
        ],
    )
    says = ("stages of graphics and compute count as ALL_COMMANDS",)
    if second == TOP or first == BOTTOM:
        return Case(program, "HAZARD_WAW", len(program.lines) - 2)
    return Case(program, None, None, says)


def render_pass(is_ordered):
    """Dependencies of a render pass with what is outside order two fills."""
    program = Program()
    queue, (target, _), handle = program.queue(), program.buffer(), program.handle()
    part = {
        "srcStageMask": TRANSFER,
        "dstStageMask": FRAGMENT,
        "srcAccessMask": WRITE,
        "dstAccessMask": SHADER_READ,
    }
    back = {
        "srcStageMask": FRAGMENT,
        "dstStageMask": TRANSFER,
        "srcAccessMask": 0,
        "dstAccessMask": WRITE,
    }
    outside = 0xFFFFFFFF
    program.call(
        "vkCreateRenderPass",
        device=DEVICE,
        pRenderPass=handle,
        pCreateInfo={
            "pDependencies": [
                {**part, "srcSubpass": outside, "dstSubpass": 0},
                {**back, "srcSubpass": 0, "dstSubpass": outside},
            ]
            if is_ordered
            else None
        },
    )
    program.submit(
        queue,
        [
            program.commands(
                fill(target),
                ("vkCmdBeginRenderPass", {"pRenderPassBegin": {"renderPass": handle}}),
                ("vkCmdDraw", {}),
                ("vkCmdEndRenderPass", {}),
                fill(target),
            )
        ],
    )
    says = ("calls left out: 3 (vkCmdBeginRenderPass 1, vkCmdDraw 1, vkCmdEndRenderPass 1)",)
    return (
        Case(program, None, None, says)
        if is_ordered
        else Case(program, "HAZARD_WAW", len(program.lines) - 2)
    )


def frames(is_waited):
    """Two frames: what was presented comes before what waits for the next image."""
    program = Program()
    queue, (target, _) = program.queue(), program.buffer()
    drawn, ready = program.semaphore(), program.semaphore()
    waits = []
    for _ in range(2):
        program.call(
            "vkAcquireNextImageKHR",
            "VK_SUCCESS",
            device=DEVICE,
            swapchain=99,
            semaphore=ready,
            fence=NULL,
        )
        waits = [(ready, TRANSFER, 0)] if is_waited else []
        program.submit(queue, [program.commands(fill(target))], waits, [(drawn, 0)])
        program.call("vkQueuePresentKHR", queue=queue, pPresentInfo={"pWaitSemaphores": [drawn]})
    return Case(program) if is_waited else Case(program, "HAZARD_WAW", len(program.lines) - 3)


def transitions(way):
    """A transition right behind another one, which submission orders, and one behind a copy, which it doesn't."""
    program = Program()
    queue, image, (source, _) = program.queue(), program.image(), program.buffer(LOCAL, 64)
    element = on_image(image, (0, 0 if way == "bottom" else WRITE), (UNDEFINED, TARGET))
    first = barrier(TOP, BOTTOM if way == "bottom" else TRANSFER, images=[element])
    second = barrier(TOP, TRANSFER, images=[on_image(image, (0, READ), (TARGET, SOURCE))])
    between = [copy_in(source, image)] if way == "used" else []
    program.submit(queue, [program.commands(fill(source), TO_COPY, first, *between)])
    if way == "waited":
        program.idle()
    program.submit(queue, [program.commands(second)])
    if way == "used":
        return Case(program, "HAZARD_WAR", len(program.lines) - 2)
    says = {
        "bare": ("submission orders the two",),
        "bottom": ("which a trace can't say",),
        "waited": (),
    }[way]
    return Case(program, None, None, says)


def destroyed():
    """A buffer that the host destroys while a command uses it."""
    program = Program()
    queue, (target, _) = program.queue(), program.buffer()
    program.submit(queue, [program.commands(fill(target))])
    at = program.call("vkDestroyBuffer", None, device=DEVICE, buffer=target)
    return Case(program, "IN_USE", at)


CASES = {
    "a binary semaphore": lambda: two_queues(True),
    "no semaphore": lambda: two_queues(False),
    **{
        f"fences, {way}": lambda way=way: fences(way)
        for way in ("any", "status", "later", "late", "queue", "none")
    },
    **{f"timeline, {way}": lambda way=way: timeline(way) for way in ("wait", "count", "old")},
    "ownership": lambda: ownership(True),
    "ownership, no acquire": lambda: ownership(False),
    "ownership between families that are one": lambda: merged_families(False),
    "ownership of a part": lambda: merged_families(True),
    "events of the first generation": lambda: event(1),
    "events of the second generation": lambda: event(2),
    "an event that isn't awaited": lambda: event(1, False),
    "an event of the host": event_of_host,
    "submitted again": lambda: again(True),
    "submitted again, no barrier": lambda: again(False),
    "by way of a fragment shader": lambda: widened(FRAGMENT, FRAGMENT),
    "by way of two stages": lambda: widened(FRAGMENT, COMPUTE),
    "by way of the bottom": lambda: widened(BOTTOM, FRAGMENT),
    "by way of the top": lambda: widened(FRAGMENT, TOP),
    "a render pass": lambda: render_pass(True),
    "a render pass without dependencies": lambda: render_pass(False),
    "frames": lambda: frames(True),
    "frames, no wait": lambda: frames(False),
    **{
        f"transitions, {way}": lambda way=way: transitions(way)
        for way in ("bare", "bottom", "waited", "used")
    },
    "destroyed in use": destroyed,
}
