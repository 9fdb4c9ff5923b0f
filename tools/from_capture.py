#!/usr/bin/env python3
"""Makes a trace of a capture of GFXReconstruct, on standard output, and says on standard error what it left out.

    tools/from_capture.py [--reads all|none|mapped] [--names FILE] [--json FILE.jsonl] [CAPTURE.gfxr] > trace.json
    tools/from_capture.py --where POINT --names FILE

docs/CAPTURES.md says how a program is captured, and what is judged of it. This needs Python 3.8 or later, its
standard library, and `gfxrecon-convert` of Debian's package `gfxreconstruct`, unless a JSON that it made is named.
The status is 0 where a trace was written, 1 where the input can't be converted, 2 for a bad command line, and 3
where a trace was written that ends before the capture does.
"""

import argparse
import json
import re
import sys

sys.dont_write_bytecode = True

from captured_barriers import create_pass
from captured_calls import Bad, Fill, in_order, read_capture
import captured_host as host
import captured_memory as memory
import captured_resources as resources
from captured_state import Stop
import captured_submits as submits
from captured_world import World, look_ahead

BAD, STOPPED = 1, 3
# What is noted of the program, and stands for nothing in a trace.
SILENT = (
    "vkGet",
    "vkEnumerate",
    "vkCreate",
    "vkDestroy",
    "vkAllocate",
    "vkFree",
    "vkUpdateDescriptor",
    "vkReset",
    "vkEnd",
    "vkTrim",
    "vkMerge",
    "vkSetDebug",
    "vkDebug",
    "vkQueueBeginDebug",
    "vkQueueEndDebug",
    "vkQueueInsertDebug",
    "vkSetPrivateData",
    "vkSubmitDebug",
)


def bound_handles(world, call):
    """vkDestroyBuffer and vkDestroyImage."""
    handle = call.args.get("buffer", call.args.get("image"))
    if handle in world.resources:
        memory.end_resource(world, world.resources[handle])


def begin(world, call):
    """vkBeginCommandBuffer."""
    world.recordings[call.args["commandBuffer"]] = []


def debug_name(world, call):
    """vkSetDebugUtilsObjectNameEXT."""
    info = call.args["pNameInfo"]
    world.names[info["objectHandle"]] = info["pObjectName"]


CALLS = {
    "vkGetPhysicalDeviceMemoryProperties": memory.memory_types,
    "vkGetPhysicalDeviceMemoryProperties2": memory.memory_types,
    "vkGetPhysicalDeviceQueueFamilyProperties": submits.families_of,
    "vkGetPhysicalDeviceQueueFamilyProperties2": submits.families_of,
    "vkGetDeviceQueue": lambda world, call: world.queues.name(call),
    "vkGetDeviceQueue2": lambda world, call: world.queues.name(call),
    "vkGetImageMemoryRequirements": resources.requirements,
    "vkGetImageMemoryRequirements2": resources.requirements,
    "vkCreateDevice": lambda world, call: world.create_device(call),
    "vkGetMemoryFd": memory.export,
    "vkAllocateMemory": memory.allocate,
    "vkFreeMemory": memory.free,
    "vkMapMemory": memory.map_memory,
    "vkUnmapMemory": memory.unmap_memory,
    "vkFlushMappedMemoryRanges": memory.flush,
    "vkInvalidateMappedMemoryRanges": memory.invalidate,
    "vkCreateBuffer": resources.created_buffer,
    "vkCreateImage": resources.created_image,
    "vkBindBufferMemory": resources.bind_buffers,
    "vkBindBufferMemory2": resources.bind_buffers,
    "vkBindImageMemory": resources.bind_images,
    "vkBindImageMemory2": resources.bind_images,
    "vkDestroyBuffer": bound_handles,
    "vkDestroyImage": bound_handles,
    "vkBeginCommandBuffer": begin,
    "vkCreateRenderPass": create_pass,
    "vkCreateRenderPass2": create_pass,
    "vkCreateSemaphore": lambda world, call: world.semaphores.create(call),
    "vkCreateFence": submits.fence_created,
    "vkQueueSubmit": submits.submit,
    "vkQueueSubmit2": submits.submit,
    "vkQueueBindSparse": submits.submit,
    "vkWaitForFences": submits.wait_fences,
    "vkGetFenceStatus": submits.fence_status,
    "vkWaitSemaphores": submits.wait_semaphores,
    "vkSignalSemaphore": submits.signal,
    "vkGetSemaphoreCounterValue": submits.counter_value,
    "vkQueueWaitIdle": submits.queue_idle,
    "vkDeviceWaitIdle": submits.device_idle,
    "vkQueuePresent": submits.present,
    "vkAcquireNextImage": submits.acquire,
    "vkAcquireNextImage2": submits.acquire,
    "vkImportSemaphoreFd": submits.import_payload,
    "vkImportFenceFd": submits.import_payload,
    "vkSetDebugUtilsObjectNameEXT": debug_name,
}
# These are done, and are no calls that the trace has.
NOT_JUDGED = ("vkQueuePresent", "vkAcquireNextImage", "vkAcquireNextImage2", "vkQueueBindSparse")


def has_failed(call):
    """Whether a call says that it did nothing."""
    return isinstance(call.result, str) and call.result not in ("VK_SUCCESS", "VK_SUBOPTIMAL_KHR")


def take(world, call):
    """Takes a call of the program."""
    world.call = call
    if has_failed(call):
        return
    if call.name.startswith("vkCmd"):
        world.recordings.setdefault(call.args["commandBuffer"], []).append(call)
        return
    handler = CALLS.get(call.name)
    if handler is not None:
        handler(world, call)
    if call.name in NOT_JUDGED or handler is None and not call.name.startswith(SILENT):
        world.summary.left_out[call.name] += 1
    elif handler is not None:
        world.summary.judged += 1


def convert(calls, blocks, reads):
    """All that is known of the program, at the end of its capture or where the trace has to end."""
    world = World(reads, blocks)
    look_ahead(world, calls)
    try:
        for part in in_order(calls, blocks):
            try:
                if isinstance(part, Fill):
                    host.fill(world, part)
                else:
                    take(world, part)
            except (KeyError, TypeError, ValueError, AttributeError, IndexError) as error:
                what = f"block {part.index}" if isinstance(part, Fill) else str(part)
                raise Bad(
                    f"{what}: its arguments aren't as expected: {type(error).__name__} {error}"
                ) from error
    except Stop as reason:
        world.summary.stopped = str(reason)
    return world


# ---- the side file


def side_file(world, capture):
    """The debug names and the calls of a trace's entries, an entry a line."""
    objects = {}
    for part in world.resources.values():
        if part.id is not None:
            origin = {"kind": part.kind, "handle": part.handle, "call": part.call.index}
            if part.handle in world.names:
                origin["name"] = world.names[part.handle]
            objects[str(part.id)] = origin
    lines = ",\n".join(map(json.dumps, world.trace.origins))
    first = f'{{"capture": {json.dumps(capture)},\n"objects": {json.dumps(objects)},\n'
    return f'{first}"entries": [\n{lines}\n]}}\n'


POINT = re.compile(r"(\d+)(?:\.(\d+)\.([ws]?)(\d+))?$")


def where(point, path):
    """The call that a point of a trace stands for, in words."""
    found = POINT.match(point)
    if not found:
        raise Bad(f"--where {point}: expected a point such as 5, 2.0.1, 2.0.w0 or 2.0.s0")
    try:
        with open(path, encoding="utf-8") as file:
            entries = json.load(file)["entries"]
    except (OSError, ValueError, KeyError, TypeError) as error:
        raise Bad(f"{path}: not a file that --names wrote: {error}") from error
    try:
        origin = entries[int(found.group(1))]
        if found.group(2) is None or found.group(3):
            why = f" ({origin['why']})" if "why" in origin else ""
            return f"call {origin['call']} {origin['name']}{why}"
        index, name = origin["batches"][int(found.group(2))][int(found.group(4))]
        return f"call {index} {name}"
    except (IndexError, KeyError) as error:
        raise Bad(f"{path}: the trace has no point {point}") from error


# ---- the command line


def parsed():
    """The command line."""
    parser = argparse.ArgumentParser(description="Makes a trace of a capture of GFXReconstruct.")
    parser.add_argument("capture", nargs="?", metavar="CAPTURE.gfxr")
    parser.add_argument(
        "--json", metavar="FILE.jsonl", help="a JSON that gfxrecon-convert made of it"
    )
    parser.add_argument(
        "--reads",
        choices=("all", "none", "mapped"),
        default="mapped",
        help="which reads of the host are put in (mapped)",
    )
    parser.add_argument(
        "--names", metavar="FILE", help="write the call of each entry and command here"
    )
    parser.add_argument(
        "--where", metavar="POINT", help="print the call of this point, by the file of --names"
    )
    options = parser.parse_args()
    if options.where is not None:
        if not options.names or options.capture or options.json:
            parser.error("--where needs --names FILE, and nothing else")
    elif not options.capture and not options.json:
        parser.error("a capture or --json FILE.jsonl is needed")
    return options


def run(options):
    """Does what the command line asks for, and answers the status."""
    if options.where is not None:
        print(where(options.where, options.names))
        return 0
    calls, blocks = read_capture(options.capture, options.json)
    world = convert(calls, blocks, options.reads)
    for line in world.summary_lines():
        print(line, file=sys.stderr)
    if options.names:
        with open(options.names, "w", encoding="utf-8") as file:
            file.write(side_file(world, options.capture or options.json))
    sys.stdout.write(world.trace.text())
    return STOPPED if world.summary.stopped else 0


def main():
    """Runs it, and answers the status."""
    try:
        status = run(parsed())
        sys.stdout.flush()
        return status
    except Bad as error:
        print(f"from_capture: {error}", file=sys.stderr)
        return BAD
    except OSError as error:
        print(f"from_capture: {error}", file=sys.stderr)
        return BAD


if __name__ == "__main__":
    sys.exit(main())
