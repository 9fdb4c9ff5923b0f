"""All that is known of a captured program."""

from collections import defaultdict

from captured_calls import Bad
from captured_masks import IGNORED, REMAINING, WHOLE
from captured_state import Image, Physical, Summary, Trace
from captured_submits import Queues, Semaphores

# Usages by which commands alone read that the trace doesn't have, and transfers: of buffers all texels,
# uniforms, indices, vertices, indirect, conditional, inputs of builds and shader tables; of images sampled.
READ_ONLY = {"buffer": 0x807D7, "image": 0x7}
ATTACHMENTS = 0xF0
HEAP = 4194304
DEVICES = "families of queues are those of the device that was made last"


class World:
    """All of it, and the trace so far."""

    def __init__(self, reads, blocks):
        self.reads, self.has_blocks = reads, blocks is not None
        self.updates = blocks.updates if blocks else {}
        self.trace, self.summary = Trace(), Summary()
        if blocks and blocks.ends_within:
            self.summary.note(
                f"the program ended within a call: the capture ends within {blocks.ends_within}"
            )
        self.resources, self.memories, self.names = {}, {}, {}
        self.physical, self.devices, self.families, self.passes = defaultdict(Physical), {}, {}, {}
        self.recordings, self.events, self.event_waits = {}, {}, {}
        self.shared, self.unread, self.writable = set(), {}, {}
        self.stand_ins, self.written = {}, 0
        self.call = self.command = None
        self.heap, self.peak = [0, 0], [0, 0]
        self.queues, self.semaphores = Queues(self), Semaphores(self)

    def device(self, handle):
        """The physical device of a device."""
        return self.devices.get(handle) or Physical()

    def create_device(self, call):
        """vkCreateDevice: its families are those that barriers name."""
        if self.devices:
            self.summary.note(DEVICES, 0)
        self.devices[call.args["pDevice"]] = self.physical[call.args["physicalDevice"]]
        self.families = self.physical[call.args["physicalDevice"]].families

    def name(self, resource):
        """A resource in words."""
        title = self.names.get(resource.handle)
        return f"{resource.kind} {resource.handle}" + (f" {title!r}" if title else "")

    def add(self, resource):
        """A resource is created."""
        self.resources[resource.handle] = resource
        if resource.usage & ~READ_ONLY[resource.kind]:
            self.writable[resource.handle] = resource

    def resource(self, handle):
        """A resource by its handle; one that no judged call made isn't judged."""
        if not isinstance(handle, int):
            raise Bad(f"{self.call}: expected the handle of a buffer or an image, found {handle!r}")
        if handle not in self.resources:
            made = Image(handle, self.call)
            self.resources[handle] = made
            self.make_opaque(made, "made by a call that isn't judged, as those of a swapchain are")
        return self.resources[handle]

    def make_opaque(self, resource, why):
        """From here on, which is the command that is taken, or the call, nothing done to a resource is judged."""
        self.writable.pop(resource.handle, None)
        self.unread.pop(resource.handle, None)
        if resource.why is None and not resource.is_ended:
            resource.why = why
            place = self.command or self.call
            self.summary.opaque.append(f"{self.name(resource)}, from {place} on: {why}")

    def pass_over(self, resource, why):
        """A resource that no transfer can name isn't in the trace."""
        resource.why = why
        self.writable.pop(resource.handle, None)
        self.summary.note(why)

    def write_attachments(self, call):
        """Commands that aren't judged write attachments."""
        for part in list(self.writable.values()):
            if part.kind == "image" and part.usage & ATTACHMENTS:
                self.make_opaque(part, f"{call.name} may write it as an attachment")

    def write_all(self, call):
        """Commands that aren't judged may write all that shaders can."""
        for part in list(self.writable.values()):
            self.make_opaque(part, f"{call.name} may write it")

    def emit(self, entry, why=None):
        """Adds an entry that stands for the present call."""
        self.trace.add(entry, self.call, why)

    def grow_heap(self, kind, size):
        """Memory of a type is allocated, or given back."""
        heap = min(kind, 1)
        self.heap[heap] += size
        self.peak[heap] = max(self.peak[heap], self.heap[heap])

    def summary_lines(self):
        """The summary, with the heaps that `replay` needs."""
        yield from self.summary.lines()
        for heap, size in enumerate(self.peak):
            if size > HEAP * 3 // 4:
                yield f"heap {heap} holds up to {size} bytes: replay needs --heap{heap} for them"


def is_whole(created, part):
    """Whether an element's range is the whole resource."""
    if "buffer" in part:
        return part["offset"] == 0 and part["size"] in (WHOLE, created["size"])
    area = part["subresourceRange"]
    return (
        area["baseMipLevel"] == area["baseArrayLayer"] == 0
        and area["levelCount"] in (REMAINING, created["mipLevels"])
        and area["layerCount"] in (REMAINING, created["arrayLayers"])
    )


def look_ahead(world, calls):
    """Notes what is needed before its time: the waits for each event, and transfers of a part of a resource."""
    created = {}
    for call in calls:
        try:
            if call.name in ("vkCreateBuffer", "vkCreateImage"):
                created[call.args.get("pBuffer", call.args.get("pImage"))] = call.args[
                    "pCreateInfo"
                ]
            elif call.name == "vkCmdWaitEvents":
                for event in call.args["pEvents"]:
                    world.event_waits.setdefault(event, []).append(call.args)
            elif call.name in ("vkCmdPipelineBarrier", "vkCmdPipelineBarrier2"):
                note_parts(world, created, call.args.get("pDependencyInfo", call.args))
        except (KeyError, TypeError, AttributeError) as error:
            raise Bad(
                f"{call}: its arguments aren't as expected: {type(error).__name__} {error}"
            ) from error


def note_parts(world, created, info):
    """Notes the resources of which a barrier transfers a part."""
    for part in (info["pBufferMemoryBarriers"] or []) + (info["pImageMemoryBarriers"] or []):
        pair = part["srcQueueFamilyIndex"], part["dstQueueFamilyIndex"]
        handle = part.get("buffer", part.get("image"))
        if pair[0] != pair[1] and IGNORED not in pair and handle in created:
            if not is_whole(created[handle], part):
                world.shared.add(handle)
