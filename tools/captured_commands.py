"""Commands of a captured program: those that a trace has, and what the others leave unjudged."""

from captured_barriers import (
    await_events,
    barrier,
    begin_pass,
    end_pass,
    parts_of,
    set_event,
    subresources,
)
from captured_masks import REMAINING, WHOLE, clear_words, layout
from captured_host import commands_read, commands_write

NO_UPDATE = "the bytes of vkCmdUpdateBuffer aren't in the JSON, and are taken as zeros"
CLEARED = (
    "the color of a clear of a format other than UNORM, UINT, SINT and SFLOAT is taken as zeros"
)
# Commands that write no resource, by how their names begin.
IDLE = (
    "vkCmdSet",
    "vkCmdBind",
    "vkCmdPush",
    "vkCmdBeginQuery",
    "vkCmdEndQuery",
    "vkCmdResetQueryPool",
    "vkCmdWriteTimestamp",
    "vkCmdBeginDebug",
    "vkCmdEndDebug",
    "vkCmdInsertDebug",
    "vkCmdDebugMarker",
    "vkCmdNextSubpass",
    "vkCmdEndRendering",
    "vkCmdResetEvent",
    "vkCmdBeginConditional",
    "vkCmdEndConditional",
)
# Commands that write the resources alone that they name.
NAMED = (
    "vkCmdBlitImage",
    "vkCmdResolveImage",
    "vkCmdCopyQueryPoolResults",
    "vkCmdClearDepthStencilImage",
    "vkCmdWriteBufferMarker",
)
TARGETS = ("dstImage", "dstBuffer", "image", "buffer")


class Context:
    """Where a command is: the family of its queue in the capture, its batch, those that it waits for, its
    render pass, and the fills that stand for what the host wrote, where there is a queue for them.
    """

    def __init__(self, family, batch, waited, has_stand_in):
        self.family, self.batch, self.waited = family, batch, waited
        self.render_pass, self.fills = None, []
        self.has_stand_in = has_stand_in

    def waits_for(self, batch):
        """Whether the batch waits for another one, or a later one of its queue."""
        return any(number == batch[0] and count >= batch[1] for number, count in self.waited)


def inner(call):
    """The arguments of a copy, of both generations."""
    for name, value in call.args.items():
        if name.startswith("pCopy") and isinstance(value, dict):
            return value
    return call.args


def judge_copy(world, call, source, target):
    """Whether both resources of a copy are judged; where one isn't, the copy is left out."""
    for part in (source, target):
        if part.why is None and part.id is None:
            world.make_opaque(part, "no memory is bound to it")
    if source.is_named and target.is_named:
        return True
    leave(world, call, source, target)
    return False


def leave(world, call, source, target):
    """Leaves a copy out, which has no commands then: where its source isn't judged, its target is no more."""
    if target.is_named:
        world.make_opaque(
            target, f"{call.name} writes it from {world.name(source)}, which isn't judged"
        )
    world.summary.left_out[call.name] += 1
    return []


def fill_buffer(world, call, context):
    """vkCmdFillBuffer."""
    buffer = world.resource(call.args["dstBuffer"])
    if not judge_copy(world, call, buffer, buffer):
        return []
    offset, size = call.args["dstOffset"], call.args["size"]
    commands_write(world, buffer, [(offset, buffer.end_of(offset, size, WHOLE))], context.batch)
    return [["fill", buffer.id, offset, "whole" if size == WHOLE else size, call.args["data"]]]


def update_buffer(world, call, context):
    """vkCmdUpdateBuffer."""
    buffer = world.resource(call.args["dstBuffer"])
    if not judge_copy(world, call, buffer, buffer):
        return []
    offset, size = call.args["dstOffset"], call.args["dataSize"]
    data = world.updates.get(call.index)
    if data is None:
        world.summary.note(NO_UPDATE)
        data = bytes(size)
    commands_write(world, buffer, [(offset, offset + size)], context.batch)
    return [["update", buffer.id, offset, data.hex()]]


def copy_buffer(world, call, context):
    """vkCmdCopyBuffer, of both generations."""
    info = inner(call)
    source, target = world.resource(info["srcBuffer"]), world.resource(info["dstBuffer"])
    if not judge_copy(world, call, source, target):
        return []
    regions = [[part["srcOffset"], part["dstOffset"], part["size"]] for part in info["pRegions"]]
    if not commands_read(
        world, source, [(start, start + size) for start, _, size in regions], context
    ):
        return leave(world, call, source, target)
    commands_write(
        world, target, [(start, start + size) for _, start, size in regions], context.batch
    )
    return [["copy", source.id, target.id, regions]]


def layers_of(image, part):
    """How many layers a region has."""
    layers = part["layerCount"]
    return image.layers - part["baseArrayLayer"] if layers == REMAINING else layers


def image_region(image, part):
    """A region between a buffer and an image."""
    where, offset, extent = part["imageSubresource"], part["imageOffset"], part["imageExtent"]
    return [
        part["bufferOffset"],
        part["bufferRowLength"],
        part["bufferImageHeight"],
        where["mipLevel"],
        where["baseArrayLayer"],
        layers_of(image, where),
        offset["x"],
        offset["y"],
        extent["width"],
        extent["height"],
    ]


def use_regions(image, regions):
    """The levels and layers of regions are used."""
    for region in regions:
        image.used(parts_of([region[3], 1, region[4], region[5]]))


def rows(region, texel, size):
    """The ranges of a buffer that a region has, row by row where there is room between rows."""
    offset, length, lines, _, _, layers, _, _, width, height = region
    length, lines = length or width, lines or height
    if length == width and (lines == height or layers == 1):
        return [(offset, min(size, offset + layers * height * width * texel))]
    starts = (
        offset + (layer * lines + line) * length * texel
        for layer in range(layers)
        for line in range(height)
    )
    return [(start, min(size, start + width * texel)) for start in starts if start < size]


def copy_in(world, call, context):
    """vkCmdCopyBufferToImage, of both generations."""
    info = inner(call)
    buffer, image = world.resource(info["srcBuffer"]), world.resource(info["dstImage"])
    if not judge_copy(world, call, buffer, image):
        return []
    regions = [image_region(image, part) for part in info["pRegions"]]
    spans = [span for region in regions for span in rows(region, image.form.texel, buffer.size)]
    if not commands_read(world, buffer, spans, context):
        return leave(world, call, buffer, image)
    use_regions(image, regions)
    return [["copy_in", buffer.id, image.id, layout(info["dstImageLayout"]), regions]]


def copy_out(world, call, context):
    """vkCmdCopyImageToBuffer, of both generations."""
    info = inner(call)
    image, buffer = world.resource(info["srcImage"]), world.resource(info["dstBuffer"])
    if not judge_copy(world, call, image, buffer):
        return []
    regions = [image_region(image, part) for part in info["pRegions"]]
    for region in regions:
        commands_write(world, buffer, rows(region, image.form.texel, buffer.size), context.batch)
    use_regions(image, regions)
    return [["copy_out", image.id, layout(info["srcImageLayout"]), buffer.id, regions]]


def copy_image(world, call, context):
    """vkCmdCopyImage, of both generations."""
    info = inner(call)
    source, target = world.resource(info["srcImage"]), world.resource(info["dstImage"])
    if not judge_copy(world, call, source, target):
        return []
    regions = []
    for part in info["pRegions"]:
        start, end = part["srcSubresource"], part["dstSubresource"]
        regions.append(
            [
                start["mipLevel"],
                start["baseArrayLayer"],
                end["mipLevel"],
                end["baseArrayLayer"],
                layers_of(source, start),
                part["srcOffset"]["x"],
                part["srcOffset"]["y"],
                part["dstOffset"]["x"],
                part["dstOffset"]["y"],
                part["extent"]["width"],
                part["extent"]["height"],
            ]
        )
    for level, layer, other_level, other_layer, layers, *_ in regions:
        source.used(parts_of([level, 1, layer, layers]))
        target.used(parts_of([other_level, 1, other_layer, layers]))
    return [
        [
            "copy_image",
            source.id,
            layout(info["srcImageLayout"]),
            target.id,
            layout(info["dstImageLayout"]),
            regions,
        ]
    ]


def clear_image(world, call, context):
    """vkCmdClearColorImage."""
    image = world.resource(call.args["image"])
    if not judge_copy(world, call, image, image):
        return []
    words, is_exact = clear_words(image.form, call.args["pColor"]["uint32"])
    if not is_exact:
        world.summary.note(CLEARED)
    ranges = [subresources(image, part) for part in call.args["pRanges"]]
    for area in ranges:
        image.used(parts_of(area))
    return [["clear", image.id, layout(call.args["imageLayout"]), words, ranges]]


COMMANDS = {
    "vkCmdFillBuffer": fill_buffer,
    "vkCmdUpdateBuffer": update_buffer,
    "vkCmdCopyBuffer": copy_buffer,
    "vkCmdCopyBuffer2": copy_buffer,
    "vkCmdCopyBufferToImage": copy_in,
    "vkCmdCopyBufferToImage2": copy_in,
    "vkCmdCopyImageToBuffer": copy_out,
    "vkCmdCopyImageToBuffer2": copy_out,
    "vkCmdCopyImage": copy_image,
    "vkCmdCopyImage2": copy_image,
    "vkCmdClearColorImage": clear_image,
    "vkCmdPipelineBarrier": barrier,
    "vkCmdPipelineBarrier2": barrier,
    "vkCmdSetEvent": set_event,
    "vkCmdSetEvent2": set_event,
    "vkCmdWaitEvents": await_events,
    "vkCmdWaitEvents2": await_events,
    "vkCmdBeginRenderPass": begin_pass,
    "vkCmdBeginRenderPass2": begin_pass,
    "vkCmdEndRenderPass": end_pass,
    "vkCmdEndRenderPass2": end_pass,
}
PASSES = (begin_pass, end_pass)


def targets(value):
    """The handles of what a command that isn't judged writes, by the names of its arguments."""
    for name, part in value.items():
        if isinstance(part, dict):
            yield from targets(part)
        elif name in TARGETS and isinstance(part, int):
            yield part


def unjudged(world, call):
    """A command that the trace doesn't have: what it may write isn't judged from here on."""
    world.summary.left_out[call.name] += 1
    if call.name.startswith(IDLE):
        return []
    if call.name == "vkCmdBeginRendering":
        world.write_attachments(call)
        return []
    for handle in targets(call.args):
        world.make_opaque(world.resource(handle), f"{call.name} writes it")
    if not call.name.startswith(NAMED):
        world.write_all(call)
    return []


def translated(world, call, context):
    """The commands of the trace for one of the program, at its submit."""
    world.command = call
    handler = COMMANDS.get(call.name)
    if handler is None:
        return unjudged(world, call)
    before = world.summary.left_out[call.name]
    made = handler(world, call, context)
    if handler not in PASSES and world.summary.left_out[call.name] == before:
        world.summary.judged += 1
    return made
