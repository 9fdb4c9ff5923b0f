"""Barriers and events of a captured program, of both generations."""

from captured_masks import (
    ALL_COMMANDS,
    EXTERNALS,
    IGNORED,
    LAYOUTS,
    REMAINING,
    TRANSFER,
    WHOLE,
    accesses,
    has_other_stages,
    layout,
    stages,
)
from captured_state import Stop

EXTERNAL_SUBPASS = 0xFFFFFFFF
WIDENED = "stages of graphics and compute count as ALL_COMMANDS, and their accesses are left out"
GENERALIZED = "layouts of graphics count as GENERAL"
SHARED = (
    "ownership isn't judged of resources whose part is transferred, nor between families that are one"
    " in the trace"
)
SUBMITTED = (
    "a transition right behind one of the same image on the same queue is behind all commands: submission"
    " orders the two"
)
OUTSIDE = "it is handed to or from another API"
MOVED = "an event's dependency has a transition of it"


def masks(world, part, outer=None):
    """The stages and accesses of an element; those of the first generation have their stages outside."""
    outer = outer or part
    for name in ("srcStageMask", "dstStageMask"):
        if has_other_stages(outer[name]):
            world.summary.note(WIDENED, 0)
    return [
        stages(outer["srcStageMask"], True),
        accesses(part["srcAccessMask"]),
        stages(outer["dstStageMask"], False),
        accesses(part["dstAccessMask"]),
    ]


def families(world, resource, part, family):
    """The families of an element, and whether it stands for an ordinary release or acquire."""
    source, target = part["srcQueueFamilyIndex"], part["dstQueueFamilyIndex"]
    if source == target or IGNORED in (source, target):
        return [IGNORED, IGNORED], None
    if source in EXTERNALS or target in EXTERNALS:
        world.make_opaque(resource, OUTSIDE)
        return [IGNORED, IGNORED], None
    pair = [world.families.get(source, 0), world.families.get(target, 0)]
    if resource.is_concurrent or pair[0] == pair[1]:
        world.summary.note(SHARED, 0)
        return [IGNORED, IGNORED], "release" if family == source else "acquire"
    return pair, None


def subresources(image, part):
    """The range of levels and layers of an element or a clear."""
    level, layer = part["baseMipLevel"], part["baseArrayLayer"]
    levels, layers = part["levelCount"], part["layerCount"]
    return [
        level,
        image.levels - level if levels == REMAINING else levels,
        layer,
        image.layers - layer if layers == REMAINING else layers,
    ]


def buffer_element(world, part, four, family):
    """An element on a buffer, or nothing where it isn't judged."""
    buffer = world.resource(part["buffer"])
    pair, _ = families(world, buffer, part, family)
    if not buffer.is_named:
        return None
    size = "whole" if part["size"] == WHOLE else part["size"]
    return [*four, *pair, buffer.id, part["offset"], size]


def parts_of(area):
    """The levels and layers of a range, one by one."""
    level, levels, layer, layers = area
    return [
        (low, high) for low in range(level, level + levels) for high in range(layer, layer + layers)
    ]


def meet(first, second):
    """Whether stages of a second scope meet those of a first scope."""
    commands = TRANSFER | ALL_COMMANDS
    return bool(
        first & second or ALL_COMMANDS & (first | second) and first & commands and second & commands
    )


def in_order(world, image, four, area, context):
    """Keeps a transition behind those before it on its queue, as Vulkan does without a dependency, where nothing
    has used its levels and layers in between. Whether the trace can say that."""
    for part in parts_of(area):
        batch, target = image.moves.get(part, (None, 0))
        is_behind = batch is None or batch[0] != context.batch[0] or meet(target, four[0])
        if is_behind or world.queues.is_complete(batch) or context.waits_for(batch):
            continue
        if not meet(target, ALL_COMMANDS):
            world.make_opaque(
                image, "only their submission orders two transitions of it, which a trace can't say"
            )
            return False
        four[0] |= ALL_COMMANDS
        world.summary.note(SUBMITTED, 0)
    image.moves.update((part, (context.batch, four[2])) for part in parts_of(area))
    return True


def image_element(world, part, four, context):
    """An element on an image, or nothing where it isn't judged."""
    image = world.resource(part["image"])
    pair, role = families(world, image, part, context.family)
    if not image.is_named:
        return None
    if part["oldLayout"] not in LAYOUTS or part["newLayout"] not in LAYOUTS:
        world.summary.note(GENERALIZED, 0)
    old, new = layout(part["oldLayout"]), layout(part["newLayout"])
    # (the transition of a transfer takes place once, here at the acquire)
    new = old if role == "release" else new
    area = subresources(image, part["subresourceRange"])
    if pair != [IGNORED, IGNORED]:
        image.used(parts_of(area))
    elif old != new and not in_order(world, image, four, area, context):
        return None
    return [*four, *pair, image.id, old, new, area]


def barrier(world, call, context):
    """A barrier. An element on what isn't judged keeps the order that it makes, as one on all memory."""
    info = call.args.get("pDependencyInfo", call.args)
    outer = info if "srcStageMask" in info else None
    made = [[], [], []]

    def add(kind, element, four):
        if element is None:
            kind, element = 0, [four[0], 0, four[2], 0]
        if element not in made[kind]:
            made[kind].append(element)

    for part in info["pMemoryBarriers"] or []:
        add(0, masks(world, part, outer), None)
    for part in info["pBufferMemoryBarriers"] or []:
        four = masks(world, part, outer)
        add(1, buffer_element(world, part, four, context.family), four)
    for part in info["pImageMemoryBarriers"] or []:
        four = masks(world, part, outer)
        add(2, image_element(world, part, four, context), four)
    if not any(made) and outer:
        add(0, masks(world, {"srcAccessMask": 0, "dstAccessMask": 0}, outer), None)
    return [["barrier", *made]] if any(made) else []


# ---- render passes: what they order


def create_pass(world, call):
    """Keeps the dependencies of a render pass with what is outside."""
    parts = call.args["pCreateInfo"]["pDependencies"] or []
    world.passes[call.args["pRenderPass"]] = [
        [
            (part, next((link for link in chained(part) if "srcStageMask" in link), part))
            for part in parts
            if part[side] == EXTERNAL_SUBPASS
        ]
        for side in ("srcSubpass", "dstSubpass")
    ]


def chained(part):
    """The structures behind `pNext` of a part."""
    link = part.get("pNext")
    while isinstance(link, dict):
        yield link
        link = link.get("pNext")


def pass_barrier(world, handle, is_end):
    """The barrier that the dependencies of a render pass with what is outside are."""
    elements = [masks(world, link) for _, link in world.passes.get(handle, [[], []])[is_end]]
    return [["barrier", elements, [], []]] if elements else []


def begin_pass(world, call, context):
    """A render pass begins: its attachments are written."""
    world.summary.left_out[call.name] += 1
    context.render_pass = call.args["pRenderPassBegin"]["renderPass"]
    world.write_attachments(call)
    return pass_barrier(world, context.render_pass, False)


def end_pass(world, call, context):
    """A render pass ends."""
    world.summary.left_out[call.name] += 1
    return pass_barrier(world, context.render_pass, True)


# ---- events: each set makes an event of its own, since one of the trace is set once


def event_elements(world, info, outer):
    """The elements of a dependency of events, all on all memory."""
    made = []
    for name in ("pMemoryBarriers", "pBufferMemoryBarriers", "pImageMemoryBarriers"):
        for part in info[name] or []:
            if part.get("oldLayout") != part.get("newLayout"):
                world.make_opaque(world.resource(part["image"]), MOVED)
            made.append(masks(world, part, outer))
    if not made and outer:
        made.append(masks(world, {"srcAccessMask": 0, "dstAccessMask": 0}, outer))
    return made


def set_event(world, call, _context):
    """A command sets an event, with the elements of the waits for it."""
    event = call.args["event"]
    if "pDependencyInfo" in call.args:
        elements = event_elements(world, call.args["pDependencyInfo"], None)
    else:
        elements = []
        for wait in world.event_waits.get(event, []):
            outer = {"srcStageMask": call.args["stageMask"], "dstStageMask": wait["dstStageMask"]}
            elements += event_elements(world, wait, outer)
    made = world.trace.new_id()
    world.emit(["event", made])
    world.events[event] = (made, elements)
    return [["set", made, elements]]


def await_events(world, call, _context):
    """A command waits for events."""
    made = []
    for event in call.args["pEvents"]:
        if event not in world.events:
            raise Stop(f"{call}: it waits for event {event}, which no earlier command sets")
        made.append(["await", *world.events[event]])
    return made
