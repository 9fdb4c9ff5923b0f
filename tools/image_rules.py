"""The rules of a trace on commands on images; from docs/FORMAT.md's table.

Each is a question to a reading (slow_reading.py) about a command, or about a point with its nodes.
"""

from points import is_on_image
from shapes import box_of, destination_box, is_short, source_box


def image_copied(copy):
    """The image of a copy with a buffer."""
    return copy[2] if copy[0] == "copy_in" else copy[1]


def regions_past(reading, copy):
    """Whether a region of a copy with an image ends past the buffer, or has rows that are too short."""
    regions = [region for region in copy[-1] if 0 not in (region[5], region[8], region[9])]
    used = [*copy[:-1], regions]
    return any(is_short(region) for region in copy[-1]) or reaches_past_buffer(reading, used)


def reaches_past_buffer(reading, copy):
    return any(high > reading.size_of(buffer) for buffer, _, high in reading.buffer_ranges(copy))


def misplaced_regions(reading, point, own):
    """Whether a region's offset isn't of whole texels, on the queues of transfers alone of whole words."""
    copy = point.content
    if point.kind != "command" or copy[0] not in ("copy_in", "copy_out"):
        return False
    texel = reading.shapes[image_copied(copy)].texel
    return any(g[0] % texel or point.queue >= 2 and g[0] % 4 for g in copy[-1])


def boxes(command):
    """The boxes of texels that a command reads and writes: the image, and the box."""
    read, written = [], []
    if command[0] == "copy_in":
        written = [(command[2], box_of(region)) for region in command[-1]]
    elif command[0] == "copy_out":
        read = [(command[1], box_of(region)) for region in command[-1]]
    elif command[0] == "copy_image":
        read = [(command[1], source_box(region)) for region in command[-1]]
        written = [(command[3], destination_box(region)) for region in command[-1]]
    return read, written


def meet(first, second):
    return max(first[1], second[1]) < min(first[2], second[2])


def ranges_meet(first, count, other, other_count):
    return max(first, other) < min(first + count, other + other_count)


def boxes_meet(one, other):
    (image, (level, layer, layers, x, y, width, height)) = one
    (other_image, (other_level, other_layer, other_layers, u, v, across, down)) = other
    same = (image, level) == (other_image, other_level)
    in_layers = same and ranges_meet(layer, layers, other_layer, other_layers)
    return in_layers and ranges_meet(x, width, u, across) and ranges_meet(y, height, v, down)


def parts_meet(one, other):
    """Whether two ranges of levels and layers have a subresource in common."""
    return ranges_meet(*one[:2], *other[:2]) and ranges_meet(*one[2:], *other[2:])


def some_pair(test, items):
    return any(test(one, other) for k, one in enumerate(items) for other in items[:k])


def image_overlaps(reading, command):
    """Whether what a command on images writes meets what it reads, or what else it writes."""
    if command[0] == "clear":
        return some_pair(parts_meet, command[4])
    if command[0] == "barrier":
        changed = [e for e in command[3] if e[7] != e[8]]
        return some_pair(lambda e, f: e[6] == f[6] and parts_meet(e[9], f[9]), changed)
    read, written = boxes(command)
    rows = [list(reading.buffer_ranges([*command[:-1], [g]])) for g in command[-1]] if command[0] == "copy_out" else []
    rows_meet = some_pair(lambda g, h: any(meet(r, s) for r in g for s in h), rows)
    return rows_meet or some_pair(boxes_meet, written) or any(boxes_meet(r, w) for r in read for w in written)


def texels_differ(reading, copy):
    return reading.shapes[copy[1]].texel != reading.shapes[copy[3]].texel


def bad_subresource(reading, command):
    """Whether a command names levels, layers or texels that an image doesn't have, or none."""
    ranges = [(command[1], part) for part in command[4]] if command[0] == "clear" else []
    if command[0] == "barrier":
        ranges = [(element[6], element[9]) for element in command[3]]
    if any(not reading.shapes[image].has_range(part) for image, part in ranges):
        return True
    read, written = boxes(command)
    return any(not reading.shapes[image].has_box(*box) for image, box in read + written)


def layouts_named(command):
    """The images that a command names, with the layout, levels and layers, and whether they're written."""
    if command[0] == "clear":
        return [(command[1], command[2], part, True) for part in command[4]]
    layouts = {"copy_in": (None, 3), "copy_out": (2, None), "copy_image": (2, 4)}.get(command[0])
    if layouts is None:
        return []
    named = []
    for is_written, which in enumerate(boxes(command)):
        for image, (level, layer, layers, *_) in which:
            named.append((image, command[layouts[is_written]], (level, 1, layer, layers), bool(is_written)))
    return named


def bad_layout(reading, command):
    for image, layout, part, is_written in layouts_named(command):
        if layout not in (1, 7 if is_written else 6) or reading.current_layouts(image, part) - {layout}:
            return True
    changed = [e for e in command[3] if e[7] != e[8]] if command[0] == "barrier" else []
    return any(not {e[7], e[8]} <= {0, 1, 6, 7} or e[8] == 0 for e in changed)


def old_layout(reading, point, own):
    """Whether a transition is from a layout that isn't current; that of a transfer is judged at its
    release."""
    for number in own:
        node = reading.nodes[number]
        content = node.content
        if node.kind == "element" and is_on_image(content) and node.half() != "acquire":
            _, _, _, _, _, _, image, old, new, part = content
            if old not in (0, new) and reading.current_layouts(image, part) - {old}:
                return True
    return False
