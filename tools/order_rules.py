"""The rules of a trace on stages and accesses, owners, events and signals; from docs/FORMAT.md's table.

Each is a question as in rules.py.
"""

from points import ALL_COMMANDS, HOST, TRANSFER, family_of, is_on_image

STAGES = TRANSFER | HOST | ALL_COMMANDS
ACCESSES = 2048 | 4096 | 8192 | 16384 | 32768 | 65536


def bad_masks(stages, accesses):
    return bool(
        stages & ~STAGES
        or accesses & ~ACCESSES
        or accesses & (2048 | 4096) and not stages & (TRANSFER | ALL_COMMANDS)
        or accesses & (8192 | 16384) and not stages & HOST
    )


def stage(reading, point, own):
    if point.kind in ("wait", "signal"):
        return bool(point.content[2] & ~STAGES or point.content[2] & HOST)
    nodes = [reading.nodes[number] for number in own]
    elements = [node for node in nodes if node.kind == "element"]
    return any(
        bad_masks(*node.content[:2])
        or bad_masks(*node.content[2:4])
        or node.role[0] != "barrier" and node.content[0] & HOST
        for node in elements
    )


def is_partial(reading, element):
    """Whether an element transfers less than its whole resource."""
    if is_on_image(element):
        shape = reading.shapes[element[6]]
        return element[4] != element[5] and list(element[9]) != [0, shape.levels, 0, shape.layers]
    _, _, _, _, source, destination, buffer, offset, size = element
    return source != destination and (offset != 0 or size not in ("whole", reading.size_of(buffer)))


def owner_pair(reading, point, own):
    """Whether an element doesn't fit; each is judged by the owners that those before it leave."""
    owners = reading.owners.copy()
    for number in own:
        node = reading.nodes[number]
        half = node.half() if node.kind == "element" else None
        if half is not None:
            if half == "neither" or max(node.content[4:6]) > 1 or not reading.is_exclusive(node.buffer):
                return True
            _, released = owners.get(node.buffer, (None, None))
            if released is not None if half == "release" else not completes(reading, number, released):
                return True
            owners[node.buffer] = (family_of(point.queue), number if half == "release" else None)
    return False


def completes(reading, acquire, release):
    """Whether an acquire has an equal release that comes before it."""
    if release is None:
        return False
    halves = [reading.nodes[number].content for number in (release, acquire)]
    if len({tuple(half[4 : 9 if is_on_image(half) else 7]) for half in halves}) > 1:
        return False
    return reading.comes_before(release, acquire)


def event_state(reading, point, own):
    if point.kind != "command" or point.content[0] not in ("set", "await"):
        return False
    sets = reading.sets.get(point.content[1], [])
    if point.content[0] == "set":
        return bool(sets)
    return all(queue != point.queue for queue, _ in sets)


def event_dependency(reading, point, own):
    if point.kind != "command" or point.content[0] != "await":
        return False
    return all(elements != point.content[2] for _, elements in reading.sets.get(point.content[1], []))


def signal_value(reading, point, own):
    signals = [reading.nodes[number].signaled() for number in own]
    return any(s is not None and s[1] <= reading.counters.get(s[0], -1) for s in signals)


def signal_order(reading, point, own):
    for number in own:
        signal = reading.nodes[number].signaled()
        if signal is not None:
            earlier = (earlier for _, earlier in reading.signals.get(signal[0], []))
            if any(not reading.comes_before(e, number) for e in earlier):
                return True
    return False
