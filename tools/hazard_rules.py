"""The rules of a trace on hazards and undefined bytes; from docs/FORMAT.md's table.

Each is a question as in rules.py.
"""

from seeing import sees


def meets(first, second):
    return first[0] == second[0] and max(first[1], second[1]) < min(first[2], second[2])


def conflicts(reading, own, mine, earlier, is_judged_well):
    """Whether an earlier access has a byte of these and isn't judged well by its node, the buffer and the
    byte; two of the host always are."""
    by_host = mine and reading.nodes[own[0]].on_host
    for number, *ranged in earlier:
        if by_host and reading.nodes[number].on_host:
            continue
        for own_range in mine:
            both = common(reading, ranged, own_range)
            if any(not is_judged_well(number, ranged[0], byte) for byte in both):
                return True
    return False


def common(reading, first, second):
    """Of the bytes that two ranges have in common, one of each part that no element, flush or
    invalidation treats in two ways."""
    if not meets(first, second):
        return []
    low, high = max(first[1], second[1]), min(first[2], second[2])
    borders = {border for node in reading.nodes for border in node.borders(first[0])}
    return [low, *sorted(border for border in borders if low < border < high)]


def accesses(point, reads_or_writes):
    return reads_or_writes(point.content) if point.kind in ("host", "command") else []


def judged(reading, own, reads_or_writes, is_bad):
    """Whether it's so of what one of a point's nodes reads or writes: a transition does both."""
    for number in own:
        node = reading.nodes[number]
        mine = accesses(node.point, reads_or_writes)
        if node.kind == "element":
            mine = [(node.buffer, *part) for part in node.parts] if node.is_transition() else []
        if is_bad([number], mine):
            return True
    return False


def hazard_war(reading, point, own):
    return judged(reading, own, reading.writes_of, lambda at, mine: conflicts(
        reading, at, mine, reading.reads_made, lambda n, b, k: reading.comes_before(n, at[0])
    ))


def hazard_raw(reading, point, own):
    return judged(reading, own, reading.reads_of, lambda at, mine: conflicts(
        reading, at, mine, reading.writes, lambda *w: sees(reading, at[0], "read", *w)
    ))


def hazard_waw(reading, point, own):
    return judged(reading, own, reading.writes_of, lambda at, mine: conflicts(
        reading, at, mine, reading.writes, lambda *w: sees(reading, at[0], "write", *w)
    ))


def read_undefined(reading, entry):
    return 0 in reading.defined[entry[1]][entry[2] : entry[2] + entry[3]]
