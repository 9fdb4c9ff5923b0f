"""The rules on passes of a defragmentation; from docs/FORMAT.md's table."""

from entries import place_of
from points import named_by
from slow_room import in_pool

PASSES = ("pass", "end_pass", "end_defrag")


def listed(entry):
    """The resources that the end of a pass lists: those that stay, and those that are destroyed."""
    return entry[2] + entry[3] if entry[0] == "end_pass" else []


def pool_of(reading, thing):
    """The pool of a resource, if it is in one."""
    entry = reading.made.get(thing, (0, [None]))[1]
    return place_of(entry)[1] if in_pool(entry) else None


def not_of_pool(reading, entry):
    """Whether the end of a pass lists what isn't a live resource of its pool."""
    pool = reading.made[entry[1]][1][2]
    return any(not reading.is_live(i, "resource") or pool_of(reading, i) != pool for i in listed(entry))


def listed_twice(reading, entry):
    return len(set(listed(entry))) < len(listed(entry))


def ends_mapped(reading, entry):
    """Whether the end of a pass destroys what is mapped."""
    return any(reading.is_mapped(thing) for thing in entry[3])


def of_linear(reading, entry):
    return reading.made[entry[2]][1][2] == "linear"


def pass_state(reading, point, own):
    """Whether an entry doesn't fit the defragmentations and the pass that are open."""
    if point.kind != "host":
        return False
    name, thing = point.content[0], point.content[1] if len(point.content) > 1 else None
    open_pools = [entry[2] for entry in reading.live("defrag")]
    if name in ("defrag", "drop_pool"):
        return (point.content[2] if name == "defrag" else thing) in open_pools
    if name == "pass":
        return reading.in_pass is not None
    if name == "end_pass":
        return reading.in_pass != thing
    if name == "end_defrag":
        return reading.in_pass == thing
    return name == "destroy" and is_moving(reading, thing)


def pass_pool(reading):
    """The pool in which a pass is open."""
    return None if reading.in_pass is None else reading.made[reading.in_pass][1][2]


def is_moving(reading, thing):
    """Whether a resource is of the pool in which a pass is open."""
    pool = pass_pool(reading)
    return pool is not None and pool_of(reading, thing) == pool


def pass_busy(reading, point, own):
    """Whether a command that names a resource of the pool isn't known complete at its pass or its end."""
    if point.kind != "host" or point.content[0] not in ("pass", "end_pass"):
        return False
    pool = reading.made[point.content[1]][1][2]
    of_pool = [entry[1] for entry in reading.live("resource") if pool_of(reading, entry[1]) == pool]
    return any(reading.is_busy(thing, own[0]) for thing in of_pool)


def pass_write(reading, point, own):
    """Whether a write or a layout transition is to a resource of the pool in which a pass is open."""
    written = [thing for thing, _, _ in reading.writes_of(point.content)] if is_write(point) else []
    nodes = [reading.nodes[number] for number in own]
    written += [node.buffer for node in nodes if node.kind == "element" and node.is_transition()]
    return any(is_moving(reading, thing) for thing in written)


def is_write(point):
    names = ("fill", "update", "copy", "clear", "copy_in", "copy_out", "copy_image")
    return point.content[0] == "write" if point.kind == "host" else point.content[0] in names
