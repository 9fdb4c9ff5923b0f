"""The rules of a trace, in the order in which they are tested; from docs/FORMAT.md's table.

Each is a question to a reading (slow_reading.py) about a point that comes and the numbers of its nodes.
"""

from entries import aligned, is_tiled, place_of, rounded, usage_of
from hazard_rules import hazard_raw, hazard_war, hazard_waw, meets, read_undefined
from image_rules import bad_layout, bad_subresource, image_overlaps, misplaced_regions, old_layout
from image_rules import regions_past, texels_differ
from order_rules import event_dependency, event_state, is_partial, owner_pair, signal_order
from order_rules import signal_value, stage
from pass_rules import PASSES, ends_mapped, listed_twice, not_of_pool, of_linear, pass_busy, pass_state, pass_write
from points import ATOM, is_on_image, named_by
from shapes import Shape
from slow_room import in_pool

MOST_BYTES = 67_108_864
PAGE = 1_024
MOST_BLOCK, MOST_BLOCKS = 16_777_216, 64
NAMED_KINDS = {
    "clear": ("image",),
    "copy_in": ("buffer", "image"),
    "copy_out": ("image", "buffer"),
    "copy_image": ("image", "image"),
}


def new_id(reading, point, own):
    creating = ("buffer", "image", "memory", "pool", "semaphore", "event", "defrag")
    makes = point.kind == "host" and point.content[0] in creating
    return makes and point.content[1] in reading.made


def asked(point):
    """The ids that a point names, with the kinds that they are to be of."""
    content = point.content
    if point.kind in ("wait", "signal"):
        return [(content[0], "semaphore")]
    kinds = {"set": "event", "await": "event", "free": "memory", "drop_pool": "pool"}
    kinds.update(dict.fromkeys(("map", "unmap", "read", "write", "flush", "invalidate"), "buffer"))
    kinds["destroy"] = "resource"
    if point.kind == "command" and content[0] == "barrier":
        elements = content[2] + content[3]
        return [(element[6], "image" if is_on_image(element) else "buffer") for element in elements]
    if point.kind == "command" and content[0] not in kinds:
        return list(zip(named_by(content), NAMED_KINDS.get(content[0], ("buffer", "buffer"))))
    if content[0] in ("buffer", "image"):
        name, thing = place_of(content)[:2]
        return [] if name == "dedicated" else [(thing, "memory" if name == "memory" else "pool")]
    if content[0] in PASSES:
        return [(content[1], "defrag")]
    if content[0] in kinds:
        return [(content[1], kinds[content[0]])]
    if content[0] == "defrag":
        return [(content[2], "pool")]
    if content[0] == "signal":
        return [(content[1], "semaphore")]
    if content[0] == "wait":
        return [(wait[0], "semaphore") for wait in content[1]]
    return []


def live_id(reading, point, own):
    until = None if point.kind == "host" else point.entry
    if any(not reading.is_live(thing, kind, until) for thing, kind in asked(point)):
        return True
    return point.kind == "host" and point.content[0] == "end_pass" and not_of_pool(reading, point.content)


def host_entry(name):
    """A rule on host entries of this name."""
    return lambda rule: lambda reading, point, own: (
        point.kind == "host" and point.content[0] == name and rule(reading, point.content)
    )


def command(name):
    """A rule on commands of this name."""
    return lambda rule: lambda reading, point, own: (
        point.kind == "command" and point.content[0] == name and rule(reading, point.content)
    )


def either(*rules):
    return lambda reading, point, own: any(rule(reading, point, own) for rule in rules)


def queue_kind(reading, point, own):
    return point.kind == "command" and point.content[0] in ("clear", "set", "await") and point.queue >= 2


def fills_none(reading, fill):
    left = reading.size_of(fill[1]) - fill[2]
    return fill[3] == 0 or fill[3] == "whole" and 0 < left < 4


def leaves(reading, buffer, offset, size):
    """Whether a range isn't inside a buffer."""
    length = reading.size_of(buffer)
    return length <= offset if size == "whole" else length < offset + size


def misaligned(reading, fill):
    return fill[2] % 4 != 0 or fill[3] != "whole" and fill[3] % 4 != 0


def bound(rule):
    """A rule on resources that are bound in a memory object of the trace."""
    return resource(lambda r, e: place_of(e)[0] == "memory" and rule(r, e))


def on_command(rule):
    """A rule on all commands."""
    return lambda reading, point, own: point.kind == "command" and rule(reading, point.content)


def resource(rule):
    """A rule on entries that make a buffer or an image."""
    return either(host_entry("buffer")(rule), host_entry("image")(rule))


def ends_past(reading, entry):
    _, memory, offset = place_of(entry)
    return offset + rounded(entry) > reading.made[memory][1][3]


def is_misplaced(reading, entry):
    _, memory, offset = place_of(entry)
    return offset % aligned(entry) != 0 or reading.made[memory][1][2] == 2 and offset % ATOM != 0


def is_aliased(reading, entry):
    _, memory, _ = place_of(entry)
    others = (o for o in reading.live("resource") if place_of(o)[0] == "memory" and place_of(o)[1] == memory)
    return any(share_memory(entry, other) for other in others)


def share_memory(first, second):
    """Whether two resources of one memory object have a byte in common, or a page where just one of them
    is tiled."""
    unit = 1 if is_tiled(first) == is_tiled(second) else PAGE
    (low, high), (other_low, other_high) = pages(first, unit), pages(second, unit)
    return max(low, other_low) < min(high, other_high)


def pages(entry, unit):
    """The pages of so many bytes that a resource reaches, from the first to the one after the last."""
    low = place_of(entry)[2]
    return low // unit, (low + rounded(entry) - 1) // unit + 1


def bad_type(reading, entry):
    """Whether a memory type isn't there, or isn't allowed for a resource."""
    return reading.type_at(place_of(entry)) > (0 if is_tiled(entry) else 2)


def lacks_usage(reading, command):
    """Whether a command names a resource without the usage that it needs."""
    names = named_by(command)
    if command[0] == "barrier":
        changed = [e for e in command[3] if e[7] != e[8]]
        return any(lacks(reading, e[6], e[8] - 5) for e in changed if e[8] in (6, 7))
    is_copy = command[0] in ("copy", "copy_in", "copy_out", "copy_image")
    return bool(names) and (lacks(reading, names[-1], 2) or is_copy and lacks(reading, names[0], 1))


def reaches_past(reading, item):
    return any(high > reading.size_of(buffer) for buffer, _, high in reading.writes_of(item) + reading.reads_of(item))


def overlaps(reading, copy):
    writes, reads = reading.writes_of(copy), reading.reads_of(copy)
    twice = any(meets(w, v) for k, w in enumerate(writes) for v in writes[:k])
    return twice or any(meets(w, r) for w in writes for r in reads)


def lacks(reading, resource, bit):
    return not usage_of(reading.made[resource][1]) & bit


def bad_pool(reading, entry):
    """Whether the blocks of a pool or their limit are outside their bounds."""
    _, _, _, _, size, limit = entry
    return size % PAGE != 0 or not 0 < size <= MOST_BLOCK or not 0 < limit <= MOST_BLOCKS


def over_half(reading, entry):
    """Whether a resource asks for more than half a block of its pool."""
    return in_pool(entry) and 2 * rounded(entry) > reading.made[place_of(entry)[1]][1][4]


def no_upper_end(reading, entry):
    """Whether a place is at the upper end of a pool that isn't linear or may have several blocks."""
    name, pool = place_of(entry)[:2]
    return name == "pool_upper" and (reading.made[pool][1][2] != "linear" or reading.made[pool][1][5] != 1)


def bad_map(reading, entry):
    return place_of(reading.made[entry[1]][1])[0] == "memory" and reading.is_mapped(entry[1])


def bad_end(reading, entry):
    return place_of(reading.made[entry[1]][1])[0] != "memory" and reading.is_mapped(entry[1])


def in_use(reading, point, own):
    if point.kind != "host":
        return False
    name, thing = point.content[0], point.content[1] if len(point.content) > 1 else None
    if name == "destroy":
        return reading.is_busy(thing, own[0])
    if name in ("free", "drop_pool"):
        places = [place_of(entry) for entry in reading.live("resource")]
        return any(place[0] != "dedicated" and place[1] == thing for place in places)
    return False


NEED_A_MAPPING = ("read", "write", "flush", "invalidate", "unmap")
RULES = [
    ("NEW_ID", new_id),
    ("LIVE_ID", live_id),
    ("QUEUE", host_entry("submit")(lambda r, e: e[1] > 3)),
    ("QUEUE_KIND", queue_kind),
    (
        "SIZE",
        either(
            host_entry("buffer")(lambda r, e: e[2] == 0),
            host_entry("image")(lambda r, e: Shape(e).is_bad()),
            host_entry("pool")(bad_pool),
            *(command(name)(lambda r, c: not c[-1]) for name in NAMED_KINDS),
            host_entry("read")(lambda r, e: e[3] == 0),
            host_entry("write")(lambda r, e: not e[3]),
            host_entry("flush")(lambda r, e: e[3] == 0),
            host_entry("invalidate")(lambda r, e: e[3] == 0),
            host_entry("wait")(lambda r, e: not e[1]),
            command("fill")(fills_none),
            command("update")(lambda r, c: not 0 < len(c[3]) // 2 <= 65_536),
            command("copy")(lambda r, c: not c[3] or any(region[2] == 0 for region in c[3])),
            command("barrier")(lambda r, c: any(element[8] == 0 for element in c[2])),
        ),
    ),
    (
        "USAGE",
        either(
            resource(lambda r, e: not 0 < usage_of(e) <= 3),
            on_command(lacks_usage),
        ),
    ),
    (
        "MEMORY_TYPE",
        either(
            resource(bad_type),
            host_entry("memory")(lambda r, e: e[2] > 2),
            host_entry("pool")(lambda r, e: e[3] > 2),
        ),
    ),
    (
        "MEMORY_SIZE",
        either(
            resource(lambda r, e: rounded(e) > MOST_BYTES),
            host_entry("memory")(lambda r, e: not 0 < e[3] <= MOST_BYTES),
        ),
    ),
    ("POOL_SIZE", resource(over_half)),
    ("BIND_RANGE", bound(ends_past)),
    ("BIND_ALIGN", bound(is_misplaced)),
    ("ALIASED", bound(is_aliased)),
    (
        "RANGE",
        either(
            host_entry("read")(reaches_past),
            host_entry("write")(reaches_past),
            host_entry("flush")(lambda r, e: leaves(r, *e[1:])),
            host_entry("invalidate")(lambda r, e: leaves(r, *e[1:])),
            command("fill")(lambda r, c: leaves(r, *c[1:4])),
            command("update")(reaches_past),
            command("copy")(reaches_past),
            command("copy_in")(regions_past),
            command("copy_out")(regions_past),
            command("barrier")(lambda r, c: any(leaves(r, *element[6:]) for element in c[2])),
        ),
    ),
    (
        "ALIGN",
        either(
            command("fill")(misaligned),
            command("update")(lambda r, c: c[2] % 4 != 0 or len(c[3]) // 2 % 4 != 0),
            misplaced_regions,
        ),
    ),
    (
        "OVERLAP",
        either(
            command("copy")(overlaps),
            *(command(name)(image_overlaps) for name in (*NAMED_KINDS, "barrier")),
            host_entry("end_pass")(listed_twice),
        ),
    ),
    ("FORMAT", command("copy_image")(texels_differ)),
    ("SUBRESOURCE", on_command(bad_subresource)),
    ("STAGE", stage),
    ("LAYOUT", on_command(bad_layout)),
    ("OLD_LAYOUT", old_layout),
    ("OWNER_WHOLE", command("barrier")(lambda r, c: any(is_partial(r, e) for e in c[2] + c[3]))),
    ("OWNER_PAIR", owner_pair),
    ("EVENT_STATE", event_state),
    ("EVENT_DEPENDENCY", event_dependency),
    ("SIGNAL_VALUE", signal_value),
    ("SIGNAL_ORDER", signal_order),
    ("WAIT_NEVER", host_entry("wait")(lambda r, e: any(w[1] > r.counters[w[0]] for w in e[1]))),
    (
        "MAP_STATE",
        either(
            *(host_entry(name)(lambda r, e: not r.is_mapped(e[1])) for name in NEED_A_MAPPING),
            host_entry("map")(bad_map),
            host_entry("destroy")(bad_end),
            host_entry("end_pass")(ends_mapped),
        ),
    ),
    ("HOST_VISIBLE", host_entry("map")(lambda r, e: r.type_of(e[1]) == 0)),
    ("POOL_KIND", either(resource(no_upper_end), host_entry("defrag")(of_linear))),
    ("PASS_STATE", pass_state),
    ("PASS_BUSY", pass_busy),
    ("PASS_WRITE", pass_write),
    ("HAZARD_WAR", hazard_war),
    ("HAZARD_RAW", hazard_raw),
    ("HAZARD_WAW", hazard_waw),
    ("IN_USE", in_use),
    ("READ_UNDEFINED", host_entry("read")(read_undefined)),
]
