"""A slow reading of traces: what one answers, by plain walks over all that came before.

It is written from docs/FORMAT.md alone, for the forms that `replay` takes today, and shares nothing with
the program: each buffer and each image has one private map of bytes, also where the host reaches it through
a cache, and commands take effect one at a time, in reference order. The bytes of an image are numbered as
shapes.py says. Where an allocation finds no room, slow_room.py says. Each node keeps the set of all nodes
before it.
"""

from entries import place_of, sharing_of
from points import ATOM, Batch, Point, family_of, is_on_image, named_by, reached, same_place
from rules import RULES
from shapes import Shape, box_of, buffer_rows, destination_box, source_box
from slow_passes import defragment
from slow_room import Room


class Reading:
    """A trace as far as it was read: its nodes and their order, and the bytes of each buffer."""

    def __init__(self, heaps):
        self.room = Room(heaps)
        self.count = 0
        self.made = {}
        self.nodes = []
        # For each node the nodes with an edge to it, and all that are before it, as bits.
        self.edges = []
        self.before = []
        self.counters = {}
        self.signals = {}
        self.sets = {}
        # Of ended ids the entries that ended them; of batches all commands that were submitted.
        self.ended = {}
        self.submitted = []
        # How much more often each memory object, or buffer in memory of its own, is mapped than unmapped.
        self.maps = {}
        self.values = {}
        self.defined = {}
        # Of buffers in cached memory the bytes that the host has written and not flushed.
        self.dirty = {}
        # The family that owns an exclusive buffer, with the node of its release where it has released it.
        self.owners = {}
        # The shapes of images, and the current layouts of their subresources that had a transition.
        self.shapes = {}
        self.layouts = {}
        # Each access: its node, its buffer, and its bytes from the first to the one after the last.
        self.writes = []
        self.reads_made = []
        self.waiting = []
        self.reads = []
        # The defragmentation whose pass is open.
        self.in_pass = None
        self.fault = None
        self.stop = None

    def copy(self):
        """The same again, to try what may come next."""
        other = Reading(self.room.free)
        for name, value in vars(self).items():
            setattr(other, name, value.copy() if hasattr(value, "copy") else value)
        for name in ("values", "defined", "dirty", "signals", "sets", "layouts"):
            setattr(other, name, {i: held.copy() for i, held in getattr(self, name).items()})
        return other

    # ---- order

    def apply(self, entry):
        """Reads one more entry, and the batches that are started then. After a fault nothing counts."""
        if self.fault is not None:
            return
        batches = []
        if entry[0] == "submit":
            for number, content in enumerate(entry[2]):
                waits = [wait for wait in content[0] if wait[0] in self.counters]
                batches.append(Batch(self.count, number, entry[1], content, waits))
        self.come(Point("host", entry, self.count))
        for batch in batches:
            self.submitted += [p for p in batch.points() if p.kind == "command"]
        self.waiting += batches
        while self.fault is None:
            batch = self.next_batch()
            if batch is None:
                break
            self.waiting.remove(batch)
            for point in batch.points():
                if self.fault is None:
                    self.come(point)
        self.count += 1

    def next_batch(self):
        """The first waiting batch that may be started: none of its queue is before it, its waits are met."""
        held = set()
        for batch in self.waiting:
            met = all(wait[1] <= self.counters[wait[0]] for wait in batch.waits)
            if met and batch.queue not in held:
                return batch
            held.add(batch.queue)
        return None

    def add_node(self, node):
        """Finds the nodes before it by a walk over all earlier ones."""
        edges = 0
        for number, earlier in enumerate(self.nodes):
            if earlier.leads_to(node):
                edges |= 1 << number
        for semaphore, value in node.waited():
            edges |= self.awaited(semaphore, value)
        before = edges
        for number in range(len(self.nodes)):
            if edges >> number & 1:
                before |= self.before[number]
        if node.kind == "element" and node.buffer in self.shapes and is_on_image(node.content):
            node.parts = list(self.shapes[node.buffer].subresources(node.content[9]))
        self.nodes.append(node)
        self.edges.append(edges)
        self.before.append(before)

    def awaited(self, semaphore, value):
        """The signals that a wait comes after: those of the least value that is enough."""
        initial = self.made[semaphore][1][2] if self.is_live(semaphore, "semaphore") else None
        if initial is not None and initial >= value:
            return 0
        enough = [signal for signal in self.signals.get(semaphore, []) if signal[0] >= value]
        least = min((signal[0] for signal in enough), default=None)
        return sum({1 << number for given, number in enough if given == least})

    def comes_before(self, first, second):
        return bool(self.before[second] >> first & 1)

    def reaches(self, first, second):
        return first == second or self.comes_before(first, second)

    # ---- points

    def come(self, point):
        """A point comes: it breaks a rule, or takes effect."""
        first = len(self.nodes)
        for node in point.nodes():
            self.add_node(node)
        own = range(first, len(self.nodes))
        for rule, breaks in RULES:
            if breaks(self, point, own):
                self.fault = f"refused {point.at()} {rule}\n"
                return
        self.take_effect(point, own)

    def take_effect(self, point, own):
        name = point.content[0]
        if point.kind == "signal" or point.kind == "host" and name == "signal":
            semaphore, value = self.nodes[own[0]].signaled()
            self.counters[semaphore] = value
            self.signals.setdefault(semaphore, []).append((value, own[0]))
        elif point.kind == "host":
            self.host_effect(point.content, own)
        elif point.kind == "command" and name not in ("barrier", "set", "await"):
            self.change(point, own[0])
        elif point.kind == "command" and name == "barrier":
            self.hand_over(own)
        elif point.kind == "command" and name == "set":
            self.sets.setdefault(point.content[1], []).append((point.queue, point.content[2]))

    def host_effect(self, entry, own):
        if entry[0] in ("buffer", "image", "memory", "pool", "semaphore", "event", "defrag"):
            self.made[entry[1]] = (self.count, entry)
        if entry[0] == "semaphore":
            self.counters[entry[1]] = entry[2]
        elif entry[0] in ("map", "unmap"):
            thing = self.mapping(entry[1])
            self.maps[thing] = self.maps.get(thing, 0) + (1 if entry[0] == "map" else -1)
        elif entry[0] in ("buffer", "image", "memory", "pool"):
            self.make(entry)
        elif entry[0] in ("destroy", "free", "drop_pool"):
            self.ended[entry[1]] = self.count
            self.room.end(entry[1])
        elif entry[0] in ("pass", "end_pass", "end_defrag"):
            defragment(self, entry)
        elif entry[0] == "write":
            _, buffer, offset, text = entry
            given = bytes.fromhex(text)
            self.give(buffer, offset, [(value, 1) for value in given])
            if self.is_cached(buffer):
                self.dirty[buffer][offset : offset + len(given)] = b"\x01" * len(given)
            self.writes += [(own[0], *r) for r in self.writes_of(entry)]
        elif entry[0] in ("flush", "invalidate"):
            self.clean(entry)
        elif entry[0] == "read":
            _, buffer, offset, size = entry
            self.reads_made += [(own[0], *r) for r in self.reads_of(entry)]
            read = bytes(self.values[buffer][offset : offset + size])
            self.reads.append((self.count, read, buffer, offset, len(self.writes)))

    def clean(self, entry):
        """A flush, or an invalidation, which loses the bytes that the host has written and not flushed."""
        name, buffer, _, _ = entry
        first, last = reached(entry)
        low, size = ATOM * first, self.size_of(buffer)
        for byte in range(low, size if last is None else min(size, ATOM * (last + 1))):
            if self.dirty[buffer][byte] and name == "invalidate":
                self.defined[buffer][byte] = 0
            self.dirty[buffer][byte] = 0

    def make(self, entry):
        """A resource gets undefined bytes; what is made gets memory, where there is room for it."""
        if entry[0] == "image":
            self.shapes[entry[1]] = Shape(entry)
            self.layouts[entry[1]] = {}
        if entry[0] in ("buffer", "image"):
            for table in (self.values, self.defined, self.dirty):
                table[entry[1]] = bytearray(self.size_of(entry[1]))
        if self.stop is None and not self.room.make(entry):
            self.stop = self.count

    def mapping(self, resource):
        """What is mapped with a resource: the memory object of its place, or itself."""
        place = place_of(self.made[resource][1])
        return place[1] if place[0] == "memory" else resource

    def give(self, buffer, offset, given):
        """Gives bytes of a buffer values, each with whether it is defined."""
        self.values[buffer][offset : offset + len(given)] = bytes(value for value, _ in given)
        self.defined[buffer][offset : offset + len(given)] = bytes(is_so for _, is_so in given)

    def use(self, buffer, family):
        """A family uses a buffer: of an exclusive one it loses what another family has owned or released."""
        if self.is_exclusive(buffer):
            owner, _ = self.owners.get(buffer, (family, None))
            if owner != family:
                self.defined[buffer] = bytearray(len(self.defined[buffer]))
            self.owners[buffer] = (family, None)

    def hand_over(self, own):
        """The elements of a barrier release resources and acquire them, and change layouts."""
        for number in own:
            node = self.nodes[number]
            family = family_of(node.point.queue)
            if node.half() == "release":
                self.use(node.buffer, family)
                self.owners[node.buffer] = (family, number)
            elif node.half() is None and node.is_transition():
                self.use(node.buffer, family)
            if node.is_transition():
                self.transition(number)
            if node.half() == "acquire":
                self.owners[node.buffer] = (family, None)

    def transition(self, number):
        """Subresources get their new layout, and lose their bytes where the old one was UNDEFINED. All of
        them are read and written."""
        node = self.nodes[number]
        _, _, _, _, _, _, image, old, new, part = node.content
        for low, high in self.shapes[image].subresources(part):
            self.layouts[image][low] = new
            if old == 0:
                self.defined[image][low:high] = bytes(high - low)
        self.writes += [(number, image, *part) for part in node.parts]
        self.reads_made += [(number, image, *part) for part in node.parts]

    def current_layouts(self, image, part):
        """The layouts that the subresources of levels and layers have."""
        return {self.layouts[image].get(low, 0) for low, _ in self.shapes[image].subresources(part)}

    def change(self, point, number):
        """A fill, an update, a clear or a copy takes effect."""
        command = point.content
        for resource in named_by(command):
            self.use(resource, family_of(point.queue))
        for buffer, low, given in self.given(command):
            self.give(buffer, low, given)
        self.writes += [(number, *r) for r in self.writes_of(command)]
        self.reads_made += [(number, *r) for r in self.reads_of(command)]

    def given(self, command):
        """What a command writes: a buffer, the first byte, and the values."""
        if command[0] == "fill":
            low, high = self.filled(command)
            word = command[4].to_bytes(4, "little")
            return [(command[1], low, [(value, 1) for value in word * ((high - low) // 4)])]
        if command[0] == "update":
            return [(command[1], command[2], [(value, 1) for value in bytes.fromhex(command[3])])]
        if command[0] == "clear":
            _, image, _, color, _ = command
            shape = self.shapes[image]
            texel = [(value, 1) for value in shape.colored(color)]
            return [(image, low, texel * ((high - low) // shape.texel)) for _, low, high in self.writes_of(command)]
        source, destination = named_by(command)
        values, defined = self.values[source], self.defined[source]
        rows = zip(self.reads_of(command), self.writes_of(command))
        taken = ((to, range(low, high)) for (_, low, high), (_, to, _) in rows)
        return [(destination, to, [(values[k], defined[k]) for k in places]) for to, places in taken]

    def writes_of(self, item):
        """The ranges that an entry or a command writes: buffers, first bytes, and the ones after the last."""
        if item[0] == "fill":
            return [(item[1], *self.filled(item))]
        if item[0] in ("update", "write"):
            return [(item[1], item[2], item[2] + len(item[3]) // 2)]
        if item[0] == "copy":
            return [(item[2], to, to + size) for _, to, size in item[3]]
        if item[0] == "clear":
            parts = (part for each in item[4] for part in self.shapes[item[1]].subresources(each))
            return [(item[1], *part) for part in parts]
        if item[0] in ("copy_in", "copy_image"):
            return self.rows_of(item, named_by(item)[1], destination_box)
        return self.buffer_ranges(item) if item[0] == "copy_out" else []

    def reads_of(self, item):
        """The ranges that it reads."""
        if item[0] == "read":
            return [(item[1], item[2], item[2] + item[3])]
        if item[0] == "copy":
            return [(item[1], at, at + size) for at, _, size in item[3]]
        if item[0] in ("copy_out", "copy_image"):
            return self.rows_of(item, item[1], source_box)
        return self.buffer_ranges(item) if item[0] == "copy_in" else []

    def rows_of(self, copy, image, box):
        """The ranges of an image's bytes that a copy reads or writes, row by row."""
        box = box if copy[0] == "copy_image" else box_of
        rows = (row for region in copy[-1] for row in self.shapes[image].rows(*box(region)))
        return [(image, *row) for row in rows]

    def buffer_ranges(self, copy):
        """The ranges of a buffer's bytes that a copy with an image reads or writes, row by row."""
        source, destination = named_by(copy)
        buffer, image = (source, destination) if copy[0] == "copy_in" else (destination, source)
        texel = self.shapes[image].texel
        return [(buffer, *row) for region in copy[-1] for row in buffer_rows(region, texel)]

    def filled(self, fill):
        """The bytes of a fill, from the first to the one after the last."""
        _, buffer, offset, size, _ = fill
        if size == "whole":
            size = max(self.size_of(buffer) - offset, 0) // 4 * 4
        return offset, offset + size

    # ---- questions of the rules

    def is_live(self, thing, kind, until=None):
        """Whether an id was made as this kind, and hasn't ended, before entry `until`."""
        number, entry = self.made.get(thing, (0, [None]))
        end = self.ended.get(thing)
        has_ended = end is not None and (until is None or end < until)
        kinds = ("buffer", "image") if kind == "resource" else (kind,)
        return entry[0] in kinds and (until is None or number < until) and not has_ended

    def live(self, kind):
        """The entries that made what is live of a kind."""
        return [entry for thing, (_, entry) in self.made.items() if self.is_live(thing, kind)]

    def type_of(self, resource):
        """The memory type of a resource."""
        return self.type_at(place_of(self.made[resource][1]))

    def type_at(self, place):
        if place[0] == "dedicated":
            return place[1]
        return self.made[place[1]][1][2 if place[0] == "memory" else 3]

    def is_cached(self, buffer):
        """Whether the host reaches a buffer through a cache."""
        return self.type_of(buffer) == 2

    def is_exclusive(self, buffer):
        return sharing_of(self.made[buffer][1]) == "exclusive"

    def is_mapped(self, buffer):
        return buffer in self.made and self.maps.get(self.mapping(buffer), 0) > 0

    def is_busy(self, buffer, host):
        """Whether a submitted command that names a buffer isn't known complete at a host entry's node."""
        for command in self.submitted:
            if buffer in named_by(command.content):
                own = (k for k, node in enumerate(self.nodes) if same_place(node.point, command))
                nodes = [k for k in own if self.nodes[k].names(buffer)]
                if not nodes or not all(self.comes_before(k, host) for k in nodes):
                    return True
        return False

    def size_of(self, resource):
        """How many bytes a buffer or an image has."""
        return self.shapes[resource].bytes() if resource in self.shapes else self.made[resource][1][2]

    def answer(self):
        """What is printed, and the exit status."""
        if self.fault is not None:
            return self.fault, 1
        reads = [r for r in self.reads if self.stop is None or r[0] < self.stop]
        lines = "".join(f"{r[0]} {r[1].hex()}\n" for r in reads)
        if self.stop is None:
            return lines, 0
        return lines + f"stopped {self.stop} NO_ROOM\n", 3


def read(trace, heaps):
    """The reading of a whole trace."""
    reading = Reading(heaps)
    for entry in trace:
        reading.apply(entry)
    return reading
