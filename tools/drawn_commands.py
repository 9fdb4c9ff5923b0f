"""Draws commands: fills, updates, copies, barriers, ownership transfers, and sets and awaits of events."""

from drawn_images import Images
from growing import EVENTS, MOST, SEMAPHORES, UNKNOWN
from points import ALL_COMMANDS, HOST, TRANSFER, family_of, named_by

SOURCES = ((TRANSFER, 4096), (ALL_COMMANDS, 65536), (TRANSFER, 65536), (ALL_COMMANDS, 6144))
DESTINATIONS = ((TRANSFER, 4096), (TRANSFER, 6144), (ALL_COMMANDS, 98304), (TRANSFER | HOST, 12288))
HOST_DESTINATIONS = ((HOST, 8192), (HOST, 32768), (ALL_COMMANDS | HOST, 98304))
ODD_MASKS = ((0, 0), (TRANSFER, 2048), (HOST, 16384), (TRANSFER, 0), (TRANSFER, 8192), (1, 4096), (HOST, 8192))
ALL_SEEN = (ALL_COMMANDS, 65536, ALL_COMMANDS, 98304)
# Equal families are no transfer, whichever they are.
EQUAL_FAMILIES = ((0, 0), (1, 1), (4_294_967_295, 4_294_967_295), (5, 5))
ODD_FAMILIES = ((0, 2), (2, 0), (2, 3), (0, 4_294_967_295), (4_294_967_295, 1), (0, 1), (1, 0))


class Commands(Images):
    """The commands of a trace that grows."""

    # ---- elements of barriers

    def masks(self, usual):
        return self.random.choice(ODD_MASKS if self.slip() or self.chance(0.05) else usual)

    def element(self):
        usual = HOST_DESTINATIONS if self.chance(0.25) else DESTINATIONS
        return [*self.masks(SOURCES), *self.masks(usual)]

    def elements(self):
        return [self.element() for _ in range(self.random.choice((1, 1, 1, 2, 3)))]

    def buffer_element(self):
        """An element on a range of a buffer, without a transfer."""
        buffer = self.any_buffer()
        size = self.sizes[buffer]
        low = self.place_in(size)
        part = (low, self.random.choice(("whole", size - low, self.random.randint(1, size - low))))
        low, count = self.random.choice(((0, "whole"), (0, size), part, part))
        if self.slip():
            buffer = self.random.choice((buffer, buffer, buffer, UNKNOWN, SEMAPHORES[0]))
            low, count = self.random.choice(((0, 0), (size, "whole"), (size, 1), (0, size + 1), (1, MOST)))
        return [*self.element(), *self.random.choice(EQUAL_FAMILIES), buffer, low, count]

    def barrier(self):
        """A barrier of elements on all memory, on ranges of buffers, or of both kinds."""
        shares = self.random.choice(((1, 0), (1, 0), (0, 1), (0, 1), (1, 1)))
        ranged = [self.buffer_element() for _ in range(self.random.choice((1, 1, 2, 3)) * shares[1])]
        return ["barrier", self.elements() * shares[0], ranged, []]

    def helping(self, command, queue):
        """A barrier that makes what came before visible to a command: by an element on all memory, or
        by one for each range that the command reaches. With a slip a range has a byte too few, or the
        element is a release."""
        buffers = set(named_by(command))
        if command[0] == "barrier" or not buffers <= self.sizes.keys() or self.chance(0.5):
            return ["barrier", [list(ALL_SEEN)], [], []]
        elements = []
        for buffer, low, high in self.reading.writes_of(command) + self.reading.reads_of(command):
            families = self.random.choice(EQUAL_FAMILIES)
            if self.slip():
                low, high = self.random.choice(((low + 1, high), (low, high - 1), (0, self.sizes[buffer])))
                if low == 0 and high == self.sizes[buffer] and self.reading.is_exclusive(buffer):
                    families = (family_of(queue), 1 - family_of(queue))
            if low < high:
                elements.append([*ALL_SEEN, *families, buffer, low, high - low])
        return ["barrier", [], elements, []]

    # ---- ownership transfers

    def owner(self, buffer):
        return self.reading.owners.get(buffer, (None, None))

    def acquire(self, family):
        """The other half of a release to a family."""
        releases = [self.owner(b)[1] for b in self.sizes if self.owner(b)[1] is not None]
        contents = [self.reading.nodes[release].content for release in releases]
        for content in self.random.sample(contents, len(contents)):
            if content[5] == family:
                return [*self.element(), *content[4:7], *self.all_of(content[6])]
        return None

    def release(self, family):
        """A release by a family, mostly of a buffer that no other family owns."""
        exclusive = [b for b in self.sizes if self.reading.is_exclusive(b)]
        own = [b for b in exclusive if self.owner(b)[0] in (None, family) and self.owner(b)[1] is None]
        buffers = own if own and not self.slip() and self.chance(0.9) else exclusive
        if not buffers:
            return None
        buffer = self.random.choice(buffers)
        return [*self.element(), family, 1 - family, buffer, *self.all_of(buffer)]

    def all_of(self, buffer):
        return 0, self.random.choice(("whole", self.sizes[buffer]))

    def transfer(self, family):
        """Half of an ownership transfer."""
        element = self.acquire(family) if self.chance(0.6) else None
        element = self.release(family) if element is None else element
        return None if element is None else self.with_slip(element)

    def with_slip(self, element):
        """Half of a transfer, or with a slip an element that fits nothing."""
        at_owners = self.kept[0] in ("OWNER_PAIR", "OWNER_WHOLE")
        if not (self.misses() if at_owners else self.slip()):
            return element
        masks, families, buffer, whole = element[:4], element[4:6], element[6], element[7:]
        size = self.sizes[buffer]
        odd_range = self.random.choice(((0, size - 1), (1, "whole"), (1, size - 1)))
        odd_families = self.random.choice((*ODD_FAMILIES, element[5:3:-1]))
        concurrent = [b for b in self.sizes if not self.reading.is_exclusive(b)] or [buffer]
        odd = [[*odd_families, buffer, *whole], [*families, self.random.choice(concurrent), 0, "whole"]]
        if self.kept[0] != "OWNER_PAIR":
            odd.append([*families, buffer, *odd_range])
        return [*masks, *self.random.choice(odd)]

    def transfers(self, queue):
        """A barrier with one or two halves of transfers; at times the second undoes the first."""
        element = self.transfer(family_of(queue))
        if element is None:
            return self.barrier()
        elements = [element]
        if self.chance(0.1):
            elements.append([*self.element(), *element[5:3:-1], *element[6:]])
        elif self.chance(0.15):
            second = self.transfer(family_of(queue))
            elements += [second] * (second is not None and (second[6] != element[6] or self.slips > 0))
        elif self.chance(0.15):
            elements.append(self.buffer_element())
        return ["barrier", self.elements() if self.chance(0.15) else [], elements, []]

    # ---- clears and copies

    def fill(self):
        buffer = self.any_buffer()
        word = self.random.getrandbits(32)
        words = max(1, self.sizes[buffer] // 4)
        if self.slip():
            buffer = self.random.choice((buffer, buffer, UNKNOWN, SEMAPHORES[0]))
            end = 4 * words
            odd = ((2, 4), (0, 6), (end + 4, 4), (0, 0), (end, "whole"), (0, end + 4))
            return ["fill", buffer, *self.random.choice(odd), word]
        first = self.random.choice((0, self.place_in(words)))
        count = self.random.randint(1, self.random.choice((min(16, words - first), words - first)))
        return ["fill", buffer, 4 * first, "whole" if self.chance(0.2) else 4 * count, word]

    def update(self):
        buffer = self.any_buffer()
        words = max(1, self.sizes[buffer] // 4)
        if self.slip():
            odd = ((2, "00000000"), (0, "0000"), (4 * words, "00000000"), (0, ""))
            return ["update", buffer, *self.random.choice(odd)]
        first = self.place_in(words)
        return ["update", buffer, 4 * first, self.bytes(4 * self.random.randint(1, min(6, words - first)))]

    def copy(self):
        """A copy of one to three regions, mostly of bytes that are defined."""
        source, destination = self.any_buffer(), self.any_buffer()
        regions = []
        for _ in range(self.random.choice((1, 1, 2, 3))):
            at = self.place_in(self.sizes[source])
            defined = self.reading.defined.get(source, b"").find(1)
            at = defined if defined >= 0 and self.chance(0.7) else at
            to = self.place_in(self.sizes[destination])
            most = min(self.sizes[source] - at, self.sizes[destination] - to)
            if self.slip():
                most = self.random.choice((0, most + 1))
            regions.append([at, to, self.random.choice((most, self.random.randint(1, max(1, most))))])
        return ["copy", source, destination, regions]

    # ---- events

    def event_command(self, queue):
        """A set of a new event, or an await of one that was set; its elements are those of the set."""
        event = self.random.choice(EVENTS)
        sets = self.reading.sets.get(event, [])
        if sets:
            others = [[*self.masks(SOURCES), *self.masks(DESTINATIONS)]]
            return ["await" if not self.slip() else "set", event, others if self.slip() else sets[0][1]]
        elements = [[*self.masks(SOURCES), *self.masks(DESTINATIONS + HOST_DESTINATIONS)] for _ in range(2)]
        return ["set", event, elements[: self.random.randint(1, 2)]]

    # ---- the commands of a submit

    def commands(self, queue):
        drawn = []
        for _ in range(self.random.choice((0, 1, 2, 3, 4, 6))):
            kind = self.random.random()
            if not self.sizes:
                drawn.append(["barrier", self.elements(), [], []])
            elif self.pictures and self.chance(0.45):
                drawn += self.image_transfer(queue) if self.chance(0.15) else self.image_commands(queue)
            elif kind < 0.54:
                drawn.append(self.random.choice((self.fill, self.fill, self.update, self.copy, self.copy))())
            elif kind < 0.72 and (queue < 2 or self.slip()):
                drawn.append(self.event_command(queue))
            elif kind < 0.86:
                drawn.append(self.transfers(queue))
                drawn += self.around(drawn[-1])
            else:
                drawn.append(self.barrier())
        return drawn

    def around(self, transfers):
        """At times a command that uses the buffer of a transfer, after it."""
        buffers = [b for b in named_by(transfers) if b in self.sizes]
        if not buffers or self.chance(0.5):
            return []
        buffer = self.random.choice(buffers)
        return [self.use_of(buffer) if self.chance(0.4) else self.use_from(buffer)]

    def use_of(self, buffer):
        """A fill or an update of a buffer."""
        if self.chance(0.7):
            return ["fill", buffer, 0, self.random.choice(("whole", 4)), self.random.getrandbits(32)]
        return ["update", buffer, 0, self.bytes(4 * self.random.randint(1, 4))]

    def use_from(self, buffer):
        """A copy of the first bytes of a buffer to those of another one."""
        other = self.any_buffer()
        most = min(self.sizes[buffer], self.sizes[other])
        size = self.random.choice((most, self.random.randint(1, most)))
        return ["copy", buffer, other, [[0, 0, size]]]
