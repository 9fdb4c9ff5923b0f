"""Draws courses of several entries: transfers of ownership, read-backs, uploads, and ends of buffers."""

from drawn_batches import Batches
from drawn_commands import ALL_SEEN
from drawn_host import HostEntries
from growing import SEMAPHORES
from points import ALL_COMMANDS, family_of


class Courses(Batches, HostEntries):
    """The courses of a trace that grows."""

    def hand_over(self):
        """A buffer is used by a family, released by it, and acquired and used by the other one."""
        exclusive = [b for b in self.sizes if self.reading.is_exclusive(b)]
        if not exclusive:
            return
        buffer = self.random.choice(exclusive)
        family = self.owner(buffer)[0]
        family = self.random.randrange(2) if family is None else family
        family = 1 - family if self.misses() and self.chance(0.4) else family
        if self.chance(0.2):
            self.submit_all(1 - family, [self.use_of(buffer)], self.chance(0.5))
        used = [self.use_of(buffer)] if self.chance(0.8) else []
        halves = [[*self.element(), family, 1 - family, buffer, *self.all_of(buffer)] for _ in range(2)]
        first, second = (self.with_slip(half) for half in halves)
        self.submit_all(family, [*used, ["barrier", [], [first], []]], not self.slip())
        taken = [] if self.slip() else [["barrier", [], [second], []]]
        uses = [self.use_from(buffer) for _ in range(self.random.randint(1, 2))]
        self.submit_all(1 - family, [*taken, *uses], self.chance(0.9))

    def ranged(self):
        """A fill, a barrier or two limited to what it wrote or to more, and a command that uses that; at
        times they are limited to less or to another buffer, or release."""
        if not self.sizes:
            return
        buffer, other, queue = self.any_buffer(), self.any_buffer(), self.random.randrange(4)
        offset = 4 * self.place_in(max(1, self.sizes[buffer] // 8))
        first = ["fill", buffer, offset, 8, self.random.getrandbits(32)]
        second = ["fill", buffer, offset, 8, self.random.getrandbits(32)]
        if self.chance(0.6):
            size = min(8, self.sizes[other])
            to = self.random.randrange(self.sizes[other] - size + 1)
            second = ["copy", buffer, other, [[offset, to, size]]]
        between = self.limited(family_of(queue), buffer, other, offset)
        commands = [["barrier", [list(ALL_SEEN)], [], []], first, *between, second]
        self.offer(["submit", queue, [[self.all_waits(), commands, []]]])

    def limited(self, family, buffer, other, low):
        """A barrier that is limited to eight bytes of a buffer or to more, or two of which one makes
        available and the other visible; at times one that misses something."""
        size, high = self.sizes[buffer], low + 8
        wider = min(high + self.random.randrange(200), size)
        part = self.random.choice(((low, high), (low, wider), (0, size)))
        families, named = (0, 0), buffer
        kind = self.random.choice(("low", "high", "release", "other")) if self.misses() else None
        if kind in ("low", "high"):
            part = (low + 1, part[1]) if kind == "low" else (part[0], high - 1)
        elif kind is not None:
            named = other if kind == "other" else buffer
            families = (family, 1 - family) if kind == "release" else families
            part = (0, self.sizes[named])
        limits = [*families, named, part[0], part[1] - part[0]]
        available, visible = [*ALL_SEEN[:3], 0], [ALL_SEEN[0], 0, *ALL_SEEN[2:]]
        return self.random.choice((
            [["barrier", [], [[*ALL_SEEN, *limits]], []]],
            [["barrier", [], [[*ALL_SEEN, *limits]], []]],
            [["barrier", [available], [], []], ["barrier", [], [[*visible, *limits]], []]],
            [["barrier", [], [[*available, *limits]], []], ["barrier", [visible], [], []]],
        ))

    def late_release(self):
        """A family uses a buffer, the other one releases it to that family, which acquires and uses it."""
        exclusive = [b for b in self.sizes if self.reading.is_exclusive(b)]
        if not exclusive:
            return
        buffer = self.random.choice(exclusive)
        queue, other_queue = self.random.choice(((0, 2), (1, 3), (2, 1), (3, 0)))
        families = (family_of(other_queue), family_of(queue))
        half = [*ALL_SEEN, *families, buffer, *self.all_of(buffer)]
        transfer = ["barrier", [], [half], []]
        used = [["barrier", [list(ALL_SEEN)], [], []], self.use_of(buffer)]
        semaphore = SEMAPHORES[other_queue]
        value = self.last_values[semaphore] + 1
        release = [[], [transfer], [[semaphore, value, ALL_COMMANDS]]]
        if self.offer(["submit", queue, [[self.all_waits(), used, []]]]):
            if self.offer(["submit", other_queue, [release]]):
                self.last_values[semaphore] = value
                taken = [transfer, self.use_from(buffer)]
                self.offer(["submit", queue, [[[[semaphore, value, ALL_COMMANDS]], taken, []]]])

    def take_over(self):
        """A family fills a mapped buffer, the other one acquires it, and the host reads what was filled;
        at times the other one uses or releases it instead."""
        mapped = [b for b in self.sizes if self.reading.is_exclusive(b) and self.reading.is_mapped(b)]
        if not mapped:
            return
        buffer = self.random.choice(mapped)
        family = self.owner(buffer)[0]
        family = self.random.randrange(2) if family is None else family
        half = [*ALL_SEEN, family, 1 - family, buffer, *self.all_of(buffer)]
        first = [["update", buffer, 0, self.bytes(4)], ["barrier", [], [half], []]]
        second = first[1]
        if self.misses():
            del first[1]
            half = [*ALL_SEEN, 1 - family, family, buffer, *self.all_of(buffer)]
            second = self.random.choice((["fill", buffer, 8, 4, 7], ["barrier", [], [half], []]))
        self.submit_all(family, first, True)
        self.submit_all(1 - family, [second], True)
        self.finish_queues()
        self.reach("invalidate", buffer, 0, 4)
        self.offer(["read", buffer, 0, 4])

    def bare_barrier(self):
        """A submit of a barrier alone."""
        if self.sizes:
            self.offer(["submit", self.random.randrange(4), [[[], [self.barrier()], []]]])

    def read_back(self):
        """A buffer is filled, and the host reads what the fill wrote; on cached memory mostly after an
        invalidation."""
        buffer = self.mapped_one()
        if buffer is None:
            return
        fill = self.use_of(buffer)
        self.submit_all(self.random.randrange(2), [fill], True)
        _, low, high = self.reading.writes_of(fill)[0]
        if self.misses():
            self.reach("invalidate", buffer, low, high)
            self.finish_queues()
        else:
            self.finish_queues()
            self.reach("invalidate", buffer, low, high)
        self.offer(["read", buffer, low, high - low])

    def upload(self):
        """The host writes, and a command copies what it wrote, or writes over it; on cached memory mostly
        after a flush."""
        buffer = self.mapped_one()
        if buffer is None:
            return
        is_late = self.misses()
        low, high = self.written(buffer)
        if not is_late:
            self.reach("flush", buffer, low, high)
        other = self.any_buffer()
        size = min(high - low, self.sizes[other])
        command = ["copy", buffer, other, [[low, self.random.randrange(self.sizes[other] - size + 1), size]]]
        if self.chance(0.3):
            command = ["fill", buffer, low // 4 * 4, 4, self.random.getrandbits(32)]
        self.submit_all(self.random.randrange(2), [command], self.chance(0.8))
        if is_late:
            self.reach("flush", buffer, low, high)

    def lose(self):
        """The host writes, invalidates some of it, and reads."""
        buffer = self.mapped_one()
        if buffer is None:
            return
        low, high = self.written(buffer)
        if self.chance(0.5):
            part = self.random.randint(low, high - 1)
            self.reach("flush", buffer, part, self.random.randint(part + 1, high))
        part = self.random.randint(low, high - 1)
        self.reach("invalidate", buffer, part, self.random.randint(part + 1, high))
        if not self.offer(["read", buffer, low, high - low]):
            self.offer(["read", buffer, low, part - low] if part > low else ["read", buffer, high - 1, 1])

    def write_over(self):
        """The host writes bytes that a command has read or written."""
        accesses = self.reading.reads_made + self.reading.writes
        ranges = [(b, low) for _, b, low, _ in accesses if b in self.sizes and self.reading.is_mapped(b)]
        if ranges:
            buffer, low = self.random.choice(ranges)
            if self.chance(0.5):
                self.finish_queues()
            self.offer(["write", buffer, low, self.bytes(1)])

    def written(self, buffer):
        """The first of some bytes that the host has just written, if it could, and the one after the last."""
        size = self.sizes[buffer]
        low = self.place_in(size)
        high = low + self.random.randint(1, min(size - low, self.random.choice((4, 150))))
        entry = ["write", buffer, low, self.bytes(high - low)]
        if not self.offer(entry):
            self.finish_queues()
            self.offer(entry)
        return low, high

    def mapped_one(self):
        """A mapped buffer, mostly one that the host reaches through a cache."""
        mapped = [b for b in self.sizes if self.reading.is_mapped(b)]
        buffers = self.cached() if self.cached() and self.chance(0.8) else mapped
        return self.random.choice(buffers) if buffers else None

    def end_named(self):
        """Destroys a buffer that only an element of a barrier has named since the host has waited."""
        queue = self.random.randrange(4)
        if self.sizes:
            barrier = ["barrier", [], [self.buffer_element()], []]
            value = self.last_values[SEMAPHORES[queue]] + 1
            signal = [SEMAPHORES[queue], value, self.stages()]
            self.finish_queues()
            if self.offer(["submit", queue, [[[], [barrier], [signal]]]]):
                self.last_values[SEMAPHORES[queue]] = value
                if self.chance(0.6):
                    self.offer(["wait", [[SEMAPHORES[queue], value]]])
                buffer = barrier[2][0][6]
                if self.offer(["destroy", buffer]):
                    self.sizes.pop(buffer, None)
