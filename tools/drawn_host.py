"""Draws what the host does: signals and waits, and accesses of mapped memory, with what a cache needs."""

from growing import HOST_SEMAPHORE, MOST, SEMAPHORES, TO_HOST, UNKNOWN, Growing
from points import ALL_COMMANDS, ATOM


class HostEntries(Growing):
    """The host entries of a trace that grows."""

    # ---- signals and waits

    def host_signal(self):
        self.last_values[HOST_SEMAPHORE] += self.random.randint(1, 2)
        self.offer(["signal", HOST_SEMAPHORE, self.last_values[HOST_SEMAPHORE]])

    def host_wait(self):
        chosen = [s for s in (*SEMAPHORES, HOST_SEMAPHORE) if self.chance(0.4)]
        values = [[s, max(0, self.last_values[s] + self.random.choice((0, 0, -1, 1)))] for s in chosen]
        if values or self.slip():
            self.offer(["wait", values])

    def finish_queues(self):
        """Makes what each queue wrote visible to the host, which waits for it."""
        for queue, semaphore in enumerate(SEMAPHORES):
            self.put_to_host(queue, semaphore)
        self.offer(["wait", [[s, self.reading.counters.get(s, 0)] for s in SEMAPHORES]])

    def put_to_host(self, queue, semaphore):
        value = self.last_values[semaphore] + 1
        for waits in ([], self.all_waits()):
            batch = [waits, [self.barrier_to_host()], [[semaphore, value, ALL_COMMANDS]]]
            if self.offer(["submit", queue, [batch]]):
                self.last_values[semaphore] = value
                return

    def barrier_to_host(self):
        """A barrier that makes all writes visible to the host, or those of each buffer."""
        masks = self.random.choice(TO_HOST)
        if not self.sizes or self.chance(0.7):
            return ["barrier", [list(masks)], [], []]
        buffers = [b for b in self.sizes if not self.slip()]
        elements = [[*masks, 0, 0, b, 0, self.random.choice(("whole", self.sizes[b]))] for b in buffers]
        return ["barrier", [], elements, []]

    # ---- mapped memory

    def map(self):
        if self.sizes:
            name = "unmap" if self.chance(0.15) else "map"
            self.offer([name, self.any_buffer()])

    def host_write(self):
        """A host write, at times once the host has waited for all queues; on cached memory mostly with
        a flush after it."""
        writable = [b for b in self.sizes if self.reading.is_mapped(b)]
        if writable and self.trace[-1][0] != "map" and self.chance(0.6):
            self.finish_queues()
        if writable:
            buffer = self.random.choice(writable)
            low = self.place_in(self.sizes[buffer])
            most = self.sizes[buffer] - low + self.slip()
            count = self.random.randint(1, max(1, min(most, 40)))
            is_in = self.offer(["write", buffer, low, self.bytes(count)])
            if is_in and buffer in self.cached() and self.chance(0.75 if self.slips == 0 else 0.5):
                self.reach("flush", buffer, low, low + count)

    def reach(self, name, buffer, low, high):
        """A flush or an invalidation of the atoms of some bytes; at times not of all of them."""
        last = (self.sizes[buffer] - 1) // ATOM
        first_atom, last_atom = low // ATOM, (high - 1) // ATOM
        if self.misses():
            parts = [(first_atom + 1, last_atom), (first_atom, last_atom - 1)]
            parts += [(first_atom - 1, first_atom - 1), (last_atom + 1, last_atom + 1)]
            parts = [(first, after) for first, after in parts if 0 <= first <= after <= last]
            first_atom, last_atom = self.random.choice(parts or [(first_atom, last_atom)])
        offset = ATOM * first_atom + self.random.choice((0, self.random.randrange(ATOM)))
        offset = min(offset, self.sizes[buffer] - 1)
        end = ATOM * last_atom + self.random.choice((ATOM, self.random.randrange(ATOM) + 1))
        end = min(max(end, offset + 1), self.sizes[buffer])
        if self.chance(0.3) and not self.slips:
            offset, end = self.random.choice(((0, end), (offset, self.sizes[buffer])))
        size = "whole" if end == self.sizes[buffer] and self.chance(0.7) else end - offset
        self.offer([name, buffer, offset, size])

    def clean(self):
        """A flush of what the host has written, or of some bytes; at times one that does nothing."""
        mapped = [b for b in self.sizes if self.reading.is_mapped(b)]
        buffers = self.cached() if self.cached() and self.chance(0.8) else mapped
        if buffers:
            buffer = self.random.choice(buffers)
            low = self.reading.dirty[buffer].find(1)
            low = self.place_in(self.sizes[buffer]) if low < 0 or self.chance(0.3) else low
            self.reach("flush", buffer, low, self.random.randint(low + 1, min(low + 40, self.sizes[buffer])))

    def forget(self):
        """An invalidation of some bytes, mostly of such as aren't lost by it."""
        mapped = [b for b in self.sizes if self.reading.is_mapped(b)]
        buffers = self.cached() if self.cached() and self.chance(0.8) else mapped
        if buffers:
            buffer = self.random.choice(buffers)
            low = self.place_in(self.sizes[buffer])
            if 1 in self.reading.dirty[buffer] and self.chance(0.6):
                self.offer(["flush", buffer, 0, "whole"])
            high = self.random.randint(low + 1, min(low + 200, self.sizes[buffer]))
            self.reach("invalidate", buffer, low, high)

    def odd_reach(self):
        """A flush or an invalidation that breaks a rule, in a trace with slips."""
        if self.sizes and self.slips:
            buffer = self.random.choice((self.any_buffer(), self.any_buffer(), UNKNOWN, HOST_SEMAPHORE))
            size = self.sizes.get(buffer, 64)
            odd = ((0, 0), (size, "whole"), (size, 1), (0, size + 1), (0, "whole"), (MOST, 1))
            name = self.random.choice(("flush", "invalidate"))
            self.offer([name, buffer, *self.random.choice(odd)])

    def host_read(self, longest):
        """A read of bytes that are defined, where there are some; on cached memory after an invalidation
        where it needs one."""
        readable = [b for b in self.sizes if self.reading.is_mapped(b) and 1 in self.reading.defined[b]]
        if self.slip():
            readable = list(self.sizes)
        if not readable:
            return
        if self.slips > 0 and self.chance(0.4):
            self.finish_queues()
        buffer = self.random.choice(readable)
        low, size = self.part_to_read(buffer, longest)
        is_in = self.offer(["read", buffer, low, size])
        if not is_in and buffer in self.cached() and 0 < size <= self.sizes[buffer] - low:
            if 1 in self.reading.dirty[buffer] and self.chance(0.85):
                self.offer(["flush", buffer, 0, "whole"])
            self.reach("invalidate", buffer, low, low + size)
            self.offer(["read", buffer, low, size])

    def part_to_read(self, buffer, longest):
        """The first byte and the number of bytes of a read."""
        defined = self.reading.defined[buffer]
        low = defined.find(1, self.place_in(len(defined)))
        if longest or low < 0:
            low = max(0, defined.find(1))
        high = defined.find(0, low)
        size = (len(defined) if high < 0 else high) - low
        if self.slip():
            written = [(w[2], w[3] - w[2]) for w in self.reading.writes if w[1] == buffer]
            odd = ((0, len(defined)), (low, size + 1), (low, 0), (max(0, low - 1), size))
            return self.random.choice((*odd, *self.random.sample(written, min(4, len(written)))))
        return low, size if longest else self.random.randint(1, max(1, min(size, 64)))
