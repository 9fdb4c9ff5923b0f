"""Draws defragmentations of pools, with other entries while a pass is open."""

from growing import POOLS, UNKNOWN, Growing
from pass_rules import pool_of
from points import ALL_COMMANDS

LIMITS = ((0, 0), (0, 0), (0, 0), (0, 1), (0, 2), (1, 0), (1_024, 0), (2_048, 3), (5_000, 0), ((1 << 64) - 1, 0))


class Passes(Growing):
    """The defragmentations of a trace that grows."""

    def general_pools(self):
        return [pool[1] for pool in self.reading.live("pool") if pool[2] == "tlsf"]

    def defragmentations(self):
        return [entry[1] for entry in self.reading.live("defrag")]

    def resources_in(self, pool):
        return [e[1] for e in self.reading.live("resource") if pool_of(self.reading, e[1]) == pool]

    def comb(self):
        """A pool of which every other buffer goes, so that the others can move."""
        number, unit = 5000 + len(self.trace), self.random.choice((64, 256, 1_024))
        memory_type, limit = self.random.choice((0, 1, 1, 2)), self.random.choice((1, 2, 3))
        block = self.random.choice((4, 8)) * max(unit, 256)
        if not self.offer(["pool", number, "tlsf", memory_type, block, limit]):
            return
        for _ in range(self.random.randint(2, 10)):
            self.sized_buffer(["pool", number], unit * self.random.choice((1, 1, 2)))
        self.thin_out(number)
        self.defragment(number)

    def thin_out(self, pool):
        """Destroys some of a pool's buffers, seldom all."""
        all_go = self.chance(0.08)
        for k, buffer in enumerate(self.in_pool(pool)):
            if all_go or k % 2 == 0 and self.chance(0.8):
                self.end_mapped(buffer)

    def defragment(self, pool=None):
        """Begins a defragmentation, mostly of a pool in which something is free, and a pass of it."""
        pools = self.general_pools()
        if pool is None and pools:
            pool = self.random.choice(pools)
            if self.chance(0.5):
                self.finish_queues()
                self.thin_out(pool)
        if self.slip():
            pool = self.random.choice((UNKNOWN, *POOLS))
        number = 6000 + len(self.trace)
        if pool is not None and self.offer(["defrag", number, pool, *self.random.choice(LIMITS)]):
            self.begin_pass()

    def begin_pass(self):
        if self.chance(0.8):
            self.finish_queues()
        defragmentations = self.defragmentations()
        if defragmentations and self.offer(["pass", self.random.choice(defragmentations)]) and self.chance(0.7):
            self.while_open()

    def while_open(self):
        """A few other entries while the pass is open, and its end; then sometimes the next pass."""
        for _ in range(self.random.choice((0, 1, 1, 2, 3))):
            if self.reading.fault is None:
                self.random.choice((self.read_moving, self.read_moving, self.submit, self.host_write, self.fill_pool))()
        if self.reading.fault is not None:
            return
        self.end_pass()
        if self.reading.in_pass is None and self.chance(0.4):
            self.begin_pass()
        elif self.chance(0.3):
            self.end_defragmentation()

    def end_pass(self):
        """Ends the open pass, sometimes with resources that stay or are destroyed."""
        thing = self.reading.in_pass
        if thing is None:
            defragmentations = self.defragmentations()
            if not self.slip() or not defragmentations:
                return
            thing = self.random.choice(defragmentations)
        if self.chance(0.85):
            self.finish_queues()
        kept, lost = [], []
        for resource in self.resources_in(self.reading.made[thing][1][2]):
            fate = self.random.choice((None, None, None, kept, lost))
            if fate is not None:
                fate.append(resource)
        lost = [thing for thing in lost if self.slip() or self.unmapped(thing)]
        if self.slip():
            kept = kept + lost[:1] + [self.random.choice((UNKNOWN, 0, 1))][: self.random.choice((0, 1))]
        if self.offer(["end_pass", thing, kept, lost]) and self.reading.fault is None:
            for resource in lost:
                self.sizes.pop(resource, None)

    def unmapped(self, thing):
        """Unmaps a resource as often as it is mapped, or leaves it; whether it isn't mapped."""
        for _ in range(self.reading.maps.get(thing, 0) if self.chance(0.7) else 0):
            self.offer(["unmap", thing])
        return not self.reading.maps.get(thing, 0)

    def end_defragmentation(self):
        defragmentations = self.defragmentations()
        if defragmentations:
            self.offer(["end_defrag", self.random.choice(defragmentations)])

    def read_moving(self):
        """Commands and the host read what moves."""
        if self.reading.in_pass is None:
            return
        buffers = [b for b in self.resources_in(self.reading.made[self.reading.in_pass][1][2]) if b in self.sizes]
        others = [b for b in self.sizes if b not in buffers]
        if not buffers or not others:
            return
        source, destination = self.random.choice(buffers), self.random.choice(others)
        size = min(self.sizes[source], self.sizes[destination])
        copy = ["copy", source, destination, [[self.sizes[source] - size, 0, size]]]
        full = ["barrier", [[ALL_COMMANDS, 98304, ALL_COMMANDS | 16384, 98304]], [], []]
        queue = self.random.choice((0, 0, 1, 2, 3))
        self.offer(["submit", queue, [[self.all_waits(), [full, copy, full], []]]])
