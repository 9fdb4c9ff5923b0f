"""Draws pools, what is made in them, and its end, so that memory of blocks is used again."""

from entries import place_of
from growing import POOLS, Growing
from slow_room import in_pool

BLOCK_SIZES = (2_048, 4_096, 4_096, 10_240, 24_576)
ODD_POOLS = ((0, 1), (1_000, 1), (1 << 25, 1), (4_096, 0), (4_096, 65))
SIZES = (16, 60, 100, 200, 500, 1_000, 1_024, 2_000, 4_096, 5_000, 12_288, 20_000)


class Pools(Growing):
    """The pools of a trace that grows."""

    def pool(self, number):
        kind = self.random.choice(("tlsf", "linear"))
        memory_type = 3 if self.slip() else self.random.choice((1, 1, 1, 2, 2, 0))
        size, limit = self.random.choice(BLOCK_SIZES), self.random.choice((1, 1, 1, 2, 3, 64))
        if self.slip():
            size, limit = self.random.choice(ODD_POOLS)
        self.offer(["pool", number, kind, memory_type, size, limit])

    def pooled_buffer(self, place):
        """A buffer in a pool, mostly one that may lie there."""
        half = next((p[4] // 2 for p in self.reading.live("pool") if p[1] == place[1]), 0)
        sizes = [size for size in SIZES if size <= half or self.slip()] or SIZES
        self.sized_buffer(place, max(self.random.choice(sizes) for _ in range(self.random.choice((1, 2, 3)))))

    def sized_buffer(self, place, size):
        """A buffer of a size, mostly mapped and written."""
        number = 3000 + len(self.trace)
        sharing = self.random.choice(("concurrent", "exclusive"))
        if self.offer(["buffer", number, size, 3, sharing, place]) and number in self.reading.made:
            self.sizes[number] = size
            if self.chance(0.7) and self.offer(["map", number]):
                self.written(number)

    def fill_pool(self):
        """A few more buffers in pools, mostly in one."""
        place = self.pool_place()
        for _ in range(self.random.randint(1, 5) if place is not None else 0):
            self.pooled_buffer(place)
            place = self.pool_place() if self.chance(0.3) else place

    def go_round(self):
        """Buffers up to the end of a ring, of which the first ones go, and others that go round."""
        number, block_size = 4000 + len(self.trace), self.random.choice(BLOCK_SIZES)
        if not self.offer(["pool", number, "linear", self.random.choice((0, 1, 2)), block_size, 1]):
            return
        for part in self.random.choice(((2, 2), (2, 3), (2, 4, 4), (3, 3, 3))):
            self.sized_buffer(["pool", number], block_size // part)
        for buffer in self.in_pool(number)[: self.random.choice((1, 1, 2))]:
            self.end_mapped(buffer)
        for part in self.random.choice(((4, 4), (3, 8), (2, 2), (6, 6, 6))):
            self.sized_buffer(["pool", number], block_size // part)

    def renew(self):
        """A buffer in a pool is destroyed, mostly the oldest, and others are made in the pool."""
        place = self.pool_place()
        pooled = self.in_pool(place[1]) if place is not None else []
        if not pooled:
            return
        if self.chance(0.8):
            self.finish_queues()
        self.end_mapped(self.random.choice((pooled[0], pooled[0], self.random.choice(pooled))))
        for _ in range(self.random.choice((0, 1, 1, 2, 3))):
            self.pooled_buffer(place)

    def end_pool(self):
        """Destroys a pool, mostly once all buffers in it are destroyed."""
        pool = self.random.choice(POOLS)
        if self.chance(0.6):
            self.finish_queues()
            for buffer in self.in_pool(pool):
                self.end_mapped(buffer)
        self.offer(["drop_pool", pool])

    def in_pool(self, pool):
        """The buffers in a pool, the oldest first."""
        entries = {buffer: self.reading.made[buffer][1] for buffer in self.sizes}
        return [buffer for buffer, entry in entries.items() if in_pool(entry) and place_of(entry)[1] == pool]

    def end_mapped(self, buffer):
        """Unmaps a buffer as often as it is mapped, and destroys it."""
        for _ in range(self.reading.maps.get(buffer, 0)):
            self.offer(["unmap", buffer])
        if self.offer(["destroy", buffer]):
            del self.sizes[buffer]
