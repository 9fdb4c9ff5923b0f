"""A trace that grows an entry at a time, with the reading of what it has so far."""

from points import ALL_COMMANDS, HOST, TRANSFER
from slow_reading import Reading
from slow_room import in_pool

SMALL_HEAP, HEAP = 65_536, 4_194_304
UNKNOWN, MOST = 999, (1 << 64) - 1
MEMORIES = (300, 301, 302)
POOLS = (400, 401, 402)
SEMAPHORES = range(100, 104)
HOST_SEMAPHORE, NEVER_SIGNALED = 104, 105
EVENTS = range(200, 204)
# The rules of which a trace with slips keeps faults, each with whether at points of the host alone, at
# those of batches alone, or at both.
ON_HOST, IN_BATCHES = True, False
KEPT = (
    *(("HAZARD_RAW", ON_HOST), ("HAZARD_RAW", IN_BATCHES)) * 8,
    *(("HAZARD_WAW", ON_HOST), ("HAZARD_WAW", IN_BATCHES)) * 4,
    *(("HAZARD_WAR", ON_HOST), ("HAZARD_WAR", IN_BATCHES)),
    *(("READ_UNDEFINED", ON_HOST), ("OWNER_PAIR", IN_BATCHES)) * 7,
    *(("OWNER_WHOLE", IN_BATCHES), ("IN_USE", ON_HOST), ("STAGE", IN_BATCHES)) * 2,
    *(("SIZE", ON_HOST), ("SIZE", IN_BATCHES), ("RANGE", ON_HOST), ("RANGE", IN_BATCHES)) * 2,
    *(("LIVE_ID", ON_HOST), ("LIVE_ID", IN_BATCHES), ("MAP_STATE", ON_HOST), ("BIND_ALIGN", ON_HOST)) * 2,
    *((rule, ON_HOST) for rule in ("BIND_ALIGN", "BIND_RANGE", "ALIASED", "HOST_VISIBLE", "MEMORY_TYPE")),
    *((rule, IN_BATCHES) for rule in ("ALIGN", "OVERLAP", "USAGE", "EVENT_STATE", "EVENT_DEPENDENCY")),
    *((rule, ON_HOST) for rule in ("POOL_SIZE", "POOL_KIND", "PASS_STATE", "PASS_BUSY", "PASS_WRITE", "OVERLAP")),
    *(("PASS_WRITE", IN_BATCHES), ("PASS_STATE", ON_HOST), ("PASS_BUSY", ON_HOST)),
    *(("SIGNAL_VALUE", None), ("SIGNAL_ORDER", None), ("USAGE", ON_HOST), ("QUEUE_KIND", IN_BATCHES)),
    *((rule, IN_BATCHES) for rule in ("LAYOUT", "OLD_LAYOUT", "FORMAT", "SUBRESOURCE") * 2),
    *((rule, ON_HOST) for rule in ("NEW_ID", "QUEUE", "MEMORY_SIZE", "WAIT_NEVER")),
)
TO_HOST = ((TRANSFER, 4096, HOST, 8192), (TRANSFER, 4096, HOST, 24576))


class Growing:
    """A trace that grows, and what is drawn from."""

    def __init__(self, random):
        self.random = random
        self.heaps = (SMALL_HEAP, SMALL_HEAP) if random.random() < 0.1 else (HEAP, HEAP)
        self.slips = random.choice((0, 0, 0.1, 0.2, 0.3))
        self.kept = random.choice(KEPT)
        self.trace = []
        self.reading = Reading(self.heaps)
        self.sizes = {}
        self.last_values = dict.fromkeys((*SEMAPHORES, HOST_SEMAPHORE, NEVER_SIGNALED), 0)

    def chance(self, share):
        return self.random.random() < share

    def slip(self):
        return self.chance(self.slips)

    def misses(self):
        """Whether a course is to miss something that it needs."""
        return self.chance(0.4 if self.slips > 0 else 0.05)

    def keeps(self, reading, share=0.6):
        """Whether an item stays with which a reading has this fault."""
        _, at, rule = reading.fault.split()
        kept, on_host = self.kept
        is_kept = rule == kept and on_host in (None, "." not in at)
        return self.slips > 0 and is_kept and self.chance(share)

    def tried(self, entry):
        """The reading with one more entry."""
        reading = self.reading.copy()
        reading.apply(entry)
        return reading

    def offer(self, entry):
        """Puts an entry in where it breaks no rule, or by a slip. Whether it is in."""
        reading = self.tried(entry)
        if reading.fault is not None and self.reading.fault is None and not self.keeps(reading):
            return False
        # (what comes after the first stop is not answered, so pools are seldom overfilled)
        if reading.stop is not None and self.reading.stop is None and in_pool(entry) and self.chance(0.85):
            return False
        self.trace.append(entry)
        self.reading = reading
        return True

    def all_waits(self):
        """Waits for what each queue has signaled, or is to signal as far as it was drawn."""
        values = self.reading.counters if self.chance(0.8) else self.last_values
        return [[s, values.get(s, 0), ALL_COMMANDS] for s in SEMAPHORES]

    def pool_place(self, is_tiled=False):
        """A place in a pool that allows it, if there is one."""
        pools = [pool for pool in self.reading.live("pool") if pool[3] == 0 or not is_tiled]
        if not pools:
            return None
        _, number, kind, _, _, limit = self.random.choice(pools)
        has_upper = (kind, limit) == ("linear", 1) or self.slip()
        return ["pool_upper" if has_upper and self.chance(0.4) else "pool", number]

    def any_buffer(self):
        return self.random.choice(list(self.sizes))

    def bytes(self, most):
        return self.random.getrandbits(8 * most).to_bytes(most, "big").hex()

    def place_in(self, size):
        """Where in a buffer of this size something begins; often near its start, where more meets."""
        return self.random.randrange(min(size, self.random.choice((size, 160))))

    def cached(self):
        """The mapped buffers that the host reaches through a cache."""
        return [b for b in self.sizes if self.reading.is_mapped(b) and self.reading.is_cached(b)]
