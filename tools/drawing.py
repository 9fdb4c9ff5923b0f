"""Draws random traces of the forms that `replay` takes today; most of them break no rule.

A drawn item goes into the trace where the slow reading finds no fault with it; where it finds one, a
barrier, a wait or an invalidation is put before it, and the item left out if none helps. Some traces have
slips: items that break one rule, drawn with each trace, and go in all the same.
"""

from drawn_courses import Courses
from drawn_misuses import Misuses
from drawn_pools import Pools
from growing import EVENTS, HOST_SEMAPHORE, MEMORIES, NEVER_SIGNALED, POOLS, SEMAPHORES, SMALL_HEAP, UNKNOWN
from points import ATOM
from slow_reading import read

SIZES = (16, 60, 100, 100, 200, 1_000, 4_096, 5_000, 9_000, 12_288, 20_000, 20_000)


class Drawing(Courses, Pools, Misuses):
    """A trace that grows by random entries."""

    # ---- objects

    def objects(self):
        place = ["dedicated", self.random.choice((1, 1, 2))]
        if self.offer(["buffer", 0, self.random.choice(SIZES), 3, "concurrent", place]):
            self.sizes[0] = self.trace[0][2]
        for memory in MEMORIES:
            if self.chance(0.4):
                self.memory(memory)
        if self.chance(0.5):
            for pool in POOLS[: self.random.choice((1, 1, 2, 3))]:
                self.pool(pool)
        for number in range(self.random.randint(1, 3)):
            self.buffer(1 + number)
        self.fill_pool()
        for _ in range(self.random.choice((0, 0, 1, 2, 2, 3))):
            self.new_image()
        for semaphore in (*SEMAPHORES, HOST_SEMAPHORE, NEVER_SIGNALED):
            initial = self.random.choice((0, 0, 0, 5))
            self.last_values[semaphore] = initial
            self.offer(["semaphore", semaphore, initial])
        for event in EVENTS:
            self.offer(["event", event])
        for buffer in self.sizes:
            if self.chance(0.5) and self.offer(["map", buffer]):
                self.host_write()

    def buffer(self, number):
        size = self.random.choice(SIZES)
        usage = self.random.choice((2, 3, 3, 3, 3, 1))
        sharing = self.random.choice(("concurrent", "exclusive"))
        place = ["dedicated", self.random.choice((1, 1, 2, 2, 0))]
        memories = self.reading.live("memory")
        if memories and self.chance(0.6):
            _, memory, memory_type, room = self.random.choice(memories)
            unit = ATOM if memory_type == 2 and not self.slip() else 16
            offset = unit * self.random.randrange(max(1, (room - size) // unit + 1))
            place = ["memory", memory, self.random.choice((0, offset, offset))]
        pooled = self.pool_place()
        if pooled is not None and self.chance(0.4):
            place = pooled
        if self.slip():
            odd = ((0, 3, ["dedicated", 1]), (16, 0, place), (16, 7, place), (16, 3, ["dedicated", 3]))
            offsets = (8, 16, 48, 1 << 20)
            bound = tuple((16, 3, ["memory", self.random.choice(MEMORIES), offset]) for offset in offsets)
            unknown = ["pool", self.random.choice((UNKNOWN, *POOLS, *MEMORIES))]
            bound += ((16, 3, ["memory", UNKNOWN, 0]), (16, 3, unknown))
            size, usage, place = self.random.choice((*odd, *bound))
        if self.offer(["buffer", number, size, usage, sharing, place]) and number in self.reading.made:
            self.sizes[number] = size

    def memory(self, number):
        size = self.random.choice((0, 1 << 27) if self.slip() else (4_096, 20_480, 40_000))
        self.offer(["memory", number, 3 if self.slip() else self.random.choice((1, 1, 2, 2, 0)), size])

    def end_buffer(self):
        """Destroys a buffer, mostly once the host has waited for all queues."""
        if self.sizes:
            buffer = self.any_buffer()
            if self.chance(0.7):
                self.finish_queues()
            if self.offer(["destroy", buffer]):
                del self.sizes[buffer]

    def end_memory(self):
        self.offer(["free", self.random.choice(MEMORIES)])

    def twice_made(self):
        """An id that is made twice, in a trace with slips."""
        if self.slip():
            self.offer(["event", self.random.choice((*EVENTS, *SEMAPHORES))])

    # ---- the whole

    def draw(self):
        """Draws the trace."""
        self.objects()
        steps = self.steps()
        for _ in range(self.random.randint(3, 20) if self.slips == 0 else 24):
            if self.reading.fault is not None:
                break
            self.random.choice(steps)()
            if self.chance(0.005):
                self.never_started()
            if self.chance(0.2 if self.heaps[1] == SMALL_HEAP else 0.03):
                self.random.choice((self.new_buffer, self.new_image))()
        if self.reading.fault is None and self.slips > 0 and self.chance(0.8):
            self.misuse()
        if self.chance(0.9):
            self.host_signal()
            self.finish_queues()
            for buffer in self.sizes:
                self.offer(["map", buffer])
            for _ in range(4):
                self.host_read(self.chance(0.7))
        if self.chance(0.05):
            self.never_started()
        self.move_entries()
        return self.trace

    def steps(self):
        """What is drawn from; in a trace with slips there is more of what comes near the faults that stay."""
        steps = [self.submit] * 16 + [self.host_signal, self.host_wait, self.host_wait, self.map, self.map]
        steps += [self.finish_queues, self.held_back, self.twice_made, self.end_buffer, self.end_memory]
        steps += [self.clean, self.forget, self.odd_reach, self.end_named, *[self.hand_over] * 4]
        if self.pictures:
            steps += [self.change_image] * 14 + [self.read_image] * 6 + [self.end_image]
        steps += [self.go_round, self.comb, self.comb]
        steps += [self.defragment] * 3 + [self.begin_pass] * 3 + [self.end_pass] * 8
        steps += [self.read_moving] * 6 + [self.end_defragmentation]
        if self.reading.live("pool"):
            steps += [self.fill_pool, self.fill_pool, *[self.renew] * 8, self.end_pool]
        steps += [self.read_back, self.read_back, self.upload, self.upload, self.lose, self.write_over]
        steps += [self.ranged, self.ranged, self.late_release, self.take_over, self.take_over]
        steps += [lambda: self.host_read(False), self.host_write] * 3
        kept, on_host = self.kept
        on_queues = [self.upload, self.ranged, self.ranged]
        near = {
            "READ_UNDEFINED": [self.lose, self.hand_over, self.take_over],
            "HAZARD_RAW": [self.read_back] if on_host else [*on_queues, self.late_release],
            "HAZARD_WAW": [self.write_over] if on_host else on_queues,
            "HAZARD_WAR": [self.write_over],
            "IN_USE": [self.end_named, self.end_pool],
            "OWNER_PAIR": [self.hand_over],
            "OWNER_WHOLE": [self.hand_over],
            "MAP_STATE": [self.odd_reach, self.end_buffer],
            "BIND_ALIGN": [self.new_buffer],
            "BIND_RANGE": [self.new_buffer],
            "ALIASED": [self.new_buffer, self.new_image],
            "POOL_SIZE": [self.new_buffer, self.fill_pool],
            "POOL_KIND": [self.new_buffer, self.fill_pool, self.defragment],
            "PASS_STATE": [self.defragment, self.end_pass, self.end_defragmentation, self.end_buffer],
            "PASS_BUSY": [self.comb, self.begin_pass, self.read_moving, self.end_pass],
            "PASS_WRITE": [self.comb, self.host_write, self.submit],
        }
        if self.pictures:
            of_images = ("LAYOUT", "OLD_LAYOUT", "FORMAT", "SUBRESOURCE", "OVERLAP", "OWNER_WHOLE")
            near.update(dict.fromkeys(of_images, [self.change_image]))
        odd = [self.odd_reach] if on_host else [self.bare_barrier]
        near.update(dict.fromkeys(("SIZE", "RANGE", "LIVE_ID", "STAGE"), odd))
        return steps + 10 * near.get(kept, []) * (self.slips > 0)

    def new_buffer(self):
        self.buffer(1000 + len(self.trace))

    def move_entries(self):
        """Moves some entries ahead of their neighbours, where the trace stays as good: then batches
        are submitted ahead of the signals that they wait for."""
        if self.reading.fault is not None or self.chance(0.3):
            return
        movable = ("submit", "signal", "flush")
        for _ in range(20):
            k = self.random.randrange(1, len(self.trace))
            if self.trace[k][0] in movable and self.trace[k - 1][0] in movable:
                moved = self.trace.copy()
                moved[k - 1 : k + 1] = reversed(moved[k - 1 : k + 1])
                if read(moved, self.heaps).fault is None:
                    self.trace = moved


def draw(random):
    """A random trace, and the sizes of the heaps that it is run with."""
    drawing = Drawing(random)
    return drawing.draw(), drawing.heaps
