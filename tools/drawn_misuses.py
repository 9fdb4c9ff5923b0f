"""Draws entries that don't fit the passes of a defragmentation: one at the end of a trace with slips.

Each is put in whatever it breaks, so that each rule of passes is broken in each of its forms.
"""

from drawn_passes import LIMITS, Passes
from growing import NEVER_SIGNALED, UNKNOWN
from points import ALL_COMMANDS

IGNORED = 4_294_967_295
ALL = [ALL_COMMANDS, 98304, ALL_COMMANDS, 98304]


class Misuses(Passes):
    """What doesn't fit the passes of a trace that grows."""

    def misuse(self):
        """A pool with a defragmentation, mostly with an open pass, and an entry that doesn't fit them."""
        if self.reading.in_pass is not None and not self.offer(["end_pass", self.reading.in_pass, [], []]):
            return
        outside = [self.never_open, self.dropped, self.busy_before]
        outside += [self.twice_defragmented, self.linear] * 2
        inside = [self.pass_in_pass, self.ended_inside, *[self.destroyed_inside] * 2, self.busy_inside]
        inside += [self.written_by_host, self.written_by_command, self.changed_inside] * 2
        inside += [self.listed_again] + [self.listed_mapped] * 2
        inside += [self.listed_elsewhere, self.listed_dead, self.listed_at_will]
        wrong = self.random.choice(outside + inside)
        defrag, pool = self.combed()
        if defrag is None or wrong in inside and not self.offer(["pass", defrag]):
            return
        if self.chance(0.3):
            self.read_moving()
            self.finish_queues()
        wrong(defrag, pool)

    def combed(self):
        """A defragmentation of a new pool with a few buffers, of which one or more are gone, and the pool."""
        pool, unit = 7000 + len(self.trace), self.random.choice((64, 256, 1_024))
        memory_type = self.random.choice((0, 1, 1, 2))
        if not self.offer(["pool", pool, "tlsf", memory_type, 8 * max(unit, 256), 2]):
            return None, pool
        for _ in range(self.random.randint(3, 6)):
            self.sized_buffer(["pool", pool], unit)
        self.thin_out(pool)
        for buffer in self.in_pool(pool)[2:]:
            if self.chance(0.3):
                self.end_mapped(buffer)
        defrag = 7000 + len(self.trace)
        has_one = self.offer(["defrag", defrag, pool, *self.random.choice(LIMITS)])
        return defrag if has_one else None, pool

    def put_in(self, *entry):
        """Puts an entry in, whatever it breaks."""
        self.reading = self.tried(list(entry))
        self.trace.append(list(entry))

    def one_in(self, pool):
        """A buffer in a pool; what was never made where none is left."""
        return self.random.choice(self.in_pool(pool) or [UNKNOWN])

    # ---- entries that don't fit what is open

    def never_open(self, defrag, pool):
        self.put_in("end_pass", defrag, self.in_pool(pool)[: self.random.randint(0, 1)], [])

    def twice_defragmented(self, defrag, pool):
        self.put_in("defrag", 7000 + len(self.trace), pool, 0, 0)

    def dropped(self, defrag, pool):
        for buffer in self.in_pool(pool) if self.chance(0.5) else []:
            self.end_mapped(buffer)
        self.put_in("drop_pool", pool)

    def linear(self, defrag, pool):
        other = 7000 + len(self.trace)
        self.offer(["pool", other, "linear", 1, 4096, self.random.choice((1, 2))])
        self.put_in("defrag", 7000 + len(self.trace), other, 0, 0)

    def pass_in_pass(self, defrag, pool):
        self.put_in("pass", self.random.choice(self.defragmentations()))

    def ended_inside(self, defrag, pool):
        self.put_in("end_defrag", defrag)

    def destroyed_inside(self, defrag, pool):
        buffer = self.one_in(pool)
        self.unmapped(buffer)
        self.put_in("destroy", buffer)

    # ---- commands that aren't known complete, and writes

    def used(self, pool):
        """A command that reads a buffer of the pool, in a batch that may wait for ever."""
        others = [buffer for buffer in self.sizes if buffer not in self.in_pool(pool)]
        source, to = self.one_in(pool), self.random.choice(others or [UNKNOWN])
        size = min(self.sizes.get(source, 1), self.sizes.get(to, 1))
        value = self.reading.counters[NEVER_SIGNALED] + 1
        waits = [[NEVER_SIGNALED, value, ALL_COMMANDS]] if self.chance(0.4) else []
        copy = ["copy", source, to, [[0, 0, size]]]
        batch = [waits, [["barrier", [ALL], [], []], copy], []]
        self.offer(["submit", self.random.choice((0, 1, 2)), [batch]])

    def busy_before(self, defrag, pool):
        self.used(pool)
        self.put_in("pass", defrag)

    def busy_inside(self, defrag, pool):
        self.used(pool)
        self.put_in("end_pass", defrag, [], [])

    def written_by_host(self, defrag, pool):
        buffer = self.one_in(pool)
        self.offer(["map", buffer])
        self.put_in("write", buffer, 0, self.bytes(4))

    def written_by_command(self, defrag, pool):
        buffer = self.one_in(pool)
        given = (["fill", buffer, 0, 4, 7], ["update", buffer, 0, "01020304"], ["copy", buffer, buffer, [[0, 16, 4]]])
        self.put_in("submit", 0, [[[], [["barrier", [ALL], [], []], self.random.choice(given)], []]])

    def changed_inside(self, defrag, pool):
        """A transition of an image that is made in the pool while the pass is open."""
        image = 7000 + len(self.trace)
        optimal = ["pool", pool, "tlsf", 0] in [entry[:4] for entry in self.trace]
        tiling = "optimal" if optimal else "linear"
        self.offer(["image", image, "R8_UINT", 4, 4, 1, 1, tiling, 3, "exclusive", ["pool", pool]])
        element = [*ALL, IGNORED, IGNORED, image, 0, self.random.choice((1, 1, 7)), [0, 1, 0, 1]]
        self.put_in("submit", 0, [[[], [["barrier", [], [], [element]]], []]])

    # ---- lists of a pass that ends

    def listed_again(self, defrag, pool):
        buffer = self.one_in(pool)
        self.unmapped(buffer)
        twice = (([buffer, buffer], []), ([], [buffer, buffer]), ([buffer], [buffer]))
        self.put_in("end_pass", defrag, *self.random.choice(twice))

    def listed_mapped(self, defrag, pool):
        buffer = self.one_in(pool)
        self.offer(["map", buffer])
        self.put_in("end_pass", defrag, [], [buffer])

    def listed_elsewhere(self, defrag, pool):
        others = [buffer for buffer in self.sizes if buffer not in self.in_pool(pool)]
        stray = [self.random.choice((*others, pool, defrag))]
        self.put_in("end_pass", defrag, *self.random.choice(((stray, []), ([], stray))))

    def listed_dead(self, defrag, pool):
        stray = [self.random.choice((UNKNOWN, *self.reading.ended))]
        self.put_in("end_pass", defrag, *self.random.choice(((stray, []), ([], stray))))

    def listed_at_will(self, defrag, pool):
        """Lists of some resources of all kinds, mapped or not, each perhaps often."""
        some = [*self.in_pool(pool), self.any_buffer()] + [UNKNOWN, pool] * self.chance(0.2)
        lists = [[self.random.choice(some) for _ in range(self.random.randint(0, 2))] for _ in range(2)]
        self.put_in("end_pass", defrag, *lists)
