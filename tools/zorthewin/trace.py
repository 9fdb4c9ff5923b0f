"""A trace that is written by calls, an entry a call."""

import json

import trace_forms as forms

from .answers import judged, replayed
from .commands import Submit, site
from .names import Wrong, hexed, large, length, listed, number, word
from .objects import Buffer, Defragmentation, Event, Image, Memory, Pool, Semaphore, ids

BOTH_USAGES = "TRANSFER_SRC|TRANSFER_DST"
KINDS = (Buffer, Image)


class Trace:
    """The entries of a trace, in the order of the calls that add them."""

    def __init__(self):
        self.entries = []
        self.objects = {}
        # Where each entry was called for, and for a submit each command of each batch.
        self.sites = []
        self.command_sites = {}

    # ---- what each entry is added by

    def add(self, *members, commands=None):
        """An entry, with the place of the call."""
        if commands is not None:
            self.command_sites[len(self.entries)] = commands
        self.entries.append(list(members))
        self.sites.append(site())

    def new(self, kind, name):
        """An object with the next id."""
        made = kind(self, len(self.objects) + 1, name)
        self.objects[made.id] = made
        return made

    def own(self, value, kinds, what):
        """The id of an object of this trace."""
        return ids(value, kinds, what, self)

    # ---- memory

    def memory(self, memory, size, name=None):
        """Allocates a memory object of a memory type."""
        row = [number(memory, forms.MEMORY_TYPE, "memory"), large(size, "memory: size")]
        made = self.new(Memory, name)
        self.add("memory", made.id, *row)
        return made

    def free(self, memory):
        """Frees a memory object."""
        self.add("free", self.own(memory, Memory, "free"))

    def pool(self, memory, block, most=1, kind="tlsf", name=None):
        """Makes a pool of blocks of so many bytes, of which it has at most so many."""
        row = [word(kind, forms.KIND, "pool: kind"), number(memory, forms.MEMORY_TYPE, "pool: memory")]
        row += [large(block, "pool: block"), number(most, forms.SMALL, "pool: most")]
        made = self.new(Pool, name)
        self.add("pool", made.id, *row)
        return made

    def drop_pool(self, pool):
        """Destroys a pool."""
        self.add("drop_pool", self.own(pool, Pool, "drop_pool"))

    def place(self, memory, offset, upper):
        """Where a resource lies: in memory of its own of a memory type, in a memory object, or in a pool."""
        if isinstance(memory, Memory):
            return ["memory", self.own(memory, Memory, "place"), large(offset or 0, "place: offset")]
        if offset is not None:
            raise Wrong("place: an offset is one in a memory object")
        if isinstance(memory, Pool):
            return ["pool_upper" if upper else "pool", self.own(memory, Pool, "place")]
        return ["dedicated", number(memory, forms.MEMORY_TYPE, "place: memory type")]

    # ---- resources

    def buffer(self, size, memory=0, usage=BOTH_USAGES, sharing="exclusive", offset=None, upper=False, name=None):
        """Makes a buffer, in memory of its own where `memory` is a memory type."""
        row = [large(size, "buffer: size"), number(usage, forms.Number(names=forms.BUFFER_USAGE), "buffer: usage")]
        row += [word(sharing, forms.SHARING, "buffer: sharing"), self.place(memory, offset, upper)]
        made = self.new(Buffer, name)
        made.size = size
        self.add("buffer", made.id, *row)
        return made

    def image(
        self,
        format,
        width,
        height,
        levels=1,
        layers=1,
        memory=0,
        usage=BOTH_USAGES,
        tiling="optimal",
        sharing="exclusive",
        offset=None,
        upper=False,
        name=None,
    ):
        """Makes an image, in memory of its own where `memory` is a memory type."""
        format = word(format, forms.FORMAT, "image: format")
        sides = {"width": width, "height": height, "levels": levels, "layers": layers}
        row = [format, *(number(side, forms.SMALL, f"image: {what}") for what, side in sides.items())]
        row += [word(tiling, forms.TILING, "image: tiling")]
        row += [number(usage, forms.Number(names=forms.IMAGE_USAGE), "image: usage")]
        row += [word(sharing, forms.SHARING, "image: sharing"), self.place(memory, offset, upper)]
        made = self.new(Image, name)
        made.format, made.width, made.height, made.levels, made.layers = format, width, height, levels, layers
        self.add("image", made.id, *row)
        return made

    def destroy(self, resource):
        """Destroys a buffer or an image."""
        self.add("destroy", self.own(resource, KINDS, "destroy"))

    # ---- queues

    def semaphore(self, value=0, name=None):
        """Makes a timeline semaphore."""
        value = large(value, "semaphore: value")
        made = self.new(Semaphore, name)
        self.add("semaphore", made.id, value)
        return made

    def event(self, name=None):
        """Makes an event."""
        made = self.new(Event, name)
        self.add("event", made.id)
        return made

    def batch(self, queue=0, waits=(), signals=()):
        """A submit with one batch, for `with`: waits and signals are (semaphore, value) or (semaphore, value, stages)."""
        return Submit(self, queue, alone=True).batch(waits, signals)

    def submit(self, queue=0):
        """A submit whose batches are made by its `batch`, for `with`."""
        return Submit(self, queue)

    def signal(self, semaphore, value):
        """The host signals a semaphore."""
        self.add("signal", self.own(semaphore, Semaphore, "signal"), large(value, "signal: value"))

    def wait(self, *pairs):
        """The host waits for all of some (semaphore, value)."""
        rows = []
        for pair in pairs:
            if not isinstance(pair, tuple) or len(pair) != 2:
                raise Wrong(f"wait: expected (semaphore, value); found {pair!r}")
            rows.append([self.own(pair[0], Semaphore, "wait"), large(pair[1], "wait: value")])
        self.add("wait", rows)

    # ---- the host

    def map(self, buffer):
        """Maps the memory of a buffer."""
        self.add("map", self.own(buffer, Buffer, "map"))

    def unmap(self, buffer):
        """Unmaps the memory of a buffer."""
        self.add("unmap", self.own(buffer, Buffer, "unmap"))

    def write(self, buffer, data, offset=0):
        """Writes bytes to a buffer that is mapped."""
        self.add("write", self.own(buffer, Buffer, "write"), large(offset, "write: offset"), hexed(data, "write"))

    def read(self, buffer, size=None, offset=0):
        """Reads bytes of a buffer that is mapped, up to its end where no size is given."""
        self.own(buffer, Buffer, "read")
        if size is None and large(offset, "read: offset") > buffer.size:
            raise Wrong(f"read: offset: {offset} is past the {buffer.size} bytes of {buffer}")
        size = buffer.size - large(offset, "read: offset") if size is None else size
        self.add("read", buffer.id, offset, large(size, "read: size"))

    def flush(self, buffer, offset=0, size="whole"):
        """Flushes a range of a buffer."""
        row = [large(offset, "flush: offset"), length(size, "flush: size")]
        self.add("flush", self.own(buffer, Buffer, "flush"), *row)

    def invalidate(self, buffer, offset=0, size="whole"):
        """Invalidates a range of a buffer."""
        row = [large(offset, "invalidate: offset"), length(size, "invalidate: size")]
        self.add("invalidate", self.own(buffer, Buffer, "invalidate"), *row)

    # ---- defragmentations

    def defragment(self, pool, most_bytes=0, most_moves=0, name=None):
        """Begins a defragmentation of a pool, with limits for each pass; 0 for none."""
        row = [self.own(pool, Pool, "defragment"), large(most_bytes, "defragment: most bytes")]
        row += [number(most_moves, forms.SMALL, "defragment: most moves")]
        made = self.new(Defragmentation, name)
        self.add("defrag", made.id, *row)
        return made

    def begin_pass(self, defragmentation):
        """Begins a pass."""
        self.add("pass", self.own(defragmentation, Defragmentation, "begin_pass"))

    def end_pass(self, defragmentation, stay=(), destroyed=()):
        """Ends a pass: some resources stay where they were, and some are destroyed."""
        lists = [
            [self.own(each, KINDS, f"end_pass: {what}") for each in listed(values, f"end_pass: {what}", "resources")]
            for what, values in (("stay", stay), ("destroyed", destroyed))
        ]
        self.add("end_pass", self.own(defragmentation, Defragmentation, "end_pass"), *lists)

    def end_defragmentation(self, defragmentation):
        """Ends a defragmentation."""
        self.add("end_defrag", self.own(defragmentation, Defragmentation, "end_defragmentation"))

    # ---- what comes of it

    def json(self):
        """The text of the trace, an entry a line."""
        lines = ",\n ".join(json.dumps(entry, separators=(",", ":")) for entry in self.entries)
        return f"[{lines}]\n"

    def judge(self, program=None):
        """What `explain` says of the trace."""
        return judged(self, program)

    def replay(self, program=None, order="first", seed=0):
        """What `replay` answers to the trace."""
        return replayed(self, program, order, seed)

    def site_of(self, point):
        """The file and the line that a point was called for at, such as `2.0.1` or `5`."""
        parts = str(point).split(".")
        if not parts[0].isdigit() or int(parts[0]) >= len(self.sites):
            return None
        entry = int(parts[0])
        if len(parts) == 3 and parts[2].isdigit() and entry in self.command_sites:
            return self.command_sites[entry][int(parts[1])][int(parts[2])]
        return self.sites[entry]
