"""The objects of a trace: what makes them answers one, and calls take it in place of an id."""

from math import gcd

from .names import Wrong, large, span

TEXEL_BYTES = {
    **{"R8_UINT": 1, "R8G8_UINT": 2, "R8G8B8A8_UINT": 4, "R16_UINT": 2},
    **{"R32_UINT": 4, "R32G32_UINT": 8, "R32G32B32A32_UINT": 16},
}


class Object:
    """An object of a trace, by its id."""

    kind = "object"

    def __init__(self, trace, id_, name):
        self.trace = trace
        self.id = id_
        self.name = name

    def __str__(self):
        return f"{self.kind} {self.name or self.id}"

    __repr__ = __str__


class Memory(Object):
    """A memory object."""

    kind = "memory object"


class Pool(Object):
    """A pool."""

    kind = "pool"


class Semaphore(Object):
    """A timeline semaphore."""

    kind = "semaphore"


class Event(Object):
    """An event."""

    kind = "event"


class Defragmentation(Object):
    """A defragmentation of a pool."""

    kind = "defragmentation"


class Buffer(Object):
    """A buffer, with its size in bytes."""

    kind = "buffer"
    size = 0


class Image(Object):
    """An image, with its sides in texels, its levels and its layers."""

    kind = "image"
    format, width, height, levels, layers = "R8_UINT", 1, 1, 1, 1

    @property
    def texel(self):
        """The bytes of a texel."""
        return TEXEL_BYTES[self.format]

    def sides(self, level):
        """The width and the height of a level in texels."""
        span(level, self.levels, f"{self}: levels")
        return max(1, self.width >> level), max(1, self.height >> level)

    def row_length(self, level, row_bytes=1):
        """How many texels a row of a level has in a buffer where each row takes a multiple of so many bytes."""
        if large(row_bytes, f"{self}: row_bytes") == 0:
            raise Wrong(f"{self}: row_bytes: expected 1 or more; found 0")
        width, _ = self.sides(level)
        return rounded(width, row_bytes // gcd(row_bytes, self.texel))

    def level_bytes(self, level, row_bytes=1):
        """How many bytes a layer of a level has in a buffer where each row takes a multiple of so many bytes."""
        _, height = self.sides(level)
        return self.row_length(level, row_bytes) * height * self.texel

    def packed(self, levels=None, layers=None, offset=0, row_bytes=1):
        """Where in a buffer each level begins where all lie one behind the other, each at a multiple of its texel,
        of 4 bytes and of row_bytes, and where the last one ends. Each row takes a multiple of row_bytes."""
        first, count = span(levels, self.levels, f"{self}: levels")
        _, many = span(layers, self.layers, f"{self}: layers")
        step, places = max(self.texel, 4), []
        for level in range(first, first + count):
            size = self.level_bytes(level, row_bytes) * many
            offset = rounded(offset, step * row_bytes // gcd(step, row_bytes))
            places.append(offset)
            offset += size
        return places, offset


def rounded(number, step):
    """The least multiple of a step that isn't below a number."""
    return -(-number // step) * step


def ids(value, kinds, what, trace):
    """The id of an object of a trace, of one of these kinds."""
    if not isinstance(value, kinds):
        wanted = " or ".join(kind.kind for kind in (kinds if isinstance(kinds, tuple) else (kinds,)))
        raise Wrong(f"{what}: expected a {wanted}; found {value!r}")
    if value.trace is not trace:
        raise Wrong(f"{what}: {value} is of another trace")
    return value.id
