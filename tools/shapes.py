"""Shapes of images: what they take of memory, and the numbers of their bytes; from docs/FORMAT.md.

The bytes of an image are numbered layer by layer, level by level, row by row, each texel's together.
"""

# The bytes of a texel of each format, and those of one of its components.
TEXELS = {
    "R8_UINT": (1, 1),
    "R8G8_UINT": (2, 1),
    "R8G8B8A8_UINT": (4, 1),
    "R16_UINT": (2, 2),
    "R32_UINT": (4, 4),
    "R32G32_UINT": (8, 4),
    "R32G32B32A32_UINT": (16, 4),
}
MOST_SIDE, MOST_LAYERS = 4_096, 256


def rounded_up(number, unit):
    return (number + unit - 1) // unit * unit


class Shape:
    """The shape of the image that an entry makes."""

    def __init__(self, entry):
        _, _, name, self.width, self.height, self.levels, self.layers, tiling, *_ = entry
        self.texel, self.component = TEXELS[name]
        self.is_linear = tiling == "linear"

    def is_bad(self):
        """Whether its sides, levels or layers are outside their limits."""
        sides = (self.width, self.height)
        if not all(0 < side <= MOST_SIDE for side in sides) or not 0 < self.layers <= MOST_LAYERS:
            return True
        if self.is_linear:
            return (self.levels, self.layers) != (1, 1)
        return not 0 < self.levels <= max(sides).bit_length()

    # ---- memory

    def size(self):
        """The bytes of memory that it asks for."""
        if self.is_linear:
            return rounded_up(self.width * self.texel, 64) * self.height
        return self.layers * sum(self.tiled(level) for level in range(self.levels))

    def tiled(self, level):
        """The bytes that a level takes in tiles of 8 by 8 texels."""
        width, height = self.extent(level)
        return rounded_up((width + 7) // 8 * ((height + 7) // 8) * 64 * self.texel, 256)

    def alignment(self):
        return 64 if self.is_linear else 256

    # ---- numbers of bytes

    def extent(self, level):
        """The width and the height of a level, in texels."""
        return max(1, self.width >> level), max(1, self.height >> level)

    def level_bytes(self, level):
        width, height = self.extent(level)
        return width * height * self.texel

    def bytes(self):
        """How many bytes it has."""
        return self.layers * sum(self.level_bytes(level) for level in range(self.levels))

    def first(self, level, layer):
        """The number of the first byte of a level of a layer."""
        in_layer = [self.level_bytes(k) for k in range(self.levels)]
        return layer * sum(in_layer) + sum(in_layer[:level])

    def subresources(self, part):
        """The bytes of each subresource of levels and layers, from the first to the one after the last."""
        first_level, levels, first_layer, layers = part
        for layer in range(first_layer, min(first_layer + layers, self.layers)):
            for level in range(first_level, min(first_level + levels, self.levels)):
                low = self.first(level, layer)
                yield low, low + self.level_bytes(level)

    def rows(self, level, layer, layers, x, y, width, height):
        """The bytes of each row of a box of texels, layer by layer."""
        across, _ = self.extent(level)
        for each in range(layer, layer + layers):
            for row in range(y, y + height):
                low = self.first(level, each) + (row * across + x) * self.texel
                yield low, low + width * self.texel

    # ---- what is asked of ranges and boxes

    def has_range(self, part):
        """Whether it has these levels and layers, and at least one."""
        first_level, levels, first_layer, layers = part
        return is_inside(self.levels, first_level, levels) and is_inside(self.layers, first_layer, layers)

    def has_box(self, level, layer, layers, x, y, width, height):
        """Whether it has the texels of a box, and at least one."""
        if not is_inside(self.levels, level, 1) or not is_inside(self.layers, layer, layers):
            return False
        across, down = self.extent(level)
        return is_inside(across, x, width) and is_inside(down, y, height)

    def colored(self, color):
        """The bytes of a texel of a color; a component that is too large keeps its low bits."""
        mask = (1 << 8 * self.component) - 1
        parts = (part & mask for part in color[: self.texel // self.component])
        return b"".join(part.to_bytes(self.component, "little") for part in parts)


def is_inside(limit, first, count):
    return count > 0 and first + count <= limit


# ---- regions


def box_of(region):
    """The box of texels of a region of a copy between a buffer and an image."""
    return region[3], region[4], region[5], region[6], region[7], region[8], region[9]


def source_box(region):
    """The box that a region of a copy between images reads."""
    return region[0], region[1], region[4], region[5], region[6], region[9], region[10]


def destination_box(region):
    """The box that it writes."""
    return region[2], region[3], region[4], region[7], region[8], region[9], region[10]


def buffer_rows(region, texel):
    """The bytes of each row of a region in its buffer, layer by layer."""
    offset, row_length, image_height, _, _, layers, _, _, width, height = region
    row_length, image_height = row_length or width, image_height or height
    for layer in range(layers):
        for row in range(height):
            low = offset + (layer * image_height + row) * row_length * texel
            yield low, low + width * texel


def is_short(region):
    """Whether a row length or an image height that is given is under the region's."""
    return 0 < region[1] < region[8] or 0 < region[2] < region[9]
