"""Draws images, their layout transitions and ownership transfers, and clears and copies of them."""

from growing import UNKNOWN, Growing
from points import ATOM
from shapes import TEXELS

READ, WRITTEN, GENERAL = 6, 7, 1
SIDES = (1, 2, 3, 8, 9, 13, 20)
ODD_SHAPES = ((0, 8, 1, 1), (8, 4_097, 1, 1), (8, 8, 5, 1), (8, 8, 1, 257), (8, 8, 0, 1))


class Images(Growing):
    """The images of a trace that grows; `pictures` has those that are there."""

    def __init__(self, random):
        super().__init__(random)
        self.pictures = []

    # ---- images

    def new_image(self):
        """An image of its own memory, in a memory object, or in a pool."""
        number = 2000 + len(self.trace)
        width, height = (self.random.choice(SIDES) for _ in range(2))
        is_linear = self.chance(0.4)
        levels = 1 if is_linear else self.random.randint(1, max(width, height).bit_length())
        layers = 1 if is_linear else self.random.choice((1, 1, 2, 3))
        if self.slip():
            width, height, levels, layers = self.random.choice(ODD_SHAPES)
        name = self.random.choice(list(TEXELS))
        sharing = self.random.choice(("concurrent", "exclusive"))
        place = ["dedicated", self.random.choice((0, 1, 2)) if is_linear or self.slip() else 0]
        memories = [m for m in self.reading.live("memory") if is_linear or m[2] == 0]
        if memories and self.chance(0.5):
            memory = self.random.choice(memories)
            place = ["memory", memory[1], self.random.choice((64, ATOM * 4, 1_024)) * self.random.randrange(12)]
        pooled = self.pool_place(not is_linear)
        if pooled is not None and self.chance(0.5):
            place = pooled
        usage = self.random.choice((3,) * 12 + (2, 1))
        tiling = "linear" if is_linear else "optimal"
        entry = ["image", number, name, width, height, levels, layers, tiling, usage, sharing, place]
        if self.offer(entry) and number in self.reading.shapes:
            self.pictures.append(number)

    def end_image(self):
        """Destroys an image, mostly once the host has waited for all queues."""
        if self.pictures:
            image = self.random.choice(self.pictures)
            if self.chance(0.7):
                self.finish_queues()
            if self.offer(["destroy", image]):
                self.pictures.remove(image)

    def any_image(self):
        return UNKNOWN if self.slip() and self.chance(0.1) else self.random.choice(self.pictures)

    # ---- levels, layers and boxes

    def some_of(self, count):
        """The first of some numbers below a count, and how many."""
        first = self.random.choice((0, self.random.randrange(count)))
        return [first, self.random.choice((count - first, self.random.randint(1, count - first)))]

    def part(self, shape):
        """Levels and layers, often all of them."""
        part = self.random.choice(([0, shape.levels, 0, shape.layers], None))
        part = part or [*self.some_of(shape.levels), *self.some_of(shape.layers)]
        if self.slip():
            odd = ([0, shape.levels + 1, 0, 1], [0, 0, 0, 1], [0, 1, shape.layers, 1], [0, 1, 0, 0])
            return self.random.choice(odd)
        return part

    def box(self, shape):
        """A level, layers, and a rectangle of texels."""
        level = self.random.randrange(shape.levels)
        layer, layers = self.some_of(shape.layers)
        (x, width), (y, height) = (self.some_of(side) for side in shape.extent(level))
        if self.slip():
            level, layers, width, height = self.random.choice(
                ((level, layers, width + 99, height), (shape.levels, layers, 1, 1), (level, 0, width, 0))
            )
        return level, layer, layers, x, y, width, height

    def region(self, shape, size):
        """A region of a copy between an image and a buffer of a size."""
        level, layer, layers, x, y, width, height = self.box(shape)
        row_length = self.random.choice((0, 0, width, width + self.random.randint(0, 5)))
        image_height = self.random.choice((0, 0, height, height + self.random.randint(0, 3)))
        if self.slip():
            row_length, image_height = self.random.choice(((width - 1, 0), (0, height - 1), (width, height)))
        rows = (layers - 1) * (image_height or height) + height
        room = size - rows * (row_length or width) * shape.texel
        unit = max(4, shape.texel)
        offset = unit * self.random.randrange(max(0, room) // unit + 1)
        offset += self.random.choice((1, 2, size)) if self.slip() else 0
        box = [level, layer, layers, x, y, width, height]
        return [offset, max(0, row_length), max(0, image_height), *box]

    # ---- transitions

    def layout_of(self, image, part, given=0):
        """The layout that levels and layers are in, where they are in one; else UNDEFINED."""
        layouts = self.reading.current_layouts(image, part)
        return layouts.pop() if len(layouts) == 1 and not self.chance(0.1) else given

    def transition(self, image, part, layout):
        """An element that brings levels and layers to a layout."""
        old = self.layout_of(image, part)
        if self.slip():
            old, layout = self.random.choice(((GENERAL, layout), (READ, layout), (old, 0), (old, 5), (3, layout)))
        return [*self.masks_around(), *self.random.choice(((0, 0), (1, 1), (5, 5))), image, old, layout, part]

    def masks_around(self):
        """The masks of an element; mostly those that serve all that queues do."""
        return [65_536, 65_536, 65_536, 98_304] if self.chance(0.7) else self.element()

    def image_element(self):
        """An element on levels and layers of an image, mostly a transition."""
        image = self.random.choice(self.pictures)
        part = self.part(self.reading.shapes[image])
        layout = self.random.choice((READ, WRITTEN, GENERAL))
        if self.chance(0.2):
            layout = self.layout_of(image, part)
            return [*self.element(), 0, 0, image, layout, layout, part]
        return self.transition(image, part, layout)

    def images_barrier(self):
        """A barrier of one or two elements on images."""
        return ["barrier", [], [], [self.image_element() for _ in range(self.random.choice((1, 1, 2)))]]

    def bring(self, image, parts, is_written):
        """A layout, and the barriers that bring levels and layers to it where they aren't in it."""
        layout = self.random.choice((GENERAL, WRITTEN if is_written else READ))
        barriers = []
        for part in parts:
            if self.reading.current_layouts(image, part) != {layout} and self.chance(0.95):
                element = self.transition(image, part, layout)
                barriers.append(["barrier", [], [], [element]])
        return layout, barriers

    # ---- clears and copies

    def clear(self):
        image = self.any_image()
        if image == UNKNOWN:
            return [["clear", UNKNOWN, WRITTEN, [0, 0, 0, 0], [[0, 1, 0, 1]]]]
        part = self.part(self.reading.shapes[image])
        layout, barriers = self.bring(image, [part], True)
        color = [self.random.choice((self.random.getrandbits(8), self.random.getrandbits(32))) for _ in range(4)]
        return [*barriers, ["clear", image, layout, color, [part] * (2 if self.slip() else 1)]]

    def with_buffer(self):
        """A copy between a buffer and an image, of one region or two."""
        image, buffer = self.random.choice(self.pictures), self.any_buffer()
        shape = self.reading.shapes[image]
        regions = [self.region(shape, self.sizes[buffer]) for _ in range(self.random.choice((1, 1, 1, 2)))]
        is_in = self.chance(0.5)
        layout, barriers = self.bring(image, [[g[3], 1, g[4], g[5]] for g in regions], is_in)
        if is_in:
            return [*barriers, ["copy_in", buffer, image, layout, regions]]
        return [*barriers, ["copy_out", image, layout, buffer, regions]]

    def between_images(self):
        """A copy of a region from an image to one whose texels have as many bytes, which may be itself."""
        source = self.random.choice(self.pictures)
        shapes = self.reading.shapes
        equal = [i for i in self.pictures if shapes[i].texel == shapes[source].texel]
        destination = self.random.choice(self.pictures if self.slip() else equal)
        level, layer, layers, x, y, width, height = self.box(shapes[source])
        other_level, other_layer, other_layers, other_x, other_y, across, down = self.box(shapes[destination])
        layers, width, height = min(layers, other_layers), min(width, across), min(height, down)
        region = [level, layer, other_level, other_layer, layers, x, y, other_x, other_y, width, height]
        layout, barriers = self.bring(source, [[level, 1, layer, layers]], False)
        other, more = self.bring(destination, [[other_level, 1, other_layer, layers]], True)
        if source == destination:
            layout = other = GENERAL
            barriers, more = [["barrier", [], [], [self.transition(source, whole(shapes[source]), GENERAL)]]], []
        return [*barriers, *more, ["copy_image", source, layout, destination, other, [region]]]

    def image_commands(self, queue):
        """A clear or a copy of an image, with the transitions that it needs; or transitions alone."""
        draws = [self.with_buffer, self.with_buffer, self.with_buffer, self.between_images]
        draws += [self.clear] * (queue < 2 or self.slip()) + [lambda: [self.images_barrier()]]
        return self.random.choice(draws)()

    # ---- ownership transfers

    def image_release(self, family):
        """A release of an image by a family, at times with a transition."""
        own = [i for i in self.pictures if self.reading.is_exclusive(i) and self.owner(i) in ((None, None), (family, None))]
        if not own:
            return None
        image = self.random.choice(own)
        part = whole(self.reading.shapes[image])
        old = self.layout_of(image, part)
        new = self.random.choice((old, READ, WRITTEN, GENERAL))
        return [*self.element(), family, 1 - family, image, old, new if self.chance(0.5) else old, part]

    def image_acquire(self, family):
        """The other half of a release of an image to a family; at times with another layout."""
        for image in self.pictures:
            _, release = self.owner(image)
            content = self.reading.nodes[release].content if release is not None else None
            if content is not None and content[5] == family:
                layouts = [READ, WRITTEN] if self.slip() else content[7:9]
                return [*self.masks_around(), *content[4:7], *layouts, content[9]]
        return None

    def image_transfer(self, queue):
        """A barrier with half of a transfer of an image; none where no image can be transferred."""
        family = 0 if queue < 2 else 1
        element = self.image_acquire(family) or self.image_release(family)
        return [] if element is None else [["barrier", [], [], [element]]]

    # ---- submits

    def change_image(self):
        """A submit of a clear or a copy of an image, or of a transfer, with what it needs."""
        if not self.pictures or not self.sizes:
            return
        family = self.random.randrange(2)
        commands = self.image_transfer(2 * family) if self.chance(0.2) else self.image_commands(2 * family)
        self.submit_all(family, commands, self.chance(0.8))

    def read_image(self):
        """Copies an image to a buffer that the host then reads."""
        readable = [b for b in self.sizes if self.reading.is_mapped(b)]
        pictures = [i for i in self.pictures if 1 in self.reading.defined[i]]
        if not readable or not pictures:
            return
        image, buffer = self.random.choice(pictures), self.random.choice(readable)
        shape = self.reading.shapes[image]
        level, layer = self.random.randrange(shape.levels), self.random.randrange(shape.layers)
        width, height = shape.extent(level)
        layout, barriers = self.bring(image, [[level, 1, layer, 1]], False)
        region = [0, 0, 0, level, layer, 1, 0, 0, width, height]
        self.submit_all(self.random.randrange(2), [*barriers, ["copy_out", image, layout, buffer, [region]]], True)
        self.finish_queues()
        size = min(shape.level_bytes(level), self.sizes[buffer])
        if buffer in self.cached():
            self.reach("invalidate", buffer, 0, size)
        self.offer(["read", buffer, 0, size])


def whole(shape):
    """All levels and layers."""
    return [0, shape.levels, 0, shape.layers]
