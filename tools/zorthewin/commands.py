"""The commands of a batch, and its waits and signals."""

import sys
from typing import List

import trace_forms as forms

from .names import IGNORED, Wrong, hexed, large, length, listed, number, scope, span
from .objects import Buffer, Event, Image, Semaphore, ids


def site():
    """The file and the line of the call into this module."""
    frame = sys._getframe(1)
    while frame.f_back is not None and frame.f_globals.get("__package__") == __package__:
        frame = frame.f_back
    return f"{frame.f_code.co_filename}:{frame.f_lineno}"


def staged(pairs, what, trace):
    """Waits or signals of a batch: a semaphore, a value and stages, ALL_COMMANDS where they are left out."""
    rows = []
    for pair in listed(pairs, what, "(semaphore, value) or (semaphore, value, stages)"):
        if not isinstance(pair, tuple) or len(pair) not in (2, 3):
            raise Wrong(f"{what}: expected (semaphore, value) or (semaphore, value, stages); found {pair!r}")
        stages = pair[2] if len(pair) == 3 else "ALL_COMMANDS"
        rows.append(
            [
                ids(pair[0], Semaphore, what, trace),
                large(pair[1], f"{what}: value"),
                number(stages, forms.STAGE_MASK, f"{what}: stages"),
            ]
        )
    return rows


class Batch:
    """The commands of a batch, in the order of the calls. `with` closes it."""

    def __init__(self, submit, waits, signals):
        self.submit = submit
        self.rows = [staged(waits, "waits", submit.trace), [], staged(signals, "signals", submit.trace)]
        self.sites = []

    def __enter__(self):
        return self

    def __exit__(self, kind, error, trace):
        if kind is None:
            self.submit.batches.append(self)
            self.submit.closed(self)

    def add(self, *members):
        """A command, with the place of the call."""
        self.rows[1].append(list(members))
        self.sites.append(site())

    def own(self, value, kind, what):
        """The id of an object of the batch's trace."""
        return ids(value, kind, what, self.submit.trace)

    def fill(self, buffer, word_, offset=0, size="whole"):
        """Fills bytes of a buffer with a word of 32 bits, again and again."""
        self.add(
            "fill",
            self.own(buffer, Buffer, "fill"),
            large(offset, "fill: offset"),
            length(size, "fill: size"),
            number(word_, forms.SMALL, "fill: word"),
        )

    def update(self, buffer, data, offset=0):
        """Writes bytes to a buffer."""
        self.add("update", self.own(buffer, Buffer, "update"), large(offset, "update: offset"), hexed(data, "update"))

    def copy(self, source, destination, *regions):
        """Copies regions (source offset, destination offset, size) between buffers; all of the smaller one where
        there is none."""
        row = ["copy", self.own(source, Buffer, "copy: source"), self.own(destination, Buffer, "copy: destination")]
        regions = regions or ((0, 0, min(source.size, destination.size)),)
        self.add(
            *row,
            [
                counted(region, ("source offset", "destination offset", "size"), "copy: region")
                for region in regions
            ],
        )

    def clear(self, image, color, layout="TRANSFER_DST_OPTIMAL", levels=None, layers=None):
        """Clears levels and layers of an image to four numbers."""
        row = ["clear", self.own(image, Image, "clear"), number(layout, forms.LAYOUT, "clear: layout")]
        self.add(
            *row,
            counted(color, ("red", "green", "blue", "alpha"), "clear: color", forms.SMALL),
            [image_range(image, levels, layers)],
        )

    def copy_in(
        self, buffer, image, layout="TRANSFER_DST_OPTIMAL", levels=None, layers=None, offset=0, row_bytes=1, regions=None
    ):
        """Copies levels of an image out of a buffer, where they lie as `Image.packed` says; or regions of ten numbers."""
        row = ["copy_in", self.own(buffer, Buffer, "copy_in: buffer"), self.own(image, Image, "copy_in: image")]
        row += [number(layout, forms.LAYOUT, "copy_in: layout")]
        self.add(*row, buffer_regions("copy_in", regions) or level_regions(image, levels, layers, offset, row_bytes))

    def copy_out(
        self, image, buffer, layout="TRANSFER_SRC_OPTIMAL", levels=None, layers=None, offset=0, row_bytes=1, regions=None
    ):
        """Copies levels of an image to a buffer, where they lie as `Image.packed` says; or regions of ten numbers."""
        row = ["copy_out", self.own(image, Image, "copy_out: image"), number(layout, forms.LAYOUT, "copy_out: layout")]
        row += [self.own(buffer, Buffer, "copy_out: buffer")]
        self.add(*row, buffer_regions("copy_out", regions) or level_regions(image, levels, layers, offset, row_bytes))

    def copy_image(
        self,
        source,
        destination,
        source_layout="TRANSFER_SRC_OPTIMAL",
        destination_layout="TRANSFER_DST_OPTIMAL",
        regions=None,
    ):
        """Copies between images: regions of eleven numbers, or level 0 of all layers, as far as both have it."""
        row = [
            "copy_image",
            self.own(source, Image, "copy_image: source"),
            number(source_layout, forms.LAYOUT, "copy_image: source layout"),
        ]
        row += [
            self.own(destination, Image, "copy_image: destination"),
            number(destination_layout, forms.LAYOUT, "copy_image: destination layout"),
        ]
        both = [
            min(one, other)
            for one, other in (
                (source.layers, destination.layers),
                (source.width, destination.width),
                (source.height, destination.height),
            )
        ]
        names = [name for name, _ in forms.IMAGE_REGION.members]
        whole = [(0, 0, 0, 0, both[0], 0, 0, 0, 0, both[1], both[2])]
        regions = listed(whole if regions is None else regions, "copy_image: regions", "regions")
        self.add(*row, [counted(region, names, "copy_image: region", forms.SMALL) for region in regions])

    # ---- dependencies

    def barrier(self, src=None, dst=None, buffers=(), images=()):
        """A barrier: a memory element of two scopes where one is given, and elements of `on_buffer` and `on_image`."""
        memory = [] if src is None and dst is None else [scope(src, "barrier: src") + scope(dst, "barrier: dst")]
        elements = [
            self.elements(buffers, Buffer, "barrier: buffers", "on_buffer"),
            self.elements(images, Image, "barrier: images", "on_image"),
        ]
        self.add("barrier", memory, *elements)

    def elements(self, values, kind, what, maker):
        """The elements of a barrier on resources of a kind."""
        wanted = f"what {maker} answers"
        if isinstance(values, Element):
            raise Wrong(f"{what}: expected a list of {wanted}; found one alone")
        for each in listed(values, what, wanted):
            if not isinstance(each, Element):
                raise Wrong(f"{what}: expected a list of {wanted}; found {each!r} in it")
            self.own(each.resource, kind, what)
        return [each.row for each in values]

    def transition(self, image, old, new, src=None, dst=None, levels=None, layers=None):
        """A barrier that gives levels and layers of an image another layout."""
        self.barrier(images=[on_image(image, old, new, src, dst, levels, layers)])

    def set(self, event, src=None, dst=None):
        """Sets an event with one dependency."""
        self.add("set", self.own(event, Event, "set"), [scope(src, "set: src") + scope(dst, "set: dst")])

    def wait_event(self, event, src=None, dst=None):
        """Awaits an event, with the dependency of its set."""
        self.add("await", self.own(event, Event, "await"), [scope(src, "await: src") + scope(dst, "await: dst")])


def counted(values, names, what, form=forms.LARGE):
    """As many numbers as there are names."""
    if not isinstance(values, (list, tuple)) or len(values) != len(names):
        raise Wrong(f"{what}: expected {len(names)} numbers ({', '.join(names)}); found {values!r}")
    return [number(value, form, f"{what}: {name}") for value, name in zip(values, names)]


def image_range(image, levels, layers):
    """A range of levels and layers."""
    return [*span(levels, image.levels, f"{image}: levels"), *span(layers, image.layers, f"{image}: layers")]


def level_regions(image, levels, layers, offset, row_bytes):
    """A region of a copy with a buffer for each level."""
    first, count = span(levels, image.levels, f"{image}: levels")
    layer, many = span(layers, image.layers, f"{image}: layers")
    places, _ = image.packed(levels, layers, large(offset, "offset"), row_bytes)
    found = []
    for place, level in zip(places, range(first, first + count)):
        width, height = image.sides(level)
        length = image.row_length(level, row_bytes)
        found.append([place, 0 if length == width else length, 0, level, layer, many, 0, 0, width, height])
    return found


def buffer_regions(what, regions):
    """Regions of a copy with a buffer, as they are written."""
    names = [name for name, _ in forms.BUFFER_IMAGE_REGION.members]
    regions = listed([] if regions is None else regions, f"{what}: regions", "regions")
    rows = [counted(region, names, f"{what}: region", forms.LARGE) for region in regions]
    for row in rows:
        for name, value in zip(names[1:], row[1:]):
            number(value, forms.SMALL, f"{what}: region: {name}")
    return rows


def families(pair, what):
    """The two families of an element: IGNORED both where there are none."""
    if pair is None:
        return [IGNORED, IGNORED]
    if not isinstance(pair, tuple) or len(pair) != 2:
        raise Wrong(f"{what}: expected (source family, destination family); found {pair!r}")
    return [number(each, forms.FAMILY, what) for each in pair]


class Element:
    """An element of a barrier on a resource, as it stands in the trace."""

    def __init__(self, resource, row):
        self.resource = resource
        self.row = row

    def __repr__(self):
        return f"an element on {self.resource}"


def on_buffer(buffer, src=None, dst=None, offset=0, size="whole", owner=None):
    """An element of a barrier on a range of a buffer; `owner` is a pair of queue families."""
    row = (
        scope(src, "buffer element: src")
        + scope(dst, "buffer element: dst")
        + families(owner, "buffer element: owner")
    )
    row += [ids(buffer, Buffer, "buffer element", getattr(buffer, "trace", None))]
    return Element(buffer, [*row, large(offset, "buffer element: offset"), length(size, "buffer element: size")])


def on_image(image, old, new, src=None, dst=None, levels=None, layers=None, owner=None):
    """An element of a barrier on levels and layers of an image; `owner` is a pair of queue families."""
    row = (
        scope(src, "image element: src")
        + scope(dst, "image element: dst")
        + families(owner, "image element: owner")
    )
    row += [ids(image, Image, "image element", getattr(image, "trace", None))]
    row += [
        number(each, forms.LAYOUT, f"image element: {which} layout") for each, which in ((old, "old"), (new, "new"))
    ]
    return Element(image, [*row, image_range(image, levels, layers)])


class Submit:
    """The batches of a submit. `with` closes it."""

    def __init__(self, trace, queue, alone=False):
        self.trace = trace
        self.queue = number(queue, forms.SMALL, "submit: queue")
        self.batches: List[Batch] = []
        self.alone = alone

    def batch(self, waits=(), signals=()):
        """A batch of the submit."""
        return Batch(self, waits, signals)

    def closed(self, batch):
        """A batch has all its commands."""
        if self.alone:
            self.trace.add("submit", self.queue, [batch.rows], commands=[batch.sites])

    def __enter__(self):
        return self

    def __exit__(self, kind, error, trace):
        if kind is None:
            self.trace.add(
                "submit",
                self.queue,
                [each.rows for each in self.batches],
                commands=[each.sites for each in self.batches],
            )
