"""What is known of a captured program as its calls are read: its resources, the trace so far, and the summary."""

import json
from collections import Counter

from captured_places import Places

# Limits of the format.
MOST_POINTS, MOST_TEXT, MOST_MEMORY = 131072, 16777216, 67108864
MOST_SIDE, MOST_LAYERS = 4096, 256
# Of resources that aren't judged so many are listed.
MOST_LISTED = 20


class Stop(Exception):
    """The trace ends before this call, with the reason; what comes before it is judged."""


class Summary:
    """What is said on standard error: what was judged, what was left out, and what was assumed."""

    def __init__(self):
        self.judged = 0
        self.left_out = Counter()
        self.opaque = []
        self.notes = Counter()
        self.stopped = None

    def note(self, text, count=1):
        """Counts an assumption."""
        self.notes[text] += count

    def lines(self):
        """The summary."""
        yield f"calls judged: {self.judged}"
        names = sorted(self.left_out.items(), key=lambda item: (-item[1], item[0]))
        listed = ", ".join(f"{name} {count}" for name, count in names)
        yield f"calls left out: {sum(self.left_out.values())}" + (f" ({listed})" if listed else "")
        yield f"resources not judged: {len(self.opaque)}"
        for text in self.opaque[:MOST_LISTED]:
            yield f"  {text}"
        if len(self.opaque) > MOST_LISTED:
            yield f"  and {len(self.opaque) - MOST_LISTED} more"
        for text, count in self.notes.items():
            yield f"assumed: {text}" + (f" ({count} times)" if count > 1 else "")
        if self.stopped:
            yield f"the trace ends before {self.stopped}"


class Trace:
    """The entries so far, and for each the call that it stands for."""

    def __init__(self):
        self.texts = []
        self.origins = []
        self.size = 2
        self.points = 0
        self.last_id = 0

    def new_id(self):
        """An id of an object of the trace."""
        self.last_id += 1
        return self.last_id

    def add(self, entry, call, why=None, parts=None, points=1):
        """Adds an entry that stands for a call; a limit that is passed ends the trace."""
        text = json.dumps(entry, separators=(",", ":"))
        if self.points + points > MOST_POINTS:
            raise Stop(f"{call}: with it the trace would have more than {MOST_POINTS} points")
        if self.size + len(text) + 4 > MOST_TEXT:
            raise Stop(f"{call}: with it the trace would be longer than {MOST_TEXT} bytes")
        self.texts.append(text)
        self.size += len(text) + 4
        self.points += points
        origin = {"call": call.index, "name": call.name}
        if why:
            origin["why"] = why
        if parts is not None:
            origin["batches"] = parts
        self.origins.append(origin)

    def text(self):
        """The trace, an entry a line."""
        return "[\n  " + ",\n  ".join(self.texts) + "\n]\n" if self.texts else "[]\n"


class Resource:
    """A buffer or an image: its handle, its id in the trace once it is made, and why it isn't judged."""

    kind = "resource"

    def __init__(self, handle, call, why=None):
        self.handle = handle
        self.call = call
        self.id = None
        self.why = why
        self.memory = None
        self.offset = self.extent = 0
        self.is_concurrent = False
        self.is_ended = False

    @property
    def is_named(self):
        """Whether commands on it are judged; one that has ended is, since they break a rule."""
        return self.why is None and self.id is not None

    @property
    def is_judged(self):
        """Whether it is in the trace, and hasn't ended."""
        return self.is_named and not self.is_ended


class Buffer(Resource):
    """A buffer; where the host may access it, what is known of its bytes."""

    kind = "buffer"

    def __init__(self, handle, call, info):
        super().__init__(handle, call)
        self.size = self.extent = info["size"]
        self.usage = info["usage"]
        self.is_concurrent = info["sharingMode"] == "VK_SHARING_MODE_CONCURRENT"
        self.type = 0
        self.is_mapped = False
        self.shadow = None
        self.unread = []

    def end_of(self, offset, size, whole):
        """The end of a range, where `whole` stands for the rest of the buffer."""
        return self.size if size == whole else offset + size


class Image(Resource):
    """An image."""

    kind = "image"

    def __init__(self, handle, call, why=None):
        super().__init__(handle, call, why)
        self.form = None
        self.levels = self.layers = 1
        self.is_linear = False
        self.sides = (1, 1)
        self.usage = self.type = self.size = 0
        # the batch and the second scope of the latest transition of each level and layer, where no use followed
        self.moves = {}

    def used(self, parts):
        """Levels and layers are used."""
        for part in parts:
            self.moves.pop(part, None)


class Memory:
    """A memory object: its type in the trace, what is bound to it, and its mapping."""

    def __init__(self, handle, size, kind, is_visible, is_imported):
        self.handle, self.size, self.type = handle, size, kind
        self.is_visible, self.is_imported = is_visible, is_imported
        self.places = Places()
        self.pages = {}
        self.is_foreign = self.has_linear = False
        # of a mapping: its offset, its end, and how many batches had been submitted
        self.mapping = None
        self.is_written = False


class Physical:
    """A physical device: the flags of its memory types, and which of its families have transfers alone."""

    def __init__(self):
        self.types, self.families = {}, {}
