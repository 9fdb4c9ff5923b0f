"""Points and nodes of a trace, and which node an edge leads to; from docs/FORMAT.md, "What orders what"."""

TRANSFER, HOST, ALL_COMMANDS = 4096, 16384, 65536
ATOM = 64


def meet(first, second):
    """Whether two sets of stages have one in common."""
    in_transfer = first & (TRANSFER | ALL_COMMANDS) and second & (TRANSFER | ALL_COMMANDS)
    return bool(in_transfer or first & HOST and second & HOST)


def family_of(queue):
    """The family of a queue."""
    return 0 if queue < 2 else 1


def reached(entry):
    """The atoms of a buffer that a flush or an invalidation reaches, from the first to the last; no last
    one where it reaches all from the first on."""
    _, _, offset, size = entry
    return offset // ATOM, None if size == "whole" else (offset + size - 1) // ATOM


def named_by(command):
    """The buffers and images that a command or one of its elements names; of a copy its source first."""
    if command[0] in ("copy", "copy_in"):
        return command[1:3]
    if command[0] in ("copy_out", "copy_image"):
        return command[1:4:2]
    if command[0] == "barrier":
        return [element[6] for element in command[2] + command[3]]
    return command[1:2] if command[0] in ("fill", "update", "clear") else []


def is_on_image(element):
    """Whether an element of a barrier is on an image."""
    return len(element) == 10


class Node:
    """A host entry, a wait, a signal, a fill, or one element of a barrier, a set or an await."""

    def __init__(self, point, kind, content, role=None):
        self.point = point
        self.kind = kind
        self.content = content
        self.role = role
        self.on_host = kind == "host"
        self.is_submit = self.on_host and content[0] == "submit"
        # The buffer or the image that an element is limited to.
        self.buffer = content[6] if kind == "element" and len(content) > 4 else None
        # Of an image the bytes of each subresource, from the first to the one after the last.
        self.parts = []
        self.first_scope = self.second_scope = None
        if kind == "command":
            self.first_scope = self.second_scope = TRANSFER
        elif kind == "signal":
            self.first_scope = content[2]
        elif kind == "wait":
            self.second_scope = content[2]
        elif kind == "element":
            self.first_scope = None if role[0] == "await" else content[0]
            self.second_scope = None if role[0] == "set" else content[2]

    def signaled(self):
        """The semaphore and the value that it signals."""
        if self.kind == "signal":
            return tuple(self.content[:2])
        if self.on_host and self.content[0] == "signal":
            return tuple(self.content[1:3])
        return None

    def waited(self):
        """The semaphores and values that it waits for."""
        if self.kind == "wait":
            return [tuple(self.content[:2])]
        if self.on_host and self.content[0] == "wait":
            return [tuple(wait) for wait in self.content[1]]
        return []

    def names(self, buffer):
        """Whether it's a command or an element that names a buffer."""
        if self.kind == "command":
            return buffer in named_by(self.content)
        return self.buffer == buffer

    def covers(self, buffer, byte):
        """Whether a byte is one of those that an element's accesses are limited to."""
        if self.buffer is None:
            return True
        if is_on_image(self.content):
            return self.buffer == buffer and any(low <= byte < high for low, high in self.parts)
        offset, size = self.content[7:]
        return self.buffer == buffer and offset <= byte and (size == "whole" or byte < offset + size)

    def half(self):
        """Which half of an ownership transfer an element is, if it is one."""
        if self.buffer is None or self.content[4] == self.content[5]:
            return None
        family = family_of(self.point.queue)
        if family == self.content[4]:
            return "release"
        return "acquire" if family == self.content[5] else "neither"

    def is_transition(self):
        """Whether it's a layout transition that takes effect here: that of an ownership transfer does at
        its acquire."""
        if self.kind != "element" or not is_on_image(self.content):
            return False
        return self.content[7] != self.content[8] and self.half() != "release"

    def reaches(self, name, buffer, byte):
        """Whether it's a host entry of this name, a flush or an invalidation, that reaches a byte."""
        if not self.on_host or self.content[0] != name or self.content[1] != buffer:
            return False
        first, last = reached(self.content)
        return first <= byte // ATOM and (last is None or byte // ATOM <= last)

    def borders(self, buffer):
        """Where the bytes of a buffer begin and end that it covers as an element, or reaches."""
        if self.buffer == buffer and is_on_image(self.content):
            return [border for part in self.parts for border in part]
        if self.buffer == buffer:
            offset, size = self.content[7:]
            return [offset] if size == "whole" else [offset, offset + size]
        if self.on_host and self.content[0] in ("flush", "invalidate") and self.content[1] == buffer:
            first, last = reached(self.content)
            return [ATOM * first] if last is None else [ATOM * first, ATOM * (last + 1)]
        return []

    def leads_to(self, later):
        """Whether an edge of any kind but by a semaphore leads to a later node."""
        if self.on_host and later.on_host:
            return True
        if self.on_host or later.on_host:
            return self.is_submit and self.point.entry == later.point.entry
        if self.kind == later.kind == "element" and self.pairs_with(later):
            return True
        if self.point.queue != later.point.queue:
            return False
        return self.leads_on_queue(later)

    def pairs_with(self, later):
        """Whether they are element k of a set and of its await."""
        return self.role[0] == "set" and later.role[0] == "await" and self.role[1:] == later.role[1:]

    def leads_on_queue(self, later):
        """The same on one queue."""
        siblings = self.kind == later.kind == "element" and self.point is later.point
        commands = self.kind == later.kind == "command"
        scopes = self.second_scope is not None and later.first_scope is not None
        if scopes and not siblings and not commands and meet(self.second_scope, later.first_scope):
            return True
        if later.kind == "signal":
            if self.kind == "signal":
                return True
            if self.kind == "element":
                to_host = self.second_scope is not None and self.second_scope & HOST
                return bool(to_host or later.content[2] & ALL_COMMANDS)
        waits_for_all = self.kind == "wait" and self.content[2] & ALL_COMMANDS
        return bool(waits_for_all and later.kind == "element")


class Point:
    """An entry of the host, or a wait, a command or a signal of a batch."""

    def __init__(self, kind, content, entry, batch=0, place=0, queue=None):
        self.kind, self.content = kind, content
        self.entry, self.batch, self.place, self.queue = entry, batch, place, queue

    def at(self):
        """How it is reported."""
        letter = {"wait": "w", "signal": "s", "command": ""}
        if self.kind == "host":
            return str(self.entry)
        return f"{self.entry}.{self.batch}.{letter[self.kind]}{self.place}"

    def nodes(self):
        """Its nodes, in order."""
        if self.kind != "command":
            return [Node(self, self.kind, self.content)]
        name = self.content[0]
        if name == "barrier":
            return [Node(self, "element", e, ("barrier",)) for e in sum(self.content[1:], [])]
        if name in ("set", "await"):
            roles = ((name, self.content[1], k) for k in range(len(self.content[2])))
            return [Node(self, "element", e, role) for e, role in zip(self.content[2], roles)]
        return [Node(self, "command", self.content)]


class Batch:
    """A submitted batch, with those of its waits that are for semaphores at its submit."""

    def __init__(self, entry, number, queue, content, waits):
        self.entry, self.number, self.queue = entry, number, queue
        self.content, self.waits = content, waits

    def points(self):
        """Its waits, then its commands, then its signals."""
        for kind, items in zip(("wait", "command", "signal"), self.content):
            for place, item in enumerate(items):
                yield Point(kind, item, self.entry, self.number, place, self.queue)


def same_place(point, other):
    return (point.entry, point.batch, point.place) == (other.entry, other.batch, other.place)
