"""The points of a trace in the order in which they are judged, with short words for each."""

from typing import NamedTuple, Optional, Tuple

from trace_forms import ACCESSES, LAYOUTS, STAGES


class Shown(NamedTuple):
    """A point: its name, its lane (none for the host, else the queue), its words, and what it signals or waits for."""

    name: str
    lane: Optional[int]
    words: str
    kind: str
    batch: Optional[Tuple[int, int]] = None
    signals: Tuple[Tuple[int, int], ...] = ()
    waits: Tuple[Tuple[int, int], ...] = ()


def masks(stages, accesses):
    """A scope in words."""
    named = STAGES.text(stages) or hex(stages)
    return f"{named}:{ACCESSES.text(accesses) or hex(accesses)}" if accesses else named


def layout(number):
    """A layout by its name, where it has one."""
    return LAYOUTS.text(number) or str(number)


def element(row):
    """An element of a barrier, a set or an await."""
    words = f"{masks(*row[:2])} → {masks(*row[2:4])}"
    if len(row) == 9:
        words += f", buffer {row[6]}"
    if len(row) == 10:
        words += f", image {row[6]}"
        if row[7] != row[8]:
            words += f" {layout(row[7])} → {layout(row[8])}"
    if len(row) > 4 and row[4] != row[5]:
        words += f", family {row[4]} → {row[5]}"
    return words


def span(offset, size):
    """A range of bytes."""
    return f"[{offset}, end)" if size == "whole" else f"[{offset}, {offset + size})"


def command_words(command):
    """A command."""
    word, *rest = command
    if word == "fill":
        return f"fill buffer {rest[0]} {span(*rest[1:3])}"
    if word == "update":
        return f"update buffer {rest[0]} {span(rest[1], len(rest[2]) // 2)}"
    if word == "copy":
        return f"copy buffer {rest[0]} → buffer {rest[1]}"
    if word == "clear":
        return f"clear image {rest[0]}"
    if word == "copy_in":
        return f"copy_in buffer {rest[0]} → image {rest[1]}"
    if word == "copy_out":
        return f"copy_out image {rest[0]} → buffer {rest[2]}"
    if word == "copy_image":
        return f"copy_image image {rest[0]} → image {rest[2]}"
    if word == "barrier":
        return "barrier " + "; ".join(element(row) for rows in rest for row in rows)
    return f"{word} event {rest[0]} " + "; ".join(element(row) for row in rest[1])


def entry_words(entry):
    """An entry of the host."""
    word, *rest = entry
    if word == "buffer":
        return f"buffer {rest[0]}, {rest[1]} bytes"
    if word == "image":
        return f"image {rest[0]}, {rest[1]} {rest[2]} × {rest[3]}"
    if word == "submit":
        return f"submit to queue {rest[0]}"
    if word == "wait":
        return "wait " + ", ".join(f"semaphore {s} ≥ {v}" for s, v in rest[0])
    if word == "signal":
        return f"signal semaphore {rest[0]} = {rest[1]}"
    if word == "write":
        return f"write buffer {rest[0]} {span(rest[1], len(rest[2]) // 2)}"
    if word in ("read", "flush", "invalidate"):
        return f"{word} buffer {rest[0]} {span(*rest[1:3])}"
    if word in ("map", "unmap", "destroy", "semaphore", "event", "free", "drop_pool"):
        what = {"map": "buffer ", "unmap": "buffer ", "free": "memory ", "drop_pool": "pool "}.get(word, "")
        return f"{word} {what}{rest[0]}"
    return " ".join(str(part) for part in entry if not isinstance(part, list))


class Order:
    """The points so far, and the batches that wait."""

    def __init__(self):
        self.points = []
        self.waiting = []
        self.values = {}

    def host(self, number, entry):
        """An entry, and the batches that can be started then."""
        word = entry[0]
        signals = ((entry[1], entry[2]),) if word == "signal" else ()
        waits = tuple((s, v) for s, v in entry[1]) if word == "wait" else ()
        self.points.append(Shown(str(number), None, entry_words(entry), word, None, signals, waits))
        if word == "semaphore":
            self.values[entry[1]] = entry[2]
        if word == "signal":
            self.values[entry[1]] = entry[2]
        if word == "submit":
            self.waiting += [(entry[1], (number, k), batch) for k, batch in enumerate(entry[2])]
        while self.start_one():
            pass

    def start_one(self):
        """Starts the first batch that can be, if there is one."""
        blocked = set()
        for at, (queue, place, batch) in enumerate(self.waiting):
            met = all(self.values.get(s, -1) >= v for s, v, _ in batch[0])
            if met and queue not in blocked:
                del self.waiting[at]
                self.start(queue, place, batch)
                return True
            blocked.add(queue)
        return False

    def start(self, queue, place, batch):
        """The points of a batch."""
        prefix = f"{place[0]}.{place[1]}."
        for k, (semaphore, value, stages) in enumerate(batch[0]):
            words = f"wait semaphore {semaphore} ≥ {value} ({masks(stages, 0)})"
            self.points.append(Shown(f"{prefix}w{k}", queue, words, "wait", place, (), ((semaphore, value),)))
        for k, command in enumerate(batch[1]):
            self.points.append(Shown(f"{prefix}{k}", queue, command_words(command), command[0], place))
        for k, (semaphore, value, stages) in enumerate(batch[2]):
            words = f"signal semaphore {semaphore} = {value} ({masks(stages, 0)})"
            self.points.append(Shown(f"{prefix}s{k}", queue, words, "signal", place, ((semaphore, value),), ()))
            self.values[semaphore] = value


def points_of(trace):
    """The points of a trace."""
    order = Order()
    for number, entry in enumerate(trace):
        order.host(number, entry)
    return order.points
