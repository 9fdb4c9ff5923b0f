"""Beside which point of a trace each edit of its repair is shown."""

WAITS, COMMANDS, SIGNALS = 0, 1, 2


class Edited:
    """The names of a trace's points, by entries and batches, as the edits so far have left them."""

    def __init__(self, trace):
        # (an entry that an edit has put in has no name, and neither has such a command, wait or signal)
        self.entries = [(str(number), batches_of(number, entry)) for number, entry in enumerate(trace)]

    def anchor(self, edit):
        """Makes an edit. Answers a point, and whether the edit is shown before it, or else behind it."""
        path = [int(part) for part in edit["path"].split("/")[1:]]
        if len(path) == 1:
            found = beside([name for name, _ in self.entries], edit["op"], path[0])
            change(self.entries, edit["op"], path[0], (None, []))
            return found
        name, batches = self.entries[path[0]]
        if len(path) != 5 or path[2] >= len(batches):
            return name, False
        batch = batches[path[2]]
        found = beside(batch[path[3]], edit["op"], path[4]) or at_end(batch, path[3]) or (name, False)
        change(batch[path[3]], edit["op"], path[4], None)
        return found


def batches_of(number, entry):
    """The names of the waits, the commands and the signals of each batch of an entry."""
    batches = entry[2] if entry[0] == "submit" else []
    return [
        [[f"{number}.{at}.{letter}{k}" for k in range(len(part))] for letter, part in zip(("w", "", "s"), batch)]
        for at, batch in enumerate(batches)
    ]


def change(names, way, place, new):
    """Puts a new one into a list, or takes one out."""
    if way == "add":
        names.insert(place, new)
    elif way == "remove":
        del names[place]


def beside(names, way, place):
    """What an edit of a list is shown beside: before what it comes before, or behind what it changes or follows."""
    if way != "add" and names[place]:
        return names[place], False
    behind = [name for name in names[place:] if name]
    if behind:
        return behind[0], True
    before = [name for name in names[:place] if name]
    return (before[-1], False) if before else None


def at_end(batch, part):
    """What the first wait, command or signal of a batch is shown beside."""
    behind = [name for names in batch[part + 1 :] for name in names if name]
    if behind:
        return behind[0], True
    before = [name for names in batch[:part] for name in names if name]
    return (before[-1], False) if before else None
