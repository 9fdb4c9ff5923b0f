"""What lies where in a memory object, found by its place and not one by one."""

import bisect


class Places:
    """Ranges in order, none of which meets another; those that would meet are one, with the things of both."""

    def __init__(self):
        self.starts, self.ranges = [], []

    def span(self, start, end):
        """Which of the ranges meet one."""
        first = bisect.bisect_right(self.starts, start)
        if first and self.ranges[first - 1][1] > start:
            first -= 1
        return first, bisect.bisect_left(self.starts, end, first)

    def meeting(self, start, end):
        """What lies in the ranges that meet one."""
        first, last = self.span(start, end)
        return [thing for _, _, things in self.ranges[first:last] for thing in things]

    def add(self, start, end, thing):
        """Adds a thing, and answers those that it may share bytes with."""
        first, last = self.span(start, end)
        others = self.meeting(start, end)
        for low, high, _ in self.ranges[first:last]:
            start, end = min(start, low), max(end, high)
        self.starts[first:last] = [start]
        self.ranges[first:last] = [(start, end, [*others, thing])]
        return others

    def remove(self, start, end, thing):
        """Takes a thing away that was added in this range."""
        first, last = self.span(start, end)
        for at in range(first, last):
            things = self.ranges[at][2]
            if thing in things:
                things.remove(thing)
                if not things:
                    del self.starts[at], self.ranges[at]
                return

    def all(self):
        """All things."""
        return [thing for _, _, things in self.ranges for thing in things]
