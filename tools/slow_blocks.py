"""Blocks of memory as plain lists of ranges, slowly and by the definitions: which place a request gets, and
what is free. A range is a start, a size and a kind; a free one has no kind."""

from bisect import bisect_left, bisect_right
from collections import Counter

PAGE = 1_024
UNIT = 16


def conflict(one, other):
    """Whether two ranges meet, or share a page while their kinds differ."""
    (a, n, kind), (b, m, other_kind) = one, other
    meet = a < b + m and b < a + n
    share = a // PAGE <= (b + m - 1) // PAGE and b // PAGE <= (a + n - 1) // PAGE
    return meet or (kind != other_kind and share)


class Taken:
    """Ranges that are taken, by place, and which starts fit among them."""

    def __init__(self, ranges):
        self.ranges = sorted(ranges)
        self.starts = [start for start, _, _ in self.ranges]
        self.ends = [start + size for start, size, _ in self.ranges]

    def clash(self, one):
        """A range that conflicts with this one; only those that have bytes on its pages can."""
        first = bisect_right(self.ends, one[0] // PAGE * PAGE)
        last = bisect_left(self.starts, -(-(one[0] + one[1]) // PAGE) * PAGE)
        return next((t for t in self.ranges[first:last] if conflict(one, t)), None)

    def lowest(self, size, align, kind, low, high):
        """The lowest start at which a request fits between two bounds."""
        start = -(-low // align) * align
        while start + size <= high:
            found = self.clash((start, size, kind))
            if found is None:
                return start
            start = max(start + align, -(-(found[0] + found[1] - PAGE) // align) * align)
        return None

    def highest(self, size, align, kind, low, high):
        """The highest such start."""
        start = (high - size) // align * align
        while start >= low:
            found = self.clash((start, size, kind))
            if found is None:
                return start
            start = min(start - align, (found[0] + PAGE - size) // align * align)
        return None


def largest_gap(size, taken):
    """The longest range of which nothing is taken."""
    longest = edge = 0
    for start, length, _ in sorted(taken):
        longest, edge = max(longest, start - edge), start + length
    return max(longest, size - edge)


class Lists:
    """A block by two-level lists (VMA, "Virtual allocator", on the TLSF algorithm). Its ranges by place,
    and its lists of the starts of free ranges, the one that came last first."""

    def __init__(self, size, mixed):
        self.size = size
        self.more = 2 * PAGE if mixed else 0
        self.ranges = [(0, size, None)]
        self.lists = {}
        self.counts = Counter()
        self.put_first(0, size)

    # ---- the lists

    @staticmethod
    def list_of(units):
        """The list of ranges of so many units: one each below 16, then sixteen a power of two."""
        if units < 16:
            return (0, units)
        f = units.bit_length() - 4
        return (f, (units >> (f - 1)) - 16)

    @staticmethod
    def least_units(number):
        """The fewest units of a range of this list."""
        f, s = number
        return s if f == 0 else (16 + s) << (f - 1)

    def put_first(self, start, size):
        self.lists.setdefault(self.list_of(size // UNIT), []).insert(0, start)

    def take_out(self, start, size):
        number = self.list_of(size // UNIT)
        self.lists[number].remove(start)
        if not self.lists[number]:
            del self.lists[number]

    # ---- places

    def taken_ranges(self):
        return Taken(t for t in self.ranges if t[2] is not None)

    def place_in(self, at, size, align, kind, high):
        """The lowest place in the free range that starts here."""
        end = next(start + length for start, length, k in self.ranges if start == at and k is None)
        return self.taken_ranges().lowest(size, align, kind, at, min(end, high))

    def listed(self, size, align, kind):
        """The free range that a request goes to, and its place: that of the smallest list that surely
        suffices, if its first range holds the request, else the first one that does, from the largest
        list down."""
        units = (size + align - UNIT + self.more) // UNIT
        suffices = sorted(number for number in self.lists if self.least_units(number) >= units)
        if suffices:
            head = self.lists[suffices[0]][0]
            start = self.place_in(head, size, align, kind, self.size)
            if start is not None:
                self.counts["by the first list"] += 1
                return head, start
        for number in sorted(self.lists, reverse=True):
            for at in self.lists[number]:
                start = self.place_in(at, size, align, kind, self.size)
                if start is not None:
                    self.counts["by a walk"] += 1
                    return at, start
        return None

    def allocate(self, size, align, kind):
        found = self.listed(size, align, kind)
        fits = self.taken_ranges().lowest(size, align, kind, 0, self.size) is not None
        if fits != (found is not None):
            raise SystemExit("the lists and the ranges differ")
        return self.put(found, size, kind)

    def below(self, limit, size, align, kind):
        """The lowest place that ends at or below a limit."""
        start = self.taken_ranges().lowest(size, align, kind, 0, min(limit, self.size))
        if start is None:
            return None
        at = max(s for s, _, k in self.ranges if k is None and s <= start)
        return self.put((at, start), size, kind)

    # ---- changes

    def put(self, found, size, kind):
        """Takes a place of a free range; what is before it is put back first, then what is after it."""
        if found is None:
            return None
        at, start = found
        place = next(i for i, t in enumerate(self.ranges) if t[0] == at)
        length = self.ranges[place][1]
        self.take_out(at, length)
        parts = [(at, start - at, None), (start, size, kind), (start + size, at + length - start - size, None)]
        self.ranges[place : place + 1] = [part for part in parts if part[1]]
        for part in parts:
            if part[1] and part[2] is None:
                self.put_first(part[0], part[1])
        return start

    def free(self, start):
        place = next(i for i, t in enumerate(self.ranges) if t[0] == start)
        first, last = place, place
        if place + 1 < len(self.ranges) and self.ranges[place + 1][2] is None:
            last = place + 1
            self.take_out(*self.ranges[last][:2])
        if place > 0 and self.ranges[place - 1][2] is None:
            first = place - 1
            self.take_out(*self.ranges[first][:2])
        begin = self.ranges[first][0]
        length = sum(t[1] for t in self.ranges[first : last + 1])
        self.ranges[first : last + 1] = [(begin, length, None)]
        self.put_first(begin, length)

    # ---- what is seen

    def largest(self):
        return largest_gap(self.size, self.taken_ranges().ranges)

    def taken(self):
        return [t[:2] for t in self.taken_ranges().ranges]


class Linear:
    """A linear block (VMA, "Linear allocation algorithm"): its lower stack, the ranges that went round to
    the start, and its upper stack."""

    def __init__(self, size, ring):
        self.size, self.ring = size, ring
        self.lower, self.wrapped, self.upper_stack = [], [], []
        self.counts = Counter()

    def all(self):
        return self.lower + self.wrapped + self.upper_stack

    def middle(self):
        """The bytes between the stacks."""
        low = sum(self.lower[-1][:2]) if self.lower else 0
        return low, self.upper_stack[-1][0] if self.upper_stack else self.size

    def allocate(self, size, align, kind):
        start = None
        if not self.wrapped:
            start = Taken(self.all()).lowest(size, align, kind, *self.middle())
            if start is not None:
                self.lower.append((start, size, kind))
        if start is None and self.ring and not self.upper_stack and self.lower:
            low = sum(self.wrapped[-1][:2]) if self.wrapped else 0
            start = Taken(self.all()).lowest(size, align, kind, low, self.lower[0][0])
            if start is not None:
                self.counts["round to the start"] += 1
                self.wrapped.append((start, size, kind))
        return start

    def upper(self, size, align, kind):
        if self.wrapped:
            return None
        start = Taken(self.all()).highest(size, align, kind, *self.middle())
        if start is not None:
            self.upper_stack.append((start, size, kind))
        return start

    def free(self, start):
        self.lower, self.wrapped, self.upper_stack = (
            [t for t in ranges if t[0] != start] for ranges in (self.lower, self.wrapped, self.upper_stack)
        )
        if not self.lower:
            self.lower, self.wrapped = self.wrapped, []

    def largest(self):
        return largest_gap(self.size, self.all())

    def taken(self):
        return [t[:2] for t in self.all()]
