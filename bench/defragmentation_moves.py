"""BLOCK: what a defragmentation without limits gives in a pool of blocks of so many bytes, by plain
lists of free ranges as docs/FORMAT.md has it: passes, moves, bytes moved, and blocks before and after.
Standard input has lines 'a NUMBER BYTES' and 'f NUMBER', first all of the former: then each goes to the
first block that has room behind what is there, whatever the policy of the blocks. For
defragmentation.sh."""

import sys


def free_ranges(taken, size):
    """The free ranges among taken ones: starts, and the bytes of each."""
    edge, found = 0, []
    for start, length in sorted(taken) + [(size, 0)]:
        if start > edge:
            found.append([edge, start - edge])
        edge = start + length
    return found


def take_lowest(free, size, limit):
    """Takes the lowest place of some bytes that ends at or below a limit."""
    for index, (start, length) in enumerate(free):
        if start + size > limit:
            return None
        if length >= size:
            if length == size:
                del free[index]
            else:
                free[index] = [start + size, length - size]
            return start
    return None


def one_pass(places, sizes, block):
    """The moves of a pass: the new places of what moves."""
    by_block = {}
    for number, (its, start) in places.items():
        by_block.setdefault(its, []).append((start, sizes[number]))
    free = {its: free_ranges(taken, block) for its, taken in sorted(by_block.items())}
    moves = {}
    for (own, own_start), number in sorted(((p, n) for n, p in places.items()), reverse=True):
        for its in free:
            if its > own:
                break
            start = take_lowest(free[its], sizes[number], own_start if its == own else block)
            if start is not None:
                moves[number] = (its, start)
                break
    return moves


def main(block):
    sizes, places, ends = {}, {}, []
    for line in sys.stdin:
        what, number, *size = line.split()
        if what == "f":
            del places[number], sizes[number]
            continue
        size = (int(size[0]) + 15) // 16 * 16
        its = next((i for i, end in enumerate(ends) if end + size <= block), len(ends))
        if its == len(ends):
            ends.append(0)
        sizes[number], places[number] = size, (its, ends[its])
        ends[its] += size
    before = len({its for its, _ in places.values()})
    passes = moved = moved_bytes = 0
    while moves := one_pass(places, sizes, block):
        places.update(moves)
        passes, moved = passes + 1, moved + len(moves)
        moved_bytes += sum(sizes[number] for number in moves)
    print(passes, moved, moved_bytes, before, len({its for its, _ in places.values()}))


main(int(sys.argv[1]))
