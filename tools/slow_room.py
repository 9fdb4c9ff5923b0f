"""The memory of a device, slowly: what is free of its heaps, its memory objects, and its pools with their
blocks; from docs/FORMAT.md, and of the places in blocks from docs/PLACES.md (slow_blocks.py)."""

import copy

from entries import aligned, is_tiled, place_of, rounded
from points import ATOM
from slow_blocks import Linear, Lists

MOST_OBJECTS = 4_096


def heap_of(memory_type):
    return 0 if memory_type == 0 else 1


def in_pool(entry):
    """Whether an entry makes a resource in a pool."""
    return entry[0] in ("buffer", "image") and place_of(entry)[0] in ("pool", "pool_upper")


class Pool:
    """A pool: what it was made with, its blocks by their numbers, and where its resources are."""

    def __init__(self, entry):
        _, _, self.kind, self.memory_type, self.block_size, self.limit = entry
        self.blocks = {}
        self.next = 0
        self.places = {}
        self.requests = {}
        # What moves in an open pass, with its target, from the highest place down.
        self.moves = []

    def new_block(self):
        if self.kind == "tlsf":
            return Lists(self.block_size, mixed=self.memory_type == 0)
        return Linear(self.block_size, ring=self.limit == 1)

    def target(self, thing, request):
        """Takes the place that a resource moves to, if there is one, and answers it."""
        own, start = self.places[thing]
        for number, block in self.blocks.items():
            if number <= own:
                found = block.below(start if number == own else block.size, *request)
                if found is not None:
                    return number, found
        return None

    def has_target(self, thing, request):
        return copy.deepcopy(self).target(thing, request) is not None

    def request(self, entry):
        """The size, the alignment and the kind that a resource asks for."""
        align = max(aligned(entry), ATOM) if self.memory_type == 2 else aligned(entry)
        return rounded(entry), align, "optimal" if is_tiled(entry) else "linear"


def put_in(block, entry, request):
    """The start that a block gives a resource, if it holds it."""
    give = block.upper if place_of(entry)[0] == "pool_upper" else block.allocate
    return give(*request)


def placed(block):
    """In which ways a block has given places, in words."""
    return {f"with places in a pool {name}" for name, count in block.counts.items() if count}


class Room:
    """What a device has of memory, entry by entry."""

    def __init__(self, heaps):
        self.free = list(heaps)
        # The heap and the bytes of each memory object outside pools, by what has it.
        self.objects = {}
        self.pools = {}
        # What has happened, in words.
        self.seen = set()

    def copy(self):
        """The same again; pools are changed in place, and nothing else of it is."""
        other = Room(self.free)
        other.objects, other.seen = self.objects.copy(), self.seen.copy()
        other.pools = copy.deepcopy(self.pools)
        return other

    # ---- memory objects

    def finds(self, memory_type, size):
        """Whether there is room for one more memory object."""
        count = len(self.objects) + sum(len(pool.blocks) for pool in self.pools.values())
        return size <= self.free[heap_of(memory_type)] and count < MOST_OBJECTS

    def take(self, thing, memory_type, size):
        found = self.finds(memory_type, size)
        if found:
            self.free[heap_of(memory_type)] -= size
            self.objects[thing] = (heap_of(memory_type), size)
        return found

    # ---- pools

    def put(self, entry):
        """Puts a resource in its pool: in the first block that holds it, or else in a new one."""
        pool = self.pools[place_of(entry)[1]]
        request = pool.request(entry)
        pool.requests[entry[1]] = request
        for number, block in pool.blocks.items():
            start = put_in(block, entry, request)
            if start is not None:
                pool.places[entry[1]] = (number, start)
                return True
        if len(pool.blocks) >= pool.limit or not self.finds(pool.memory_type, pool.block_size):
            return False
        self.free[heap_of(pool.memory_type)] -= pool.block_size
        block = pool.new_block()
        pool.places[entry[1]] = (pool.next, put_in(block, entry, request))
        pool.blocks[pool.next] = block
        pool.next += 1
        if len(pool.blocks) > 1:
            self.seen.add("with several blocks of a pool")
        return True

    def give_back(self, pool, place):
        """A place is free again; a block of which nothing is taken goes."""
        number, start = place
        pool.blocks[number].free(start)
        if not pool.blocks[number].taken():
            self.seen |= placed(pool.blocks.pop(number))
            self.free[heap_of(pool.memory_type)] += pool.block_size
            self.seen.add("with blocks given back")

    # ---- entries

    def make(self, entry):
        """What an entry makes gets its memory. Whether it finds room."""
        if entry[0] == "pool":
            self.pools[entry[1]] = Pool(entry)
            return True
        if entry[0] == "memory":
            return self.take(entry[1], *entry[2:])
        if in_pool(entry):
            self.seen.add(f"with resources in a {self.pools[place_of(entry)[1]].kind} pool")
            return self.put(entry)
        return place_of(entry)[0] != "dedicated" or self.take(entry[1], place_of(entry)[1], rounded(entry))

    def end(self, thing):
        """An object ends, and what it has goes back."""
        heap, size = self.objects.pop(thing, (0, 0))
        self.free[heap] += size
        for pool in self.pools.values():
            if thing in pool.places:
                self.give_back(pool, pool.places.pop(thing))
        self.pools.pop(thing, None)

    # ---- passes of a defragmentation

    def begin_pass(self, number, max_bytes, max_moves):
        """Takes the targets of what moves, up to the first move that would pass a limit; 0 is none."""
        pool, moved = self.pools[number], 0
        for thing in sorted(pool.places, key=pool.places.get, reverse=True):
            request = pool.requests[thing]
            over = max_bytes and moved + request[0] > max_bytes or max_moves and len(pool.moves) >= max_moves
            if over and pool.has_target(thing, request):
                self.seen.add("with passes that a limit ends")
                break
            target = None if over else pool.target(thing, request)
            if target is not None:
                pool.moves.append((thing, target))
                moved += request[0]
        moved = "something" if pool.moves else "nothing" if pool.places else "nothing, in an empty pool"
        self.seen.add(f"with passes that move {moved}")

    def end_pass(self, number, kept):
        """What moves is at its target, and what is kept stays; the other place is free again."""
        pool = self.pools[number]
        moves, pool.moves = pool.moves, []
        for thing, target in moves:
            old = pool.places[thing]
            if thing in kept:
                self.seen.add("with moves that are ignored")
            else:
                pool.places[thing], target = target, old
            self.give_back(pool, target)

    def all_seen(self):
        blocks = (block for pool in self.pools.values() for block in pool.blocks.values())
        return self.seen.union(*(placed(block) for block in blocks))
