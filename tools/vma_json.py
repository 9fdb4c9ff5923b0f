#!/usr/bin/env python3
"""Writes where the resources of a trace lie as VMA's own JSON of statistics, from what `places` writes.

    ./places < trace.json | tools/vma_json.py > dump.json
    ./places < trace.json | tools/vma_json.py --entry 17 > dump.json

It is the state after the last entry, or with --entry after that one, in the form of vmaBuildStatsString of VMA 3 with
its detailed map: "General", "Total", "MemoryInfo", "DefaultPools" and "CustomPools". A memory object that the trace
made itself is listed as a dedicated allocation of the type UNKNOWN. What no state has stands as 0: "Usage".

Without FILE, or with `-`, standard input is read. The status is 0 where it was written, 2 where the text isn't what
`places` writes of an accepted trace or has no such state, 5 where something can't be read or written, 6 where the
command line isn't right.
"""

import json
import sys

from command_line import NOT_A_TRACE, Arguments, run_tool, write_all
from places_reading import Unlike, read_places, said

# The device of the traces (profile): its heaps and its memory types, each with its flags.
HEAPS = (["DEVICE_LOCAL"], [])
TYPES = (
    (0, ["DEVICE_LOCAL"]),
    (1, ["HOST_VISIBLE", "HOST_COHERENT"]),
    (1, ["HOST_VISIBLE", "HOST_CACHED"]),
)
GENERAL = {
    "API": "Vulkan",
    "apiVersion": "1.3.0",
    "GPU": "Zorthewin",
    "deviceType": 4,  # VK_PHYSICAL_DEVICE_TYPE_CPU
    "maxMemoryAllocationCount": 4096,
    "bufferImageGranularity": 1024,
    "nonCoherentAtomSize": 64,
    "memoryHeapCount": len(HEAPS),
    "memoryTypeCount": len(TYPES),
}
# The size of blocks that VMA's default pools would have: a trace has none.
DEFAULT_BLOCK = 0


class Statistics:
    """VmaDetailedStatistics, which are added up."""

    def __init__(self):
        self.blocks, self.bytes, self.taken, self.free = 0, 0, [], []

    def add(self, size, taken, free):
        """Adds a memory object, with the sizes of what is taken of it and of what is free."""
        self.blocks += 1
        self.bytes += size
        self.taken += taken
        self.free += free

    def json(self):
        """The object that VMA writes; the least and the greatest are left out where there are fewer than two."""
        told = {
            "BlockCount": self.blocks,
            "BlockBytes": self.bytes,
            "AllocationCount": len(self.taken),
            "AllocationBytes": sum(self.taken),
            "UnusedRangeCount": len(self.free),
        }
        if len(self.taken) > 1:
            told["AllocationSizeMin"], told["AllocationSizeMax"] = min(self.taken), max(self.taken)
        if len(self.free) > 1:
            told["UnusedRangeSizeMin"], told["UnusedRangeSizeMax"] = min(self.free), max(self.free)
        return told


def type_name(resource):
    """The type of a suballocation, as VMA calls it."""
    if resource is None:
        return "UNKNOWN"
    if resource["kind"] == "buffer":
        return "BUFFER"
    return {"optimal": "IMAGE_OPTIMAL", "linear": "IMAGE_LINEAR"}[resource["tiling"]]


def suballocations(block, resources):
    """The ranges of a block, taken and free, by rising offset."""
    ranges = [(item["offset"], {"Type": "FREE", "Size": item["size"]}) for item in block["free"]]
    for item in block["taken"]:
        name = f"{item['id']} (reserved)" if item.get("reserved") else str(item["id"])
        kind = type_name(resources.get(item["id"]))
        ranges.append((item["offset"], {"Type": kind, "Size": item["size"], "Usage": 0, "Name": name}))
    return [{"Offset": offset, **words} for offset, words in sorted(ranges, key=lambda r: r[0])]


def pool_of(index, pool, resources, objects):
    """A pool of a trace, as one of VMA's custom pools: VMA counts those of a memory type in their names."""
    blocks = {}
    for block in pool["blocks"]:
        blocks[str(block["number"])] = {
            "MapRefCount": int(objects[block["object"]]["mapped"]),
            "TotalBytes": pool["block_size"],
            "UnusedBytes": sum(item["size"] for item in block["free"]),
            "Allocations": len(block["taken"]),
            "UnusedRanges": len(block["free"]),
            "Suballocations": suballocations(block, resources),
        }
    told = {"Name": f"{index} - pool {pool['id']}"}
    if pool["algorithm"] == "linear":
        told["Flags"] = ["LINEAR_ALGORITHM_BIT"]
    return {**told, "PreferredBlockSize": pool["block_size"], "Blocks": blocks, "DedicatedAllocations": []}


def dedicated_of(state, memory_type, resources):
    """The memory objects of a type that are no blocks, as dedicated allocations."""
    return [
        {"Type": type_name(resources.get(item["id"])), "Size": item["size"], "Usage": 0, "Name": str(item["id"])}
        for item in state["objects"]
        if item["type"] == memory_type and "id" in item
    ]


def statistics_of(state):
    """The statistics of each memory type."""
    totals = [Statistics() for _ in TYPES]
    for pool in state["pools"]:
        for block in pool["blocks"]:
            taken, free = ([item["size"] for item in block[key]] for key in ("taken", "free"))
            totals[pool["type"]].add(pool["block_size"], taken, free)
    for item in state["objects"]:
        if "pool" not in item:
            totals[item["type"]].add(item["size"], [item["size"]], [])
    return totals


def summed(some):
    """The sum of statistics."""
    total = Statistics()
    for each in some:
        total.blocks += each.blocks
        total.bytes += each.bytes
        total.taken += each.taken
        total.free += each.free
    return total


def heap_json(state, heap, totals):
    """What VMA writes of a heap."""
    use = state["heaps"][heap]
    own = [number for number, (its, _) in enumerate(TYPES) if its == heap]
    return {
        "Flags": HEAPS[heap],
        "Size": use["size"],
        "Budget": {"BudgetBytes": use["size"], "UsageBytes": use["used"]},
        "Stats": summed(totals[number] for number in own).json(),
        "MemoryPools": {
            f"Type {number}": {"Flags": TYPES[number][1], "Stats": totals[number].json()} for number in own
        },
    }


def dump(state):
    """The state in VMA's form."""
    resources = {item["id"]: item for item in state["resources"]}
    objects = {item["number"]: item for item in state["objects"]}
    totals = statistics_of(state)
    told = {
        "General": GENERAL,
        "Total": summed(totals).json(),
        "MemoryInfo": {f"Heap {heap}": heap_json(state, heap, totals) for heap in range(len(HEAPS))},
        "DefaultPools": {},
        "CustomPools": {},
    }
    for number in range(len(TYPES)):
        told["DefaultPools"][f"Type {number}"] = {
            "PreferredBlockSize": DEFAULT_BLOCK,
            "Blocks": {},
            "DedicatedAllocations": dedicated_of(state, number, resources),
        }
        pools = [pool for pool in state["pools"] if pool["type"] == number]
        if pools:
            told["CustomPools"][f"Type {number}"] = [
                pool_of(index, pool, resources, objects) for index, pool in enumerate(pools)
            ]
    return told


def answer():
    """Does what the command line asks."""
    parser = Arguments(description=__doc__.splitlines()[0])
    parser.add_argument("--entry", type=int, metavar="N", help="write the state after this entry")
    parser.add_argument("file", nargs="?", default="-", metavar="FILE", help="what places wrote; - for standard input")
    options = parser.parse_args()
    try:
        told = read_places(options.file)
        states = [state for state in told["states"] if options.entry is None or state["entry"] <= options.entry]
        if not states:
            raise Unlike("it has no state" if options.entry is None else f"it has no state after entry {options.entry}")
    except Unlike as why:
        print(said("vma_json.py", options.file, why), file=sys.stderr)
        return NOT_A_TRACE
    write_all(json.dumps(dump(states[-1]), indent=2) + "\n")
    return 0


if __name__ == "__main__":
    sys.exit(run_tool(answer))
