#!/usr/bin/env python3
"""Compares random steps on blocks of memory with plain lists of ranges.

    tools/random_blocks.py [--steps N] [--seeds A..B] PROGRAM

PROGRAM is `allocator_steps`, which prints steps of a seed and what a block answered. Of each kind of block
about N steps are made, over the seeds from A to below B; each seed has its own sizes, so that some blocks
are nearly empty, and others full. An answer has to be that of a plain list of ranges (slow_blocks.py):
the place that the policy says, no place exactly where no start of the block fits, and the longest free
range; at the end the ranges that are taken. The first difference is printed, with the arguments that
show it, and the exit status is 1; else it is printed what was drawn.
"""

import argparse
import random
import subprocess
import sys
from collections import Counter

from slow_blocks import Linear, Lists

KINDS = ("tlsf", "mixed", "stack", "ring", "double")
SECONDS = 60


def arguments(kind, seed, steps):
    """What the program is run with: sizes and counts that the seed draws."""
    drawn = random.Random(f"{kind} {seed}")
    size = 16 * drawn.choice((drawn.randint(1, 64), drawn.randint(64, 1_024), drawn.randint(1_024, 8_192)))
    largest = max(16, size // drawn.choice((1, 4, 16, 64)))
    special = drawn.choice((0, 2, 8)) if kind != "double" else drawn.choice((2, 3))
    return {
        "size": size,
        "steps": steps,
        "seed": seed,
        "live": drawn.choice((1, 4, 16, 64, 4_096)),
        "returns": drawn.choice((0, 0, 1, 2)),
        "largest": min(largest, 8_192),
        "optimal": 0 if kind == "tlsf" and drawn.random() < 0.5 else drawn.choice((0, 2, 4)),
        "special": special,
        "align": drawn.choice(("16", "64", "256", "drawn", "drawn", "drawn")),
        "order": drawn.choice(("first", "last", "any", "drawn", "drawn")),
    }


def command_of(program, kind, mode, chosen):
    return [program, kind, mode, *(word for k, v in chosen.items() for word in (f"--{k}", str(v)))]


def run(command):
    ended = subprocess.run(command, capture_output=True, timeout=SECONDS, check=False)
    if ended.returncode != 0:
        raise SystemExit(f"{' '.join(command)}: status {ended.returncode}: {ended.stderr.decode()}")
    return ended.stdout.decode().splitlines()


def block_of(kind, size):
    if kind in ("tlsf", "mixed"):
        return Lists(size, mixed=kind == "mixed")
    return Linear(size, ring=kind == "ring")


def answer_of(block, step):
    """What the plain list says of a step."""
    if step[0] == "free":
        block.free(int(step[1]))
        return step[1]
    if step[0] == "largest":
        return str(block.largest())
    numbers = step[1:3] if step[0] != "below" else step[2:4]
    size, align = map(int, numbers)
    kind = step[-2]
    if step[0] == "allocate":
        start = block.allocate(size, align, kind)
    elif step[0] == "upper":
        start = block.upper(size, align, kind)
    else:
        start = block.below(int(step[1]), size, align, kind)
    return "none" if start is None else str(start)


def summed(lines):
    """What the program writes where it only sums its answers."""
    counts, total = Counter(), 0
    for step in lines:
        what = "free" if step[0] == "free" else "refused" if step[-1] == "none" else "answered"
        counts[what] += 1
        if what != "refused":
            total = (total * 31 + int(step[-1])) % 2**64
    return f"answered {counts['answered']} refused {counts['refused']} free {counts['free']} sum {total}"


def difference(program, kind, chosen, counts):
    """What is wrong with the steps of a seed, if anything is."""
    lines = [line.split() for line in run(command_of(program, kind, "print", chosen))]
    steps = [line for line in lines if line[0] in ("allocate", "upper", "below", "free")]
    block = block_of(kind, chosen["size"])
    for number, line in enumerate(lines, 1):
        if line[0] == "taken":
            break
        want = answer_of(block, line)
        counts[f"{kind} {line[0]}" + (" none" if line[-1] == "none" else "")] += 1
        if want != line[-1]:
            return f"line {number}: {' '.join(line)}: wanted {want}"
    taken = [tuple(map(int, line[1:])) for line in lines if line[0] == "taken"]
    if taken != block.taken():
        return f"taken: {taken}, wanted {block.taken()}"
    if len(steps) != chosen["steps"]:
        return f"{len(steps)} steps"
    if run(command_of(program, kind, "time", chosen)) != [summed(steps)]:
        return f"sum: wanted {summed(steps)}"
    counts.update({f"{kind} {name}": count for name, count in block.counts.items()})
    return None


def main():
    parser = argparse.ArgumentParser(description=__doc__.splitlines()[0])
    parser.add_argument("program", metavar="PROGRAM")
    parser.add_argument("--steps", type=int, default=100_000, metavar="N", help="steps of each kind")
    parser.add_argument("--seeds", default="0..100", metavar="A..B")
    parser.add_argument("--kind", choices=KINDS, help="this kind alone")
    options = parser.parse_args()
    first, end = map(int, options.seeds.split(".."))
    each = -(-options.steps // (end - first))
    for kind in (options.kind,) if options.kind else KINDS:
        counts = Counter()
        for seed in range(first, end):
            chosen = arguments(kind, seed, each)
            found = difference(options.program, kind, chosen, counts)
            if found:
                print(f"{' '.join(command_of(options.program, kind, 'print', chosen))}\n{found}")
                return 1
        print(f"{kind}: seeds {first} to {end - 1}, {each * (end - first)} steps agree")
        for name, count in sorted(counts.items()):
            print(f"  {name}: {count}")
    return 0


if __name__ == "__main__":
    sys.exit(main())
