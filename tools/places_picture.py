#!/usr/bin/env python3
"""Draws where the resources of a trace lie as an SVG picture, from what `places` writes.

    ./places < trace.json | tools/places_picture.py > picture.svg
    ./places < trace.json | tools/places_picture.py --entries 3,17,21 > picture.svg

Each column is a state: those around the passes of a defragmentation, else the last two in which memory is allocated;
with --entries those after these entries. Each row is a heap, a block of a pool, or another memory object, to scale.
Where an allocation finds no room these are the last two states, and a third column shows what would have to go. The picture follows the reader's choice of
light or dark.

Without FILE, or with `-`, standard input is read. The status is 0 where a picture was written, 2 where the text isn't
what `places` writes of an accepted trace, 5 where something can't be read or written, 6 where the command line isn't
right.
"""

import argparse
import sys

from command_line import NOT_A_TRACE, Arguments, run_tool, write_all
from pictured_places import Drawing, number
from places_reading import Unlike, read_places, said

# Columns that are drawn where nothing else is asked.
MOST_COLUMNS = 8


def numbers(words):
    """The numbers of entries in an argument."""
    if not all(word.isascii() and word.isdigit() for word in words.split(",")):
        raise argparse.ArgumentTypeError("numbers of entries are expected, with commas between them")
    return [int(word) for word in words.split(",")]


def chosen(states, entries, is_stopped):
    """The states that are drawn."""
    if entries is not None:
        found = [[state for state in states if state["entry"] <= entry][-1:] for entry in entries]
        return [state for some in found for state in some]
    passes = [k for k, state in enumerate(states) if state["call"] in ("pass", "end_pass")]
    if not passes:
        allocated = [] if is_stopped else [state for state in states if state["objects"]]
        return (allocated or states)[-2:]
    before = states[max(passes[0] - 1, 0) : passes[0]]
    return (before + [states[k] for k in passes])[:MOST_COLUMNS]


def title_of(state):
    """The title of a state, and a line below it."""
    words = state["call"].replace("_", " ")
    if state["call"] == "end_pass":
        words = "end of the pass"
    return f"after entry {state['entry']}", words + (f", of defragmentation {state['pass']}" if state["pass"] else "")


def listed(items):
    """Items in words."""
    return ", ".join(str(item) for item in items)


def lack_lines(lack, names):
    """What an allocation lacks, in words, by the names of resources."""
    lines = [f"entry {lack['entry']} finds no room for {lack.get('id', 'what it makes')}"]
    pool, heap = lack.get("pool"), lack.get("heap")
    if pool:
        lines.append(
            f"it asks pool {pool['id']} for {number(pool['size'])} bytes at a multiple of {pool['align']}: "
            f"{number(pool['free'])} are free, at most {number(pool['largest_free'])} at once"
        )
        if pool["go"]:
            lines.append(f"it would have room without {listed(names.get(each, each) for each in pool['go'])}")
    if heap:
        lines.append(
            f"it asks heap {heap['number']} for a memory object of {number(heap['size'])} bytes: "
            f"{number(heap['free'])} are left, with {number(heap['objects'])} of 4,096 memory objects live"
        )
        if heap["go"]:
            lines.append(f"it would have room without {listed(f'memory object {each}' for each in heap['go'])}")
    return lines


def drawn(told, entries):
    """The picture of what `places` wrote."""
    drawing = Drawing()
    lack = told["no_room"]
    for state in chosen(told["states"], entries, lack is not None):
        drawing.add(*title_of(state), state)
    if not told["states"]:
        drawing.say("quiet", "no entry allocates memory")
    if lack:
        resources = told["states"][-1]["resources"] if told["states"] else []
        for line in lack_lines(lack, {item["id"]: f"{item['kind']} {item['id']}" for item in resources}):
            drawing.say("bad", line)
        if lack.get("heap"):
            drawing.ask(lack["heap"]["number"])
        gone, objects_gone = ((lack.get(where) or {}).get("go") or () for where in ("pool", "heap"))
        if (gone or objects_gone) and entries is None:
            title = f"entry {lack['entry']} has no room"
            drawing.add(title, "what would have to go", told["states"][-1], gone, objects_gone)
    return drawing.svg()


def answer():
    """Does what the command line asks."""
    parser = Arguments(description=__doc__.splitlines()[0])
    parser.add_argument("--entries", type=numbers, metavar="N,..", help="draw the states after these entries")
    parser.add_argument("file", nargs="?", default="-", metavar="FILE", help="what places wrote; - for standard input")
    options = parser.parse_args()
    try:
        told = read_places(options.file)
        early = [entry for entry in options.entries or () if not any(s["entry"] <= entry for s in told["states"])]
        if early:
            raise Unlike(f"it has no state after entry {early[0]}")
    except Unlike as why:
        print(said("places_picture.py", options.file, why), file=sys.stderr)
        return NOT_A_TRACE
    write_all(drawn(told, options.entries))
    return 0


if __name__ == "__main__":
    sys.exit(run_tool(answer))
