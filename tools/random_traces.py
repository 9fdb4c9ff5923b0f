#!/usr/bin/env python3
"""Runs random traces in every order, and compares the answers with each other and with a slow reading.

    tools/random_traces.py --count 2000 --seed 1 crates/vk_replay/out/vk_replay

Each trace is drawn from the seed and its number (drawing.py), and run with `--order first`, with `last`,
and with the seeds 0 to 15, and with `--caches` with `first`, `last` and the seeds 0 and 1, or with all of
these orders (`--all-cached`): output, exit status and standard error have to be the same. They also have to
be those of the slow reading (slow_reading.py), unless `--orders-only` is given. As many traces are run side
by side as there are processors. The first difference is made as small as leaving out entries, batches,
commands and elements makes it, and printed; no more are run then. At the end it is printed what was drawn,
and then 'N passed, M failed'; the exit status is 0 where nothing failed. `--only N` runs trace N alone, and
prints it.
"""

import argparse
import json
import multiprocessing
import pathlib
import random
import signal
import subprocess
import sys
import time
from collections import Counter

sys.dont_write_bytecode = True
sys.path.append(str(pathlib.Path(__file__).resolve().parent.parent / "tests"))

from drawing import draw
from harness import PROGRAM, Progress, build, last_line, processors
from slow_reading import read
from slow_room import in_pool

ORDERS = [("first",), ("last",), *(("seed", "--seed", str(seed)) for seed in range(16))]
# The same on a device whose queues have caches.
CACHED = [(*order, "--caches") for order in ORDERS]
FEW_CACHED = CACHED[:4]
PIECE = 4_096
SECONDS = 60
# A difference is no longer made smaller then.
SHRINKING_SECONDS = 60
# Entries and commands of which it is counted in how many traces they are.
NAMES = (
    *("memory", "write", "flush", "invalidate", "update", "copy"),
    *("destroy", "free", "unmap", "pool", "drop_pool"),
    *("defrag", "pass", "end_pass", "end_defrag"),
)


def run(program, trace, heaps, order):
    """What the program answers: its output, its exit status and its standard error."""
    heap_options = ["--heap0", str(heaps[0]), "--heap1", str(heaps[1])]
    command = [program, "--order", *order, *heap_options]
    try:
        ended = subprocess.run(
            command, input=json.dumps(trace).encode(), capture_output=True, timeout=SECONDS
        )
    except subprocess.TimeoutExpired:
        return "", f"none: no end in {SECONDS} s", ""
    return ended.stdout.decode(), ended.returncode, ended.stderr.decode()


def difference(program, trace, heaps, reading, orders):
    """The order in which the answer differs from that of the first order, or the first order where it
    isn't that of the slow reading, if there is one, with both answers; nothing where all agree."""
    first = run(program, trace, heaps, orders[0])
    if reading is not None:
        wanted = (*reading.answer(), "")
        if first != wanted:
            return orders[0], f"the slow reading: {wanted}\nthe program: {first}"
    for order in orders[1:]:
        answer = run(program, trace, heaps, order)
        if answer != first:
            return order, f"--order first: {first}\n--order {' '.join(order)}: {answer}"
    return None


def smaller(trace):
    """The traces with one entry, batch, wait, command, element or signal left out."""
    for e, entry in enumerate(trace):
        yield trace[:e] + trace[e + 1 :]
        if entry[0] == "submit":
            for batches in smaller_batches(entry[2]):
                yield trace[:e] + [[*entry[:2], batches]] + trace[e + 1 :]


def smaller_batches(batches):
    for b, batch in enumerate(batches):
        yield batches[:b] + batches[b + 1 :]
        for k, items in enumerate(batch):
            for i in range(len(items)):
                for less in ([], *smaller_item(items[i])):
                    fewer = batch[:k] + [items[:i] + less + items[i + 1 :]] + batch[k + 1 :]
                    yield batches[:b] + [fewer] + batches[b + 1 :]


def smaller_item(item):
    """A barrier with one element left out, as a list of it; nothing of other items."""
    for k in (1, 2, 3) if item[0] == "barrier" else ():
        for i in range(len(item[k])):
            yield [[*item[:k], item[k][:i] + item[k][i + 1 :], *item[k + 1 :]]]


def shrunk(program, trace, heaps, with_reading, found):
    """A trace with a difference from which nothing can be left out, and what differs; a larger one where
    finding it takes long."""
    orders = [ORDERS[0], found[0]]
    late = time.monotonic() + SHRINKING_SECONDS
    fewer = next(smaller(trace), None)
    while fewer is not None:
        for fewer in smaller(trace):
            if time.monotonic() > late:
                return trace, found[1]
            reading = read(fewer, heaps) if with_reading else None
            differs = difference(program, fewer, heaps, reading, orders)
            if differs is not None:
                trace, found = fewer, differs
                break
        else:
            fewer = None
    return trace, found[1]


# ---- what was drawn


def sources(reading, host_read):
    """The pieces and the queues that the bytes of a read come from."""
    _, _, buffer, offset, writes = host_read
    size = len(host_read[1])
    pieces = [None] * size
    for k, (number, written, low, high) in enumerate(reading.writes[:writes]):
        queue = reading.nodes[number].point.queue
        for at in range(max(low, offset), min(high, offset + size)) if written == buffer else ():
            pieces[at - offset] = (k, (at - low) // PIECE, queue)
    return set(pieces), {piece[2] for piece in pieces if piece}


def is_ahead(reading):
    """Whether a batch was started after a later entry than its own submit."""
    entries = [node.point.entry for node in reading.nodes]
    return any(earlier > later for earlier, later in zip(entries, entries[1:]))


def count_accepted(reading, counts):
    counts["with batches started later than at their submit"] += is_ahead(reading)
    counts["with batches that are never started"] += bool(reading.waiting)
    counts["with events awaited"] += any(n.role and n.role[0] == "await" for n in reading.nodes)
    names = {n.content[0] for n in reading.nodes if n.kind in ("host", "command")}
    for name in NAMES:
        counts[f"with {name}"] += name in names
    elements = [n for n in reading.nodes if n.kind == "element" and n.buffer is not None]
    counts["with elements on ranges of buffers"] += any(n.half() is None for n in elements)
    counts["with releases"] += any(n.half() == "release" for n in elements)
    counts["with acquires"] += any(n.half() == "acquire" for n in elements)
    for name in ("clear", "copy_in", "copy_out", "copy_image"):
        counts[f"with {name}"] += name in names
    counts["with layout transitions"] += any(n.is_transition() for n in elements)
    of_images = [n for n in elements if n.parts]
    counts["with halves of transfers of images"] += any(n.half() is not None for n in of_images)
    counts["with reads"] += bool(reading.reads)
    origins = [sources(reading, host_read) for host_read in reading.reads]
    counts["with reads of bytes from several pieces"] += any(len(p) > 1 for p, _ in origins)
    counts["with reads of bytes from several queues"] += any(len(q) > 1 for _, q in origins)
    through_cache = [q for r, (_, q) in zip(reading.reads, origins) if reading.is_cached(r[2])]
    counts["with reads through the cache"] += bool(through_cache)
    counts["with reads through the cache of bytes from a queue"] += any(
        q - {None} for q in through_cache
    )
    counts["with reads through the cache of bytes from a queue and the host"] += any(
        None in q and len(q) > 1 for q in through_cache
    )
    for name in reading.room.all_seen():
        counts[name] += 1
    pooled = [r for r in reading.reads if in_pool(reading.made[r[2]][1])]
    counts["with reads of buffers in pools"] += bool(pooled)
    counts["stopped, for want of room"] += reading.stop is not None


def count_trace(reading, counts, rules):
    counts["points that are nodes"] += len(reading.nodes)
    if reading.fault is None:
        counts["accepted"] += 1
        count_accepted(reading, counts)
    else:
        counts["refused"] += 1
        rules[reading.fault.split()[2]] += 1


def print_counts(drawn, orders, counts, rules):
    print(f"{drawn} traces, each in {orders} orders: no difference")
    for name, count in counts.items():
        print(f"  {count:7} {name}")
    for rule, count in rules.most_common():
        print(f"  {count:7} refused by {rule}")


# ---- the program


def positive(text):
    """A number above 0."""
    number = int(text)
    if number < 1:
        raise ValueError
    return number


def arguments():
    parser = argparse.ArgumentParser(description=__doc__.splitlines()[0])
    program_help = "the program `replay`; that of PROGRAM, or ./replay, where it isn't given"
    parser.add_argument("program", nargs="?", default=PROGRAM, help=program_help)
    parser.add_argument("--count", type=positive, default=200, help="how many traces are drawn")
    parser.add_argument("--seed", type=int, default=0, help="where the drawing begins")
    only_help = "runs the trace of this number alone, and prints it"
    parser.add_argument("--only", type=int, help=only_help)
    parser.add_argument("--orders-only", action="store_true", help="compares the orders alone")
    all_help = "runs each order with --caches too, and not four of them alone"
    parser.add_argument("--all-cached", action="store_true", help=all_help)
    return parser.parse_args()


def orders_of(options):
    """The orders in which each trace is run."""
    return [*ORDERS, *(CACHED if options.all_cached else FEW_CACHED)]


def judged(task):
    """What differs for one trace, if anything, and what is counted of it and of the rule that it breaks."""
    options, number = task
    trace, heaps = draw(random.Random(f"{options.seed}/{number}"))
    counts, rules = Counter(), Counter()
    reading = read(trace, heaps)
    wanted = None if options.orders_only else reading
    found = difference(options.program, trace, heaps, wanted, orders_of(options))
    if found is None:
        count_trace(reading, counts, rules)
    return found, counts, rules


def ignore_interrupts():
    """Leaves it to the first process to end the others."""
    signal.signal(signal.SIGINT, signal.SIG_IGN)


def print_difference(options, number, found):
    """Makes a trace that differs smaller, and prints it."""
    trace, heaps = draw(random.Random(f"{options.seed}/{number}"))
    trace, text = shrunk(options.program, trace, heaps, not options.orders_only, found)
    print(f"trace {number} of seed {options.seed} differs; made smaller, with heaps of {heaps}:")
    print(f"{json.dumps(trace)}\n{text}")


def run_all(options, numbers):
    """Runs the traces of these numbers, and answers how many have passed and failed."""
    counts, rules = Counter(), Counter()
    progress = Progress(len(numbers))
    tasks = [(options, number) for number in numbers]
    with multiprocessing.Pool(min(processors(), len(tasks)), ignore_interrupts) as pool:
        for done, (found, more, broken) in enumerate(pool.imap(judged, tasks)):
            progress.note(done)
            if found is not None:
                pool.terminate()
                progress.clear()
                print_difference(options, numbers[done], found)
                return done, 1
            counts.update(more)
            rules.update(broken)
    progress.clear()
    print_counts(len(numbers), len(orders_of(options)), counts, rules)
    return len(numbers), 0


def main():
    options = arguments()
    print(f"seed {options.seed}", flush=True)
    numbers = range(options.count) if options.only is None else [options.only]
    if options.only is not None:
        trace, heaps = draw(random.Random(f"{options.seed}/{options.only}"))
        print(json.dumps(trace), heaps)
    try:
        build(options.program)
        passed, failed = run_all(options, numbers)
    except KeyboardInterrupt:
        return 130
    print(last_line(passed, failed))
    return 1 if failed else 0


if __name__ == "__main__":
    sys.exit(main())
