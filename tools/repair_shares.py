#!/usr/bin/env python3
"""Counts how many refused random traces `explain` reports a repair of, and how many are accepted after it.

    tools/repair_shares.py --count 200 --seed 1 crates/explain/out/explain

Traces are drawn as by random_traces.py until so many are refused; a drawn trace that is accepted is
broken by leaving out one entry, command, element, wait or signal, if that breaks it. Of each it is counted
by its rule whether a repair is reported, whether the changed trace is accepted, and whether the trace that
`--repaired` writes is. Prints a row for each rule. With --failing FOLDER the traces that aren't accepted
in the end are written there, each named by its seed and number. With --having FORM only traces are looked
at that have an entry of this form, such as defrag.
"""

import argparse
import json
import random
import subprocess
import sys
from collections import Counter
from pathlib import Path

from drawing import draw
from random_traces import smaller
from slow_reading import read

SECONDS = 120


def run(program, trace, *options):
    """What the program answers: its output and its exit status."""
    ended = subprocess.run(
        [program, *options], input=json.dumps(trace).encode(), capture_output=True, timeout=SECONDS
    )
    return ended.stdout.decode(), ended.returncode


def refused_by(trace, heaps):
    """The rule by which a trace is refused, if it is."""
    fault = read(trace, heaps).fault
    return fault.split()[2] if fault else None


def broken(chance, trace, heaps, tries):
    """The trace, or one with something left out, that is refused; nothing where none was found."""
    if refused_by(trace, heaps):
        return trace
    fewer = list(smaller(trace))
    chance.shuffle(fewer)
    return next((less for less in fewer[:tries] if refused_by(less, heaps)), None)


def count(program, trace, tried, counts):
    """Counts what is reported of a refused trace; whether it is accepted in the end."""
    output, status = run(program, trace, "--json")
    said = json.loads(output)
    rule = said["rule"]
    tried[rule] += 1
    if status != 1:
        raise SystemExit(f"status {status}: {json.dumps(trace)}")
    if said["repair"] is None:
        return False
    counts[rule, "reported"] += 1
    counts[rule, "accepted"] += said["repair"]["then"] == "accepted"
    _, status = run(program, trace, "--repaired")
    counts[rule, "in the end"] += status == 0
    return status == 0


def arguments():
    parser = argparse.ArgumentParser(description=__doc__.splitlines()[0])
    parser.add_argument("program", help="the program `explain`, as it was built")
    parser.add_argument("--count", type=int, default=200, help="how many refused traces are looked at")
    parser.add_argument("--seed", type=int, default=0, help="where the drawing begins")
    parser.add_argument("--having", metavar="FORM", help="look at traces alone with an entry of this form")
    parser.add_argument("--failing", type=Path, help="where traces go that aren't accepted in the end")
    return parser.parse_args()


def row(name, tried, reported, accepted, in_the_end):
    shares = (f"{100 * part / tried:.0f} %" for part in (reported, accepted, in_the_end))
    print("| " + " | ".join((name, str(tried), *shares)) + " |")


def main():
    options = arguments()
    print(f"seed {options.seed}", flush=True)
    tried, counts = Counter(), Counter()
    number = 0
    while tried.total() < options.count:
        chance = random.Random(f"{options.seed}/{number}")
        trace, heaps = draw(chance)
        is_meant = options.having is None or any(entry[0] == options.having for entry in trace)
        refused = broken(chance, trace, heaps, 12) if is_meant else None
        if refused is not None:
            is_accepted = count(options.program, refused, tried, counts)
            if options.failing and not is_accepted:
                options.failing.mkdir(parents=True, exist_ok=True)
                name = f"{options.seed}_{number}.json"
                (options.failing / name).write_text(json.dumps(refused))
        number += 1
    print("| Rule | Refused | A repair is reported | Accepted after it | Accepted in the end |")
    print("|---|---|---|---|---|")
    kinds = ("reported", "accepted", "in the end")
    for rule, of_rule in tried.most_common():
        row(rule, of_rule, *(counts[rule, kind] for kind in kinds))
    row("all", tried.total(), *(sum(counts[rule, kind] for rule in tried) for kind in kinds))
    return 0


if __name__ == "__main__":
    sys.exit(main())
