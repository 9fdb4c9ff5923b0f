#!/usr/bin/env python3
"""Tests the objects that `explain --json` writes: of the examples, of the pairs of traces in docs/, and of drawn traces
that are refused.

    EXPLAIN=FILE tests/explained_objects.py

Each fits docs/explanation.schema.json (skipped without jsonschema 4 or later). The edits of a repair are operations of
JSON Patch: with them the trace has the verdict that the object says. With `--repaired` the edits of all repairs, one after
another, make the trace that the object ends with, which is the one that `--repaired` writes alone. The identifiers of a
refusal are some of those for which the rule book says that the rule stands, each of these is known to the program,
and the section that a refusal names is that of its rule.
"""

import json
import random
import re
import sys

sys.dont_write_bytecode = True

from harness import EXPLAIN, TOP, Skipped, Test, difference, main, run

sys.path.insert(0, str(TOP / "tools"))
from drawing import draw
from repair_shares import broken

try:
    from jsonschema import Draft202012Validator
except ImportError:
    Draft202012Validator = None

# How many refused traces are drawn, and from which seed on.
DRAWN, SEED = 60, 5500
SCHEMA = TOP / "docs" / "explanation.schema.json"
RULE_BOOK = [TOP / "docs" / name for name in ("RULES.md", "RULES_HAZARDS.md")]
STATIC = re.compile(r"static ([A-Z_]+): \[&str; \d+\] = \[(.*?)\];", re.S)
TABLES = TOP / "crates" / "vk_fact_words" / "src" / "identifier_tables.rt"


def explained(text, *options):
    """The object on a text."""
    return json.loads(run([EXPLAIN, "--json", *options], text).output)


def patched(trace, edits):
    """A trace after operations of JSON Patch, which are on items of arrays alone."""
    trace = json.loads(json.dumps(trace))
    for edit in edits:
        *way, last = [int(step) for step in edit["path"].split("/")[1:]]
        place = trace
        for step in way:
            place = place[step]
        if edit["op"] == "add":
            if last > len(place):
                raise ValueError(f"{edit['path']} is behind the end")
            place.insert(last, edit["value"])
        elif edit["op"] == "replace":
            place[last] = edit["value"]
        else:
            del place[last]
    return trace


def verdict(said):
    """A verdict as the member `then` has it."""
    return f"refused {said['at']} {said['rule']}" if said["verdict"] == "refused" else said["verdict"]


def repaired(text):
    """What differs between what an object says of a repair and what comes of it."""
    said = explained(text)
    if said["verdict"] != "refused" or said["repair"] is None:
        return None
    repair = said["repair"]
    came = verdict(explained(json.dumps(patched(json.loads(text), repair["edits"])).encode()))
    return None if came == repair["then"] else f"{came}, not {repair['then']}, after {repair['edits']}"


def all_repaired(text):
    """What differs between an object with all repairs, what comes of their edits, and what --json and --repaired write."""
    answer = run([EXPLAIN, "--json", "--repaired"], text)
    said = json.loads(answer.output)
    alone = explained(text)
    wanted = alone if alone["verdict"] == "no trace" else {**alone, "repairs": said["repairs"], "repaired": said["repaired"]}
    found = difference((wanted, b""), (said, answer.error))
    if found or "repaired" not in said:
        return found
    trace = json.loads(text)
    for repair in said["repairs"]:
        trace = patched(trace, repair["edits"])
    last = said["repairs"][-1]["then"] if said["repairs"] else verdict(alone)
    written = json.loads(run([EXPLAIN, "--repaired"], text).output)
    came = said["repaired"]
    return difference((last.split()[0], written, written), (came["verdict"], came["trace"], trace))


def fitting(text):
    """What doesn't fit the schema."""
    if Draft202012Validator is None:
        raise Skipped("jsonschema 4 or later isn't installed")
    validator = Draft202012Validator(json.loads(SCHEMA.read_text(encoding="utf-8")))
    for options in ((), ("--repaired",)):
        for error in validator.iter_errors(explained(text, *options)):
            return f"{options}: {error.json_path}: {error.message}"
    return None


def book():
    """For which identifiers each rule stands, by the rule book."""
    found, rule, stands = {}, None, False
    for line in "\n".join(page.read_text(encoding="utf-8") for page in RULE_BOOK).splitlines():
        heading = re.fullmatch(r"## ([A-Z_]+)", line)
        if heading:
            rule, stands = heading[1], False
            found[rule] = set()
        elif rule and line.startswith("- "):
            stands = line.startswith("- **Stands for**") or (stands and not line.startswith("- **"))
            if stands:
                found[rule].update(re.findall(r"`(VUID-[^`]+)`", line))
    return found


def table():
    """The same by the program's sources."""
    found = {}
    for rule, items in STATIC.findall(TABLES.read_text(encoding="utf-8")):
        identifiers = re.findall(r'"(VUID-[^"]+)"', items)
        if identifiers:
            found[rule] = set(identifiers)
    return found


def same_tables():
    """What differs between the two."""
    wanted = {rule: identifiers for rule, identifiers in book().items() if identifiers}
    came = table()
    differ = [rule for rule in sorted({*wanted, *came}) if wanted.get(rule) != came.get(rule)]
    return "; ".join(f"{rule}: {wanted.get(rule, set()) ^ came.get(rule, set())}" for rule in differ) or None


def named(text):
    """Which identifier of a refusal the rule book doesn't have there, if one, or that its section is another."""
    said = explained(text)
    if said["verdict"] != "refused":
        return None
    page, _, section = said["section"].partition("#")
    if section != said["rule"].lower() or f"\n## {said['rule']}\n" not in (TOP / page).read_text(encoding="utf-8"):
        return f"no section {said['section']}"
    other = set(said["identifiers"]) - book()[said["rule"]]
    return f"{said['rule']}: {sorted(other)}" if other else None


def texts():
    """The texts that are looked at, by name."""
    for path in sorted([*TOP.glob("examples/*.json"), *TOP.glob("examples/no_traces/*.json")]):
        if not path.name.endswith((".explained.json", ".repaired.json")):
            yield path.relative_to(TOP).as_posix(), path.read_bytes()
    for page in [*RULE_BOOK, TOP / "docs" / "WORKED_PAIRS.md"]:
        blocks = re.findall(r"```json\n(.*?)```", page.read_text(encoding="utf-8"), re.S)
        for number, block in enumerate(blocks):
            for line, trace in enumerate(block.splitlines()):
                yield f"docs/{page.name}, block {number}, line {line}", trace.encode()
    chance, number = random.Random(SEED), 0
    while number < DRAWN:
        drawn, heaps = draw(chance)
        trace = broken(chance, drawn, heaps, 6)
        if trace:
            number += 1
            yield f"drawn trace {number}", json.dumps(trace).encode()


def tests():
    """All of them."""
    yield Test("the identifiers of the rule book", same_tables)
    for name, text in texts():
        yield Test(f"{name}: its form", lambda text=text: fitting(text))
        yield Test(f"{name}: its repair", lambda text=text: repaired(text) if text.startswith(b"[") else None)
        yield Test(f"{name}: all repairs", lambda text=text: all_repaired(text))
        yield Test(f"{name}: its identifiers", lambda text=text: named(text))


if __name__ == "__main__":
    sys.exit(main(tests(), (EXPLAIN,)))
