"""Tests that docs/FORMAT.md shows an example of each form, from a trace that is accepted."""

import json
import sys

from harness import TOP, Test, difference
from people_tools import EXAMPLES

sys.path.append(str(TOP / "tools"))

from check_schema import shown_forms
from smallest import items_of
from trace_forms import COMMAND, ENTRY, MOST_32, TRACE, Bytes, Choice, Length, Many, Number, Row, Word

# The examples that have every form; `examples/run` shows that they are accepted.
WHOLE = ("every_entry", "every_command")


def stated():
    """Each entry and command of these examples."""
    for name in WHOLE:
        trace = json.loads((EXAMPLES / f"{name}.json").read_bytes())
        for _, item, form in items_of(trace, TRACE):
            yield ("entry" if form is ENTRY else "command" if form is COMMAND else None, item)


def judge_shown(kind, text):
    """An example of the page stands in one of the traces."""
    form = json.loads(text)
    is_there = any(found == (kind, form) for found in stated())
    return None if is_there else f"no {kind} of {' and '.join(WHOLE)}: {text}"


def judge_accepted():
    """These examples have no status, so they are expected to be replayed."""
    refused = [name for name in WHOLE if (EXAMPLES / f"{name}.status").exists()]
    return f"refused: {refused}" if refused else None


def judge_all_shown():
    """Each entry and command has an example."""
    wanted = {("entry", word) for word in ENTRY.rows} | {("command", word) for word in COMMAND.rows}
    found = {(kind, json.loads(form)[0]) for kind, form in shown_forms()}
    return difference(sorted(wanted), sorted(found))


# ---- the schema and the forms of the tools


def shape_of(form):
    """What a form takes: names of numbers aside, lists and the words of arrays."""
    if isinstance(form, Number):
        return "u32" if form.most == MOST_32 else "u64"
    if isinstance(form, Word):
        return list(form.words)
    if isinstance(form, Many):
        return "many", shape_of(form.item)
    if isinstance(form, Choice):
        return {word: shape_of(row) for word, row in form.rows.items()}
    if isinstance(form, Row):
        return "row", [shape_of(member) for _, member in form.members]
    return {Length: "length", Bytes: "bytes"}[type(form)]


def shape_in(schema, defs):
    """The same of a part of the schema."""
    name = schema.get("$ref", "").rpartition("/")[2]
    if name in ("u32", "u64", "length", "bytes"):
        return name
    if name:
        return shape_in(defs[name], defs)
    if "enum" in schema:
        return schema["enum"]
    if "allOf" in schema:
        rows = {row["then"]["prefixItems"][0]["const"]: row["then"] for row in schema["allOf"]}
        if list(rows) != schema["prefixItems"][0]["enum"]:
            return "other words than rows"
        return {word: shape_in({**row, "word": word}, defs) for word, row in rows.items()}
    if "prefixItems" not in schema:
        return "many", shape_in(schema["items"], defs)
    members = schema["prefixItems"]
    if schema["items"] is not False or schema["minItems"] != len(members):
        return "a row of other lengths"
    return "row", [shape_in(member, defs) for member in members["word" in schema :]]


def judge_schema():
    """The schema has the forms that the tools have."""
    schema = json.loads((TOP / "docs" / "trace.schema.json").read_bytes())
    return difference(shape_of(TRACE), shape_in(schema, schema["$defs"]))


def format_tests():
    """Each form that the page shows, and the schema."""
    yield Test("the schema: the forms of the tools", judge_schema)
    yield Test("FORMAT.md: an example for each form", judge_all_shown)
    yield Test("FORMAT.md: examples that are accepted", judge_accepted)
    for kind, form in shown_forms():
        yield Test(f"FORMAT.md: {form}", lambda k=kind, f=form: judge_shown(k, f))
