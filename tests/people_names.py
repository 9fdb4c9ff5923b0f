"""Tests of tools/names.py where all goes well: names both ways, at each place, and what explain says of them."""

import json
import os
import sys
import tempfile
from pathlib import Path

from harness import EXPLAIN, TOP, Test, answered, compared, difference, run
from people_tools import COMMENTED, EXAMPLES, NAMES, NO_TRACE, NOT_DONE, judge_refused
from worked import texts_of

sys.path.append(str(TOP / "tools"))

from names import laid_out
from trace_forms import TRACE
from trace_reading import Reading
from trace_text import as_json


# ---- names both ways


def all_traces():
    """Each text of examples/ and of tests/worked/ with its name, and whether it is a trace; nothing of whether where
    it is longer than the programs read."""
    for path in sorted(EXAMPLES.glob("**/*.json")):
        if not path.name.endswith((".explained.json", ".repaired.json")):
            yield path.relative_to(TOP), path.read_bytes(), path.parent.name != "no_traces"
    for path in sorted((TOP / "tests" / "worked").glob("*.json")):
        for row in json.loads(path.read_text(encoding="utf-8")):
            if row.get("error") != "too long":
                for text in texts_of(row):
                    yield f"{path.stem}: {row['name']}", text, row.get("status") != NO_TRACE


def named(reading):
    """A trace with names."""
    return "\n".join(laid_out(reading.trace, TRACE))


def judge_both_ways(text, is_trace):
    """From numbers to names, to numbers, and to names again: the same trace and the same names."""
    reading = Reading(text)
    if not is_trace:
        return None if reading.mistakes else "no mistake is found"
    if reading.mistakes:
        return f"mistakes: {list(reading.said('text'))}"
    with_names = named(reading)
    again = Reading(with_names.encode())
    if again.mistakes:
        return f"mistakes in what was written: {list(again.said('text'))}"
    numbers, _ = as_json(again.text, again.changes)
    wanted = (json.loads(text), json.loads(text), with_names)
    return difference(wanted, (reading.trace, json.loads(numbers), named(again)))


def both_ways_tests():
    """All traces both ways."""
    for name, text, is_trace in all_traces():
        yield Test(f"names of {name}", lambda t=text, i=is_trace: judge_both_ways(t, i))


# ---- names of each place

# A trace in which each member that may have names has one: what is written, and what is read.
PLACES = [
    ('["memory",1,{},16]', "HOST_COHERENT", 1),
    ('["memory",1,{},16]', "VK_MEMORY_PROPERTY_HOST_CACHED_BIT", 2),
    ('["pool",1,"tlsf",{},1024,1]', "DEVICE_LOCAL", 0),
    ('["buffer",1,16,{},"exclusive",["dedicated",1]]', "TRANSFER_SRC|TRANSFER_DST", 3),
    ('["buffer",1,16,{},"exclusive",["dedicated",1]]', "VK_BUFFER_USAGE_TRANSFER_DST_BIT", 2),
    ('["buffer",1,16,3,{},["dedicated",1]]', "VK_SHARING_MODE_CONCURRENT", "concurrent"),
    ('["buffer",1,16,3,"exclusive",["dedicated",{}]]', "HOST_CACHED", 2),
    ('["image",1,{},8,8,1,1,"optimal",3,"exclusive",["pool",2]]', "VK_FORMAT_R8_UINT", "R8_UINT"),
    ('["image",1,"R8_UINT",8,8,1,1,{},3,"exclusive",["pool",2]]', "VK_IMAGE_TILING_LINEAR", "linear"),
    ('["image",1,"R8_UINT",8,8,1,1,"linear",{},"exclusive",["pool",2]]', "TRANSFER_DST", 2),
    (
        '["image",1,"R8_UINT",8,8,1,1,"linear",{},"exclusive",["pool",2]]',
        "VK_IMAGE_USAGE_TRANSFER_SRC_BIT",
        1,
    ),
    ('["flush",1,0,{}]', "VK_WHOLE_SIZE", "whole"),
    ('["invalidate",1,0,{}]', "WHOLE_SIZE", "whole"),
    ('["submit",0,[[[[1,2,{}]],[],[]]]]', "ALL_COMMANDS", 65536),
    ('["submit",0,[[[],[],[[1,2,{}]]]]]', "TRANSFER | HOST", 20480),
]
ELEMENT = ["NONE", "NONE", "NONE", "NONE"]
COMMAND_PLACES = [
    ('["fill",1,0,{},0]', "whole", "whole"),
    ('["clear",1,{},[0,0,0,0],[]]', "TRANSFER_DST_OPTIMAL", 7),
    ('["copy_in",1,2,{},[]]', "GENERAL", 1),
    ('["copy_out",1,{},2,[]]', "VK_IMAGE_LAYOUT_TRANSFER_SRC_OPTIMAL", 6),
    ('["copy_image",1,{},2,7,[]]', "TRANSFER_SRC_OPTIMAL", 6),
    ('["copy_image",1,6,2,{},[]]', "VK_IMAGE_LAYOUT_UNDEFINED", 0),
    ('["set",1,[[{},0,0,0]]]', "VK_PIPELINE_STAGE_2_ALL_TRANSFER_BIT", 4096),
    ('["await",1,[[0,{},0,0]]]', "VK_ACCESS_2_MEMORY_WRITE_BIT", 65536),
    ('["barrier",[[0,0,{},0]],[],[]]', "VK_PIPELINE_STAGE_HOST_BIT|VK_PIPELINE_STAGE_2_NONE", 16384),
    ('["barrier",[[0,0,0,{}]],[],[]]', "TRANSFER_READ|HOST_READ|MEMORY_READ", 43008),
    ('["barrier",[],[[{},0,0,0,0,0,1,0,1]],[]]', "TRANSFER", 4096),
    ('["barrier",[],[[0,{},0,0,0,0,1,0,1]],[]]', "TRANSFER_WRITE", 4096),
    ('["barrier",[],[[0,0,0,0,{},0,1,0,1]],[]]', "IGNORED", 4294967295),
    ('["barrier",[],[[0,0,0,0,0,{},1,0,1]],[]]', "VK_QUEUE_FAMILY_IGNORED", 4294967295),
    ('["barrier",[],[[0,0,0,0,0,0,1,0,{}]],[]]', "VK_WHOLE_SIZE", "whole"),
    ('["barrier",[],[],[[0,0,{},0,0,0,1,0,1,[0,1,0,1]]]]', "HOST", 16384),
    ('["barrier",[],[],[[0,0,0,{},0,0,1,0,1,[0,1,0,1]]]]', "HOST_WRITE", 16384),
    ('["barrier",[],[],[[0,0,0,0,0,0,1,{},1,[0,1,0,1]]]]', "UNDEFINED", 0),
    ('["barrier",[],[],[[0,0,0,0,0,0,1,0,{},[0,1,0,1]]]]', "VK_IMAGE_LAYOUT_GENERAL", 1),
]


def place_tests():
    """Each place that has names, with one of them."""
    in_batch = [(f'["submit",0,[[[],[{form}],[]]]]', name, number) for form, name, number in COMMAND_PLACES]
    for form, name, number in PLACES + in_batch:
        text = f"[{form}]"
        wanted = answered(text.format(json.dumps(number)) + "\n")
        yield compared(f"{name} in {form}", wanted, NAMES, text.format(json.dumps(name)).encode())


# ---- what people write beside names

UNCOMMENTED = """\

[
\t["buffer", 1, 16, 3, "exclusive", ["dedicated", 1]],

     ["semaphore", 2, 0], ["submit", 0, [
    [[], [
      ["fill", 1, 0, "whole", 67305985]
    ], [[2, 1, 65536]]]
  ]],

  ["wait", [[2, 1]]], ["map", 1], ["read", 1, 0, 4]
]
"""
READ_LINE, READ_COLUMN = 11, 45


def form_tests():
    """Comments, commas, numbers in hex, and marks and ends of lines of other systems."""
    yield compared("names of a commented trace", answered(UNCOMMENTED), NAMES, COMMENTED.encode())
    data = b"\xef\xbb\xbf" + COMMENTED.replace("\n", "\r\n").encode()
    yield compared("names of a trace of Windows", answered(UNCOMMENTED), NAMES, data)
    yield compared("names of -", answered(UNCOMMENTED), [*NAMES, "-"], COMMENTED.encode())
    folded = '[["submit",0,[[[],[["barrier",[["COPY","NONE",{},"NONE"]],[],[]]],[[1,2,"COPY"]]]]]]'
    yield compared(
        "names that are folded into others",
        answered(
            folded.replace('"NONE"', "0").replace('"COPY"', "4096").format(4096) + "\n",
            error="standard input:1:34: note: COPY (2 times) is folded into TRANSFER: the profile has no bit"
            " for copies alone, so more may be ordered than in Vulkan\n"
            "standard input:1:48: note: VK_PIPELINE_STAGE_2_CLEAR_BIT is folded into TRANSFER: the profile has"
            " no bit for clears alone, so more may be ordered than in Vulkan\n",
        ),
        NAMES,
        folded.format('"VK_PIPELINE_STAGE_2_CLEAR_BIT"').encode(),
    )
    yield Test("names of a file, and a map", judge_map)
    yield Test("names laid out", judge_layout)
    yield Test("names of members without them", judge_kept)


def judge_map():
    """The map says where each value of the trace stands in the file."""
    with tempfile.TemporaryDirectory() as folder:
        file, places = Path(folder, "a trace.jsonc"), Path(folder, "map.json")
        file.write_text(COMMENTED, encoding="utf-8")
        answer = run([*NAMES, "--map", str(places), str(file)])
        rows = json.loads(places.read_text(encoding="utf-8"))
    if answer != answered(UNCOMMENTED):
        return f"came: {answer}"
    written, source = UNCOMMENTED.split("\n"), COMMENTED.split("\n")
    for line, column, line_there, column_there in rows:
        first, second = written[line - 1][column - 1 :], source[line_there - 1][column_there - 1 :]
        if line != line_there or first[0] != second[0] and first[0] not in "0123456789":
            return f"{(line, column)} is said to be {(line_there, column_there)}"
    values = json.dumps(json.loads(UNCOMMENTED), separators=("\n", ":")).replace("]", "")
    wanted = (values.count("[") + sum(1 for line in values.split("\n") if line.lstrip("[")), True)
    return difference(wanted, (len(rows), [READ_LINE, 35, READ_LINE, READ_COLUMN] in rows))


def judge_layout():
    """An entry a line, a command a line."""
    answer = run([*NAMES, "--to-names", str(EXAMPLES / "missing_dependency.json")])
    wanted = """\
[
  ["buffer", 1, 16, "TRANSFER_SRC|TRANSFER_DST", "exclusive", ["dedicated", "HOST_COHERENT"]],
  ["semaphore", 2, 0],
  ["submit", 0, [
    [
      [],
      [
        ["fill", 1, 0, 16, 0x04030201]
      ],
      [[2, 1, "ALL_COMMANDS"]]
    ]
  ]],
  ["wait", [[2, 1]]],
  ["map", 1],
  ["read", 1, 0, 4]
]
"""
    return difference(answered(wanted), answer)


def judge_kept():
    """What has no name stays a number."""
    trace = [
        ["buffer", 1, 16, 7, "exclusive", ["dedicated", 3]],
        ["buffer", 2, 16, 0, "exclusive", ["memory", 4294967295, 4294967295]],
        ["submit", 4294967295, [[[[1, 4096, 1]], [["barrier", [[4097, 1, 2, 3]], [], []]], []]]],
        ["submit", 0, [[[], [["copy_in", 1, 2, 5, []]], []]]],
    ]
    wanted = """\
[
  ["buffer", 1, 16, 7, "exclusive", ["dedicated", 3]],
  ["buffer", 2, 16, 0, "exclusive", ["memory", 4294967295, 4294967295]],
  ["submit", 4294967295, [
    [
      [[1, 4096, 1]],
      [
        ["barrier", [[4097, 1, 2, 3]], [], []]
      ],
      []
    ]
  ]],
  ["submit", 0, [
    [
      [],
      [
        ["copy_in", 1, 2, 5, []]
      ],
      []
    ]
  ]]
]
"""
    text = json.dumps(trace).encode()
    return difference(answered(wanted), run([*NAMES, "--to-names"], text))


# ---- what explain says, in the places of the file


def explanation_tests():
    """The lines and columns of the file, in the text and in the object; and of what isn't a trace."""
    yield Test("names of the named example", judge_named_example)
    named_file = EXAMPLES / "named" / "missing_dependency"
    said = Path(f"{named_file}.explained").read_text(encoding="utf-8")
    command = [*NAMES, "--explain", f"{named_file}.jsonc"]
    yield compared("names --explain of the named example", answered(said, 1), command)
    yield Test("names --explain", judge_explanation)
    yield Test("names --explain --json", judge_object)
    accepted = str(EXAMPLES / "first_upload.json")
    said = (EXAMPLES / "first_upload.explained").read_text(encoding="utf-8")
    yield compared("names --explain of an accepted trace", answered(said), [*NAMES, "--explain", accepted])
    yield Test("names --explain without a program", judge_no_program)


def judge_named_example():
    """The named example is the example of its name."""
    answer = run([*NAMES, str(EXAMPLES / "named" / "missing_dependency.jsonc")])
    wanted = json.loads((EXAMPLES / "missing_dependency.json").read_bytes())
    return difference((wanted, 0), (json.loads(answer.output), answer.status))


def judge_explanation():
    """The text is that of the numbers but for the place."""
    plain = run([EXPLAIN], UNCOMMENTED.encode()).output.decode()
    wanted = plain.replace(f"line {READ_LINE}, column 35", f"line {READ_LINE}, column {READ_COLUMN}")
    if wanted == plain:
        return f"the place isn't there: {plain}"
    return difference(answered(wanted, 1), run([*NAMES, "--explain"], COMMENTED.encode()))


def judge_object():
    """The object too."""
    wanted = json.loads(run([EXPLAIN, "--json"], UNCOMMENTED.encode()).output)
    if (wanted["line"], wanted["column"]) != (READ_LINE, 35):
        return f"the place isn't there: {wanted}"
    wanted["column"] = wanted["values"]["later"]["column"] = READ_COLUMN
    answer = run([*NAMES, "--explain", "--json"], COMMENTED.encode())
    return difference((wanted, 1, b""), (json.loads(answer.output), answer.status, answer.error))


def judge_no_program():
    """A program that isn't there is named."""
    environment = {**os.environ, "EXPLAIN": "/there/is/no/explain"}
    answer = run([*NAMES, "--explain"], b"[]", env=environment)
    return difference(answered("", NOT_DONE, "/there/is/no/explain: No such file or directory\n"), answer)


def line_tests():
    """The command line, and files that can't be read or written."""
    missing = str(EXAMPLES / "there_is_no_such_file.json")
    wanted = answered("", NOT_DONE, f"{missing}: No such file or directory\n")
    yield compared("names of a missing file", wanted, [*NAMES, missing])
    folder = str(EXAMPLES)
    wanted = answered("", NOT_DONE, f"{folder}: Is a directory\n")
    yield compared("names of a folder", wanted, [*NAMES, folder])
    command = ["sh", "-c", 'exec "$@" >/dev/full', "sh", *NAMES]
    wanted = answered("", NOT_DONE, "standard output: No space left on device\n")
    yield compared("names on a full device", wanted, command, b"[]")
    wanted = answered("", NOT_DONE, f"{folder}: Is a directory\n")
    yield compared("names with a map that is a folder", wanted, [*NAMES, "--map", folder], b"[]")
    for arguments in (["--nothing"], ["a", "b"], ["--json"], ["--to-names", "--explain"], ["--map"]):
        yield Test(f"names {' '.join(arguments)}", lambda a=arguments: judge_refused(NAMES, a))
