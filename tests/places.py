#!/usr/bin/env python3
"""Tests what `places` writes, and what the tools make of it that draw it and write it in VMA's form.

    PROGRAM=FILE PLACES=FILE tests/places.py [WORD]

With WORD only those tests run whose names have it. Where GPU_MEM_DUMP_VIS names the script of VMA that draws its files
of statistics, tools/GpuMemDumpVis/GpuMemDumpVis.py, that draws examples, too (it needs Pillow).

Of each example and worked trace that is accepted each state has to fit together: ranges lie side by side in their
blocks, taken or free; resources lie in their memory objects and share no byte; the sums are those of the heaps and
pools. Where an allocation finds no room it has to find some without what would have to go, as `replay` says.
"""

import json
import os
import sys
import tempfile
import xml.dom.minidom as dom
from pathlib import Path

sys.dont_write_bytecode = True
sys.path.append(str(Path(__file__).resolve().parent.parent / "tools"))

from harness import PROGRAM, TOP, Test, answered, compared, difference, main, run
from pictured_places import BAR, CHARACTER
from places_reading import TOLD, check
from worked import REFUSED, REPLAYED, STOPPED, texts_of

PLACES = os.path.abspath(os.environ.get("PLACES") or TOP / "places")
PICTURE = str(TOP / "tools" / "places_picture.py")
VMA = str(TOP / "tools" / "vma_json.py")
DRAWS_VMA = os.environ.get("GPU_MEM_DUMP_VIS")
# What objects of VMA's files have, and what they may have as well (GpuMemDump.schema.json of VMA 3.2.1).
COUNTS = {"BlockCount", "BlockBytes", "AllocationCount", "AllocationBytes", "UnusedRangeCount"}
SIZES = {"AllocationSizeMin", "AllocationSizeMax", "UnusedRangeSizeMin", "UnusedRangeSizeMax"}
VMA_FORMS = {
    "file": ({"General", "Total", "MemoryInfo", "DefaultPools", "CustomPools"}, set()),
    "statistics": (COUNTS, SIZES),
    "heap": ({"Flags", "Size", "Budget", "Stats", "MemoryPools"}, set()),
    "type": ({"Flags", "Stats"}, set()),
    "default pool": ({"PreferredBlockSize", "Blocks", "DedicatedAllocations"}, set()),
    "custom pool": ({"Name", "PreferredBlockSize", "Blocks", "DedicatedAllocations"}, {"Flags"}),
    "block": ({"MapRefCount", "TotalBytes", "UnusedBytes", "Allocations", "UnusedRanges", "Suballocations"}, set()),
    "dedicated allocation": ({"Type", "Size"}, {"Usage", "Name"}),
    "range": ({"Offset", "Type", "Size"}, {"Usage", "Name"}),
}
VMA_TYPES = {"FREE", "UNKNOWN", "BUFFER", "IMAGE_UNKNOWN", "IMAGE_LINEAR", "IMAGE_OPTIMAL"}
# Texts that places doesn't write of an accepted trace, and what the tools say of them.
STATE = (
    b'{"entry":0,"call":"buffer","pass":null,"heaps":[{"size":9,"used":0},{"size":9,"used":0}],"objects":[%s],'
    b'"pools":[%s],"resources":[]}'
)
BLOCK = b'{"id":1,"algorithm":"tlsf","type":%d,"block_size":9,"blocks":[{"number":0,"object":7,"taken":[],"free":[]}]}'
WITH_STATE = b'{"verdict":"accepted","states":[%s],"no_room":null}'
UNLIKE = {
    b"": "line 1, column 1: expected JSON: Expecting value",
    b'{"verdict"\n': "line 2, column 1: expected JSON: Expecting ':' delimiter",
    b'{"\xff"}': "byte 2: expected UTF-8; found the byte 0xff",
    b"[" * 100_000: "arrays or objects nest too deep",
    b'[["map",1]]': "an array; if it is a trace, ./places writes what is expected here",
    b"null": "member /: expected an object; found null",
    b"2.5": "member /: expected an object; found another number",
    b'{"verdict":"refused","at":"5","rule":"HAZARD_RAW"}': "the trace breaks a rule: refused 5 HAZARD_RAW",
    b'{"verdict":"accepted","states":{}}': "member /states: expected an array; found an object",
    b'{"verdict":"accepted","states":[]}': "member /: expected the member no_room; found none",
    WITH_STATE % b"{}": "member /states/0: expected the member entry; found none",
    WITH_STATE % (STATE % (b'{"number":true}', b"")): "member /states/0/objects/0/number: expected a number; found true",
    WITH_STATE
    % (STATE % (b"", BLOCK % 1)): "member /states/0/pools: expected blocks that are among the objects, of 1 byte or more",
    WITH_STATE % (STATE % (b"", BLOCK % 3)): "member /states/0: expected memory types from 0 to 2",
}
# Of a trace of more entries the last state alone is asked for.
MOST_ENTRIES = 300
HEAP = 4_194_304
MADE = {"pool", "buffer", "image", "memory", "free", "destroy", "drop_pool", "pass", "end_pass"}

FIRST = b'[["pool",1,"tlsf",1,4096,1],["buffer",2,1000,3,"exclusive",["pool",1]],["map",2],["unmap",2],["destroy",2]]'
FIRST_TOLD = """\
{"verdict":"accepted","states":[
{"entry":0,"call":"pool","pass":null,"heaps":[{"size":4194304,"used":0},{"size":4194304,"used":0}],"objects":[],\
"pools":[{"id":1,"algorithm":"tlsf","type":1,"block_size":4096,"block_limit":1,"used":0,"largest_free":0,"blocks":[]}],\
"resources":[]},
{"entry":1,"call":"buffer","pass":null,"heaps":[{"size":4194304,"used":0},{"size":4194304,"used":4096}],\
"objects":[{"number":0,"type":1,"size":4096,"mapped":false,"pool":1,"block":0}],\
"pools":[{"id":1,"algorithm":"tlsf","type":1,"block_size":4096,"block_limit":1,"used":1008,"largest_free":3088,\
"blocks":[{"number":0,"object":0,"taken":[{"id":2,"offset":0,"size":1008}],"free":[{"offset":1008,"size":3088}]}]}],\
"resources":[{"id":2,"kind":"buffer","object":0,"offset":0,"size":1000}]},
{"entry":4,"call":"destroy","pass":null,"heaps":[{"size":4194304,"used":0},{"size":4194304,"used":0}],"objects":[],\
"pools":[{"id":1,"algorithm":"tlsf","type":1,"block_size":4096,"block_limit":1,"used":0,"largest_free":0,"blocks":[]}],\
"resources":[]}],
"no_room":null}
"""


def example(name):
    """The bytes of an example."""
    return (TOP / "examples" / f"{name}.json").read_bytes()


def told_of(trace, *arguments, statuses=(REPLAYED, STOPPED)):
    """What is told of a trace."""
    answer = run([PLACES, *arguments], trace)
    if answer.status not in statuses or answer.error:
        raise ValueError(f"one of the statuses {statuses} is wanted: {answer}")
    return json.loads(answer.output)


# ---- whether a state fits together


def beside(ranges, size):
    """Nothing where ranges lie side by side from 0 up to a size, else what doesn't."""
    end = 0
    for item in sorted(ranges, key=lambda r: r["offset"]):
        if item["offset"] != end or item["size"] <= 0:
            return f"{item} doesn't begin at {end}"
        end += item["size"]
    return None if end == size else f"the ranges end at {end}, and not at {size}"


def block_fault(pool, block, state):
    """What is wrong with a block: its ranges, or where its resources lie."""
    found = beside(block["taken"] + block["free"], pool["block_size"])
    if found:
        return found
    owner = next(item for item in state["objects"] if item["number"] == block["object"])
    if (owner["pool"], owner["block"], owner["size"]) != (pool["id"], block["number"], pool["block_size"]):
        return f"object {owner}"
    spots = {(r["id"], r["offset"]) for r in state["resources"] if r["object"] == block["object"]}
    there = {(item["id"], item["offset"]) for item in block["taken"] if not item.get("reserved")}
    return None if spots == there else f"resources at {spots}, and taken at {there}"


def pool_fault(pool, state):
    """What is wrong with a pool."""
    for block in pool["blocks"]:
        found = block_fault(pool, block, state)
        if found:
            return f"pool {pool['id']}, block {block['number']}: {found}"
    used = sum(item["size"] for block in pool["blocks"] for item in block["taken"])
    largest = max((item["size"] for block in pool["blocks"] for item in block["free"]), default=0)
    numbers = [block["number"] for block in pool["blocks"]]
    if (used, largest) != (pool["used"], pool["largest_free"]) or numbers != sorted(set(numbers)):
        return f"pool {pool['id']}: {used} used, {largest} free at once, blocks {numbers}"
    return None if len(numbers) <= pool["block_limit"] else f"pool {pool['id']} has {len(numbers)} blocks"


def objects_fault(state):
    """What is wrong with memory objects, heaps, or where resources lie in objects."""
    objects = {item["number"]: item for item in state["objects"]}
    for heap in (0, 1):
        used = sum(item["size"] for item in state["objects"] if (item["type"] != 0) == heap)
        if used != state["heaps"][heap]["used"] or used > state["heaps"][heap]["size"]:
            return f"heap {heap} has {used} bytes in use"
    for item in state["objects"]:
        if ("id" in item) == ("pool" in item):
            return f"{item} is nobody's"
    ends = {}
    for found in sorted(state["resources"], key=lambda r: (r["object"], r["offset"])):
        begins_at = ends.get(found["object"], 0)
        ends[found["object"]] = found["offset"] + found["size"]
        if found["offset"] < begins_at or ends[found["object"]] > objects[found["object"]]["size"]:
            return f"{found} overlaps or leaves its object"
    return None


def state_fault(state):
    """What is wrong with a state."""
    moving = sorted(t["id"] for p in state["pools"] for b in p["blocks"] for t in b["taken"] if t.get("moves"))
    held = sorted(t["id"] for p in state["pools"] for b in p["blocks"] for t in b["taken"] if t.get("reserved"))
    if moving != held or (moving and state["pass"] is None):
        return f"move: {moving}; reserved: {held}; pass: {state['pass']}"
    faults = [objects_fault(state), *(pool_fault(pool, state) for pool in state["pools"])]
    return next((fault for fault in faults if fault), None)


def trace_fault(trace, entries):
    """What is wrong with what is told of an accepted trace, which has an entry without room or none."""
    ways = ("--after", str(len(entries) - 1)) if len(entries) > MOST_ENTRIES else ()
    told = told_of(trace, *ways)
    # (what the tools take for it)
    check(told, TOLD, "")
    for state in told["states"]:
        found = state_fault(state)
        if found:
            return f"entry {state['entry']}: {found}"
    stop = told["no_room"]["entry"] if told["no_room"] else len(entries)
    wanted = [k for k, entry in enumerate(entries[:stop]) if entry[0] in MADE]
    if not ways and [state["entry"] for state in told["states"]] != wanted:
        return f"states after {[state['entry'] for state in told['states']]}, wanted: {wanted}"
    ends = run([PROGRAM], trace).output.splitlines()[-1:]
    said = [f"stopped {stop} NO_ROOM".encode()] if told["no_room"] else []
    return None if ends == said or not (said or b"NO_ROOM" in b"".join(ends)) else f"replay: {ends}"


# ---- an allocation without room


def without(entries, stop, told):
    """The entries up to one without room, with the end of what would have to go before it."""
    lack, last = told["no_room"], told["states"][-1]
    pool, heap = lack.get("pool") or {}, lack.get("heap") or {}
    ids = list(pool.get("go") or ())
    if not ids:
        gone = set(heap.get("go") or ())
        ids = [r["id"] for r in last["resources"] if r["object"] in gone]
        made = [item["id"] for item in last["objects"] if item["number"] in gone and "id" in item]
        frees = [["free", k] for k in made if ["memory", k] in [entry[:2] for entry in entries]]
        return [*entries[:stop], *(["destroy", k] for k in ids), *frees, entries[stop]] if gone else None
    return [*entries[:stop], *(["destroy", k] for k in ids), entries[stop]]


def room_fault(trace, entries):
    """Nothing where the entry without room finds some without what would have to go."""
    told = told_of(trace, statuses=(STOPPED,))
    stop = told["no_room"]["entry"]
    asked = (told["no_room"].get("pool") or {}).get("id")
    if any(p["id"] == asked and p["algorithm"] == "linear" for p in told["states"][-1]["pools"]):
        return None if told["no_room"]["pool"]["go"] is None else "something of a linear pool is said to go"
    edited = without(entries, stop, told)
    if edited is None:
        return f"nothing is said to go: {told['no_room']}"
    answer = run([PROGRAM], json.dumps(edited).encode())
    return None if answer.status in (REPLAYED, REFUSED) else f"without {edited[stop:-1]}: {answer}"


LACKS = {
    "full_pool": {
        "entry": 10,
        "id": 6,
        "pool": {"id": 1, "size": 2048, "align": 16, "free": 2048, "largest_free": 1024, "go": [3]},
        "heap": None,
    },
    "full_heap": {
        "entry": 1,
        "id": 2,
        "pool": None,
        "heap": {"number": 1, "size": 16, "free": 0, "objects": 1, "go": [0]},
    },
}


def pass_fault():
    """What differs in the course of the passes of an example: what moves, and what is reserved for it."""
    told = told_of(example("passes_with_limits"))
    rows = []
    for state in told["states"]:
        if state["call"] in ("pass", "end_pass"):
            taken = [(b["number"], t) for p in state["pools"] for b in p["blocks"] for t in b["taken"]]
            moves = [(n, t["id"], t["offset"]) for n, t in taken if t.get("moves")]
            kept = [(n, t["id"], t["offset"]) for n, t in taken if t.get("reserved")]
            rows.append((state["entry"], state["pass"], moves, kept))
    # (buffers 10 to 13 lay in block 0, and 14 to 17 in block 1; 17 stays where it is at first)
    wanted = [
        (16, 2, [(1, 17, 3072)], [(0, 17, 0)]),
        (17, None, [], []),
        (18, 2, [(1, 17, 3072)], [(0, 17, 0)]),
        (19, None, [], []),
        (20, 2, [(1, 15, 1024)], [(0, 15, 2048)]),
        (21, None, [], []),
    ]
    return None if rows == wanted else f"found {rows}"


# ---- what the tools make of it


def picture_fault(trace, *arguments):
    """Nothing where a picture is well formed and no label leaves its part."""
    told = run([PLACES], trace).output
    ran = run([PICTURE, *arguments], told)
    if ran.status != 0 or ran.error:
        return str(ran)
    picture = dom.parseString(ran.output)
    rects = [
        tuple(float(rect.getAttribute(key)) for key in ("x", "y", "width"))
        for rect in picture.getElementsByTagName("rect")
        if rect.getAttribute("height") == str(BAR)
    ]
    for text in picture.getElementsByTagName("text"):
        if "middle" in text.getAttribute("class"):
            x, y = float(text.getAttribute("x")), float(text.getAttribute("y"))
            half = len(text.firstChild.data) * CHARACTER / 2
            if not any(left <= x - half and x + half <= left + wide and top < y < top + BAR for left, top, wide in rects):
                return f"the label {text.firstChild.data} leaves its part"
    return None if rects else "nothing is drawn"


def page_fault():
    """What differs in the picture of the manual."""
    ran = run([PICTURE], run([PLACES], example("defragmented_pool")).output)
    same = ran.output == (TOP / "docs" / "defragmented_pool.svg").read_bytes()
    return None if same else "docs/defragmented_pool.svg is another picture"


def lacking_fault():
    """What differs in the lines of a picture where there is no room."""
    found = run([PICTURE], run([PLACES], example("full_heap")).output).output.decode()
    lines = [
        "entry 1 finds no room for 2",
        "it asks heap 1 for a memory object of 16 bytes: 0 are left, with 1 of 4,096 memory objects live",
        "it would have room without memory object 0",
    ]
    lacks = [line for line in lines if f">{line}<" not in found]
    if lacks or "not there" in found or found.count('class="go"') != 2:
        return f"lacks {lacks}: {found}"
    # (larger than the heap, so that nothing that goes makes room: both heaps, in one state)
    large = b'[["buffer",1,16,3,"exclusive",["dedicated",1]],["memory",2,0,5000000]]'
    found = run([PICTURE], run([PLACES], large).output).output.decode()
    same = found.count('class="head"') == 1 and ">heap 0<" in found and ">heap 1<" in found
    return None if same and "what would have to go" not in found else found


def forms_in(dump):
    """Each object of a file of VMA's statistics, with the name of its form."""
    yield "file", dump
    yield "statistics", dump["Total"]
    for heap in dump["MemoryInfo"].values():
        yield from (("heap", heap), ("statistics", heap["Stats"]))
        for each in heap["MemoryPools"].values():
            yield from (("type", each), ("statistics", each["Stats"]))
    pools = [("default pool", each) for each in dump["DefaultPools"].values()]
    pools += [("custom pool", each) for some in dump["CustomPools"].values() for each in some]
    for name, pool in pools:
        yield name, pool
        yield from (("dedicated allocation", each) for each in pool["DedicatedAllocations"])
        for block in pool["Blocks"].values():
            yield "block", block
            yield from (("range", each) for each in block["Suballocations"])


def vma_block_fault(block):
    """What differs where the ranges of a block lie side by side, and are counted."""
    end = 0
    for each in block["Suballocations"]:
        if each["Offset"] != end:
            return f"a range at {each['Offset']}, behind one up to {end}"
        end += each["Size"]
    free = [each["Size"] for each in block["Suballocations"] if each["Type"] == "FREE"]
    counts = (end, sum(free), len(free), len(block["Suballocations"]) - len(free))
    wanted = tuple(block[key] for key in ("TotalBytes", "UnusedBytes", "UnusedRanges", "Allocations"))
    return None if counts == wanted else f"found {counts}; wanted {wanted}"


def form_fault(trace):
    """What differs in VMA's form of each state of a trace."""
    told = run([PLACES], trace).output
    for state in json.loads(told)["states"]:
        ran = run([VMA, "--entry", str(state["entry"])], told)
        if ran.status != 0 or ran.error:
            return str(ran)
        dump = json.loads(ran.output)
        for name, found in forms_in(dump):
            wanted, more = VMA_FORMS[name]
            if not wanted <= {*found} <= wanted | more or found.get("Type", "FREE") not in VMA_TYPES:
                return f"after entry {state['entry']}: a {name}: {found}"
            fault = vma_block_fault(found) if name == "block" else None
            if fault:
                return f"after entry {state['entry']}: {fault}"
        used = [heap["Stats"]["BlockBytes"] for heap in dump["MemoryInfo"].values()]
        if used != [heap["used"] for heap in state["heaps"]] or dump["Total"]["BlockBytes"] != sum(used):
            return f"after entry {state['entry']}: heaps of {used} bytes"
    return None


def drawn_by_vma(trace):
    """What differs where VMA's own script draws the last state in which memory is allocated."""
    told = run([PLACES], trace).output
    entry = [state["entry"] for state in json.loads(told)["states"] if state["objects"]][-1]
    with tempfile.TemporaryDirectory() as folder:
        dump, picture = Path(folder) / "dump.json", Path(folder) / "dump.png"
        dump.write_bytes(run([VMA, "--entry", str(entry)], told).output)
        ran = run(["python3", DRAWS_VMA, "-o", str(picture), str(dump)])
        return None if ran.status == 0 and picture.read_bytes()[:4] == b"\x89PNG" else str(ran)


def vma_fault():
    """What differs in VMA's form of an example."""
    told = run([PLACES], example("full_pool")).output
    ran = run([VMA, "--entry", "8"], told)
    if ran.status != 0 or ran.error:
        return str(ran)
    form = json.loads(ran.output)
    block = form["CustomPools"]["Type 1"][0]["Blocks"]["0"]
    found = [(item["Type"], item["Offset"], item["Size"]) for item in block["Suballocations"]]
    wanted = [("FREE", 0, 1024), ("BUFFER", 1024, 1024), ("FREE", 2048, 1024), ("BUFFER", 3072, 1024)]
    if found != wanted or (block["TotalBytes"], block["UnusedBytes"], block["MapRefCount"]) != (4096, 2048, 1):
        return f"found {block}"
    total = {"BlockCount": 1, "BlockBytes": 4096, "AllocationCount": 2, "AllocationBytes": 2048, "UnusedRangeCount": 2}
    same = {key: form["Total"][key] for key in total} == total
    return None if same and form["MemoryInfo"]["Heap 1"]["Size"] == HEAP else f"found {form['Total']}"


# ---- the tests


def traces():
    """The examples and the worked traces, with their names."""
    for path in sorted((TOP / "examples").glob("*.json")):
        if not path.name.endswith((".explained.json", ".repaired.json")):
            yield f"example {path.stem}", path.read_bytes()
    for path in sorted((TOP / "tests" / "worked").glob("*.json")):
        for row in json.loads(path.read_text(encoding="utf-8")):
            if row.get("status", REPLAYED) in (REPLAYED, STOPPED) and not row.get("arguments"):
                for text in texts_of(row):
                    yield f"{path.stem}: {row['name']}", text


def accepted():
    """Those that are accepted, with their entries."""
    for name, text in traces():
        if b"refused" not in run([PROGRAM], text).output:
            yield name, text, json.loads(text)


def unwritable():
    """What differs where the output is full."""
    with open("/dev/full", "wb") as full:
        answer = run([PLACES], FIRST, stdout=full)
    return difference(answered("", 5, "write failed after 0 bytes\n"), answer)


def program_tests():
    """The tests of the program alone."""
    yield compared("places: a small trace, word for word", answered(FIRST_TOLD), [PLACES], FIRST)
    refused = '{"verdict":"refused","at":"5","rule":"HAZARD_RAW"}\n'
    yield compared("places: a refused trace", answered(refused, REFUSED), [PLACES], example("missing_dependency"))
    yield compared("places: no trace", answered("", 2, "no trace\n"), [PLACES], b"[1]")
    empty = '{"verdict":"accepted","states":[],\n"no_room":null}\n'
    yield compared("places: an empty trace", answered(empty), [PLACES], b"[]")
    yield Test("places: a full output", unwritable)
    yield Test("places: --help", lambda: None if b"Usage: places" in run([PLACES, "--help"]).error else "no help")
    for words in (["--heap0", "1"], ["--after", "-1"], ["--after", "x"], ["--order", "first"], ["more"]):
        yield Test(f"places: {' '.join(words)}", lambda w=words: None if run([PLACES, *w], FIRST).status == 6 else "taken")
    large = ["--heap0", "67108864", "--heap1", "67108864"]
    yield Test("places: larger heaps", lambda: None if told_of(example("full_heap"), *large)["no_room"] is None else "no room")
    after = ["--after", "2"]
    yield Test("places: after one entry", lambda: None if [s["entry"] for s in told_of(FIRST, *after)["states"]] == [2] else "other states")
    mapped = lambda: None if told_of(FIRST, *after)["states"][0]["objects"][0]["mapped"] else "not mapped"
    yield Test("places: a mapped block", mapped)
    for name, lack in LACKS.items():
        judge = lambda n=name, w=lack: None if told_of(example(n))["no_room"] == w else str(told_of(example(n))["no_room"])
        yield Test(f"places: {name}", judge)
    yield Test("places: the passes of a defragmentation", pass_fault)


def tool_tests():
    """The tests of the tools."""
    for name in ("full_pool", "full_heap", "passes_with_limits", "every_entry", "double_stack", "ring_of_slots"):
        yield Test(f"picture: {name}", lambda n=name: picture_fault(example(n)))
    yield Test("picture: --entries", lambda: picture_fault(example("passes_with_limits"), "--entries", "7,15,23"))
    yield Test("picture: that of the manual", page_fault)
    yield Test("picture: what finds no room", lacking_fault)
    for tool in (PICTURE, VMA):
        name = Path(tool).stem
        for text, why in UNLIKE.items():
            title = f"{name}.py: standard input: not what places writes of an accepted trace"
            yield compared(f"{name}: {text[:40]}", answered("", 2, f"{title}: {why}\n"), [tool], text)
        yield compared(f"{name}: no such file", answered("", 5, "/none: No such file or directory\n"), [tool, "/none"])
        words = ["--entries" if tool == PICTURE else "--entry", "0"]
        early = lambda t=tool, w=words: run([t, *w], b'{"verdict":"accepted","states":[],"no_room":null}')
        yield Test(f"{name}: no state", lambda e=early: None if b"it has no state after entry 0" in e().error else str(e()))
    said = run([PICTURE, "--entries", "3,x"], b"[]")
    yield Test("picture: no entries", lambda: None if said.status == 6 and b"numbers of entries" in said.error else str(said))
    yield Test("vma_json: a pool with free ranges", vma_fault)
    for name in ("full_pool", "full_heap", "passes_with_limits", "every_entry", "double_stack", "image_mips"):
        yield Test(f"vma_json: {name}", lambda n=name: form_fault(example(n)))
        if DRAWS_VMA:
            yield Test(f"vma_json: {name}, drawn by VMA's script", lambda n=name: drawn_by_vma(example(n)))


def state_tests():
    """The tests of the states of each accepted trace."""
    for name, text, entries in accepted():
        yield Test(f"states: {name}", lambda t=text, e=entries: trace_fault(t, e))
        if b"NO_ROOM" in run([PROGRAM], text).output and len(entries) <= MOST_ENTRIES:
            yield Test(f"room: {name}", lambda t=text, e=entries: room_fault(t, e))


def all_tests():
    """The tests."""
    word = sys.argv[1] if len(sys.argv) > 1 else ""
    for tests in (program_tests, state_tests, tool_tests):
        yield from (test for test in tests() if word in test.name)


if __name__ == "__main__":
    sys.exit(main(all_tests(), (PROGRAM, PLACES)))
