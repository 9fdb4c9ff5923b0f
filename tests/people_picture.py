"""Tests of tools/picture.py, of ./explain with --picture and --timeline, and of the page's picture."""

import json
import os
import re
import shutil
import sys
import tempfile
import xml.dom.minidom as dom
from pathlib import Path

from harness import EXPLAIN, TOP, Skipped, Test, answered, difference, run
from people_tools import EXAMPLES

sys.path.append(str(TOP / "tools"))

from pictured import EDGE, FIT, LINE, Drawing, lane_width
from pictured_edits import Edited
from pictured_points import points_of

PICTURE = str(TOP / "tools" / "picture.py")
SCRIPT = str(TOP / "explain")
ROOM = tempfile.TemporaryDirectory()
# An element with all stages and accesses that have a name.
MASKS = [86016, 129024, 86016, 129024]
# A character of the picture's font is no wider.
CHARACTER = 7.3
# The characters of a line where the page has little room.
LEAST_FIT = 24


def traces():
    """The examples and the pairs of the rule book, by name."""
    for path in sorted([*EXAMPLES.glob("*.json"), *EXAMPLES.glob("rules/*.json")]):
        if not path.name.endswith((".explained.json", ".repaired.json")):
            yield path, path.read_bytes()


def boxes_of(picture):
    """The class of each box of a picture with its lines, where it begins, and how high it is."""
    found = []
    for group in dom.parseString(picture).getElementsByTagName("g"):
        rect = group.getElementsByTagName("rect")[0]
        lines = [text.firstChild.data for text in group.getElementsByTagName("text")]
        found.append((rect.getAttribute("class"), lines, int(rect.getAttribute("y")), int(rect.getAttribute("height"))))
    return found


def judge_boxes(said, boxes, fit):
    """No box is over another one, no text leaves its box, the refused point is red, and each edit is drawn."""
    if fit * CHARACTER > lane_width(fit) - 16 or any(len(line) > fit for _, lines, _, _ in boxes for line in lines):
        return "a text leaves its box"
    if any(height != EDGE + LINE * len(lines) for _, lines, _, height in boxes):
        return "a box isn't as high as its lines"
    rows = sorted((y, y + height) for _, _, y, height in boxes)
    if any(other < end for (_, end), (other, _) in zip(rows, rows[1:])):
        return "a box is over another one"
    refused = [lines[0].split()[0] for kind, lines, _, _ in boxes if kind == "refused"]
    wanted = [said["at"]] if said["verdict"] == "refused" else []
    if refused != wanted:
        return f"refused: {refused}; wanted: {wanted}"
    edits = len((said.get("repair") or {}).get("edits", ()))
    drawn = sum(kind == "repair" for kind, _, _, _ in boxes)
    return None if drawn == edits else f"{drawn} edits are drawn, of {edits}"


def judge_drawn(text):
    """The picture of what lies around, and of the whole trace, is well formed, with its boxes as they should be."""
    said = json.loads(run([EXPLAIN, "--json"], text).output)
    for is_whole, fit in ((False, FIT), (True, FIT), (False, LEAST_FIT)):
        found = judge_boxes(said, boxes_of(Drawing(json.loads(text), said, fit).svg(is_whole)), fit)
        if found:
            return f"{'whole' if is_whole else 'around'}, {fit} characters a line: {found}"
    return None


def judge_links():
    """The earlier access, what makes it available, the missing link and the repair are told apart."""
    ran = run([PICTURE], (EXAMPLES / "missing_dependency.json").read_bytes())
    kinds = {kind: lines[0].split()[0] for kind, lines, _, _ in boxes_of(ran.output) if kind != "box"}
    wanted = {"earlier": "2.0.0", "repair": "insert:", "link": "2.0.s0", "refused": "5"}
    if kinds != wanted:
        return f"found {kinds}"
    return None if b'class="missing"' in ran.output else "no arrow for the missing link"


def judge_whole_text():
    """A text that is longer than a line goes on in the next one, a mask that is too behind a name of it, and no box is
    endless."""
    element = [4096, 4096, 16384, 8192]
    entries = [["submit", 0, [[[], [["barrier", [element] * count, [], []] for count in (1, 40)], []]]]]
    said = {"verdict": "accepted"}
    boxes = boxes_of(Drawing(entries, said).svg(True))
    joined = " ".join(boxes[1][1])
    if joined != "0.0.0  barrier TRANSFER:TRANSFER_WRITE → HOST:HOST_READ":
        return f"found {joined!r}"
    masks = [["submit", 0, [[[], [["barrier", [MASKS], [], []]], []]]]]
    lines = boxes_of(Drawing(masks, said).svg(True))[1][1]
    names = [set(re.findall(r"[A-Z_]+", between.join(lines))) for between in ("", " ")]
    if len(lines) < 4 or names[0] != names[1]:
        return f"a name is broken: {lines}"
    last = boxes[2][1][-1]
    return None if re.fullmatch(r"… \d+ more lines", last) else f"the long box ends with {last!r}"


def judge_page():
    """The picture of README is that of its example."""
    ran = run([PICTURE], (EXAMPLES / "missing_dependency.json").read_bytes())
    same = ran.output == (TOP / "docs" / "missing_dependency.svg").read_bytes()
    return None if same else "docs/missing_dependency.svg is another picture"


def judge_order():
    """Points come in the order in which they are judged: a batch that waits behind what it waits for."""
    batch = [[[1, 1, 65536]], [], [[1, 2, 65536]]]
    trace = [["semaphore", 1, 0], ["submit", 0, [batch]], ["submit", 2, [[[], [], [[1, 1, 65536]]]]]]
    names = [point.name for point in points_of(trace)]
    wanted = ["0", "1", "2", "2.0.s0", "1.0.w0", "1.0.s0"]
    return None if names == wanted else f"found {names}"


def judge_edits():
    """Each edit is beside the point of the given trace that it is about, also behind others that move it."""
    batch = [[], [["fill", 1, 0, 16, 1], ["fill", 1, 0, 16, 2]], [[2, 1, 65536]]]
    trace = [["event", 5], ["event", 6], ["submit", 0, [batch]]]
    edited = Edited(trace)
    steps = [
        *(("remove", "/0", ("0", False)), ("add", "/0", ("1", True)), ("add", "/2/2/0/1/1", ("2.0.1", True))),
        *(("replace", "/2/2/0/1/2", ("2.0.1", False)), ("add", "/2/2/0/0/0", ("2.0.0", True))),
        *(("add", "/2/2/0/1/3", ("2.0.1", False)), ("remove", "/2/2/0/2/0", ("2.0.s0", False))),
        *(("add", "/2/2/0/2/0", ("2.0.1", False)), ("add", "/3", ("2", False))),
    ]
    for way, path, wanted in steps:
        found = edited.anchor({"op": way, "path": path})
        if found != wanted:
            return f"{way} {path}: beside {found}; wanted: {wanted}"
    return None


def judge_window():
    """Of a long trace only what lies around the refused point is drawn, and how many are left out is said."""
    fill = ["fill", 1, 0, 16, 1]
    entries = [["buffer", 1, 16, 3, "exclusive", ["dedicated", 1]], ["event", 5]]
    entries += [["semaphore", 10 + k, 0] for k in range(600)]
    ran = run([PICTURE], json.dumps([*entries, ["submit", 0, [[[], [fill, fill], []]]]]).encode())
    drawn = len(boxes_of(ran.output))
    return None if 4 < drawn < 20 and not re.search(rb"semaphore 300", ran.output) else f"{drawn} boxes are drawn"


MANY = json.dumps([["event", k] for k in range(1, 402)]).encode()
INVALID = "picture.py: not a valid trace: line 1, column 1: expected valid JSON; found the end of the input\n"
TOO_MANY = "the trace has 401 points; a whole one is drawn of at most 400\n"
NO_FILE = "no/such/file: No such file or directory\n"


def without_usage(error):
    """What is said of a command line, without the lines of its usage."""
    lines = error.decode().splitlines(keepends=True)
    if lines and lines[0].startswith("usage"):
        lines = [line for line in lines[1:] if not line.startswith(" ")]
    return "".join(lines).encode()


def judge_error(arguments, text, wanted):
    """Bad input has a status and a sentence of its own, and no picture."""
    ran = run([PICTURE, *arguments], text)
    return difference(wanted, ran._replace(error=without_usage(ran.error)))


# ---- ./explain


def explained(arguments, text=b"", **environment):
    """What the script at the top answers by the program that is tested."""
    ran = run([SCRIPT, *arguments], text, env={**os.environ, "EXPLAIN": EXPLAIN, **environment})
    return ran._replace(error=without_usage(ran.error))


def judge_beside(name, ways):
    """The explanation is written as without a picture, and the picture as tools/picture.py draws it."""
    text = (EXAMPLES / f"{name}.json").read_bytes()
    file = Path(ROOM.name) / f"{name}{''.join(ways)}.svg"
    for option, drawn in (("--picture", []), ("--timeline", ["--timeline"])):
        for given, data in (([str(EXAMPLES / f"{name}.json")], b""), (["-"], text), ([], text)):
            file.unlink(missing_ok=True)
            found = difference(run([EXPLAIN, *ways], text), explained([*ways, option, str(file), *given], data))
            if found or file.read_bytes() != run([PICTURE, *drawn], text).output:
                return found or f"{option} {given}: another picture"
    return None


def judge_both():
    """Two pictures at once, with the option's other form."""
    files = [Path(ROOM.name) / each for each in ("around.svg", "whole.svg")]
    ran = explained([f"--picture={files[0]}", f"--timeline={files[1]}", str(EXAMPLES / "pass_while_copied.json")])
    sizes = [len(boxes_of(file.read_bytes())) for file in files]
    return None if ran.status == 1 and 0 < sizes[0] <= sizes[1] else f"{ran}, {sizes}"


def judge_not_drawn(arguments, text, wanted):
    """What can't be drawn has a sentence and a status, and no picture is written."""
    file = Path(ROOM.name) / "not_drawn.svg"
    ran = explained([word.replace("FILE", str(file)) for word in arguments], text)
    return difference(wanted, ran) or ("a picture was written" if file.exists() else None)


def judge_unwritten():
    """The explanation is written where the picture can't be."""
    trace, file = EXAMPLES / "first_upload.json", f"{ROOM.name}/no/such.svg"
    wanted = answered((EXAMPLES / "first_upload.explained").read_text(), 5, f"{file}: No such file or directory\n")
    return difference(wanted, explained(["--picture", file, str(trace)]))


def judge_no_overwriting():
    """The trace itself isn't written over."""
    file = Path(ROOM.name) / "trace.json"
    file.write_bytes(b"[]")
    wanted = answered("", 6, f"explain: {file} is the trace: the picture would take its place\n")
    found = difference(wanted, explained(["--picture", str(file), str(file)]))
    return found or (None if file.read_bytes() == b"[]" else "the trace was written over")


def judge_without_python():
    """Where there is no Python it says so."""
    tools = Path(ROOM.name) / "tools_alone"
    tools.mkdir()
    for name in ("sh", "cat", "dirname"):
        (tools / name).symlink_to(shutil.which(name))
    wanted = answered("", 70, "explain: --picture and --timeline need python3, 3.8 or later\n")
    return difference(wanted, explained(["--picture", "x.svg"], b"[]", PATH=str(tools)))


INVALID_TEXT = (
    "no trace\nThe input isn't a valid trace: line 1, column 1: expected valid JSON; found the end of the input\n"
)
REFUSED_LINES = (
    (["--picture"], b"", "argument --picture: expected one argument\n"),
    (["--picture", "-"], b"[]", "--picture and --timeline take the name of a file\n"),
    (["--picture", "FILE", "--pict", "x"], b"[]", None),
    (["--picture", "FILE", "a", "b"], b"[]", "one trace is drawn, and several files are named\n"),
    (["--picture", "FILE", "--repaired"], b"[]", "--repaired writes no explanation: it goes without --picture and --timeline\n"),
    (["--timeline", "FILE"], MANY, TOO_MANY),
)


def judge_refused_line(arguments, text, said):
    """A command line that isn't right has the status 6, and a sentence."""
    if said is not None:
        return judge_not_drawn(arguments, text, answered("", 6, f"explain: {said}"))
    return difference((b"", 6), explained(arguments, text)[:2])


def script_tests():
    """Those of ./explain."""
    for name, ways in (
        *(("missing_dependency", []), ("missing_dependency", ["--json"]), ("first_upload", [])),
        *(("used_after_destroy", []), ("endless_wait", [])),
    ):
        yield Test(f"explain --picture: {' '.join([*ways, name])}", lambda n=name, w=ways: judge_beside(n, w))
    yield Test("explain --picture: and --timeline", judge_both)
    no_trace = answered(INVALID_TEXT, 2)
    yield Test("explain --picture: no trace", lambda: judge_not_drawn(["--picture", "FILE"], b"[", no_trace))
    no_file = answered("", 5, NO_FILE)
    yield Test("explain --picture: no file", lambda: judge_not_drawn(["--picture", "FILE", "no/such/file"], b"", no_file))
    yield Test("explain --picture: no names", judge_names)
    yield Test("explain --picture: can't be written", judge_unwritten)
    yield Test("explain --picture: over the trace", judge_no_overwriting)
    yield Test("explain --picture: no python", judge_without_python)
    for arguments, text, said in REFUSED_LINES:
        title = f"explain {' '.join(arguments)}"
        yield Test(title, lambda a=arguments, t=text, s=said: judge_refused_line(a, t, s))


def judge_names():
    """A file of --names that isn't one has its own status, as without a picture."""
    names = str(EXAMPLES / "first_upload.json")
    wanted = run([EXPLAIN, "--names", names], b"[]")
    return judge_not_drawn(["--picture", "FILE", "--names", names], b"[]", wanted)


# ---- the page's picture


def judge_scripts():
    """docs/page/picture.js draws each trace as tools/picture.py does."""
    if not shutil.which("node"):
        raise Skipped("this needs node")
    asked = []
    for path, text in traces():
        said = json.loads(run([EXPLAIN, "--json"], text).output)
        one = {"name": path.stem, "trace": text.decode(), "said": said, "whole": False, "room": 0}
        asked += [one, {**one, "whole": True}, {**one, "room": 1}]
    # (numbers beyond those of JavaScript, a layout and bits without a name)
    element = [1, 1 << 31, 0, 0, 4294967295, 4294967295, 3, 5, 7, [0, 1, 0, 1]]
    large = [["semaphore", 1, 2**64 - 2], ["signal", 1, 2**64 - 1], ["wait", [[1, 2**64 - 1]]]]
    large += [["submit", 0, [[[], [["barrier", [MASKS], [], [element]], ["fill", 4, 2**63, 2**63, 0]], []]]]]
    asked.append({"name": "large", "trace": json.dumps(large), "said": {"verdict": "accepted"}, "whole": True, "room": 0})
    ran = run(["node", str(TOP / "tests" / "page_picture.js")], json.dumps(asked).encode())
    if ran.status != 0:
        return str(ran)
    for each, found in zip(asked, json.loads(ran.output)):
        fit = LEAST_FIT if each["room"] else FIT
        wanted = Drawing(json.loads(each["trace"]), each["said"], fit).svg(each["whole"])
        if found != wanted:
            return f"{each['name']}: {found[:2000]}\n  wanted: {wanted[:2000]}"
    return None


def picture_tests():
    """All of them."""
    for path, text in traces():
        yield Test(f"picture: {path.stem}", lambda t=text: judge_drawn(t))
    yield Test("picture: links", judge_links)
    yield Test("picture: whole texts", judge_whole_text)
    yield Test("picture: the one of README", judge_page)
    yield Test("picture: order", judge_order)
    yield Test("picture: edits", judge_edits)
    yield Test("picture: what lies around", judge_window)
    yield Test("picture: no trace", lambda: judge_error([], b"[", answered("", 2, INVALID)))
    too_many = answered("", 6, f"picture.py: {TOO_MANY}")
    for ways in ([], ["--timeline"]):
        yield Test(f"picture: too many points {ways}", lambda w=ways: judge_error(w, MANY, too_many))
    yield Test("picture: no file", lambda: judge_error(["no/such/file"], b"", answered("", 5, NO_FILE)))
    yield from script_tests()
    yield Test("picture: the page's script", judge_scripts)
