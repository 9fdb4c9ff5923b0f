#!/usr/bin/env python3
"""Tests the page docs/page: on all examples its module answers as the programs do, and a browser shows that.

    PROGRAM=FILE EXPLAIN=FILE tests/page.py

MODULE names the module; else it is that of out/page, or of release, where it was made of the sources as they are
(tools/page/build.py), and where neither was all is skipped. The module runs under node, 18 or later; the page in
chromium, or in the browser that CHROMIUM names. Each is skipped where it isn't there.
"""

import json
import os
import queue
import re
import shutil
import subprocess
import sys
import tempfile
import threading
from http.server import BaseHTTPRequestHandler, ThreadingHTTPServer
from pathlib import Path

sys.dont_write_bytecode = True

from harness import EXPLAIN, PROGRAM, TOP, Skipped, Test, main, run

sys.path += [str(TOP / "tools"), str(TOP / "tools" / "page")]

from build import assembled, examples
from module import Failed, found_module, retargeted
from pictured import FIT, Drawing

ROOM = tempfile.TemporaryDirectory()
PAGE = Path(ROOM.name) / "index.html"
# So many seconds all examples under node, or the browser, may take.
PATIENCE = 300
# Texts of letters of one to four bytes, and what is no UTF-8: too short, too long, half of a pair, above the last letter,
# cut off. Each is tried behind fronts of several lengths, as texts are checked in blocks of 64 bytes.
LETTERS = ("a", "\u00e9", "\u20ac", "\U0001f600", "\u07ff\u0800\uffff\U00010000\U0010ffff")
NO_UTF8 = ("c080", "80", "e08080", "eda080", "f4908080", "f0808080", "ff", "c3", "e282", "f09f98", "f888808080")
FRONTS = (0, 1, 30, 58, 61, 62, 63, 64, 127, 130)
# Examples that a browser shows: refused with repairs, replayed, stopped, and no trace.
SHOWN = ("missing_dependency", "first_upload", "full_heap", "overlapping_fills", "image_mips", "unfinished")


def inputs():
    """Inputs with letters beyond ASCII, and with bytes that are no letters."""
    for front in FRONTS:
        for letters in (*(each.encode() for each in LETTERS), *map(bytes.fromhex, NO_UTF8)):
            yield b'["' + b"x" * front + letters + b'"]'


def node_answers(traces):
    """What the module answers to the traces, and then to the inputs."""
    version = run(["node", "--version"]).output.decode().strip() if shutil.which("node") else ""
    if not version or int(re.match(r"v(\d+)", version)[1]) < 18:
        raise Skipped("this needs node, 18 or later")
    asked = {"page": str(PAGE), "script": str(TOP / "docs" / "page" / "library.js"), "traces": traces}
    asked["inputs"] = [each.hex() for each in inputs()]
    ran = run(["node", str(TOP / "tests" / "page.js")], json.dumps(asked).encode(), seconds=PATIENCE)
    if ran.status != 0:
        raise OSError(f"node: {ran}")
    return json.loads(ran.output)


def unlike(what, wanted, found):
    """What differs, if anything does."""
    return None if wanted == found else f"{what}\n  wanted: {wanted!r}\n  came:   {found!r}"


def of_program(command, trace):
    """The status and the text of a program, to a text or to bytes."""
    ran = run(command, trace if isinstance(trace, bytes) else trace.encode())
    return {"status": ran.status, "text": ran.output.decode()}


def judge_trace(trace, found):
    """What the module answers to a trace is what the programs write, and the page leaves nothing of it out."""
    for name, options in (("text", []), ("json", ["--json"])):
        differs = unlike(name, of_program([EXPLAIN, *options], trace), found[name])
        if differs:
            return differs
    for order in ("first", "last", "seed"):
        differs = unlike(order, of_program([PROGRAM, "--order", order, "--seed", "5"], trace), found[order])
        if differs:
            return differs
    differs = unlike("repaired", of_program([EXPLAIN, "--repaired"], trace)["text"], found["repaired"])
    if differs:
        return differs
    shown = found["shown"]
    lines = [shown["verdict"], *shown["said"], *shown["repair"], *shown["notes"]]
    differs = unlike("shown", [line for line in found["text"]["text"].split("\n") if line], lines)
    reads = [*shown["reads"], *([shown["stopped"]] if shown["stopped"] else [])]
    wanted = found["first"]["text"].split("\n")[:-1] if found["text"]["status"] == 0 else []
    return differs or unlike("reads", wanted, reads)


def judge_node():
    """All examples under node, and the inputs."""
    traces = [trace for _, _, _, trace in examples()]
    answers = node_answers(traces)
    found, said = answers[: len(traces)], answers[len(traces) :]
    for (_, name, _, trace), each in zip(examples(), found):
        differs = judge_trace(trace, each)
        if differs:
            return f"{name}: {differs}"
    for each, answer in zip(inputs(), said):
        differs = unlike(each.hex(), of_program([EXPLAIN], each), answer)
        if differs:
            return differs
    return None if len(found) == len(traces) > 100 and len(said) == len([*inputs()]) else f"{len(answers)} answers"


def judge_foreign():
    """Of an instruction of x86-64 that WebAssembly lacks a function is called, or it is named where there is none."""
    shuffle = "<16 x i8> @llvm.x86.ssse3.pshuf.b.128(<16 x i8> %a, <16 x i8> %b)\n"
    text = "".join(retargeted([f"%c = call {shuffle}", f"declare {shuffle}"]))
    if "llvm.x86" in text or text.count('@"stand-in for x86.ssse3.pshuf.b.128"(') != 2 or text.count("insertelement") != 16:
        return text
    try:
        return "".join(retargeted(["%c = call i32 @llvm.x86.sse42.crc32.32.8(i32 %a, i8 %b)\n"]))
    except Failed as why:
        return None if "x86.sse42.crc32.32.8" in str(why) else str(why)


def seen_in_browser(names):
    """What a browser shows of examples, as tests/page_probe.js posts it."""
    browser = os.environ.get("CHROMIUM") or shutil.which("chromium") or shutil.which("chromium-browser")
    if not browser:
        raise Skipped("this needs chromium")
    probe = (TOP / "tests" / "page_probe.js").read_text().replace("NAMES = []", f"NAMES = {json.dumps(names)}", 1)
    served = PAGE.read_text().replace("</body>", f"<script>{{ {probe} }}</script></body>").encode()
    posted = queue.Queue()

    class Handler(BaseHTTPRequestHandler):
        """Serves the page, and takes what is posted."""

        def do_GET(self):
            self.send_response(200)
            self.send_header("Content-Type", "text/html; charset=utf-8")
            self.end_headers()
            self.wfile.write(served)

        def do_POST(self):
            posted.put(json.loads(self.rfile.read(int(self.headers["Content-Length"]))))
            self.send_response(204)
            self.end_headers()

        def log_message(self, *_):
            """Says nothing."""

    server = ThreadingHTTPServer(("127.0.0.1", 0), Handler)
    threading.Thread(target=server.serve_forever, daemon=True).start()
    profile = Path(ROOM.name) / "profile"
    flags = ["--headless=new", "--no-sandbox", "--disable-gpu", "--window-size=1280,800", f"--user-data-dir={profile}"]
    command = [browser, *flags, f"http://127.0.0.1:{server.server_address[1]}/"]
    started = subprocess.Popen(command, stdin=subprocess.DEVNULL, stdout=subprocess.DEVNULL, stderr=subprocess.DEVNULL)
    try:
        return posted.get(timeout=PATIENCE)
    except queue.Empty:
        return f"nothing was posted in {PATIENCE} s"
    finally:
        started.terminate()
        started.wait()
        server.shutdown()


def judge_seen(found):
    """A browser shows of an example what `explain` says, and what the host reads."""
    name, trace = found["name"], next(text for _, each, _, text in examples() if each == found["name"])
    said = of_program([EXPLAIN], trace)
    lines = [re.sub(r"^  (repair: )?", "", line).strip() for line in said["text"].split("\n") if line]
    if said["status"] == 0:
        lines += of_program([PROGRAM], trace)["text"].split("\n")[:-1]
    shown = found["seen"]
    verdict = next((line for line in shown if line.startswith(lines[0])), None)
    lacks = [line for line in lines[1:] if line not in shown and not (verdict or "").endswith(line)]
    if verdict is None or lacks:
        return f"{name}: not shown: {lacks or lines[0]}; shown: {shown}"
    if found["listed"] != name:
        return f"{name}: in sight in the list: {found['listed']}"
    place = re.search(r"line (\d+)", said["text"]) if said["status"] else None
    if not found["mended"] and place and found["marked"] != [place[1]]:
        return f"{name}: marked: {found['marked']}"
    if ("repair:" in said["text"]) != bool(found["mended"]) or (found["mended"] and "accepted" not in found["mended"]):
        return f"{name}: after the repair: {found['mended']}"
    object_ = json.loads(of_program([EXPLAIN, "--json"], trace)["text"])
    # (how wide its lanes are depends on the window)
    pictures = [Drawing(json.loads(trace), object_, fit).svg(False) for fit in range(1, FIT + 1)] if found["picture"] else [None]
    if found["picture"] not in pictures or (found["picture"] is None) != (object_["verdict"] == "no trace"):
        return f"{name}: another picture: {found['picture']}"
    return None if found["fits"] else f"{name}: the page is wider than the window"


def judge_browser():
    """Some examples in a browser."""
    found = seen_in_browser(SHOWN)
    if not isinstance(found, list):
        return found
    return next(filter(None, map(judge_seen, found)), None)


def skip():
    """Says that there is no module."""
    raise Skipped("the page's module isn't built of these sources (make page)")


def all_tests():
    """All of them; how many there are is counted where there is no module, too."""
    module = os.environ.get("MODULE") or found_module()
    tests = [
        Test("page: all examples under node", judge_node),
        Test("page: some examples in a browser", judge_browser),
    ]
    if module is None:
        tests = [test._replace(judge=skip) for test in tests]
    else:
        PAGE.write_text(assembled(Path(module).read_bytes()))
    return [*tests, Test("page: instructions that WebAssembly lacks", judge_foreign)]


if __name__ == "__main__":
    sys.exit(main(all_tests()))
