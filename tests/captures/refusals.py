"""Inputs that can't be converted, and the sentence that says so."""

import contextlib
import json
import pathlib
import struct
import sys
import tempfile

from harness import TOP, Test, run

TOOL = [sys.executable, str(TOP / "tools" / "from_capture.py")]


@contextlib.contextmanager
def folder():
    """A folder for the files of a test."""
    with tempfile.TemporaryDirectory() as path:
        yield pathlib.Path(path)


def refused(name, files, arguments, says, status=1):
    """A test that the tool refuses these files, with this sentence."""

    def judge():
        with folder() as room:
            for title, data in files.items():
                (room / title).write_bytes(data)
            answer = run([*TOOL, *(part.replace("@", f"{room}/") for part in arguments)])
        if answer.status != status or answer.output or says not in answer.error.decode():
            return f"status {status} and {says!r} are wanted: {answer}"
        return None

    return Test(f"refused: {name}", judge)


def head(*options):
    """The head of a capture."""
    return struct.pack("<4s3I", b"GFXR", 0, 0, len(options)) + b"".join(
        struct.pack("<2I", *part) for part in options
    )


def block(kind, data):
    """A block of a capture."""
    return struct.pack("<QI", len(data), kind) + data


HEADER = b'{"header":{"source-path":"made.gfxr"}}\n'
FILL = struct.pack("<IQQqQ", 0x10002, 1, 8, 0, 64)


def line(index, name, args):
    """A line of JSON."""
    return json.dumps({"index": index, "vkFunc": {"name": name, "args": args}}).encode() + b"\n"


def refused_tests():
    """The tests of inputs that can't be converted."""
    yield refused("no file", {}, ["--json", "@none.jsonl"], "none.jsonl: No such file or directory")
    yield refused(
        "no capture", {"a.gfxr": b"nothing"}, ["@a.gfxr"], "a.gfxr: not a capture of GFXReconstruct"
    )
    yield refused(
        "a cut head",
        {"a.gfxr": head((1, 0))[:20]},
        ["@a.gfxr"],
        "it ends in its head, which has 1 options",
    )
    yield refused(
        "an unknown block",
        {"a.gfxr": head() + block(5, b"ab") + block(77, b"abc")},
        ["@a.gfxr"],
        "a.gfxr: block 1, byte 30: a block of the unknown kind 0x4d",
    )
    for number, title in ((2, "ZLIB"), (3, "ZSTD"), (9, "9")):
        yield refused(
            f"compression {title}",
            {"a.gfxr": head((1, number)) + block(0x80000003, FILL + b"abc")},
            ["@a.gfxr"],
            f"block 0, byte 24: its compression {title} can't be read here",
        )
    for data in (b"abc", b"\x00" * 9, b"\x1fa\xff\xff", b"\xf0", b"\x0fa\x01\x00\xff"):
        yield refused(
            f"LZ4 {data.hex()}",
            {"a.gfxr": head((1, 1)) + block(0x80000003, FILL + data)},
            ["@a.gfxr"],
            "block 0, byte 24: its LZ4 can't be read",
        )
    yield refused(
        "a capture of some frames",
        {"a.gfxr": head() + block(2, bytes(12))},
        ["@a.gfxr"],
        "block 0, byte 16: the capture begins within the program",
    )
    yield refused(
        "a short write",
        {"a.gfxr": head() + block(3, FILL + b"abc")},
        ["@a.gfxr"],
        "block 0, byte 16: a write to memory of 64 bytes that has 3",
    )
    yield refused(
        "a shorter write", {"a.gfxr": head() + block(3, FILL[:8])}, ["@a.gfxr"], "that is too short"
    )
    yield refused(
        "no JSON Lines",
        {"a.jsonl": b"[]\n"},
        ["--json", "@a.jsonl"],
        "it doesn't begin with its header",
    )
    yield refused(
        "no JSON", {"a.jsonl": HEADER + b"{\n"}, ["--json", "@a.jsonl"], "a.jsonl: line 2: not JSON"
    )
    yield refused(
        "no name",
        {"a.jsonl": HEADER + b'{"index":1,"vkFunc":{}}'},
        ["--json", "@a.jsonl"],
        "a.jsonl: line 2: expected the member 'name'",
    )
    yield refused(
        "no arguments",
        {"a.jsonl": HEADER + b'{"index":7,"vkFunc":{"name":"vkX","args":3}}'},
        ["--json", "@a.jsonl"],
        "line 2: call 7 vkX: expected its arguments",
    )
    yield refused(
        "a missing argument",
        {"a.jsonl": HEADER + line(7, "vkCreateBuffer", {"pBuffer": 3})},
        ["--json", "@a.jsonl"],
        "call 7 vkCreateBuffer: its arguments aren't as expected: KeyError 'pCreateInfo'",
    )
    yield refused(
        "a queue that wasn't asked for",
        {"a.jsonl": HEADER + line(7, "vkQueueSubmit", {"queue": 3})},
        ["--json", "@a.jsonl"],
        "call 7 vkQueueSubmit: queue 3 wasn't asked for",
    )
    yield refused("no input", {}, [], "a capture or --json FILE.jsonl is needed", 2)
    yield refused("--where alone", {}, ["--where", "1"], "--where needs --names FILE", 2)
    yield refused(
        "a bad point",
        {"n": b"{}"},
        ["--where", "1.2", "--names", "@n"],
        "expected a point such as 5",
    )
    yield refused(
        "no names", {"n": b"[]"}, ["--where", "1", "--names", "@n"], "not a file that --names wrote"
    )
    yield refused(
        "no such point",
        {"n": b'{"entries":[]}'},
        ["--where", "3.0.1", "--names", "@n"],
        "no point 3.0.1",
    )
