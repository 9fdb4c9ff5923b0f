"""Reads the calls of a capture, by `gfxrecon-convert` or from a JSON that it made before."""

import json
import os
import shutil
import subprocess
import tempfile
from typing import NamedTuple

from captured_blocks import Bad, Blocks, Fill, file_bytes, read_blocks

CONVERTER = "gfxrecon-convert"
SUFFIX = "KHR"


class Call(NamedTuple):
    """A call of the program: its index in the capture, its name without KHR, its arguments and its result."""

    index: int
    name: str
    args: dict
    result: object

    def __str__(self):
        return f"call {self.index} {self.name}"


def converted(path):
    """The JSON of a capture, by gfxrecon-convert."""
    if shutil.which(CONVERTER) is None:
        raise Bad(
            f"{CONVERTER} isn't installed: it is in Debian's package gfxreconstruct;"
            " or name a JSON that it made elsewhere: --json FILE.jsonl"
        )
    with tempfile.TemporaryDirectory() as folder:
        made = os.path.join(folder, "capture.jsonl")
        plain = unpacked_file(path, folder)
        ended = subprocess.run(
            [CONVERTER, "--output", made, plain],
            check=False,
            stdout=subprocess.PIPE,
            stderr=subprocess.STDOUT,
        )
        if ended.returncode != 0 or not os.path.exists(made):
            said = ended.stdout.decode(errors="replace").strip().splitlines()
            raise Bad(
                f"{CONVERTER} failed on {path}, status {ended.returncode}"
                + (f": {said[-1]}" if said else "")
            )
        return file_bytes(made)


def unpacked_file(path, folder):
    """The path of a capture that isn't a gzip file."""
    with open(path, "rb") as file:
        if file.read(2) != b"\x1f\x8b":
            return path
    plain = os.path.join(folder, "capture.gfxr")
    with open(plain, "wb") as file:
        file.write(file_bytes(path))
    return plain


def member(value, name, place):
    """A member of an object of the JSON."""
    if not isinstance(value, dict) or name not in value:
        raise Bad(f"{place}: expected the member {name!r}")
    return value[name]


def call_of(line, place):
    """The call on a line, if there is one."""
    try:
        value = json.loads(line)
    except ValueError as error:
        raise Bad(f"{place}: not JSON: {error}") from error
    if not isinstance(value, dict) or "vkFunc" not in value:
        return None
    function = value["vkFunc"]
    index, name = member(value, "index", place), member(function, "name", place)
    if not isinstance(index, int) or not isinstance(name, str):
        raise Bad(f"{place}: expected the index and the name of a call")
    args = member(function, "args", place)
    if not isinstance(args, dict):
        raise Bad(f"{place}: call {index} {name}: expected its arguments")
    plain = name[: -len(SUFFIX)] if name.endswith(SUFFIX) else name
    return Call(index, plain, args, function.get("return"))


def calls_of(path, data):
    """The calls of a JSON, in order."""
    lines = data.splitlines()
    if not lines or not lines[0].startswith(b'{"header"'):
        raise Bad(f"{path}: not the JSON Lines of {CONVERTER}: it doesn't begin with its header")
    for number, line in enumerate(lines, 1):
        call = call_of(line, f"{path}: line {number}") if line.strip() else None
        if call is not None:
            yield call


def read_capture(capture, text):
    """The calls, and the blocks of a capture or nothing; each of both paths may be missing, but not both."""
    blocks = read_blocks(capture) if capture else None
    data = file_bytes(text) if text else converted(capture)
    calls = list(calls_of(text or capture, data))
    return calls, blocks


def in_order(calls, blocks: Blocks):
    """The calls and the host's writes, by their index."""
    fills = iter(blocks.fills if blocks else [])
    fill = next(fills, None)
    for call in calls:
        while fill is not None and fill.index < call.index:
            yield fill
            fill = next(fills, None)
        yield call


__all__ = ["Bad", "Call", "Fill", "in_order", "read_capture"]
