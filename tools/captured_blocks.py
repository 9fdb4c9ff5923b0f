"""Reads the blocks of a GFXReconstruct capture: what the host wrote to mapped memory, and the bytes of updates.

A capture is a head, `GFXR`, two versions and a number of options (key, value), and then blocks, each a size of 64
bits, a kind of 32, and so many bytes. The calls are in the JSON of `gfxrecon-convert`; what the host wrote is here
alone. Blocks are counted from 0, and this number is the index of a call in the JSON.
"""

import gzip
import struct
from typing import Dict, List, NamedTuple, Optional

HEAD, OPTION, BLOCK = struct.Struct("<4s3I"), struct.Struct("<2I"), struct.Struct("<QI")
META, FILL, CALL = struct.Struct("<I"), struct.Struct("<IQQqQ"), struct.Struct("<IQ")
SIZE = struct.Struct("<Q")

COMPRESSED = 0x80000000
# The kinds of blocks: frames, states, meta data, calls, annotations, calls of methods.
STATE_MARKER, META_DATA, FUNCTION_CALL, LAST_KIND = 2, 3, 4, 6
FILL_MEMORY = 0x10002
UPDATE_BUFFER = 0x11075
COMPRESSION = 1
LZ4 = 1
COMPRESSIONS = {0: "none", 1: "LZ4", 2: "ZLIB", 3: "ZSTD"}


class Bad(Exception):
    """An input that can't be converted, with the sentence that says why."""


class Fill(NamedTuple):
    """What the host wrote to mapped memory: the block's index, the memory, an offset in its mapping, and bytes."""

    index: int
    memory: int
    offset: int
    data: bytes


class Blocks(NamedTuple):
    """What is read of a capture: the host's writes, the bytes of each vkCmdUpdateBuffer by its index, and
    the block that isn't whole, where the program was ended before the capture."""

    fills: List[Fill]
    updates: Dict[int, bytes]
    ends_within: Optional[str]


def file_bytes(path):
    """The bytes of a file, unpacked where it is a gzip file."""
    try:
        with open(path, "rb") as file:
            data = file.read()
        return gzip.decompress(data) if data[:2] == b"\x1f\x8b" else data
    except (OSError, EOFError) as error:
        raise Bad(f"{path}: {getattr(error, 'strerror', None) or error}") from error


def lengthened(data, place, length):
    """A length of LZ4 with the bytes that follow where it is 15, and the place behind them."""
    if length == 15:
        more = 255
        while more == 255:
            more = data[place]
            place += 1
            length += more
    return length, place


def unpacked_lz4(data, size):
    """The bytes of a block of LZ4, which are so many."""
    made, place = bytearray(), 0
    while place < len(data):
        token = data[place]
        length, place = lengthened(data, place + 1, token >> 4)
        made += data[place : place + length]
        place += length
        if place >= len(data):
            break
        distance = data[place] | data[place + 1] << 8
        length, place = lengthened(data, place + 2, token & 15)
        length += 4
        start = len(made) - distance
        if distance == 0 or start < 0:
            raise ValueError("a distance out of its bytes")
        chunk = made[start : start + length]
        made += (chunk * (length // len(chunk) + 1))[:length]
    if len(made) != size:
        raise ValueError(f"{len(made)} bytes in place of {size}")
    return bytes(made)


class Reader:
    """Reads the blocks of a capture; an error names the file, the block and the byte."""

    def __init__(self, path, data):
        self.path = path
        self.data = data
        self.compression = 0
        self.index = 0
        self.place = 0
        self.ends_within = None

    def bad(self, text):
        """What is wrong with the block."""
        return Bad(f"{self.path}: block {self.index}, byte {self.place}: {text}")

    def start(self):
        """Reads the head, and goes to the first block."""
        data = self.data
        if len(data) < HEAD.size or data[:4] != b"GFXR":
            raise Bad(f"{self.path}: not a capture of GFXReconstruct: it doesn't begin with GFXR")
        options = HEAD.unpack_from(data)[3]
        self.place = HEAD.size + options * OPTION.size
        if self.place > len(data):
            raise Bad(f"{self.path}: it ends in its head, which has {options} options")
        for number in range(options):
            key, value = OPTION.unpack_from(data, HEAD.size + number * OPTION.size)
            if key == COMPRESSION:
                self.compression = value

    def each(self):
        """Each block: its kind without the bit of compression, whether it has it, and its bytes."""
        while self.place < len(self.data):
            first = self.place + BLOCK.size
            size, kind = (
                BLOCK.unpack_from(self.data, self.place) if first <= len(self.data) else (0, 0)
            )
            if first + size > len(self.data):
                self.ends_within = f"block {self.index}, byte {self.place}"
                return
            if not 0 < kind & ~COMPRESSED <= LAST_KIND:
                raise self.bad(f"a block of the unknown kind 0x{kind:x}")
            yield kind & ~COMPRESSED, bool(kind & COMPRESSED), memoryview(self.data)[
                first : first + size
            ]
            self.place = first + size
            self.index += 1

    def unpacked(self, data, size, is_compressed):
        """The bytes of a block."""
        if not is_compressed:
            return bytes(data)
        if self.compression != LZ4:
            name = COMPRESSIONS.get(self.compression, self.compression)
            raise self.bad(
                f"its compression {name} can't be read here, only LZ4 and none: capture with"
                " GFXRECON_CAPTURE_COMPRESSION_TYPE=NONE"
            )
        try:
            return unpacked_lz4(data, size)
        except (ValueError, IndexError) as error:
            raise self.bad(f"its LZ4 can't be read: {error}") from error

    def fill(self, block, is_compressed):
        """What the host wrote."""
        if len(block) < FILL.size:
            raise self.bad("a write to memory that is too short")
        _, _, memory, offset, size = FILL.unpack_from(block)
        data = self.unpacked(block[FILL.size :], size, is_compressed)
        if len(data) != size:
            raise self.bad(f"a write to memory of {size} bytes that has {len(data)}")
        return Fill(self.index, memory, offset, data)

    def update(self, block, is_compressed):
        """The bytes of a vkCmdUpdateBuffer: its last argument, behind its size."""
        if is_compressed:
            (size,) = SIZE.unpack_from(block, CALL.size)
            data = self.unpacked(block[CALL.size + SIZE.size :], size, True)
        else:
            data = bytes(block[CALL.size :])
        size = SIZE.unpack_from(data, 24)[0] if len(data) >= 32 else len(data) + 1
        if size > len(data) - 32:
            raise self.bad("a vkCmdUpdateBuffer without its bytes")
        return data[len(data) - size :]


def read_blocks(path):
    """What is read of a capture."""
    reader = Reader(path, file_bytes(path))
    reader.start()
    fills, updates = [], {}
    for kind, is_compressed, block in reader.each():
        if kind == STATE_MARKER:
            raise reader.bad(
                "the capture begins within the program, so that what came before isn't known:"
                " capture all frames"
            )
        if kind == META_DATA and len(block) >= 4 and META.unpack_from(block)[0] == FILL_MEMORY:
            fills.append(reader.fill(block, is_compressed))
        elif kind == FUNCTION_CALL and len(block) >= CALL.size:
            if CALL.unpack_from(block)[0] == UPDATE_BUFFER:
                updates[reader.index] = reader.update(block, is_compressed)
    return Blocks(fills, updates, reader.ends_within)
