"""Stages, accesses, layouts and formats of Vulkan as a trace has them.

What a trace doesn't have is widened, or left out where that can hide a hazard and never make one.
"""

import re
import struct
from typing import NamedTuple

TRANSFER, HOST, ALL_COMMANDS = 0x1000, 0x4000, 0x10000
TOP, BOTTOM = 0x1, 0x2000
# COPY, RESOLVE, BLIT and CLEAR of the second generation.
TRANSFERS_2 = 0xF00000000
TRANSFER_ACCESSES, HOST_ACCESSES, MEMORY_ACCESSES = 0x1800, 0x6000, 0x18000
ACCESSES = TRANSFER_ACCESSES | HOST_ACCESSES | MEMORY_ACCESSES
IGNORED, EXTERNALS = 0xFFFFFFFF, (0xFFFFFFFE, 0xFFFFFFFD)
WHOLE = 0xFFFFFFFFFFFFFFFF
REMAINING = 0xFFFFFFFF

STAGE_NAMES = {
    "NONE": 0,
    "TOP_OF_PIPE": TOP,
    "BOTTOM_OF_PIPE": BOTTOM,
    "HOST": HOST,
    "ALL_COMMANDS": ALL_COMMANDS,
    "TRANSFER": TRANSFER,
    "ALL_TRANSFER": TRANSFER,
    "COPY": TRANSFER,
    "CLEAR": TRANSFER,
    "BLIT": TRANSFER,
    "RESOLVE": TRANSFER,
}
ACCESS_NAMES = {
    "NONE": 0,
    "TRANSFER_READ": 0x800,
    "TRANSFER_WRITE": 0x1000,
    "HOST_READ": 0x2000,
    "HOST_WRITE": 0x4000,
    "MEMORY_READ": 0x8000,
    "MEMORY_WRITE": 0x10000,
}
FLAG = re.compile(r"VK_(?:PIPELINE_STAGE|ACCESS)_(?:2_)?(\w+?)(?:_BIT)?(?:_KHR|_EXT|_NV)?$")
OTHER_STAGE = 0x80

LAYOUTS = {
    "VK_IMAGE_LAYOUT_UNDEFINED": 0,
    "VK_IMAGE_LAYOUT_PREINITIALIZED": 0,
    "VK_IMAGE_LAYOUT_GENERAL": 1,
    "VK_IMAGE_LAYOUT_TRANSFER_SRC_OPTIMAL": 6,
    "VK_IMAGE_LAYOUT_TRANSFER_DST_OPTIMAL": 7,
}
GENERAL = 1


def mask_of(value, names, other):
    """A mask, which is a number or names; a name that isn't known is `other`."""
    if isinstance(value, int):
        return value
    mask = 0
    for text in re.split(r"[|\s]+", value):
        found = FLAG.match(text)
        mask |= names.get(found.group(1), other) if found else int(text, 0)
    return mask


def stages(value, is_first):
    """Stages of a first or a second scope: those of graphics and compute become ALL_COMMANDS."""
    mask = mask_of(value, STAGE_NAMES, OTHER_STAGE)
    kept = mask & (TRANSFER | HOST | ALL_COMMANDS)
    if mask & TRANSFERS_2:
        kept |= TRANSFER
    nothing = TOP if is_first else BOTTOM
    others = mask & ~(TRANSFER | HOST | ALL_COMMANDS | TRANSFERS_2 | nothing)
    return kept | ALL_COMMANDS if others else kept


def has_other_stages(value):
    """Whether a mask has stages that a trace doesn't have."""
    return bool(
        mask_of(value, STAGE_NAMES, OTHER_STAGE)
        & ~(TRANSFER | HOST | ALL_COMMANDS | TRANSFERS_2 | TOP | BOTTOM)
    )


def accesses(value):
    """Accesses by transfers, the host and all: no other is judged, so it is left out."""
    return mask_of(value, ACCESS_NAMES, 0) & ACCESSES


def layout(name):
    """A layout; those of graphics become GENERAL."""
    return LAYOUTS.get(name, GENERAL)


class Format(NamedTuple):
    """A format of the trace for one of Vulkan: the bytes of a texel, and how Vulkan's components lie in them."""

    name: str
    texel: int
    bits: tuple
    order: str
    kind: str


NAMES = {1: "R8_UINT", 2: "R16_UINT", 4: "R32_UINT", 8: "R32G32_UINT", 16: "R32G32B32A32_UINT"}
NAMES_8 = {1: "R8_UINT", 2: "R8G8_UINT", 4: "R8G8B8A8_UINT"}
# The bytes of a component of each format of the trace.
COMPONENT = {
    "R8_UINT": 1,
    "R8G8_UINT": 1,
    "R8G8B8A8_UINT": 1,
    "R16_UINT": 2,
    "R32_UINT": 4,
    "R32G32_UINT": 4,
    "R32G32B32A32_UINT": 4,
}
COLOR = re.compile(
    r"VK_FORMAT_((?:[RGBAEX]\d+)+)_(UNORM|SNORM|USCALED|SSCALED|UINT|SINT|SFLOAT|UFLOAT|SRGB)"
    r"(_PACK\d+)?$"
)


def format_of(name):
    """The format with texels of the same size, or nothing: depth, compressed, of planes, of 3, 6 or 12 bytes."""
    found = COLOR.match(name)
    if not found:
        return None
    parts = re.findall(r"([RGBAEX])(\d+)", found.group(1))
    bits = tuple(int(size) for _, size in parts)
    texel = sum(bits) // 8
    table = NAMES_8 if set(bits) == {8} and not found.group(3) else NAMES
    if texel not in table or sum(bits) % 8:
        return None
    order = "".join(letter for letter, _ in parts)
    kind = found.group(2) if not found.group(3) else "PACKED"
    return Format(table[texel], texel, bits, order, kind)


def component(kind, bits, word):
    """The number of a cleared component, from the word that the call has, or nothing where it isn't known."""
    if kind in ("UINT", "SINT"):
        return word & ((1 << bits) - 1)
    value = struct.unpack("<f", struct.pack("<I", word))[0]
    if kind == "SFLOAT" and bits == 32:
        return word
    if kind == "SFLOAT" and bits == 16:
        return struct.unpack("<H", struct.pack("<e", value))[0]
    if kind == "UNORM":
        return round(min(max(value, 0), 1) * ((1 << bits) - 1))
    return None


def clear_words(form, words):
    """The four components of a clear in the trace's format, and whether they are exact."""
    texel, is_exact = b"", True
    for letter, bits in zip(form.order, form.bits):
        number = None
        if bits % 8 == 0 and letter in "RGBA":
            number = component(form.kind, bits, words["RGBA".index(letter)])
        if number is None:
            return [0, 0, 0, 0], False
        texel += number.to_bytes(bits // 8, "little")
    step = COMPONENT[form.name]
    parts = [int.from_bytes(texel[at : at + step], "little") for at in range(0, len(texel), step)]
    return (parts + [0, 0, 0, 0])[:4], is_exact
