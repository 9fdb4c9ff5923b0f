"""The forms of docs/FORMAT.md: which members an entry, a command, a batch or a place has, and which names may stand
for a number there.

A form is one of the classes below; TRACE is that of a whole trace. The first names of a place are the short ones, by
which a number is written; all of them are read.
"""

from typing import Dict, NamedTuple, Optional, Tuple

MOST_32, MOST_64 = (1 << 32) - 1, (1 << 64) - 1


class Names(NamedTuple):
    """Names that may stand for a number."""

    what: str
    # The short names, each with its number.
    short: Dict[str, int]
    # The same with Vulkan's prefixes and endings.
    full: Dict[str, int]
    # Whether several are joined by `|`.
    is_mask: bool = False
    # Names of Vulkan's for which the profile has another one: the short name, and why.
    folded: Dict[str, Tuple[str, str]] = {}
    # Names of Vulkan's that the profile doesn't have, and why.
    absent: Dict[str, str] = {}

    def number(self, name):
        """The number that a name stands for; none where there is no such name."""
        if name in self.folded:
            return self.short[self.folded[name][0]]
        return self.short.get(name, self.full.get(name))

    def text(self, number):
        """The short names of a number; none where a part of it has no name."""
        if not self.is_mask or number == 0:
            found = [name for name, value in self.short.items() if value == number]
            return found[0] if found else None
        found = [name for name, bit in self.short.items() if number & bit]
        return "|".join(found) if sum(self.short[name] for name in found) == number else None


class Number(NamedTuple):
    """A number."""

    most: int = MOST_32
    names: Optional[Names] = None
    # What it is the id of, if it is one; and whether the object is made here.
    of: Optional[str] = None
    is_new: bool = False
    # Whether people read it in hex.
    is_hex: bool = False


class Word(NamedTuple):
    """One of some words."""

    words: Tuple[str, ...]
    # Vulkan's names for them.
    full: Dict[str, str]


class Length(NamedTuple):
    """A number of bytes, or "whole"."""


class Bytes(NamedTuple):
    """Bytes as hex text."""


class Many(NamedTuple):
    """An array of any number of members of one form."""

    what: str
    item: object


class Row(NamedTuple):
    """An array of members, each with its name; behind a word where it has one."""

    what: str
    members: Tuple[Tuple[str, object], ...]
    word: Optional[str] = None

    def shown(self):
        """The form as it is shown to people."""
        inside = [f'"{self.word}"'] if self.word else []
        inside += [f"[{name}, ..]" if isinstance(form, Many) else name for name, form in self.members]
        return f"[{', '.join(inside)}]"


class Choice(NamedTuple):
    """An array whose first member is a word that says which others it has."""

    what: str
    rows: Dict[str, Row]


def choice(what, **rows):
    """A choice of rows, each by its word."""
    made = {word: Row(f'{what} "{word}"', tuple(rows[word].items()), word) for word in rows}
    return Choice(what, made)


def row(what, **members):
    """A row without a word."""
    return Row(what, tuple((name.replace("_", " "), form) for name, form in members.items()))


# ---- names


def with_prefixes(short, *prefixes, ending="_BIT"):
    """The names with each prefix; a bit with the ending, and what is 0 without."""
    return {
        f"{prefix}{name}{ending if number else ''}": number
        for prefix in prefixes
        for name, number in short.items()
    }


WHY = "the profile has no bit for {} alone, so more may be ordered than in Vulkan"
COPIES_AND_CLEARS = {
    name: ("TRANSFER", WHY.format(commands))
    for stage, commands in (("COPY", "copies"), ("CLEAR", "clears"))
    for name in (stage, f"VK_PIPELINE_STAGE_2_{stage}_BIT", f"VK_PIPELINE_STAGE_2_{stage}_BIT_KHR")
}
STAGE_NUMBERS = {"NONE": 0, "TRANSFER": 4096, "HOST": 16384, "ALL_COMMANDS": 65536}
STAGE_PREFIXES = ("VK_PIPELINE_STAGE_", "VK_PIPELINE_STAGE_2_")
STAGES = Names(
    "stages",
    STAGE_NUMBERS,
    {
        **with_prefixes(STAGE_NUMBERS, *STAGE_PREFIXES),
        **with_prefixes(STAGE_NUMBERS, STAGE_PREFIXES[1], ending="_BIT_KHR"),
        **dict.fromkeys(("ALL_TRANSFER", "VK_PIPELINE_STAGE_2_ALL_TRANSFER_BIT"), 4096),
        "VK_PIPELINE_STAGE_2_ALL_TRANSFER_BIT_KHR": 4096,
    },
    is_mask=True,
    folded=COPIES_AND_CLEARS,
    absent={
        name: why
        for stages, why in (
            (("BLIT", "RESOLVE"), "the profile has no blits and no resolves"),
            (("TOP_OF_PIPE", "BOTTOM_OF_PIPE"), "the profile doesn't have it; write NONE"),
        )
        for stage in stages
        for name in (stage, *(f"{prefix}{stage}_BIT" for prefix in STAGE_PREFIXES))
    },
)
ACCESS_NUMBERS = {
    "NONE": 0,
    "TRANSFER_READ": 2048,
    "TRANSFER_WRITE": 4096,
    "HOST_READ": 8192,
    "HOST_WRITE": 16384,
    "MEMORY_READ": 32768,
    "MEMORY_WRITE": 65536,
}
ACCESSES = Names(
    "accesses",
    ACCESS_NUMBERS,
    {
        **with_prefixes(ACCESS_NUMBERS, "VK_ACCESS_", "VK_ACCESS_2_"),
        **with_prefixes(ACCESS_NUMBERS, "VK_ACCESS_2_", ending="_BIT_KHR"),
    },
    is_mask=True,
)
USAGE_NUMBERS = {"TRANSFER_SRC": 1, "TRANSFER_DST": 2}
BUFFER_USAGE = Names(
    "usage",
    USAGE_NUMBERS,
    with_prefixes(USAGE_NUMBERS, "VK_BUFFER_USAGE_", "VK_BUFFER_USAGE_2_"),
    is_mask=True,
)
IMAGE_USAGE = BUFFER_USAGE._replace(full=with_prefixes(USAGE_NUMBERS, "VK_IMAGE_USAGE_"))
LAYOUT_NUMBERS = {"UNDEFINED": 0, "GENERAL": 1, "TRANSFER_SRC_OPTIMAL": 6, "TRANSFER_DST_OPTIMAL": 7}
LAYOUTS = Names("layout", LAYOUT_NUMBERS, with_prefixes(LAYOUT_NUMBERS, "VK_IMAGE_LAYOUT_", ending=""))
FAMILIES = Names("family", {"IGNORED": MOST_32}, {"VK_QUEUE_FAMILY_IGNORED": MOST_32})
MEMORY_NUMBERS = {"DEVICE_LOCAL": 0, "HOST_COHERENT": 1, "HOST_CACHED": 2}
MEMORY_TYPES = Names(
    "memory type",
    MEMORY_NUMBERS,
    {f"VK_MEMORY_PROPERTY_{name}_BIT": number for name, number in MEMORY_NUMBERS.items()},
)

# ---- forms

SMALL, LARGE, LENGTH, BYTES = Number(), Number(MOST_64), Length(), Bytes()
STAGE_MASK, ACCESS_MASK = Number(names=STAGES), Number(names=ACCESSES)
LAYOUT, FAMILY, MEMORY_TYPE = Number(names=LAYOUTS), Number(names=FAMILIES), Number(names=MEMORY_TYPES)


def new(kind):
    """The id of an object that is made."""
    return Number(of=kind, is_new=True)


def old(kind):
    """The id of an object that is named."""
    return Number(of=kind)


def word(prefix, *words):
    """One of the words, or Vulkan's name of one."""
    return Word(words, {f"{prefix}{each.upper()}": each for each in words})


FORMAT = word(
    "VK_FORMAT_",
    *("R8_UINT", "R8G8_UINT", "R8G8B8A8_UINT", "R16_UINT"),
    *("R32_UINT", "R32G32_UINT", "R32G32B32A32_UINT"),
)
TILING = word("VK_IMAGE_TILING_", "optimal", "linear")
SHARING = word("VK_SHARING_MODE_", "exclusive", "concurrent")
KIND = Word(("tlsf", "linear"), {})
PLACE = choice(
    "place",
    dedicated={"memory type": MEMORY_TYPE},
    memory={"memory object": old("memory object"), "offset": LARGE},
    pool={"pool": old("pool")},
    pool_upper={"pool": old("pool")},
)
RANGE = row("range", first_level=SMALL, levels=SMALL, first_layer=SMALL, layers=SMALL)
COPY_REGION = row("region", source_offset=LARGE, destination_offset=LARGE, size=LARGE)
BOX = {"x": SMALL, "y": SMALL, "width": SMALL, "height": SMALL}
BUFFER_IMAGE_REGION = row(
    "region",
    **{"buffer_offset": LARGE, "row_length": SMALL, "image_height": SMALL},
    **{"level": SMALL, "first_layer": SMALL, "layers": SMALL},
    **BOX,
)
IMAGE_REGION = row(
    "region",
    **{"source_level": SMALL, "source_first_layer": SMALL},
    **{"destination_level": SMALL, "destination_first_layer": SMALL, "layers": SMALL},
    **{"source_x": SMALL, "source_y": SMALL, "destination_x": SMALL, "destination_y": SMALL},
    **{"width": SMALL, "height": SMALL},
)
MASKS = {
    "source_stages": STAGE_MASK,
    "source_accesses": ACCESS_MASK,
    "destination_stages": STAGE_MASK,
    "destination_accesses": ACCESS_MASK,
}
PAIR = {"source_family": FAMILY, "destination_family": FAMILY}
ELEMENT = row("memory element", **MASKS)
BUFFER_ELEMENT = row("buffer element", **MASKS, **PAIR, buffer=old("buffer"), offset=LARGE, size=LENGTH)
IMAGE_ELEMENT = row(
    "image element", **MASKS, **PAIR, image=old("image"), old_layout=LAYOUT, new_layout=LAYOUT, range=RANGE
)
COLOR = row("color", first=SMALL, second=SMALL, third=SMALL, fourth=SMALL)
ELEMENTS = Many("elements", ELEMENT)
COMMAND = choice(
    "command",
    fill={"buffer": old("buffer"), "offset": LARGE, "size": LENGTH, "word": Number(is_hex=True)},
    update={"buffer": old("buffer"), "offset": LARGE, "bytes": BYTES},
    copy={"source": old("buffer"), "destination": old("buffer"), "regions": Many("regions", COPY_REGION)},
    clear={"image": old("image"), "layout": LAYOUT, "color": COLOR, "ranges": Many("ranges", RANGE)},
    copy_in={
        **{"buffer": old("buffer"), "image": old("image"), "layout": LAYOUT},
        "regions": Many("regions", BUFFER_IMAGE_REGION),
    },
    copy_out={
        **{"image": old("image"), "layout": LAYOUT, "buffer": old("buffer")},
        "regions": Many("regions", BUFFER_IMAGE_REGION),
    },
    copy_image={
        **{"source": old("image"), "source layout": LAYOUT},
        **{"destination": old("image"), "destination layout": LAYOUT},
        "regions": Many("regions", IMAGE_REGION),
    },
    barrier={
        "memory elements": Many("memory elements", ELEMENT),
        "buffer elements": Many("buffer elements", BUFFER_ELEMENT),
        "image elements": Many("image elements", IMAGE_ELEMENT),
    },
    set={"event": old("event"), "elements": ELEMENTS},
    **{"await": {"event": old("event"), "elements": ELEMENTS}},
)
SEMAPHORE = old("semaphore")
STAGED = {"semaphore": SEMAPHORE, "value": LARGE, "stages": STAGE_MASK}
COMMANDS = Many("commands", COMMAND)
BATCH = row(
    "batch",
    waits=Many("waits", row("wait", **STAGED)),
    commands=COMMANDS,
    signals=Many("signals", row("signal", **STAGED)),
)
BATCHES = Many("batches", BATCH)
HOST_WAIT = row("wait", semaphore=SEMAPHORE, value=LARGE)
IN_BUFFER = {"buffer": old("buffer"), "offset": LARGE}
DEFRAGMENTATION = old("defragmentation")
ENTRY = choice(
    "entry",
    memory={"id": new("memory object"), "memory type": MEMORY_TYPE, "size": LARGE},
    free={"memory object": old("memory object")},
    pool={
        **{"id": new("pool"), "kind": KIND, "memory type": MEMORY_TYPE},
        **{"bytes of a block": LARGE, "most blocks": SMALL},
    },
    drop_pool={"pool": old("pool")},
    buffer={
        **{"id": new("buffer"), "size": LARGE, "usage": Number(names=BUFFER_USAGE)},
        **{"sharing": SHARING, "place": PLACE},
    },
    image={
        **{"id": new("image"), "format": FORMAT, "width": SMALL, "height": SMALL},
        **{"mip levels": SMALL, "array layers": SMALL, "tiling": TILING},
        **{"usage": Number(names=IMAGE_USAGE), "sharing": SHARING, "place": PLACE},
    },
    destroy={"buffer or image": old("buffer or image")},
    semaphore={"id": new("semaphore"), "initial value": LARGE},
    event={"id": new("event")},
    submit={"queue": SMALL, "batches": BATCHES},
    signal={"semaphore": SEMAPHORE, "value": LARGE},
    wait={"semaphores": Many("semaphores", HOST_WAIT)},
    map={"buffer": old("buffer")},
    unmap={"buffer": old("buffer")},
    write={**IN_BUFFER, "bytes": BYTES},
    read={**IN_BUFFER, "size": LARGE},
    flush={**IN_BUFFER, "size": LENGTH},
    invalidate={**IN_BUFFER, "size": LENGTH},
    defrag={
        **{"id": new("defragmentation"), "pool": old("pool")},
        **{"most bytes of a pass": LARGE, "most moves of a pass": SMALL},
    },
    **{"pass": {"defragmentation": DEFRAGMENTATION}},
    end_pass={
        "defragmentation": DEFRAGMENTATION,
        "buffers and images that stay": Many("buffers and images that stay", old("buffer or image")),
        "buffers and images that are destroyed": Many(
            "buffers and images that are destroyed", old("buffer or image")
        ),
    },
    end_defrag={"defragmentation": DEFRAGMENTATION},
)
TRACE = Many("entries", ENTRY)
