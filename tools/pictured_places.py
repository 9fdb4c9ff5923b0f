"""Draws where resources lie as SVG: a row for each heap, block or memory object, a column for each state."""

from html import escape

from pictured import wrapped

LEFT, COLUMN, BETWEEN, MARGIN = 196, 300, 28, 24
HEAD, BAR, ROW, LINE = 72, 28, 62, 18
# The width of a character, and what a label leaves free at its sides.
CHARACTER, SIDES = 7.3, 8
# Rows that are drawn at most, and their kinds, from above.
MOST_ROWS = 60
HEAP, BLOCK, OBJECT = range(3)
STYLE = """
svg { font: 12px ui-monospace, Menlo, Consolas, monospace; background: #ffffff; }
text { fill: #1f2328; } .head { font-weight: bold; font-size: 14px; } .quiet { fill: #6e7781; } .middle { text-anchor: middle; }
.free { fill: url(#hatch); stroke: #8c959f; } #hatch rect { fill: #f6f8fa; } #hatch path { stroke: #d0d7de; }
.none { fill: none; stroke: #afb8c1; stroke-dasharray: 2 3; }
.lies { fill: #ddf4ff; stroke: #0969da; } .new { stroke-width: 3; }
.moves { fill: #fff8c5; stroke: #9a6700; } .reserved { fill: #dafbe1; stroke: #1a7f37; stroke-dasharray: 4 3; }
.go { fill: #ffebe9; stroke: #cf222e; stroke-width: 2; } .bad { fill: #cf222e; }
@media (prefers-color-scheme: dark) {
  svg { background: #0d1117; } text { fill: #e6edf3; } .quiet { fill: #8b949e; }
  .free { stroke: #6e7681; } #hatch rect { fill: #161b22; } #hatch path { stroke: #30363d; } .none { stroke: #484f58; }
  .lies { fill: #051d4d; stroke: #58a6ff; } .moves { fill: #3b2300; stroke: #d29922; }
  .reserved { fill: #04260f; stroke: #3fb950; } .go { fill: #490202; stroke: #f85149; } .bad { fill: #f85149; }
}
"""
HATCH = '<pattern id="hatch" width="8" height="8" patternUnits="userSpaceOnUse"><rect width="8" height="8"/><path d="M-2,10 L10,-2 M-2,2 L2,-2 M6,10 L10,6"/></pattern>'
MEANINGS = (
    ("lies", "lies there"),
    ("lies new", "is new there"),
    ("moves", "moves in the open pass"),
    ("reserved", "is reserved by the pass"),
    ("go", "would have to go"),
    ("free", "is free"),
)


def number(value):
    """A number with commas, as 4,096."""
    return f"{value:,}"


def heap_of(memory_type):
    """The heap of a memory type."""
    return 0 if memory_type == 0 else 1


def fits(words, width):
    """Whether a label fits into a part of this width."""
    return len(words) * CHARACTER + SIDES <= width


class Part:
    """A range of a bar: where it starts, its bytes, its class, its label where there is room, and its title."""

    def __init__(self, offset, size, kind, labels, title, key):
        self.offset, self.size, self.kind, self.labels, self.title, self.key = offset, size, kind, labels, title, key


class Bar:
    """A heap, a block or a memory object in a state: its bytes, what is taken of it, and a line below."""

    def __init__(self, size, parts, words):
        self.size, self.parts, self.words = size, parts, words


def owner_words(item):
    """Whose a memory object is, in words."""
    if "pool" in item:
        return f"block {item['block']} of pool {item['pool']}"
    return f"object of {item['id']}" if "id" in item else "object"


def heap_bar(state, heap, gone):
    """A heap, with its memory objects side by side in the order of their numbers."""
    parts, offset = [], 0
    for item in state["objects"]:
        if heap_of(item["type"]) == heap:
            words = owner_words(item)
            title = f"memory object {item['number']}, {words}: {number(item['size'])} bytes"
            kind = "go" if item["number"] in gone else "lies"
            parts.append(
                Part(offset, item["size"], kind, (words, str(item["number"])), title, ("heap", item["number"]))
            )
            offset += item["size"]
    use = state["heaps"][heap]
    return Bar(use["size"], parts, f"{number(use['used'])} of {number(use['size'])} in use")


def kind_of(item, gone):
    """The class of a range that is taken."""
    if item["id"] in gone:
        return "go"
    return "reserved" if item.get("reserved") else "moves" if item.get("moves") else "lies"


def block_bar(state, pool, block, gone):
    """A block of a pool."""
    kinds = {item["id"]: item["kind"] for item in state["resources"]}
    parts = []
    for item in block["taken"]:
        name = f"{kinds.get(item['id'], 'resource')} {item['id']}"
        where = "reserved for it" if item.get("reserved") else "its place"
        title = f"{name}: {number(item['size'])} bytes from {number(item['offset'])} on, {where}"
        key = (pool["id"], block["number"], item["id"], item["offset"])
        parts.append(
            Part(item["offset"], item["size"], kind_of(item, gone), (name, str(item["id"])), title, key)
        )
    used = sum(item["size"] for item in block["taken"])
    largest = max((item["size"] for item in block["free"]), default=0)
    words = f"{number(pool['block_size'] - used)} free, at most {number(largest)} at once" if largest else "full"
    return Bar(pool["block_size"], parts, words)


def object_bar(state, item):
    """A memory object that isn't a block, with what is bound to it."""
    parts = []
    for found in sorted(state["resources"], key=lambda r: r["offset"]):
        if found["object"] == item["number"]:
            name = f"{found['kind']} {found['id']}"
            title = f"{name}: {number(found['size'])} bytes from {number(found['offset'])} on"
            key = ("object", item["number"], found["id"])
            parts.append(Part(found["offset"], found["size"], "lies", (name, str(found["id"])), title, key))
    words = f"{number(item['size'])} bytes" + (", mapped" if item["mapped"] else "")
    return Bar(item["size"], parts, words)


def bars_of(state, gone, objects_gone):
    """The bars of a state, each by a key that has its place among all, with what is called so at the left."""
    bars = {}
    for heap in (0, 1):
        bars[(HEAP, heap, 0)] = ((f"heap {heap}", ""), heap_bar(state, heap, objects_gone))
    for pool in state["pools"]:
        for block in pool["blocks"]:
            names = (f"pool {pool['id']}, block {block['number']}", f"{pool['algorithm']}, {number(pool['block_size'])} bytes")
            bars[(BLOCK, pool["id"], block["number"])] = (names, block_bar(state, pool, block, gone))
    for item in state["objects"]:
        if "pool" not in item:
            names = (f"memory object {item['number']}", f"of {item.get('id', '?')}, type {item['type']}")
            bars[(OBJECT, item["number"], 0)] = (names, object_bar(state, item))
    return bars


class Drawing:
    """A picture of states, each with a title and a line below it, and of lines at the end."""

    def __init__(self):
        self.columns, self.parts, self.used, self.lines, self.asked = [], [], set(), [], None

    def add(self, title, words, state, gone=(), objects_gone=()):
        """Adds a column."""
        self.columns.append((title, words, bars_of(state, set(gone), set(objects_gone))))

    def ask(self, heap):
        """Draws a heap in any case."""
        self.asked = heap

    def say(self, kind, words):
        """Adds a line at the end."""
        self.lines.append((kind, words))

    def width(self):
        """How wide the picture is."""
        return max(LEFT + len(self.columns) * (COLUMN + BETWEEN), 640)

    def rect(self, kind, x, y, width, height, title=None):
        """A rectangle, with what shows where the mouse is."""
        shape = f'<rect class="{kind}" x="{x:.2f}" y="{y}" width="{width:.2f}" height="{height}"'
        self.parts.append(f"{shape}><title>{escape(title)}</title></rect>" if title else f"{shape}/>")

    def text(self, kind, x, y, words):
        """A line of text."""
        self.parts.append(f'<text class="{kind}" x="{x:.2f}" y="{y}">{escape(words)}</text>')

    def label(self, x, y, width, labels, kind="middle"):
        """The first label that fits."""
        for words in labels:
            if fits(words, width):
                self.text(kind, x + width / 2, y + BAR / 2 + 4, words)
                return

    def gap(self, x, y, scale, offset, end):
        """A free range, which is drawn as what is under the others."""
        if end > offset:
            self.used.add("free")
            width = (end - offset) * scale
            free = number(end - offset)
            self.rect("free", x + offset * scale, y, width, BAR, f"free: {free} bytes from {number(offset)} on")
            self.label(x + offset * scale, y, width, (f"{free} free", free), "quiet middle")

    def bar(self, x, y, bar, before):
        """A bar: free ranges first, and what is taken on top."""
        scale, end = COLUMN / bar.size, 0
        for part in bar.parts:
            self.gap(x, y, scale, end, part.offset)
            end = max(end, part.offset + part.size)
        self.gap(x, y, scale, end, bar.size)
        for part in bar.parts:
            is_new = before is not None and part.kind == "lies" and part.key not in before
            kind = "lies new" if is_new else part.kind
            self.used.add(kind)
            width = max(part.size * scale, 1)
            self.rect(kind, x + part.offset * scale, y, width, BAR, part.title)
            self.label(x + part.offset * scale, y, width, part.labels)
        self.text("quiet", x, y + BAR + 15, bar.words)

    def row(self, key, y):
        """A row: what it is, and its bar in each state that has it."""
        names = next(bars[key][0] for _, _, bars in self.columns if key in bars)
        self.text("", MARGIN, y + 13, names[0])
        self.text("quiet", MARGIN, y + 28, names[1])
        before = None
        for place, (_, _, bars) in enumerate(self.columns):
            x = LEFT + place * (COLUMN + BETWEEN)
            keys = set()
            if key in bars:
                self.bar(x, y, bars[key][1], before)
                keys = {part.key for part in bars[key][1].parts if part.kind != "reserved"}
            else:
                self.rect("none", x, y, COLUMN, BAR)
                self.label(x, y, COLUMN, ("not there",), "quiet middle")
            before = keys

    def legend(self, y):
        """What the classes mean that are used; answers where it ends."""
        x = MARGIN
        for kind, words in MEANINGS:
            if kind not in self.used:
                continue
            if x + 24 + len(words) * CHARACTER > self.width() - MARGIN:
                x, y = MARGIN, y + LINE + 4
            self.rect(kind, x, y - 11, 18, 13)
            self.text("quiet", x + 25, y, words)
            x += 25 + len(words) * CHARACTER + 22
        return y + LINE

    def is_drawn(self, key):
        """Whether a row is drawn: of a heap where something lies in it in one of the states, or it is asked."""
        kind, heap, _ = key
        return kind != HEAP or heap == self.asked or any(bars[key][1].parts for _, _, bars in self.columns)

    def draw(self):
        """All rows and what stands below; answers where it ends."""
        for place, (title, words, _) in enumerate(self.columns):
            x = LEFT + place * (COLUMN + BETWEEN)
            self.text("head", x, 34, title)
            self.text("quiet", x, 53, words)
        keys = sorted(key for key in {key for _, _, bars in self.columns for key in bars} if self.is_drawn(key))
        y = HEAD
        for key in keys[:MOST_ROWS]:
            self.row(key, y)
            y += ROW
        if len(keys) > MOST_ROWS:
            self.text("quiet", MARGIN, y + 10, f"… {len(keys) - MOST_ROWS} more")
            y += LINE
        y = self.legend(y + 14) + (8 if self.lines else 0)
        for kind, words in self.lines:
            for line in wrapped(words, int((self.width() - 2 * MARGIN) / CHARACTER)):
                self.text(kind, MARGIN, y, line)
                y += LINE
        return y

    def svg(self):
        """The picture."""
        height, width = self.draw() + 6, self.width()
        begin = f'<svg xmlns="http://www.w3.org/2000/svg" width="{width}" height="{height}" viewBox="0 0 {width} {height}">'
        body = "\n".join(self.parts)
        return f"{begin}\n<style>{STYLE}</style>\n<defs>{HATCH}</defs>\n{body}\n</svg>\n"
