"""Draws points of a trace as SVG: a lane for the host and one for each queue, time downward.

docs/page/picture.js does the same in a browser, and tests/people_picture.py compares the two.
"""

import re
from html import escape
from typing import NamedTuple, Optional

from pictured_edits import Edited
from pictured_points import points_of

HEAD, GAP, LEFT, BETWEEN = 54, 26, 24, 36
# Pixels of a line of a box, of what a box has beyond its lines, and between two boxes.
LINE, EDGE, SPACE = 15, 7, 8
# Characters of a line of a box, lines that a box has at most, and pixels of a character below the lanes.
FIT, MOST_LINES, CHARACTER = 41, 12, 8
# Points of a picture of a whole trace, and points that order others between two that are named.
MOST_POINTS = 400
# Rows that are kept around a point that is named.
AROUND = 3
# Points that a text names: parts of batches, and entries.
NAMED = re.compile(r"\b[0-9]+\.[0-9]+\.[ws]?[0-9]+\b|(?<=\bentry )[0-9]+\b")
# What orders others, which is kept between two points that are named.
ORDERING = ("barrier", "set", "await", "wait", "signal", "submit")
HEADS = {"flow": "tip", "wait": "tip-wait", "missing": "tip-missing"}
STYLE = """
svg { font: 12px ui-monospace, Menlo, Consolas, monospace; background: #ffffff; }
text { fill: #1f2328; } .lane { font-weight: bold; font-size: 14px; } .quiet { fill: #656d76; }
.box { fill: #f6f8fa; stroke: #d0d7de; } .batch { fill: none; stroke: #afb8c1; stroke-dasharray: 2 3; }
.refused { fill: #ffebe9; stroke: #cf222e; stroke-width: 2; } .earlier { fill: #fff8c5; stroke: #9a6700; stroke-width: 2; }
.link { fill: #ddf4ff; stroke: #0969da; stroke-width: 2; } .repair { fill: #dafbe1; stroke: #1a7f37; stroke-dasharray: 5 3; stroke-width: 1.5; }
.flow { fill: none; stroke: #8c959f; } .wait { fill: none; stroke: #0969da; } .missing { fill: none; stroke: #cf222e; stroke-width: 2; stroke-dasharray: 7 4; }
.bad { fill: #cf222e; } .good { fill: #1a7f37; } #tip path { fill: #8c959f; } #tip-wait path { fill: #0969da; } #tip-missing path { fill: #cf222e; }
@media (prefers-color-scheme: dark) {
  svg { background: #0d1117; } text { fill: #e6edf3; } .quiet { fill: #8b949e; }
  .box { fill: #161b22; stroke: #30363d; } .batch { stroke: #484f58; }
  .refused { fill: #490202; stroke: #f85149; } .earlier { fill: #3b2300; stroke: #d29922; }
  .link { fill: #051d4d; stroke: #58a6ff; } .repair { fill: #04260f; stroke: #3fb950; }
  .flow { stroke: #6e7681; } .wait { stroke: #58a6ff; } .missing { stroke: #f85149; } .bad { fill: #f85149; } .good { fill: #3fb950; }
  #tip path { fill: #6e7681; } #tip-wait path { fill: #58a6ff; } #tip-missing path { fill: #f85149; }
}
"""


def wrapped(text, fit):
    """The lines of a text, none longer than what fits. A word that is longer is broken behind a mark, if it has one."""
    lines = [""]
    for word in text.split(" "):
        if lines[-1] and len(lines[-1]) + 1 + len(word) > fit:
            lines.append("")
        lines[-1] = f"{lines[-1]} {word}" if lines[-1] else word
        while len(lines[-1]) > fit:
            end = max(lines[-1].rfind(mark, 0, fit) for mark in "|:,") + 1 or fit
            lines[-1:] = [lines[-1][:end], lines[-1][end:]]
    return lines


def lane_width(fit):
    """The pixels of a box in which so many characters fit in a line."""
    return 74 * fit // 10 + 17


def boxed(text, fit):
    """The lines of a text in a box; of one that is too long how many lines more there are."""
    lines = wrapped(text, fit)
    if len(lines) <= MOST_LINES:
        return lines
    return [*lines[: MOST_LINES - 1], f"… {len(lines) - MOST_LINES + 1} more lines"]


def tip(name):
    """The head of an arrow."""
    head = f'<marker id="{name}" viewBox="0 0 8 8" refX="8" refY="4" markerWidth="9" markerHeight="9" markerUnits="userSpaceOnUse" orient="auto">'
    return f'{head}<path d="M0,0 L8,4 L0,8 z"/></marker>'


def named_in(texts):
    """The points that texts name, each once."""
    return list(dict.fromkeys(name for text in texts if text for name in NAMED.findall(text)))


class Shown(NamedTuple):
    """Where a point is drawn: its lane, where its box begins, and where what belongs to it begins and ends."""

    lane: Optional[int]
    y: int
    top: int
    end: int


class Drawing:
    """A picture of a trace, by what `explain --json` said of it, with so many characters in a line of a box."""

    def __init__(self, trace, said, fit=FIT):
        self.fit = fit
        self.lane_width = lane_width(fit)
        self.points = points_of(trace)
        self.said = said
        self.at = said.get("at")
        self.places = {point.name: k for k, point in enumerate(self.points)}
        self.facts = [said.get("fact"), said.get("links"), *said.get("cause", ()), said.get("state")]
        named = [name for name in named_in(self.facts) if name != self.at and name in self.places]
        is_hazard = said.get("rule", "").startswith("HAZARD")
        self.earlier = named[:1] if is_hazard else []
        self.links = named[1:] if is_hazard else named
        self.before, self.behind = self.edits(trace)
        self.lanes = [None, *sorted({point.lane for point in self.points if point.lane is not None})]
        self.rows = {}
        self.boxes = []
        self.arrows = []

    def edits(self, trace):
        """The edits of the repair: those that are shown before a point and those behind one, by its name."""
        edited, before, behind = Edited(trace), {}, {}
        for edit in (self.said.get("repair") or {}).get("edits", ()):
            name, is_before = edited.anchor(edit)
            # (a batch that isn't started has no points)
            if name not in self.places:
                name, is_before = name.split(".")[0], False
            (before if is_before else behind).setdefault(name, []).append(edit["edit"])
        return before, behind

    # ---- which points are drawn

    def kept(self, whole):
        """The places of the points that are drawn: all, or those around what is named and what may order them."""
        if whole:
            return list(range(len(self.points)))
        named = [self.places[name] for name in (self.at, *self.earlier, *self.links)]
        changed = [self.places[name] for name in (*self.before, *self.behind)]
        low, high = min(named), max(named)
        near = {k for at in named for k in range(at - AROUND, at + AROUND + 1)}
        near |= {k for at in changed for k in (at - 1, at, at + 1)}
        between = [k for k in range(low, high + 1) if self.points[k].kind in ORDERING]
        near |= set(between if len(between) <= MOST_POINTS else [])
        return sorted(k for k in near if 0 <= k < len(self.points))

    # ---- boxes

    def x(self, lane):
        """Where a lane begins."""
        return LEFT + self.lanes.index(lane) * (self.lane_width + BETWEEN)

    def box(self, lane, y, kind, words):
        """A box with its words; answers where the next one begins."""
        x, lines = self.x(lane), boxed(words, self.fit)
        height = EDGE + LINE * len(lines)
        rows = "".join(
            f'<text x="{x + 8}" y="{y + LINE * (k + 1)}">{escape(line)}</text>' for k, line in enumerate(lines)
        )
        self.boxes.append(
            f'<g><title>{escape(words)}</title><rect class="{kind}" x="{x}" y="{y}" width="{self.lane_width}" height="{height}" rx="4"/>{rows}</g>'
        )
        return y + height + SPACE

    def kind_of(self, point):
        """The class of a point's box."""
        if point.name == self.at:
            return "refused"
        if point.name in self.earlier:
            return "earlier"
        return "link" if point.name in self.links else "box"

    def draw_points(self, places):
        """The rows; answers where the last one ends."""
        y, last = HEAD, -1
        for k in places:
            point = self.points[k]
            if k > last + 1:
                self.boxes.append(f'<text class="quiet" x="{LEFT}" y="{y + 14}">… {k - last - 1} more</text>')
                y += GAP
            top, last = y, k
            for words in self.before.get(point.name, ()):
                y = self.box(point.lane, y, "repair", words)
            end = self.box(point.lane, y, self.kind_of(point), f"{point.name}  {point.words}")
            for words in self.behind.get(point.name, ()):
                end = self.box(point.lane, end, "repair", words)
            self.rows[point.name] = Shown(point.lane, y, top, end - SPACE)
            y = end
        left = len(self.points) - 1 - last
        if left:
            self.boxes.append(f'<text class="quiet" x="{LEFT}" y="{y + 14}">… {left} more</text>')
            y += GAP
        return y

    # ---- frames and arrows, below the boxes

    def arrow(self, kind, one, other):
        """A curve from one row to another, at the sides of their boxes that face each other."""
        y, end, wide = one.y, other.y, self.lane_width
        x, goal = self.x(one.lane), self.x(other.lane)
        if x == goal:
            side, bend = x + wide, x + wide + 24
            path = f"M{side},{y + 11} C{bend},{y + 11} {bend},{end + 11} {side + 2},{end + 11}"
        else:
            start, stop = (x + wide, goal - 2) if x < goal else (x, goal + wide + 2)
            middle = (start + stop) // 2
            path = f"M{start},{y + 11} C{middle},{y + 11} {middle},{end + 11} {stop},{end + 11}"
        self.arrows.append(f'<path class="{kind}" d="{path}" marker-end="url(#{HEADS[kind]})"/>')

    def draw_batches(self):
        """A frame around the points of each batch, and an arrow from its submit."""
        for batch in dict.fromkeys(point.batch for point in self.points if point.batch):
            rows = [self.rows[p.name] for p in self.points if p.batch == batch and p.name in self.rows]
            if not rows:
                continue
            x, top, height = self.x(rows[0].lane) - 6, rows[0].top - 5, rows[-1].end - rows[0].top + 10
            self.arrows.append(
                f'<rect class="batch" x="{x}" y="{top}" width="{self.lane_width + 12}" height="{height}" rx="6"/>'
            )
            submit = self.rows.get(str(batch[0]))
            if submit:
                self.arrow("flow", submit, rows[0])

    def draw_signals(self):
        """From signals to what waits for them."""
        signaled = {}
        for point in self.points:
            here = self.rows.get(point.name)
            for semaphore, value in point.waits:
                values = [v for s, v in signaled if s == semaphore and v >= value]
                row = signaled[semaphore, min(values)] if values else None
                if here and row:
                    self.arrow("wait", row, here)
            for pair in point.signals:
                signaled[pair] = here

    # ---- the words below

    def lines(self):
        """What is said below the lanes: each line with its class."""
        if self.at is None:
            return []
        said = self.said
        lines = [("bad", f"refused {self.at} {said['rule']}: {said['sentence']}")]
        either = said.get("either_way")
        texts = [*self.facts, said.get("measure"), f"either way: {either}" if either else None]
        lines += [("quiet", text) for text in texts if text]
        repair = said.get("repair")
        if repair:
            ways = (", weaker" if repair["weaker"] else "") + (", with what stands in" if repair["stands_in"] else "")
            lines.append(("good", f"repair: then {repair['then']}{ways}"))
        return lines

    def draw_lines(self, y):
        """The words below; answers where they end."""
        for kind, words in self.lines():
            for line in wrapped(words, self.width() // CHARACTER):
                y += 18
                self.boxes.append(f'<text class="{kind}" x="{LEFT}" y="{y}">{escape(line)}</text>')
        return y

    def width(self):
        """How wide the picture is."""
        return LEFT + max(2, len(self.lanes)) * (self.lane_width + BETWEEN)

    def svg(self, whole):
        """The picture: of the whole trace, or of what lies around the refused point, if there is one."""
        for lane in self.lanes:
            name = "host" if lane is None else f"queue {lane}"
            self.boxes.append(f'<text class="lane" x="{self.x(lane)}" y="30">{name}</text>')
        end = self.draw_points(self.kept(whole or self.at is None))
        self.draw_batches()
        self.draw_signals()
        if self.earlier and self.earlier[0] in self.rows:
            self.arrow("missing", self.rows[self.earlier[0]], self.rows[self.at])
        width, height = self.width(), self.draw_lines(end + 6) + 24
        heads = "".join(tip(name) for name in HEADS.values())
        body = "\n".join([*self.arrows, *self.boxes])
        begin = f'<svg xmlns="http://www.w3.org/2000/svg" width="{width}" height="{height}" viewBox="0 0 {width} {height}">'
        return f"{begin}\n<style>{STYLE}</style>\n<defs>{heads}</defs>\n{body}\n</svg>\n"
