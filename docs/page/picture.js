"use strict";
// Draws points of a trace as SVG: a lane for the host and one for each queue, time downward. This is what
// tools/pictured.py, pictured_points.py and pictured_edits.py do, and the tests compare the two.

const HEAD = 54, GAP = 26, LEFT = 24, BETWEEN = 36, LINE = 15, EDGE = 7, SPACE = 8;
const FIT = 41, LEAST_FIT = 24, MOST_LINES = 12, CHARACTER = 8, MOST_POINTS = 400, AROUND = 3;
const NAMED = /\b[0-9]+\.[0-9]+\.[ws]?[0-9]+\b|(?<=\bentry )[0-9]+\b/g;
const ORDERING = ["barrier", "set", "await", "wait", "signal", "submit"];
const HEADS = { flow: "tip", wait: "tip-wait", missing: "tip-missing" };
const STYLE = `
svg { font: 12px ui-monospace, Menlo, Consolas, monospace; background: #ffffff; }
text { fill: #1f2328; } .lane { font-weight: bold; font-size: 14px; } .quiet { fill: #656d76; }
.box { fill: #f6f8fa; stroke: #d0d7de; } .batch { fill: none; stroke: #afb8c1; stroke-dasharray: 2 3; }
.refused { fill: #ffebe9; stroke: #cf222e; stroke-width: 2; } .earlier { fill: #fff8c5; stroke: #9a6700; stroke-width: 2; }
.link { fill: #ddf4ff; stroke: #0969da; stroke-width: 2; } .repair { fill: #dafbe1; stroke: #1a7f37; stroke-dasharray: 5 3; stroke-width: 1.5; }
.flow { fill: none; stroke: #8c959f; } .wait { fill: none; stroke: #0969da; } .missing { fill: none; stroke: #cf222e; stroke-width: 2; stroke-dasharray: 7 4; }
.bad { fill: #cf222e; } .good { fill: #1a7f37; } #tip path { fill: #8c959f; } #tip-wait path { fill: #0969da; } #tip-missing path { fill: #cf222e; }
@media (prefers-color-scheme: dark) {
  svg { background: #0d1117; } text { fill: #e6edf3; } .quiet { fill: #8b949e; }
  .box { fill: #161b22; stroke: #30363d; } .batch { stroke: #484f58; }
  .refused { fill: #490202; stroke: #f85149; } .earlier { fill: #3b2300; stroke: #d29922; }
  .link { fill: #051d4d; stroke: #58a6ff; } .repair { fill: #04260f; stroke: #3fb950; }
  .flow { stroke: #6e7681; } .wait { stroke: #58a6ff; } .missing { stroke: #f85149; } .bad { fill: #f85149; } .good { fill: #3fb950; }
  #tip path { fill: #6e7681; } #tip-wait path { fill: #58a6ff; } #tip-missing path { fill: #f85149; }
}
`;

// ---- words

const STAGES = { TRANSFER: 4096, HOST: 16384, ALL_COMMANDS: 65536 };
const ACCESSES = {
  TRANSFER_READ: 2048, TRANSFER_WRITE: 4096, HOST_READ: 8192, HOST_WRITE: 16384, MEMORY_READ: 32768, MEMORY_WRITE: 65536,
};
const LAYOUTS = { 0: "UNDEFINED", 1: "GENERAL", 6: "TRANSFER_SRC_OPTIMAL", 7: "TRANSFER_DST_OPTIMAL" };

// A mask by the names of its bits; in hex where a bit has none.
function maskWords(mask, bits) {
  if (mask === 0) return "NONE";
  const found = Object.keys(bits).filter((name) => mask & bits[name]);
  const sum = found.reduce((all, name) => all + bits[name], 0);
  return sum === mask ? found.join("|") : `0x${mask.toString(16)}`;
}

function scopeWords(stages, accesses) {
  const named = maskWords(stages, STAGES);
  return accesses ? `${named}:${maskWords(accesses, ACCESSES)}` : named;
}

const layoutWords = (layout) => LAYOUTS[layout] || layout;

function elementWords(row) {
  let words = `${scopeWords(row[0], row[1])} → ${scopeWords(row[2], row[3])}`;
  if (row.length === 9) words += `, buffer ${row[6]}`;
  if (row.length === 10) {
    words += `, image ${row[6]}`;
    if (row[7] !== row[8]) words += ` ${layoutWords(row[7])} → ${layoutWords(row[8])}`;
  }
  if (row.length > 4 && row[4] !== row[5]) words += `, family ${row[4]} → ${row[5]}`;
  return words;
}

function spanWords(offset, size) {
  return size === "whole" ? `[${offset}, end)` : `[${offset}, ${BigInt(offset) + BigInt(size)})`;
}

function commandWords([word, ...rest]) {
  switch (word) {
    case "fill": return `fill buffer ${rest[0]} ${spanWords(rest[1], rest[2])}`;
    case "update": return `update buffer ${rest[0]} ${spanWords(rest[1], rest[2].length / 2)}`;
    case "copy": return `copy buffer ${rest[0]} → buffer ${rest[1]}`;
    case "clear": return `clear image ${rest[0]}`;
    case "copy_in": return `copy_in buffer ${rest[0]} → image ${rest[1]}`;
    case "copy_out": return `copy_out image ${rest[0]} → buffer ${rest[2]}`;
    case "copy_image": return `copy_image image ${rest[0]} → image ${rest[2]}`;
    case "barrier": return `barrier ${rest.flat().map(elementWords).join("; ")}`;
    default: return `${word} event ${rest[0]} ${rest[1].map(elementWords).join("; ")}`;
  }
}

const OF = { map: "buffer ", unmap: "buffer ", free: "memory ", drop_pool: "pool " };

function entryWords(entry) {
  const [word, ...rest] = entry;
  switch (word) {
    case "buffer": return `buffer ${rest[0]}, ${rest[1]} bytes`;
    case "image": return `image ${rest[0]}, ${rest[1]} ${rest[2]} × ${rest[3]}`;
    case "submit": return `submit to queue ${rest[0]}`;
    case "wait": return `wait ${rest[0].map(([semaphore, value]) => `semaphore ${semaphore} ≥ ${value}`).join(", ")}`;
    case "signal": return `signal semaphore ${rest[0]} = ${rest[1]}`;
    case "write": return `write buffer ${rest[0]} ${spanWords(rest[1], rest[2].length / 2)}`;
    case "read": case "flush": case "invalidate": return `${word} buffer ${rest[0]} ${spanWords(rest[1], rest[2])}`;
    case "map": case "unmap": case "destroy": case "semaphore": case "event": case "free": case "drop_pool":
      return `${word} ${OF[word] || ""}${rest[0]}`;
    default: return entry.filter((part) => !Array.isArray(part)).join(" ");
  }
}

// ---- points

// A trace from its text, with numbers that JSON.parse would round as large ones.
function traceOf(text) {
  const kept = text.replace(/"[^"]*"|\d{16,}/g, (part) => (part[0] === '"' ? part : `"#${part}"`));
  return JSON.parse(kept, (_, value) => (typeof value === "string" && value[0] === "#" ? BigInt(value.slice(1)) : value));
}

// The points of a trace in the order in which they are judged.
function pointsOf(trace) {
  const points = [], waiting = [], values = new Map();
  const add = (name, lane, words, kind, batch, signals, waits) => {
    points.push({ name, lane, words, kind, batch, signals, waits });
  };
  const start = ({ queue, place, batch }) => {
    const prefix = `${place}.`;
    batch[0].forEach(([semaphore, value, stages], k) => {
      const words = `wait semaphore ${semaphore} ≥ ${value} (${scopeWords(stages, 0)})`;
      add(`${prefix}w${k}`, queue, words, "wait", place, [], [[semaphore, value]]);
    });
    batch[1].forEach((command, k) => add(`${prefix}${k}`, queue, commandWords(command), command[0], place, [], []));
    batch[2].forEach(([semaphore, value, stages], k) => {
      const words = `signal semaphore ${semaphore} = ${value} (${scopeWords(stages, 0)})`;
      add(`${prefix}s${k}`, queue, words, "signal", place, [[semaphore, value]], []);
      values.set(semaphore, value);
    });
  };
  const startOne = () => {
    const blocked = new Set();
    for (const [at, each] of waiting.entries()) {
      const isMet = each.batch[0].every(([semaphore, value]) => values.has(semaphore) && values.get(semaphore) >= value);
      if (isMet && !blocked.has(each.queue)) {
        waiting.splice(at, 1);
        start(each);
        return true;
      }
      blocked.add(each.queue);
    }
    return false;
  };
  trace.forEach((entry, number) => {
    const word = entry[0];
    const waits = word === "wait" ? entry[1] : [];
    add(String(number), null, entryWords(entry), word, null, word === "signal" ? [[entry[1], entry[2]]] : [], waits);
    if (word === "semaphore" || word === "signal") values.set(entry[1], entry[2]);
    if (word === "submit") {
      entry[2].forEach((batch, k) => waiting.push({ queue: entry[1], place: `${number}.${k}`, batch }));
    }
    while (startOne());
  });
  return points;
}

// ---- edits

// The names of a trace's points, by entries and batches, as the edits so far have left them.
class Edited {
  constructor(trace) {
    this.entries = trace.map((entry, number) => {
      const batches = (entry[0] === "submit" ? entry[2] : []).map((batch, at) =>
        ["w", "", "s"].map((letter, part) => batch[part].map((_, k) => `${number}.${at}.${letter}${k}`)),
      );
      return { name: String(number), batches };
    });
  }

  // Makes an edit. Answers a point, and whether the edit is shown before it, or else behind it.
  anchor({ op, path }) {
    const places = path.split("/").slice(1).map(Number);
    if (places.length === 1) {
      const found = beside(this.entries.map((entry) => entry.name), op, places[0]);
      change(this.entries, op, places[0], { name: null, batches: [] });
      return found;
    }
    const { name, batches } = this.entries[places[0]];
    if (places.length !== 5 || places[2] >= batches.length) return [name, false];
    const batch = batches[places[2]];
    const found = beside(batch[places[3]], op, places[4]) || atEnd(batch, places[3]) || [name, false];
    change(batch[places[3]], op, places[4], null);
    return found;
  }
}

function change(names, way, place, added) {
  if (way === "add") names.splice(place, 0, added);
  else if (way === "remove") names.splice(place, 1);
}

// The first of some names behind a place, or else the last one before it.
function nearest(behind, before) {
  const next = behind.find((name) => name), last = before.filter((name) => name).pop();
  if (next) return [next, true];
  return last ? [last, false] : null;
}

function beside(names, way, place) {
  if (way !== "add" && names[place]) return [names[place], false];
  return nearest(names.slice(place), names.slice(0, place));
}

const atEnd = (batch, part) => nearest(batch.slice(part + 1).flat(), batch.slice(0, part).flat());

// ---- the picture

// The lines of a text, none longer than what fits.
function wrapped(text, fit) {
  const lines = [""];
  for (const word of text.split(" ")) {
    const last = lines[lines.length - 1];
    if (last && last.length + 1 + word.length > fit) lines.push("");
    lines.push(((line) => (line ? `${line} ${word}` : word))(lines.pop()));
    while (lines[lines.length - 1].length > fit) {
      const long = lines.pop();
      const end = Math.max(...["|", ":", ","].map((mark) => long.lastIndexOf(mark, fit - 1))) + 1 || fit;
      lines.push(long.slice(0, end), long.slice(end));
    }
  }
  return lines;
}

// The pixels of a box in which so many characters fit in a line.
const laneWidth = (fit) => Math.floor((74 * fit) / 10) + 17;

function boxed(text, fit) {
  const lines = wrapped(text, fit);
  if (lines.length <= MOST_LINES) return lines;
  return [...lines.slice(0, MOST_LINES - 1), `… ${lines.length - MOST_LINES + 1} more lines`];
}

const ESCAPED = { "&": "&amp;", "<": "&lt;", ">": "&gt;", '"': "&quot;", "'": "&#x27;" };
const escaped = (text) => text.replace(/[&<>"']/g, (letter) => ESCAPED[letter]);

function tip(name) {
  const head = `<marker id="${name}" viewBox="0 0 8 8" refX="8" refY="4" markerWidth="9" markerHeight="9" markerUnits="userSpaceOnUse" orient="auto">`;
  return `${head}<path d="M0,0 L8,4 L0,8 z"/></marker>`;
}

// A picture of a trace, by what explain says of it as an object, for some pixels of room.
class Drawing {
  constructor(trace, said, room) {
    this.points = pointsOf(trace);
    this.said = said;
    this.at = said.at || null;
    this.places = new Map(this.points.map((point, k) => [point.name, k]));
    this.facts = [said.fact, said.links, ...(said.cause || []), said.state].filter((text) => text);
    const names = new Set(this.facts.flatMap((text) => text.match(NAMED) || []));
    const named = [...names].filter((name) => name !== this.at && this.places.has(name));
    const isHazard = (said.rule || "").startsWith("HAZARD");
    this.earlier = isHazard ? named.slice(0, 1) : [];
    this.links = isHazard ? named.slice(1) : named;
    this.before = new Map();
    this.behind = new Map();
    this.takeEdits(trace);
    const queues = new Set(this.points.map((point) => point.lane).filter((lane) => lane !== null));
    this.lanes = [null, ...[...queues].sort((one, other) => one - other)];
    this.rows = new Map();
    this.boxes = [];
    this.arrows = [];
    this.fit = FIT;
    // As many characters in a line as there is room for, where that is known.
    while (room && this.fit > LEAST_FIT && this.width() > room) this.fit -= 1;
  }

  takeEdits(trace) {
    const edited = new Edited(trace);
    for (const edit of this.said.repair ? this.said.repair.edits : []) {
      let [name, isBefore] = edited.anchor(edit);
      if (!this.places.has(name)) [name, isBefore] = [name.split(".")[0], false];
      const side = isBefore ? this.before : this.behind;
      side.set(name, [...(side.get(name) || []), edit.edit]);
    }
  }

  // The places of the points that are drawn: all, or those around what is named and what may order them.
  kept(isWhole) {
    if (isWhole) return this.points.map((_, k) => k);
    const placesOf = (names) => [...names].map((name) => this.places.get(name));
    const named = placesOf([this.at, ...this.earlier, ...this.links]);
    const near = new Set();
    for (const at of named) for (let k = at - AROUND; k <= at + AROUND; k++) near.add(k);
    for (const at of placesOf([...this.before.keys(), ...this.behind.keys()])) [at - 1, at, at + 1].forEach((k) => near.add(k));
    const between = [];
    for (let k = Math.min(...named); k <= Math.max(...named); k++) {
      if (ORDERING.includes(this.points[k].kind)) between.push(k);
    }
    if (between.length <= MOST_POINTS) between.forEach((k) => near.add(k));
    return [...near].filter((k) => 0 <= k && k < this.points.length).sort((one, other) => one - other);
  }

  x(lane) {
    return LEFT + this.lanes.indexOf(lane) * (laneWidth(this.fit) + BETWEEN);
  }

  // A box with its words; answers where the next one begins.
  box(lane, y, kind, words) {
    const x = this.x(lane), lines = boxed(words, this.fit), height = EDGE + LINE * lines.length;
    const rows = lines.map((line, k) => `<text x="${x + 8}" y="${y + LINE * (k + 1)}">${escaped(line)}</text>`).join("");
    this.boxes.push(
      `<g><title>${escaped(words)}</title><rect class="${kind}" x="${x}" y="${y}" width="${laneWidth(this.fit)}" height="${height}" rx="4"/>${rows}</g>`,
    );
    return y + height + SPACE;
  }

  kindOf(point) {
    if (point.name === this.at) return "refused";
    if (this.earlier.includes(point.name)) return "earlier";
    return this.links.includes(point.name) ? "link" : "box";
  }

  more(count, y) {
    this.boxes.push(`<text class="quiet" x="${LEFT}" y="${y + 14}">… ${count} more</text>`);
    return y + GAP;
  }

  drawPoints(places) {
    let y = HEAD, last = -1;
    for (const k of places) {
      const point = this.points[k];
      if (k > last + 1) y = this.more(k - last - 1, y);
      const top = y;
      for (const words of this.before.get(point.name) || []) y = this.box(point.lane, y, "repair", words);
      let end = this.box(point.lane, y, this.kindOf(point), `${point.name}  ${point.words}`);
      for (const words of this.behind.get(point.name) || []) end = this.box(point.lane, end, "repair", words);
      this.rows.set(point.name, { lane: point.lane, y, top, end: end - SPACE });
      [y, last] = [end, k];
    }
    const left = this.points.length - 1 - last;
    return left ? this.more(left, y) : y;
  }

  // A curve from one row to another, at the sides of their boxes that face each other.
  arrow(kind, one, other) {
    const y = one.y + 11, end = other.y + 11, x = this.x(one.lane), goal = this.x(other.lane), wide = laneWidth(this.fit);
    let path;
    if (x === goal) {
      const side = x + wide, bend = x + wide + 24;
      path = `M${side},${y} C${bend},${y} ${bend},${end} ${side + 2},${end}`;
    } else {
      const [start, stop] = x < goal ? [x + wide, goal - 2] : [x, goal + wide + 2];
      const middle = Math.floor((start + stop) / 2);
      path = `M${start},${y} C${middle},${y} ${middle},${end} ${stop},${end}`;
    }
    this.arrows.push(`<path class="${kind}" d="${path}" marker-end="url(#${HEADS[kind]})"/>`);
  }

  drawBatches() {
    for (const batch of new Set(this.points.map((point) => point.batch).filter((each) => each))) {
      const own = this.points.filter((point) => point.batch === batch && this.rows.has(point.name));
      const rows = own.map((point) => this.rows.get(point.name));
      if (!rows.length) continue;
      const x = this.x(rows[0].lane) - 6, top = rows[0].top - 5, height = rows[rows.length - 1].end - rows[0].top + 10;
      this.arrows.push(`<rect class="batch" x="${x}" y="${top}" width="${laneWidth(this.fit) + 12}" height="${height}" rx="6"/>`);
      const submit = this.rows.get(batch.split(".")[0]);
      if (submit) this.arrow("flow", submit, rows[0]);
    }
  }

  drawSignals() {
    const signaled = [];
    for (const point of this.points) {
      const here = this.rows.get(point.name);
      for (const [semaphore, value] of point.waits) {
        const found = signaled.filter((each) => each.semaphore === semaphore && each.value >= value);
        const least = found.reduce((best, each) => (best && best.value < each.value ? best : each), null);
        if (here && least && least.row) this.arrow("wait", least.row, here);
      }
      for (const [semaphore, value] of point.signals) signaled.push({ semaphore, value, row: here });
    }
  }

  lines() {
    if (this.at === null) return [];
    const { rule, sentence, measure, either_way: either, repair } = this.said;
    const texts = [...this.facts, measure, either ? `either way: ${either}` : null].filter((text) => text);
    const lines = [["bad", `refused ${this.at} ${rule}: ${sentence}`], ...texts.map((text) => ["quiet", text])];
    if (repair) {
      const ways = (repair.weaker ? ", weaker" : "") + (repair.stands_in ? ", with what stands in" : "");
      lines.push(["good", `repair: then ${repair.then}${ways}`]);
    }
    return lines;
  }

  width() {
    return LEFT + Math.max(2, this.lanes.length) * (laneWidth(this.fit) + BETWEEN);
  }

  svg(isWhole) {
    for (const lane of this.lanes) {
      const name = lane === null ? "host" : `queue ${lane}`;
      this.boxes.push(`<text class="lane" x="${this.x(lane)}" y="30">${name}</text>`);
    }
    let end = this.drawPoints(this.kept(isWhole || this.at === null)) + 6;
    this.drawBatches();
    this.drawSignals();
    const earlier = this.rows.get(this.earlier[0]);
    if (earlier) this.arrow("missing", earlier, this.rows.get(this.at));
    for (const [kind, words] of this.lines()) {
      for (const line of wrapped(words, Math.floor(this.width() / CHARACTER))) {
        end += 18;
        this.boxes.push(`<text class="${kind}" x="${LEFT}" y="${end}">${escaped(line)}</text>`);
      }
    }
    const width = this.width(), height = end + 24, heads = Object.values(HEADS).map(tip).join("");
    const begin = `<svg xmlns="http://www.w3.org/2000/svg" width="${width}" height="${height}" viewBox="0 0 ${width} ${height}">`;
    return `${begin}\n<style>${STYLE}</style>\n<defs>${heads}</defs>\n${[...this.arrows, ...this.boxes].join("\n")}\n</svg>\n`;
  }
}

// The picture of a trace, whole or around the refused point; none where a whole one has too many points.
function pictured(text, said, isWhole = false, room = 0) {
  const drawing = new Drawing(traceOf(text), said, room);
  if ((isWhole || drawing.at === null) && drawing.points.length > MOST_POINTS) return null;
  return drawing.svg(isWhole);
}

if (typeof module !== "undefined") module.exports = { pictured };
