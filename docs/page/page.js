"use strict";
// What is seen: the list of examples, the trace with the numbers of its lines, and what is said of it.

const get = (id) => document.getElementById(id);
const DELAY = 250; // milliseconds from the last change of the trace to its verdict
const EXAMPLES = JSON.parse(get("examples").textContent);
const FIRST = "missing_dependency";
const LEAST_SCALE = 0.78; // of a picture
let library = null;
let said = null; // what explain says of the trace, as an object
let waiting = 0;

// An element with a text.
function made(tag, text, more = {}) {
  return Object.assign(document.createElement(tag), { textContent: text }, more);
}

// Shows lines as they are indented, and breaks those that are too long.
function show(lines, at) {
  const all = made("div", "", { className: "lines" });
  for (const line of lines) {
    const text = line.trimStart();
    const row = made("div", text);
    row.style.setProperty("--deep", (line.length - text.length) / 2);
    all.append(row);
  }
  at.replaceChildren(...(lines.length ? [all] : []));
}

// Numbers the lines of the trace, and marks the one with the point.
function number(here) {
  const count = get("trace").value.split("\n").length;
  const rows = Array.from({ length: count }, (_, at) => made("span", String(at + 1)));
  if (here && rows[here - 1]) rows[here - 1].className = "here";
  get("numbers").replaceChildren(...rows);
  get("numbers").scrollTop = get("trace").scrollTop;
}

// Puts the cursor where the point begins, and brings its line into sight.
function goTo(line, column) {
  const area = get("trace");
  const before = area.value.split("\n").slice(0, line - 1);
  const at = before.reduce((sum, each) => sum + each.length + 1, 0) + column - 1;
  area.focus();
  area.setSelectionRange(at, at);
  area.scrollTop = Math.max(0, (line - 5) * 20);
}

const KIND = ["good", "bad", "odd"];

function showVerdict(found) {
  const row = get("verdict");
  row.className = found.stopped ? "odd" : KIND[found.status];
  row.replaceChildren(found.stopped ? `${found.verdict}, ${found.stopped}` : found.verdict);
  if (found.line) {
    const where = made("button", `line ${found.line}, column ${found.column}`, { type: "button" });
    where.addEventListener("click", () => goTo(found.line, found.column));
    row.append(" at ", where);
  }
}

// Draws the trace: what lies around the refused point, or all of it.
function draw() {
  const isTrace = said !== null && said.verdict !== "no trace";
  get("drawn").hidden = !isTrace;
  if (!isTrace) return;
  const room = get("frame").clientWidth || get("drawn").clientWidth;
  const picture = pictured(get("trace").value, said, get("whole").checked, room);
  get("part").hidden = said.verdict === "accepted";
  get("undrawn").hidden = picture !== null;
  get("undrawn").textContent = `A trace of more than ${MOST_POINTS} points isn't drawn whole.`;
  get("frame").hidden = get("save").hidden = picture === null;
  get("picture").src = get("save").href = `data:image/svg+xml;charset=utf-8,${encodeURIComponent(picture || "")}`;
  // (one that is still too wide is made smaller, as far as it can be read then)
  const width = picture ? Number(/ width="(\d+)"/.exec(picture)[1]) : 0;
  get("picture").style.width = `${Math.max(Math.min(width, room), Math.ceil(width * LEAST_SCALE))}px`;
}

function judge() {
  if (!library) return;
  const begun = performance.now();
  try {
    const seed = BigInt(Math.min(4294967295, Math.max(0, Math.floor(Number(get("seed").value) || 0))));
    const found = judged(library, get("trace").value, Number(get("order").value), seed);
    showVerdict(found);
    show([...found.said, ...found.notes], get("said"));
    show(found.repair.map((line) => line.replace(/^ {2}(repair: )?/, "")), get("repair"));
    show(found.reads.length ? found.reads : ["nothing"], get("reads"));
    get("mend").hidden = found.repair.length === 0;
    get("run").hidden = found.status !== ZW.GOOD;
    number(found.line);
    said = found.object;
    draw();
    get("time").textContent = `${(performance.now() - begun).toFixed(1)} ms`;
    document.body.dataset.judged = document.body.dataset.opened;
  } catch (error) {
    fail(`It couldn't be judged: ${error.message}`);
  }
}

// Says that something can't be done here.
function fail(text) {
  get("verdict").className = "bad";
  get("verdict").textContent = text;
  for (const part of ["said", "repair", "reads"]) get(part).replaceChildren();
  get("mend").hidden = get("run").hidden = get("drawn").hidden = true;
  number();
}

// ---- examples

function open(example) {
  get("trace").value = example.trace;
  get("trace").scrollTop = get("trace").scrollLeft = 0;
  get("name").textContent = document.body.dataset.opened = example.name;
  get("about").textContent = example.about;
  mark();
  number();
  judge();
}

// Marks the example that is open in the list, and brings it into sight there.
function mark() {
  for (const button of get("list").querySelectorAll("button")) {
    button.removeAttribute("aria-current");
    if (button.textContent !== document.body.dataset.opened) continue;
    button.setAttribute("aria-current", "true");
    button.scrollIntoView({ block: "nearest" });
  }
}

function list() {
  const wanted = get("filter").value.toLowerCase();
  const rows = [];
  let group = "";
  for (const example of EXAMPLES) {
    if (!`${example.name} ${example.about}`.toLowerCase().includes(wanted)) continue;
    if (example.group !== group) rows.push(made("h3", (group = example.group)));
    const button = made("button", example.name, { type: "button", title: example.about });
    button.addEventListener("click", () => (location.hash = encodeURIComponent(example.name)));
    rows.push(button);
  }
  get("list").replaceChildren(...(rows.length ? rows : [made("p", "none")]));
  mark();
}

function openNamed() {
  const name = decodeURIComponent(location.hash.slice(1));
  const named = (wanted) => EXAMPLES.find((example) => example.name === wanted);
  const found = named(name) || named(FIRST);
  if (found) open(found);
}

// ---- from the start on

function edited() {
  get("name").textContent = `${document.body.dataset.opened || ""}, edited`.replace(/^, /, "");
}

function changed() {
  number();
  clearTimeout(waiting);
  waiting = setTimeout(judge, DELAY);
}

async function start() {
  list();
  openNamed();
  const packed = get("module").textContent.trim();
  if (!packed) return fail("This page has no module: `make page` makes one that has (docs/USING.md).");
  try {
    library = await Library.of(await unpacked(packed));
  } catch (error) {
    return fail(`This browser can't run the module: ${error.message}`);
  }
  judge();
}

get("trace").addEventListener("input", () => {
  edited();
  changed();
});
get("trace").addEventListener("scroll", () => (get("numbers").scrollTop = get("trace").scrollTop));
get("filter").addEventListener("input", list);
get("apply").addEventListener("click", () => {
  get("trace").value = repaired(library, get("trace").value);
  edited();
  judge();
});
get("order").addEventListener("change", () => {
  get("seeded").hidden = get("order").value !== "2";
  judge();
});
get("seed").addEventListener("input", changed);
get("whole").addEventListener("change", draw);
window.addEventListener("resize", draw);
window.addEventListener("hashchange", openNamed);
start();
