"use strict";
// The calls of the C library (c/zorthewin.h), over texts: what the module answers to a trace.

const ZW = { GOOD: 0, REFUSED: 1, NO_TRACE: 2, STOPPED: 3, NO_MEMORY: 4, NO_ARGUMENT: 6 };
const FORM = { TEXT: 0, JSON: 1, REPAIRED: 2 };
const HEAP = 4194304n;

class Library {
  // The exports of the module.
  constructor(exports) {
    this.exports = exports;
  }

  // The library of a module's bytes.
  static async of(bytes) {
    return new Library((await WebAssembly.instantiate(bytes, {})).instance.exports);
  }

  // Memory of the module, as bytes from an address on.
  bytes(at, length) {
    return new Uint8Array(this.exports.memory.buffer, Number(at), length);
  }

  take(length) {
    const at = this.exports.zw_take(BigInt(length));
    if (at === 0n) throw new Error("there is no memory for the trace or its answer");
    return at;
  }

  // The status and the text that a call answers to the bytes of a trace.
  answer(call, trace) {
    const at = this.take(trace.length + 1);
    const length = this.take(8);
    let room = 65536;
    let out = this.take(room);
    try {
      this.bytes(at, trace.length).set(trace);
      for (;;) {
        const status = call(at, BigInt(trace.length), out, BigInt(room), length);
        const whole = Number(new DataView(this.exports.memory.buffer).getBigUint64(Number(length), true));
        if (status === ZW.NO_MEMORY) throw new Error("there is no memory for the trace or its answer");
        if (whole <= room) return { status, text: new TextDecoder().decode(this.bytes(out, whole)) };
        this.exports.zw_give(out);
        out = this.take(whole);
        room = whole;
      }
    } finally {
      for (const block of [at, length, out]) this.exports.zw_give(block);
    }
  }

  replay(trace, order = 0, seed = 0n, heap0 = HEAP, heap1 = HEAP) {
    const call = (at, size, out, room, length) =>
      this.exports.zw_replay(at, size, order, seed, heap0, heap1, out, room, length);
    return this.answer(call, trace);
  }

  explain(trace, form = FORM.TEXT) {
    const call = (at, size, out, room, length) => this.exports.zw_explain(at, size, form, out, room, length);
    return this.answer(call, trace);
  }
}

// What is said of a trace: the verdict, the lines of the explanation, those of its repair, where the point is, all of
// it as an object, and what the host reads in an order.
function judged(library, text, order = 0, seed = 0n) {
  const trace = new TextEncoder().encode(text);
  const { status, text: said } = library.explain(trace);
  const object = JSON.parse(library.explain(trace, FORM.JSON).text);
  const lines = said.split("\n").filter((line) => line !== "");
  const repair = lines.findIndex((line) => line.startsWith("  repair: "));
  const note = lines.findIndex((line) => line.startsWith("note: "));
  const ends = [repair, note].filter((at) => at > 0);
  const result = {
    status,
    verdict: lines[0],
    said: lines.slice(1, ends.length ? Math.min(...ends) : undefined),
    repair: repair < 0 ? [] : lines.slice(repair, note > repair ? note : undefined),
    notes: note < 0 ? [] : lines.slice(note),
    line: object.line,
    column: object.column,
    object,
    reads: [],
    stopped: null,
  };
  if (status === ZW.GOOD) {
    const run = library.replay(trace, order, seed);
    result.reads = run.text.split("\n").filter((line) => line !== "");
    if (run.status === ZW.STOPPED) result.stopped = result.reads.pop();
  }
  return result;
}

// The trace after its repairs.
function repaired(library, text) {
  return library.explain(new TextEncoder().encode(text), FORM.REPAIRED).text;
}

// The bytes of a module that a page has as gzip in base64.
async function unpacked(packed) {
  const bytes = Uint8Array.from(atob(packed), (letter) => letter.charCodeAt(0));
  const stream = new Blob([bytes]).stream().pipeThrough(new DecompressionStream("gzip"));
  return new Response(stream).arrayBuffer();
}

if (typeof module !== "undefined") module.exports = { ZW, FORM, Library, judged, repaired, unpacked };
