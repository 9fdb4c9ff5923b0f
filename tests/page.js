"use strict";
// What the module of a page answers to traces. Standard input is an object of JSON: the page's file (page), the
// script over its module (script), the traces (traces), and inputs in hex (inputs). Standard output is a list of JSON:
// of each trace what explain says (text, json, repaired), what replay answers (first, last, seed), and what the page
// makes of it (shown); and then of each input what explain says.

const { readFileSync } = require("fs");

async function main() {
  const asked = JSON.parse(readFileSync(0, "utf8"));
  const { FORM, Library, judged, repaired, unpacked } = require(asked.script);
  const packed = /<script type="text\/plain" id="module">([^<]*)<\/script>/.exec(readFileSync(asked.page, "utf8"))[1];
  const library = await Library.of(await unpacked(packed));
  const answers = asked.traces.map((text) => {
    const trace = new TextEncoder().encode(text);
    const [said, object] = [FORM.TEXT, FORM.JSON].map((form) => library.explain(trace, form));
    const [first, last, seed] = [0, 1, 2].map((order) => library.replay(trace, order, 5n));
    const [mended, shown] = [repaired(library, text), judged(library, text)];
    return { text: said, json: object, repaired: mended, first, last, seed, shown };
  });
  const said = asked.inputs.map((hex) => library.explain(Buffer.from(hex, "hex")));
  process.stdout.write(JSON.stringify([...answers, ...said]));
}

main();
