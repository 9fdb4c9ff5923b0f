"use strict";
// What docs/page/picture.js draws: standard input is a list of JSON of traces, each with what `explain --json` says of it
// (said), whether all of it is drawn (whole), and for how many pixels (room); standard output is the list of the pictures.

const { readFileSync } = require("fs");
const { join } = require("path");
const { pictured } = require(join(__dirname, "..", "docs", "page", "picture.js"));

const asked = JSON.parse(readFileSync(0, "utf8"));
process.stdout.write(JSON.stringify(asked.map(({ trace, said, whole, room }) => pictured(trace, said, whole, room))));
