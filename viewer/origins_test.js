// Runs the scripts of the page without a browser, over files that are named: what decided on each record, as JSON.
//
//     node viewer/origins_test.js JOB MAP WRITTEN

"use strict";

const fs = require("fs"), path = require("path"), vm = require("vm");

// A part of a page that takes what it is given and shows nothing.
class Part {
  constructor() { Object.assign(this, { style: {}, dataset: {}, value: "", textContent: "", children: [], classList: { add() {}, remove() {}, toggle() {} } }); }
  append() {}
  replaceChildren() {}
  setAttribute() {}
  addEventListener() {}
  getContext() { return { measureText: (text) => ({ width: text.length }) }; }
}

const parts = new Map();
const part = (id) => parts.get(id) || parts.set(id, new Part()).get(id);
const document = { getElementById: part, createElement: () => new Part(), createElementNS: () => new Part(), addEventListener() {}, querySelector: () => null, querySelectorAll: () => [], body: new Part() };
const page = fs.readFileSync(path.join(__dirname, "index.html"), "utf8");
const scripts = [...page.matchAll(/<script>([\s\S]*?)<\/script>/g)].map((found) => found[1]);
const world = { document, location: { search: "" }, URLSearchParams, addEventListener() {}, window: { addEventListener() {} }, given: process.argv.slice(2).map((name) => [path.basename(name), fs.readFileSync(name, "utf8")]), told: null };
vm.createContext(world);
vm.runInContext(`${scripts.join("\n")}
for (const [name, text] of given) take(name, text);
told = JSON.stringify({ complaints, decided: state.report === null ? null : state.report.records.map((record) => decidedBy(record)) });`, world);
console.log(world.told);
