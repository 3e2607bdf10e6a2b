"use strict";

// Runs worked rows through the engine, for viewer/test:
//
//     node --experimental-wasm-memory64 viewer/engine_rows.js MODULE
//
// Standard input has for each row the size of a text of JSON in ten digits, and that text: the row's name, its words, the names and sizes of its files,
// the statuses that it may end with, the first line of standard error or null where any will do, and the size of its output, or null. Then come the bytes
// of the files and of the output. Prints a line for each row that ends otherwise, and last `N of M rows`.

const fs = require("fs");
const { runEngine } = require("./engine.js");

// The next bytes of standard input; fewer where it ends.
function bytes(count) {
  const room = Buffer.alloc(count);
  let at = 0;
  while (at < count) {
    const more = fs.readSync(0, room, at, count - at, null);
    if (more === 0) break;
    at += more;
  }
  return room.subarray(0, at);
}

// The next row, or null behind the last.
function nextRow() {
  const size = bytes(10);
  if (size.length < 10) return null;
  const row = JSON.parse(bytes(Number(size)).toString("utf8"));
  row.files = new Map(row.files.map(([name, count]) => [name, new Uint8Array(bytes(count))]));
  row.output = row.output === null ? null : bytes(row.output);
  return row;
}

const engine = new WebAssembly.Module(fs.readFileSync(process.argv[2]));
let right = 0, count = 0;
for (let row = nextRow(); row !== null; row = nextRow()) {
  count += 1;
  const came = runEngine(engine, row.words, row.files);
  const error = Buffer.from(came.error).toString("utf8").split("\n", 1)[0];
  const isSame = row.output === null || Buffer.from(came.output).equals(row.output);
  if (row.statuses.includes(came.status) && (row.error === null || error === row.error) && isSame) { right += 1; continue; }
  console.log(`${row.name}: status ${came.status} (wanted ${row.statuses.join(" or ")}), ${JSON.stringify(error)} (wanted ${JSON.stringify(row.error)}), output ${isSame ? "as wanted" : "otherwise"}`);
}
console.log(`${right} of ${count} rows`);
