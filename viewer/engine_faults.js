"use strict";

// What the engine may meet beside a whole run: little memory, and a module that does not come to an end. viewer/test takes `brokenModule` and
// `withMemory` into the page, and runs this in node:
//
//     node --experimental-wasm-memory64 viewer/engine_faults.js MODULE JOB
//
// Prints a line for each run that ends otherwise than it should, and last `N of M runs`.

// The beginning of a module that has one function `main` of an i32 and an i64, which gives an i32; and what such functions do.
const HEAD = [0, 0x61, 0x73, 0x6d, 1, 0, 0, 0, 1, 7, 1, 0x60, 2, 0x7f, 0x7e, 1, 0x7f, 3, 2, 1, 0, 7, 8, 1, 4, 0x6d, 0x61, 0x69, 0x6e, 0, 0];
const DEEDS = { trap: [0], endless: [3, 0x40, 0x0c, 0, 0x0b, 0], deep: [0x20, 0, 0x20, 1, 0x10, 0] };

// The bytes of a module that stops at an instruction which no run may reach, never ends, or calls itself for ever.
function brokenModule(deed) {
  const body = [0, ...DEEDS[deed], 0x0b];
  return Uint8Array.of(...HEAD, 10, body.length + 2, 1, body.length, ...body);
}

// A number of a module, seven bits a byte, and the place behind it.
function numberAt(bytes, at) {
  let value = 0, shift = 1, byte;
  do {
    byte = bytes[at];
    value += (byte & 127) * shift;
    shift *= 128;
    at += 1;
  } while (byte >= 128);
  return [value, at];
}

// The module with so many pages of memory at most, 64 KiB each, beyond those that it begins with.
function withMemory(bytes, pages) {
  let at = 8, id, size;
  for (;;) {
    id = bytes[at];
    [size, at] = numberAt(bytes, at + 1);
    if (id === 5) break;
    at += size;
  }
  // one memory, with flags: its least pages and its most
  const [least, begin] = numberAt(bytes, at + 2), [, end] = numberAt(bytes, begin), made = bytes.slice();
  let left = least + pages;
  for (let place = begin; place < end; place += 1, left >>= 7) made[place] = (left & 127) | (place + 1 < end ? 128 : 0);
  return made;
}

const MOST = 65536; // the pages that the engine may have

// Runs a job in broken modules, and with little memory.
function faults(bytes, job) {
  const { runEngine } = require("./engine.js");
  const run = (code) => runEngine(new WebAssembly.Module(code), ["explore", "a"], new Map([["a", job]]));
  const told = ({ error }) => Buffer.from(error).toString("utf8").split("\n")[0];
  const whole = run(bytes);
  let count = 0, wrong = 0;
  const expect = (what, isRight, came) => {
    count += 1;
    if (isRight) return;
    wrong += 1;
    console.log(`${what}: status ${came.status}, ${JSON.stringify(told(came))}, ${came.output.length} bytes`);
  };
  expect("the job", whole.status === 0 && whole.output.length > 0, whole);
  for (const deed of ["trap", "deep"]) {
    const came = run(brokenModule(deed));
    expect(deed, came.status === null && told(came).startsWith("the engine broke off, and there is no answer: ") && came.output.length === 0, came);
  }
  // with more and more memory: `out of memory`, and a beginning of the output; then the whole
  let came = null, isWhole = false;
  for (let pages = 0; !isWhole && pages < MOST; pages += pages < 64 ? 1 : pages) {
    came = run(withMemory(bytes, pages));
    isWhole = came.status === 0 && Buffer.compare(came.output, whole.output) === 0;
    const isBeginning = Buffer.compare(came.output, whole.output.subarray(0, came.output.length)) === 0;
    expect(`${pages} pages`, isWhole ? pages > 0 : came.status === 1 && told(came) === "symnet: out of memory" && isBeginning, came);
  }
  expect("enough pages", isWhole, came);
  console.log(`${count - wrong} of ${count} runs`);
}

if (typeof module === "object") {
  const fs = require("fs");
  faults(new Uint8Array(fs.readFileSync(process.argv[2])), new Uint8Array(fs.readFileSync(process.argv[3])));
}
