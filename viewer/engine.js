"use strict";

// The engine of the page: the program as a WebAssembly module with a memory of 64-bit addresses, and the outside that it calls: its words, its
// files, standard output and standard error, all in memory. A worker of the page and viewer/engine_rows.js run it.

const ABSENT = 2, BAD_NUMBER = 9, DENIED = 13, TOO_MANY_OPEN = 24; // numbers of errors, as Linux has them
const OPEN_LIMIT = 1024;

class TooMuch extends Error {}

// The functions that the module calls; addresses and sizes are BigInts. `memory` gives the module's memory, once it is there. A run that writes more than
// `most` bytes is ended by a TooMuch.
function outsideOf(words, files, written, most, memory) {
  const given = ["symnet", ...words].map((word) => new TextEncoder().encode(word));
  const opened = new Map();
  let error = 0, room = most;
  const bytesAt = (at, count) => new Uint8Array(memory().buffer, Number(at), Number(count));
  const fails = (number) => { error = number; return -1; };
  const textAt = (at) => {
    const bytes = new Uint8Array(memory().buffer, Number(at));
    return new TextDecoder().decode(bytes.subarray(0, bytes.indexOf(0)));
  };
  return {
    rattle_errno: () => error,
    rattle_set_errno: (number) => { error = number; },
    // The length of a word, which is copied to `at`; -1 behind the last word, -2 where it is longer than `room`.
    rattle_arg(index, at, room) {
      const word = given[Number(index)];
      if (word === undefined) return -1n;
      if (BigInt(word.length) > room) return -2n;
      bytesAt(at, word.length).set(word);
      return BigInt(word.length);
    },
    __sysv_signal: () => 0n,
    open(path, flags) {
      if ((flags & 3) !== 0) return fails(DENIED);
      const bytes = files.get(textAt(path));
      if (bytes === undefined) return fails(ABSENT);
      for (let number = 3; number < OPEN_LIMIT; number += 1) {
        if (opened.has(number)) continue;
        opened.set(number, { bytes, at: 0 });
        return number;
      }
      return fails(TOO_MANY_OPEN);
    },
    read(number, at, room) {
      if (number === 0) return 0n;
      const file = opened.get(number);
      if (file === undefined) return BigInt(fails(BAD_NUMBER));
      const part = file.bytes.subarray(file.at, file.at + Number(room));
      bytesAt(at, part.length).set(part);
      file.at += part.length;
      return BigInt(part.length);
    },
    write(number, at, count) {
      if (written[number] === undefined) return BigInt(fails(BAD_NUMBER));
      room -= Number(count);
      if (room < 0) throw new TooMuch();
      written[number].push(bytesAt(at, count).slice());
      return count;
    },
    close: (number) => (opened.delete(number) ? 0 : fails(BAD_NUMBER)),
  };
}

function joined(parts) {
  const whole = new Uint8Array(parts.reduce((sum, part) => sum + part.length, 0));
  let at = 0;
  for (const part of parts) { whole.set(part, at); at += part.length; }
  return whole;
}

// What is said where the browser ends a run. No proof speaks of its stack and its memory.
function brokenOff(error) {
  const why = error instanceof RangeError ? "the browser gave it too little stack or memory"
    : error instanceof WebAssembly.RuntimeError ? "its own stack was too small, or it came to a place to which no proved run comes" : "the browser refused it";
  return `the engine broke off, and there is no answer: ${why} (${error.message})\n`;
}

// Runs the program once, in a new instance of the module: the words behind `symnet`, and a Map of files by name. Returns the exit status, and the
// bytes of standard output and of standard error. The status is null where the engine broke off, or where the run wrote too much.
function runEngine(module, words, files, most = Infinity) {
  const written = { 1: [], 2: [] };
  let exports = null, status = null, isTooMuch = false;
  const outside = outsideOf(words, files, written, most, () => exports.memory);
  try {
    exports = new WebAssembly.Instance(module, { env: outside }).exports;
    status = exports.main(0, 0n);
  } catch (error) {
    isTooMuch = error instanceof TooMuch;
    written[2].push(new TextEncoder().encode(isTooMuch ? "the run wrote too much\n" : brokenOff(error)));
  }
  return { status, isTooMuch, output: joined(written[1]), error: joined(written[2]) };
}

if (typeof module === "object") module.exports = { runEngine };
