"use strict";

// The desk: jobs and their tables are written here and run by an engine, and viewer/index.html, whose functions stand above, draws what comes. The
// engine is the program as a module in this page (a worker runs it), or the built program behind tools/serve. viewer/page.py writes the data of the desk.

const DESK = JSON.parse(byId("desk-data").textContent);

// ---------------------------------------------------------------- engines: run(words, files) gives a status and what was written, as texts

// Why an output is not taken: a browser ends a page that takes some GB.
const tooMuch = () => new Error(`the run was ended, since it wrote more than ${desk.bytes.toLocaleString("en")} bytes: ask for less by --limit or --pruned count, or let ./symnet write into a file`);

class Stopped extends Error {
  constructor(words = "the run was stopped") { super(words); }
}

// The module of this page, in a worker. Each run has a new instance; a run that is stopped ends with its worker.
class ModuleEngine {
  constructor() {
    const code = `${byId("engine-code").textContent}
onmessage = ({ data }) => { const came = runEngine(data.module, data.words, data.files, data.most); postMessage(came, [came.output.buffer, came.error.buffer]); };`;
    this.address = URL.createObjectURL(new Blob([code], { type: "text/javascript" }));
    this.worker = null;
    this.stopRun = () => {};
    this.stops = 0;
  }

  async module() {
    if (!this.compiled) {
      const packed = Uint8Array.from(atob(byId("engine-module").textContent.trim()), (sign) => sign.charCodeAt(0));
      const bytes = await new Response(new Blob([packed]).stream().pipeThrough(new DecompressionStream("gzip"))).arrayBuffer();
      this.compiled = await WebAssembly.compile(bytes).catch((error) => {
        throw new Error(`this browser does not run the engine: it has to know WebAssembly with a 64-bit memory, as Chromium does from version 133 on (${error.message})`);
      });
    }
    return this.compiled;
  }

  async run(words, files) {
    const { stops } = this, module = await this.module();
    if (stops !== this.stops) throw this.why;
    if (!this.worker) this.worker = new Worker(this.address);
    const bytes = new Map([...files].map(([name, text]) => [name, bytesOf(text)]));
    const came = await new Promise((resolve, reject) => {
      this.stopRun = reject;
      this.worker.onmessage = ({ data }) => resolve(data);
      this.worker.onerror = (event) => this.stop(new Error(`the engine broke off, and there is no answer: ${event.message}`));
      this.worker.onmessageerror = () => this.stop(new Error("the engine broke off, and there is no answer: what it wrote did not come over"));
      this.worker.postMessage({ module, words, files: bytes, most: desk.bytes });
    });
    if (came.isTooMuch) throw tooMuch();
    const text = (part) => new TextDecoder().decode(part);
    return { status: came.status, output: text(came.output), error: text(came.error) };
  }

  stop(why) {
    this.stops += 1;
    this.why = why;
    if (this.worker) this.worker.terminate();
    this.worker = null;
    this.stopRun(why);
  }
}

// The program behind tools/serve.
class ServedEngine {
  async run(words, files) {
    this.asked = new AbortController();
    const how = { method: "POST", headers: { "Content-Type": "application/json" }, body: JSON.stringify({ words, files: Object.fromEntries(files) }), signal: this.asked.signal };
    const answer = await fetch("run", how);
    if (!answer.ok) throw new Error(`the server refuses the run: ${await answer.text()}`);
    const came = await answer.json();
    if (came.output.length > desk.bytes) throw tooMuch();
    return came;
  }

  stop(why) {
    if (this.asked) this.asked.abort(why);
  }
}

// ---------------------------------------------------------------- files as texts and as bytes

const BYTE = 0xdc00; // with a byte of 128 or more added, half of a pair of UTF-16 that stands alone, as in no UTF-8
const STEP = 8192;

// The text of a file. Where its bytes are no UTF-8 each byte stays one by itself, so that the program is given the file as it is.
function textOfBytes(bytes) {
  try {
    return new TextDecoder("utf-8", { fatal: true, ignoreBOM: true }).decode(bytes);
  } catch {
    const parts = [];
    for (let at = 0; at < bytes.length; at += STEP) parts.push(String.fromCharCode(...Array.from(bytes.subarray(at, at + STEP), (byte) => (byte < 128 ? byte : BYTE + byte))));
    return parts.join("");
  }
}

// Whether a character, by its number, is one byte of a file.
const isByte = (code) => code < 128 || (code >= BYTE + 128 && code <= BYTE + 255);

// The bytes of a text, as `textOfBytes` takes them.
function bytesOf(text) {
  const encoder = new TextEncoder();
  if (!/[\udc80-\udcff]/u.test(text)) return encoder.encode(text);
  const bytes = new Uint8Array(3 * text.length);
  let at = 0;
  for (const sign of text) {
    const code = sign.codePointAt(0);
    if (isByte(code)) { bytes[at] = code & 255; at += 1; } else at += encoder.encodeInto(sign, bytes.subarray(at)).written;
  }
  return bytes.slice(0, at);
}

// ---------------------------------------------------------------- commands

// The words of a run: names that begin as options do stand behind `--`.
const wordsOf = (command, names, options) => (names.some((name) => name.startsWith("-")) ? [command, ...options, "--", ...names] : [command, ...names, ...options]);
// The most characters of a name in a tab or a list.
const NAME_SHOWN = 40;

const isJobName = (name) => name.endsWith(".sefl"), isPacketName = (name) => name.endsWith(".packet"), isListName = (name) => name.endsWith(".acl");
const wrote = (end) => end.status === 0 || end.status === 12;
// The options of a name among these, with their values.
const optionOf = (options, name) => options.filter((word, index) => word === name || word.startsWith(`${name}=`) || options[index - 1] === name);
const hopsOf = (options) => optionOf(options, "--hops");
// The bounds of an exploration, so that two commands number the same records.
const boundsOf = (options) => ["--hops", "--limit", "--cases"].flatMap((name) => optionOf(options, name));
// The options, with all choices of cases where no bound on them is said: `--cases 4096` is the bound of the program itself.
const withCases = (options) => (optionOf(options, "--cases").length === 0 ? [...options, "--cases", "all"] : options);
// A job with the tables that it names, as the page shows them together.
const withTables = (name, textOf) => [[name, textOf(name)], ...[...textOf(name).matchAll(/=\s*(?:mac|fib)\s*"([^"]*)"/g)].map(([, table]) => [table, textOf(table)]).filter(([, text]) => text !== "")];
const hasQuestions = (text) => /\bask\s+(reach|invariant|visible)\b/.test(text);

// Each command: which files it takes, and its plan. A plan runs the program by `call`, and gives the ends of its runs, the command's own first, and what the
// page shows: files by name, and those of the second network.
const COMMANDS = {
  explore: { takes: [isJobName], plan: (call, given) => exploredAndAsked(call, given, "explore") },
  ask: { takes: [isJobName], plan: (call, given) => exploredAndAsked(call, given, "ask") },
  loops: {
    takes: [isJobName],
    async plan(call, { names, options, textOf }) {
      const given = withCases(options);
      const found = await call(wordsOf("loops", [names[0]], given));
      const report = wrote(found) ? [await call(wordsOf("explore", [names[0]], boundsOf(given)))] : [];
      return { ends: [found, ...report], shown: [...withTables(names[0], textOf), ...report.map(({ output }) => ["report.json", output]), ["loops.json", found.output]] };
    },
  },
  walk: {
    takes: [isJobName, isPacketName],
    async plan(call, { names, options, textOf }) {
      const walks = await call(wordsOf("walk", names, options));
      return { ends: [walks], shown: [...withTables(names[0], textOf), ["walks.json", walks.output]] };
    },
  },
  compare: {
    takes: [isJobName, isJobName],
    async plan(call, { names, options, textOf }) {
      const compared = await call(wordsOf("compare", names, withCases(options)));
      const answer = wrote(compared) ? readJson(compared.output) : {};
      // The packet that shows a difference is walked in both networks.
      const packet = "difference.packet", walks = [];
      if (answer.answer === "other") for (const name of names) walks.push(await call(wordsOf("walk", [name, packet], hopsOf(options)), [[packet, answer.values.join(" ")]]));
      const sides = names.map((name, side) => [[name, textOf(name)], ...walks.slice(side, side + 1).map(({ output }) => ["walks.json", output])]);
      return { ends: [compared, ...walks], shown: [...sides[0], ["compared.json", compared.output]], others: sides[1] };
    },
  },
  rules: {
    takes: [isListName],
    async plan(call, { names, options, textOf }) {
      const rules = await call(wordsOf("rules", [names[0]], options));
      return { ends: [rules], shown: [[names[0], textOf(names[0])], ["answer.rules", rules.output]] };
    },
  },
};

// The paths of a job, and the answers to its questions where it has some: they are shown together, whichever was asked for.
async function exploredAndAsked(call, { names, options, textOf }, command) {
  const [job] = names, given = withCases(options);
  const own = await call(wordsOf(command, [job], given));
  const isMore = wrote(own) && (command === "ask" || hasQuestions(textOf(job)));
  const more = isMore ? [await call(wordsOf(command === "ask" ? "explore" : "ask", [job], boundsOf(given)))] : [];
  const files = [own, ...more].filter(wrote).map(({ words, output }) => [words[0] === "ask" ? "answers.json" : "report.json", output]);
  return { ends: [own, ...more], shown: [...withTables(job, textOf), ...files] };
}

// ---------------------------------------------------------------- what standard error says

// The place that it blames, with the words for people below it. Null where it blames none.
function placeOf(error) {
  const lines = error.split("\n");
  const parts = /^(.*):(\d+):(\d+):$/.exec(lines[1] || "");
  if (!parts) return null;
  const words = lines.slice(2).filter((line) => line.trim() !== "");
  return { name: parts[1], line: Number(parts[2]), column: Number(parts[3]), words: words[words.length - 1] || lines[0] };
}

// The number of characters before a column, which counts bytes from 1.
function charactersBefore(line, column) {
  let bytes = 1, count = 0;
  for (const sign of line) {
    if (bytes >= column) break;
    const code = sign.codePointAt(0);
    bytes += isByte(code) ? 1 : code < 0x800 ? 2 : code < 0x10000 ? 3 : 4;
    count += sign.length;
  }
  return count;
}

// ---------------------------------------------------------------- colours, by the grammar of tools/sefl.tmLanguage.json

const RULES = DESK.grammar.patterns.map((rule) => ({
  scope: rule.name, captures: rule.captures || {}, pattern: new RegExp(rule.match || `${rule.begin}.*?(?:${rule.end})`, "dg"),
}));
const classOf = (scope) => `t-${scope.split(".")[0]}`;

// The parts of lines that were coloured before, by the line: most lines stay as they are when a key is typed.
const knownParts = new Map();
const KNOWN = 20000;

// The parts of a line of a job that have a colour: where each begins and ends, and its class.
function colouredParts(line) {
  if (!knownParts.has(line)) {
    if (knownParts.size > KNOWN) knownParts.clear();
    knownParts.set(line, partsOfLine(line));
  }
  return knownParts.get(line);
}

function partsOfLine(line) {
  // what each rule finds next, so that none looks through the line more than once
  const parts = [], next = RULES.map(() => ({ index: -1 }));
  let at = 0;
  while (at < line.length) {
    let best = null;
    RULES.forEach((rule, number) => {
      rule.pattern.lastIndex = at;
      if (next[number] && next[number].index < at) next[number] = rule.pattern.exec(line);
      const found = next[number];
      if (found && found[0] !== "" && (!best || found.index < best.found.index)) best = { rule, found };
    });
    if (!best) break;
    const { rule, found } = best;
    if (rule.scope) parts.push([found.index, found.index + found[0].length, classOf(rule.scope)]);
    for (const [number, capture] of Object.entries(rule.captures)) if (found.indices[number]) parts.push([...found.indices[number], classOf(capture.name)]);
    at = found.index + found[0].length;
  }
  return parts;
}

function colouredLine(line) {
  const made = [];
  let at = 0;
  for (const [begin, end, name] of colouredParts(line)) {
    made.push(line.slice(at, begin), element("span", { class: name }, line.slice(begin, end)));
    at = end;
  }
  return [...made, line.slice(at)];
}

// ---------------------------------------------------------------- the desk

const COLOURED = 100000; // the length of a text that is coloured at most
const SHOWN = 300000, SHOWN_LINES = 10000; // the length of a text, and its lines, that are shown at most
const PAUSE = 350; // milliseconds from the last key to the run

// The files, which of them is open, which the command takes, what the last run said, and how many runs were begun.
const desk = { files: new Map(), open: "", names: [], place: null, answers: new Map(), runs: 0, timer: 0, engine: DESK.engine === "served" ? new ServedEngine() : new ModuleEngine(),
  // the seconds after which a run is ended that a key or an example began (one that the button began is ended by hand alone), and the most bytes that a run writes
  seconds: 60, bytes: 128 << 20 };

const DESK_PARTS = `
  <div class="row"><label>example <select id="example"></select></label><label class="files">open files <input type="file" id="opened" multiple></label></div>
  <div class="row"><select id="command" aria-label="command"></select><span id="taken" class="row"></span>
    <input id="options" aria-label="options" placeholder="options, as --hops 32 or --limit 100"><button id="run">run</button></div>
  <div class="row" id="tabs"></div>
  <div id="editor"><div id="gutter"><pre></pre></div><div id="paper"><pre id="colours" aria-hidden="true"></pre>
    <textarea id="text" spellcheck="false" autocapitalize="off" aria-label="the open file"></textarea></div></div>
  <pre id="refusal" role="alert"></pre>
  <p id="ran"></p>
  <p id="unproved"></p>`;

const optionWords = () => byId("options").value.split(/\s+/).filter((word) => word !== "");
const textOf = (name) => desk.files.get(name) || "";
// Whether a text is too long to be shown and written in. It runs all the same.
const isLong = (text) => text.length > SHOWN || text.split("\n", SHOWN_LINES + 1).length > SHOWN_LINES;

// The files that the command takes: those that are chosen, where they are there, else those whose names fit it, the open one first.
function namesFor(command, chosen) {
  const names = [];
  COMMANDS[command].takes.forEach((fits, index) => {
    const all = [desk.open, ...desk.files.keys()].filter((name) => desk.files.has(name));
    const free = all.filter((name) => fits(name) && !names.includes(name));
    names.push(desk.files.has(chosen[index]) && fits(chosen[index]) ? chosen[index] : free[0] || all[index] || "");
  });
  return names;
}

function showTaken() {
  const command = byId("command").value;
  desk.names = namesFor(command, desk.names);
  byId("taken").replaceChildren(...desk.names.map((chosen, index) => {
    const made = element("select", { "aria-label": `file ${index + 1}` }, ...[...desk.files.keys()].map((name) => element("option", { value: name }, plain(name, NAME_SHOWN))));
    made.value = chosen;
    made.addEventListener("change", () => { desk.names[index] = made.value; openFile(made.value); runSoon(0); });
    return made;
  }));
}

function showTabs() {
  const tabs = [...desk.files.keys()].map((name) => element("button", {
    class: `${name === desk.open ? "open" : ""}${desk.place && desk.place.name === name ? " at-fault" : ""}`, title: plain(name), click: () => openFile(name) }, plain(name, NAME_SHOWN)));
  const name = element("input", { id: "new-name", placeholder: "new file, as r1.fib", "aria-label": "name of a new file" });
  name.addEventListener("change", () => { if (name.value.trim() !== "") addFiles([[name.value.trim(), textOf(name.value.trim())]]); });
  const gone = element("button", { id: "remove", title: "removes the open file", click: () => { desk.files.delete(desk.open); openFile([...desk.files.keys()][0] || ""); showTaken(); runSoon(0); } }, "\u00d7");
  byId("tabs").replaceChildren(...tabs, ...(desk.open === "" ? [] : [gone]), name);
}

// Puts texts and elements in place of what an element has: one by one, since a call takes only so many, and texts side by side as one.
function fill(to, parts) {
  const made = document.createDocumentFragment();
  let text = "";
  for (const part of parts) {
    if (typeof part === "string") { text += part; continue; }
    made.append(text, part);
    text = "";
  }
  made.append(text);
  to.replaceChildren(made);
}

// Shows the numbers of the lines, with the answers to questions before them, in as much room as these need.
function showGutter(count) {
  const answers = desk.names[0] === desk.open ? desk.answers : new Map(), gutter = byId("gutter");
  fill(gutter.firstChild, Array.from({ length: count }, (_, index) => {
    const answer = answers.get(index + 1);
    return [...(answer ? [element("span", { class: SHADES[answer] }, `${answer} `)] : []), `${index + 1}\n`];
  }).flat());
  const widest = Math.max(0, ...[...answers].map(([, answer]) => answer.length + 1));
  gutter.firstChild.style.width = `calc(${String(count).length + widest}ch + 14px)`;
}

// Shows the open file's colours, the numbers of its lines with the answers to questions beside them, and the place that the last run blames.
function showText() {
  const text = byId("text").value, lines = text.split("\n");
  const place = desk.place && desk.place.name === desk.open && !isLong(textOf(desk.open)) ? desk.place : null;
  const isColoured = isJobName(desk.open) && text.length <= COLOURED;
  fill(byId("colours"), lines.flatMap((line, index) => [...(isColoured ? colouredLine(line) : [line]),
    ...(place && place.line === index + 1 ? [element("span", { class: "said" }, place.words)] : []), "\n"]));
  showGutter(lines.length);
  if (place && place.line <= lines.length) {
    const before = lines[place.line - 1].slice(0, charactersBefore(lines[place.line - 1], place.column));
    const columns = [...before].reduce((sum, sign) => sum + (sign === "\t" ? 4 - (sum % 4) : 1), 0);
    byId("colours").append(element("span", { id: "caret", "data-line": place.line, style: `top: ${4 + (place.line - 1) * 18 + 14}px; left: calc(6px + ${columns} * 1ch);` }, "^"));
  }
  follow();
}

// Keeps colours and numbers where the text is scrolled to.
function follow() {
  const { scrollTop, scrollLeft } = byId("text");
  byId("colours").style.transform = `translate(${-scrollLeft}px, ${-scrollTop}px)`;
  byId("gutter").firstChild.style.transform = `translateY(${-scrollTop}px)`;
}

function openFile(name) {
  const text = textOf(name), isHidden = isLong(text);
  desk.open = name;
  byId("text").value = isHidden ? "" : text;
  byId("text").disabled = name === "" || isHidden;
  byId("text").placeholder = isHidden ? `This file has ${text.length.toLocaleString("en")} characters, which is too long to be shown here. It runs as it is.` : "";
  const fits = COMMANDS[byId("command").value].takes;
  if (fits.length === 1 && fits[0](name) && desk.names[0] !== name) { desk.names = [name]; runSoon(0); }
  showTaken();
  showTabs();
  showText();
}

// Opens the file that the last run blames, with the cursor at the place.
function goToPlace() {
  const { place } = desk;
  if (!place || !desk.files.has(place.name)) return;
  openFile(place.name);
  if (byId("text").disabled) return;
  const lines = byId("text").value.split("\n").slice(0, place.line), last = lines.pop();
  const at = lines.reduce((sum, line) => sum + line.length + 1, 0) + charactersBefore(last, place.column);
  byId("text").setSelectionRange(at, at);
  byId("text").blur();
  byId("text").focus();
}

function addFiles(files) {
  for (const [name, text] of files) desk.files.set(name, text);
  const named = (fits) => files.map(([name]) => name).find(fits), command = byId("command").value;
  const main = named(isJobName) || named(isListName);
  if (main && isListName(main)) byId("command").value = "rules";
  else if (main && command === "rules") byId("command").value = "explore";
  if (main) desk.names = [main];
  openFile(main || files[0][0]);
  runSoon(0);
}

// ---------------------------------------------------------------- runs

// Has the command run, in place of the run that may be at work.
function runSoon(pause = PAUSE) {
  clearTimeout(desk.timer);
  desk.runs += 1;
  document.body.dataset.ran = "no";
  desk.timer = setTimeout(() => runNow(), pause);
}

// `isAsked` says that the button began the run.
async function runNow(isAsked = false) {
  clearTimeout(desk.timer);
  desk.engine.stop(new Stopped());
  desk.runs += 1;
  const run = desk.runs, command = byId("command").value, started = performance.now();
  const seconds = () => (performance.now() - started) / 1000;
  document.body.dataset.ran = "no";
  byId("run").textContent = "stop";
  let words = [];
  const tell = () => { byId("ran").textContent = `${plain(words.join(" "))} .. ${seconds() < 1 ? "" : `${Math.floor(seconds())} s`}`; };
  const clock = setInterval(() => {
    if (run === desk.runs) tell();
    if (run !== desk.runs || isAsked || seconds() <= desk.seconds) return;
    desk.engine.stop(new Stopped(`the run was ended after ${desk.seconds} seconds: one that the button begins goes on until it is stopped`));
  }, 200);
  const call = async (asked, more = []) => {
    words = asked;
    tell();
    const end = await desk.engine.run(words, new Map([...desk.files, ...more]));
    if (run !== desk.runs) throw new Stopped();
    return { ...end, words: asked };
  };
  try {
    const seen = await COMMANDS[command].plan(call, { names: [...desk.names], options: optionWords(), textOf });
    if (run !== desk.runs) return;
    showRun(seen);
    byId("ran").textContent = `${seen.ends.map((end) => plain(end.words.join(" "))).join("; ")}: ${seconds().toFixed(1)} s`;
  } catch (error) {
    if (run !== desk.runs) return;
    showRefusal([{ status: null, error: error.message }]);
    showText();
  } finally {
    clearInterval(clock);
    if (run === desk.runs) {
      byId("run").textContent = "run";
      document.body.dataset.ran = "yes";
    }
  }
}

// Shows what a plan gave: what standard error says, at its place, and the files that were written, where the command wrote them.
function showRun({ ends, shown, others }) {
  showRefusal(ends);
  if (wrote(ends[0])) showOnly(shown, others);
  const { answer, job } = state;
  const isAnswered = wrote(ends[0]) && answer && answer.kind === "answers" && job && job.asks.length === answer.answers.length;
  if (isAnswered) job.asks.forEach(({ line }, index) => desk.answers.set(line, answer.answers[index].answer));
  showText();
}

function showRefusal(ends) {
  const told = ends.filter(({ status, error }) => status !== 0 || error !== "");
  // The line of a file and the caret below it are not broken, so that the caret stays at its place.
  const lines = told.map(({ error }) => error.trimEnd()).join("\n\n").split("\n");
  fill(byId("refusal"), lines.flatMap((line, at) => [at === 0 ? "" : "\n", line.startsWith(" ") ? element("span", {}, line) : line]));
  byId("refusal").className = told.every(wrote) ? "partial" : "";
  document.body.classList.toggle("stale", !wrote(ends[0]));
  desk.place = told.map(({ error }) => placeOf(error)).find((place) => place !== null) || null;
  desk.answers.clear();
  showTabs();
}

// ---------------------------------------------------------------- examples, and the beginning

const exampleOf = (value) => { const [folder, at] = value.split(":").map(Number); return { ...DESK.examples[folder], words: DESK.examples[folder].commands[at] }; };

function takeExample(value) {
  const { files, words } = exampleOf(value);
  desk.files = new Map(files);
  byId("command").value = words[0];
  desk.names = words.slice(1, 1 + COMMANDS[words[0]].takes.length);
  byId("options").value = words.slice(1 + desk.names.length).join(" ");
  openFile(desk.names[0]);
  runSoon(0);
}

// Files that are dropped: what symnet wrote is shown, with what is dropped beside it; others come onto the desk.
async function takeOntoDesk(files) {
  const texts = await Promise.all([...files].map(async (file) => [file.name, textOfBytes(new Uint8Array(await file.arrayBuffer()))]));
  if (texts.some(([name, text]) => isWritten(name, text))) showOnly(texts);
  else addFiles(texts);
}

// Says that the page itself failed, which nothing else would show.
function showFault(error) {
  complain(`This page has a fault, and what it shows may be of an earlier run: ${error && error.message ? error.message : error}`);
}

function beginDesk() {
  addEventListener("error", (event) => showFault(event.error || event.message));
  addEventListener("unhandledrejection", (event) => showFault(event.reason));
  document.body.classList.add("desk");
  document.querySelector("h1").textContent = "SymNet";
  byId("message").after(element("section", { id: "desk" }));
  byId("desk").innerHTML = DESK_PARTS;
  byId("unproved").textContent = DESK.unproved;
  byId("command").append(...Object.keys(COMMANDS).map((name) => element("option", {}, name)));
  byId("example").append(...DESK.examples.map(({ title, commands }, folder) => element("optgroup", { label: title },
    ...commands.map((words, at) => element("option", { value: `${folder}:${at}` }, words.join(" "))))));
  byId("example").addEventListener("change", () => takeExample(byId("example").value));
  byId("command").addEventListener("change", () => { showTaken(); openFile(desk.names[0]); runSoon(0); });
  byId("opened").addEventListener("change", () => takeOntoDesk(byId("opened").files));
  byId("options").addEventListener("input", () => runSoon());
  byId("text").addEventListener("input", () => { desk.files.set(desk.open, byId("text").value); showText(); runSoon(); });
  byId("text").addEventListener("scroll", follow);
  byId("run").addEventListener("click", () => { if (byId("run").textContent === "stop") { desk.engine.stop(new Stopped()); } else runNow(true); });
  byId("refusal").addEventListener("click", goToPlace);
  takeDropped = takeOntoDesk;
  takeExample(byId("example").value);
}

beginDesk();
