// One record.

function choose(number) {
  state.chosen = number;
  document.querySelectorAll(".record.chosen").forEach((row) => row.classList.remove("chosen"));
  const row = document.querySelector(`.record[data-number="${number}"]`);
  if (row) {
    row.classList.add("chosen");
    const list = byId("records"), [seen, at] = [list, row].map((it) => it.getBoundingClientRect());
    if (at.top < seen.top || at.bottom > seen.bottom) list.scrollTop += at.top - seen.top - seen.height / 3;
  }
  const record = number < 0 ? null : state.report.records[number];
  drawNetwork(record, roundOf(number) || []);
  byId("detail").replaceChildren(...(record ? detailOf(record, number) : [element("p", {}, "The report has no records.")]));
}

const packetOf = (record) => {
  const verdict = record.verdict;
  if (!verdict) return null;
  if (verdict.sat) return verdict.sat;
  return verdict.undecided && verdict.undecided.values ? verdict.undecided.values : null;
};

function verdictWords(record) {
  const { verdict } = record;
  if (verdict === null || verdict === undefined) return element("span", { class: "soft" }, "the walk of one packet");
  if (verdict.sat) return element("span", { class: "good" }, "a packet takes it");
  const { cause, count, pick } = verdict.undecided;
  const words = cause === "outside" ? `${testWords(state.job, record, pick)}: ${OUTSIDE}; the values are only the least for the others; ${NARROW}`
    : cause === "cases" ? `it has ${BigInt(count) === ALL_CASES ? `${ALL_CASES.toLocaleString("en")} or more` : count.toLocaleString("en")} choices of cases, and at most ${casesOf(state.report).toLocaleString("en")} are tried; --cases all tries them`
      : `${COUPLED}: ${count.toLocaleString("en")}; ${NARROW}`;
  return element("span", { class: "warn" }, `undecided: ${words}`);
}

// The ports of a way on one line, each box with the port that it is entered by before it, and the one that it is left by behind it.
function wayLine(places, named = { id: "way" }) {
  const hops = [];
  for (const place of places) {
    const isIn = place.startsWith("in "), last = hops[hops.length - 1];
    if (isIn || last === undefined || last.out !== "" || last.box !== boxOf(place)) hops.push({ box: boxOf(place), in: isIn ? portOf(place) : "", out: isIn ? "" : portOf(place) });
    else last.out = portOf(place);
  }
  const port = (text, before, after) => (text === "" ? [] : [before, element("span", { class: "soft" }, text), after]);
  return element("div", named, ...hops.flatMap((hop, at) => [...(at === 0 ? [] : [" \u2192 "]),
    element("span", { class: "hop" }, ...port(hop.in, "", " "), element("b", {}, hop.box), ...port(hop.out, " ", ""))]));
}

function detailOf(record, number) {
  const symbols = symbolsOf(state.job, record);
  const parts = [element("h2", { id: "title" }, `${record.kind === "path" ? "Path" : record.kind === "pruned" ? "Pruned side" : "Unexplored"} ${number}`)];
  if (record.kind === "path") {
    parts.push(element("p", { id: "end" }, endWords(record.end), " \u2014 ", verdictWords(record)));
    const { traffic } = nameOfRecord(number);
    if (traffic !== "" && record.verdict !== null) parts.push(element("p", { id: "traffic" }, `Its packets: ${traffic}`));
    const fault = record.end && typeof record.end === "object" && state.job ? state.job.items.get(record.end.site) : undefined;
    if (fault) parts.push(element("p", {}, `line ${fault.line}: `, element("code", {}, fault.text)));
    parts.push(...roundRows(number, symbols), element("h2", {}, "Way"), wayLine(record.places));
  }
  if (record.kind === "pruned") {
    parts.push(element("p", { id: "end", class: "soft" }, record.decisions.length === 0 ? "No packet meets the injection." : "No packet takes the last decision."));
    parts.push(element("h2", {}, "Why"), element("pre", { id: "why" }, refutationWords(record.refutation, symbols).join("\n")));
    parts.push(element("p", { class: "soft" }, "Tests are numbered along the way from 0, those of the injection first; the parts of a test are numbered from 0 too."));
  }
  if (record.kind === "unexplored") parts.push(element("p", { id: "end", class: "warn" }, "This decision was open when the limit was reached."));
  parts.push(...decisionRows(record), ...originRows(record));
  if (record.kind === "path") parts.push(...packetRows(record, symbols), ...fieldRows(record, symbols));
  return parts;
}

// Where the answer of loops is given: the ports of one round, or that the path is only cut, and what differs at each earlier visit of its last port.
function roundRows(number, symbols) {
  const { answer } = state;
  if (!answer || answer.kind !== "loops") return [];
  const round = roundOf(number);
  if (round !== null) return [element("h2", {}, "Round, for ever"), wayLine(round, { id: "round", class: "bad" })];
  const path = answer.open.find((one) => openNumber(one) === number);
  if (path === undefined) return [];
  const visits = visitsOf(path).map((visit) => element("li", {}, visitWords(visit, symbols)));
  return [element("p", { id: "round", class: "warn" }, "It is only cut: no hop is left, and no round was found. More hops may show where it ends."),
    ...(visits.length > 0 ? [element("p", {}, "Its last port was visited before, and each time something differed:"), element("ul", { id: "visits" }, ...visits)] : [])];
}

function decisionRows(record) {
  if (record.decisions.length === 0) return [];
  const way = stepsOf(state.job, record);
  const rows = way.map((made) => element("tr", {},
    element("td", {}, made.count < 2 ? String(made.index) : `${made.index}..${made.index + made.count - 1}`), element("td", {}, made.place), element("td", {}, `line ${made.step.line}`),
    element("td", {}, element("code", {}, codeWords(made.step.text))), element("td", { class: made.decision === "broken" ? "bad" : "" }, decisionWords(made)), rawCell(made.step.text, codeWords(made.step.text))));
  const rest = record.decisions.slice(way.reduce((sum, { count }) => sum + count, 0));
  const table = element("table", { id: "decisions" }, ...rows);
  const others = rest.length === 0 ? [] : [element("pre", { class: "soft" }, `${way.length > 0 ? "then " : ""}${rest.join(" ")}`)];
  return [element("h2", {}, "Decisions"), table, ...others];
}

function tableWords({ port, count, isTaken, isFork, isNone, place }) {
  if (isFork) return isNone ? `no row has its address: a copy to port ${port}` : `a copy to port ${port}`;
  if (isNone) return "no row has its address";
  if (place.startsWith("out ")) return `its address may ${isTaken ? "" : "not "}leave by port ${port}`;
  return isTaken ? `its address is of ${port === null ? "a port" : `port ${port}`}` : `its address is in none of the first ${plural(count, "test", "tests")} of the table`;
}

function decisionWords(event) {
  const { step, decision } = event;
  if (step.kind === "table") return tableWords(event);
  if (decision === "then") return "true: the first block";
  if (decision === "else") return "false: the other block";
  if (decision === "pass") return "true: goes on";
  if (decision === "broken") return "false: ends here";
  return `copy ${decision}, to port ${step.ports ? step.ports[decision] : "?"}`;
}

function packetRows(record, symbols) {
  const values = packetOf(record);
  if (values === null || values.length === 0) return [];
  return [element("h2", {}, record.verdict.sat ? "Its least packet" : "The least values"), packetTable("packet", values, symbols)];
}

// A cell with the raw form of what stands beside it, empty where that is the raw form itself.
const rawCell = (raw, shown) => element("td", { class: "soft raw" }, raw === shown ? "" : raw);

// A packet by the names of the unknown fields and choices, with the raw forms beside them.
function packetTable(id, values, symbols) {
  const rows = values.map((value, symbol) => {
    const target = symbolTarget(symbols, symbol), name = symbolName(symbols, symbol), position = positionOf(target);
    const shown = valueWords(position && position.kind, value);
    return element("tr", {}, element("td", {}, name), element("td", {}, shown), rawCell(target, name), rawCell(String(value), shown));
  });
  return element("table", { id }, ...rows);
}

// Bit addresses of the injected header fields, by the tags as they stand at the end (they are the injected ones where no code moves them).
function injectedAt(tags) {
  const found = new Map();
  let unknown = 0;
  for (const field of state.job ? state.job.fields : []) {
    const symbol = field.given === null ? unknown++ : -1;
    const head = /^head\s+(?:([A-Za-z_]\w*)\s*([+-])\s*(\w+)|(-?)\s*(\w+))\s*:/.exec(field.target);
    if (head) {
      const base = head[1] === undefined ? 0 : tags.get(head[1]);
      const offset = head[1] === undefined ? (head[4] === "-" ? -1 : 1) * Number(head[5]) : (head[2] === "-" ? -1 : 1) * Number(head[3]);
      if (base !== undefined) found.set(`head ${base + offset}`, { field, symbol });
    }
    const meta = /^global\s+(\w+)/.exec(field.target);
    if (meta) found.set(`global ${meta[1]}`, { field, symbol });
  }
  return found;
}

function fieldRows(record, symbols) {
  const values = packetOf(record);
  const tags = new Map(record.fields.tags.map(([name, address]) => [name, Number(address)]));
  const injected = injectedAt(tags);
  const rows = [];
  const add = (key, label, reference, cells) => {
    const from = injected.get(key);
    cells.forEach((cell, index) => {
      const isTop = index === cells.length - 1;
      const position = reference === undefined ? undefined : positionOf(reference);
      const words = cellWords(cell, symbols, position && position.kind);
      const value = cellValue(cell, values);
      const isSame = from && isTop && (from.symbol >= 0 ? sameAs(cell, from.symbol) : cell.length > 1 && (cell.length === 2 || cell[2].length === 0) && BigInt(cell[1]) === from.field.given);
      const note = !from || !isTop || record.verdict === null ? "" : isSame ? "as injected" : "changed";
      const shown = value === null ? "" : valueWords(position && position.kind, value);
      const raw = value === null || String(value) === shown ? "" : String(value);
      rows.push(element("tr", {}, element("td", {}, !isTop ? "" : position ? position.name : label), element("td", {}, words),
        element("td", {}, value === null || cell.length !== 3 || cell[2].length === 0 ? "" : `= ${shown}`), element("td", { class: "soft" }, raw), element("td", { class: note === "changed" ? "warn" : "soft" }, note),
        element("td", { class: "soft" }, `${cell[0]} bits`), element("td", { class: "soft" }, !isTop ? "" : position ? `${label}, ${reference}` : from ? from.field.target : "")));
    });
  };
  for (const [address, cells] of record.fields.heads) add(`head ${address}`, `bit ${address}`, referenceAt(record.fields.tags, Number(address), cells.length > 0 ? cells[cells.length - 1][0] : 0), cells);
  for (const [owner, name, cells] of record.fields.metas) add(owner === null ? `global ${name}` : `local ${owner} ${name}`, owner === null ? `global ${name}` : `local ${name} of ${owner}`, undefined, cells);
  const parts = [element("h2", {}, "What it carries at the end")];
  if (record.fields.tags.length > 0) parts.push(element("p", { class: "soft" }, `tags: ${record.fields.tags.map(([name, address]) => `${name} at bit ${address}`).join(", ")}`));
  parts.push(rows.length === 0 ? element("p", { class: "soft" }, "nothing") : element("table", { id: "fields" }, ...rows));
  return parts;
}
