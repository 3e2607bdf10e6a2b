// The list of records.

function groupOf(record, number) {
  if (record.kind === "unexplored") return "not explored: the limit was reached";
  if (record.kind === "pruned") return "pruned: no packet takes them";
  const last = record.places.length > 0 ? record.places[record.places.length - 1] : "nowhere";
  if (record.end === "delivered") return `delivered at ${last}`;
  if (record.end === "stopped") return `stopped at ${last}`;
  if (roundOf(number) !== null) return `goes round for ever: cut at ${last}`;
  if (record.end === "cut") return `cut at ${last}`;
  return `${endWords(record.end)} at ${last}`;
}

const ORDER = ["goes round", "delivered", "fail", "fault", "stopped", "cut", "pruned", "not explored"];
const rank = (name) => ORDER.findIndex((word) => name.startsWith(word));
const SINGLES = "ends with one path each";

// The records by what becomes of them, as {name, numbers}. Ends that one path has are one group, which tells the end of each.
function groupsOfRecords(records) {
  const groups = new Map();
  records.forEach((record, number) => {
    const name = groupOf(record, number);
    if (!groups.has(name)) groups.set(name, []);
    groups.get(name).push(number);
  });
  const all = [...groups].map(([name, numbers]) => ({ name, numbers, rank: rank(name) })).sort((a, b) => a.rank - b.rank || b.numbers.length - a.numbers.length);
  const singles = all.filter(({ numbers }) => numbers.length === 1 && records[numbers[0]].kind === "path");
  if (singles.length < 2) return all;
  const joined = { name: SINGLES, numbers: singles.map(({ numbers }) => numbers[0]), rank: singles[0].rank, isMixed: true };
  return [...all.filter((group) => !singles.includes(group)), joined].sort((a, b) => a.rank - b.rank);
}

function showReport() {
  const { report } = state;
  state.groups = groupsOfRecords(report.records);
  state.shown.clear();
  state.names.clear();
  const { answer } = state;
  const pointed = answer && answer.joined ? ANSWERS[answer.kind].record(answer) : undefined;
  const wanted = state.chosen >= 0 ? state.chosen : pointed === undefined ? -1 : pointed;
  const first = state.groups.length > 0 ? state.groups[0].numbers[0] : -1;
  state.chosen = wanted < 0 ? first : Math.min(wanted, report.records.length - 1);
  state.open = new Set(state.groups.filter(({ numbers }, index) => index === 0 || state.groups.length <= 3 || numbers.includes(state.chosen)).map(({ name }) => name));
  showGroups();
  const found = report.records.map((record, number) => ({ record, number })).filter(({ record }) => isUndecided(record));
  byId("undecided").textContent = undecidedLines(found, report.records.filter(({ kind }) => kind === "path").length, casesOf(report), "path", state.job).join("\n");
  choose(state.chosen);
}

// How many sides no packet takes, by the report's own count: `--pruned count` lists none of them.
function prunedWords(refuted, listed) {
  const told = plural(Math.max(refuted, listed), "pruned side", "pruned sides"), left = refuted - listed;
  return left <= 0 ? told : `${told} (${listed === 0 ? "" : `${left.toLocaleString("en")} of them `}only counted)`;
}

function reportWords(report) {
  const counts = { path: 0, pruned: 0, unexplored: 0 };
  for (const record of report.records) counts[record.kind] += 1;
  if (report.isWalks) return plural(counts.path, "walk", "walks");
  return `${plural(counts.path, "path", "paths")}, ${prunedWords(report.refuted, counts.pruned)}, ${plural(counts.unexplored, "unexplored", "unexplored")}; `
    + `${report.state === "done" ? "done: these are all" : "partial: the limit was reached"}; ${report.hops} hops, limit ${report.limit}, `
    + (casesOf(report) === ALL_CASES ? "all choices of cases" : `at most ${casesOf(report).toLocaleString("en")} choices of cases`);
}

// Shows all that was read. Where that fails, which no file should bring about, nothing is shown of it, and the reason is told.
function showAll() {
  const { report, answer } = state;
  if (!report && !answer) {
    if (state.job) complain("The job is read. Drop its report, walks or an answer.");
    else if (state.list) complain(`The filter list is read: ${plural(state.list.length, "rule", "rules")}. Drop the answer of rules.`);
    else if (state.tables.size > 0) complain("The table is read. Drop the job that names it, and its report.");
    return;
  }
  const main = document.querySelector("main");
  try {
    byId("drop").style.display = "none";
    main.style.display = "grid";
    main.classList.toggle("alone", !report);
    joinAnswer();
    byId("summary").textContent = [report ? reportWords(report) : "", answer ? ANSWERS[answer.kind].words(answer) : ""].filter((words) => words !== "").join(" \u2014 ");
    byId("answer").className = report && answer && answer.kind !== "answer" ? "beside" : "";
    byId("answer").replaceChildren(...(answer ? ANSWERS[answer.kind].show(answer) : []));
    if (report) showReport();
    // What an earlier report left is not of this answer.
    else for (const name of ["network", "detail", "groups", "undecided"]) byId(name).replaceChildren();
  } catch (error) {
    main.style.display = "none";
    byId("drop").style.display = "block";
    byId("summary").textContent = "";
    complain(`These files cannot be shown: ${error.message}`);
  }
}

// What the answer says of the files that belong to it. Where they do not fit it, it is shown without them, and the reason is told.
function joinAnswer() {
  const { answer } = state;
  if (!answer) return;
  try {
    answer.joined = ANSWERS[answer.kind].join(answer, state);
  } catch (error) {
    answer.joined = ANSWERS[answer.kind].join(answer, { report: null, job: null, list: null });
    complain(error.message);
  }
}

const PAGE = 200;

// The name of a record: its way by boxes, of one that goes round with one round, and its traffic; of a side that no packet takes the test that is never so.
function nameOfRecord(number) {
  if (!state.names.has(number)) {
    const record = state.report.records[number], { job, tables } = state, ahead = aheadOf(number);
    const way = ahead === null ? boxesOf(job, record).join(", ") : `${boxesOf(job, { ...record, places: [...ahead, ...roundOf(number)] }).join(", ")} .. for ever`;
    state.names.set(number, { way, traffic: record.kind === "pruned" ? neverWords(job, record) : trafficWords(job, tables, record) });
  }
  return state.names.get(number);
}

function neverWords(job, record) {
  const list = stepsOf(job, record), last = list[list.length - 1];
  const isLast = last !== undefined && last.index + last.count === record.decisions.length;
  if (record.decisions.length === 0) return "no packet meets the injection";
  const words = isLast && (last.step.kind === "table" ? `in the table of ${boxOf(last.place)}` : codeWords(last.step.text));
  return isLast ? `never ${words}: ${decisionWords(last)}` : `after ${plural(record.decisions.length, "decision", "decisions")}`;
}

function recordRow(number, isMixed) {
  const { way, traffic } = nameOfRecord(number), record = state.report.records[number];
  const words = [way, traffic].filter((part) => part !== "");
  const parts = [element("span", { class: "way" }, words[0] || plural(record.decisions.length, "decision", "decisions"))];
  if (words.length > 1) parts.push("; ", element("span", { class: "traffic" }, words[1]));
  if (isUndecided(record)) parts.push(element("span", { class: "warn" }, " (undecided)"));
  if (isMixed) parts.push(element("span", { class: "end" }, ` \u2014 ${groupOf(record, number)}`));
  return element("button", { class: `record${number === state.chosen ? " chosen" : ""}`, "data-number": number, click: () => choose(number) },
    element("span", { class: "number" }, `${number}: `), element("span", {}, ...parts));
}

// What the filter says: a text that is looked for, or where a field has a value, as `10.1.0.0/16`, `where protocol UDP`, `where destination port 53`.
function filterOf(text) {
  const words = text.trim().split(/\s+/).filter((word) => !/^(==?|in|is)$/.test(word));
  const isWhere = words[0] === "where";
  const range = words.length > 0 ? rangeOf(words[words.length - 1]) : null;
  const name = words.slice(1, -1).join(" ").toLowerCase();
  // A number alone says nothing: it needs the name of a field.
  if (isWhere) return { text: "", range: range !== null && range.kinds === null && name === "" ? null : range, name };
  return words.length === 1 && range !== null && range.kinds !== null && !range.kinds.includes("protocol") ? { text: "", range, name: "" } : { text: text.trim(), range: undefined };
}

function filterNote(filter) {
  if (filter.range === undefined) return "";
  if (filter.range === null) return "Write where NAME VALUE: where destination address 10.1.0.0/16, where protocol UDP, where destination port 53.";
  return "Records whose shown packet has it, or carries it at the end; other packets may take other records too (walk follows one packet).";
}

// Each value that is shown of a record, with its name, its raw form and its kind: of its packet, and of what it carries at the end.
function shownValues(record) {
  const found = [];
  const add = (target, value) => {
    if (value === null || value === undefined) return;
    const position = positionOf(target);
    found.push({ names: `${nameOf(target)} ${target}`.toLowerCase(), kind: position && position.kind, value: BigInt(value) });
  };
  const values = packetOf(record), symbols = symbolsOf(state.job, record);
  if (values !== null) values.forEach((value, symbol) => add(symbolTarget(symbols, symbol), value));
  if (values !== null && state.job) for (const field of state.job.fields) add(field.target, field.given);
  if (!record.fields) return found;
  for (const [address, cells] of record.fields.heads) {
    for (const cell of cells) add(referenceAt(record.fields.tags, Number(address), cell[0]) || `bit ${address}`, cellValue(cell, values));
  }
  for (const [owner, name, cells] of record.fields.metas) for (const cell of cells) add(owner === null ? `global ${name}` : `local ${name} of ${owner}`, cellValue(cell, values));
  return found;
}

function hasValue(record, { range, name }) {
  if (range === null) return false;
  return shownValues(record).some(({ names, kind, value }) => names.includes(name) && (range.kinds === null || range.kinds.includes(kind)) && range.low <= value && value <= range.high);
}

function matches(record, number, filter) {
  if (filter.range !== undefined) return hasValue(record, filter);
  const wanted = filter.text;
  if (wanted === "") return true;
  const has = (text) => text.includes(wanted);
  if (String(number) === wanted || has(record.decisions.join(" ")) || (record.places || []).some(has) || (record.end && has(endWords(record.end)))) return true;
  const { way, traffic } = nameOfRecord(number);
  return has(way) || has(traffic);
}

function showGroups() {
  const filter = filterOf(byId("filter").value), isAll = filter.text === "" && filter.range === undefined;
  byId("filter-note").textContent = filterNote(filter);
  const lists = state.groups.map(({ name, numbers, isMixed }) => {
    const found = isAll ? numbers : numbers.filter((number) => matches(state.report.records[number], number, filter));
    if (found.length === 0) return null;
    const limit = state.shown.get(name) || PAGE;
    const list = element("details", { class: "group", "data-count": found.length }, element("summary", {}, `${name} (${found.length.toLocaleString("en")})`));
    // The rows of a group are made once it is open.
    const fillRows = () => {
      list.append(...found.slice(0, limit).map((number) => recordRow(number, isMixed)));
      if (found.length > limit) list.append(element("button", { class: "more", click: () => { state.shown.set(name, limit + PAGE); showGroups(); } }, `${(found.length - limit).toLocaleString("en")} more`));
    };
    list.open = state.open.has(name);
    if (list.open) fillRows();
    list.addEventListener("toggle", () => {
      state.open[list.open ? "add" : "delete"](name);
      if (list.open && list.children.length === 1) fillRows();
    });
    return list;
  });
  byId("groups").replaceChildren(...lists.filter((list) => list !== null));
}
