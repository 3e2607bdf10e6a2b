// What a file has to be like before anything is drawn of it.

// A count, a place in a list, or the number of a record.
const isCount = (value) => Number.isSafeInteger(value) && value >= 0;
// A value of a cell: a number, or past 2^64 - 1 a text of its digits.
const isValue = (value) => isCount(value) || (typeof value === "bigint" && value >= 0n) || (typeof value === "string" && /^\d{1,39}$/.test(value));
const isObject = (value) => value !== null && typeof value === "object" && !Array.isArray(value);
const isListOf = (list, test) => Array.isArray(list) && list.every(test);

// Keeps a value that symnet wrote: a report, walks, or an answer.
function keepWritten(value) {
  if (!isObject(value)) throw new Error("the file is JSON, but no report: it is no object");
  const kind = isOfLists(value) ? "lists" : Object.keys(ANSWERS).find((key) => value[key] !== undefined);
  if (value.symnet !== 1 || (kind === undefined && !Array.isArray(value.records) && !Array.isArray(value.walks))) {
    throw new Error("the file is JSON, but no report: it has neither records nor walks, and is no answer of ask, loops, compare or rules");
  }
  if (kind === undefined) {
    state.report = checkReport(value);
    return;
  }
  const answer = { ...value, kind };
  ANSWERS[kind].check(answer);
  state.answer = answer;
}

// ---- the parts of a report, as docs/formats.md, "The report", has them

const WIDEST = 128, FARTHEST = 1048576;
const CAUSES = { coupled: (cause) => isValue(cause.count), cases: (cause) => isValue(cause.count), outside: (cause) => isCount(cause.pick) && isListOf(cause.values, isValue) };
const isText = (value) => typeof value === "string";
const DECISIONS = new Set(["then", "else", "pass", "broken"]), NAMED_ENDS = new Set(["delivered", "stopped", "cut"]);
const isPlace = (value) => isText(value) && /^(in|out) [A-Za-z_]\w*\.\d{1,10}$/.test(value);
const isDecision = (value) => DECISIONS.has(value) || isCount(value);
const isPair = (value, first, second) => Array.isArray(value) && value.length === 2 && first(value[0]) && second(value[1]);
const isAddress = (value) => Number.isInteger(value) && Math.abs(value) <= FARTHEST;

function isEnd(end) {
  if (NAMED_ENDS.has(end)) return true;
  return isObject(end) && isCount(end.site) && isCount(end.fault) && end.fault >= 1 && (end.fault === 9 ? isText(end.text) : end.fault <= 8);
}

// A cell of a report, or of walks, where a value stands in place of a sum.
function isCell(cell, isWalks) {
  if (!Array.isArray(cell) || !isCount(cell[0]) || cell[0] < 1 || cell[0] > WIDEST) return false;
  if (cell.length === 1) return true;
  if (!isValue(cell[1])) return false;
  return isWalks ? cell.length === 2 : cell.length === 3 && isListOf(cell[2], (term) => isPair(term, isCount, isValue));
}

function areFields(fields, isWalks) {
  const areCells = (cells) => isListOf(cells, (cell) => isCell(cell, isWalks));
  return isObject(fields) && isListOf(fields.tags, (tag) => isPair(tag, isText, isAddress)) && isListOf(fields.heads, (head) => isPair(head, isAddress, areCells))
    && isListOf(fields.metas, (meta) => Array.isArray(meta) && meta.length === 3 && (meta[0] === null || isText(meta[0])) && isText(meta[1]) && areCells(meta[2]));
}

function isVerdict(verdict) {
  if (!isObject(verdict)) return false;
  if (verdict.sat !== undefined) return isListOf(verdict.sat, isValue);
  const why = verdict.undecided;
  return isObject(why) && Object.hasOwn(CAUSES, why.cause) && CAUSES[why.cause](why);
}

function isStep(step) {
  const counts = (list) => isListOf(list, isCount);
  if (!Array.isArray(step)) return false;
  switch (step[0]) {
    case "empty": return step.length === 3 && isCount(step[1]) && counts(step[2]);
    case "cycle": return step.length === 2 && counts(step[1]);
    case "split": return isCount(step[1]) && (step.length === 2 || (step.length === 3 && counts(step[2])));
    case "domain": return step.length === 2 && isCount(step[1]);
    default: return false;
  }
}

// A part of a path's record that has not its form, in words; null where all have.
function badPart(record, isWalks) {
  if (!isListOf(record.places, isPlace) || record.places.length === 0) return "its places are no ports";
  if (!isEnd(record.end)) return "its end is none that is known";
  if (record.end === "delivered" && !record.places[record.places.length - 1].startsWith("out ")) return "it is delivered at a port that is no output";
  if (!areFields(record.fields, isWalks)) return "its fields have not their form";
  return isWalks || isVerdict(record.verdict) ? null : "its verdict is neither a packet nor a cause";
}

const KINDS = {
  path: badPart,
  pruned: ({ before, refutation }) => (isListOf(refutation, isStep) && (before === null || isVerdict(before)) ? null : "its refutation has not its form"),
  unexplored: () => null,
};

// What every record of a report, or every walk, must have before anything is drawn of it.
function checkReport(value) {
  const isWalks = Array.isArray(value.walks);
  if (value.cases !== undefined && !(isValue(value.cases) && typeof value.cases !== "string" && value.cases >= 1)) throw new Error("the bound on choices of cases of the report is no number from 1 on");
  const records = isWalks ? value.walks.map((walk) => (isObject(walk) ? { ...walk, kind: "path", verdict: null } : walk)) : value.records;
  records.forEach((record, number) => {
    if (!isObject(record) || !Object.hasOwn(KINDS, record.kind)) throw new Error(`record ${number} of the report is none of a path, a pruned side and an unexplored one`);
    const bad = isListOf(record.decisions, isDecision) ? KINDS[record.kind](record, isWalks) : "its decisions are none";
    if (bad !== null) throw new Error(`record ${number} of the report is no whole record: ${bad}`);
  });
  if (!isWalks && !(isCount(value.hops) && isCount(value.limit) && isCount(value.refuted))) throw new Error("the report lacks its hops, its limit or the number of its refuted sides");
  if (!isWalks && value.state !== "done" && value.state !== "partial") throw new Error("the report is neither done nor partial");
  return { ...value, records, isWalks };
}
