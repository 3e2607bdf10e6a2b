// Words for the parts of a report.

const FAULTS = {
  1: "no such tag", 2: "an address out of range", 3: "no field at the address", 4: "a field of another width", 5: "fields that overlap",
  6: "a field that is not set", 7: "no such metadata", 8: "a constraint that is not met", 9: "fail",
};

const plural = (count, one, many) => `${count.toLocaleString("en")} ${count === 1 ? one : many}`;

function endWords(end) {
  if (end === "delivered") return "delivered";
  if (end === "stopped") return "stopped at the end of a code";
  if (end === "cut") return "cut: no hop left";
  if (end && typeof end === "object") {
    if (end.fault === 9) return `fail "${end.text}" (item ${end.site})`;
    return `fault ${end.fault}: ${FAULTS[end.fault] || "unknown"} (item ${end.site})`;
  }
  return "unknown end";
}

// Why a path is undecided, and what settles it, as python/symnet/causes.py says it.

const USUAL_CASES = 4096, ALL_CASES = 2n ** 64n - 1n;
const COUPLED = "more than 64 values depend on one another";
const OUTSIDE = "a test is past the solver, as a sum of fields or a field wider than 64 bits beside another";
const NARROW = "give a field a value, or narrow the injection by where lines";
const HINT = "explore prints these records with their causes; where they have more choices of cases than the bound, --cases all tries them";
const casesOf = (report) => BigInt(report.cases === undefined ? USUAL_CASES : report.cases);
const tooMany = (cases) => (cases === null ? "more choices of cases than the bound" : `more than ${cases.toLocaleString("en")} choices of cases`);

// The words of the test that a cause names: the tests of the injection come first, then those of the decisions, in their order.
function testWords(job, record, pick) {
  if (!job) return `test ${pick}`;
  if (pick < job.wheres.length) return `line ${job.wheres[pick].line}, ${codeWords(job.wheres[pick].text)}`;
  const at = record.decisions.map((decision, index) => (typeof decision === "string" ? index : -1)).filter((index) => index >= 0)[pick - job.wheres.length];
  if (at === undefined) return `test ${pick}`;
  const found = stepsOf(job, record).find(({ index, count }) => index <= at && at < index + count);
  return found === undefined ? `decision ${at}, ${record.decisions[at]}` : `line ${found.step.line}, ${codeWords(found.step.text)}`;
}

const NUMBERS = 10, TESTS = 20;

// The numbers of records, the first of many.
function recordsWords(numbers) {
  const more = numbers.length - NUMBERS;
  return `${numbers.length === 1 ? "record" : "records"} ${numbers.slice(0, NUMBERS).join(", ")}${more > 0 ? ` and ${more.toLocaleString("en")} more` : ""}`;
}

// How many of some records are undecided by which cause, and what settles them.
function undecidedLines(found, total, cases, kind, job) {
  const lines = [];
  for (const [cause, one, many, settles] of [["cases", `it has ${tooMany(cases)}`, `they have ${tooMany(cases)}`, "--cases all tries them"],
    ["coupled", COUPLED, COUPLED, NARROW], ["outside", OUTSIDE, OUTSIDE, NARROW]]) {
    const of = found.filter(({ record }) => record.verdict.undecided.cause === cause);
    if (of.length > 0) lines.push(`${of.length.toLocaleString("en")} of ${total.toLocaleString("en")} ${kind}s ${of.length === 1 ? "is" : "are"} undecided since ${of.length === 1 ? one : many}; ${settles}`);
    if (cause !== "outside") continue;
    const byTest = new Map();
    for (const { record, number } of of) {
      const words = testWords(job, record, record.verdict.undecided.pick);
      if (!byTest.has(words)) byTest.set(words, []);
      byTest.get(words).push(number);
    }
    lines.push(...[...byTest].slice(0, TESTS).map(([words, numbers]) => `  ${words}: ${recordsWords(numbers)}`));
    if (byTest.size > TESTS) lines.push(`  and ${(byTest.size - TESTS).toLocaleString("en")} tests more`);
  }
  return lines;
}

const isUndecided = (record) => record !== undefined && record.kind === "path" && Boolean(record.verdict && record.verdict.undecided);

// Why these records leave a question open, as far as the report is given.
function openLines(report, numbers, job) {
  if (!report || report.isWalks || numbers.some((number) => number >= report.records.length)) return [HINT];
  const listed = numbers.map((number) => ({ number, record: report.records[number] }));
  const found = listed.filter(({ record }) => isUndecided(record)), untried = listed.filter(({ record }) => record.kind === "unexplored").length;
  const decided = listed.length - found.length - untried, lines = undecidedLines(found, listed.length, casesOf(report), "record", job);
  if (untried > 0) lines.push(`${untried} of ${listed.length} records ${untried === 1 ? "was" : "were"} not tried, since the limit was met; raise --limit`);
  if (decided > 0) {
    const [verb, them, they] = decided === 1 ? ["is", "it", "it"] : ["are", "them", "they"];
    const settles = casesOf(report) === ALL_CASES ? `${OUTSIDE}, or ${COUPLED}` : `with the question ${they} may have ${tooMany(null)}; --cases all tries them`;
    lines.push(`${decided} of ${listed.length} records ${verb} decided, and the question on ${them} is not: ${settles}`);
  }
  return lines;
}

const VISIT_CAUSES = { cases: `there are ${tooMany(null)}; --cases all tries them`, coupled: COUPLED, outside: OUTSIDE };
const visitCause = (cause) => (Object.hasOwn(VISIT_CAUSES, cause) ? VISIT_CAUSES[cause] : cause);

// The field that a symbol is, or what a choice on the way sets; its number among the choices where that is not known. The symbols are those of symbolsOf.
function symbolTarget(symbols, symbol) {
  if (symbols === null) return `symbol ${symbol}`;
  return symbol < symbols.length ? symbols[symbol].target : `choice ${symbol - symbols.filter(({ isChoice }) => !isChoice).length}`;
}

const symbolName = (symbols, symbol) => (symbols !== null && symbol < symbols.length && symbols[symbol].name) || nameOf(symbolTarget(symbols, symbol));

// A cell is [width], [width, value] in walks, or [width, constant, [[symbol, coefficient], ..]]; the kind says how its values are written.
function cellWords(cell, symbols, kind) {
  if (cell.length === 1) return "not set";
  if (cell.length === 2 || cell[2].length === 0) return valueWords(kind, cell[1]);
  const width = BigInt(cell[0]);
  const parts = [];
  for (const [symbol, coefficient] of cell[2]) {
    const factor = BigInt(coefficient);
    const isNegative = width > 1n && factor > 1n << (width - 1n);
    const size = isNegative ? (1n << width) - factor : factor;
    const name = `{${symbolName(symbols, Number(symbol))}}`;
    parts.push(`${isNegative ? "- " : parts.length > 0 ? "+ " : ""}${size === 1n ? "" : `${size} * `}${name}`);
  }
  const constant = BigInt(cell[1]);
  if (constant !== 0n) {
    const isNegative = constant > 1n << (width - 1n);
    parts.push(`${isNegative ? "- " : "+ "}${isNegative ? (1n << width) - constant : constant}`);
  }
  return parts.join(" ");
}

// The value of a cell for the packet with these numbers.
function cellValue(cell, values) {
  if (cell.length < 3) return cell.length === 2 ? BigInt(cell[1]) : null;
  if (values === null) return null;
  let sum = BigInt(cell[1]);
  if (cell[2].some(([symbol]) => symbol >= values.length)) return null;
  for (const [symbol, coefficient] of cell[2]) sum += BigInt(coefficient) * BigInt(values[symbol]);
  return sum % (1n << BigInt(cell[0]));
}

const sameAs = (cell, symbol) => cell.length === 3 && BigInt(cell[1]) === 0n && cell[2].length === 1 && Number(cell[2][0][0]) === symbol && BigInt(cell[2][0][1]) === 1n;

// A test of a path, or the member of it to which the numbers of a split lead.
const memberWords = (pick, way = []) => `${way.map((number) => `part ${number} of `).reverse().join("")}test ${pick}`;

function refutationWords(steps, symbols) {
  return steps.map((step) => {
    switch (step[0]) {
      case "empty": return `no value of {${symbolName(symbols, step[1])}} meets the tests ${step[2].join(", ")} at once`;
      case "domain": return `for each range of values that {${symbolName(symbols, step[1])}} may have:`;
      case "split": return `for each way in which ${memberWords(step[1], step[2])} can have its truth (none, where nothing follows):`;
      case "cycle": return `the bounds ${step[1].join(", ")} together ask a sum below zero to be at least zero`;
      default: return JSON.stringify(step);
    }
  });
}
