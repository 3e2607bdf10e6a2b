// What a record runs: the instructions of the job along its decisions.

// The table of a node: its kind, file and style. Null where it is none that is known.
function tableOf(node) {
  const parts = /^(fib|mac) "([^"]*)" (chain|grouped|egress)$/.exec(node.table);
  return parts ? { kind: parts[1], file: parts[2], style: parts[3] } : null;
}

const ADDRESSED = { fib: "head L3+128:32", mac: "head L2+0:48" };

// The ports to which the tests of a table's node lead, in their order, where its file is given.
function testedPorts({ kind, file, style }, tables) {
  const table = tables.get(file.split("/").pop());
  if (!table || table.kind !== kind || table.rows === null || style === "egress") return [];
  if (style === "grouped") return [...setsOf(table).ports.keys()].sort((a, b) => a - b);
  const order = (a, b) => (a.high - a.low === b.high - b.low ? a.low - b.low : a.high - a.low - b.high + b.low);
  const rows = [...table.rows].sort((a, b) => { const by = order(a, b); return by < 0n ? -1 : by > 0n ? 1 : 0; });
  return rows.filter(({ low, high }, at) => at === 0 || low !== rows[at - 1].low || high !== rows[at - 1].high).map(({ port }) => port);
}

// Follows a record through the code of the job: each instruction that is run, with its place and, of a test, a copy and a table, with its decisions. It stops at a
// loop over names, whose iterations depend on what is allocated, and at a table where nothing tells by which port the path goes on.
function courseOf(job, record) {
  const events = [], visited = [];
  if (!job) return { events, visited };
  const course = { events, decisions: record.decisions, at: 0, places: record.places || null };
  let place = job.inject;
  for (let hops = 0; hops < 600; hops += 1) {
    // Where the job is not that of the report, the record's own ports tell.
    if (course.places !== null && course.places[hops] !== place) return { events, visited };
    visited.push(place);
    const isIn = place.startsWith("in "), node = job.nodes.get(boxOf(place));
    if (!node) return { events, visited };
    const outcome = node.table !== null ? throughTable(course, node, place, hops) : runCode(course, node.ports.get(place) || [], place);
    if (outcome === "unknown" || outcome === "over") return { events, visited };
    if (typeof outcome === "number") place = `out ${node.name}.${outcome}`;
    else if (isIn || !job.links.has(place)) return { events, visited };
    else place = job.links.get(place);
  }
  return { events, visited };
}

// Tells what decisions of a table's node say: `port` where its address is or is not (`isTaken`), that no row has it (`isNone`), or that none of its first tests does.
function tellTable(course, node, table, place, count, told) {
  const { events, decisions, at } = course;
  if (count > 0) events.push({ place, step: { kind: "table", line: node.line, text: `${node.text} = ${node.table}`, table }, index: at, decision: decisions.slice(at, at + count).join(" "), count, ...told });
  course.at += count;
}

// The decisions of a table's node at a place, by the code of its style: see docs/formats.md, "Tables".
function throughTable(course, node, place, hops) {
  const table = tableOf(node);
  if (table === null) return "unknown";
  return place.startsWith("out ") ? leaveTable(course, node, table, place) : enterTable(course, node, table, place, course.places === null ? undefined : course.places[hops + 1]);
}

// At an input port: tests that are false, and one that is true, or a copy for a port. The next of the path's own places tells the port; so does the table's file.
function enterTable(course, node, table, place, next) {
  const { decisions, at, places } = course, tests = testedPorts(table, state.tables);
  let count = 0;
  if (table.style !== "egress") while (decisions[at + count] === "else") count += 1;
  const last = decisions[at + count], isFork = typeof last === "number", isFound = last === "then";
  // Where the decisions of a path end here, or a copy is made, or all tests are known, none of the tests is true; else some may be left.
  const isNone = table.style !== "egress" && !isFound && (isFork || places !== null || (tests.length > 0 && count === tests.length));
  const port = isFork ? last : !isFound ? null : next !== undefined ? Number(portOf(next)) : tests[count] ?? null;
  tellTable(course, node, table, place, count + (last === undefined ? 0 : 1), { port, isTaken: isFound, isFork, isNone });
  if (port !== null) return port;
  return isFound ? "unknown" : "over";
}

// At an output port of the style egress the address is to be one of this port's.
function leaveTable(course, node, table, place) {
  const decision = course.decisions[course.at];
  if (table.style !== "egress") return "off";
  if (decision === undefined) return "over";
  tellTable(course, node, table, place, 1, { port: Number(portOf(place)), isTaken: decision === "pass", isFork: false, isNone: false });
  return decision === "broken" ? "over" : "off";
}

// Whether a decision may be one of a test or a copy.
const DECIDED = { if: (decision) => decision === "then" || decision === "else", constrain: (decision) => decision === "pass" || decision === "broken", fork: (decision) => isCount(decision) };

// Runs a port's code along the decisions: "off" its end, "over" where nothing goes on, "unknown", or an output port.
function runCode(course, code, place) {
  const pending = [code.slice().reverse()];
  while (pending.length > 0) {
    const frame = pending[pending.length - 1];
    if (frame.length === 0) { pending.pop(); continue; }
    const step = frame.pop();
    switch (step.kind) {
      case "block": pending.push(step.body.slice().reverse()); break;
      case "for": return "unknown";
      case "forward": case "fail":
        course.events.push({ place, step, decision: null, count: 0 });
        return step.kind === "fail" ? "over" : step.port;
      case "if": case "constrain": case "fork": {
        const decision = course.decisions[course.at];
        if (decision === undefined) return "over";
        if (!DECIDED[step.kind](decision)) return "unknown";
        course.events.push({ place, step, decision, index: course.at, count: 1 });
        course.at += 1;
        if (step.kind === "fork") return step.ports[decision] === undefined ? "unknown" : step.ports[decision];
        if (decision === "broken") return "over";
        if (step.kind === "if") pending.push((decision === "then" ? step.then : step.other).slice().reverse());
        break;
      }
      default: course.events.push({ place, step, decision: null, count: 0 });
    }
  }
  return "off";
}

// The tests, copies and tables that a record's decisions stand for, as far as it can be followed.
const stepsOf = (job, record) => courseOf(job, record).events.filter(({ decision }) => decision !== null);

// What the choices on a record's way set, in order, as far as it can be followed.
const choicesOf = (job, record) => courseOf(job, record).events.filter(({ step }) => step.kind === "set").map(({ step }) => settings.of(step.text.slice(3).trim())).filter(({ source }) => source === "any").map(({ target }) => target);

// What the numbers of a record's packet are, in order: the unknown fields, and the choices on its way by what they set, with a count where that is an earlier one too.
// Null where the job is not given; the fields alone where no record is.
function symbolsOf(job, record) {
  const fields = unknownFields(job);
  if (fields === null || !record) return fields;
  const values = packetOf(record);
  // A packet of the fields alone has no choice.
  if (values !== null && values.length <= fields.length) return fields;
  const symbols = fields.slice();
  for (const target of choicesOf(job, record)) {
    const name = nameOf(target).replace(/^(?:global|local) (\w+):\w+$/, "$1"), earlier = symbols.filter((symbol) => symbol.target === target).length;
    symbols.push({ target, name: earlier === 0 ? name : `${name} (${earlier + 1})`, isChoice: true });
  }
  return symbols;
}

// The ports of a record's way; of one without places as far as its decisions can be followed.
const placesOf = (job, record) => record.places || courseOf(job, record).visited;

const boxesOf = (job, record) => placesOf(job, record).filter((place) => place.startsWith("in ")).map(boxOf);
