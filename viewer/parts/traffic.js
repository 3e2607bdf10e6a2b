// The traffic of a record: for each unknown field of the injection the values to which the tests on its way narrow it. Every packet of the record has these;
// tests of several fields at once narrow nothing here, so other packets may have them too.

const MOST_RANGES = 4096;

// An address of the text as {tag, offset}: `L3+160`, `112`, `-16`; NaN where it is none.
function readAddress(text) {
  const parts = /^(?:([A-Za-z_]\w*)\s*([+-])|(-)?)\s*(\d\w*)$/.exec(text.trim());
  return parts ? { tag: parts[1] === undefined ? null : parts[1], offset: ((parts[2] || parts[3]) === "-" ? -1 : 1) * Number(parts[4]) } : { tag: null, offset: NaN };
}

// What texts are read as, kept since a report asks for the same ones again and again.
class Kept {
  constructor(read) {
    this.read = read;
    this.kept = new Map();
  }

  of(text) {
    if (!this.kept.has(text)) {
      if (this.kept.size > 20000) this.kept.clear();
      this.kept.set(text, this.read(text));
    }
    return this.kept.get(text);
  }
}

// A reference as {address}, or {name, isLocal} of metadata.
const references = new Kept((text) => {
  const head = /^head\s*(.*?)\s*:\s*\w+$/.exec(text), meta = /^(global|local)\s+(\w+)/.exec(text);
  return head ? { address: readAddress(head[1]) } : meta ? { name: `${meta[1]} ${meta[2]}`, isLocal: meta[1] === "local" } : { name: "none", isLocal: false };
});
const referenceOf = (text) => references.of(text);

// What the packet carries where a record is followed: the addresses of tags, and the cells at each place, each as {symbol, add}, {constant}, or null for anything else.
class Carried {
  constructor(job) {
    this.job = job;
    this.tags = new Map();
    this.cells = new Map();
    for (const rest of job.tags) { const [name, address] = rest.split("="); this.tags.set(name.trim(), [this.addressOf(readAddress(address))]); }
    let symbol = 0;
    for (const { target, given, width } of job.fields) {
      this.stackOf(target, null).push(given === null ? { symbol: symbol++, add: 0n, width } : { constant: given });
    }
  }

  // The number that an address stands for. NaN where its tag is absent.
  addressOf({ tag, offset }) {
    if (tag === null) return offset;
    const stack = this.tags.get(tag);
    return stack === undefined || stack.length === 0 ? NaN : stack[stack.length - 1] + offset;
  }

  stackOf(text, box) {
    const reference = referenceOf(text);
    const key = reference.address ? this.addressOf(reference.address) : reference.isLocal ? `${reference.name} ${box}` : reference.name;
    let stack = this.cells.get(key);
    if (stack === undefined) { stack = []; this.cells.set(key, stack); }
    return stack;
  }

  // What an expression is, as it is read by readExpression.
  valueOf(expression, box) {
    if (expression === null) return null;
    if (expression.number !== undefined) return { constant: expression.number };
    const stack = this.stackOf(expression.reference, box), cell = stack[stack.length - 1] || null;
    if (cell === null || expression.add === 0n) return cell;
    return cell.symbol === undefined ? null : { ...cell, add: cell.add + expression.add };
  }

  run({ kind, text }, box) {
    const { target, source, value } = settings.of(text.slice(kind.length).trim());
    switch (kind) {
      case "allocate": this.stackOf(target, box).push(null); break;
      case "deallocate": this.stackOf(target, box).pop(); break;
      case "set": {
        const given = this.valueOf(value, box), stack = this.stackOf(target, box);
        stack[Math.max(stack.length - 1, 0)] = given;
        break;
      }
      case "tag": case "retag": {
        const address = this.addressOf(readAddress(source)), stack = this.tags.get(target) || [];
        this.tags.set(target, kind === "tag" && this.job.version !== 1 ? [...stack, address] : [...stack.slice(0, -1), address]);
        break;
      }
      case "untag": this.tags.set(target, (this.tags.get(target) || []).slice(0, -1)); break;
      default: break;
    }
  }
}

const FLIPPED = { "<": ">", ">": "<", "<=": ">=", ">=": "<=", "==": "==", "!=": "!=" };

// The values below which `kind number` is true, of this width.
function comparedSet(kind, number, width) {
  const [[, last]] = allOf(width), whole = allOf(width);
  const upTo = (end) => (end < 0n ? [] : [[0n, least(end, last)]]);
  switch (kind) {
    case "==": return number > last ? [] : [[number, number]];
    case "!=": return without(whole, number > last ? [] : [[number, number]]);
    case "<": return upTo(number - 1n);
    case "<=": return upTo(number);
    case ">": return without(whole, upTo(number));
    case ">=": return without(whole, upTo(number - 1n));
    default: return null;
  }
}

// The test as a field and its set of values where it is true; null where it is of something else.
function fieldTest({ kind, left, right, ranges }, carried, box) {
  const one = carried.valueOf(left, box);
  if (kind === "in") return one && { value: one, within: ranges };
  const two = carried.valueOf(right, box);
  const [value, number, by] = two && two.constant !== undefined ? [one, two.constant, kind] : one && one.constant !== undefined ? [two, one.constant, FLIPPED[kind]] : [null];
  if (!value) return null;
  return { value, within: comparedSet(by, number, value.width || 128) };
}

// What a condition with this truth says of the fields, beside what is known: a set for each symbol that it narrows. Null where it cannot have this truth.
function narrowed(tree, isTrue, known, carried, box) {
  switch (tree.kind) {
    case "true": return isTrue ? new Map() : null;
    case "not": return narrowed(tree.part, !isTrue, known, carried, box);
    case "and": case "or": {
      if ((tree.kind === "and") === isTrue) return allParts(tree.parts, isTrue, known, carried, box);
      const ways = tree.parts.map((part) => narrowed(part, isTrue, known, carried, box)).filter((way) => way !== null);
      return ways.length === 0 ? null : anyWay(ways);
    }
    default: {
      const found = fieldTest(tree, carried, box);
      if (!found || found.within === null || found.within.length > MOST_RANGES) return new Map();
      const { value, within } = found;
      if (value.constant !== undefined) return within.some(([low, high]) => low <= value.constant && value.constant <= high) === isTrue ? new Map() : null;
      const whole = known.get(value.symbol) || allOf(value.width), wanted = shifted(isTrue ? within : without(allOf(value.width), within), value.add, value.width);
      const left = common(whole, wanted);
      return left.length === 0 ? null : new Map([[value.symbol, left]]);
    }
  }
}

// All of these parts have the truth.
function allParts(parts, isTrue, known, carried, box) {
  const all = new Map(known), found = new Map();
  for (const part of parts) {
    const more = narrowed(part, isTrue, all, carried, box);
    if (more === null) return null;
    for (const [symbol, set] of more) { all.set(symbol, set); found.set(symbol, set); }
  }
  return found;
}

// One of these is so: a field is narrowed to what any of them leaves, where each narrows it.
function anyWay(ways) {
  const found = new Map();
  for (const symbol of ways[0].keys()) {
    if (ways.every((way) => way.has(symbol))) found.set(symbol, joinedRanges(ways.flatMap((way) => way.get(symbol)).map(([low, high]) => [low, high])));
  }
  return found;
}

// The tree of a condition. Null where it cannot be read.
const trees = new Kept((text) => { try { return readCondition(text); } catch { return null; } });
const treeOf = (text) => trees.of(text);

// The parts of an instruction's text behind its kind, and those on both sides of its `=`, which are read once.
const settings = new Kept((text) => {
  const parts = /^(.*?)=(.*)$/s.exec(text);
  return parts ? { target: parts[1].trim(), source: parts[2].trim(), value: readExpression(parts[2].trim()) } : { target: text, source: "", value: null };
});

// The addresses that a table's decisions leave, where its file is given: {set, isTrue}. Null where they say nothing.
function tableTest({ place, step: { table }, port, isTaken, isNone }, tables) {
  const file = tables.get(table.file.split("/").pop()), sets = file && file.kind === table.kind ? setsOf(file) : null;
  if (sets === null) return null;
  if (isNone) return { set: sets.all, isTrue: false };
  const own = sets.ports.get(port) || [];
  if (!place.startsWith("out ")) return isTaken ? { set: own, isTrue: true } : null;
  return { set: table.kind === "fib" ? own : joinedRanges([...own, ...without(allOf(48), sets.all)].map(([low, high]) => [low, high])), isTrue: isTaken };
}

// The traffic of a record: a map from symbols to sets, and that of the injection, which all records have.
function trafficOf(job, tables, record) {
  const carried = new Carried(job);
  let known = new Map();
  const take = (tree, isTrue, box) => {
    const more = tree === null ? new Map() : narrowed(tree, isTrue, known, carried, box);
    if (more !== null) known = new Map([...known, ...more]);
  };
  for (const { test } of job.wheres) take(treeOf(test), true, null);
  const injected = known;
  for (const event of courseOf(job, record).events) {
    const { step, decision } = event, box = boxOf(event.place);
    if (step.kind === "if" || step.kind === "constrain") take(treeOf(step.test), decision === "then" || decision === "pass", box);
    else if (step.kind === "table") {
      const test = tableTest(event, tables);
      if (test !== null) take({ kind: "in", left: readExpression(ADDRESSED[step.table.kind]), ranges: test.set }, test.isTrue, box);
    } else if (!["fork", "forward", "fail"].includes(step.kind)) carried.run(step, box);
  }
  return { known, injected };
}

// ---- in words

const IN_WORDS = 3;
// Behind which word a field stands in the name of a path, in this order; the others come behind with their names.
const WORDS = new Map([["protocol", ""], ["next header", ""], ["source address", "from "], ["destination address", "to "], ["Ethernet source", "from "], ["Ethernet destination", "to "],
  ["source port", "source port "], ["destination port", "port "]]);
const LIFETIMES = ["TTL", "hop limit"];

// A set in words: its ranges, or those that it lacks of the whole where they are fewer. Null where it is the whole.
function setWords(kind, set, whole) {
  if (isSameSet(set, whole)) return null;
  const rest = without(whole, set), isNot = rest.length < set.length || (rest.length === set.length && kind !== "number" && kind !== undefined && sizeOf(rest) < sizeOf(set));
  const listed = isNot ? rest : set, [first] = listed, last = whole[whole.length - 1][1];
  if (!isNot && set.length === 1 && (kind === undefined || kind === "number") && first[0] !== first[1]) {
    if (first[0] === whole[0][0]) return `\u2264 ${first[1]}`;
    if (first[1] === last) return `\u2265 ${first[0]}`;
  }
  const words = listed.slice(0, IN_WORDS).map(([low, high]) => rangeWords(kind, low, high)), more = listed.length - IN_WORDS;
  return `${isNot ? "not " : ""}${more > 0 ? `${words.join(", ")} and ${more.toLocaleString("en")} more` : words.join(", ").replace(/, ([^,]*)$/, " or $1")}`;
}

// The traffic of a record in words, as `TCP to 10.2.0.0/16 port 80`. Empty where no test narrows a field, or no job is given.
function trafficWords(job, tables, record) {
  if (!job) return "";
  const { known, injected } = trafficOf(job, tables, record), fields = unknownFields(job);
  const order = [...WORDS.keys()], rank = (name) => (order.includes(name) ? order.indexOf(name) : order.length);
  const parts = [...known].filter(([symbol]) => symbol < fields.length).map(([symbol, set]) => {
    const { target, width } = fields[symbol], position = positionOf(target), name = position ? position.name : target.replace(/^(?:head|global) |:\w+$/g, "");
    const words = setWords(position && position.kind, set, injected.get(symbol) || allOf(width));
    // That a packet may go on is no news.
    if (words === null || (LIFETIMES.includes(name) && sizeOf(set) * 2n > 1n << BigInt(width))) return null;
    const before = WORDS.get(name) === undefined ? `${name} ` : WORDS.get(name), isNot = words.startsWith("not ");
    return { rank: rank(name), symbol, isNot, words: isNot ? `not ${before}${words.slice(4)}` : `${before}${words}` };
  }).filter((part) => part !== null).sort((a, b) => a.rank - b.rank || a.symbol - b.symbol);
  // What the packets are comes before what they are not.
  return [parts.filter(({ isNot }) => !isNot).map(({ words }) => words).join(" "), ...parts.filter(({ isNot }) => isNot).map(({ words }) => words)].filter((words) => words !== "").join(", ");
}
