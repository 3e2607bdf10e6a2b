// Sets of values as ascending ranges that do not touch, and the conditions of a job.

const least = (a, b) => (a < b ? a : b), greatest = (a, b) => (a > b ? a : b);

function joinedRanges(ranges) {
  const sorted = [...ranges].sort((a, b) => (a[0] < b[0] ? -1 : a[0] > b[0] ? 1 : 0)), joined = [];
  for (const [low, high] of sorted) {
    const last = joined[joined.length - 1];
    if (last !== undefined && low <= last[1] + 1n) last[1] = greatest(last[1], high);
    else joined.push([low, high]);
  }
  return joined;
}

function common(one, two) {
  const found = [];
  for (let a = 0, b = 0; a < one.length && b < two.length;) {
    const low = greatest(one[a][0], two[b][0]), high = least(one[a][1], two[b][1]);
    if (low <= high) found.push([low, high]);
    if (one[a][1] < two[b][1]) a += 1; else b += 1;
  }
  return found;
}

// What of one set is not in the other.
function without(one, two) {
  const last = one.length === 0 ? 0n : one[one.length - 1][1], rest = [];
  let from = 0n;
  for (const [low, high] of two) {
    if (low > from) rest.push([from, low - 1n]);
    from = high + 1n;
  }
  if (from <= last) rest.push([from, last]);
  return common(one, rest);
}

const isSameSet = (one, two) => one.length === two.length && one.every(([low, high], at) => low === two[at][0] && high === two[at][1]);
const sizeOf = (set) => set.reduce((sum, [low, high]) => sum + high - low + 1n, 0n);
const allOf = (width) => [[0n, (1n << BigInt(width)) - 1n]];

// The set of the values that are in this one once `add` is added, modulo 2^width.
function shifted(set, add, width) {
  const size = 1n << BigInt(width), by = ((add % size) + size) % size;
  if (by === 0n) return set;
  const wrap = (value) => ((value - by) % size + size) % size;
  return joinedRanges(set.flatMap(([low, high]) => {
    const [from, to] = [wrap(low), wrap(high)];
    return from <= to ? [[from, to]] : [[from, size - 1n], [0n, to]];
  }));
}

// ---- conditions

const COMPARISONS = ["==", "!=", "<=", ">=", "<", ">"], ENDS_EXPRESSION = new Set([...COMPARISONS, "in", "and", "or", "]", "}"]);
// Behind these stands a name, which may be any word, as `and`.
const BEFORE_NAME = new Set(["head", "global", "local", "$"]);
const NESTING = 70;

// A reader of conditions by the grammar of docs/grammar.md. It throws where a text is none.
class ConditionReader {
  constructor(text) {
    this.tokens = tokensOf(text).map((token) => token.text);
    this.at = 0;
  }

  peek() {
    return this.tokens[this.at];
  }

  next() {
    if (this.at >= this.tokens.length) throw new Error("a condition ends too soon");
    this.at += 1;
    return this.tokens[this.at - 1];
  }

  // Members that a word joins, as one tree.
  joined(word, member) {
    const parts = [member()];
    while (this.peek() === word) { this.next(); parts.push(member()); }
    return parts.length === 1 ? parts[0] : { kind: word, parts };
  }

  condition(depth) {
    return this.joined("or", () => this.joined("and", () => this.negation(depth)));
  }

  negation(depth) {
    if (depth > NESTING) throw new Error("a condition is nested too deep");
    switch (this.peek()) {
      case "not": this.next(); return { kind: "not", part: this.negation(depth + 1) };
      case "true": this.next(); return { kind: "true" };
      case "[": {
        this.next();
        const inner = this.condition(depth + 1);
        if (this.next() !== "]") throw new Error("a bracket is not closed");
        return inner;
      }
      default: return this.test();
    }
  }

  test() {
    const left = this.expression(), kind = this.next();
    if (kind === "in") return { kind, left, ranges: this.ranges() };
    if (!COMPARISONS.includes(kind)) throw new Error("a test compares nothing");
    return { kind, left, right: this.expression() };
  }

  ranges() {
    const ranges = [];
    this.next();
    while (this.peek() !== "}") {
      const low = BigInt(this.next());
      let high = low;
      if (this.peek() === "..") { this.next(); high = BigInt(this.next()); }
      if (this.peek() === ",") this.next();
      if (low <= high) ranges.push([low, high]);
    }
    this.next();
    return joinedRanges(ranges);
  }

  expression() {
    const first = this.at;
    let open = 0;
    while (this.at < this.tokens.length && !(open === 0 && ENDS_EXPRESSION.has(this.peek()))) {
      open += this.peek() === "(" ? 1 : this.peek() === ")" ? -1 : 0;
      this.at += BEFORE_NAME.has(this.peek()) ? 2 : 1;
    }
    return readExpression(this.tokens.slice(first, this.at).join(" "));
  }
}

// Reads a condition as a tree: {kind: "and" | "or", parts}, {kind: "not", part}, {kind: "true"}, or a test {kind: "in", left, ranges} or {kind: a comparison,
// left, right} of expressions. An expression is {reference, add}, {number}, or null where it is anything else.
function readCondition(text) {
  const reader = new ConditionReader(text), tree = reader.condition(0);
  if (reader.at < reader.tokens.length) throw new Error("something stands behind a condition");
  return tree;
}

// An expression that is a number, or a reference with a number added or taken away.
function readExpression(text) {
  if (/^(?:\d+|0x[0-9A-Fa-f]+)$/.test(text)) return { number: BigInt(text) };
  const parts = /^(head (?:[A-Za-z_]\w* ?[+-] ?\w+|(?:- ?)?\w+) ?: ?\w+|(?:global|local) \w+ ?: ?\w+)(?: ?([+-]) ?(\d+|0x[0-9A-Fa-f]+))?$/.exec(text.replace(/\s+/g, " "));
  if (!parts) return null;
  const add = parts[3] === undefined ? 0n : BigInt(parts[3]);
  return { reference: parts[1].replace(/ ?([+\-:]) ?/g, "$1"), add: parts[2] === "-" ? -add : add };
}
