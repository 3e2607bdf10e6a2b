// Filter lists.

const LIST_FIELDS = [
  { name: "protocol", kind: "protocol", greatest: 255 }, { name: "source address", kind: "ip4", greatest: 4294967295 },
  { name: "destination address", kind: "ip4", greatest: 4294967295 }, { name: "source port", kind: "number", greatest: 65535 },
  { name: "destination port", kind: "number", greatest: 65535 },
];
const RULE_LIMIT = 1024;

const isList = (name, text) => name.endsWith(".acl") || /^\s*(?:#[^\n]*\n\s*)*(?:permit|deny)\b/.test(text);

// Reads a filter list: its rules, each with its line, its text, whether it permits, and its five ranges. docs/filter-lists.md has the form.
function readList(text) {
  const rules = [];
  const lines = text.split("\n");
  lines.forEach((line, index) => {
    const content = index < lines.length - 1 ? line.replace(/\r$/, "") : line;
    const where = `line ${index + 1} of the filter list is no rule`;
    if (/[^\x00-\x7f]/.test(content)) throw new Error(`${where}: it is not ASCII`);
    const words = content.replace(/#.*/s, "").split(/[ \t]+/).filter((word) => word !== "");
    if (words.length === 0) return;
    const rule = { line: index + 1, text: words.join(" "), permits: words[0] === "permit", ranges: rangesOf(words, where) };
    if (rules.length === RULE_LIMIT) throw new Error(`line ${index + 1} of the filter list is past the limit of ${RULE_LIMIT} rules`);
    rules.push(rule);
  });
  return rules;
}

function rangesOf(words, where) {
  if (words[0] !== "permit" && words[0] !== "deny") throw new Error(`${where}: it begins with neither permit nor deny`);
  if (words.length !== 6) throw new Error(`${where}: behind permit or deny stand protocol, source, destination, source port and destination port`);
  return LIST_FIELDS.map((field, index) => {
    const word = words[index + 1];
    const range = field.kind === "ip4" ? prefixRange(word) : numberRange(word, field.greatest, field.kind === "number");
    if (range === null) throw new Error(`${where}: '${word}' is no ${field.name}`);
    return range;
  });
}

function prefixRange(word) {
  const parts = /^(\d{1,3})\.(\d{1,3})\.(\d{1,3})\.(\d{1,3})\/(0|[1-9]\d?)$/.exec(word);
  if (!parts) return null;
  const range = rangeOf(word);
  return range === null ? null : [Number(range.low), Number(range.high)];
}

function numberRange(word, greatest, mayBeRange) {
  if (word === "any") return [0, greatest];
  const parts = /^(0|[1-9]\d{0,4})(?:-(0|[1-9]\d{0,4}))?$/.exec(word);
  if (!parts || (parts[2] !== undefined && !mayBeRange)) return null;
  const low = Number(parts[1]), high = parts[2] === undefined ? low : Number(parts[2]);
  return low <= high && high <= greatest ? [low, high] : null;
}

const isWithin = (range, value) => range[0] <= value && value <= range[1];
const hasPacket = (ranges, values) => ranges.every((range, field) => isWithin(range, values[field]));
const hasPart = (ranges, part) => ranges.every((range, field) => range[0] <= part[field][0] && part[field][1] <= range[1]);

// The parts of a rule's packets that its cover tells apart, each with the earlier rule that has all of it. The steps are read as
// docs/filter-lists.md says, each for the first part that is left.
function partsOf(cover, whole, number) {
  const left = [whole], parts = [];
  const wrong = (what) => { throw new Error(`rule ${number} of the answer: ${what}`); };
  for (const step of cover) {
    const part = left.pop();
    if (part === undefined) wrong("its cover goes on behind its end");
    const [kind, first, at] = Array.isArray(step) ? step : [];
    if (kind === "inside" && step.length === 2 && isCount(first)) {
      if (first >= number) wrong(`its cover names rule ${first}, which is no earlier one`);
      parts.push({ rule: first, part });
    } else if (kind === "cut" && step.length === 3 && isCount(first) && first < LIST_FIELDS.length && isCount(at)) {
      const [low, high] = part[first];
      if (at <= low || at > high) wrong(`its cover cuts the ${LIST_FIELDS[first].name} at ${at}, which is not in ${low}..${high}`);
      const side = (range) => part.map((old, field) => (field === first ? range : old));
      left.push(side([at, high]), side([low, at - 1]));
    } else {
      wrong("a step of its cover is neither inside nor cut");
    }
  }
  if (left.length > 0) wrong("its cover ends too soon");
  return parts;
}

// What the answer says of each rule, and, where the list is given, that it says it of this list.
function joinRules(answer, list) {
  if (list && list.length !== answer.rules.length) throw new Error(`the answer has ${answer.rules.length} rules, and the filter list ${list.length}`);
  return answer.rules.map((fate, number) => {
    const of = list ? list[number] : null;
    if (fate.rule === "decides") {
      const isIts = !list || list.findIndex((rule) => hasPacket(rule.ranges, fate.values)) === number;
      if (!isIts) throw new Error(`the answer is of another filter list: in this one rule ${number} (line ${of.line}) does not decide the packet that is shown for it`);
      return { of, values: fate.values };
    }
    const parts = partsOf(fate.cover, of ? of.ranges : LIST_FIELDS.map(({ greatest }) => [0, greatest]), number);
    const bad = list ? parts.find(({ rule, part }) => !hasPart(list[rule].ranges, part)) : undefined;
    if (bad) throw new Error(`the answer is of another filter list: in this one rule ${bad.rule} does not hide what the cover of rule ${number} says`);
    return { of, parts, hiders: [...new Set(parts.map(({ rule }) => rule))].sort((a, b) => a - b) };
  });
}
