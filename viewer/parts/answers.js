// Answers.

// The record of the report that has this number. Null where there is none.
const recordAt = (number) => (state.report && !state.report.isWalks && state.report.records[number]) || null;

// A button that shows a record of the report, or the words alone where there is none.
function recordLink(number, words) {
  return recordAt(number) !== null ? element("button", { class: "more", click: () => choose(number) }, words) : words;
}

// A packet in one line.
function packetWords(values, symbols) {
  return values.map((value, symbol) => {
    const position = positionOf(symbolTarget(symbols, symbol));
    return `${symbolName(symbols, symbol)} ${valueWords(position && position.kind, value)}`;
  }).join(", ");
}

// Of the questions of a job.

function checkAsk({ answers }) {
  const isAnswer = (answer) => isObject(answer) && (answer.answer === "unknown" ? isListOf(answer.numbers, isCount)
    : (answer.answer === "yes" || answer.answer === "no") && (answer.number === undefined || (isCount(answer.number) && isListOf(answer.values, isValue))));
  if (!Array.isArray(answers)) throw new Error("the answers are no list");
  const bad = answers.findIndex((answer) => !isAnswer(answer));
  if (bad >= 0) throw new Error(`answer ${bad} is none of yes, no and unknown`);
}

function joinAsk(answer, { job }) {
  if (!job) return { asks: [] };
  if (job.asks.length !== answer.answers.length) throw new Error(`the job has ${plural(job.asks.length, "question", "questions")}, and the answer ${answer.answers.length}: it is of another job`);
  const fields = unknownFields(job);
  const bad = answer.answers.findIndex(({ values }) => values !== undefined && values.length < fields.length);
  if (bad >= 0) throw new Error(`answer ${bad} has fewer values than the job has unknown fields: it is of another job`);
  return { asks: job.asks };
}

const SHADES = { yes: "good", no: "bad", unknown: "warn" };

function showAsk({ answers, joined }) {
  const rows = answers.map((answer, number) => {
    const ask = joined.asks[number] || { text: "", note: "" };
    const shown = answer.number === undefined ? [] : [recordLink(answer.number, `record ${answer.number}`)];
    const open = answer.numbers ? [`open: records ${answer.numbers.join(", ")}`, ...openLines(state.report, answer.numbers, state.job).map((line) => element("div", { class: "warn" }, line))] : [];
    const packet = answer.values ? [element("span", {}, packetWords(answer.values, symbolsOf(state.job, recordAt(answer.number)))), element("div", { class: "soft" }, answer.values.join(" "))] : [];
    return element("tr", {}, element("td", {}, String(number)), element("td", {}, codeWords(ask.text), element("div", { class: "soft" }, ask.note)),
      element("td", { class: SHADES[answer.answer] }, answer.answer), element("td", {}, ...shown, ...open), element("td", {}, ...packet), rawCell(ask.text, codeWords(ask.text)));
  });
  return [element("h2", {}, "Answers"), element("table", { id: "answers" }, ...rows)];
}

// Of the rules of a filter list.

function checkRules(answer) {
  if (!Array.isArray(answer.rules)) throw new Error("the rules of the answer are no list");
  answer.rules.forEach((fate, number) => {
    const isPacket = isObject(fate) && fate.rule === "decides" && isListOf(fate.values, isCount) && fate.values.length === LIST_FIELDS.length;
    if (!isPacket && !(isObject(fate) && fate.rule === "hidden" && Array.isArray(fate.cover))) throw new Error(`rule ${number} of the answer neither decides a packet nor is hidden`);
    const bad = isPacket ? LIST_FIELDS.findIndex(({ greatest }, field) => fate.values[field] > greatest) : -1;
    if (bad >= 0) throw new Error(`rule ${number} of the answer: ${fate.values[bad]} is no ${LIST_FIELDS[bad].name}`);
  });
  joinRules(answer, null);
}

const hiddenOf = (answer) => answer.rules.map((fate, number) => (fate.rule === "hidden" ? number : -1)).filter((number) => number >= 0);
const rulesWords = (answer) => `${plural(answer.rules.length, "rule", "rules")}, ${hiddenOf(answer).length} hidden`;

function showRules(answer) {
  const hidden = hiddenOf(answer);
  const links = hidden.flatMap((number, index) => [index === 0 ? "" : ", ", element("a", { href: `#rule-${number}` }, String(number))]);
  const words = hidden.length === 0 ? ["Each rule decides a packet, which is shown with it."]
    : [`${hidden.length} of ${plural(answer.rules.length, "rule decides", "rules decide")} no packet, since earlier rules have all of theirs: `, ...links, "."];
  const head = element("tr", {}, ...["rule", "line", "text", "", ...LIST_FIELDS.map(({ name }) => name)].map((name) => element("th", {}, name)));
  return [element("h2", {}, "Rules"), element("p", { id: "rules-words" }, ...words), element("table", { id: "rules" }, head, ...answer.joined.map(ruleRow))];
}

function ruleRow(seen, number) {
  const { of, values } = seen;
  const start = [element("td", {}, String(number)), element("td", {}, of ? String(of.line) : ""), element("td", {}, element("code", {}, of ? of.text : ""))];
  if (values) return element("tr", { id: `rule-${number}` }, ...start, element("td", { class: "good" }, "decides"), ...values.map((value, field) => element("td", {}, valueWords(LIST_FIELDS[field].kind, value))));
  const why = element("details", { class: "parts" }, element("summary", {}, "why"), element("pre", {}, partLines(seen).join("\n")));
  return element("tr", { id: `rule-${number}`, class: "hidden" }, ...start, element("td", { class: "bad" }, "hidden"),
    element("td", { colspan: LIST_FIELDS.length }, `by ${seen.hiders.length === 1 ? "rule" : "rules"} ${seen.hiders.join(", ")} `, hiddenNote(seen), " ", why));
}

const PARTS = 100;

// A line for each part of a hidden rule's packets, with the values by which it differs from the whole.
function partLines({ of, parts }) {
  const lines = parts.slice(0, PARTS).map(({ rule, part }) => {
    const sides = part.flatMap((range, field) => {
      const [low, high] = of ? of.ranges[field] : [0, LIST_FIELDS[field].greatest];
      return range[0] === low && range[1] === high ? [] : [`${LIST_FIELDS[field].name} ${rangeWords(LIST_FIELDS[field].kind, range[0], range[1])}`];
    });
    return `rule ${rule} has ${sides.length === 0 ? "all of its packets" : `those with ${sides.join(", ")}`}`;
  });
  return parts.length > PARTS ? [...lines, `and ${(parts.length - PARTS).toLocaleString("en")} parts more`] : lines;
}

// What a hidden rule means, by its action and those of the rules that hide it.
function hiddenNote({ of, hiders }) {
  if (!of) return "";
  const others = hiders.filter((number) => state.list[number].permits !== of.permits);
  if (others.length === 0) return element("span", { class: "soft" }, `(which ${of.permits ? "permit" : "deny"} as it does)`);
  return of.permits ? element("span", { class: "warn" }, `(it permits, and ${others.join(", ")} ${others.length === 1 ? "denies" : "deny"})`)
    : element("span", { class: "bad" }, `(dangerous: it denies, and ${others.join(", ")} ${others.length === 1 ? "permits" : "permit"})`);
}

// Of loops.

function checkLoops({ loops, open }) {
  if (!isListOf(loops, (loop) => isObject(loop) && isCount(loop.first) && isCount(loop.number))) throw new Error("the answer of loops has not its form: a loop is the number of a record and the place where its round begins");
  const isVisit = (visit) => isObject(visit) && isCount(visit.place)
    && (visit.why === "choice" || visit.why === "layout" || (visit.why === "cell" && isListOf(visit.values, isValue)) || (visit.why === "unknown" && typeof visit.cause === "string"));
  const isOpen = (path) => isCount(path) || (isObject(path) && isCount(path.number) && isListOf(path.visits, isVisit));
  if (!isListOf(open, isOpen)) throw new Error("the answer of loops has not its form: the open paths are no list of numbers of records, nor of visits");
}

// The number of the record of an open path, and its earlier visits of the last port, where they are told.
const openNumber = (path) => (isCount(path) ? path : path.number);
const visitsOf = (path) => (isCount(path) ? [] : path.visits);

// The shortest part of ports that go round, which comes again and again: its last port is its first.
function oneRound(places) {
  const size = places.length - 1;
  for (let length = 1; length < size; length += 1) {
    if (size % length === 0 && places.every((place, at) => at < length || place === places[at - length])) return places.slice(0, length + 1);
  }
  return places;
}

// For each loop that the report shows, by the number of its record, the ports of one round, and those ahead of it. Empty without a report.
function joinLoops({ loops, open }, { report }) {
  const rounds = new Map();
  if (!report || report.isWalks) return rounds;
  const cut = (number) => {
    const record = report.records[number];
    if (record === undefined || record.kind !== "path" || record.end !== "cut") throw new Error(`record ${number} of the report is no path that is cut: the answer is of another job or other hops, or the report was made with --pruned count`);
    return record.places;
  };
  open.forEach((path) => cut(openNumber(path)));
  for (const { first, number } of loops) {
    const places = cut(number);
    if (first >= places.length - 1 || places[first] !== places[places.length - 1]) throw new Error(`record ${number} of the report does not end where a round begins at its place ${first}: the answer is of another job or other hops`);
    const length = oneRound(places.slice(first)).length - 1;
    let begin = first;
    while (begin > 0 && places[begin - 1] === places[begin - 1 + length]) begin -= 1;
    rounds.set(number, { ahead: places.slice(0, begin), round: places.slice(begin, begin + length + 1) });
  }
  return rounds;
}

const loopsWords = ({ loops, open }) => `${plural(loops.length, "path goes", "paths go")} round for ever, ${plural(open.length, "is only cut", "are only cut")}`;

const loopOf = (number) => (state.answer && state.answer.kind === "loops" && state.answer.joined.get(number)) || null;

// The ports of one round of a record, from its first port to that again, and the ports ahead of it. Null where it does not go round.
const roundOf = (number) => (loopOf(number) === null ? null : loopOf(number).round);
const aheadOf = (number) => (loopOf(number) === null ? null : loopOf(number).ahead);

function showLoops(answer) {
  const { loops, open, joined } = answer;
  const words = loops.length > 0 ? "Each packet that takes such a path goes round for ever on it, by the same ports and with the same fields: a fault of the network." : "No path was found to go round for ever.";
  const told = open.some((path) => visitsOf(path).length > 0) ? "" : " With --open visits the answer tells what differs each time that the last port was visited before.";
  const more = open.length > 0 ? ` Of the open paths it is only known that they are cut: more hops (--hops) may show where they end.${told}` : "";
  const row = (number, words2) => element("tr", {}, element("td", {}, recordLink(number, `record ${number}`)), element("td", {}, words2));
  const rows = [
    ...loops.slice(0, PAGE).map(({ first, number }) => row(number, joined.has(number) ? roundWords(joined.get(number).round) : `its round begins at place ${first}`)),
    ...open.slice(0, PAGE).map((path) => row(openNumber(path), ["only cut", ...visitsOf(path).slice(0, 1).map((visit) => visitWords(visit, null))].join("; ")))];
  const left = Math.max(loops.length - PAGE, 0) + Math.max(open.length - PAGE, 0);
  return [element("h2", {}, "Loops"), element("p", { id: "loops-words" }, words + more), element("table", { id: "loops" }, ...rows),
    ...(left > 0 ? [element("p", { class: "soft" }, `and ${left.toLocaleString("en")} more`)] : [])];
}

// Why an earlier visit of the last port shows no loop.
function visitWords(visit, symbols) {
  const packet = () => (symbols === null ? "" : `: so it is for the packet with ${packetWords(visit.values, symbols)}`);
  const why = {
    choice: () => "a value was chosen after it",
    layout: () => "other tags or cells were there",
    cell: () => `a cell had another value${packet()}`,
    unknown: () => `it is undecided whether a cell had another value (${visitCause(visit.cause)})`,
  };
  return `at place ${visit.place} ${why[visit.why]()}`;
}

const roundWords = (round) => `${round.slice(0, -1).join(" \u2192 ")} \u2192 ${round[0]} again`;

// Of two networks.

function checkCompared(answer) {
  const forms = {
    same: () => true, partial: () => true,
    other: () => isCount(answer.number) && (answer.side === "left" || answer.side === "right") && isListOf(answer.values, isValue),
    unknown: () => isListOf(answer.left, isCount) && isListOf(answer.right, isCount),
  };
  if (!Object.hasOwn(forms, answer.answer) || !forms[answer.answer]()) throw new Error("the answer of compare is none of same, other, unknown and partial");
  if (answer.cut !== undefined && !(isListOf(answer.cut, isCount) && answer.cut.length === 2)) throw new Error("the answer of compare has no two counts of paths that are cut");
}

function joinCompared(answer, { job, report }) {
  const fields = unknownFields(job);
  if (answer.values && fields !== null && answer.values.length < fields.length) throw new Error(`the job has ${plural(fields.length, "unknown field", "unknown fields")}, and the packet ${plural(answer.values.length, "value", "values")}: the answer is of another job`);
  const record = report && !report.isWalks && answer.number !== undefined ? report.records[answer.number] : undefined;
  return { fields, isShown: record !== undefined && record.end === "delivered" };
}

const SIDES = { left: ["first network (JOB)", "second (OTHER)"], right: ["second network (OTHER)", "first (JOB)"] };

// How many paths are cut at the bound of hops, where that was counted.
function cutNote(answer) {
  if (answer.cut === undefined) return [];
  const [first, second] = answer.cut;
  const words = first === 0 && second === 0 ? "No path of either network is cut at the bound of hops, so this holds of walks of any length."
    : `${plural(first, "path", "paths")} of the first network and ${plural(second, "path", "paths")} of the second are cut at the bound of hops: compare with more --hops to look further.`;
  return [element("p", { id: "cut", class: first === 0 && second === 0 ? "soft" : "warn" }, words)];
}

function showCompared(answer) {
  const { fields, isShown } = answer.joined;
  const say = (shade, words, ...more) => [element("h2", {}, "Comparison"), element("p", { id: "compared", class: shade }, words), ...more];
  if (answer.answer === "same") return say("good", "The two networks deliver the same: each packet of the injection comes out at the same ports with the same header, within the bound of hops. Tags, metadata, and walks that fail, stop or are cut are not compared.", ...cutNote(answer));
  if (answer.answer === "partial") return say("warn", "Not known: an exploration reached its limit of records. Raise --limit, or narrow the injection by where lines, and compare again.");
  if (answer.answer === "unknown") {
    const paths = ["left", "right"].filter((side) => answer[side].length > 0).map((side) => `${answer[side].length === 1 ? "path" : "paths"} ${answer[side].join(", ")} of the ${SIDES[side][0]}`);
    return say("warn", `Not known: no difference was found, and of ${paths.join(" and ")} it was not decided whether the other network delivers the same.`, element("p", { class: "warn" }, HINT), ...cutNote(answer));
  }
  const [has, lacks] = SIDES[answer.side];
  const note = isShown ? [element("p", {}, recordLink(answer.number, `record ${answer.number}`), ` of the report is drawn below; it is this path where the report is that of the ${has}.`)] : [];
  const file = element("p", { class: "soft" }, "The packet as a file for walk, which shows what becomes of it in each network: ", element("code", { id: "packet-file" }, answer.values.join(" ")));
  return say("bad", `The networks differ. Path ${answer.number} of the ${has} delivers this packet, and the ${lacks} does not deliver the same.`, packetTable("difference", answer.values, fields), file, ...bothNetworks(answer), ...cutNote(answer), ...note);
}

// Both networks beside each other, where something of the second is given: with the walks of the packet, or with the path that the answer names.
function bothNetworks(answer) {
  if (!state.other.job && !state.other.report) return [];
  const sides = [["left", "First network (JOB)", state], ["right", "Second network (OTHER)", state.other]];
  return [element("div", { id: "both" }, ...sides.filter(([, , given]) => given.job || given.report).map(([side, title, given]) => {
    const records = !given.report ? [] : given.report.isWalks ? given.report.records : side === answer.side ? given.report.records.slice(answer.number, answer.number + 1) : [];
    const ends = given.report && given.report.isWalks ? records.map((walk) => `${endWords(walk.end)} at ${walk.places[walk.places.length - 1]}`).join("; ") : "";
    return element("div", { class: "side" }, element("h2", {}, title), pictureOf(networkOf(given), records).element, element("p", {}, ends));
  }))];
}

// Of two filter lists.

// It has covers, or what becomes of its packet in each list: neither has the answer of compare.
const isOfLists = (value) => value.answer !== undefined && (value.covers !== undefined || isObject(value.left));

function checkLists(answer) {
  const isSide = (side) => isObject(side) && (side.action === "permit" || side.action === "deny") && (side.rule === null || isCount(side.rule));
  const isPacket = () => isListOf(answer.values, isCount) && answer.values.length === LIST_FIELDS.length && answer.values.every((value, field) => value <= LIST_FIELDS[field].greatest);
  const isGood = answer.answer === "same" ? Array.isArray(answer.covers) : answer.answer === "other" && isSide(answer.left) && isSide(answer.right) && isPacket();
  if (!isGood) throw new Error("the answer of rules on two lists is neither same nor other");
}

// The rule of the first list that decides the packet, where that list is given.
function joinLists(answer, list) {
  if (!list || answer.answer === "same") return { rule: null };
  const number = list.findIndex((rule) => hasPacket(rule.ranges, answer.values));
  if (number !== (answer.left.rule === null ? -1 : answer.left.rule)) throw new Error("the answer is of another filter list: in this one the rule that is named does not decide the packet that is shown");
  return { rule: number < 0 ? null : list[number] };
}

function showLists(answer) {
  const say = (shade, words, ...more) => [element("h2", {}, "Two filter lists"), element("p", { id: "lists", class: shade }, words), ...more];
  if (answer.answer === "same") {
    return say("good", `Both filter lists permit the same packets${answer.covers.length > 0 ? `, as ${plural(answer.covers.length, "cover shows", "covers show")}` : ""}.`);
  }
  const [has, lacks] = answer.left.action === "permit" ? ["first", "second"] : ["second", "first"];
  const row = (...parts) => element("tr", {}, ...parts.map((part) => element("td", {}, part)));
  const sideRow = (title, side, rule) => row(title, `${side.action === "permit" ? "permits" : "denies"} it${side.rule === null ? ": no rule contains it" : ` by rule ${side.rule}`}`,
    rule ? element("span", {}, `line ${rule.line}: `, element("code", {}, rule.text)) : "");
  return say("bad", `The ${has} filter list permits this packet, and the ${lacks} one denies it.`,
    element("table", { id: "difference" }, ...answer.values.map((value, field) => row(LIST_FIELDS[field].name, valueWords(LIST_FIELDS[field].kind, value)))),
    element("table", { id: "list-sides" }, sideRow("first list (FILE)", answer.left, answer.joined.rule), sideRow("second list (OTHER)", answer.right, null)));
}

// The answers of ask, rules, loops and compare, by the key that tells them, and that of rules on two lists. `check` says what is wrong with the answer alone, `join` what it says of
// the other files, `words` is its line in the heading, `show` its elements, and `record` the record that is shown first.
const ANSWERS = {
  answers: { check: checkAsk, join: joinAsk, words: (answer) => plural(answer.answers.length, "answer", "answers"), show: showAsk, record: (answer) => answer.answers.map(({ number }) => number).find((number) => number !== undefined) },
  rules: { check: checkRules, join: (answer, { list }) => joinRules(answer, list), words: rulesWords, show: showRules, record: () => undefined },
  lists: { check: checkLists, join: (answer, { list }) => joinLists(answer, list), words: (answer) => `two filter lists: ${answer.answer}`, show: showLists, record: () => undefined },
  loops: { check: checkLoops, join: joinLoops, words: loopsWords, show: showLoops, record: (answer) => [...answer.joined.keys()][0] },
  answer: { check: checkCompared, join: joinCompared, words: (answer) => `compared: ${answer.answer}`, show: showCompared, record: (answer) => (answer.joined.isShown ? answer.number : undefined) },
};
