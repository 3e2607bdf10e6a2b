// JSON with whole numbers of any size.

const DEPTH_LIMIT = 128;
// The most digits, with a sign, of a whole number that a number of JavaScript holds in any case.
const PLAIN_DIGITS = 15;

const isDigit = (code) => code >= 48 && code <= 57;

// A reader of JSON. Whole numbers of more digits than PLAIN_DIGITS become BigInt, so no value of a cell loses a digit.
class JsonReader {
  constructor(text) {
    this.text = text;
    this.at = 0;
  }

  fail(what) {
    const line = this.text.slice(0, this.at).split("\n").length;
    throw new Error(`the file is no JSON: ${what} at byte ${this.at} (line ${line})`);
  }

  // The next character that is no blank, by its number; NaN at the end.
  peek() {
    let code = this.text.charCodeAt(this.at);
    while (code === 32 || code === 10 || code === 13 || code === 9) code = this.text.charCodeAt(this.at += 1);
    return code;
  }

  word(name, value) {
    if (!this.text.startsWith(name, this.at)) this.fail("an unknown word");
    this.at += name.length;
    return value;
  }

  string() {
    const { text } = this, start = this.at;
    let end = text.indexOf("\"", start + 1);
    const isPlain = end >= 0 && !text.slice(start + 1, end).includes("\\");
    if (isPlain) { this.at = end + 1; return text.slice(start + 1, end); }
    for (end = start + 1; end < text.length && text.charCodeAt(end) !== 34; end += 1) if (text.charCodeAt(end) === 92) end += 1;
    if (end >= text.length) { this.at = text.length; this.fail("a text without its end"); }
    this.at = end + 1;
    try { return JSON.parse(text.slice(start, end + 1)); } catch { this.at = start; return this.fail("a bad text"); }
  }

  number() {
    const { text } = this, start = this.at;
    let at = start + (text.charCodeAt(start) === 45 ? 1 : 0), value = 0;
    while (isDigit(text.charCodeAt(at))) { value = value * 10 + text.charCodeAt(at) - 48; at += 1; }
    const code = text.charCodeAt(at), isWhole = code !== 46 && code !== 101 && code !== 69;
    if (isWhole && at - start <= PLAIN_DIGITS && isDigit(text.charCodeAt(at - 1))) {
      this.at = at;
      return text.charCodeAt(start) === 45 ? -value : value;
    }
    const digits = /-?\d+(\.\d+)?([eE][-+]?\d+)?/y;
    digits.lastIndex = start;
    const found = digits.exec(text);
    if (!found) this.fail("something that begins no value");
    this.at += found[0].length;
    return found[1] === undefined && found[2] === undefined && found[0].length > PLAIN_DIGITS ? BigInt(found[0]) : Number(found[0]);
  }

  value(depth) {
    if (depth > DEPTH_LIMIT) this.fail(`more than ${DEPTH_LIMIT} open brackets`);
    switch (this.peek()) {
      case 123: return this.members(depth);
      case 91: return this.items(depth);
      case 34: return this.string();
      case 116: return this.word("true", true);
      case 102: return this.word("false", false);
      case 110: return this.word("null", null);
      default: return this.at >= this.text.length ? this.fail("the end of the file") : this.number();
    }
  }

  items(depth) {
    const list = [];
    this.at += 1;
    if (this.peek() === 93) { this.at += 1; return list; }
    for (;;) {
      list.push(this.value(depth + 1));
      const code = this.peek();
      if (code !== 44 && code !== 93) this.fail("no comma and no end of a list");
      this.at += 1;
      if (code === 93) return list;
    }
  }

  members(depth) {
    const object = {};
    this.at += 1;
    if (this.peek() === 125) { this.at += 1; return object; }
    for (;;) {
      if (this.peek() !== 34) this.fail("no key");
      const key = this.string();
      if (this.peek() !== 58) this.fail("no colon");
      this.at += 1;
      const value = this.value(depth + 1);
      if (key === "__proto__") Object.defineProperty(object, key, { value, enumerable: true }); else object[key] = value;
      const code = this.peek();
      if (code !== 44 && code !== 125) this.fail("no comma and no end of an object");
      this.at += 1;
      if (code === 125) return object;
    }
  }
}

function readJson(text) {
  const reader = new JsonReader(text), whole = reader.value(0);
  reader.peek();
  if (reader.at < text.length) reader.fail("something behind the value");
  return whole;
}
