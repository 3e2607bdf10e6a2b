// Jobs.

// The line breaks in a part of a text.
function breaksIn(part) {
  let count = 0;
  for (let at = part.indexOf("\n"); at >= 0; at = part.indexOf("\n", at + 1)) count += 1;
  return count;
}

function tokensOf(text) {
  const tokens = [];
  let notes = [], line = 1, lastLine = 0;
  const pattern = /\s+|\/\/[^\n]*|[A-Za-z_]\w*|0x[0-9A-Fa-f]+|\d+|"[^"]*"|->|\.\.|==|!=|<=|>=|[{}\[\]();:,.=<>+\-$]/y;
  while (pattern.lastIndex < text.length) {
    const start = pattern.lastIndex;
    const found = pattern.exec(text);
    if (!found) throw new Error(`the job has an unknown character in line ${line}`);
    const part = found[0], code = part.charCodeAt(0);
    if (code === 47) {
      // A comment on a line of its own is of the next token.
      if (lastLine < line) notes.push(part.slice(2).trim());
      continue;
    }
    if (code > 32 && code < 127) {
      tokens.push({ text: part, line, start, end: start + part.length, note: notes.length === 0 ? "" : notes.join(" ") });
      if (notes.length > 0) notes = [];
      lastLine = line;
      if (code !== 34) continue;
    }
    line += breaksIn(part);
  }
  return tokens;
}

// Reads a job as far as a picture and the way of a path need it: boxes, ports with their code, links, what is injected.
// Items are numbered as the program numbers them, until a node with a table comes, whose code is not in the text.
function readJob(text) {
  const tokens = tokensOf(text);
  let at = 0, sites = 0, known = true;
  const peek = () => (at < tokens.length ? tokens[at].text : "");
  const next = () => {
    if (at >= tokens.length) throw new Error("the job ends too soon");
    return tokens[at++].text;
  };
  const take = (sign) => {
    const line = at < tokens.length ? tokens[at].line : 0;
    const found = next();
    if (found !== sign) throw new Error(`the job has '${found}' where '${sign}' should stand, in line ${line}`);
  };
  const items = new Map();
  const item = (what) => {
    const site = known ? sites : null;
    if (known) items.set(sites, what);
    sites += 1;
    what.site = site;
    return what;
  };
  const textSince = (first) => (at === first ? "" : text.slice(tokens[first].start, tokens[at - 1].end).replace(/\s+/g, " "));
  const upToEnd = () => {
    const first = at;
    while (at < tokens.length && peek() !== ";") at += 1;
    return textSince(first);
  };
  // A condition ends before a semicolon, or before a block: the brace of a list of ranges stands behind 'in'.
  const condition = () => {
    const first = at;
    while (at < tokens.length && peek() !== ";" && !(peek() === "{" && tokens[at - 1].text !== "in")) at += 1;
    return textSince(first);
  };
  const block = (depth) => {
    if (depth > 70) throw new Error("the job is nested too deep");
    const list = [];
    take("{");
    while (peek() !== "}") list.push(instruction(depth));
    take("}");
    return list;
  };
  const instruction = (depth) => {
    const line = tokens[at].line;
    const kind = peek();
    if (kind === "{") {
      const whole = item({ kind: "block", line, text: "{ .. }" });
      whole.body = block(depth + 1);
      return whole;
    }
    next();
    const whole = item({ kind, line, text: kind });
    switch (kind) {
      case "if":
        whole.test = condition();
        whole.text = `if ${whole.test}`;
        whole.then = block(depth + 1);
        take("else");
        whole.other = block(depth + 1);
        return whole;
      case "constrain":
        whole.test = condition();
        whole.text = `constrain ${whole.test}`;
        break;
      case "for":
        whole.text = `for ${next()}`;
        take("in");
        whole.text += ` in ${next()}`;
        whole.body = block(depth + 1);
        return whole;
      case "forward":
        whole.port = Number(next());
        whole.text = `forward ${whole.port}`;
        break;
      case "fork":
        whole.ports = [];
        while (peek() !== ";") { if (peek() === ",") next(); else whole.ports.push(Number(next())); }
        whole.text = `fork ${whole.ports.join(", ")}`;
        break;
      default: {
        const rest = upToEnd();
        whole.text = rest === "" ? kind : `${kind} ${rest}`;
      }
    }
    take(";");
    return whole;
  };

  const job = { nodes: new Map(), links: new Map(), inject: null, tags: [], fields: [], wheres: [], asks: [], items };
  take("symnet");
  job.version = Number(next());
  take(";");
  while (peek() === "node") {
    const line = tokens[at].line;
    next();
    const name = next();
    const node = item({ kind: "node", line, text: `node ${name}`, name, ports: new Map(), table: null });
    job.nodes.set(name, node);
    if (peek() === "=") {
      node.table = upToEnd().slice(1).trim();
      take(";");
      known = false;
      continue;
    }
    node.ins = Number(next());
    take("->");
    node.outs = Number(next());
    take("{");
    while (peek() !== "}") {
      const side = next();
      const port = Number(next());
      const code = item({ kind: "code", line: tokens[at].line, text: `${side} ${name}.${port}` });
      code.body = block(0);
      node.ports.set(`${side} ${name}.${port}`, code.body);
    }
    take("}");
  }
  while (peek() === "link") {
    const link = item({ kind: "link", line: tokens[at].line, text: "link" });
    next();
    const from = next(); take("."); const fromPort = next();
    take("->");
    const to = next(); take("."); const toPort = next();
    take(";");
    link.text = `link ${from}.${fromPort} -> ${to}.${toPort}`;
    job.links.set(`out ${from}.${Number(fromPort)}`, `in ${to}.${Number(toPort)}`);
  }
  const injection = item({ kind: "inject", line: at < tokens.length ? tokens[at].line : 0, text: "inject" });
  take("inject");
  const entry = next(); take("."); const entryPort = next();
  job.inject = `in ${entry}.${Number(entryPort)}`;
  injection.text = `inject ${entry}.${entryPort}`;
  take("{");
  while (peek() !== "}") {
    const line = tokens[at].line;
    const kind = next();
    const rest = kind === "where" ? condition() : upToEnd();
    take(";");
    item({ kind, line, text: `${kind} ${rest}` });
    if (kind === "tag") job.tags.push(rest);
    if (kind === "field") {
      const [target, given] = rest.split("=").map((part) => part.trim());
      const width = Number(target.slice(target.lastIndexOf(":") + 1));
      job.fields.push({ target, width, given: given === undefined ? null : BigInt(given) });
    }
    if (kind === "where") job.wheres.push({ text: `where ${rest}`, test: rest, line });
  }
  take("}");
  while (peek() === "ask") {
    const { line, note } = tokens[at];
    next();
    const rest = upToEnd();
    take(";");
    item({ kind: "ask", line, text: `ask ${rest}` });
    job.asks.push({ text: rest, note, line });
  }
  return job;
}

// The unknown fields in order: symbol number k stands for the k-th. Null where the job is not given.
const unknownFields = (job) => (job ? job.fields.filter((field) => field.given === null) : null);
