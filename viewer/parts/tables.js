// Tables of switches and routers: which addresses go to which port. docs/formats.md, "Tables", has the form of the files.

const isTable = (text) => /^\s*(?:#[^\n]*\n\s*)*ports\s+\d/.test(text);
// A larger table is not looked at: its addresses stand in no name of a path.
const MOST_TABLE = 1 << 20;

// Reads a table: its kind, and its rows as ranges of addresses with their ports.
function readTable(text) {
  if (text.length > MOST_TABLE) return { kind: null, rows: null, sets: null };
  const rows = [];
  let kind = null;
  text.split("\n").forEach((line, index) => {
    const words = line.replace(/#.*/s, "").trim().split(/[ \t]+/);
    if (words[0] === "" || words[0] === "ports") return;
    const range = rangeOf(words[0]), found = range && range.kinds ? { mac: "mac", ip4: "fib" }[range.kinds[0]] : undefined;
    if (found === undefined || (kind !== null && found !== kind) || !/^\d+$/.test(words[1])) throw new Error(`line ${index + 1} of the table is no row of it`);
    kind = found;
    rows.push({ low: range.low, high: range.high, port: Number(words[1]) });
  });
  return { kind, rows, sets: null };
}

// The addresses that go to each port, and those of all rows. Prefixes lie within one another or apart, and the inner one decides.
function setsOf(table) {
  if (table.sets !== null || table.rows === null) return table.sets;
  const order = (a, b) => (a === b ? 0 : a < b ? -1 : 1);
  const rows = [...table.rows].sort((a, b) => order(a.low, b.low) || order(b.high, a.high));
  const ports = new Map(), open = [];
  let from = 0n;
  // What lies before `end`, and is not given yet, goes to the innermost open row.
  const giveUpTo = (end) => {
    const row = open[open.length - 1];
    if (row !== undefined && from < end) ports.set(row.port, [...(ports.get(row.port) || []), [from, end - 1n]]);
    if (from < end) from = end;
  };
  const closeBefore = (low) => {
    while (open.length > 0 && (low === null || open[open.length - 1].high < low)) { giveUpTo(open[open.length - 1].high + 1n); open.pop(); }
  };
  for (const row of rows) {
    closeBefore(row.low);
    giveUpTo(row.low);
    from = row.low;
    open.push(row);
  }
  closeBefore(null);
  for (const [port, ranges] of ports) ports.set(port, joinedRanges(ranges));
  table.sets = { ports, all: joinedRanges([...ports.values()].flat()) };
  return table.sets;
}
