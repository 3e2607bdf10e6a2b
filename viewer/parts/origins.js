// Where the items of a job come from that was imported: the map that `symnet import` writes beside it.

const DESTINATION = "head L3+128:32";
// How many places are named where several may have decided.
const MOST_PLACES = 3;

const isMap = (written) => isObject(written) && "symnet_map" in written;

// Reads a map: of each line of the job that begins an item its places, of each box with a table its rows, and of each box of the job the one of the network that it is a part of.
function readMap(written) {
  const wrong = new Error("the file is no map of an import that this page knows");
  if (written.symnet_map !== 1 || !Array.isArray(written.sources) || ![written.items, written.tables, written.boxes].every(isObject)) throw wrong;
  const places = written.sources.map((one) => {
    if (!isObject(one) || typeof one.file !== "string" || typeof one.text !== "string" || !isCount(one.line)) throw wrong;
    const where = `${one.file}:${one.line}${one.column === undefined ? "" : `:${one.column}`}`;
    return plain(one.text === "" ? where : `${one.text} (${where})`);
  });
  const isPlace = (number) => Number.isInteger(number) && number >= 0 && number < places.length;
  const items = new Map(), tables = new Map();
  for (const item of Object.values(written.items)) {
    if (!isObject(item) || !isCount(item.line) || !isListOf(item.sources, isPlace)) throw wrong;
    items.set(item.line, item.sources.map((number) => places[number]));
  }
  for (const [name, rows] of Object.entries(written.tables)) {
    if (!isListOf(rows, (row) => Array.isArray(row) && typeof row[0] === "string" && rangeOf(row[0]) !== null && isPlace(row[2]))) throw wrong;
    tables.set(name, rows.map(([prefix, , number]) => ({ ...rangeOf(prefix), place: places[number] })));
  }
  return { items, tables, boxes: new Map(Object.entries(written.boxes)) };
}

// The destination of a record's packet, where nothing on its way changes it.
function destinationOf(record, events) {
  if (!record.fields || events.some(({ step }) => (step.text || "").startsWith(`set ${DESTINATION} `))) return null;
  const found = record.fields.heads.find(([address, cells]) => cells.length > 0 && referenceAt(record.fields.tags, Number(address), cells[cells.length - 1][0]) === DESTINATION);
  return found === undefined ? null : cellValue(found[1][found[1].length - 1], packetOf(record));
}

// The route of the longest prefix that has an address.
function routeOf(rows, address) {
  const inside = rows.filter(({ low, high }) => low <= address && address <= high);
  return inside.reduce((best, row) => (best === null || row.high - row.low < best.high - best.low ? row : best), null);
}

// What decided on a record's way: the routes, rules and entries of the map, each with its box.
function decidedBy(record) {
  if (!state.map || !state.job) return [];
  const { events } = courseOf(state.job, record), address = destinationOf(record, events), found = [];
  for (const { place, step, decision } of events) {
    const name = boxOf(place), rows = step.kind === "table" ? state.map.tables.get(name) : undefined;
    const route = rows !== undefined && address !== null ? routeOf(rows, address) : null;
    // of what decides nothing by itself only the end of a code counts
    const isSilent = step.kind === "table" || decision === "else" || (decision === null && step.kind !== "forward" && step.kind !== "fail");
    const places = route !== null ? [route.place] : rows !== undefined && address !== null ? [`no route of ${rows.length.toLocaleString("en")}`]
      : isSilent ? [] : state.map.items.get(step.line) || [];
    if (places.length === 0) continue;
    const words = `${places.length > MOST_PLACES ? `one of ${places.length}, as ` : ""}${places.slice(0, MOST_PLACES).join(" or ")}`;
    const line = `${state.map.boxes.get(name) || name}: ${words}`;
    if (found[found.length - 1] !== line) found.push(line);
  }
  return found;
}

function originRows(record) {
  const lines = decidedBy(record);
  return lines.length === 0 ? [] : [element("h2", {}, "Decided by"), element("ul", { id: "decided" }, ...lines.map((line) => element("li", {}, line)))];
}
