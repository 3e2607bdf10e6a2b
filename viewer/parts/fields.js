// Names and values as people write them.

// The positions of docs/language.md, "Where the headers are": by tag, offset and width a name, and how its values are written.
const POSITIONS = new Map([
  ["L2+0:48", ["Ethernet destination", "mac"]], ["L2+48:48", ["Ethernet source", "mac"]], ["L2+96:16", ["Ethernet type", "type"]],
  ["L2+112:3", ["VLAN priority", "number"]], ["L2+115:1", ["VLAN drop eligible", "number"]], ["L2+116:12", ["VLAN", "number"]],
  ["L2+128:16", ["type behind the VLAN tag", "type"]],
  ["L3+64:8", ["TTL", "number"]], ["L3+72:8", ["protocol", "protocol"]], ["L3+80:16", ["header checksum", "number"]],
  ["L3+96:32", ["source address", "ip4"]], ["L3+128:32", ["destination address", "ip4"]],
  ["L3+48:8", ["next header", "protocol"]], ["L3+56:8", ["hop limit", "number"]],
  ["L3+64:128", ["source address", "ip6"]], ["L3+192:128", ["destination address", "ip6"]],
  ["L4+0:16", ["source port", "number"]], ["L4+16:16", ["destination port", "number"]],
].map(([key, [name, kind]]) => [key, { name, kind, bits: Number(key.slice(key.indexOf(":") + 1)) }]));

const PROTOCOLS = { 1: "ICMP", 4: "IP in IP", 6: "TCP", 17: "UDP", 47: "GRE", 50: "ESP", 58: "ICMPv6", 89: "OSPF" };
const TYPES = { 0x0800: "IPv4", 0x0806: "ARP", 0x8100: "802.1Q", 0x86DD: "IPv6" };

// The position of a reference of a job, as `head L3+96:32`; undefined where it is none of the table.
function positionOf(target) {
  const parts = /^head\s+([A-Za-z_]\w*)\s*([+-])\s*(\w+)\s*:\s*(\w+)$/.exec(target);
  if (!parts) return undefined;
  const offset = (parts[2] === "-" ? -1 : 1) * Number(parts[3]);
  return POSITIONS.get(`${parts[1]}+${offset}:${Number(parts[4])}`);
}

const nameOf = (target) => { const position = positionOf(target); return position ? position.name : target; };

// The reference of the cell of this width at a bit address, by a tag with which it is a position of the table.
function referenceAt(tags, address, width) {
  for (const [tag, base] of tags) {
    const key = `${tag}+${address - Number(base)}:${width}`;
    if (POSITIONS.has(key)) return `head ${key}`;
  }
  return undefined;
}

function ip6Words(value) {
  const groups = [];
  for (let shift = 112n; shift >= 0n; shift -= 16n) groups.push(((value >> shift) & 0xFFFFn).toString(16));
  // The longest run of zeros, of two groups or more and the first of those as long, is written as `::` (RFC 5952).
  const runs = [...groups.join(":").matchAll(/(?:^|:)0(?::0)+(?=:|$)/g)].sort((a, b) => b[0].split("0").length - a[0].split("0").length);
  if (runs.length === 0) return groups.join(":");
  const text = groups.join(":"), { index } = runs[0];
  return `${text.slice(0, index)}::${text.slice(index + runs[0][0].length).replace(/^:/, "")}`;
}

// A value as people write it, by the kind of its field.
function valueWords(kind, value) {
  const number = BigInt(value);
  switch (kind) {
    case "ip4": return [24n, 16n, 8n, 0n].map((shift) => String((number >> shift) & 255n)).join(".");
    case "ip6": return ip6Words(number);
    case "mac": return [40n, 32n, 24n, 16n, 8n, 0n].map((shift) => ((number >> shift) & 255n).toString(16).padStart(2, "0")).join(":");
    case "protocol": return PROTOCOLS[Number(number)] || String(number);
    case "type": return TYPES[Number(number)] || `0x${number.toString(16).padStart(4, "0")}`;
    default: return String(number);
  }
}

const ADDRESS_BITS = { ip4: 32, ip6: 128 };

// A range of values: a prefix where its addresses are just those of one.
function rangeWords(kind, low, high) {
  const first = BigInt(low), last = BigInt(high), size = last - first + 1n;
  if (first === last) return valueWords(kind, first);
  const bits = ADDRESS_BITS[kind];
  if (bits !== undefined && size > 0n && (size & (size - 1n)) === 0n && first % size === 0n) return `${valueWords(kind, first)}/${bits - size.toString(2).length + 1}`;
  return `${valueWords(kind, first)}..${valueWords(kind, last)}`;
}

// The text of an instruction or a question with names for the references of the table, and with their values as people write them.
function codeWords(text) {
  const part = /"[^"]*"|head\s+[A-Za-z_]\w*\s*[+-]\s*\w+\s*:\s*\w+|\w+\s*\.\.\s*\w+|\w+|==|!=|<=|>=|[^\s\w]/g;
  let kind, before = "";
  return text.replace(part, (found) => {
    const last = before;
    before = found;
    if (/^head\s/.test(found)) {
      const position = positionOf(found);
      kind = position ? position.kind : undefined;
      return position ? position.name : found;
    }
    if (/^(and|or|not)$/.test(found)) kind = undefined;
    if (kind === undefined || !/^(==|!=|<=|>=|[<>{,=])$/.test(last) || !/^\d/.test(found)) return found;
    const [low, high] = found.split("..").map((end) => BigInt(end.trim()));
    return high === undefined ? valueWords(kind, low) : rangeWords(kind, low, high);
  });
}

// The numbers that a text stands for, as {low, high, kinds}: an address or a prefix, a protocol, a number or a range of numbers. Null for any other text.
function rangeOf(text) {
  const mac = /^[0-9a-f]{1,2}(:[0-9a-f]{1,2}){5}$/i.test(text);
  if (mac) return single(text.split(":").reduce((sum, part) => sum * 256n + BigInt(`0x${part}`), 0n), ["mac"]);
  const [address, length, ...rest] = text.split("/");
  if (rest.length > 0 || (length !== undefined && !/^\d{1,3}$/.test(length))) return null;
  if (/^\d{1,3}(\.\d{1,3}){3}$/.test(address)) return prefixOf(ip4Number(address), length, "ip4");
  if (address.includes(":")) return prefixOf(ip6Number(address), length, "ip6");
  if (length !== undefined) return null;
  const protocol = Object.keys(PROTOCOLS).find((number) => PROTOCOLS[number].toLowerCase() === text.toLowerCase());
  if (protocol !== undefined) return single(BigInt(protocol), ["protocol"]);
  const numbers = /^(\d+|0x[0-9a-f]+)(?:(?:\.\.|-)(\d+|0x[0-9a-f]+))?$/i.exec(text);
  return numbers ? { low: BigInt(numbers[1]), high: BigInt(numbers[2] === undefined ? numbers[1] : numbers[2]), kinds: null } : null;
}

const single = (number, kinds) => ({ low: number, high: number, kinds });

function prefixOf(number, length, kind) {
  const bits = ADDRESS_BITS[kind];
  if (number === null || Number(length) > bits) return null;
  const free = BigInt(length === undefined ? 0 : bits - Number(length));
  const low = (number >> free) << free;
  return { low, high: low + (1n << free) - 1n, kinds: [kind] };
}

function ip4Number(text) {
  const parts = text.split(".").map(Number);
  return parts.some((part) => part > 255) ? null : parts.reduce((sum, part) => sum * 256n + BigInt(part), 0n);
}

function ip6Number(text) {
  const halves = text.split("::");
  if (halves.length > 2) return null;
  const [head, tail] = halves.map((half) => (half === "" ? [] : half.split(":")));
  const filled = tail === undefined ? head : [...head, ...Array(Math.max(8 - head.length - tail.length, 0)).fill("0"), ...tail];
  if (filled.length !== 8 || filled.some((group) => !/^[0-9a-f]{1,4}$/i.test(group))) return null;
  return filled.reduce((sum, group) => sum * 65536n + BigInt(`0x${group}`), 0n);
}
