// The network that is drawn: boxes, the links between them, where packets enter and leave, and boxes that are folded into others.

const boxOf = (place) => place.slice(place.indexOf(" ") + 1, place.lastIndexOf("."));
const portOf = (place) => place.slice(place.lastIndexOf(".") + 1);

function wiresOf({ job, report }) {
  const wires = new Map();
  const add = (from, to) => wires.set(`${from} -> ${to}`, { name: `${from} -> ${to}`, from, to });
  if (job) {
    for (const [from, to] of job.links) add(from, to);
  } else {
    for (const record of report.records) {
      const places = record.places || [];
      for (let at = 0; at + 1 < places.length; at += 1) {
        if (places[at].startsWith("out ") && places[at + 1].startsWith("in ")) add(places[at], places[at + 1]);
      }
    }
  }
  return [...wires.values()];
}

// The boxes of a job and a report (one of them may be missing), the wires between them, the port by which packets enter, and those by which they leave.
function networkOf({ job, report }) {
  const records = report ? report.records : [];
  const boxes = new Set(job ? job.nodes.keys() : []), exits = new Set();
  for (const record of records) {
    for (const place of record.places || []) boxes.add(boxOf(place));
    if (record.end === "delivered") exits.add(record.places[record.places.length - 1]);
  }
  const started = records.find(({ places }) => places && places.length > 0);
  return { boxes: [...boxes], wires: wiresOf({ job, report }), entry: job ? job.inject : started ? started.places[0] : null, exits: [...exits], job, report };
}

// ---- boxes that are folded

// The box that each helper belongs to: the one with the longest name that begins its own, as `east` of `east_ttl`, and with which it is linked, if only by its other helpers.
function ownersOf({ boxes, wires }) {
  const near = new Map(boxes.map((box) => [box, new Set()])), owners = new Map();
  for (const { from, to } of wires) {
    const [one, other] = [boxOf(from), boxOf(to)];
    if (near.has(one) && near.has(other)) { near.get(one).add(other); near.get(other).add(one); }
  }
  for (const owner of [...boxes].sort((a, b) => b.length - a.length)) {
    const open = [owner], isSeen = new Set(open);
    while (open.length > 0) {
      for (const other of near.get(open.pop())) {
        if (isSeen.has(other) || !other.startsWith(`${owner}_`)) continue;
        isSeen.add(other);
        open.push(other);
        if (!owners.has(other)) owners.set(other, owner);
      }
    }
  }
  return new Map(boxes.map((box) => {
    let owner = box;
    while (owners.has(owner)) owner = owners.get(owner);
    return [box, owner];
  }));
}

// The groups in which boxes only pass packets on, from one neighbour to one other, two boxes or more in a row.
function chainsOf(groups, links, stubs) {
  const around = listsOf(groups.length), isEnd = new Set(stubs.map(({ box }) => box));
  links.forEach(({ a, b, isBoth }) => { around[a].push({ other: b, isBoth, isOut: true }); around[b].push({ other: a, isBoth, isOut: false }); });
  const passes = groups.map((_, group) => {
    const [one, two, ...more] = around[group];
    if (two === undefined || more.length > 0 || isEnd.has(group) || one.other === two.other || one.other === group) return false;
    return one.isBoth === two.isBoth && (one.isBoth || one.isOut !== two.isOut);
  });
  const chains = [], isSeen = new Set();
  passes.forEach((isPassing, start) => {
    const chain = [], open = isPassing ? [start] : [];
    while (open.length > 0) {
      const group = open.pop();
      if (isSeen.has(group) || !passes[group]) continue;
      isSeen.add(group);
      chain.push(group);
      open.push(...around[group].map(({ other }) => other));
    }
    if (chain.length > 1) chains.push(chain.sort((x, y) => x - y));
  });
  return chains;
}

// The links between groups: two wires between the same two ports, one each way, are one link. Wires inside of a group are not drawn.
function linksOf(wires, groups, groupOf) {
  const links = [], byEnds = new Map();
  for (const wire of wires) {
    const a = groupOf.get(boxOf(wire.from)), b = groupOf.get(boxOf(wire.to));
    if (a === undefined || b === undefined || (a === b && groups[a].members.length > 1)) continue;
    const [from, to] = [wire.from.slice(4), wire.to.slice(3)];
    const other = byEnds.get(`${to} ${from}`);
    if (other !== undefined && from !== to) { other.isBoth = true; other.wires.push(wire); continue; }
    const link = { a, b, isBoth: false, wires: [wire], from: wire.from, to: wire.to };
    links.push(link);
    byEnds.set(`${from} ${to}`, link);
  }
  return links;
}

const EXITS = 12;

// Where packets enter and leave: a stub each, but one for all exits of a box that has many.
function stubsOf({ entry, exits }, groups, groupOf) {
  const stubs = [], byGroup = new Map();
  if (entry !== null && groupOf.has(boxOf(entry))) stubs.push({ box: groupOf.get(boxOf(entry)), side: "left", places: [entry] });
  for (const place of exits) {
    const group = groupOf.get(boxOf(place));
    if (group === undefined) continue;
    if (!byGroup.has(group)) byGroup.set(group, []);
    byGroup.get(group).push(place);
  }
  for (const [box, places] of byGroup) {
    places.sort((x, y) => Number(portOf(x)) - Number(portOf(y)));
    for (const part of places.length <= EXITS ? places.map((place) => [place]) : [places]) stubs.push({ box, side: "right", places: part });
  }
  return stubs;
}

function groupsOf(members) {
  const groups = [...members].map(([name, boxes]) => ({ name, members: boxes, isChain: false }));
  return { groups, groupOf: new Map(groups.flatMap(({ members: boxes }, index) => boxes.map((box) => [box, index]))) };
}

// What is drawn of a network: of all its boxes or of these alone, folded or not.
function graphOf(network, only, isFolded) {
  const boxes = only ? network.boxes.filter((box) => only.has(box)) : network.boxes;
  const owners = isFolded ? ownersOf(network) : null, members = new Map();
  for (const box of boxes) {
    const owner = owners === null ? box : owners.get(box);
    if (!members.has(owner)) members.set(owner, []);
    if (owner === box) members.get(owner).unshift(box); else members.get(owner).push(box);
  }
  const whole = ({ groups, groupOf }) => ({ groups, groupOf, links: linksOf(network.wires, groups, groupOf), stubs: stubsOf(network, groups, groupOf) });
  const graph = whole(groupsOf(members));
  const chains = isFolded ? chainsOf(graph.groups, graph.links, graph.stubs) : [];
  return chains.length === 0 ? graph : whole(withChains(graph.groups, chains));
}

// The groups, with each chain as one.
function withChains(groups, chains) {
  const inChain = new Map(chains.flatMap((chain) => chain.map((group) => [group, chain])));
  const made = [];
  groups.forEach((group, index) => {
    const chain = inChain.get(index);
    if (chain === undefined) made.push(group);
    else if (chain[0] === index) {
      const members = chain.flatMap((part) => groups[part].members);
      made.push({ name: `${members.length} boxes`, members, isChain: true });
    }
  });
  return { groups: made, groupOf: new Map(made.flatMap(({ members }, index) => members.map((box) => [box, index]))) };
}

// The words at an end of a link: the port, with the helper that has it where it is folded into the box.
function endLabel(group, place) {
  if (group.isChain) return "";
  const box = boxOf(place);
  return box === group.name ? portOf(place) : `${box.slice(group.name.length + 1)}.${portOf(place)}`;
}
