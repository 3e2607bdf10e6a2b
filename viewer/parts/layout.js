// A layered layout of boxes and links: K. Sugiyama, S. Tagawa, M. Toda, "Methods for Visual Understanding of Hierarchical System Structures" (1981).
// Boxes stand in layers from left to right, links lead between neighbouring layers through lanes that no box stands in. The order in a layer is by
// barycentres, with the count of crossings of W. Barth, M. Juenger, P. Mutzel (2002); the heights are least squares under the order, by pooling.

const PITCH = 14, LEAST_HEIGHT = 36, BOX_GAP = 18, LANE_GAP = 9, STUB = 26;
const SWEEPS = 12, RELAXATIONS = 10;

const listsOf = (count) => Array.from({ length: count }, () => []);

// How many links it takes from the first box to each; boxes to which none lead stand where their neighbours have them.
function distancesOf(count, next, near, first) {
  const distance = Array(count).fill(null);
  const spread = (queue, step) => {
    for (let at = 0; at < queue.length; at += 1) {
      for (const [box, by] of step(queue[at])) {
        if (distance[box] === null) { distance[box] = distance[queue[at]] + by; queue.push(box); }
      }
    }
    return queue;
  };
  const forward = (box) => next[box].map((other) => [other, 1]);
  for (const start of [first, ...Array(count).keys()]) {
    if (distance[start] !== null) continue;
    distance[start] = 0;
    spread(spread([start], forward), (box) => near[box]);
  }
  return distance;
}

// The strongly connected component of each box, by Tarjan's algorithm without recursion.
function componentsOf(count, next) {
  const index = Array(count).fill(-1), low = Array(count).fill(0), component = Array(count).fill(-1), stack = [];
  let visited = 0, components = 0;
  const enter = (box) => { index[box] = visited; low[box] = visited; visited += 1; stack.push(box); return { box, at: 0 }; };
  const leave = (box) => {
    if (low[box] !== index[box]) return;
    let member;
    do { member = stack.pop(); component[member] = components; } while (member !== box);
    components += 1;
  };
  for (let root = 0; root < count; root += 1) {
    const open = index[root] < 0 ? [enter(root)] : [];
    while (open.length > 0) {
      const top = open[open.length - 1], other = next[top.box][top.at];
      top.at += 1;
      if (other === undefined) {
        open.pop();
        leave(top.box);
        if (open.length > 0) { const { box } = open[open.length - 1]; low[box] = Math.min(low[box], low[top.box]); }
      } else if (index[other] < 0) {
        open.push(enter(other));
      } else if (component[other] < 0) {
        low[top.box] = Math.min(low[top.box], index[other]);
      }
    }
  }
  return component;
}

// The layer of each box: as far right as links lead it. In a cycle only links away from the first box count.
function layersOf(count, links, first) {
  const next = listsOf(count), near = listsOf(count);
  for (const { a, b, isBoth } of links) {
    if (a === b) continue;
    next[a].push(b);
    if (isBoth) next[b].push(a);
    near[a].push([b, 1]);
    near[b].push([a, isBoth ? 1 : -1]);
  }
  const distance = distancesOf(count, next, near, first), component = componentsOf(count, next);
  const leads = (a, b) => component[a] !== component[b] || distance[a] < distance[b];
  const after = next.map((list, box) => [...new Set(list)].filter((other) => leads(box, other)));
  const before = Array(count).fill(0), open = Array(count).fill(0), layer = Array(count).fill(0);
  for (const list of after) for (const box of list) { before[box] += 1; open[box] += 1; }
  const sorted = [...Array(count).keys()].filter((box) => open[box] === 0);
  for (let at = 0; at < sorted.length; at += 1) {
    for (const box of after[sorted[at]]) {
      layer[box] = Math.max(layer[box], layer[sorted[at]] + 1);
      open[box] -= 1;
      if (open[box] === 0) sorted.push(box);
    }
  }
  // A box from which more leads away than to it stands right before what it leads to.
  for (const box of sorted.reverse()) {
    if (box !== first && after[box].length > before[box]) layer[box] = Math.min(...after[box].map((other) => layer[other])) - 1;
  }
  return layer;
}

// Boxes and lanes as nodes, and the segments between nodes of neighbouring layers: a link over several layers has a lane in each between.
function segmentsOf(count, links, layer) {
  const layers = layer.slice(), segments = [], chains = [];
  for (const { a, b } of links) {
    const [left, right] = layer[a] <= layer[b] ? [a, b] : [b, a];
    const chain = [left];
    for (let at = layer[left] + 1; at < layer[right]; at += 1) { chain.push(layers.length); layers.push(at); }
    chain.push(right);
    chains.push(chain);
    if (layer[left] === layer[right]) continue;
    for (let at = 0; at + 1 < chain.length; at += 1) {
      const lanes = (chain[at] >= count ? 1 : 0) + (chain[at + 1] >= count ? 1 : 0);
      segments.push({ left: chain[at], right: chain[at + 1], weight: [1, 2, 8][lanes], from: 0, to: 0 });
    }
  }
  return { layers, segments, chains };
}

// ---- the order in the layers

// The nodes of each layer as a walk along the segments meets them, so that trees begin without crossings.
function firstRows(layers, left, right, first) {
  const rows = listsOf(Math.max(...layers, 0) + 1), isSeen = Array(layers.length).fill(false);
  for (const start of [first, ...layers.keys()]) {
    const open = [start];
    while (open.length > 0) {
      const node = open.pop();
      if (isSeen[node]) continue;
      isSeen[node] = true;
      rows[layers[node]].push(node);
      for (const others of [left[node], right[node]]) for (let at = others.length - 1; at >= 0; at -= 1) open.push(others[at]);
    }
  }
  return rows;
}

// How many pairs of segments between two layers cross: inversions, counted by a tree of sums.
function crossingsBetween(row, right, place, size) {
  const tree = new Int32Array(size + 1);
  let crossings = 0, total = 0;
  for (const node of row) {
    const ends = right[node].map((other) => place[other]).sort((a, b) => a - b);
    for (const end of ends) {
      let below = 0;
      for (let at = end + 1; at > 0; at -= at & -at) below += tree[at];
      crossings += total - below;
    }
    for (const end of ends) {
      for (let at = end + 1; at <= size; at += at & -at) tree[at] += 1;
      total += 1;
    }
  }
  return crossings;
}

function crossingsOf(rows, right, place) {
  let sum = 0;
  for (let at = 0; at + 1 < rows.length; at += 1) sum += crossingsBetween(rows[at], right, place, rows[at + 1].length);
  return sum;
}

const keepPlaces = (row, place) => row.forEach((node, at) => { place[node] = at; });

// Sorts a layer by the mean places of the neighbours of each node; a node without any stays where it is.
function sortByMeans(row, others, beside, place) {
  const mean = new Map(row.map((node) => {
    const found = others[node].length + beside[node].length > 0 ? [...others[node], ...beside[node]] : [node];
    return [node, found.reduce((sum, other) => sum + place[other], 0) / found.length];
  }));
  row.sort((a, b) => mean.get(a) - mean.get(b) || place[a] - place[b]);
  keepPlaces(row, place);
}

// How many segments cross where node `a` stands above `b`.
function crossingsOfPair(a, b, others, place) {
  let sum = 0;
  for (const one of others[a]) for (const two of others[b]) if (place[one] > place[two]) sum += 1;
  return sum;
}

// Exchanges neighbours in a layer where that leaves fewer crossings.
function exchange(row, left, right, place) {
  let isBetter = false;
  for (let at = 0; at + 1 < row.length; at += 1) {
    const [a, b] = [row[at], row[at + 1]];
    const stays = crossingsOfPair(a, b, left, place) + crossingsOfPair(a, b, right, place);
    if (stays === 0 || stays <= crossingsOfPair(b, a, left, place) + crossingsOfPair(b, a, right, place)) continue;
    [row[at], row[at + 1]] = [b, a];
    [place[a], place[b]] = [at + 1, at];
    isBetter = true;
  }
  return isBetter;
}

const MANY_NODES = 4000;

function rowsOf(layers, segments, beside, first) {
  const left = listsOf(layers.length), right = listsOf(layers.length);
  for (const segment of segments) { right[segment.left].push(segment.right); left[segment.right].push(segment.left); }
  const rows = firstRows(layers, left, right, first), place = Array(layers.length).fill(0);
  rows.forEach((row) => keepPlaces(row, place));
  let best = rows.map((row) => row.slice()), least = crossingsOf(rows, right, place);
  for (let sweep = 0; sweep < (layers.length > MANY_NODES ? 3 : SWEEPS) && least > 0; sweep += 1) {
    for (let at = 1; at < rows.length; at += 1) sortByMeans(rows[at], left, beside, place);
    for (let at = rows.length - 2; at >= 0; at -= 1) sortByMeans(rows[at], right, beside, place);
    for (let round = 0; round < 3 && layers.length <= MANY_NODES && rows.filter((row) => exchange(row, left, right, place)).length > 0;) round += 1;
    const crossings = crossingsOf(rows, right, place);
    if (crossings < least) { best = rows.map((row) => row.slice()); least = crossings; }
  }
  best.forEach((row) => keepPlaces(row, place));
  return { rows: best, place };
}

// ---- the heights

// The places next to the wanted ones, by weighted squares, that keep the order and the gaps: neighbours that are too near are pooled.
function spaced(wanted, weights, gaps) {
  const pools = [];
  let offset = 0;
  wanted.forEach((place, at) => {
    offset += at === 0 ? 0 : gaps[at - 1];
    let pool = { sum: (place - offset) * weights[at], weight: weights[at], count: 1 };
    while (pools.length > 0) {
      const last = pools[pools.length - 1];
      if (last.sum / last.weight <= pool.sum / pool.weight) break;
      pool = { sum: last.sum + pool.sum, weight: last.weight + pool.weight, count: last.count + pool.count };
      pools.pop();
    }
    pools.push(pool);
  });
  const places = [];
  offset = 0;
  for (const { sum, weight, count } of pools) {
    for (let at = 0; at < count; at += 1) {
      offset += places.length === 0 ? 0 : gaps[places.length - 1];
      places.push(sum / weight + offset);
    }
  }
  return places;
}

// The middle of each node, from top to bottom.
function heightsOf(rows, segments, heights, count) {
  const middle = Array(heights.length).fill(0), left = listsOf(heights.length), right = listsOf(heights.length);
  for (const segment of segments) { right[segment.left].push(segment); left[segment.right].push(segment); }
  const gaps = rows.map((row) => row.slice(1).map((node, at) => (heights[row[at]] + heights[node]) / 2 + (node < count && row[at] < count ? BOX_GAP : LANE_GAP)));
  const settle = (at, usesLeft, usesRight) => {
    const row = rows[at], weights = [];
    const wanted = row.map((node) => {
      let sum = 0, weight = 0;
      if (usesLeft) for (const it of left[node]) { sum += it.weight * (middle[it.left] + it.from - it.to); weight += it.weight; }
      if (usesRight) for (const it of right[node]) { sum += it.weight * (middle[it.right] + it.to - it.from); weight += it.weight; }
      weights.push(weight === 0 ? 0.01 : weight);
      return weight === 0 ? middle[node] : sum / weight;
    });
    spaced(wanted, weights, gaps[at]).forEach((place, index) => { middle[row[index]] = place; });
  };
  rows.forEach((row, at) => spaced(row.map(() => 0), row.map(() => 1), gaps[at]).forEach((place, index) => { middle[row[index]] = place; }));
  for (let round = 0; round < RELAXATIONS; round += 1) {
    const isLast = round >= RELAXATIONS - 4;
    for (let at = 0; at < rows.length; at += 1) settle(at, true, isLast);
    for (let at = rows.length - 1; at >= 0; at -= 1) settle(at, isLast, true);
  }
  return middle;
}

// ---- ends of links

// The ends of links and stubs at each side of each box, from top to bottom, each in the order in which its link leads on.
function endsOf(count, links, stubs, chains, layer, place) {
  const sides = { left: listsOf(count), right: listsOf(count) };
  const put = (side, box, end) => { sides[side][box].push({ side, box, ...end }); };
  links.forEach(({ a, b }, number) => {
    const chain = chains[number];
    if (layer[a] !== layer[b]) {
      const [low, high] = [chain[0], chain[chain.length - 1]];
      put("right", low, { number, isFirst: low === a, key: place[chain[1]] });
      put("left", high, { number, isFirst: high === a, key: place[chain[chain.length - 2]] });
      return;
    }
    // Links within a layer lead round at its right: the nearer the other box, the further out the end.
    const key = (from, to) => (from === to ? 2e6 : place[to] > place[from] ? 1e6 - place[to] + place[from] : -1e6 - place[to] + place[from]);
    put("right", a, { number, isFirst: true, key: key(a, b) });
    put("right", b, { number, isFirst: false, key: key(b, a) });
  });
  stubs.forEach(({ box, side }, stub) => put(side, box, { stub, key: 3e6 + stub }));
  for (const side of [sides.left, sides.right]) {
    for (const ends of side) {
      ends.sort((one, two) => one.key - two.key || one.number - two.number);
      ends.forEach((end, at) => { end.offset = (at - (ends.length - 1) / 2) * PITCH; });
    }
  }
  return sides;
}

// ---- the whole

// The way of a link as a path of SVG: curves between layers, and lines along the lanes.
function pathOf(points, bulge) {
  const [[x, y]] = points;
  let text = `M ${x} ${y}`;
  for (let at = 1; at < points.length; at += 1) {
    const [[fromX, fromY], [toX, toY]] = [points[at - 1], points[at]];
    const middle = fromX === toX ? fromX + bulge : (fromX + toX) / 2;
    text += at % 2 === 0 ? ` L ${toX} ${toY}` : ` C ${middle} ${fromY}, ${middle} ${toY}, ${toX} ${toY}`;
  }
  return text;
}

const round1 = (value) => Math.round(value * 10) / 10;

// Where the layers stand from left to right, with room between them for what leads there.
function columnsOf(rows, widths, count, segments, middle, layers, flat) {
  const rise = rows.map(() => 0);
  for (const { left, right, from, to } of segments) rise[layers[left]] = Math.max(rise[layers[left]], Math.abs(middle[left] + from - middle[right] - to));
  let x = STUB + 8;
  return rows.map((row, at) => {
    const width = Math.max(...row.filter((node) => node < count).map((node) => widths[node]), 24);
    const column = { x, width };
    x += width + 46 + Math.min(90, rise[at] * 0.2) + (flat.has(at) ? 24 : 0);
    return column;
  });
}

// Lays out boxes (their widths) and links from `a` to `b` (in both directions where `isBoth`), with stubs at the sides of boxes that lead nowhere.
// Returns the rectangle of each box, and of each link its points from `a` to `b`, and where each of its ends and each stub stands.
function layoutOf(widths, links, stubs, first) {
  if (widths.length === 0) return { boxes: [], links: [], stubs: [], width: 60, height: 60 };
  const count = widths.length, layer = layersOf(count, links, first);
  const { layers, segments, chains } = segmentsOf(count, links, layer);
  const beside = listsOf(layers.length), flat = new Set();
  for (const { a, b } of links) {
    if (layer[a] !== layer[b]) continue;
    flat.add(layer[a]);
    if (a !== b) { beside[a].push(b); beside[b].push(a); }
  }
  const { rows, place } = rowsOf(layers, segments, beside, first);
  const sides = endsOf(count, links, stubs, chains, layer, place);
  const heights = layers.map((_, node) => (node < count ? Math.max(LEAST_HEIGHT, Math.max(sides.left[node].length, sides.right[node].length) * PITCH + 10) : 0));
  const ends = links.map(() => [null, null]), stubEnds = stubs.map(() => null);
  for (const end of [...sides.left, ...sides.right].flat()) {
    if (end.stub !== undefined) stubEnds[end.stub] = end; else ends[end.number][end.isFirst ? 0 : 1] = end;
  }
  keepOffsets(segments, chains, links, ends, layer, count);
  const middle = heightsOf(rows, segments, heights, count).map(round1);
  const top = Math.min(...middle.map((y, node) => y - heights[node] / 2)) - 10;
  const columns = columnsOf(rows, widths, count, segments, middle, layers, flat);
  const boxes = widths.map((_, node) => ({ x: columns[layer[node]].x, y: round1(middle[node] - heights[node] / 2 - top), width: columns[layer[node]].width, height: heights[node], layer: layer[node] }));
  const spotOf = ({ side, box, offset }) => {
    const at = boxes[box];
    return { side, x: side === "left" ? at.x : at.x + at.width, y: round1(at.y + at.height / 2 + offset) };
  };
  const drawn = links.map(({ a }, number) => {
    const spots = ends[number].map(spotOf), points = [[spots[0].x, spots[0].y]], lanes = chains[number].slice(1, -1).map((node) => [columns[layers[node]], middle[node] - top]);
    const isForward = chains[number][0] === a;
    for (const [{ x, width }, y] of isForward ? lanes : lanes.reverse()) points.push(...(isForward ? [[x, round1(y)], [x + width, round1(y)]] : [[x + width, round1(y)], [x, round1(y)]]));
    points.push([spots[1].x, spots[1].y]);
    return { ends: spots, path: pathOf(points, 26 + Math.min(30, Math.abs(spots[0].y - spots[1].y) / 4)) };
  });
  const last = columns[columns.length - 1] || { x: 0, width: 0 };
  const bottom = Math.max(...middle.map((y, node) => y + heights[node] / 2), 0);
  return { boxes, links: drawn, stubs: stubEnds.map(spotOf), width: last.x + last.width + STUB + 20, height: round1(bottom - top + 10) };
}

// Tells each segment at which height of its boxes it begins and ends.
function keepOffsets(segments, chains, links, ends, layer, count) {
  let at = 0;
  links.forEach(({ a, b }, number) => {
    if (layer[a] === layer[b]) return;
    const chain = chains[number], [atFirst, atLast] = chain[0] === a ? ends[number] : [...ends[number]].reverse();
    for (let index = 0; index + 1 < chain.length; index += 1, at += 1) {
      if (chain[index] < count) segments[at].from = atFirst.offset;
      if (chain[index + 1] < count) segments[at].to = atLast.offset;
    }
  });
}
