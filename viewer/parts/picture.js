// The picture of a network: layoutOf of layout.js drawn as SVG, with the way of a path marked, folding, zoom and pan.

// From how many boxes on only the way is drawn, and from how many on helpers are folded; the least scale at which the numbers of ports can be read.
const DRAWN = 600, FOLDED_FROM = 60, READABLE = 0.7;
// How many pixels a pointer moves at most that only presses.
const STILL = 4;
const NAME_LENGTH = 22, MOST_SCALE = 3, LEAST_SCALE = 0.02;

function svg(tag, attributes, ...children) {
  const made = document.createElementNS("http://www.w3.org/2000/svg", tag);
  for (const [name, value] of Object.entries(attributes)) made.setAttribute(name, value);
  for (const child of children) made.append(child);
  return made;
}

const measures = document.createElement("canvas").getContext("2d");

function textWidth(text, size) {
  measures.font = `${size}px system-ui, sans-serif`;
  return measures.measureText(text).width;
}

const isSameList = (one, two) => one.length === two.length && one.every((part, at) => part === two[at]);
const shortName = (name) => (name.length > NAME_LENGTH ? `${name.slice(0, NAME_LENGTH - 1)}\u2026` : name);

// The wires over which a way leads.
function wiresOn(places, found = new Set()) {
  for (let at = 0; at + 1 < places.length; at += 1) found.add(`${places[at]} -> ${places[at + 1]}`);
  return found;
}

// The sign at the box where a path ends.
function endSign(end, isRound) {
  if (isRound) return { sign: "\u21bb", shade: "bad" };
  if (end === "delivered") return { sign: "\u2713", shade: "good" };
  if (end === "stopped") return { sign: "\u25a0", shade: "soft" };
  return end === "cut" ? { sign: "?", shade: "warn" } : { sign: "\u2715", shade: "bad" };
}

// What is seen of a drawing: the point in the middle of the window and the scale.
class View {
  constructor(shape) {
    this.shape = shape;
    this.size = { width: 800, height: 300 };
    this.scale = 1;
    this.x = 0;
    this.y = 0;
  }

  // The size of the window, as it is on the screen.
  measure() {
    const { width, height } = this.shape.getBoundingClientRect();
    if (width > 0 && height > 0) this.size = { width, height };
  }

  apply() {
    const width = this.size.width / this.scale, height = this.size.height / this.scale;
    this.shape.setAttribute("viewBox", `${this.x - width / 2} ${this.y - height / 2} ${width} ${height}`);
  }

  // Shows a rectangle as large as it fits, at its own size at most. Where that is below the least scale the part is shown that begins with a box.
  fit({ x, y, width, height }, least = LEAST_SCALE, box = null) {
    this.measure();
    this.scale = Math.max(Math.min(this.size.width / (width + 16), this.size.height / (height + 16), 1), least);
    const middleOf = (begin, length, seen, wanted) => (length <= seen || wanted === null ? begin + length / 2 : Math.min(Math.max(wanted, begin + seen / 2), begin + length - seen / 2));
    const [seenWidth, seenHeight] = [this.size.width / this.scale, this.size.height / this.scale];
    this.x = middleOf(x - 8, width + 16, seenWidth, box === null ? null : box.x - STUB - 8 + seenWidth / 2);
    this.y = middleOf(y - 8, height + 16, seenHeight, box === null ? null : box.y + box.height / 2);
    this.apply();
  }

  // Zooms so that the point of the drawing at this place of the window stays there.
  zoom(factor, atX = this.size.width / 2, atY = this.size.height / 2) {
    const scale = Math.min(Math.max(this.scale * factor, LEAST_SCALE), MOST_SCALE);
    const [dx, dy] = [atX - this.size.width / 2, atY - this.size.height / 2];
    this.x += dx / this.scale - dx / scale;
    this.y += dy / this.scale - dy / scale;
    this.scale = scale;
    this.apply();
  }

  move(dx, dy) {
    this.x -= dx / this.scale;
    this.y -= dy / this.scale;
    this.apply();
  }
}

// A network drawn once; `mark` then marks the ways of paths in it.
class Picture {
  constructor(network) {
    this.network = network;
    this.isLarge = network.boxes.length > DRAWN;
    this.folds = this.isLarge ? 0 : network.boxes.length - graphOf(network, null, true).groups.length;
    this.isFolded = this.folds > 0 && network.boxes.length > FOLDED_FROM;
    // what is shown: "all", "way" with its surroundings, the way "alone", or a view of one's "own"; null as long as nobody chose
    this.mode = null;
    this.shape = svg("svg", { class: "picture", role: "img", "aria-label": "boxes and links", tabindex: 0 });
    this.shape.append(svg("title", {}, "drag to move, Ctrl and the wheel to zoom, click a box for the paths that come to it"));
    this.view = new View(this.shape);
    this.note = element("span", { class: "soft" });
    this.element = element("div", { class: "network" }, this.controls(), this.shape);
    this.whole = null;
    this.listen();
    this.draw(this.isLarge ? new Set() : null);
  }

  controls() {
    const button = (words, title, click) => element("button", { type: "button", title, click }, words);
    const fold = element("input", { type: "checkbox", class: "fold" });
    fold.checked = this.isFolded;
    fold.addEventListener("change", () => { this.isFolded = fold.checked; this.whole = null; this.draw(null); this.remark(); this.begin(); });
    const folding = this.folds === 0 ? [] : [element("label", { title: "boxes named after another one, as east_ttl after east, and rows of boxes that only pass packets on" }, fold, ` fold ${plural(this.folds, "helper box", "helper boxes")}`)];
    return element("div", { class: "controls" }, button("\u2212", "smaller", () => this.zoom(1 / 1.4)), button("+", "larger", () => this.zoom(1.4)),
      button("all", "the whole network", () => this.choose("all")), button("way", "the way of the path, with what is round it", () => this.choose("way")),
      button("way alone", "the boxes of the way, and no others", () => this.choose("alone")), ...folding, this.note);
  }

  zoom(factor, x, y) {
    this.mode = "own";
    this.view.measure();
    this.view.zoom(factor, x, y);
  }

  choose(mode) {
    this.mode = mode;
    this.show(mode);
  }

  // Shows the whole network, the way, or the way alone; a view that was chosen by hand stays, as long as it has the way.
  show(mode, least = LEAST_SCALE) {
    const isAlone = this.isLarge || mode === "alone" || (mode === "own" && this.drawn.only !== null), only = isAlone ? this.onWay() : null;
    const isSame = only === null ? this.drawn.only === null : this.drawn.only !== null && isSameList([...only], [...this.drawn.only]);
    if (!isSame) { this.draw(only); this.remark(); }
    this.note.textContent = only === null ? "" : `only the boxes on the way are drawn, of ${this.network.boxes.length.toLocaleString("en")}`;
    if (mode === "own" && isSame) { this.view.measure(); this.view.apply(); return; }
    const { layout, marked } = this.drawn;
    this.view.fit(mode === "way" && marked.length > 0 ? around(layout, marked) : { x: 0, y: 0, width: layout.width, height: layout.height }, least, this.firstBox());
  }

  // The rectangle of the box where the first way begins. Null where there is none.
  firstBox() {
    const { graph, layout } = this.drawn, [first] = this.last ? this.last[0].flat() : [];
    return (first !== undefined && layout.boxes[graph.groupOf.get(boxOf(first))]) || null;
  }

  onWay() {
    const [ways, round] = this.last || [[], []];
    return new Set([...ways.flat(), ...round].map(boxOf));
  }

  // The mode as long as nobody chose: the most of the network that can be read.
  readable() {
    if (this.isLarge) return "alone";
    this.view.measure();
    const { layout, graph } = this.whole, groups = [...new Set([...this.onWay()].map((box) => graph.groupOf.get(box)))].filter((group) => group !== undefined);
    const isReadable = ({ width, height }) => Math.min(this.view.size.width / width, this.view.size.height / height) >= READABLE;
    return isReadable(layout) || groups.length === 0 ? "all" : isReadable(around(layout, groups)) ? "way" : "alone";
  }

  // Called once the picture stands in the page and has a size, and when that or the way changes.
  begin() {
    if (this.mode !== null) this.show(this.mode); else this.show(this.readable(), READABLE);
  }

  resized() {
    const { width, height } = this.view.size;
    this.view.measure();
    if (this.view.size.width === width && this.view.size.height === height) return;
    this.begin();
  }

  // Leaves in the list the records that come to a box, or all of them again.
  ask(box) {
    if (!state.report || this.element.parentNode !== byId("network")) return;
    const filter = byId("filter"), wanted = `in ${box}.`;
    filter.value = filter.value === wanted ? "" : wanted;
    showGroups();
  }

  listen() {
    const pointers = new Map();
    const spread = () => { const [one, two] = [...pointers.values()]; return Math.hypot(one.x - two.x, one.y - two.y); };
    const place = (event) => { const at = this.shape.getBoundingClientRect(); return { x: event.clientX - at.left, y: event.clientY - at.top }; };
    this.shape.addEventListener("wheel", (event) => {
      if (!event.ctrlKey && !event.metaKey) return;
      event.preventDefault();
      const { x, y } = place(event);
      this.zoom(Math.exp(-event.deltaY / 300), x, y);
    }, { passive: false });
    let pressed = null;
    this.shape.addEventListener("pointerdown", (event) => { pressed = pointers.size === 0 ? { ...place(event), box: event.target.closest(".node") } : null; pointers.set(event.pointerId, place(event)); this.view.measure(); });
    this.shape.addEventListener("pointermove", (event) => {
      const before = pointers.get(event.pointerId), after = place(event);
      if (before === undefined || (pressed !== null && Math.hypot(after.x - pressed.x, after.y - pressed.y) < STILL)) return;
      if (pressed !== null) this.shape.setPointerCapture(event.pointerId);
      pressed = null;
      this.mode = "own";
      const wide = pointers.size === 2 ? spread() : 0;
      pointers.set(event.pointerId, after);
      if (wide > 0) this.view.zoom(spread() / wide, after.x, after.y);
      else this.view.move(after.x - before.x, after.y - before.y);
    });
    this.shape.addEventListener("pointerup", () => { if (pressed !== null && pressed.box !== null) this.ask(pressed.box.dataset.box); });
    for (const name of ["pointerup", "pointercancel", "pointerleave"]) this.shape.addEventListener(name, (event) => { pointers.delete(event.pointerId); pressed = null; });
    this.shape.addEventListener("keydown", (event) => {
      const deed = { "+": () => this.zoom(1.4), "-": () => this.zoom(1 / 1.4), 0: () => this.choose("all") }[event.key];
      if (deed) { event.preventDefault(); deed(); }
    });
    new ResizeObserver(() => { if (this.element.isConnected) this.resized(); }).observe(this.shape);
  }

  // Draws the boxes of the network, or these alone. The drawing of all is kept.
  draw(only) {
    if (only !== null) this.drawn = this.drawingOf(only);
    else this.drawn = this.whole = this.whole || this.drawingOf(null);
    const { drawing, layout } = this.drawn;
    this.shape.replaceChildren(this.shape.firstChild, drawing);
    this.shape.style.aspectRatio = `${layout.width} / ${layout.height}`;
    this.shape.style.maxHeight = `min(46vh, ${layout.height + 16}px)`;
  }

  // A drawing: the graph, where it stands, its elements, and the groups that are marked in it.
  drawingOf(only) {
    const graph = graphOf(this.network, only, this.isFolded), { groups, groupOf, links, stubs } = graph;
    const labels = groups.map(() => 0);
    const keepLabel = (group, text) => { labels[group] = Math.max(labels[group], textWidth(text, 9.5)); return text; };
    const linkLabels = links.map(({ a, b, from, to }) => [keepLabel(a, endLabel(groups[a], from)), keepLabel(b, endLabel(groups[b], to))]);
    const stubLabels = stubs.map(({ box, places }) => keepLabel(box, places.length === 1 ? endLabel(groups[box], places[0]) : "\u2026"));
    const widths = groups.map(({ name }, group) => Math.ceil(Math.max(textWidth(shortName(name), 12), 24) + 2 * labels[group] + 26));
    const layout = layoutOf(widths, links, stubs, this.network.entry === null ? 0 : groupOf.get(boxOf(this.network.entry)) || 0);
    const wires = new Map(), keep = (name, drawn) => { wires.set(name, drawn); return drawn.shape; };
    const ends = links.map(({ from, to }, number) => [from, to].map((place, side) => portShape(place, layout.links[number].ends[side], linkLabels[number][side])));
    const stubEnds = stubs.map(({ places }, number) => portShape(places[0], layout.stubs[number], stubLabels[number]));
    const lines = svg("g", {}, ...links.flatMap((link, number) => linkShapes(link, layout.links[number], ends[number], keep)), ...stubs.map((stub, number) => stubShape(stub, layout.stubs[number], stubEnds[number], keep)));
    const boxes = groups.map((group, number) => this.boxShape(group, layout.boxes[number])), badge = svg("g", { class: "badge" });
    const drawing = svg("g", {}, lines, ...boxes.map(({ shape }) => shape), ...ends.flat(), ...stubEnds, badge);
    return { only, graph, layout, wires, lines, boxes, badge, drawing, marked: [] };
  }

  boxShape({ name, members, isChain }, { x, y, width, height }) {
    const { job } = this.network, node = job && members.length === 1 ? job.nodes.get(name) : undefined;
    const rectangle = svg("rect", { class: "box", x, y, width, height, rx: 5 });
    const words = svg("text", { class: isChain ? "name soft" : "name", x: x + width / 2, y: y + height / 2 + 4, "text-anchor": "middle" }, shortName(name));
    const shape = svg("g", { class: "node", "data-box": name }, rectangle, words);
    if (members.length > 1) {
      rectangle.setAttribute("stroke-dasharray", "4 2");
      if (!isChain) shape.append(svg("text", { class: "count", x: x + width / 2, y: y + height - 3, "text-anchor": "middle" }, `+ ${members.length - 1}`));
    }
    shape.append(svg("title", {}, node && node.table ? `${name} = ${node.table}` : members.join(", ")));
    return { shape, rectangle };
  }

  // Marks the boxes and wires of these ways, and of a round; a sign says how the first way ends.
  mark(ways, round, end) {
    this.last = [ways, round, end];
    const boxes = new Set(ways.flat().map(boxOf)), roundBoxes = new Set(round.map(boxOf));
    const on = new Set(), roundWires = wiresOn(round);
    for (const places of ways) {
      wiresOn(places, on);
      if (places.length === 0) continue;
      on.add(`enter ${places[0]}`);
      on.add(`leave ${places[places.length - 1]}`);
    }
    const { graph, boxes: drawn, wires, lines } = this.drawn, marked = [];
    graph.groups.forEach(({ members }, group) => {
      const isOn = members.some((box) => boxes.has(box)), isRound = members.some((box) => roundBoxes.has(box));
      drawn[group].rectangle.setAttribute("class", `box${isRound ? " round" : isOn ? " on" : ""}`);
      if (isOn || isRound) marked.push(group);
    });
    this.drawn.marked = marked;
    for (const { labels } of wires.values()) for (const label of labels) label.setAttribute("class", "port");
    for (const [name, { shape, line, head, labels, kind }] of wires) {
      const shade = roundWires.has(name) ? " round" : on.has(name) ? " on" : "";
      line.setAttribute("class", `${kind}${shade}`);
      head.setAttribute("class", `head${shade}`);
      if (shade === "") continue;
      lines.append(shape);
      for (const label of labels) label.setAttribute("class", `port${shade}`);
    }
    this.showEnd(ways[0], end, round.length > 0);
  }

  remark() {
    if (this.last) this.mark(...this.last);
  }

  showEnd(places, end, isRound) {
    const sign = end === undefined || !places || places.length === 0 ? null : endSign(end, isRound);
    const { graph, layout, badge } = this.drawn, group = sign === null ? undefined : graph.groupOf.get(boxOf(places[places.length - 1]));
    badge.replaceChildren();
    if (group === undefined) return;
    const { x, y, width } = layout.boxes[group];
    badge.append(svg("circle", { class: sign.shade, cx: x + width - 2, cy: y + 2, r: 7 }), svg("text", { x: x + width - 2, y: y + 5.6, "text-anchor": "middle" }, sign.sign));
  }
}

// The rectangle around these boxes of a layout.
function around(layout, groups) {
  const boxes = groups.map((group) => layout.boxes[group]);
  const x = Math.min(...boxes.map((box) => box.x)) - STUB, y = Math.min(...boxes.map((box) => box.y)) - 8;
  return { x, y, width: Math.max(...boxes.map((box) => box.x + box.width)) + STUB - x, height: Math.max(...boxes.map((box) => box.y + box.height)) + 8 - y };
}

// A line for each wire of a link, with a head where the packet comes out.
function linkShapes({ wires, isBoth }, { path, ends }, labels, keep) {
  const title = wires.map(({ name }) => name).join("\n");
  return wires.map((wire, at) => {
    const end = ends[at === 0 ? 1 : 0], line = svg("path", { class: "wire", d: path }), head = headAt(end, end.side === "left");
    const shape = svg("g", { class: isBoth ? "link both" : "link", "data-from": wire.from, "data-to": wire.to }, line, head, svg("title", {}, title));
    return keep(wire.name, { shape, line, head, labels, kind: "wire" });
  });
}

function stubShape({ side, places }, { x, y }, label, keep) {
  const isEntry = side === "left", far = isEntry ? x - STUB : x + STUB, verb = isEntry ? "enter" : "leave";
  const line = svg("path", { class: "lead", d: `M ${isEntry ? far : x} ${y} L ${isEntry ? x : far} ${y}` }), head = headAt({ x: isEntry ? x : far, y }, true);
  const shape = svg("g", { class: isEntry ? "stub entry" : "stub exit" }, line, head, svg("title", {}, `packets ${verb} by ${places.join(", ")}`));
  for (const place of places) keep(`${verb} ${place}`, { shape, line, head, labels: [label], kind: "lead" });
  return shape;
}

// The number of a port, inside of its box at the end of its link.
function portShape(place, { side, x, y }, text) {
  return svg("text", { class: "port", "data-place": place, x: side === "left" ? x + 5 : x - 5, y: y + 3.3, "text-anchor": side === "left" ? "start" : "end" }, text);
}

// The head of an arrow whose point is there.
function headAt({ x, y }, isRightward) {
  const back = isRightward ? x - 7 : x + 7;
  return svg("path", { class: "head", d: `M ${x} ${y} L ${back} ${y - 3.5} L ${back} ${y + 3.5} Z` });
}

let shownPicture = null;

// Draws the network of the report and the job, and marks the way of a record. The drawing is kept while these are the same.
function drawNetwork(record, round) {
  const { job, report } = state;
  if (!shownPicture || shownPicture.network.job !== job || shownPicture.network.report !== report) shownPicture = new Picture(networkOf({ job, report }));
  const places = record ? placesOf(job, record) : [];
  shownPicture.mark([places], round, record ? record.end : undefined);
  if (shownPicture.element.parentNode !== byId("network")) byId("network").replaceChildren(shownPicture.element);
  shownPicture.begin();
}

// A picture of a network with the ways of these records.
function pictureOf(network, records) {
  const picture = new Picture(network), [first] = records;
  picture.mark(records.map((record) => record.places || []), [], first && first.end);
  return picture;
}
