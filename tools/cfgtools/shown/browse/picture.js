"use strict";
// The picture of what is shown: boxes as elements of the document, lines as paths; only those in sight, and half a screen around.

const LINE = 16;
const PADDING = 12;
const WIDEST = 470;
const TILE = { w: 156, h: 54, gap: 6, title: 22 };
const NO_TEXT = 0.28;
const FIRST_SCALE = 0.62;
const FIRST_SCREENS = 3;
const SVG = "http://www.w3.org/2000/svg";

function element(name, classes, text) {
  const found = document.createElement(name);
  if (classes) found.className = classes;
  if (text !== undefined) found.textContent = text;
  return found;
}

function shape(name, attributes) {
  const found = document.createElementNS(SVG, name);
  for (const [key, value] of Object.entries(attributes)) found.setAttribute(key, value);
  return found;
}

function pathOf(points) {
  return "M" + points.map((point) => point.join(",")).join("L");
}

class Picture {
  // `acts` has what the page does: select(block), enter(head), openFunction(number), goTo(at), moved().
  constructor(program, acts) {
    this.program = program;
    this.acts = acts;
    this.graph = document.getElementById("graph");
    this.layer = document.getElementById("layer");
    this.lines = document.getElementById("lines");
    this.boxes = document.getElementById("boxes");
    this.map = document.getElementById("map");
    this.looks = new Map(program.edgeKinds.map(([kind, colour, dashes]) => [kind, { colour, dashes }]));
    this.looks.set("unsure", { colour: program.unsure[1], dashes: program.unsure[2] });
    this.looks.set("several", { colour: this.looks.get("fall").colour, dashes: "" });
    this.place = { x: 0, y: 0, scale: 1 };
    this.items = [];
    this.nets = [];
    this._measure();
    this._listen();
  }

  _measure() {
    const probe = element("div", "box");
    const text = element("span", "", "0".repeat(100));
    probe.append(text);
    this.boxes.append(probe);
    probe.style.width = "2000px";
    this.letter = text.getBoundingClientRect().width / 100 || 7.3;
    probe.remove();
  }

  // Shows items, at a place or at the first one.
  show(shown, place) {
    this.shown = shown;
    this.items = shown.items;
    for (const item of this.items) this.sizeOf(item, shown);
    const size = layOut(this.items, shown.edges);
    this.size = size;
    this.nets = size.nets;
    for (const net of this.nets) net.bounds = this._boundsOf(net);
    this._clear();
    this.place = place || this._firstPlace();
    this.update();
  }

  _clear() {
    this.boxes.replaceChildren();
    this.lines.replaceChildren();
    this.drawn = new Map();
    this.drawnNets = new Map();
    this.covered = undefined;
    this.chosenLines = undefined;
  }

  // The width and the height of an item.
  sizeOf(item, shown) {
    if (item.kind === "grid") {
      const columns = Math.min(GRID_WIDTH, item.tiles.length), rows = Math.ceil(item.tiles.length / columns);
      item.w = columns * (TILE.w + TILE.gap) + TILE.gap + 2;
      item.h = rows * (TILE.h + TILE.gap) + TILE.gap + TILE.title;
      return;
    }
    item.lines = shown.linesOf(item);
    const most = Math.max(...item.lines.map((line) => line.text.length));
    item.w = Math.round(Math.min(WIDEST, Math.max(item.kind === "box" ? 110 : 80, most * this.letter + 20)));
    item.h = item.lines.length * LINE + PADDING;
  }

  _boundsOf(net) {
    let low = Infinity, high = -Infinity, left = Infinity, right = -Infinity;
    for (const edge of net.edges) {
      for (const [x, y] of edge.points) {
        (low = Math.min(low, y)), (high = Math.max(high, y));
        (left = Math.min(left, x)), (right = Math.max(right, x));
      }
    }
    return { x: left, y: low, w: right - left, h: high - low };
  }

  // ---- places

  get sight() {
    return { w: this.graph.clientWidth, h: this.graph.clientHeight };
  }

  _firstPlace() {
    const { w, h } = this.sight, first = this.items[0];
    const scale = Math.min(1, Math.max(FIRST_SCALE, Math.min((w - 30) / this.size.width, (FIRST_SCREENS * h) / this.size.height)));
    const fits = this.size.width * scale <= w - 20;
    const middle = fits ? this.size.left + this.size.width / 2 : first.x + first.w / 2;
    return { x: w / 2 - middle * scale, y: 14 - first.y * scale, scale };
  }

  fit() {
    const { w, h } = this.sight;
    const scale = Math.min(1, (w - 30) / this.size.width, (h - 30) / this.size.height);
    this.place = { x: w / 2 - (this.size.left + this.size.width / 2) * scale, y: 15, scale };
    this.update();
  }

  zoom(factor, x = this.sight.w / 2, y = this.sight.h / 2) {
    const scale = Math.min(3, Math.max(0.02, this.place.scale * factor)), by = scale / this.place.scale;
    this.place = { x: x - (x - this.place.x) * by, y: y - (y - this.place.y) * by, scale };
    this.update();
  }

  move(x, y) {
    this.place = { ...this.place, x: this.place.x + x, y: this.place.y + y };
    this.update();
  }

  // Moves so that a rectangle is in sight.
  reveal(box) {
    const { w, h } = this.sight, { scale } = this.place;
    const left = box.x * scale + this.place.x, top = box.y * scale + this.place.y;
    const isIn = left >= 10 && top >= 10 && left + Math.min(box.w * scale, w - 20) <= w - 10 && top + Math.min(box.h * scale, h - 20) <= h - 10;
    if (isIn) return;
    const x = w / 2 - (box.x + box.w / 2) * scale, y = Math.max(h / 3 - box.h * scale / 2, 20) - box.y * scale;
    this.place = { x, y, scale };
    this.update();
  }

  // ---- drawing

  update() {
    const { x, y, scale } = this.place;
    this.layer.style.transform = `translate(${x}px, ${y}px) scale(${scale})`;
    this.graph.dataset.scale = scale.toFixed(3);
    if (!this._isCovered()) this._draw();
    this._drawMap();
    this.acts.moved();
  }

  _inSight(around) {
    const { w, h } = this.sight, { x, y, scale } = this.place;
    return { x: (-x - around * w) / scale, y: (-y - around * h) / scale, w: (w * (1 + 2 * around)) / scale, h: (h * (1 + 2 * around)) / scale };
  }

  _isCovered() {
    const now = this._inSight(0), was = this.covered;
    const hasText = this.place.scale >= NO_TEXT;
    return was && was.hasText === hasText && now.x >= was.x && now.y >= was.y && now.x + now.w <= was.x + was.w && now.y + now.h <= was.y + was.h;
  }

  _draw() {
    const hasText = this.place.scale >= NO_TEXT;
    if (this.covered && this.covered.hasText !== hasText) this._clear();
    const sight = { ...this._inSight(0.5), hasText };
    const isIn = (box) => box.x <= sight.x + sight.w && box.x + box.w >= sight.x && box.y <= sight.y + sight.h && box.y + box.h >= sight.y;
    this._exchange(this.drawn, this.items.filter(isIn), (item) => this._drawBox(item, hasText), this.boxes);
    this._exchange(this.drawnNets, this.nets.filter((net) => isIn(net.bounds)), (net) => this._drawNet(net), this.lines);
    this.covered = sight;
    this._showChosen();
  }

  // Draws what is to be there and is not, and takes away what is no longer to be there.
  _exchange(drawn, wanted, draw, parent) {
    const keys = new Set(wanted);
    for (const [key, found] of drawn) {
      if (keys.has(key)) continue;
      found.remove();
      drawn.delete(key);
    }
    const fresh = document.createDocumentFragment();
    for (const key of wanted) {
      if (drawn.has(key)) continue;
      const made = draw(key);
      drawn.set(key, made);
      fresh.append(made);
    }
    parent.append(fresh);
  }

  _drawBox(item, hasText) {
    const { body } = this.shown, box = element("div", `box ${item.kind}`);
    Object.assign(box.style, { left: `${item.x}px`, top: `${item.y}px`, width: `${item.w}px`, height: `${item.h}px` });
    box.dataset.item = item.number;
    box.tabIndex = -1;
    box.setAttribute("role", "button");
    box.setAttribute("aria-label", this._spoken(item));
    if (item.kind === "box") {
      const last = item.blocks[item.blocks.length - 1], fill = this.program.fills[body.kinds[last]];
      if (fill) box.style.background = fill;
      if (item.head === body.entry) box.classList.add("entry");
    }
    if (item.kind === "grid") this._drawTiles(item, box, hasText);
    else if (hasText) item.lines.forEach((line, number) => box.append(this._drawLine(line, number)));
    this._showRan(item.blocks, box, item.kind !== "grid");
    return box;
  }

  _showRan(blocks, box, hasCount) {
    const { counts } = this.shown.body;
    if (!counts) return;
    const most = blocks.reduce((found, block) => Math.max(found, counts[block]), 0);
    if (most) box.classList.add("ran");
    if (most && hasCount && this.program.has.counts) box.append(element("span", "count", `${most}x`));
  }

  _drawLine(line, number) {
    const found = element("div", "line");
    found.dataset.line = number;
    if (line.isFirst) found.classList.add("first");
    if (line.isGap) found.classList.add("gap");
    if (line.isOpen) found.classList.add("open");
    const name = line.callee === undefined ? "" : this.program.names[line.callee];
    const at = name ? line.text.lastIndexOf(name) : -1;
    if (at < 0) {
      found.textContent = line.isOpen ? line.text + "  ?" : line.text;
      return found;
    }
    const callee = element("span", "callee", name);
    callee.dataset.callee = line.callee;
    found.append(line.text.slice(0, at), callee, line.text.slice(at + name.length));
    return found;
  }

  _drawTiles(item, box, hasText) {
    if (hasText) box.append(element("div", "line", this.shown.linesOf(item)[0].text));
    item.tiles.forEach((tile, number) => {
      const { x, y } = this.tilePlace(number), found = element("div", "tile");
      Object.assign(found.style, { left: `${x}px`, top: `${y}px`, width: `${TILE.w}px`, height: `${TILE.h}px` });
      found.dataset.tile = number;
      if (hasText) found.textContent = this.shown.tileLines(tile).join("\n");
      found.setAttribute("role", "button");
      found.setAttribute("aria-label", this.shown.tileLines(tile).join(", "));
      this._showRan(tile.blocks, found, false);
      box.append(found);
    });
  }

  tilePlace(number) {
    const across = TILE.w + TILE.gap, down = TILE.h + TILE.gap;
    return { x: TILE.gap + (number % GRID_WIDTH) * across, y: TILE.title + Math.floor(number / GRID_WIDTH) * down };
  }

  // What a screen reader says of a box.
  _spoken(item) {
    const { body } = this.shown;
    if (item.kind === "out") return `leads to the function ${this.program.place(item.at)}`;
    if (item.kind === "way") return `leads to the block ${this.program.hex(item.at)}, outside this group`;
    if (item.kind === "grid") return this.shown.linesOf(item)[0].text;
    if (item.kind !== "box") return item.lines.map((line) => line.text.trim()).join(", ");
    const last = item.blocks[item.blocks.length - 1];
    const ways = [...new Set(body.edges[last].map((edge) => `${edge.kind} to ${this.program.place(edge.at)}`))];
    return `block ${this.program.hex(body.starts[item.head])}, ends with ${body.kinds[last]}${ways.length ? ": " + ways.slice(0, 6).join(", ") : ""}`;
  }

  _drawNet(net) {
    const group = shape("g", {});
    for (const edge of net.edges) {
      const kind = edge.unsure ? "unsure" : edge.kind, look = this.looks.get(kind);
      const line = shape("path", { class: `edge ${kind}`, d: pathOf(edge.own), stroke: look.colour });
      if (look.dashes) line.setAttribute("stroke-dasharray", look.dashes);
      group.append(line);
      if (!edge.ways.some((way) => way.kind === "taken")) continue;
      const [x, y] = edge.own[0], fill = this.looks.get("taken").colour;
      group.append(shape("rect", { class: "mark", x: x - 4, y, width: 8, height: 8, fill }));
    }
    this._drawShared(net, group);
    return group;
  }

  // The part that all ways to a box have in common, with its arrow, and the numbers of a table's entries.
  _drawShared(net, group) {
    const kinds = new Set(net.edges.map((edge) => (edge.unsure ? "unsure" : edge.kind)));
    const kind = kinds.size === 1 ? [...kinds][0] : "several", look = this.looks.get(kind);
    for (const points of net.shared) {
      const line = shape("path", { class: `edge ${kind}`, d: pathOf(points), stroke: look.colour });
      if (look.dashes) line.setAttribute("stroke-dasharray", look.dashes);
      group.append(line);
    }
    const [x, y] = net.edges[0].points[net.edges[0].points.length - 1];
    group.append(shape("path", { class: "arrow", d: `M${x - 5},${y - 9}L${x + 5},${y - 9}L${x},${y}Z`, fill: look.colour }));
    const entries = net.to.kind === "grid" ? [] : net.edges.flatMap((edge) => edge.ways.map((way) => way.entries).filter(Boolean));
    const isUnsure = net.edges.some((edge) => edge.unsure);
    if (!entries.length && !isUnsure) return;
    const text = entries.join(", ");
    const note = shape("text", { class: "note", x: x + 7, y: y - 3, fill: this.looks.get("table").colour });
    note.textContent = (text.length > 24 ? text.slice(0, 24) + " .." : text) + (isUnsure ? "?" : "");
    group.append(note);
  }

  // ---- what is selected

  choose(block) {
    this.block = block;
    this._showChosen();
  }

  // The item and the rectangle of a block.
  itemOfBlock(block) {
    const number = this.shown.itemOf[block];
    return number >= 0 ? this.items[number] : undefined;
  }

  rectangleOf(block) {
    const item = this.itemOfBlock(block);
    if (!item) return undefined;
    const tile = this.shown.tileOf.get(block);
    if (tile) {
      const { x, y } = this.tilePlace(item.tiles.indexOf(tile));
      return { x: item.x + x, y: item.y + y, w: TILE.w, h: TILE.h };
    }
    const line = item.kind === "box" ? item.lines.findIndex((one) => one.block === block) : 0;
    return { x: item.x, y: item.y + Math.max(0, line) * LINE, w: item.w, h: Math.min(item.h, 6 * LINE) };
  }

  _showChosen() {
    for (const found of this.boxes.querySelectorAll(".chosen")) found.classList.remove("chosen");
    if (this.chosenLines) this.chosenLines.remove();
    this.chosenLines = undefined;
    const item = this.block === undefined ? undefined : this.itemOfBlock(this.block);
    if (!item) return;
    const box = this.drawn.get(item), tile = this.shown.tileOf.get(this.block);
    if (box && tile) box.children[item.tiles.indexOf(tile) + (this.covered.hasText ? 1 : 0)].classList.add("chosen");
    else if (box) {
      box.classList.add("chosen");
      if (item.kind === "box" && this.covered.hasText) {
        item.lines.forEach((line, number) => line.block === this.block && box.children[number].classList.add("chosen"));
      }
    }
    this._drawChosenLines(item);
  }

  // The ways of the selected block, bold.
  _drawChosenLines(item) {
    const group = shape("g", { class: "chosen-ways" }), isOfBlock = item.kind === "box" || item.kind === "grid";
    const tile = this.shown.tileOf.get(this.block), own = new Set(tile ? tile.blocks : [this.block]);
    const lastOfBox = item.kind === "box" ? item.blocks[item.blocks.length - 1] : -1;
    for (const net of this.nets) {
      for (const edge of net.edges) {
        const leaves = edge.from === item.number && (!isOfBlock || edge.ways.some((way) => own.has(way.from)) || this.block === lastOfBox);
        const comes = edge.to === item.number && (!isOfBlock || edge.ways.some((way) => own.has(way.to)));
        if (!leaves && !comes) continue;
        const look = this.looks.get(edge.unsure ? "unsure" : edge.kind);
        group.append(shape("path", { class: "edge bold", d: pathOf(edge.points), stroke: look.colour }));
      }
    }
    this.chosenLines = group;
    this.lines.append(group);
  }

  // ---- the small map

  _drawMap() {
    const pen = this.map.getContext("2d"), { width, height } = this.map;
    const scale = Math.min(width / (this.size.width + 20), height / (this.size.height + 20));
    this.mapScale = scale;
    pen.clearRect(0, 0, width, height);
    pen.fillStyle = "#888";
    for (const item of this.items) {
      pen.fillRect((item.x - this.size.left + 10) * scale, (item.y + 10) * scale, Math.max(1, item.w * scale), Math.max(1, item.h * scale));
    }
    const sight = this._inSight(0);
    pen.strokeStyle = "#c00000";
    pen.lineWidth = 1.5;
    pen.strokeRect((sight.x - this.size.left + 10) * scale, (sight.y + 10) * scale, sight.w * scale, sight.h * scale);
  }

  _goToMap(event) {
    const bounds = this.map.getBoundingClientRect(), { w, h } = this.sight, { scale } = this.place;
    const x = (event.clientX - bounds.left) / this.mapScale - 10 + this.size.left, y = (event.clientY - bounds.top) / this.mapScale - 10;
    this.place = { x: w / 2 - x * scale, y: h / 2 - y * scale, scale };
    this.update();
  }

  // ---- the mouse

  _listen() {
    let from;
    this.graph.addEventListener("pointerdown", (event) => {
      if (event.button !== 0) return;
      from = { x: event.clientX, y: event.clientY, isDrag: false, onMap: event.target === this.map };
      if (from.onMap) this._goToMap(event);
    });
    this.graph.addEventListener("pointermove", (event) => {
      if (!from || !(event.buttons & 1)) return;
      if (from.onMap) return this._goToMap(event);
      const x = event.clientX - from.x, y = event.clientY - from.y;
      if (!from.isDrag && Math.abs(x) + Math.abs(y) < 5) return;
      if (!from.isDrag) this.graph.setPointerCapture(event.pointerId);
      from.isDrag = true;
      this.graph.classList.add("dragged");
      from.x = event.clientX;
      from.y = event.clientY;
      this.move(x, y);
    });
    this.graph.addEventListener("pointerup", () => this.graph.classList.remove("dragged"));
    this.graph.addEventListener("click", (event) => {
      const wasDrag = from && (from.isDrag || from.onMap);
      from = undefined;
      if (!wasDrag) this._click(event);
    });
    this.graph.addEventListener("dblclick", (event) => {
      const item = this._itemAt(event);
      if (item && item.head >= 0) this.acts.enter(this._blockAt(event, item));
    });
    this.graph.addEventListener("wheel", (event) => {
      event.preventDefault();
      const bounds = this.graph.getBoundingClientRect();
      if (event.ctrlKey) this.zoom(Math.exp(-event.deltaY / 300), event.clientX - bounds.left, event.clientY - bounds.top);
      else this.move(event.shiftKey ? -event.deltaY : -event.deltaX, event.shiftKey ? 0 : -event.deltaY);
    }, { passive: false });
  }

  _itemAt(event) {
    const box = event.target.closest(".box");
    return box ? this.items[Number(box.dataset.item)] : undefined;
  }

  // The block that is meant by a click on an item.
  _blockAt(event, item) {
    const tile = event.target.closest(".tile");
    if (tile) return item.tiles[Number(tile.dataset.tile)].head;
    const line = event.target.closest(".line");
    const found = line && item.lines ? item.lines[Number(line.dataset.line)].block : -1;
    return found >= 0 ? found : item.head;
  }

  _click(event) {
    const item = this._itemAt(event);
    if (!item) return;
    if (event.target.dataset.callee !== undefined) this.acts.openFunction(Number(event.target.dataset.callee));
    else if (item.kind === "out") this.acts.goTo(item.at);
    else if (item.kind === "way") this.acts.goTo(item.at);
    else this.acts.select(this._blockAt(event, item));
  }
}
