"use strict";
// Where boxes and lines go. Rows by the longest way from the first box; subtrees packed side by side, a parent above the middle of
// its children; lines with right angles, one for all ways forward to a box, one for all ways back to it, and one out of a box
// with many ways.

const COLUMN = 9;
const BESIDE = 36;
const TRACK = 7;
const MANY_WAYS = 6;

// Gives each item a `row`, and `x` and `y` of its corner, and each edge its `points`. Items have `w`, `h` and a `parent`, the
// first none; a parent stands before its children. An edge has `from` and `to`, numbers of items. The size of all comes back.
function layOut(items, edges) {
  if (!items.length) return { width: 0, height: 0, nets: [] };
  setRows(items, edges);
  placeAcross(items);
  const routes = new Routes(items, edges);
  const height = routes.placeDown();
  const nets = routes.draw();
  return { ...boundsOf(items, nets), height, nets };
}

// The edges that lead forward, by an order in which each box comes after those before it; and the rows.
function setRows(items, edges) {
  const onward = items.map(() => []);
  for (const edge of edges) if (edge.from !== edge.to) onward[edge.from].push(edge.to);
  items.forEach((item, number) => item.parent >= 0 && onward[item.parent].push(number));
  const seen = new Uint8Array(items.length), order = [], path = [[0, 0]];
  seen[0] = 1;
  while (path.length) {
    const top = path[path.length - 1], ways = onward[top[0]];
    while (top[1] < ways.length && seen[ways[top[1]]]) top[1]++;
    if (top[1] === ways.length) order.push(path.pop()[0]);
    else {
      seen[ways[top[1]]] = 1;
      path.push([ways[top[1]], 0]);
    }
  }
  order.reverse();
  const place = new Int32Array(items.length);
  order.forEach((number, at) => (place[number] = at));
  items.forEach((item) => (item.row = 0));
  for (const number of order) {
    for (const to of onward[number]) if (place[to] > place[number]) items[to].row = Math.max(items[to].row, items[number].row + 1);
  }
}

// The outline of a subtree: how far left and right it reaches in each row from its first on, as seen from the middle of its root.
function outlineOf(item) {
  return { first: item.row, left: [-item.w / 2], right: [item.w / 2] };
}

// How far right an outline has to go so that it is beside what is there.
function shiftBeside(whole, part) {
  let shift = -Infinity;
  for (let at = Math.max(0, whole.first - part.first); at < part.left.length; at++) {
    const there = whole.right[part.first + at - whole.first];
    if (there !== undefined && there !== -Infinity && part.left[at] !== Infinity) shift = Math.max(shift, there + BESIDE - part.left[at]);
  }
  return shift;
}

// Adds an outline to another.
function join(whole, part, shift) {
  while (whole.first > part.first) {
    whole.left.unshift(Infinity);
    whole.right.unshift(-Infinity);
    whole.first--;
  }
  part.left.forEach((left, at) => {
    const row = part.first + at - whole.first;
    while (whole.left.length <= row) whole.left.push(Infinity), whole.right.push(-Infinity);
    whole.left[row] = Math.min(whole.left[row], left + shift);
    whole.right[row] = Math.max(whole.right[row], part.right[at] + shift);
  });
}

// The middle of what an outline holds.
function middleOf(outline) {
  return (Math.min(...outline.left) + Math.max(...outline.right)) / 2;
}

function placeAcross(items) {
  const children = items.map(() => []);
  items.forEach((item, number) => item.parent >= 0 && children[item.parent].push(number));
  const outlines = new Array(items.length), shifts = new Float64Array(items.length);
  for (let number = items.length - 1; number >= 0; number--) {
    const item = items[number];
    // (those that begin further down go below the others)
    const below = children[number].sort((one, other) => items[one].row - items[other].row || one - other);
    let whole;
    for (const child of below) {
      const part = outlines[child];
      if (whole === undefined) whole = { first: part.first, left: [], right: [] };
      const least = whole.left.length ? shiftBeside(whole, part) : 0;
      shifts[child] = least === -Infinity ? middleOf(whole) : least;
      join(whole, part, shifts[child]);
      outlines[child] = undefined;
    }
    const own = outlineOf(item);
    if (whole !== undefined) {
      const ends = below.map((child) => shifts[child]);
      const middle = (Math.min(...ends) + Math.max(...ends)) / 2;
      for (const child of below) shifts[child] -= middle;
      join(own, whole, -middle);
    }
    outlines[number] = own;
  }
  items.forEach((item, number) => {
    item.middle = (item.parent >= 0 ? items[item.parent].middle : 0) + shifts[number];
    item.x = Math.round(item.middle - item.w / 2);
  });
}

// Lines between boxes. The plane is cut into columns; in height it goes by levels: level 2 r is the space above row r, and level
// 2 r + 1 the row itself. A line that goes up or down has a column of its own as far as it goes.
class Routes {
  constructor(items, edges) {
    this.items = items;
    this.rows = items.reduce((most, item) => Math.max(most, item.row), 0) + 1;
    this.levels = 2 * this.rows + 1;
    this.left = items.reduce((least, item) => Math.min(least, item.x), 0);
    const right = items.reduce((most, item) => Math.max(most, item.x + item.w), 0);
    this.nets = [];
    this._joinNets(edges);
    // (at the sides there is room for all lines)
    this.margin = this.nets.length + 4;
    this.columns = Math.ceil((right - this.left) / COLUMN) + 2 * this.margin;
    this.taken = new Int32Array(this.columns * this.levels);
    for (const item of items) this._takeBox(item);
    this.spans = Array.from({ length: this.rows + 1 }, () => new Map());
    for (const net of this.nets) this._reserve(net);
    for (const net of this.nets) this._arrive(net);
    for (const net of this.nets.slice().sort((one, other) => one.length - other.length || one.number - other.number)) this._route(net);
    for (const net of this.nets) this._leave(net);
  }

  xOf(column) {
    return this.left + (column - this.margin) * COLUMN;
  }

  columnAt(x) {
    return Math.round((x - this.left) / COLUMN) + this.margin;
  }

  // All ways forward to a box are one net, and all ways back to it another. Many ways out of a box leave it as one line.
  _joinNets(edges) {
    const byKey = new Map(), ways = new Int32Array(this.items.length);
    for (const edge of edges) if (edge.from !== edge.to) ways[edge.from]++;
    for (const edge of edges) {
      if (edge.from === edge.to) continue;
      const from = this.items[edge.from], to = this.items[edge.to], isBack = to.row <= from.row;
      const key = 2 * edge.to + (isBack ? 1 : 0);
      if (!byKey.has(key)) byKey.set(key, { to, isBack, edges: [], number: byKey.size + 1 });
      const net = byKey.get(key);
      edge.many = ways[edge.from] >= MANY_WAYS ? 1 + edge.from : 0;
      net.edges.push(edge);
    }
    this.nets = [...byKey.values()];
  }

  _takeBox(item) {
    const level = 2 * item.row + 1;
    for (let column = this.columnAt(item.x - 8); column <= this.columnAt(item.x + item.w + 8); column++) {
      this.taken[column * this.levels + level] = -1;
    }
  }

  // The levels that the long part of a net passes.
  _reserve(net) {
    net.arrival = 2 * net.to.row;
    const leaving = net.edges.map((edge) => 2 * this.items[edge.from].row + 2);
    net.low = Math.min(net.arrival, ...leaving);
    net.high = Math.max(net.arrival, ...leaving);
    net.length = net.high - net.low;
  }

  _isFree(column, low, high, owner) {
    const at = column * this.levels;
    for (let level = low; level <= high; level++) if (this.taken[at + level] && this.taken[at + level] !== owner) return false;
    return true;
  }

  _take(column, low, high, owner) {
    const at = column * this.levels;
    for (let level = low; level <= high; level++) this.taken[at + level] = owner;
  }

  // The free column that is nearest to one.
  _nearest(wanted, low, high, owner, least = 0, most = this.columns - 1) {
    for (let away = 0; wanted - away >= least || wanted + away <= most; away++) {
      for (const column of away ? [wanted - away, wanted + away] : [wanted]) {
        if (column >= least && column <= most && this._isFree(column, low, high, owner)) return column;
      }
    }
    return Math.min(Math.max(wanted, least), most);
  }

  // The columns at which a line may come to a box, or leave it.
  _sides(item) {
    const least = Math.ceil((item.x + 6 - this.left) / COLUMN) + this.margin;
    return [least, Math.max(least, Math.floor((item.x + item.w - 6 - this.left) / COLUMN) + this.margin)];
  }

  _arrive(net) {
    const [least, most] = this._sides(net.to);
    const wanted = this.columnAt(net.to.middle) + (net.isBack ? 2 : 0);
    net.port = this._nearest(wanted, net.arrival, net.arrival, net.number, least, most);
    this._take(net.port, net.arrival, net.arrival, net.number);
  }

  // A net that only comes from the row above needs no long part.
  _route(net) {
    if (net.length === 0) return;
    net.trunk = this._nearest(net.port, net.low, net.high, net.number);
    this._take(net.trunk, net.low, net.high, net.number);
  }

  _leave(net) {
    for (const edge of net.edges) {
      const from = this.items[edge.from], level = 2 * from.row + 2, owner = edge.many ? -2 - edge.many : net.number;
      const wanted = net.trunk === undefined ? net.port : net.trunk;
      if (edge.many && from.port !== undefined) edge.port = from.port;
      else {
        const [least, most] = this._sides(from);
        const middle = this.columnAt(from.middle);
        const near = edge.many ? middle : Math.min(Math.max(wanted, least), most);
        edge.port = this._nearest(near, level, level, owner, least, most);
        this._take(edge.port, level, level, owner);
        if (edge.many) from.port = edge.port;
      }
      const target = level === net.arrival ? net.port : net.trunk;
      edge.turn = target;
      if (edge.port !== target || edge.many) this._span(from.row + 1, edge.many ? -edge.many : net.number, edge.port, target);
    }
    if (net.trunk !== undefined && net.trunk !== net.port) this._span(net.to.row, net.number, net.trunk, net.port);
  }

  _span(space, owner, one, other) {
    const spans = this.spans[space], low = Math.min(one, other), high = Math.max(one, other);
    const found = spans.get(owner);
    if (found) {
      found.low = Math.min(found.low, low);
      found.high = Math.max(found.high, high);
    } else spans.set(owner, { low, high });
  }

  // Lines across get tracks, and rows their places. The height of all comes back.
  placeDown() {
    const heights = new Float64Array(this.rows);
    for (const item of this.items) heights[item.row] = Math.max(heights[item.row], item.h);
    let y = 0;
    for (let row = 0; row <= this.rows; row++) {
      const count = this._setTracks(this.spans[row], y + 9);
      const isEnd = row === 0 || row === this.rows;
      y += isEnd && !count ? 0 : 26 + TRACK * Math.max(0, count - 1);
      if (row === this.rows) break;
      for (const item of this.items) if (item.row === row) item.y = y;
      y += heights[row];
    }
    return y;
  }

  _setTracks(spans, top) {
    const ends = [];
    for (const span of [...spans.values()].sort((one, other) => one.low - other.low || one.high - other.high)) {
      let track = ends.findIndex((end) => end < span.low);
      if (track < 0) track = ends.length;
      ends[track] = span.high;
      span.y = top + TRACK * track;
    }
    return ends.length;
  }

  _y(space, owner) {
    const span = this.spans[space].get(owner);
    return span && span.y;
  }

  // The points of the edges, and what all edges of a net have in common: `shared`.
  draw() {
    for (const net of this.nets) {
      const top = [this.xOf(net.port), net.to.y];
      const across = this._y(net.to.row, net.number);
      for (const edge of net.edges) this._drawEdge(net, edge, top, across);
      net.shared = this._shared(net, top, across);
    }
    return this.nets;
  }

  _drawEdge(net, edge, top, across) {
    const from = this.items[edge.from], space = from.row + 1;
    const y = this._y(space, edge.many ? -edge.many : net.number);
    const x = this.xOf(edge.port), turn = this.xOf(edge.turn);
    edge.own = [[x, from.y + from.h]];
    if (y !== undefined) edge.own.push([x, y], [turn, y]);
    const rest = edge.turn === net.port ? [top] : [[turn, across], [top[0], across], top];
    edge.points = [...edge.own, ...rest];
    edge.join = y === undefined ? from.y + from.h : y;
  }

  // The part that is drawn once: from the farthest ways that come to it up to the box.
  _shared(net, top, across) {
    if (net.trunk === undefined) {
      const joins = net.edges.map((edge) => edge.join);
      return [[[top[0], Math.max(...joins)], top]];
    }
    const x = this.xOf(net.trunk), end = net.trunk === net.port ? top[1] : across;
    const joins = [...net.edges.map((edge) => edge.join), end];
    const trunk = [[x, Math.min(...joins)], [x, Math.max(...joins)]];
    return net.trunk === net.port ? [trunk, [[x, top[1] - 1], top]] : [trunk, [[x, across], [top[0], across], top]];
  }
}

function boundsOf(items, nets) {
  let left = Infinity, right = -Infinity;
  for (const item of items) (left = Math.min(left, item.x)), (right = Math.max(right, item.x + item.w));
  for (const net of nets) for (const edge of net.edges) for (const [x] of edge.points) (left = Math.min(left, x)), (right = Math.max(right, x));
  return { left, width: right - left };
}
