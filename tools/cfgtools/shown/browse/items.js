"use strict";
// What is shown of a function: boxes of chains, closed groups, grids of cases, folded loops, and what lies outside; and the ways
// between them.

const MOST_LINES = 44;
const FEW_BOXES = 25;
const KEPT_LINES = 3;
const GRID_WIDTH = 11;

// The items of a view of a function: `top` is the block of the group that is shown, `open` has the groups that are open;
// `isAll` shows every chain, `folds` folds loops but those of `unfolded`.
class Shown {
  constructor(groups, view) {
    this.groups = groups;
    this.body = groups.body;
    this.view = view;
    this.items = [];
    this.itemOf = new Int32Array(this.body.count).fill(-1);
    this.tileOf = new Map();
    this._walk(view.top);
    this._findEdges();
  }

  _add(kind, head, blocks, parent) {
    const number = this.items.length;
    this.items.push({ kind, head, blocks, parent, number, isLoop: false });
    for (const block of blocks) this.itemOf[block] = number;
    return number;
  }

  _walk(top) {
    const left = [[top, -1]];
    while (left.length) {
      const [head, parent] = left.pop();
      const below = this._show(head, parent);
      left.push(...below.reverse());
    }
  }

  // Shows a chain or its group, and says what comes below it.
  _show(head, parent) {
    const { groups, view } = this;
    const loop = view.folds && head !== view.top && !view.unfolded.has(head) ? groups.loopAt(head) : undefined;
    const children = groups.children.get(head);
    if (loop) {
      const number = this._add("loop", head, loop.blocks, parent);
      return children.filter((child) => !loop.inside.has(child)).map((child) => [child, number]);
    }
    if (groups.isGroup(head) && !view.isAll && !view.open.has(head)) {
      this._add("group", head, groups.blocksOf(head), parent);
      return [];
    }
    const number = this._add("box", head, groups.chains.get(head), parent);
    const grid = view.isAll ? undefined : groups.gridOf(head);
    if (!grid) return children.map((child) => [child, number]);
    const apart = this._addGrid("cases", grid, grid.cases, number);
    return [...apart, ...this._addGrid("shared", grid, grid.shared, number)].map((child) => [child, number]);
  }

  // Adds a grid of those groups that are not open, and gives back the others.
  _addGrid(name, grid, heads, parent) {
    const tiles = heads.filter((head) => !this.view.open.has(head));
    if (tiles.length) {
      const blocks = tiles.flatMap((head) => this.groups.blocksOf(head));
      const number = this._add("grid", tiles[0], blocks, parent);
      const item = this.items[number];
      item.name = name;
      item.tiles = tiles.map((head) => ({ head, blocks: this.groups.blocksOf(head), label: this._entriesOf(grid.table, head) }));
      for (const tile of item.tiles) for (const block of tile.blocks) this.tileOf.set(block, tile);
    }
    return heads.filter((head) => this.view.open.has(head));
  }

  // The numbers of a table's entries that lead to a block.
  _entriesOf(table, head) {
    const found = this.body.edges[table].find((edge) => edge.kind === "table" && edge.to === head);
    return found && found.entries;
  }

  // The ways between items; what lies outside the group or the function gets a small box.
  _findEdges() {
    const byPair = new Map(), outside = new Map();
    this.edges = [];
    for (const item of this.items.slice()) {
      for (const block of item.blocks) {
        for (const edge of this.body.edges[block]) {
          if (edge.kind === "call") continue;
          const to = this._targetOf(edge, outside);
          if (to === item.number) item.isLoop = item.isLoop || (edge.to === item.head && item.kind === "box");
          else this._addEdge(byPair, item.number, to, edge);
        }
      }
    }
    for (const item of this.items) if (item.kind === "out" || item.kind === "way") item.parent = this._above(item);
  }

  _targetOf(edge, outside) {
    const inside = edge.to === undefined ? -1 : this.itemOf[edge.to];
    if (inside >= 0) return inside;
    if (!outside.has(edge.at)) {
      const number = this.items.length;
      this.items.push({ kind: edge.to === undefined ? "out" : "way", head: -1, at: edge.at, blocks: [], parent: -1, number, from: [] });
      outside.set(edge.at, number);
    }
    return outside.get(edge.at);
  }

  _addEdge(byPair, from, to, edge) {
    const key = `${from} ${to}`;
    if (!byPair.has(key)) byPair.set(key, this.edges.push({ from, to, kind: edge.kind, unsure: edge.unsure, ways: [] }) - 1);
    const found = this.edges[byPair.get(key)];
    if (found.kind !== edge.kind) found.kind = "several";
    found.ways.push(edge);
    if (this.items[to].from) this.items[to].from.push(from);
  }

  // The last item that is above all from which a small box is reached.
  _above(item) {
    const depth = (at) => {
      let found = 0;
      for (; at >= 0; at = this.items[at].parent) found++;
      return found;
    };
    let [common, ...others] = item.from;
    for (let other of others) {
      while (common !== other) {
        if (depth(common) >= depth(other)) common = this.items[common].parent;
        else other = this.items[other].parent;
      }
    }
    return common;
  }

  // ---- what stands in boxes

  get boxCount() {
    return this.items.reduce((count, item) => count + (item.kind === "out" || item.kind === "way" ? 0 : 1), 0);
  }

  // The lines of an item, each with the block that it is of; a line that calls has the callee.
  linesOf(item) {
    if (item.kind === "box") return this._boxLines(item);
    if (item.kind === "out") return [{ text: this.body.program.place(item.at), block: -1, out: this.body.program.numberAt.get(item.at) }];
    if (item.kind === "way") return [{ text: "to " + this.body.program.hex(item.at), block: -1 }];
    if (item.kind === "grid") return [{ text: `${item.tiles.length} ${item.name === "cases" ? "cases" : "parts that several cases lead to"}`, block: -1 }];
    return this._groupLines(item);
  }

  _boxLines(item) {
    const found = [];
    for (const block of item.blocks) {
      const lines = this.body.lines(block).map((line) => ({ text: this.body.program.hex(line.at) + "  " + line.text, block }));
      lines[0].isFirst = block !== item.blocks[0];
      const last = lines[lines.length - 1], callee = this.body.calleeOf(block);
      if (callee !== undefined) {
        last.callee = callee;
        last.text += ` <${this.body.program.names[callee]}>`;
      }
      if (this.body.reasons[block] !== undefined) last.isOpen = true;
      found.push(...lines);
    }
    return this._shortened(found);
  }

  // Where there are many, the first and the last lines, and those that call.
  _shortened(lines) {
    const limit = this.boxCount > FEW_BOXES ? 2 * KEPT_LINES + 1 : MOST_LINES;
    if (lines.length <= limit) return lines;
    const found = lines.slice(0, KEPT_LINES);
    let skipped = 0;
    const skip = (block) => {
      if (skipped) found.push({ text: `  .. ${skipped} lines`, block, isGap: true });
      skipped = 0;
    };
    lines.slice(KEPT_LINES, -KEPT_LINES).forEach((line) => {
      if (line.callee === undefined && !line.isOpen) skipped++;
      else {
        skip(line.block);
        found.push(line);
      }
    });
    skip(lines[lines.length - KEPT_LINES - 1].block);
    return [...found, ...lines.slice(-KEPT_LINES)];
  }

  _groupLines(item) {
    const { body } = this, what = item.kind === "loop" ? "loop" : "group";
    const found = [{ text: `${what} ${body.program.hex(body.starts[item.head])}: ${item.blocks.length} blocks`, block: item.head }];
    const calls = this.callsOf(item.blocks);
    for (const callee of calls.slice(0, 3)) found.push({ text: "  calls " + body.program.names[callee], block: item.head, callee });
    if (calls.length > 3) found.push({ text: `  and ${calls.length - 3} more functions`, block: item.head });
    const open = item.blocks.filter((block) => body.reasons[block] !== undefined).length;
    if (open) found.push({ text: `  ${open} open ends`, block: item.head, isOpen: true });
    if (body.counts) found.push({ text: `  ${item.blocks.filter((block) => body.counts[block]).length} of them ran`, block: item.head });
    return found;
  }

  callsOf(blocks) {
    return [...new Set(blocks.map((block) => this.body.calleeOf(block)).filter((callee) => callee !== undefined))];
  }

  tileLines(tile) {
    const { body } = this, calls = this.callsOf(tile.blocks);
    const count = tile.blocks.length === 1 ? "1 block" : `${tile.blocks.length} blocks`;
    const place = body.program.hex(body.starts[tile.head]);
    const lines = tile.label === undefined ? [place, count] : ["case " + tile.label, `${place}  ${count}`];
    return [...lines, calls.length ? body.program.names[calls[0]] + (calls.length > 1 ? ` +${calls.length - 1}` : "") : ""];
  }
}
