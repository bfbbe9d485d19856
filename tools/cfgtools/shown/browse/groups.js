"use strict";
// Groups of a function's blocks: chains, and what a block dominates. cfgtools/shown/groups.py says the same for pictures.

const MOST_BOXES = 60;
const LEAST_CASES = 12;
const GRID_COUNTS = 2;
const LARGE_PART = 8;

// The graph of a function's blocks, by all edges within it but calls.
function flowOf(body) {
  const onward = body.edges.map((edges) => {
    const ways = new Set(edges.filter((edge) => edge.kind !== "call" && edge.to !== undefined).map((edge) => edge.to));
    return [...ways].sort((one, other) => one - other);
  });
  const back = onward.map(() => []);
  onward.forEach((ways, block) => ways.forEach((to) => back[to].push(block)));
  const leaves = body.edges.map((edges) => edges.some((edge) => body.isOut(edge)));
  const tables = body.edges.map((edges) => new Set(edges.filter((edge) => edge.kind === "table").map((edge) => edge.to)));
  return { entry: body.entry, onward, back, leaves, tables, count: onward.length };
}

// The blocks from some roots on, each after all those that lead to it but by a way back; and the roots: the entry, and one for
// each part that it does not lead to.
function orderOf(flow) {
  const seen = new Uint8Array(flow.count), roots = [], orders = [];
  const from = (root) => {
    const found = [], path = [[root, 0]];
    roots.push(root);
    seen[root] = 1;
    while (path.length) {
      const top = path[path.length - 1], ways = flow.onward[top[0]];
      while (top[1] < ways.length && seen[ways[top[1]]]) top[1]++;
      if (top[1] === ways.length) found.push(path.pop()[0]);
      else {
        seen[ways[top[1]]] = 1;
        path.push([ways[top[1]], 0]);
      }
    }
    orders.push(found.reverse());
  };
  from(flow.entry);
  for (let block = 0; block < flow.count; block++) if (!seen[block]) from(block);
  // (what a later root leads to stands before what it joins)
  return { order: orders.reverse().flat(), roots };
}

// The immediate dominator of each block, -1 for a root: the last of those that every way to it leads through. The algorithm of
// Cooper, Harvey and Kennedy, with the number of the blocks for what leads to all roots.
function dominatorsOf(flow) {
  const { order, roots } = orderOf(flow), top = flow.count;
  const place = new Int32Array(top + 1), found = new Int32Array(top + 1).fill(-1);
  order.forEach((block, number) => (place[block] = number + 1));
  found[top] = top;
  for (const root of roots) found[root] = top;
  const isRoot = new Set(roots);
  const common = (one, other) => {
    while (one !== other) {
      while (place[one] > place[other]) one = found[one];
      while (place[other] > place[one]) other = found[other];
    }
    return one;
  };
  place[top] = 0;
  for (let isChanged = true; isChanged;) {
    isChanged = false;
    for (const block of order) {
      if (isRoot.has(block)) continue;
      let next = -1;
      for (const before of flow.back[block]) if (found[before] >= 0) next = next < 0 ? before : common(next, before);
      if (found[block] !== next) {
        found[block] = next;
        isChanged = true;
      }
    }
  }
  return { roots, order, dominators: Array.from(found.subarray(0, top), (one) => (one === top ? -1 : one)) };
}

// What is strongly connected among some blocks: Tarjan's algorithm.
function connectedIn(flow, blocks) {
  const inside = new Set(blocks), number = new Map(), low = new Map(), stack = [], onStack = new Set(), parts = [];
  for (const root of [...inside].sort((one, other) => one - other)) {
    if (number.has(root)) continue;
    const path = [];
    const enter = (block) => {
      number.set(block, number.size);
      low.set(block, number.get(block));
      stack.push(block);
      onStack.add(block);
      path.push([block, 0]);
    };
    enter(root);
    while (path.length) {
      const top = path[path.length - 1], block = top[0];
      const to = flow.onward[block][top[1]++];
      if (to === undefined) {
        path.pop();
        const above = path.length ? path[path.length - 1][0] : -1;
        if (above >= 0) low.set(above, Math.min(low.get(above), low.get(block)));
        if (low.get(block) === number.get(block)) {
          const part = stack.splice(stack.lastIndexOf(block));
          part.forEach((one) => onStack.delete(one));
          if (part.length > 1 || flow.onward[block].includes(block)) parts.push(part.sort((one, other) => one - other));
        }
      } else if (inside.has(to)) {
        if (!number.has(to)) enter(to);
        else if (onStack.has(to)) low.set(block, Math.min(low.get(block), number.get(to)));
      }
    }
  }
  return parts.sort((one, other) => one[0] - other[0]);
}

// The loops, each before those that lie in it: what is strongly connected; and within a loop, what still is when the blocks at
// which it is entered are left out.
function loopsOf(flow) {
  const found = [];
  const nest = (blocks, parent) => {
    for (const part of connectedIn(flow, blocks)) {
      const inside = new Set(part);
      const entries = part.filter((block) => block === flow.entry || flow.back[block].some((before) => !inside.has(before)));
      const number = found.push({ entries, blocks: part, inside, parent, number: found.length }) - 1;
      const rest = part.filter((block) => !entries.includes(block));
      // (a part that nothing leads to has no entry)
      if (entries.length) nest(rest, number);
    }
  };
  nest(Array.from({ length: flow.count }, (_, block) => block), -1);
  return found;
}

// The tree of groups: a node for each chain of blocks, named by its first block. `parent` and `children` are those of chains;
// `size` counts the blocks of a group; a chain that ends with a table of many cases has a grid.
class Groups {
  constructor(body) {
    this.body = body;
    this.flow = flowOf(body);
    const { roots, order, dominators } = dominatorsOf(this.flow);
    this.roots = roots;
    this.order = order;
    this.dominators = dominators;
    this.loops = loopsOf(this.flow);
    this._chain();
    this._findGrids();
    this._nestLoops();
    this._plant();
  }

  // A block with one way on, calls aside, joins the next if that has one way in.
  _chain() {
    const { onward, back, leaves, count } = this.flow, roots = new Set(this.roots);
    const next = onward.map((ways, block) => {
      const to = ways[0];
      return ways.length === 1 && !leaves[block] && back[to].length === 1 && !roots.has(to) && to !== block ? to : -1;
    });
    const isJoined = new Uint8Array(count);
    next.forEach((to) => to >= 0 && (isJoined[to] = 1));
    this.head = new Int32Array(count).fill(-1);
    this.chains = new Map();
    for (let block = 0; block < count; block++) {
      if (isJoined[block]) continue;
      const chain = [];
      for (let at = block; at >= 0; at = next[at]) chain.push(at), (this.head[at] = block);
      this.chains.set(block, chain);
    }
    // (a ring of blocks that nothing leads to has no first one)
    for (let block = 0; block < count; block++) if (this.head[block] < 0) this.chains.set((this.head[block] = block), [block]);
  }

  // The blocks of tables that dominate many parts.
  _findGrids() {
    const parts = new Int32Array(this.flow.count);
    for (const head of this.chains.keys()) if (this.dominators[head] >= 0) parts[this.dominators[head]]++;
    this.gridBlocks = new Set([...parts.keys()].filter((block) => this.flow.tables[block].size && parts[block] >= LEAST_CASES));
  }

  // The innermost loop of each block; and which loops count for groups: those with one entry, and with no grid in them.
  _nestLoops() {
    this.loopOf = new Int32Array(this.flow.count).fill(-1);
    for (const loop of this.loops) {
      for (const block of loop.blocks) this.loopOf[block] = loop.number;
      loop.counts = loop.entries.length === 1 && !loop.blocks.some((block) => this.gridBlocks.has(block));
    }
  }

  // Each chain hangs below the block that dominates it; one that lies behind a loop, below the loop's first block.
  _plant() {
    this.parent = new Map();
    this.children = new Map([...this.chains.keys()].map((head) => [head, []]));
    for (const head of this.chains.keys()) {
      let at = this.dominators[head];
      if (at < 0) at = head === this.flow.entry ? -1 : this.flow.entry;
      for (let loop = at < 0 ? -1 : this.loopOf[at]; loop >= 0; loop = this.loops[loop].parent) {
        const found = this.loops[loop];
        if (found.inside.has(head)) break;
        if (found.counts) at = found.entries[0];
      }
      const parent = at < 0 ? -1 : this.head[at];
      this.parent.set(head, parent);
      if (parent >= 0) this.children.get(parent).push(head);
    }
    this._measure();
  }

  _measure() {
    this.size = new Map();
    this.last = new Map();
    const heads = [], left = [this.flow.entry];
    while (left.length) {
      const head = left.pop();
      heads.push(head);
      left.push(...this.children.get(head));
    }
    for (const head of heads.reverse()) {
      const below = this.children.get(head).reduce((sum, child) => sum + this.size.get(child), 0);
      this.size.set(head, below + this.chains.get(head).length);
    }
    this.root = this.flow.entry;
  }

  // The cases of a chain and what they share, where it has a grid: by the numbers of the entries, and by address.
  gridOf(head) {
    const chain = this.chains.get(head), table = chain[chain.length - 1];
    if (!this.gridBlocks.has(table)) return undefined;
    const first = new Map();
    for (const edge of this.body.edges[table]) {
      const number = parseInt(edge.entries, 10);
      if (edge.kind === "table") first.set(edge.to, Number.isNaN(number) ? edge.at : number);
    }
    const children = this.children.get(head);
    const cases = children.filter((child) => first.has(child)).sort((one, other) => first.get(one) - first.get(other) || one - other);
    const shared = children.filter((child) => !first.has(child));
    return { table, cases, shared };
  }

  // The blocks of a group, rising.
  blocksOf(head) {
    const found = [], left = [head];
    while (left.length) {
      const one = left.pop();
      found.push(...this.chains.get(one));
      left.push(...this.children.get(one));
    }
    return found.sort((one, other) => one - other);
  }

  isGroup(head) {
    return this.children.get(head).length > 0;
  }

  // The groups that are open at first in the group of a block: always the largest, up to so many boxes.
  openAtFirst(top) {
    const open = new Set([top]), whole = this.size.get(top), closed = [];
    let count = 1;
    const cost = (head) => this._cost(head, whole);
    const show = (head) => {
      open.add(head);
      count += cost(head);
      for (const child of this._apart(head, whole)) if (this.isGroup(child)) closed.push(child);
      const grid = this.gridOf(head);
      if (grid) for (const child of this._apart(head, whole)) if (this._isTile(grid, child)) open.add(child);
    };
    show(top);
    while (closed.length) {
      closed.sort((one, other) => this.size.get(one) - this.size.get(other) || other - one);
      const head = closed.pop();
      if (open.has(head) || count + cost(head) <= MOST_BOXES) show(head);
    }
    return open;
  }

  _isTile(grid, child) {
    return grid.cases.includes(child) || grid.shared.includes(child);
  }

  // The groups below a chain that are boxes of their own when it is open: of a grid the large ones alone.
  _apart(head, whole) {
    const children = this.children.get(head);
    return this.gridOf(head) ? children.filter((child) => this.size.get(child) * LARGE_PART > whole) : children;
  }

  _cost(head, whole) {
    const grid = this.gridOf(head), apart = this._apart(head, whole).length;
    return grid ? apart + GRID_COUNTS * ((grid.cases.length > 0) + (grid.shared.length > 0)) : apart;
  }

  // The loop that a chain begins, if it folds.
  loopAt(head) {
    if (!this.loopsByEntry) {
      const counting = this.loops.filter((loop) => loop.counts);
      this.loopsByEntry = new Map(counting.map((loop) => [loop.entries[0], loop]));
    }
    return this.loopsByEntry.get(head);
  }

  // The groups around one, itself first.
  around(head) {
    const found = [];
    for (let at = head; at >= 0; at = this.parent.get(at)) found.push(at);
    return found;
  }
}
