// What a test asks of a page: run in it, after its own scripts. For each function it gives back what is wrong with its groups and
// its layout, and with `tells`, what the groups are made of, in addresses, for a comparison with Python.

function inGroup(groups) {
  // (a group is a range of the numbers that a walk through the tree gives)
  const first = new Map(), last = new Map(), path = [[groups.root, 0]];
  let count = 0;
  first.set(groups.root, count++);
  while (path.length) {
    const top = path[path.length - 1], child = groups.children.get(top[0])[top[1]++];
    if (child === undefined) {
      last.set(top[0], count);
      path.pop();
    } else {
      first.set(child, count++);
      path.push([child, 0]);
    }
  }
  return (head, group) => first.get(group) <= first.get(head) && first.get(head) < last.get(group);
}

// Each group has one way in: what leads into it from outside leads to its first block.
function* manyWaysIn(groups) {
  const isIn = inGroup(groups);
  for (let from = 0; from < groups.flow.count; from++) {
    for (const to of groups.flow.onward[from]) {
      const head = groups.head[to], above = groups.parent.get(head);
      if (to !== head) {
        const chain = groups.chains.get(head);
        if (chain[chain.indexOf(to) - 1] !== from) yield `a way into the chain at ${head}, from ${from} to ${to}`;
      } else if (above >= 0 && !isIn(groups.head[from], above)) yield `a way into the group at ${above}, from ${from} to ${to}`;
    }
  }
}

function* wrongPlaces(page, groups, view) {
  const shown = new Shown(groups, view), boxes = shown.items;
  const counted = new Int32Array(groups.flow.count);
  for (const item of boxes) for (const block of item.blocks) counted[block]++;
  const wrong = [...counted.keys()].filter((block) => counted[block] !== 1);
  if (wrong.length) yield `blocks ${wrong.slice(0, 3)} are in ${counted[wrong[0]]} boxes`;
  const ways = new Set();
  for (const edge of shown.edges) for (const way of edge.ways) ways.add(way);
  const missing = groups.body.ways.filter((way) => way.kind !== "call" && !ways.has(way) && (way.to === undefined || shown.itemOf[way.from] !== shown.itemOf[way.to]));
  if (missing.length) yield `${missing.length} ways are not drawn`;
  for (const item of boxes) page.picture.sizeOf(item, shown);
  layOut(boxes, shown.edges);
  yield* overlaps(boxes);
  yield* crossings(boxes, shown.edges);
}

function* overlaps(boxes) {
  const sorted = boxes.slice().sort((one, other) => one.y - other.y);
  sorted.forEach((one) => (one.bottom = one.y + one.h));
  for (let number = 0; number < sorted.length; number++) {
    const one = sorted[number];
    for (let next = number + 1; next < sorted.length && sorted[next].y < one.bottom; next++) {
      const other = sorted[next];
      if (one.x < other.x + other.w && other.x < one.x + one.w) yield `boxes ${one.number} and ${other.number} overlap`;
    }
  }
}

function* crossings(boxes, edges) {
  const sorted = boxes.slice().sort((one, other) => one.y - other.y);
  for (const edge of edges) {
    if (edge.from === edge.to) continue;
    for (let number = 1; number < edge.points.length; number++) {
      const [[ax, ay], [bx, by]] = [edge.points[number - 1], edge.points[number]];
      if (ax !== bx && ay !== by) yield `the edge from ${edge.from} to ${edge.to} has a slant`;
      const low = Math.min(ay, by), high = Math.max(ay, by), left = Math.min(ax, bx), right = Math.max(ax, bx);
      for (const box of sorted) {
        if (box.y >= high && !(low === high && box.y === low)) break;
        if (box.y + box.h > low && box.y < high && box.x < right + 0.5 && box.x + box.w > left - 0.5) yield `the edge from ${edge.from} to ${edge.to} runs through ${box.number}`;
        if (low === high && box.y < low && low < box.y + box.h && box.x < right && box.x + box.w > left) yield `the edge from ${edge.from} to ${edge.to} runs through ${box.number}`;
      }
    }
  }
}

function toldOf(groups) {
  const hex = (block) => (block < 0 ? "-" : groups.body.program.hex(groups.body.starts[block])), all = (blocks) => [...blocks].map(hex);
  return {
    dominators: groups.dominators.map(hex),
    loops: groups.loops.map((loop) => [all(loop.entries), all(loop.blocks)]),
    heads: all(groups.head), parents: [...groups.parent].sort((one, other) => one[0] - other[0]).map(([head, parent]) => [hex(head), hex(parent)]),
    open: all([...groups.openAtFirst(groups.root)].sort((one, other) => one - other)),
    grids: all([...groups.gridBlocks].sort((one, other) => one - other)),
  };
}

// Of the functions from one number up to another.
async function checkedFunctions(page, from, to, tells, mostBlocks) {
  const found = [];
  for (let number = from; number < to; number++) {
    const body = await page.program.body(number), groups = new Groups(body), wrong = [...manyWaysIn(groups)];
    const plain = { top: groups.root, open: groups.openAtFirst(groups.root), isAll: false, folds: false, unfolded: new Set() };
    const views = [plain, { ...plain, folds: true }];
    if (body.count <= mostBlocks) views.push({ ...plain, isAll: true });
    for (const view of views) for (const one of wrongPlaces(page, groups, view)) if (wrong.length < 5) wrong.push(one);
    const first = new Shown(groups, plain), height = first.items.length ? sizeOf(page, first).height : 0;
    found.push({ name: page.program.names[number], blocks: body.count, boxes: first.boxCount, height, wrong, told: tells ? toldOf(groups) : undefined });
  }
  return found;
}

function sizeOf(page, shown) {
  for (const item of shown.items) page.picture.sizeOf(item, shown);
  return layOut(shown.items, shown.edges);
}
