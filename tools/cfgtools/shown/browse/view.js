"use strict";
// What is open, by the URL; keys; and the way back.

const MOST_OPENED = 4;

class Page {
  constructor(program) {
    this.program = program;
    this.groups = new Map();
    this.acts = {
      select: (block) => this.select(block), enter: (block) => this.enter(block), openFunction: (number, how) => this.openFunction(number, how),
      goTo: (at) => this.goTo(at), reveal: (block) => this.reveal(block), moved: () => this._keepPlace(),
    };
    this.picture = new Picture(program, this.acts);
    this.list = new FunctionList(program, this.acts);
    this.facts = new Facts(program, this.acts);
    this.listing = new Listing(program, this.acts);
    this.state = {};
    showLegend(program);
    document.addEventListener("keydown", (event) => this._key(event));
    window.addEventListener("popstate", (event) => this._goByURL(event.state));
    new ResizeObserver(() => this.picture.shown && this.picture.update()).observe(this.picture.graph);
  }

  async start() {
    this.list.update();
    await this._goByURL(history.state);
  }

  // ---- the URL

  // The state that the URL says: f the function, g the group, b the block, o what is open in place, v the view, l folded loops.
  _readURL() {
    const words = new URLSearchParams(location.hash.slice(1)), at = (text) => (text ? this.program.address(text) : undefined);
    const number = this.program.numberAt.get(at(words.get("f")));
    const open = (words.get("o") || "").split(",").map(at).filter((one) => one !== undefined);
    const known = number !== undefined;
    return {
      f: known ? number : this._first(), g: known ? at(words.get("g")) : undefined, b: known ? at(words.get("b")) : undefined,
      v: ["list", "all"].includes(words.get("v")) ? words.get("v") : undefined, o: known ? open : [], l: words.get("l") === "1",
    };
  }

  _first() {
    const main = this.program.names.indexOf("main"), entry = this.program.numberAt.get(this.program.entry);
    return main >= 0 ? main : entry || 0;
  }

  _url(state) {
    const hex = (at) => this.program.hex(at), words = [`f=${hex(this.program.entries[state.f])}`];
    if (state.g !== undefined) words.push(`g=${hex(state.g)}`);
    if (state.b !== undefined) words.push(`b=${hex(state.b)}`);
    if (state.o.length) words.push(`o=${state.o.map(hex).join(",")}`);
    if (state.v) words.push(`v=${state.v}`);
    if (state.l) words.push("l=1");
    return "#" + words.join("&");
  }

  // A function, a group or a view is a step of the back button; a selection is none.
  async _step(change) {
    history.replaceState({ place: this.picture.place }, "", location.hash || "#");
    const state = { ...this.state, ...change };
    history.pushState(null, "", this._url(state));
    await this._show(state);
  }

  async _goByURL(kept) {
    await this._show(this._readURL(), kept && kept.place);
  }

  _keepPlace() {
    clearTimeout(this.timer);
    this.timer = setTimeout(() => history.replaceState({ place: this.picture.place }, "", location.hash || "#"), 150);
  }

  // ---- what is shown

  groupsOf(body) {
    if (!this.groups.has(body)) this.groups.set(body, new Groups(body));
    return this.groups.get(body);
  }

  async _show(state, place) {
    clearTimeout(this.timer);
    const ticket = (this.ticket = {}), body = await this.program.body(state.f);
    if (ticket !== this.ticket) return;
    const groups = this.groupsOf(body);
    this.state = state;
    this.body = body;
    this.tree = groups;
    const top = this._head(state.g, body, groups);
    this.top = top === undefined ? groups.root : top;
    this.shown = new Shown(groups, this._view(state, groups));
    const isList = state.v === "list";
    document.getElementById("listing").hidden = !isList;
    this.picture.graph.hidden = isList;
    document.title = `${this.program.names[state.f]}: ${this.program.title}`;
    this._showTrail();
    this.list.mark(state.f);
    const block = state.b === undefined ? undefined : body.numberAt.get(state.b);
    if (isList) this.listing.show(body, groups.blocksOf(this.top));
    else {
      this.picture.block = block;
      this.picture.show(this.shown, place);
      if (block !== undefined && !place) this._bringIntoSight(block);
    }
    this._showFacts(block);
  }

  _head(at, body, groups) {
    const block = at === undefined ? undefined : body.numberAt.get(at);
    return block === undefined ? undefined : groups.head[block];
  }

  _view(state, groups) {
    const open = groups.openAtFirst(this.top);
    const heads = state.o.map((at) => this._head(at, groups.body, groups)).filter((head) => head !== undefined);
    for (const head of heads) open.add(head);
    return { top: this.top, open, isAll: state.v === "all", folds: state.l, unfolded: new Set(heads) };
  }

  _bringIntoSight(block) {
    const found = this.picture.rectangleOf(block);
    if (found) this.picture.reveal(found);
  }

  _showFacts(block) {
    this.facts.show(this.body, this.shown, block);
    if (this.state.v === "list" && block !== undefined) this.listing.choose(block);
  }

  // The groups on the way to the one that is shown, as one would open them from the function on.
  trail() {
    const { tree } = this, found = [tree.root];
    while (found[found.length - 1] !== this.top) {
      const above = found[found.length - 1], open = tree.openAtFirst(above), way = tree.around(this.top).reverse();
      const below = way.slice(way.indexOf(above) + 1);
      const closed = below.find((head) => !open.has(head) && tree.isGroup(head));
      found.push(closed === undefined ? this.top : closed);
    }
    return found;
  }

  // What a group is called.
  nameOf(head) {
    const { tree, body, program } = this;
    if (head === tree.root) return program.names[this.state.f];
    const grid = tree.gridOf(tree.parent.get(head));
    const way = grid && grid.cases.includes(head) && body.edges[grid.table].find((edge) => edge.to === head);
    if (way && way.entries) return `case ${way.entries}`;
    return `${tree.loopAt(head) ? "loop" : "group"} ${program.hex(body.starts[head])}`;
  }

  _showTrail() {
    const trail = document.getElementById("trail");
    trail.replaceChildren();
    this.trail().forEach((head, number) => {
      if (number) trail.append(" > ");
      trail.append(button(this.nameOf(head), () => this._step(this._to(head))));
    });
    const notes = { all: ", all blocks", list: ", listing" }[this.state.v] || "";
    trail.append(element("span", "note", `  ${plural(this.tree.size.get(this.top), "block")}${notes}${this.state.l ? ", loops folded" : ""}`));
  }

  _to(head) {
    return { g: head === this.tree.root ? undefined : this.body.starts[head], o: [], v: this.state.v === "all" ? undefined : this.state.v };
  }

  // ---- what one does

  select(block) {
    this.state = { ...this.state, b: this.body.starts[block] };
    history.replaceState({ place: this.picture.place }, "", this._url(this.state));
    if (this.state.v !== "list") {
      this.picture.choose(block);
      this._bringIntoSight(block);
      const item = this.picture.itemOfBlock(block), box = item && this.picture.drawn.get(item);
      if (box) box.focus({ preventScroll: true });
    }
    this._showFacts(block);
  }

  // Opens a function; `calls` is a function, whose first call there is selected; `block` is the address of a block.
  async openFunction(number, how = {}) {
    const body = await this.program.body(number);
    let at = how.block;
    if (how.calls !== undefined) {
      const entry = this.program.entries[how.calls];
      const calling = body.ways.find((edge) => edge.at === entry);
      if (calling) at = body.starts[calling.from];
    }
    const where = at === undefined ? { g: undefined, o: [] } : this._wayTo(body, body.numberAt.get(at), this.groupsOf(body).root);
    await this._step({ f: number, ...where, b: at, v: this.state.v === "list" ? "list" : undefined });
    if (document.activeElement === document.body) this.picture.graph.focus({ preventScroll: true });
  }

  goTo(at) {
    const number = this.program.numberAt.get(at);
    if (number !== undefined && number !== this.state.f) this.openFunction(number);
    else if (number !== undefined) this._step({ g: undefined, b: undefined, o: [] });
    else this.reveal(this.body.numberAt.get(at));
  }

  // What to show so that a block is seen: the group at hand, with a few more groups open, or else a smaller one.
  _wayTo(body, block, top) {
    const tree = this.groupsOf(body), opened = this._toReveal(body, block, top);
    const groupAt = (head) => (head === tree.root ? undefined : body.starts[head]);
    if (opened.length <= MOST_OPENED) return { g: groupAt(top), o: opened };
    let inner = top;
    for (let closed = opened; closed.length; closed = this._toReveal(body, block, inner)) inner = body.numberAt.get(closed[0]);
    return { g: groupAt(inner), o: [] };
  }

  // The groups that have to be open so that a block is seen in a group.
  _toReveal(body, block, top) {
    const tree = this.groupsOf(body), open = tree.openAtFirst(top), way = tree.around(tree.head[block]).reverse();
    const below = way.slice(way.indexOf(top) + 1);
    const closed = below.findIndex((head) => !open.has(head) && (tree.isGroup(head) || this._isTile(tree, head)));
    return closed < 0 ? [] : below.slice(closed).map((head) => body.starts[head]);
  }

  _isTile(tree, head) {
    return tree.parent.get(head) >= 0 && tree.gridOf(tree.parent.get(head)) !== undefined;
  }

  // Selects a block, and opens the groups that it is in.
  async reveal(block) {
    const item = this.picture.shown && this.shown.items[this.shown.itemOf[block]];
    if (this.state.v === "list" || (item && item.kind === "box")) return this.select(block);
    const isBelow = this.tree.around(this.tree.head[block]).includes(this.top), top = isBelow ? this.top : this.tree.root;
    const where = this._wayTo(this.body, block, top), isHere = where.o.length && isBelow;
    const open = isHere ? [...new Set([...this.state.o, ...where.o])] : where.o;
    await this._step({ g: where.g, b: this.body.starts[block], o: open, l: false });
  }

  // Shows the group of a block alone, or what the block calls.
  enter(block) {
    const item = this.shown.items[this.shown.itemOf[block]], tile = this.shown.tileOf.get(block);
    const head = tile ? tile.head : item.head;
    const callee = this.body.calleeOf(block);
    if (item.kind === "box" && callee !== undefined) return this.openFunction(callee);
    if (head === this.top || (!tile && item.kind === "box" && !this.tree.isGroup(head))) return undefined;
    return this._step({ ...this._to(head), b: this.body.starts[head] });
  }

  openInPlace() {
    const block = this._selected(), item = block === undefined ? undefined : this.shown.items[this.shown.itemOf[block]];
    if (!item) return;
    const tile = this.shown.tileOf.get(block), head = tile ? tile.head : item.head, at = this.body.starts[head];
    if (item.kind === "box") return;
    this._step({ o: [...new Set([...this.state.o, at])], b: at });
  }

  _selected() {
    return this.state.b === undefined ? undefined : this.body.numberAt.get(this.state.b);
  }

  outward() {
    if (this.state.v) return this._step({ v: undefined });
    const trail = this.trail();
    if (trail.length > 1) return this._step({ ...this._to(trail[trail.length - 2]), b: this.body.starts[this.top] });
    return undefined;
  }

  // ---- along the ways

  follow(key) {
    const block = this._selected();
    if (block === undefined || this.shown.itemOf[block] < 0) return this.select(this.top);
    if (this.state.v === "list") return this._followList(block, key);
    const by = key === "ArrowDown" || key === "ArrowRight" ? 1 : -1;
    const to = key === "ArrowDown" || key === "ArrowUp" ? this._onward(block, by) : this._beside(block, by);
    if (to !== undefined && to !== block) this.select(to);
    return undefined;
  }

  _followList(block, key) {
    const blocks = this.tree.blocksOf(this.top), place = blocks.indexOf(block) + (key === "ArrowDown" || key === "ArrowRight" ? 1 : -1);
    if (blocks[place] !== undefined) this.select(blocks[place]);
  }

  // The next block along a way, or before it: in the same box, or the first of another one.
  _onward(block, by) {
    const item = this.shown.items[this.shown.itemOf[block]], tile = this.shown.tileOf.get(block);
    const inBox = item.kind === "box" ? item.blocks[item.blocks.indexOf(block) + by] : undefined;
    if (inBox !== undefined) return inBox;
    const own = new Set(tile ? tile.blocks : item.blocks), ways = [];
    for (const one of own) {
      const edges = by > 0 ? this.body.edges[one] : this.body.back[one];
      for (const edge of edges) if (edge.kind !== "call") ways.push(by > 0 ? edge.to : edge.from);
    }
    const targets = ways.filter((to) => to !== undefined && !own.has(to) && this.shown.itemOf[to] >= 0);
    const row = (to) => this.shown.items[this.shown.itemOf[to]].row, isOn = (to) => (row(to) - item.row) * by;
    const isBack = (to) => (isOn(to) > 0 ? 0 : 1);
    targets.sort((one, other) => isBack(one) - isBack(other) || isOn(one) - isOn(other) || one - other);
    return targets.map((to) => this._named(to))[0];
  }

  // The block by which an item or a tile is selected, if it is no box.
  _named(block) {
    const item = this.shown.items[this.shown.itemOf[block]], tile = this.shown.tileOf.get(block);
    return tile ? tile.head : item.kind === "box" ? block : item.head;
  }

  _beside(block, by) {
    const item = this.shown.items[this.shown.itemOf[block]], tile = this.shown.tileOf.get(block);
    if (tile) {
      const next = item.tiles[item.tiles.indexOf(tile) + by];
      return next && next.head;
    }
    const row = this.shown.items.filter((one) => one.row === item.row && one.blocks.length).sort((one, other) => one.x - other.x);
    const next = row[row.indexOf(item) + by];
    return next && next.head;
  }

  // ---- keys

  _key(event) {
    const isTyping = event.target instanceof HTMLInputElement && event.target.type === "search";
    if (event.ctrlKey || event.metaKey || event.altKey || document.getElementById("help").open) return;
    if (isTyping || event.target instanceof HTMLSelectElement) return;
    if (event.key === "Enter" && event.target instanceof HTMLButtonElement) return;
    const act = this._acts()[event.key];
    if (!act) return;
    event.preventDefault();
    act(event.key);
  }

  _acts() {
    const follow = (key) => this.follow(key), selected = () => this._selected();
    return {
      "/": () => (this.list.search.focus(), this.list.search.select()), "?": showHelp,
      ArrowDown: follow, ArrowUp: follow, ArrowLeft: follow, ArrowRight: follow,
      Enter: () => selected() !== undefined && this.shown.itemOf[selected()] >= 0 && this.enter(selected()),
      Escape: () => this.outward(), o: () => this.openInPlace(), 0: () => this.picture.fit(),
      "+": () => this.picture.zoom(1.25), "=": () => this.picture.zoom(1.25), "-": () => this.picture.zoom(0.8),
      a: () => this._step({ v: this.state.v === "all" ? undefined : "all" }),
      l: () => this._step({ v: this.state.v === "list" ? undefined : "list" }),
      L: () => this._step({ l: !this.state.l }),
    };
  }
}

const started = Program.load().then((program) => {
  const page = new Page(program);
  return page.start().then(() => {
    document.body.dataset.ready = "yes";
    return page;
  });
});
