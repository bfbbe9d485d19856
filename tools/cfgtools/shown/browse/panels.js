"use strict";
// The list of functions at the left, what is known of a function and a block at the right, the listing, the legend and the keys.

const ROW = 22;
const LARGE = 100;
const MOST_LISTED = 200;
const MOST_FOUND = 300;

function button(text, act, label) {
  const found = element("button", "", text);
  found.type = "button";
  if (label) found.setAttribute("aria-label", label);
  found.addEventListener("click", act);
  return found;
}

function plural(count, what) {
  return `${count} ${what}${count === 1 ? "" : "s"}`;
}

// The functions that are looked for, or the instructions.
class FunctionList {
  constructor(program, acts) {
    this.program = program;
    this.acts = acts;
    this.search = document.getElementById("search");
    this.list = document.getElementById("functions");
    this.rows = document.getElementById("rows");
    this.marked = 0;
    this.found = [];
    this._searched = 0;
    if (!program.passed) document.getElementById("unran").hidden = true;
    const spelled = (name, number) => [name, program.written[number] || "", ...(program.aliases[number] || [])];
    this.spelled = program.names.map((name, number) => spelled(name, number).join("\n").toLowerCase());
    this.search.addEventListener("input", () => this.update());
    this.search.addEventListener("keydown", (event) => this._key(event));
    this.list.addEventListener("keydown", (event) => this._key(event));
    this.list.addEventListener("scroll", () => this._draw());
    this.rows.addEventListener("click", (event) => {
      const row = event.target.closest(".row");
      if (row) this._open(Number(row.dataset.place));
    });
    for (const filter of document.querySelectorAll("#filters input")) filter.addEventListener("change", () => this.update());
    document.getElementById("order").addEventListener("change", () => this.update());
    new ResizeObserver(() => this._draw()).observe(this.list);
  }

  get filters() {
    return new Set([...document.querySelectorAll("#filters input:checked")].map((one) => one.value));
  }

  update() {
    const text = this.search.value;
    this.marked = 0;
    if (text.startsWith(" ") && text.trim()) return this._searchInstructions(text.trim().toLowerCase());
    this._searched++;
    this._take(this._ordered(this._matching(text.trim().toLowerCase())).map((number) => ({ number })));
  }

  _take(found) {
    this.found = found;
    const count = found.length === this.program.count ? "all " : "";
    document.getElementById("found").textContent = `${count}${plural(found.length, found.length && found[0].text ? "instruction" : "function")}`;
    this.list.scrollTop = 0;
    this._draw();
  }

  // The functions with a name that has the text, or with an address.
  _matching(text) {
    const { program, filters } = this, at = program.address(text);
    const holds = [];
    for (let number = 0; number < program.count; number++) {
      if (text && !this.spelled[number].includes(text) && !program.hex(program.entries[number]).startsWith(text)) continue;
      if (this._passes(number, filters)) holds.push(number);
    }
    if (!holds.length && at !== undefined) {
      const near = program.entries.filter((entry) => entry <= at).length - 1;
      if (near >= 0 && this._passes(near, filters)) holds.push(near);
    }
    return holds;
  }

  _passes(number, filters) {
    const { program } = this;
    return (!filters.has("open") || program.open[number] > 0) && (!filters.has("stays") || program.returns[number] === "0")
      && (!filters.has("large") || program.blocks[number] >= LARGE) && (!filters.has("unran") || !program.passed || program.passed[number] === 0);
  }

  _ordered(numbers) {
    const { program } = this, order = document.getElementById("order").value, text = this.search.value.trim().toLowerCase();
    const by = {
      address: () => 0, name: (one, other) => (program.names[one] < program.names[other] ? -1 : program.names[one] > program.names[other] ? 1 : 0),
      blocks: (one, other) => program.blocks[other] - program.blocks[one], open: (one, other) => program.open[other] - program.open[one],
      callers: (one, other) => program.callers[other].length - program.callers[one].length,
    }[order];
    // (a function that has exactly this name comes first)
    const exact = (number) => (text && this.spelled[number].split("\n").includes(text) ? 0 : 1);
    return numbers.sort((one, other) => exact(one) - exact(other) || by(one, other) || one - other);
  }

  async _searchInstructions(text) {
    const number = ++this._searched, { program } = this, found = [], seen = new Set();
    document.getElementById("found").textContent = "searching";
    for (let one = 0; one < program.count && found.length < MOST_FOUND; one++) {
      const body = await program.body(one);
      if (number !== this._searched) return;
      for (let block = 0; block < body.count && found.length < MOST_FOUND; block++) {
        if (seen.has(body.starts[block]) || !body.texts || !body.texts[block].includes(text)) continue;
        seen.add(body.starts[block]);
        for (const line of body.lines(block)) {
          if (line.text.includes(text)) found.push({ number: one, at: line.at, block: body.starts[block], text: line.text });
        }
      }
    }
    this._take(found);
  }

  mark(number) {
    this.here = number;
    this._draw();
  }

  _draw() {
    const { program } = this, first = Math.max(0, Math.floor(this.list.scrollTop / ROW) - 4);
    const last = Math.min(this.found.length, first + Math.ceil(this.list.clientHeight / ROW) + 8);
    this.rows.style.height = `${this.found.length * ROW}px`;
    this.rows.replaceChildren();
    for (let place = first; place < last; place++) {
      const { number, at, text } = this.found[place], row = element("div", "row");
      row.dataset.place = place;
      row.dataset.number = number;
      row.setAttribute("role", "option");
      row.style.top = `${place * ROW}px`;
      row.classList.toggle("marked", place === this.marked);
      row.classList.toggle("here", number === this.here);
      row.append(text ? `${program.hex(at)}  ${text}` : this._nameOf(number), " ");
      row.append(element("small", "", text ? program.names[number] : this._note(number)));
      row.title = row.textContent;
      this.rows.append(row);
    }
  }

  // A name, and in brackets the one that was looked for.
  _nameOf(number) {
    const text = this.search.value.trim().toLowerCase(), name = this.program.names[number];
    const isIn = (one) => one.toLowerCase().includes(text), aliases = this.program.aliases[number] || [];
    const other = text && !isIn(name) ? aliases.find(isIn) : undefined;
    return other ? `${name} (${other})` : name;
  }

  _note(number) {
    const { program } = this, order = document.getElementById("order").value;
    if (order === "open") return plural(program.open[number], "open end");
    if (order === "callers") return plural(program.callers[number].length, "caller");
    return `${program.hex(program.entries[number])}, ${plural(program.blocks[number], "block")}`;
  }

  _key(event) {
    const step = { ArrowDown: 1, ArrowUp: -1, PageDown: 20, PageUp: -20 }[event.key];
    if (step) {
      this.marked = Math.min(this.found.length - 1, Math.max(0, this.marked + step));
      const top = this.marked * ROW;
      if (top < this.list.scrollTop) this.list.scrollTop = top;
      else if (top + ROW > this.list.scrollTop + this.list.clientHeight) this.list.scrollTop = top + ROW - this.list.clientHeight;
      this._draw();
    } else if (event.key === "Enter") this._open(this.marked);
    else if (event.key === "Escape") document.getElementById("graph").focus();
    else return;
    event.preventDefault();
    event.stopPropagation();
  }

  _open(place) {
    const found = this.found[place];
    if (!found) return;
    this.marked = place;
    if (found.text) this.acts.openFunction(found.number, { block: found.block });
    else this.acts.openFunction(found.number);
    document.getElementById("graph").focus({ preventScroll: true });
  }
}

// What is known of the open function and of the selected block.
class Facts {
  constructor(program, acts) {
    this.program = program;
    this.acts = acts;
    this.panel = document.getElementById("right");
  }

  show(body, shown, block) {
    this.body = body;
    this.shown = shown;
    this.panel.replaceChildren(this._ofFunction(), ...(block === undefined ? [] : [this._ofBlock(block)]));
    if (block !== undefined) this.panel.prepend(this.panel.lastChild);
  }

  _facts(text) {
    return element("div", "facts", text);
  }

  _list(title, entries, id) {
    const part = element("section");
    if (!entries.length) return part;
    part.id = id;
    part.append(element("h3", "", `${title} (${entries.length})`));
    const list = element("ul", "list");
    for (const entry of entries.slice(0, MOST_LISTED)) {
      const item = element("li");
      item.append(...entry());
      list.append(item);
    }
    if (entries.length > MOST_LISTED) list.append(element("li", "", `and ${entries.length - MOST_LISTED} more`));
    part.append(list);
    return part;
  }

  _ofFunction() {
    const { program, body, acts } = this, number = body.number, part = element("section");
    part.id = "function";
    part.append(element("h2", "", program.names[number]));
    const aliases = program.aliases[number] || [];
    if (aliases.length) part.append(this._facts("also " + aliases.join(", ")));
    const size = `${program.sizes[number]} bytes, ${plural(program.blocks[number], "block")}`;
    part.append(this._facts(`at ${program.hex(program.entries[number])}, ${size}`));
    part.append(this._facts(program.returns[number] === "1" ? "may return" : "does not return by the report"));
    if (program.doubts[number]) part.append(element("div", "why", "may return after all: " + program.doubts[number]));
    if (program.lost[number]) part.append(this._facts(`not reached: ${program.lost[number]}`));
    if (program.passed) part.append(this._facts(`ran: ${program.passed[number]} of ${plural(program.blocks[number], "block")}`));
    const open = body.starts.map((_, block) => block).filter((block) => body.reasons[block] !== undefined);
    const toEnd = (block) => () => [button(program.hex(body.starts[block]), () => acts.reveal(block)), " " + body.kinds[block]];
    part.append(this._list("Open ends", open.map(toEnd), "open-ends"));
    const toCaller = (caller) => () => [button(program.names[caller], () => acts.openFunction(caller, { calls: number }))];
    part.append(this._list("Callers", program.callers[number].map(toCaller), "callers"));
    const toCallee = (callee) => () => [button(program.names[callee], () => acts.openFunction(callee))];
    part.append(this._list("Callees", program.callees[number].map(toCallee), "callees"));
    return part;
  }

  _ofBlock(block) {
    const { program, body } = this, part = element("section");
    part.id = "block";
    part.append(element("h2", "", `Block ${program.hex(body.starts[block])}`));
    part.append(this._facts(`up to ${program.hex(body.ends[block])}, ends with ${body.kinds[block]}${this._group(block)}`));
    if (body.reasons[block] !== undefined) {
      const why = element("div", "why");
      why.append(element("b", "", "Why its successors are unknown: "), element("span", "reason", body.reasons[block]));
      part.append(why);
    }
    if (body.counts) part.append(this._facts(this._ran(block)));
    if (body.masks && body.masks[block] >= 0) part.append(this._free(block));
    part.append(element("pre", "code", body.lines(block).map((line) => `${program.hex(line.at)}  ${line.text}`).join("\n")));
    part.append(this._list("Ways out", body.edges[block].map((edge) => () => this._way(edge.kind, edge.at, edge)), "ways-out"));
    part.append(this._list("Ways in", body.back[block].map((edge) => () => this._way(edge.kind, body.starts[edge.from], edge)), "ways-in"));
    return part;
  }

  _ran(block) {
    const count = this.body.counts[block];
    return !count ? "never ran" : this.program.has.counts ? `ran ${plural(count, "time")}` : "ran";
  }

  _group(block) {
    const item = this.shown.items[this.shown.itemOf[block]];
    if (!item || item.kind === "box") return "";
    const tile = this.shown.tileOf.get(block), blocks = tile ? tile.blocks : item.blocks;
    return `, in a ${item.kind === "loop" ? "loop" : "group"} of ${plural(blocks.length, "block")}: Enter shows it alone, o opens it here`;
  }

  _free(block) {
    const why = "Free registers are not to be relied on: an instruction that is not decoded is reached from here";
    const isDoubtful = this.body.doubtful.has(block);
    const found = this._facts(isDoubtful ? why : `Free registers: ${freeRegisters(this.body.masks[block])}`);
    found.id = "free";
    return found;
  }

  _way(kind, at, edge) {
    const { program, acts } = this, isCall = kind === "call" || edge.to === undefined;
    const name = isCall ? program.place(at) : program.hex(at);
    const notes = [edge.entries ? ` entry ${edge.entries}` : "", edge.unsure ? " not sure" : ""].join("");
    return [`${kind} `, button(name, () => (isCall ? acts.goTo(at) : acts.reveal(this.body.numberAt.get(at)))), notes];
  }
}

// The listing of a function, which says what its picture does.
class Listing {
  constructor(program, acts) {
    this.program = program;
    this.acts = acts;
    this.panel = document.getElementById("listing");
    this.panel.addEventListener("click", (event) => this._click(event));
  }

  show(body, blocks) {
    this.body = body;
    this.panel.replaceChildren(...blocks.map((block) => this._part(block)));
  }

  choose(block) {
    for (const found of this.panel.querySelectorAll(".chosen")) found.classList.remove("chosen");
    const part = this.panel.querySelector(`[data-block="${block}"]`);
    if (!part) return;
    part.classList.add("chosen");
    part.scrollIntoView({ block: "nearest" });
  }

  _part(block) {
    const { program, body } = this, part = element("div", "part");
    part.dataset.block = block;
    const count = body.counts && body.counts[block] ? (program.has.counts ? `, ran ${plural(body.counts[block], "time")}` : ", ran") : "";
    part.append(element("div", "head", `${program.hex(body.starts[block])} to ${program.hex(body.ends[block])}: ${body.kinds[block]}${count}`));
    if (count) part.classList.add("ran");
    part.append(element("div", "text", body.lines(block).map((line) => `  ${program.hex(line.at)}  ${line.text}`).join("\n")));
    if (body.reasons[block] !== undefined) part.append(element("div", "to", "  ? " + body.reasons[block]));
    for (const edge of body.edges[block]) part.append(this._way(edge));
    return part;
  }

  _way(edge) {
    const isCall = edge.kind === "call" || edge.to === undefined, found = element("div", "to", `  -> ${edge.kind} `);
    const to = element("button", "", isCall ? this.program.place(edge.at) : this.program.hex(edge.at));
    to.type = "button";
    to.dataset[isCall ? "at" : "to"] = isCall ? edge.at : edge.to;
    found.append(to, edge.entries ? ` entry ${edge.entries}` : "", edge.unsure ? " not sure" : "");
    return found;
  }

  _click(event) {
    const { at, to } = event.target.dataset;
    if (at !== undefined) return this.acts.goTo(Number(at));
    if (to !== undefined) return this.acts.select(Number(to));
    const part = event.target.closest(".part");
    if (part) this.acts.select(Number(part.dataset.block));
  }
}

// The kinds of edges, each with its colour, its line and its second mark.
function showLegend(program) {
  const legend = document.getElementById("legend");
  for (const [kind, colour, dashes, meaning, mark] of [...program.edgeKinds, program.unsure]) {
    if (kind === "call") continue;
    const entry = element("span", "", ""), line = shape("svg", {});
    line.append(shape("path", { class: `edge ${kind}`, d: "M1,5L33,5", stroke: colour, ...(dashes ? { "stroke-dasharray": dashes } : {}) }));
    if (kind === "taken") line.append(shape("rect", { x: 1, y: 1, width: 8, height: 8, fill: colour }));
    entry.append(line, meaning.split(":")[0]);
    entry.title = `${meaning}. ${mark}`;
    legend.append(entry);
  }
  if (program.passed) legend.append(element("span", "", "blue bar: ran"));
}

const KEYS = [
  ["/", "search functions; after a blank, all instructions"], ["arrows", "down and up along ways, left and right beside"],
  ["Enter", "the group of the selected block alone, or the function that it calls"], ["o", "open that group here"],
  ["Esc", "the group around this one"], ["0", "fit all"], ["+ -", "larger, smaller"], ["a", "all blocks"], ["L", "fold loops"],
  ["l", "listing"], ["?", "these keys"],
];

function showHelp() {
  const help = document.getElementById("help"), table = element("table");
  for (const [key, what] of KEYS) {
    const row = element("tr"), cell = element("td");
    cell.append(element("kbd", "", key));
    row.append(cell, element("td", "", what));
    table.append(row);
  }
  const mouse = "Drag to move, wheel to scroll, Ctrl and wheel to zoom.";
  const more = `${mouse} A click selects a block or opens a callee; a double click shows a group alone.`;
  help.replaceChildren(element("h2", "", "Keys"), table, element("p", "", more), button("close", () => help.close()));
  help.showModal();
}
