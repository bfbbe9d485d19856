"use strict";
// The program: what cfgtools/shown/page.py has put into the page, unpacked.

// One of the page's pieces of data: base64 of raw deflate of JSON.
async function unpacked(id) {
  const text = document.getElementById(id).textContent;
  const bytes = Uint8Array.from(atob(text), (letter) => letter.charCodeAt(0));
  const stream = new Blob([bytes]).stream().pipeThrough(new DecompressionStream("deflate-raw"));
  return new Response(stream).json();
}

function summed(differences) {
  let last = 0;
  return differences.map((value) => (last += value));
}

// All functions, by their numbers, which rise with their entries.
class Program {
  constructor(index) {
    Object.assign(this, index);
    this.entries = summed(index.at);
    this.numberAt = new Map(this.entries.map((entry, number) => [entry, number]));
    this.edgeNames = index.edgeKinds.map((kind) => kind[0]);
    this.callees = index.callees.map(summed);
    this.callers = this.entries.map(() => []);
    this.callees.forEach((found, number) => found.forEach((callee) => this.callers[callee].push(number)));
    this.firsts = new Map();
    index.parts.forEach((part, number) => this.firsts.has(part) || this.firsts.set(part, number));
    this.loaded = new Map();
    this.bodies = new Map();
  }

  static async load() {
    return new Program(await unpacked("index"));
  }

  get count() {
    return this.entries.length;
  }

  // An address in hexadecimal digits, and back: undefined where the text is none, or the program has no such high word.
  hex(at) {
    const low = at % 2 ** 32, high = this.high[(at - low) / 2 ** 32];
    return high === undefined || high === "0" ? low.toString(16) : high + low.toString(16).padStart(8, "0");
  }

  address(text) {
    if (!/^(0x)?[0-9a-f]{1,16}$/i.test(text)) return undefined;
    const digits = text.toLowerCase().replace(/^0x/, "").replace(/^0+(?=.)/, "");
    const high = this.high.indexOf(digits.length > 8 ? digits.slice(0, -8) : "0");
    return high < 0 ? undefined : high * 2 ** 32 + parseInt(digits.slice(-8), 16);
  }

  // A place in the words of a reader: a function, and how far behind its entry.
  place(at) {
    const number = this.numberAt.get(at);
    return number === undefined ? this.hex(at) : this.names[number];
  }

  // The functions of a part.
  part(number) {
    if (!this.loaded.has(number)) this.loaded.set(number, unpacked("part" + number));
    return this.loaded.get(number);
  }

  // The graph of a function.
  async body(number) {
    if (!this.bodies.has(number)) {
      const part = await this.part(this.parts[number]);
      this.bodies.set(number, new Body(this, number, part[number - this.firsts.get(this.parts[number])]));
    }
    return this.bodies.get(number);
  }
}

// The blocks of a function, by their numbers in it, which rise with their starts.
class Body {
  constructor(program, number, data) {
    this.program = program;
    this.number = number;
    this.starts = summed(data.s);
    this.ends = this.starts.map((start, block) => start + data.l[block]);
    this.kinds = Array.from(data.k, (digit) => program.blockKinds[parseInt(digit, 36)]);
    this.numberAt = new Map(this.starts.map((start, block) => [start, block]));
    this.entry = this.numberAt.get(program.entries[number]);
    this.texts = data.t;
    this.reasons = data.r || {};
    this.masks = data.m;
    this.doubtful = new Set(data.d || []);
    this.counts = data.c;
    this.edges = this.starts.map(() => []);
    this.ways = [];
    this._readEdges(data);
    this.back = this.starts.map(() => []);
    for (const edge of this.ways) if (edge.to !== undefined && edge.kind !== "call") this.back[edge.to].push(edge);
  }

  _readEdges(data) {
    const unsure = new Set(data.eu || []);
    const entries = data.en || {};
    data.e.forEach((count, block) => {
      for (; count > 0; count--) {
        const place = this.ways.length;
        const at = this.ends[block] + data.et[place];
        const kind = this.program.edgeNames[parseInt(data.ek[place], 36)];
        const edge = { from: block, at, to: this.numberAt.get(at), kind, entries: entries[place], unsure: unsure.has(place) };
        this.ways.push(edge);
        this.edges[block].push(edge);
      }
    });
  }

  get count() {
    return this.starts.length;
  }

  // The block that has an address, the last of several.
  blockAt(address) {
    let found;
    this.starts.forEach((start, block) => {
      if (start <= address && address < this.ends[block]) found = block;
    });
    return found;
  }

  // The instructions of a block: address and text of each. The last of a block that ends with a call says whom it calls.
  lines(block) {
    if (this.texts === undefined) return [{ at: this.starts[block], text: `${this.ends[block] - this.starts[block]} bytes` }];
    let at = this.starts[block];
    return this.texts[block].split("\n").map((line) => {
      const isShort = line.startsWith(".") && !line.includes("byte 0x");
      const found = { at, text: isShort ? line.slice(1) : line };
      at += isShort ? 2 : 4;
      return found;
    });
  }

  // The function that a block calls, if the graph knows it.
  calleeOf(block) {
    const edge = this.edges[block].find((one) => one.kind === "call");
    return edge === undefined ? undefined : this.program.numberAt.get(edge.at);
  }

  // The edges that lead out of the function, calls aside.
  isOut(edge) {
    return edge.kind !== "call" && edge.to === undefined;
  }
}

const REGISTERS = ("zero ra sp gp tp t0 t1 t2 s0 s1 a0 a1 a2 a3 a4 a5 a6 a7 s2 s3 s4 s5 s6 s7 s8 s9 s10 s11 t3 t4 t5 t6").split(" ");
const REGISTER_GROUPS = [[5, 6, 7, 28, 29, 30, 31], [10, 11, 12, 13, 14, 15, 16, 17], [8, 9, 18, 19, 20, 21, 22, 23, 24, 25, 26, 27], [1]];

// The registers that are free where those of a mask are live, as tools/free_registers names them: without sp, gp and tp.
function freeRegisters(mask) {
  const found = [];
  for (const group of REGISTER_GROUPS) {
    let row = [];
    for (const register of [...group, -1]) {
      if (register >= 0 && !((mask >>> register) & 1)) row.push(register);
      else {
        if (row.length > 2) found.push(REGISTERS[row[0]] + "-" + REGISTERS[row[row.length - 1]]);
        else found.push(...row.map((one) => REGISTERS[one]));
        row = [];
      }
    }
  }
  return found.join(" ") || "none";
}
