#!/usr/bin/env python3
"""Stands in for `cfg` in tests: the report on an ELF file without jump tables but those that it declares, as docs/REPORT.md
defines it, with what it says of exceptions and of functions that do not return, worked out by plain passes over what is reached. It refuses a file whose code sections overlap, and one without sections."""

from __future__ import annotations

import sys
from pathlib import Path
from typing import Dict, Iterator, List, Set, Tuple

sys.dont_write_bytecode = True
sys.path.insert(0, str(Path(__file__).resolve().parent.parent))

from cfgtools.elf import no_return
from cfgtools.elf.declared_tables import Declared, jump_register
from cfgtools.elf.elf_file import Memory
from cfgtools.elf.landings import Landings
from cfgtools.isa import extensions
from cfgtools.isa.decoding import UNKNOWN, Insn, decode

EXITS = ("return", "unknown", "branch-out")


class Graph:
    """What is reached, for a set of functions that are known to return."""

    def __init__(self, elf: Memory, returning: Set[int]) -> None:
        self.elf, self.returning = elf, returning
        declared = Declared(elf)
        self.tables = {at: declared.targets(one) for at, one in declared.records.items() if jump_register(elf, at) is not None}
        self.landings, self.staying = Landings(elf), no_return.that_cfg_knows(elf)
        self.functions = {symbol.address for symbol in elf.symbols()} | {elf.entry}
        self.insns: Dict[int, Insn] = {}
        self.leaders: Set[int] = set()
        left = sorted(self.functions)
        self.leaders.update(left)
        while left:
            left += self._read(left.pop())
        self.blocks = dict(self._blocks())

    def _read(self, at: int) -> List[int]:
        found = []
        while at not in self.insns and self.elf.is_code(at):
            word = self.elf.instruction(at)
            insn = Insn(UNKNOWN, 2) if word is None or extensions.privileged(word) else decode(word)
            self.insns[at] = insn
            _, ways = self.end(at, insn)
            found += [to for to, kind in ways if kind != "fall" or insn.name[0] == "b"]
            self.leaders.update(found)
            self.functions.update(to for to, kind in ways if kind == "call")
            if [kind for _, kind in ways] != ["fall"]:
                break
            at += insn.length
        return found

    def end(self, at: int, insn: Insn) -> Tuple[str, List[Tuple[int, str]]]:
        """How a block with this last instruction ends, and its ways on."""
        behind, is_code = at + insn.length, self.elf.is_code
        if insn.name in (UNKNOWN, "ebreak", "mret", "sret"):
            return "stop", []
        if insn.name[0] == "b":
            ways = [(to, kind) for to, kind in ((behind, "fall"), (at + insn.imm, "taken")) if is_code(to)]
            return ("branch" if len(ways) == 2 else "branch-out"), ways
        if insn.name == "jal" and insn.rd == 0:
            return ("jump", [(at + insn.imm, "jump")]) if is_code(at + insn.imm) else ("unknown", [])
        if insn.name == "jal":
            callee = at + insn.imm
            after = [(behind, "after")] if callee in self.returning - self.staying and is_code(behind) else []
            return "call", [(callee, "call"), *after, *self.landing(behind)]
        if insn.name == "jalr" and self.tables.get(at):
            return "table-open", [(to, "table") for to in sorted(set(self.tables[at]))]
        if insn.name == "jalr" and (insn.rd == 0 or insn.is_stub):
            return ("return" if insn.rs1 == 1 else "unknown"), []
        if insn.name == "jalr":
            return "icall", ([(behind, "after")] if is_code(behind) else []) + self.landing(behind)
        return ("fall", [(behind, "fall")]) if is_code(behind) else ("stop", [])

    def landing(self, behind: int) -> List[Tuple[int, str]]:
        pad = self.landings.pad_of(behind)
        return [] if pad is None else [(pad, "landing")]

    def _blocks(self) -> Iterator[Tuple[int, Tuple[int, str, List[Tuple[int, str]]]]]:
        for start in sorted(self.leaders & self.insns.keys()):
            at = start
            while True:
                insn = self.insns[at]
                kind, ways = self.end(at, insn)
                at_end = at + insn.length
                if kind != "fall" or at_end in self.leaders:
                    break
                at = at_end
            yield start, (at_end, kind, ways)

    def body(self, entry: int, stops: Set[int]) -> Set[int]:
        found, left = set(), [entry]
        while left:
            start = left.pop()
            if start not in found:
                found.add(start)
                left += [to for to, kind in self.blocks[start][2] if kind != "call" and (to == entry or to not in stops)]
        return found

    def may_return(self, entry: int) -> bool:
        return any(self.blocks[start][1] in EXITS for start in self.body(entry, set()))


def finished(elf: Memory) -> Graph:
    graph = Graph(elf, set())
    while True:
        returning = {entry for entry in graph.functions if graph.may_return(entry)}
        if returning == graph.returning:
            return graph
        graph = Graph(elf, returning)


def report(elf: Memory) -> List[str]:
    graph = finished(elf)
    names: Dict[int, bytes] = {}
    for symbol in elf.symbols():
        if symbol.name:
            names[symbol.address] = min(symbol.name, names.get(symbol.address, symbol.name))
    bodies = {entry: graph.body(entry, graph.functions) for entry in sorted(graph.functions)}
    has_pads = any(kind == "landing" for _, _, ways in graph.blocks.values() for _, kind in ways)
    lines = [f"cfg-report {3 if has_pads else 2}", f"entry {elf.entry:016x}", f"functions {len(bodies)}"]
    for entry, body in bodies.items():
        status = "may-return" if entry in graph.returning else "no-return"
        lines.append(f"function {entry:016x} {status} {len(body)} {names.get(entry, b'-').decode()}")
        lines += [f"in {start:016x}" for start in sorted(body)]
    lines.append(f"blocks {len(graph.blocks)}")
    edges = []
    for start, (end, kind, ways) in graph.blocks.items():
        lines.append(f"block {start:016x} {end:016x} {kind}")
        for to, way in sorted(ways):
            is_tail = way == "jump" and to in bodies and start not in bodies[to]
            edges.append(f"edge {start:016x} {to:016x} {'tail' if is_tail else way}")
    return [*lines, f"edges {len(edges)}", *edges, "end"]


def main() -> int:
    elf = Memory(sys.argv[-1])
    if any(one.end > other.address for one, other in zip(elf.code, elf.code[1:])):
        print("cfg: malformed: CodeOverlap", file=sys.stderr)
        return 2
    print("\n".join(report(elf)))
    return 0


if __name__ == "__main__":
    sys.exit(main())
