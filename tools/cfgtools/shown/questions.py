"""Questions about a report, each answered by objects, for JSON, with a line of text each."""

from __future__ import annotations

import heapq
import re
from typing import Any, Dict, Iterable, Iterator, List, NamedTuple, Optional, Set, Tuple

from cfgtools.elf.elf_file import Elf, Memory
from cfgtools.entries.pointers import MadeAddresses, array_entries, pointers_in_data
from cfgtools.entries.reached import Reached
from cfgtools.explain.staying import Staying, behind
from cfgtools.explain.values import last_instruction
from cfgtools.reports import names
from cfgtools.reports.body import Body
from cfgtools.reports.cfg_report import GUESS, Block, Edge, Function, Report, ReportError, address, function_name
from cfgtools.reports.changed_graph import Places
from cfgtools.runs.traces import Trace

OPEN_KINDS = ("icall", "unknown", "table-open", "table-cut")
# How many functions are named that may hide a way.
MOST_NAMED = 5


class Answer(NamedTuple):
    """One of the answers to a question."""

    text: str
    fields: Dict[str, Any]


class Questions:
    """A report that is asked."""

    def __init__(self, report: Report, elf: Optional[Elf] = None) -> None:
        self.report, self.elf = report, elf
        self.places = Places(report)
        self.functions = {function.entry: function for function in report.functions}
        self.homes: Dict[int, List[Function]] = {}
        for function in report.functions:
            for start in function.blocks:
                self.homes.setdefault(start, []).append(function)

    def function(self, wanted: str) -> Function:
        """The function of a name, or at an address or around it."""
        try:
            return self.report.function(wanted, self.elf.addresses_of if self.elf else None)
        except ReportError:
            block = self.places.of(int(wanted, 16)) if all(digit in "0123456789abcdefABCDEF" for digit in wanted) else None
            if block is None:
                raise
            start = block.start
            return max(self.homes[start], key=lambda one: (one.entry <= start, one.entry))

    def name(self, entry: int) -> str:
        function = self.functions.get(entry)
        if function is not None:
            return function_name(entry, function.name)
        return self.elf.place(entry) if self.elf else f"{entry:x}"

    def ways_out(self, function: Function) -> Iterator[Edge]:
        """The edges from a function into others, and its calls of itself."""
        for start in function.blocks:
            for edge in self.report.edges_from.get(start, []):
                if edge.kind in ("call", GUESS) or edge.to in self.functions and edge.to != function.entry:
                    yield edge

    # ---- the questions

    def callees(self, wanted: str) -> Iterator[Answer]:
        function = self.function(wanted)
        for edge in self.ways_out(function):
            yield self._way(edge.to, edge)
        for start in function.blocks:
            kind = self.report.blocks[start].kind
            if kind in ("icall", "unknown"):
                fields = {"function": None, "kind": kind, "block": address(start)}
                yield Answer(f"not known: {kind} from the block at {start:x}", fields)

    def callers(self, wanted: str) -> Iterator[Answer]:
        entry = self.function(wanted).entry
        for function in self.report.functions:
            for edge in self.ways_out(function):
                if edge.to == entry:
                    yield self._way(function.entry, edge)

    def _way(self, entry: int, edge: Edge) -> Answer:
        """A function that an edge leads to, or comes from."""
        name, stub = self.name(entry), self._stub(entry)
        fields = {"function": name, "entry": address(entry), "kind": edge.kind, "block": address(edge.source), **({"stub_of": stub} if stub else {})}
        return Answer(f"{name}{self._stub_words(entry)} at {entry:x}, {edge.kind} from the block at {edge.source:x}", fields)

    def _stub(self, entry: int) -> Optional[str]:
        """The name of the indirect function whose stub begins at an address."""
        return self.elf.stub_names.get(entry) if self.elf else None

    def _stub_words(self, entry: int) -> str:
        stub = self._stub(entry)
        return f", the stub of {names.shown(stub)}," if stub else ""

    def where(self, wanted: str) -> Iterator[Answer]:
        try:
            at = self.report.function(wanted, self.elf.addresses_of if self.elf else None).entry
        except ReportError:
            if not all(digit in "0123456789abcdefABCDEF" for digit in re.sub("^0x", "", wanted)):
                raise
            at = int(wanted, 16)
        yield from self._where(at)

    def _where(self, at: int) -> Iterator[Answer]:
        block = self.places.of(at)
        if block is None:
            near = f", in the symbol {self.elf.place(at)}" if self.elf and self.elf.owner(at) else ""
            yield Answer(f"{at:x} is in no block{near}", {"address": address(at), "block": None})
            return
        for function in self.homes[block.start]:
            name = self.name(function.entry)
            where = f"in the block from {block.start:x} to {block.end:x}, which ends with {block.kind}"
            aliases = self.elf.also(function.entry) if self.elf else []
            also = (f", also {', '.join(aliases)}," if aliases else "") or self._stub_words(function.entry)
            yield Answer(f"{at:x} is in {name}{also} at {function.entry:x}, {where}",
                         {"address": address(at), "function": name, "entry": address(function.entry),
                          "block": address(block.start), "end": address(block.end), "kind": block.kind, **({"aliases": aliases} if aliases else {})})

    def reach(self, wanted: str, target: Optional[str], backwards: bool) -> Iterator[Answer]:
        """The functions that one reaches, or that reach it; or the shortest way from one to another, with as few guesses as can be."""
        start = self.function(wanted).entry
        before = self._ways_from(start, backwards)
        if target is None:
            for entry in sorted(before.keys() - {start}):
                yield Answer(f"{self.name(entry)} at {entry:x}", {"function": self.name(entry), "entry": address(entry)})
            return
        end = self.function(target).entry
        chain: List[int] = []
        guesses: Dict[int, Edge] = {}
        at: Optional[int] = end if end in before else None
        while at is not None:
            chain.insert(0, at)
            step = before[at]
            if step is not None and step[1].kind == GUESS:
                guesses[at] = step[1]
            at = step[0] if step is not None else None
        names = [self.name(entry) for entry in chain]
        shown = [f"(a guess: {self.report.blocks[guesses[entry].source].kind} at {self._last(guesses[entry])}) {self.name(entry)}" if entry in guesses
                 else self.name(entry) for entry in chain]
        none = f"no way from {self.name(start)} to {self.name(end)}"
        text = " -> ".join(shown) if chain else none + self._open(before.keys())
        fields = {"reaches": bool(chain), "way": names, "entries": [address(entry) for entry in chain]}
        yield Answer(text, {**fields, **({"guesses": [self._last(edge) for edge in guesses.values()]} if guesses else {})})

    def _ways_from(self, start: int, backwards: bool) -> Dict[int, Optional[Tuple[int, Edge]]]:
        """The functions that one reaches, or that reach it, each with the one before on the way, and the edge from there."""
        onward: Dict[int, List[Tuple[int, Edge]]] = {}
        for function in self.report.functions:
            for edge in self.ways_out(function):
                one, other = (edge.to, function.entry) if backwards else (function.entry, edge.to)
                onward.setdefault(one, []).append((other, edge))
        found: Dict[int, Optional[Tuple[int, Edge]]] = {}
        left: List[Tuple[int, int, int, int, Optional[Tuple[int, Edge]]]] = [(0, 0, 0, start, None)]
        count = 0
        while left:
            guesses, length, _, at, step = heapq.heappop(left)
            if at in found:
                continue
            found[at] = step
            for to, edge in onward.get(at, ()):
                if to not in found:
                    count += 1
                    heapq.heappush(left, (guesses + (edge.kind == GUESS), length + 1, count, to, (at, edge)))
        return found

    def _last(self, edge: Edge) -> str:
        """The address of the instruction from which an edge leads, or that of the end of its block without the ELF file."""
        block = self.report.blocks[edge.source]
        return f"{last_instruction(self.elf, block)[0]:x}" if self.elf is not None else f"the block {block.start:x}"

    def _open(self, entries: Iterable[int]) -> str:
        """What may hide a way: the functions that are reached and go on through a register."""
        is_open = {start for start, block in self.report.blocks.items() if block.kind in ("icall", "unknown")}
        found = [entry for entry in sorted(entries) if not is_open.isdisjoint(self.functions[entry].blocks)]
        if not found:
            return ""
        some = ", ".join(map(self.name, found[:MOST_NAMED])) + (", .." if len(found) > MOST_NAMED else "")
        return f" is known; {len(found)} functions on the way call or jump through a register: {some} (tools/guess_calls guesses where)"

    def dead(self) -> Iterator[Answer]:
        """The functions that nothing reaches: neither a way of the graph from the program's entry, nor a pointer in data or in code
        that is reached."""
        if self.elf is None:
            raise ReportError("which functions pointers lead to is known by the ELF file alone: --elf ELF")
        memory = Memory(self.elf.path)
        made = MadeAddresses(memory)
        made.read(Reached(memory, self.report))
        roots = {self.report.entry, *pointers_in_data(memory), *made.made, *array_entries(memory)} & self.functions.keys()
        onward = {function.entry: [edge.to for edge in self.ways_out(function)] for function in self.report.functions}
        found, left = set(roots), list(roots)
        while left:
            for to in onward.get(left.pop(), ()):
                if to not in found and to in self.functions:
                    found.add(to)
                    left.append(to)
        for entry in sorted(self.functions.keys() - found):
            blocks = [self.report.blocks[start] for start in self.functions[entry].blocks]
            size = sum(block.end - block.start for block in blocks)
            yield Answer(f"{self.name(entry)} at {entry:x}, {len(blocks)} blocks, {size} bytes",
                         {"function": self.name(entry), "entry": address(entry), "blocks": len(blocks), "bytes": size})

    def no_return(self, wanted: Optional[str]) -> Iterator[Answer]:
        functions = [self.function(wanted)] if wanted else [one for one in self.report.functions if not one.may_return]
        staying = Staying(self.report, self.elf)
        for function in functions:
            name = self.name(function.entry)
            fields = {"function": name, "entry": address(function.entry), "may_return": function.may_return}
            why = [] if function.may_return else staying.why(function)
            doubt = staying.why_doubtful(function.entry)
            text = f": {'; '.join(why)}" if why else " may return"
            told: Dict[str, object] = {name: found for name, found in (("why", why), ("doubt", doubt)) if found}
            yield Answer(f"{name} at {function.entry:x}{text}", {**fields, **told})

    def behind(self, wanted: Optional[str]) -> Iterator[Answer]:
        """Where control goes on though the report does not say so, as a list for add_entries."""
        callee = self.function(wanted).entry if wanted else None
        for at in behind(Staying(self.report, self.elf), callee):
            yield Answer(f"behind_{at:x} {at:x}", {"address": address(at)})

    def loops(self, wanted: str) -> Iterator[Answer]:
        for loop in Body(self.report, self.function(wanted)).loops():
            entries = ", ".join(f"{start:x}" for start in sorted(loop.entries))
            kind = "" if len(loop.entries) == 1 else ", irreducible"
            yield Answer(f"{'    ' * loop.depth}loop at {entries}: {len(loop.blocks)} blocks{kind}",
                         {"entries": [address(start) for start in sorted(loop.entries)], "depth": loop.depth,
                          "blocks": [address(start) for start in sorted(loop.blocks)]})

    def dominators(self, wanted: str) -> Iterator[Answer]:
        body = Body(self.report, self.function(wanted))
        found = body.dominators()
        depth = {body.entry: 0}
        yield Answer(f"{body.entry:x}", {"block": address(body.entry), "dominator": None})
        for start in self._below(found, body.entry):
            depth[start] = depth[found[start]] + 1
            yield Answer(f"{'  ' * depth[start]}{start:x}", {"block": address(start), "dominator": address(found[start])})

    def _below(self, dominators: Dict[int, int], entry: int) -> Iterator[int]:
        """The blocks of the tree of dominators, each behind its own."""
        children: Dict[int, List[int]] = {}
        for start, dominator in dominators.items():
            children.setdefault(dominator, []).append(start)
        left = sorted(children.get(entry, ()), reverse=True)
        while left:
            start = left.pop()
            yield start
            left += sorted(children.get(start, ()), reverse=True)

    def open_ways(self, trace: Trace) -> Iterator[Answer]:
        """Where a trace went from the blocks whose ways on are not known."""
        found: Set[Tuple[int, int]] = set()
        ends: Dict[int, Tuple[Optional[Block], range]] = {}
        before: Optional[int] = None
        seen: Set[Tuple[int, int]] = set()
        for step in trace.steps():
            pair = (before, step.address) if before is not None else None
            before = step.address
            if pair is None or pair in seen:
                continue
            seen.add(pair)
            if pair[0] not in ends:
                ends[pair[0]] = self._end(pair[0])
            block, straight = ends[pair[0]]
            if block is not None and step.address not in straight:
                known = {edge.to for edge in self.report.edges_from.get(block.start, []) if edge.kind not in ("after", "landing")}
                if step.address not in known and (block.start, step.address) not in found:
                    found.add((block.start, step.address))
        for start, to in sorted(found):
            block = self.report.blocks[start]
            what = f"{block.kind} in {self.name(self.homes[start][0].entry)}, to {self._place(to)}"
            fields = {"from": address(start), "to": address(to), "block_kind": block.kind}
            yield Answer(f"{start:x} {to:x}  # {what}", fields)

    def _place(self, at: int) -> str:
        block = self.places.of(at)
        if self.elf is not None:
            return self.elf.place(at) + ("" if block else ", in no block")
        return self.name(self.homes[block.start][0].entry) if block else "in no block"

    def _end(self, at: int) -> Tuple[Optional[Block], range]:
        """The block whose way on is not known to which control goes straight on from an address, if it does; and the
        addresses behind that one up to its end."""
        block = self.places.of(at)
        if block is not None and block.start != at and not block.start < at < block.end:
            block = None
        while block is not None and block.kind == "fall":
            block = self.report.blocks.get(block.end)
        return (block, range(at + 1, block.end)) if block is not None and block.kind in OPEN_KINDS else (None, range(0))
