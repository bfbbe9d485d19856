"""Traces of `cfg_walk`: which blocks of a report a walk entered, along which edges, and how it ended.

A trace is read in one pass, and only counts are kept. docs/WALKING.md has its grammar.
"""

from __future__ import annotations

import collections
import re
from typing import BinaryIO, Counter, Dict, Iterator, List, NamedTuple, NoReturn, Optional, Sequence, Tuple

from cfgtools.reports.cfg_report import BLOCK_KINDS, Function, Report, ReportError, function_name
from cfgtools.reports.progress import Progress

TRAPS = ("Fetch", "Illegal", "Breakpoint", "Ecall", "Csr", "Float", "Unsupported", "LoadFault", "StoreFault", "Misaligned")

_LINE = re.compile("at ([0-9a-f]{16})|out (%s)|end (left|steps|trap (?:%s))" % ("|".join(BLOCK_KINDS), "|".join(TRAPS)))


class Exit(NamedTuple):
    """A way out of a block that is no edge. `to` is None if no block starts there."""

    source: int
    kind: str
    to: Optional[int]


class Walk:
    """What a trace tells: how often each block was entered, each edge taken, and each block left otherwise."""

    def __init__(self, stream: BinaryIO) -> None:
        self.blocks: Counter[int] = collections.Counter()
        self.edges: Counter[Tuple[int, int]] = collections.Counter()
        self.exits: Counter[Exit] = collections.Counter()
        self.end = ""
        self.last: Optional[int] = None
        self._kind: Optional[str] = None
        self._lines = 0
        progress = Progress(lambda: f"{self._lines} lines of the trace are read")
        for self._lines, line in enumerate(stream, 1):
            self._read(line.decode("ascii", "replace"))
            if self._lines % 4096 == 0:
                progress.step()
        if not self.end:
            self._fail("the trace is cut off: it has no line `end`")

    def _fail(self, why: str) -> NoReturn:
        raise ReportError(f"line {self._lines}: {why}")

    def _read(self, line: str) -> None:
        found = _LINE.fullmatch(line[:-1]) if line.endswith("\n") else None
        if found is None:
            self._fail(f"`{line.rstrip()[:60]}` is no line of a trace")
        if self.end:
            self._fail("there is a line after the one that ends the trace")
        if found[1]:
            self._enter(int(found[1], 16))
        elif found[2]:
            if self.last is None or self._kind is not None:
                self._fail("an `out` comes only after an `at`")
            self._kind = found[2]
        else:
            self._stop(found[3])

    def _enter(self, at: int) -> None:
        if self._kind is not None:
            assert self.last is not None
            self.exits[Exit(self.last, self._kind, at)] += 1
        elif self.last is not None:
            self.edges[(self.last, at)] += 1
        self.blocks[at] += 1
        self.last, self._kind = at, None

    def _stop(self, end: str) -> None:
        if (end == "left") != (self._kind is not None or self.last is None):
            self._fail("`end left` comes after an `out`, and only there")
        if self._kind is not None:
            assert self.last is not None
            self.exits[Exit(self.last, self._kind, None)] += 1
        self.end = end


# ---- what it covers


class Passed(NamedTuple):
    """What a walk passed of one function: how often it entered a block of it, and how many of its blocks and edges."""

    function: Function
    entered: int
    blocks: int
    edges: int
    all_edges: int


def share(part: int, whole: int) -> str:
    return f"{part} of {whole} ({100 * part / max(whole, 1):.1f} %)"


class Walked:
    """A walk in the graph of a report. Edges are pairs of blocks, since a trace shows no kinds; those of the kinds `after` and
    `landing` are left out, since no step goes along them: control goes into the function that is called."""

    def __init__(self, report: Report, walk: Walk) -> None:
        self.report, self.walk = report, walk
        self.edges: Dict[int, List[int]] = {}
        for source, to in sorted({(edge.source, edge.to) for edge in report.edges if edge.kind not in ("after", "landing")}):
            self.edges.setdefault(source, []).append(to)
        for at in walk.blocks:
            if at not in report.blocks:
                raise ReportError(f"the trace enters a block at {at:x}, which the report does not have")
        for source, to in walk.edges:
            if to not in self.edges.get(source, []):
                raise ReportError(f"the trace goes from {source:x} to {to:x}, which is no edge of the report")

    def passed(self, function: Function) -> Passed:
        """Blocks that functions share count for each of them."""
        entered = [at for at in function.blocks if at in self.walk.blocks]
        edges = [(source, to) for source in function.blocks for to in self.edges.get(source, [])]
        taken = sum(edge in self.walk.edges for edge in edges)
        return Passed(function, sum(self.walk.blocks[at] for at in entered), len(entered), taken, len(edges))

    def missed_edges(self) -> Iterator[Tuple[int, int]]:
        """The edges that were never taken from blocks that were entered."""
        for source, targets in self.edges.items():
            if source in self.walk.blocks:
                yield from ((source, to) for to in targets if (source, to) not in self.walk.edges)


def _print_list(title: str, lines: Sequence[str], top: int) -> None:
    if lines:
        print(f"{title}: {len(lines)}")
    for line in lines[:top]:
        print(f"    {line}")
    if len(lines) > top:
        print(f"    and {len(lines) - top} more (--top N shows N)")


def _counted(found: Walked) -> Iterator[Tuple[str, List[str]]]:
    """Each block, edge and other exit that was passed, those first that were passed most often."""
    walk = found.walk
    yield "blocks by count", [f"{count} {at:x}" for at, count in walk.blocks.most_common()]
    yield "edges by count", [f"{count} {source:x} {to:x}" for (source, to), count in walk.edges.most_common()]
    yield "other exits by count", [
        f"{count} {out.source:x} {out.kind} {'left' if out.to is None else format(out.to, 'x')}" for out, count in walk.exits.most_common()
    ]


def _name(function: Function) -> str:
    return f"{function_name(function.entry, function.name)} at {function.entry:x}"


def tell(found: Walked, top: int, counts: bool) -> None:
    """Prints what a walk covers of a graph, and what it never reached."""
    walk, report = found.walk, found.report
    where = "" if walk.last is None else f", in the block at {walk.last:x}"
    print(f"the walk ended: {walk.end}{where}")
    passed = [found.passed(function) for function in report.functions]
    reached = sorted((one for one in passed if one.blocks), key=lambda one: (-one.entered, one.function.entry))
    every = sum(map(len, found.edges.values()))
    parts = [f"functions {share(len(reached), len(passed))}", f"blocks {share(len(walk.blocks), len(report.blocks))}",
             f"edges {share(len(walk.edges), every)}", f"other exits {len(walk.exits)}"]
    print(", ".join(parts))
    _print_list("functions by how often their blocks were entered", [
        f"{one.entered} {_name(one.function)}: blocks {share(one.blocks, len(one.function.blocks))}, edges {share(one.edges, one.all_edges)}"
        for one in reached], top)
    if counts:
        for title, lines in _counted(found):
            _print_list(title, lines, top)
    _print_list("functions never reached", [_name(one.function) for one in passed if not one.blocks], top)
    in_reached = {at for one in reached for at in one.function.blocks}
    _print_list("blocks never reached, of functions that were", [f"{at:x}" for at in report.blocks if at in in_reached and at not in walk.blocks], top)
    _print_list("edges never taken, from blocks that were reached", [f"{source:x} {to:x}" for source, to in found.missed_edges()], top)
