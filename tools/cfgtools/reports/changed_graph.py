"""A report's graph with edges added or left out: its functions are worked out anew, by the rules of docs/REPORT.md.

`--edges FILE` of the scripts names a file of edges that a person or a trace knows. A line is `FROM TO` or
`FROM TO KIND`: FROM is the address of a block, or of an instruction in it, as of the jump; TO is where control goes;
KIND is one of a report's kinds of edges, or `guess`. Without KIND it is `call` from a block that ends with a call, `table` from one
that ends with a table, and else `jump`, or `tail` where TO is a function that the block is no part of. Numbers are
hexadecimal digits; `#` begins a comment.
"""

from __future__ import annotations

import bisect
import re
import sys
from typing import Dict, Iterable, List, NamedTuple, Optional, Set

from cfgtools.reports.cfg_report import EDGE_KINDS, GUESS, LEAVES_FUNCTION, TABLE_KINDS, Block, Edge, Function, Report, ReportError
from cfgtools.reports.guesses import is_guess, is_pointed


class Known(NamedTuple):
    """A line of a file of edges."""

    source: int
    to: int
    kind: Optional[str]


_LINE = re.compile(r"(?:0x)?([0-9a-fA-F]{1,16})\s+(?:0x)?([0-9a-fA-F]{1,16})(?:\s+(\S+))?")


def known_edges(path: str) -> List[Known]:
    """The edges of a file."""
    found = []
    with open(path, encoding="utf-8", errors="replace") as file:
        for number, line in enumerate(file, 1):
            text = line.split("#")[0].strip()
            match = _LINE.fullmatch(text)
            if text and (match is None or match[3] not in (None, *EDGE_KINDS, GUESS)):
                raise ReportError(f"{path}: line {number}: `{text[:60]}` is no line FROM TO or FROM TO KIND")
            if match:
                found.append(Known(int(match[1], 16), int(match[2], 16), match[3]))
    return found


class Places:
    """The blocks of a report by the addresses in them."""

    def __init__(self, report: Report) -> None:
        self.blocks = report.blocks
        self._starts = sorted(report.blocks)

    def add(self, start: int) -> None:
        """Takes notice of a block that the report has got."""
        bisect.insort(self._starts, start)

    def of(self, address: int) -> Optional[Block]:
        """The block that begins at an address, or else one that has it inside: of several the one whose last instruction
        it is, or the last that begins."""
        if address in self.blocks:
            return self.blocks[address]
        place = bisect.bisect_right(self._starts, address)
        near = [self.blocks[start] for start in self._starts[max(place - 8, 0):place][::-1]]
        found = [block for block in near if address < block.end]
        return next((block for block in found if block.end - address in (2, 4)), found[0] if found else None)


def with_edges(report: Report, path: str) -> Report:
    """The report with the edges of a file. What leads to code that is in no block is left out, and that is said."""
    known, missing = known_edges(path), set()
    _split(report, {edge.to for edge in known})
    places = Places(report)
    entries = {function.entry for function in report.functions}
    added: Set[Edge] = set()
    for one in known:
        block = places.of(one.source)
        if block is None or one.to not in report.blocks:
            missing.add(one.to if block is not None else one.source)
            continue
        added.add(Edge(block.start, one.to, one.kind or _kind(block, one.to, entries)))
    if missing:
        some = ", ".join(f"{place:x}" for place in sorted(missing)[:4]) + (", .." if len(missing) > 4 else "")
        what = f"{len(missing)} places are in no block, and edges to or from them are left out"
        print(f"{path}: {what}: {some}", file=sys.stderr)
    called = {edge.to for edge in added if edge.kind in ("call", GUESS)}
    return rebuilt(report, added | set(report.edges), called)


def _kind(block: Block, to: int, entries: Set[int]) -> str:
    if block.kind in ("call", "icall"):
        return "call"
    return "table" if block.kind in TABLE_KINDS else "tail" if to in entries else "jump"


def _split(report: Report, places: Set[int]) -> None:
    """Makes blocks begin at some addresses that are inside of others."""
    known = Places(report)
    for place in sorted(places):
        whole = known.of(place)
        if whole is None or whole.start == place:
            continue
        report.blocks[whole.start] = Block(whole.start, place, "fall")
        report.blocks[place] = Block(place, whole.end, whole.kind)
        report.edges_from[place] = [edge._replace(source=place) for edge in report.edges_from.pop(whole.start, [])]
        report.edges_from[whole.start] = [Edge(whole.start, place, "fall")]
        known.add(place)
    report.edges = [edge for edges in report.edges_from.values() for edge in edges]


def rebuilt(report: Report, edges: Iterable[Edge], called: Iterable[int] = ()) -> Report:
    """The report with these edges, and a function at each place that is called. Blocks that no function has any more are
    left out."""
    rank = {kind: place for place, kind in enumerate((*EDGE_KINDS, GUESS))}
    onward: Dict[int, List[Edge]] = {}
    for edge in sorted(edges, key=lambda edge: (edge.source, edge.to, rank[edge.kind])):
        onward.setdefault(edge.source, []).append(edge)
    names = {function.entry: function.name for function in report.functions}
    names.update({entry: None for entry in called if entry not in names})
    return _with_bodies(report, names, {entry: _body(entry, names, onward) for entry in names}, onward)


def _with_bodies(report: Report, names: Dict[int, Optional[bytes]], bodies: Dict[int, Set[int]], onward: Dict[int, List[Edge]]) -> Report:
    """A report with these functions, of the blocks that they have."""
    left = set().union(*bodies.values())
    new = Report(())
    new.entry, new.kind = report.entry, report.kind
    new.blocks = {start: block for start, block in sorted(report.blocks.items()) if start in left}
    new.edges_from = {start: [_named(edge, bodies) for edge in found] for start, found in onward.items() if start in left}
    new.edges = [edge for found in new.edges_from.values() for edge in found]
    returning = _returning(new)
    for entry, name in sorted(names.items()):
        new.functions.append(Function(entry, entry in returning, name, tuple(sorted(bodies[entry]))))
    return new


def folded(report: Report) -> Report:
    """The report without the functions whose names say that they may be none, unless one is called: their blocks belong to those that
    lead to them, or else to the function before them. So do the cases that a pointer gave, if a table of the same function leads
    to them."""
    called = {edge.to for edge in report.edges if edge.kind == "call"} | {report.entry}
    guesses = {function.entry for function in report.functions if is_guess(function.name, function.entry) and function.entry not in called}
    guesses |= _pointed_cases(report, guesses, called)
    names = {function.entry: function.name for function in report.functions if function.entry not in guesses}
    bodies = {entry: _body(entry, names, report.edges_from) for entry in names}
    reached, rising = set().union(*bodies.values()), sorted(names)
    for guess in sorted(guesses):
        if guess not in reached:
            holder = rising[max(bisect.bisect_right(rising, guess) - 1, 0)]
            bodies[holder] |= _body(guess, names, report.edges_from)
            reached |= bodies[holder]
    return _with_bodies(report, names, bodies, report.edges_from)


def _pointed_cases(report: Report, guesses: Set[int], called: Set[int]) -> Set[int]:
    """The functions that pointers gave and nothing calls, to which a table leads whose jump stands after the same other function."""
    found = {one.entry for one in report.functions if one.entry not in called and is_pointed(one.name)}
    found &= {edge.to for edge in report.edges if edge.kind == "table"}
    rising = sorted({function.entry for function in report.functions} - guesses - found)
    ways = [(edge.source, edge.to) for edge in report.edges if edge.kind == "table" and edge.to in found]
    return {to for source, to in ways if bisect.bisect_right(rising, source) == bisect.bisect_right(rising, to)}


def _named(edge: Edge, bodies: Dict[int, Set[int]]) -> Edge:
    """The edge, a jump as a tail call where it is one."""
    if edge.kind not in ("jump", "tail"):
        return edge
    return edge._replace(kind="tail" if edge.to in bodies and edge.source not in bodies[edge.to] else "jump")


def _body(entry: int, entries: Dict[int, Optional[bytes]], onward: Dict[int, List[Edge]]) -> Set[int]:
    found, left = {entry}, [entry]
    while left:
        for edge in onward.get(left.pop(), ()):
            if edge.kind not in ("call", GUESS) and edge.to not in found and edge.to not in entries:
                found.add(edge.to)
                left.append(edge.to)
    return found


def _returning(report: Report) -> Set[int]:
    """The blocks from which a block can be reached, by all edges but calls, with which a function may return."""
    back: Dict[int, List[int]] = {}
    for edge in report.edges:
        if edge.kind not in ("call", GUESS):
            back.setdefault(edge.to, []).append(edge.source)
    found: Set[int] = set()
    left = [block.start for block in report.blocks.values() if block.kind in LEAVES_FUNCTION]
    while left:
        start = left.pop()
        if start not in found:
            found.add(start)
            left += back.get(start, [])
    return found
