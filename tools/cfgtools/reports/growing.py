"""Reports that `cfg` prints, one after the other, of a file to which entries are added: only the lines that are new are read."""

from __future__ import annotations

import io
import itertools
from typing import BinaryIO, Dict, List, NamedTuple, Optional, Tuple

from cfgtools.reports.cfg_report import BLOCK_KINDS, EDGE_KINDS, FIRST_LINE, WITH_LANDINGS, Block, Edge, End, Function, Heading, Report, load

_KIND = {kind.encode(): kind for kind in BLOCK_KINDS + EDGE_KINDS}
_RANK = {kind: rank for rank, kind in enumerate(EDGE_KINDS)}


class Changes(NamedTuple):
    """What a report has that the one before has not: blocks, rising, which may stand in earlier ones, and edges; and the edges
    that it has no more."""

    blocks: List[Block]
    edges: List[Edge]
    gone: List[Edge]


class Growing:
    """Reports that `cfg` prints, one after the other, of a file to which entries are added. Most lines of each stand in the one
    before: only the others are read. They are not checked, and functions have no bodies. `changes` are those of the last one,
    if they are known."""

    # How much of a line says where it stands: the start of a block, and that of the block from which an edge leads.
    _BLOCK_PLACE, _EDGE_PLACE = len("\nblock ") + 16, len("\nedge ") + 16

    def __init__(self) -> None:
        # The lines of the last report, each after the end of the one before, and what they say.
        self._texts = b"", b""
        self._blocks: Dict[int, Block] = {}
        self._edges_from: Dict[int, List[Edge]] = {}
        self.changes: Optional[Changes] = None

    def read(self, stream: BinaryIO) -> Report:
        """The next report, of kind graph. What it shares with the one before may change when the next one is read."""
        text = stream.read()
        places = text.find(b"\nblocks "), text.find(b"\nedges ")
        if not text.startswith((FIRST_LINE, WITH_LANDINGS)) or not text.endswith(b"\nend\n") or not 0 < places[0] < places[1]:
            # What is wrong with it is said as of any report.
            self.changes = None
            return load(io.BytesIO(text)).want("graph")
        report = Report([Heading(int(text[len(FIRST_LINE) + 6:len(FIRST_LINE) + 22], 16)), End("graph")])
        functions = text[:places[0]].split(b"\nfunction ")[1:]
        report.functions = [Function(int(lines[:16], 16), lines.startswith(b"may", 17), None, ()) for lines in functions]
        self._take(text[text.index(b"\n", places[0] + 1):places[1]], text[text.index(b"\n", places[1] + 1):-len("\nend\n")])
        report.blocks, report.edges_from = self._blocks, self._edges_from
        report.edges = list(itertools.chain.from_iterable(filter(None, map(self._edges_from.get, self._blocks))))
        return report

    def _take(self, blocks: bytes, edges: bytes) -> None:
        """Reads the lines that the report before has not, and tells its other ones from those of this one."""
        more_blocks, gone_blocks = differences(self._texts[0], blocks, self._BLOCK_PLACE)
        more_edges, gone_edges = differences(self._texts[1], edges, self._EDGE_PLACE)
        self._texts = blocks, edges
        found = [Block(int(line[6:22], 16), int(line[23:39], 16), _KIND[line[40:]]) for line in more_blocks]
        if more_blocks or gone_blocks:
            held = self._blocks.copy()
            for line in gone_blocks:
                del held[int(line[6:22], 16)]
            held.update((block.start, block) for block in found)
            self._blocks = dict(sorted(held.items()))
        self.changes = Changes(found, _edges(more_edges), _edges(gone_edges))
        self._take_edges(self.changes)

    def _take_edges(self, changes: Changes) -> None:
        held = self._edges_from
        for edge in changes.gone:
            held[edge.source].remove(edge)
        more: Dict[int, List[Edge]] = {}
        for edge in changes.edges:
            more.setdefault(edge.source, []).append(edge)
        for source in more.keys() & held.keys():
            held[source] = sorted(held[source] + more.pop(source), key=lambda edge: (edge.to, _RANK[edge.kind]))
        held.update(more)


def _edges(lines: List[bytes]) -> List[Edge]:
    return [Edge._make((int(line[5:21], 16), int(line[22:38], 16), _KIND[line[39:]])) for line in lines]


def differences(before: bytes, after: bytes, width: int) -> Tuple[List[bytes], List[bytes]]:
    """The lines that only the second of two texts has, and those that only the first one has. Each line stands after a line feed,
    and most are in both. The places of lines rise: their first `width` bytes, with the line feed. Several may have one place."""
    more: List[bytes] = []
    gone: List[bytes] = []
    at, to = 0, 0
    while True:
        same = _common(before, at, after, to)
        at, to = at + same, to + same
        if at == len(before) or to == len(after):
            break
        place = _place_of(before[at:at + width], after, to)
        if place > to:
            more += after[to + 1:place].split(b"\n")
            to = place
            continue
        end = before.find(b"\n", at + 1)
        gone.append(before[at + 1:] if end < 0 else before[at + 1:end])
        at = len(before) if end < 0 else end
        if place == to:
            end = after.find(b"\n", to + 1)
            more.append(after[to + 1:] if end < 0 else after[to + 1:end])
            to = len(after) if end < 0 else end
    more += after[to + 1:].split(b"\n") if to < len(after) else []
    gone += before[at + 1:].split(b"\n") if at < len(before) else []
    both = set(gone).intersection(more) if gone else ()
    return ([line for line in more if line not in both], [line for line in gone if line not in both]) if both else (more, gone)


def _place_of(line: bytes, text: bytes, at: int) -> int:
    """Where a line that begins so stands in a text, from the line at `at` on; or where a line before its place ends; or -1."""
    near = text[at:at + (1 << 14)]
    place = near.find(line)
    if place >= 0:
        return at + place
    if near[:len(line)] > line:
        return -1
    last = max(near.rfind(b"\n", 0, -len(line)), 0)
    if near[last:last + len(line)] > line:
        last = max(near.find(b"\n", 1), 0)
    return at + last if last else len(text)


def _common(before: bytes, at: int, after: bytes, to: int) -> int:
    """How many bytes two texts have in common from places on, as whole lines."""
    first, step = at, 1 << 8
    far = min(len(before) - at, len(after) - to)
    while at - first + step <= far and before[at:at + step] == after[to:to + step]:
        at, to, step = at + step, to + step, 2 * step
    while step:
        if at - first + step <= far and before[at:at + step] == after[to:to + step]:
            at, to = at + step, to + step
        step //= 2
    is_whole = before[at:at + 1] in (b"", b"\n") and after[to:to + 1] in (b"", b"\n")
    return at - first if is_whole else max(before.rfind(b"\n", first, at) - first, 0)
