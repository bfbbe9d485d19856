"""Groups of a function's blocks, for pictures: chains, and what a block dominates. The page has the same, in `browse/groups.js`.

- A *chain*: a block with one way on, calls aside, joins the next one if that has one way in.
- A *group*: a block with all that it dominates, so with one way in. What lies behind a loop with one entry counts to the loop's
  first block, so that groups and loops nest.
- A *grid*: of a table that dominates many parts, those that are its cases, and those that several cases lead to.
"""

from __future__ import annotations

from typing import Dict, Iterator, List, NamedTuple, Optional, Set, Tuple

from cfgtools.reports.body import Body, Loop
from cfgtools.reports.cfg_report import Edge, Function, Report

# How many boxes are shown at first, what a grid counts as, how many parts make one, and what share of a function is a large part.
MOST_BOXES, GRID_COUNTS, LEAST_CASES, LARGE_PART = 60, 2, 12, 8


class Grid(NamedTuple):
    """The block of a table, the groups that are its cases, and those that several cases lead to."""

    table: int
    cases: Tuple[int, ...]
    shared: Tuple[int, ...]


class Groups:
    """The tree of the groups of a function: each is named by the first block of its chain."""

    def __init__(self, report: Report, function: Function) -> None:
        self.report, self.body = report, Body(report, function)
        self.entry = function.entry
        self.dominators = dict(self.body.dominators())
        self.loops = list(self.body.loops())
        self._tables = {start: {edge.to for edge in self._edges(start) if edge.kind == "table"} for start in self.body.blocks}
        self.head: Dict[int, int] = {}
        self.chains: Dict[int, List[int]] = {}
        self._chain()
        parts: Dict[int, int] = {}
        for head in self.chains:
            above = self.dominators.get(head)
            if above is not None:
                parts[above] = parts.get(above, 0) + 1
        self.grid_blocks = {start for start, count in parts.items() if self._tables[start] and count >= LEAST_CASES}
        self._counting = [loop for loop in self.loops if len(loop.entries) == 1 and not loop.blocks & self.grid_blocks]
        self.parent: Dict[int, Optional[int]] = {}
        self.children: Dict[int, List[int]] = {head: [] for head in self.chains}
        self._plant()
        self.size: Dict[int, int] = {}
        self._measure()

    def _edges(self, start: int) -> Iterator[Edge]:
        return (edge for edge in self.report.edges_from.get(start, ()) if edge.kind != "call")

    def _chain(self) -> None:
        """Joins blocks. What the entry does not lead to begins a chain of its own."""
        inside, joined = set(self.body.blocks), set()
        following: Dict[int, int] = {}
        for start in self.body.blocks:
            ways = self.body.onward[start]
            leaves = any(edge.to not in inside for edge in self._edges(start))
            to = ways[0] if len(ways) == 1 and not leaves else None
            if to is not None and to not in (start, self.entry) and to in self.dominators and len(self.body.back[to]) == 1:
                following[start] = to
                joined.add(to)
        for start in self.body.blocks:
            if start not in joined:
                self.chains[start] = chain = [start]
                while chain[-1] in following:
                    chain.append(following[chain[-1]])
                self.head.update((one, start) for one in chain)

    def _innermost(self) -> Dict[int, List[Loop]]:
        """The loops that count, of each block, the innermost last."""
        found: Dict[int, List[Loop]] = {}
        for loop in self._counting:
            for start in loop.blocks:
                found.setdefault(start, []).append(loop)
        return found

    def _plant(self) -> None:
        """Each chain hangs below the block that dominates it; one that lies behind a loop, below the loop's first block."""
        around = self._innermost()
        for head in self.chains:
            at = self.dominators.get(head)
            if at is None:
                at = None if head == self.entry else self.entry
            loops: List[Loop] = around.get(at, []) if at is not None else []
            for loop in reversed(loops):
                if head in loop.blocks:
                    break
                at = next(iter(loop.entries))
            above = None if at is None else self.head[at]
            self.parent[head] = above
            if above is not None:
                self.children[above].append(head)

    def _measure(self) -> None:
        heads, left = [], [self.entry]
        while left:
            heads.append(left.pop())
            left += self.children[heads[-1]]
        for head in reversed(heads):
            self.size[head] = len(self.chains[head]) + sum(self.size[child] for child in self.children[head])

    def grid(self, head: int) -> Optional[Grid]:
        """The grid of a chain that ends with a table of many cases, in the order of addresses."""
        table = self.chains[head][-1]
        if table not in self.grid_blocks:
            return None
        cases = tuple(child for child in self.children[head] if child in self._tables[table])
        return Grid(table, cases, tuple(child for child in self.children[head] if child not in self._tables[table]))

    def blocks_of(self, head: int) -> List[int]:
        """The blocks of a group, rising."""
        found, left = [], [head]
        while left:
            one = left.pop()
            found += self.chains[one]
            left += self.children[one]
        return sorted(found)

    def open_at_first(self) -> Set[int]:
        """The groups that are open at first: always the largest, up to so many boxes."""
        top = self.entry
        found, closed, count = {top}, [top], 1
        while closed:
            head = max(closed, key=lambda one: (self.size[one], -one))
            closed.remove(head)
            if head not in found and count + self._cost(head) > MOST_BOXES:
                continue
            found.add(head)
            count += self._cost(head)
            apart = self._apart(head)
            closed += [child for child in apart if self.children[child]]
            if self.grid(head) is not None:
                found.update(apart)
        return found

    def _apart(self, head: int) -> List[int]:
        """The groups below a chain that are boxes of their own when it is open: of a grid the large ones alone."""
        children = self.children[head]
        return children if self.grid(head) is None else [child for child in children if self.size[child] * LARGE_PART > self.size[self.entry]]

    def _cost(self, head: int) -> int:
        grid = self.grid(head)
        return len(self._apart(head)) + (GRID_COUNTS * (bool(grid.cases) + bool(grid.shared)) if grid else 0)


class Item(NamedTuple):
    """A box of a picture: a chain, a closed group, or a grid of groups, `tiles`, by their first blocks."""

    kind: str
    head: int
    blocks: Tuple[int, ...]
    tiles: Tuple[int, ...] = ()


def items(groups: Groups) -> List[Item]:
    """The boxes that are shown at first, each after the one that it hangs below."""
    found: List[Item] = []
    opened, left = groups.open_at_first(), [groups.entry]
    while left:
        head = left.pop()
        children = groups.children[head]
        if children and head not in opened:
            found.append(Item("group", head, tuple(groups.blocks_of(head))))
            continue
        found.append(Item("box", head, tuple(groups.chains[head])))
        grid = groups.grid(head)
        for tiles in (grid.cases, grid.shared) if grid else ():
            closed = tuple(tile for tile in tiles if tile not in opened)
            if closed:
                found.append(Item("grid", closed[0], tuple(start for tile in closed for start in groups.blocks_of(tile)), closed))
        left += reversed([child for child in children if grid is None or child in opened])
    return found
