"""The blocks of one function and the ways between them: dominators, loops and how they lie in each other."""

from __future__ import annotations

from typing import Dict, FrozenSet, Iterable, Iterator, List, NamedTuple, Optional, Set

from cfgtools.reports.cfg_report import GUESS, Function, Report


class Loop(NamedTuple):
    """A loop: the blocks at which it is entered, one unless it is irreducible; its blocks; how many loops it lies in."""

    entries: FrozenSet[int]
    blocks: FrozenSet[int]
    depth: int


class Body:
    """The graph of a function's blocks, by all edges within it but calls."""

    def __init__(self, report: Report, function: Function) -> None:
        self.entry = function.entry
        self.blocks = function.blocks
        inside = set(function.blocks)
        self.onward: Dict[int, List[int]] = {}
        self.back: Dict[int, List[int]] = {start: [] for start in function.blocks}
        for start in function.blocks:
            ways = {edge.to for edge in report.edges_from.get(start, []) if edge.kind not in ("call", GUESS) and edge.to in inside}
            self.onward[start] = sorted(ways)
            for to in self.onward[start]:
                self.back[to].append(start)

    def order(self) -> List[int]:
        """The blocks that are reached from the entry, each after all those that lead to it but by a way back."""
        found: List[int] = []
        seen, path = {self.entry}, [(self.entry, iter(self.onward[self.entry]))]
        while path:
            start, ways = path[-1]
            to = next((to for to in ways if to not in seen), None)
            if to is None:
                path.pop()
                found.append(start)
            else:
                seen.add(to)
                path.append((to, iter(self.onward[to])))
        return found[::-1]

    def dominators(self) -> Dict[int, int]:
        """The immediate dominator of each block but the entry: the last of those that every way to it leads through.
        The algorithm of Cooper, Harvey and Kennedy."""
        order = self.order()
        place = {start: number for number, start in enumerate(order)}
        found = {self.entry: self.entry}

        def common(one: int, other: int) -> int:
            while one != other:
                while place[one] > place[other]:
                    one = found[one]
                while place[other] > place[one]:
                    other = found[other]
            return one

        is_changed = True
        while is_changed:
            is_changed = False
            for start in order[1:]:
                before = [one for one in self.back[start] if one in found]
                new = before[0]
                for one in before[1:]:
                    new = common(new, one)
                if found.get(start) != new:
                    found[start], is_changed = new, True
        return {start: dominator for start, dominator in found.items() if start != self.entry}

    def loops(self) -> Iterator[Loop]:
        """The loops, each before those that lie in it: what is strongly connected; and within a loop, what still is when
        the blocks at which it is entered are left out."""
        return self._nest(self.blocks, 0)

    def _nest(self, blocks: Iterable[int], depth: int) -> Iterator[Loop]:
        for part in sorted(self._connected(set(blocks)), key=min):
            entries = frozenset(start for start in part if start == self.entry or set(self.back[start]) - part)
            yield Loop(entries, frozenset(part), depth)
            yield from self._nest(part - entries, depth + 1)

    def _connected(self, inside: Set[int]) -> Iterator[Set[int]]:
        """What is strongly connected in some blocks: Tarjan's algorithm."""
        number: Dict[int, int] = {}
        low: Dict[int, int] = {}
        stack: List[int] = []
        on_stack: Set[int] = set()
        for root in sorted(inside):
            if root in number:
                continue
            path = [(root, iter(self.onward[root]))]
            number[root] = low[root] = len(number)
            stack.append(root)
            on_stack.add(root)
            while path:
                start, ways = path[-1]
                to: Optional[int] = next((to for to in ways if to in inside and (to not in number or to in on_stack)), None)
                if to is None:
                    path.pop()
                    if path:
                        low[path[-1][0]] = min(low[path[-1][0]], low[start])
                    if low[start] == number[start]:
                        part = {stack.pop()}
                        while start not in part:
                            part.add(stack.pop())
                        on_stack -= part
                        if len(part) > 1 or start in self.onward[start]:
                            yield part
                elif to in number:
                    low[start] = min(low[start], number[to])
                else:
                    number[to] = low[to] = len(number)
                    stack.append(to)
                    on_stack.add(to)
                    path.append((to, iter(self.onward[to])))
