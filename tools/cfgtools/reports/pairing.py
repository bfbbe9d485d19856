"""Which functions without a name of two reports are the same one, though it may have moved."""

from __future__ import annotations

from collections import Counter
from typing import Counter as Counts, Dict, Hashable, Iterator, List, Set, Tuple

from cfgtools.reports.cfg_report import Edge, Function, Report, function_name


def inside(function: Function, edge: Edge, numbers: Dict[int, int]) -> bool:
    """Whether an edge leads from a block of a function to another one of it."""
    return edge.kind != "call" and edge.to in numbers


class Side:
    """The functions of one report, with what is compared of them."""

    def __init__(self, report: Report) -> None:
        self.report = report
        self.functions = {function.entry: function for function in report.functions}
        self._shapes: Dict[int, Hashable] = {}

    def unnamed(self) -> List[int]:
        return [function.entry for function in self.report.functions if function.name is None]

    def ways(self, function: Function) -> Iterator[Edge]:
        for start in function.blocks:
            yield from self.report.edges_from.get(start, ())

    def outside(self, entry: int) -> List[Tuple[str, int]]:
        """The kinds of the edges that leave a function, in the order of its blocks, and where they lead."""
        function = self.functions[entry]
        numbers = {start: place for place, start in enumerate(function.blocks)}
        return [(edge.kind, edge.to) for edge in self.ways(function) if not inside(function, edge, numbers)]

    def shape(self, entry: int) -> Hashable:
        """How the blocks of a function end, how long they are and how they follow each other, wherever it stands and whatever
        it calls."""
        if entry not in self._shapes:
            function = self.functions[entry]
            numbers = {start: place for place, start in enumerate(function.blocks)}
            blocks: List[Tuple[str, int, Tuple]] = []
            for start in function.blocks:
                block = self.report.blocks.get(start)
                if block is None:
                    # (of a report without blocks)
                    blocks.append(("", start - entry, ()))
                    continue
                ways = [(edge.kind, numbers[edge.to] if inside(function, edge, numbers) else -1) for edge in self.report.edges_from.get(start, ())]
                blocks.append((block.kind, block.end - start, tuple(sorted(ways))))
            self._shapes[entry] = function.may_return, tuple(blocks)
        return self._shapes[entry]


class Pairing:
    """Pairs functions of two reports, of which those with a name are paired by it."""

    def __init__(self, old: Report, new: Report) -> None:
        self._old, self._new = Side(old), Side(new)
        # What is paired, from the new entry to the old one; of functions with a name too, if both reports have it once.
        self.pairs: Dict[int, int] = {}
        self._taken: Set[int] = set()
        before, after = dict(self._once(self._old)), dict(self._once(self._new))
        for name in before.keys() & after.keys():
            self._pair(before[name], after[name])
        self._left_old, self._left_new = self._old.unnamed(), self._new.unnamed()
        self._run()

    def _once(self, side: Side) -> Iterator[Tuple[bytes, int]]:
        times = Counter(function.name for function in side.report.functions)
        return ((one.name, one.entry) for one in side.report.functions if one.name is not None and times[one.name] == 1)

    def _pair(self, old: int, new: int) -> None:
        self.pairs[new] = old
        self._taken.add(old)

    def _run(self) -> None:
        for entry in self._left_new:
            if entry in self._old.functions and self._old.functions[entry].name is None and self._old.shape(entry) == self._new.shape(entry):
                self._pair(entry, entry)
        while self._by_callers() or self._by_shape():
            pass

    def _is_free(self, old: int, new: int) -> bool:
        return new not in self.pairs and old not in self._taken and self._new.functions[new].name is None and self._old.functions[old].name is None

    def _by_callers(self) -> bool:
        """Pairs what the same edges of two paired functions lead to, if it has the same shape."""
        count = len(self.pairs)
        for new, old in list(self.pairs.items()):
            ways, others = self._old.outside(old), self._new.outside(new)
            if [kind for kind, _ in ways] != [kind for kind, _ in others]:
                continue
            for (_, to), (_, other) in zip(ways, others):
                if to in self._old.functions and other in self._new.functions and self._is_free(to, other) and self._old.shape(to) == self._new.shape(other):
                    self._pair(to, other)
        return len(self.pairs) > count

    def _by_their_shape(self, side: Side, entries: List[int]) -> Dict[Hashable, List[int]]:
        found: Dict[Hashable, List[int]] = {}
        for entry in entries:
            found.setdefault(side.shape(entry), []).append(entry)
        return found

    def _by_shape(self) -> bool:
        """Pairs the functions of a shape that equally many are left of in both reports, in their order."""
        count = len(self.pairs)
        old = self._by_their_shape(self._old, [entry for entry in self._left_old if entry not in self._taken])
        new = self._by_their_shape(self._new, [entry for entry in self._left_new if entry not in self.pairs])
        for shape in old.keys() & new.keys():
            if len(old[shape]) == len(new[shape]):
                for one, other in zip(old[shape], new[shape]):
                    self._pair(one, other)
        return len(self.pairs) > count


def named_keys(report: Report) -> Dict[int, str]:
    """What functions with a name are matched by: the name, numbered if several have it."""
    seen: Counts[str] = Counter()
    found = {}
    for function in report.functions:
        if function.name is not None:
            name = function_name(function.entry, function.name)
            seen[name] += 1
            found[function.entry] = name if seen[name] == 1 else f"{name} (the {seen[name]}. of this name)"
    return found


def keys(old: Report, new: Report) -> Tuple[Dict[int, str], Dict[int, str]]:
    """What the functions of two reports are matched by. Those without a name that are paired have both entries. Of the others each
    has the name that the other report has at its entry, or its entry."""
    ours, theirs = named_keys(old), named_keys(new)
    names = dict(ours), dict(theirs)
    pairs = Pairing(old, new).pairs
    for after, before in pairs.items():
        if before not in ours and after not in theirs:
            ours[before] = theirs[after] = f"{before:x}" if before == after else f"{before:x}, now {after:x}"
    for report, found, other in ((old, ours, names[1]), (new, theirs, names[0])):
        used = set(found.values())
        for function in report.functions:
            name = other.get(function.entry)
            if function.entry not in found:
                found[function.entry] = name if name is not None and name not in used else f"{function.entry:x}"
    return ours, theirs
