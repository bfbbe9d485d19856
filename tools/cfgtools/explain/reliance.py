"""At which blocks live registers are not to be relied on: those from which control comes to an instruction that is not decoded,
such as one of an extension that the file does not name, WFI, MRET, SRET or SFENCE.VMA, before it leaves the function.

Such an instruction ends its block with `stop`, behind which the report counts nothing as read, though the program goes on.
"""

from __future__ import annotations

from typing import Dict, FrozenSet, List, Set

from cfgtools.explain.staying import undecoded
from cfgtools.explain.values import Code
from cfgtools.reports.cfg_report import Function, Report

WHY = "an instruction that is not decoded is reached from them"
# How blocks end that count every register as read: what comes after them makes no difference.
_READS_ALL = ("return", "unknown", "call", "icall", "branch-out", "table-cut", "table-open")


class Reliance:
    """The graph of a file, asked for blocks whose live registers are not to be relied on."""

    def __init__(self, code: Code, report: Report) -> None:
        self._report = report
        self._cut = {block.start for block in report.blocks.values() if undecoded(code, block) is not None}

    def not_relied_on(self, function: Function) -> FrozenSet[int]:
        """The blocks of a function's body whose masks say too little."""
        found: Set[int] = self._cut.intersection(function.blocks)
        if not found:
            return frozenset()
        body = set(function.blocks)
        back: Dict[int, List[int]] = {}
        for start in function.blocks:
            edges = [edge for edge in self._report.edges_from.get(start, ()) if edge.kind != "call"]
            if self._report.blocks[start].kind not in _READS_ALL and all(edge.to in body for edge in edges):
                for edge in edges:
                    back.setdefault(edge.to, []).append(start)
        left = list(found)
        while left:
            for before in back.get(left.pop(), ()):
                if before not in found:
                    found.add(before)
                    left.append(before)
        return frozenset(found)
