"""Which edges are not sure: those of tables without a bound test that lead outside the function symbol that holds the jump.

Without the ELF file a symbol is taken to go up to the next function that has a name, or up to the next one where none
has. Names that `tools/add_entries` gives to what may lie inside a function do not count.
"""

from __future__ import annotations

import bisect
from typing import Dict, Iterable, List, Optional

from cfgtools.elf.elf_file import Elf
from cfgtools.reports.cfg_report import Block, Edge, Function, Item
from cfgtools.reports.guesses import ends_nothing


class Unsure:
    """Is shown the parts of a report in their order, and then tells of edges."""

    def __init__(self, elf: Optional[Elf] = None) -> None:
        self._elf = elf
        self._entries: List[int] = []
        self._named: List[int] = []
        self._jumps: Dict[int, int] = {}

    def see(self, item: Item) -> None:
        if isinstance(item, Function):
            self._entries.append(item.entry)
            if item.name is not None and not ends_nothing(item.name, item.entry):
                self._named.append(item.entry)
        elif isinstance(item, Block) and item.kind == "table-open":
            self._jumps[item.start] = item.end - 2

    def see_all(self, items: Iterable[Item]) -> "Unsure":
        for item in items:
            self.see(item)
        return self

    def _holder(self, address: int) -> Optional[int]:
        symbol = self._elf.owner(address) if self._elf else None
        if symbol is not None:
            return symbol.address
        entries = self._named or self._entries
        place = bisect.bisect_right(entries, address) - 1
        return entries[place] if place >= 0 else None

    def is_unsure(self, edge: Edge) -> bool:
        jump = self._jumps.get(edge.source) if edge.kind == "table" else None
        return jump is not None and self._holder(jump) != self._holder(edge.to)
