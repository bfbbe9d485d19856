"""Code that a graph does not reach, by the function symbols that it belongs to."""

from __future__ import annotations

import bisect
from typing import Dict, Iterable, List, NamedTuple, Optional, Tuple

from cfgtools.elf.elf_file import Elf, Symbol, gaps, joined, size_of

Range = Tuple[int, int]


class Lost(NamedTuple):
    """The bytes of one symbol's range that are in no block: by ranges, which rise."""

    symbol: Symbol
    ranges: Tuple[Range, ...]

    @property
    def size(self) -> int:
        return size_of(list(self.ranges))

    def share(self) -> str:
        return f"{self.size} of {self.symbol.size} bytes"


class LostCode:
    """All code that is not reached. What belongs to no symbol is in `outside`; each byte counts once."""

    def __init__(self, elf: Elf, reached: Iterable[Range]) -> None:
        self.elf = elf
        self.missed = gaps(elf.code, joined(list(reached)))
        self.size = size_of(self.missed)
        self._by_symbol: Dict[Symbol, List[Range]] = {}
        self._by_address: Dict[int, List[Range]] = {}
        self.outside: List[Range] = []
        starts = [start for start, _, _ in elf.owners]
        for start, end in self.missed:
            self._share_out(start, end, starts)
        found = (Lost(symbol, tuple(ranges)) for symbol, ranges in self._by_symbol.items())
        self.functions = sorted(found, key=lambda one: (-one.size, one.symbol.address))

    def _share_out(self, start: int, end: int, starts: List[int]) -> None:
        place = max(bisect.bisect_right(starts, start) - 1, 0)
        at = start
        while at < end:
            owner = self.elf.owners[place] if place < len(self.elf.owners) else (end, end, None)
            if owner[1] <= at:
                place += 1
                continue
            if at < owner[0]:
                self.outside.append((at, min(owner[0], end)))
            low, high = max(at, owner[0]), min(end, owner[1])
            if low < high and owner[2] is not None:
                ranges = self._by_symbol.setdefault(owner[2], [])
                self._by_address.setdefault(owner[2].address, ranges)
                ranges.append((low, high))
            at, place = max(high, min(owner[0], end)), place + 1

    def of(self, symbol: Optional[Symbol]) -> Optional[Lost]:
        """What is lost of a symbol, where anything is."""
        if symbol is None:
            return None
        ranges = self._by_address.get(symbol.address)
        return Lost(symbol, tuple(ranges)) if ranges else None

    def at(self, address: int) -> Optional[Lost]:
        """What is lost of the symbol in whose range an address lies."""
        return self.of(self.elf.owner(address))
