"""What a picture of one function needs, read from a report of any size, and the part of it around an address."""

from __future__ import annotations

import re
from collections import Counter
from typing import Counter as Counts, Dict, Iterable, List, NamedTuple, Optional, Set, Tuple

from cfgtools.elf.elf_file import Elf
from cfgtools.explain.lost import Lost, LostCode
from cfgtools.explain.unsure import Unsure
from cfgtools.reports import cfg_report
from cfgtools.reports.cfg_report import Block, Edge, End, Function, ReportError, function_name


class Whole(NamedTuple):
    """The blocks of a function and the edges from them, where a part of them alone is shown."""

    blocks: Dict[int, Block]
    edges: List[Edge]


class FunctionParts:
    """One function, and what is around it, as they are read from a report. It is wanted by its name, or by an address, of
    its entry or of any instruction in it."""

    def __init__(self, wanted: str, elf: Optional[Elf]) -> None:
        self.wanted, self.elf = wanted, elf
        self.named = elf.addresses_of if elf else None
        self.whole: Optional[Whole] = None
        self.functions: List[Function] = []
        self.names: Dict[int, str] = {}
        self.function: Optional[Function] = None
        self.body: Set[int] = set()
        self.blocks: Dict[int, Block] = {}
        self.edges: List[Edge] = []
        self.unsure = Unsure(elf)
        self._times: Counts[str] = Counter()
        # -1 where the function is not wanted by an address: no block begins at or before it.
        self._address = int(wanted, 16) if re.fullmatch(r"(0x)?[0-9a-fA-F]{1,16}", wanted) else -1
        self._near, self._holders = -1, []  # type: ignore[var-annotated]
        self._is_inside = False
        self._reached: List[Tuple[int, int]] = []

    def read(self, items: Iterable[cfg_report.Item]) -> "FunctionParts":
        for item in items:
            self.unsure.see(item)
            self._add(item)
        if self._is_inside and self.block_at(self._address) is None:
            raise ReportError(f"no function has the name or the address {self.wanted}, and no block has that address")
        return self

    def block_at(self, address: int) -> Optional[int]:
        """The start of the block that has an address, the last of several."""
        return max((start for start, block in self.blocks.items() if start <= address < block.end), default=None)

    def _add(self, item: cfg_report.Item) -> None:
        if isinstance(item, Function):
            self._add_function(item)
        elif isinstance(item, Block):
            if self.function is None:
                self._choose()
            self._reached.append((item.start, item.end))
            if item.start in self.body:
                self.blocks[item.start] = item
        elif isinstance(item, Edge) and item.source in self.body:
            self.edges.append(item)
        elif isinstance(item, End) and item.kind != "graph":
            raise ReportError(f"this is a report of kind {item.kind}, and one of kind graph is needed")

    def _add_function(self, function: Function) -> None:
        """Keeps a function; its blocks only where it may be the one that is wanted."""
        before = max((start for start in function.blocks if start <= self._address), default=-1)
        if before > self._near:
            self._near, self._holders = before, []
        if before == self._near and before >= 0:
            self._holders.append(function)
        self.functions.append(function if self._may_be(function) else function._replace(blocks=()))
        self.names[function.entry] = function_name(function.entry, function.name)
        self._times[self.names[function.entry]] += 1

    def _may_be(self, function: Function) -> bool:
        try:
            cfg_report.find_function([function], self.wanted, self.named)
            return True
        except ReportError:
            return False

    def _choose(self) -> None:
        if not self.functions:
            raise ReportError("this report has no functions, and one of kind graph is needed")
        try:
            function = cfg_report.find_function(self.functions, self.wanted, self.named)
        except ReportError:
            if not self._holders:
                raise
            # The function that begins nearest before the address, where several have the block.
            function = max(self._holders, key=lambda one: (one.entry <= self._address, one.entry))
            self._is_inside = True
        self.function, self.body = function, set(function.blocks)

    def lost(self) -> Optional[Lost]:
        """What is not reached of the function's symbol."""
        if self.elf is None or self.function is None:
            return None
        return LostCode(self.elf, self._reached).at(self.function.entry)

    def file_name(self, entry: int) -> str:
        """The name of the file, without its end, for the picture of a function: of other characters than letters, digits
        and a few, the hexadecimal number stands for them."""
        name = self.names.get(entry, f"{entry:x}")
        safe = re.sub(r"[^\w.+@-]", lambda found: "".join(f"={byte:02x}" for byte in found[0].encode()), name)[:120]
        return safe if self._times[name] < 2 else f"{safe}-{entry:x}"

    def keep_around(self, address: int, depth: int) -> None:
        """Keeps the blocks that are so many edges away at most, in either direction, from the block at an address."""
        start = self.block_at(address)
        if start is None:
            raise ReportError(f"no block of the function has the address {address:x}")
        beside: Dict[int, Set[int]] = {}
        for edge in self.edges:
            if edge.kind != "call" and edge.to in self.body:
                beside.setdefault(edge.source, set()).add(edge.to)
                beside.setdefault(edge.to, set()).add(edge.source)
        self.whole = Whole(self.blocks, self.edges)
        kept, layer = {start}, {start}
        for _ in range(depth):
            layer = {to for one in layer for to in beside.get(one, ())} - kept
            kept |= layer
        self.blocks = {one: block for one, block in self.blocks.items() if one in kept}
        self.edges = [edge for edge in self.edges if edge.source in kept or edge.to in kept and edge.kind != "call"]
