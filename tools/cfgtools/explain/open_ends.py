"""The blocks of a report whose successors are unknown, each with why, and what would help: in words, those of `tools/unresolved`."""

from __future__ import annotations

from typing import Dict, List, Optional

from cfgtools.elf.elf_file import Elf, Symbol
from cfgtools.explain.lost import LostCode
from cfgtools.explain.reasons import MEANT, Reasons, Why, may_be_table
from cfgtools.explain.remedies import Remedies
from cfgtools.explain.tables import Tables
from cfgtools.explain.values import Code
from cfgtools.reports import names
from cfgtools.reports.cfg_report import Block, Report
from cfgtools.reports.progress import Progress


class OpenEnds:
    """The open ends of a report: `ends` has why, by the starts of blocks, without those that are meant."""

    # Without the file it is the kind of a block alone that tells.
    BY_KIND = ("unknown", "icall", "table-cut", "table-open", "branch-out")

    def __init__(self, elf: Elf, report: Report, code: Code) -> None:
        self._elf, self._report, self._code = elf, report, code
        self._lost = LostCode(elf, [(block.start, block.end) for block in report.blocks.values()])
        self._reasons = Reasons(code)
        self._remedies = Remedies(code, report, self._reasons.switches)
        self.ends: Dict[int, Why] = {}
        self._causes: Dict[Symbol, List[int]] = {}
        blocks = self._reasons.blocks()
        progress = Progress(lambda: f"{len(self.ends)} of {len(blocks)} open ends")
        for block in blocks:
            why = self._reasons.why(block)
            if why is not MEANT:
                self.ends[block.start] = why
            symbol = elf.owner(self._at(block))
            if symbol is not None and may_be_table(block, why):
                self._causes.setdefault(symbol, []).append(block.start)
            progress.step()

    def tables(self) -> Tables:
        """The jump tables, as the patterns find them."""
        return Tables(self._code)

    def _at(self, block: Block) -> int:
        """The address of the last instruction, or of what is none."""
        last = self._code.last(block)
        return last.address if last is not None else block.end - 2

    def text(self, block: Block) -> str:
        """Why the successors of a block are unknown, how much of its function is not reached, and what would help."""
        return f"{self.ends[block.start]}{self._known(block)}{self._missed(block)}{self._remedies.text(block)}"

    def _known(self, block: Block) -> str:
        """How many successors are known otherwise, by `--edges`."""
        ways = [edge for edge in self._report.edges_from.get(block.start, ()) if edge.kind not in ("after", "landing")]
        return f"; known otherwise: {len(ways)} successors" if block.kind in ("unknown", "icall") and ways else ""

    def _missed(self, block: Block) -> str:
        symbol: Optional[Symbol] = self._elf.owner(self._at(block))
        causes = self._causes.get(symbol, []) if symbol is not None else []
        lost = self._lost.of(symbol) if block.start in causes else None
        if lost is None:
            return ""
        others = len(causes) - 1
        whose = f", by this one or {others} others" if others > 1 else ", by this one or another" if others else ""
        return f"; not reached: {lost.share()} of {names.shown(lost.symbol.name)}{whose}"
