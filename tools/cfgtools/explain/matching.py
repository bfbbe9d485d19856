"""Whether a report is one of an ELF file."""

from __future__ import annotations

from typing import Iterable, NoReturn, Optional

from cfgtools.elf.elf_file import Code, Elf
from cfgtools.reports.cfg_report import Block, ReportError

# The opcodes, of 32 bits, and the compressed instructions with which a block of each kind may end: the latter by what a
# mask leaves of them.
ENDS = {
    "branch": ({0x63}, ((0xE003, 0xC001), (0xE003, 0xE001))), "branch-out": ({0x63}, ((0xE003, 0xC001), (0xE003, 0xE001))),
    "jump": ({0x67, 0x6F}, ((0xE003, 0xA001), (0xF07F, 0x8002))), "call": ({0x67, 0x6F}, ((0xF07F, 0x9002),)),
    "icall": ({0x67, 0x6F}, ((0xF07F, 0x9002),)), "return": ({0x67}, ((0xF07F, 0x8002), (0xF07F, 0x9002))),
    **{kind: ({0x67}, ((0xF07F, 0x8002),)) for kind in ("table", "table-cut", "table-open")},
}


class Matching:
    """Looks at the parts of a report one by one, and raises `ReportError` where one does not fit the file."""

    def __init__(self, elf: Elf) -> None:
        self.elf = elf
        self._code: Optional[Code] = None

    def entry(self, entry: int) -> None:
        if entry != self.elf.entry:
            self._refuse(f"the report's entry is {entry:x}, and the file's {self.elf.entry:x}")

    def block(self, block: Block) -> None:
        """A block lies in code, and the last instruction is one with which such a block ends."""
        code = self._code
        if code is None or not (code.start <= block.start and block.end <= code.end):
            fitting = (one for one in self.elf.code if one.start <= block.start and block.end <= one.end)
            code = self._code = next(fitting, None)
        where = f"the block from {block.start:x} to {block.end:x} of the report"
        if code is None:
            self._refuse(f"{where} does not lie in its code")
        known = ENDS.get(block.kind)
        if known is None:
            return
        end = block.end - code.start
        half = code.data[end - 2] | code.data[end - 1] << 8
        if block.end - block.start >= 4 and code.data[end - 4] & 0x7F in known[0]:
            return
        if not any(half & mask == match for mask, match in known[1]):
            self._refuse(f"{where} ends with {block.kind}, and its code does not")

    def blocks(self, blocks: Iterable[Block]) -> None:
        for block in blocks:
            self.block(block)

    def _refuse(self, why: str) -> NoReturn:
        raise ReportError(f"this is no report of {self.elf.path}: {why}")
