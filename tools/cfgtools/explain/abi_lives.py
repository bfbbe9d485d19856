"""Live registers by the RISC-V psABI's rules at calls and returns, beside the paths through a function's blocks. That a program
keeps these rules is an assumption: nothing proves it, and code in assembly often does not.

- A call reads the arguments, a0 to a7, and t2, which may have the static chain. After it the other registers that callees may
  change are undefined, and those that callees keep are read if they are read after it, or at its landing pad.
- A return reads a0 and a1 and what callees keep. A jump to another function reads what a call reads, what callees keep, and ra.
- sp, gp and tp are read by all of these. Where anything else leaves the function, where control may go on that the graph does not
  have, at ECALL, and at a routine that saves registers (a call through t0), all registers are read.
"""

from __future__ import annotations

from typing import Dict, Iterable, List

from cfgtools.explain.values import Code
from cfgtools.isa.instructions import Instruction
from cfgtools.isa.registers import EVERY
from cfgtools.reports.cfg_report import GUESS, Block, Function, Report

POINTERS = 1 << 2 | 1 << 3 | 1 << 4
ARGUMENTS = sum(1 << register for register in range(10, 18)) | 1 << 7
RESULTS = 1 << 10 | 1 << 11
KEPT = sum(1 << register for register in (8, 9, *range(18, 28)))
CALLED = ARGUMENTS | POINTERS
RETURNED = RESULTS | KEPT | POINTERS
TAIL = CALLED | KEPT | 1 << 1
# How a block ends after which only what the graph has can be read.
INSIDE = ("fall", "branch", "jump", "table")


class AbiLives:
    """The live registers of a file's functions, under the assumption."""

    def __init__(self, code: Code, report: Report) -> None:
        self._code, self._report = code, report

    def masks(self, function: Function) -> Dict[int, int]:
        """The registers that are live at each block of a function's body, as masks."""
        live = dict.fromkeys(function.blocks, 0)
        back: Dict[int, List[int]] = {}
        for start in function.blocks:
            for edge in self._report.edges_from.get(start, ()):
                if edge.kind not in ("call", GUESS) and edge.to in live:
                    back.setdefault(edge.to, []).append(start)
        left = set(function.blocks)
        while left:
            start = left.pop()
            found = self._before(self._report.blocks[start], live)
            if found != live[start]:
                live[start] = found
                left.update(back.get(start, ()))
        return live

    def _before(self, block: Block, live: Dict[int, int]) -> int:
        """What is live at a block, by what is live at those that it leads to."""
        instructions = self._code.of(block)
        if not instructions or instructions[-1].end != block.end:
            return EVERY
        found = self._after(block, instructions[-1], live)
        for one in reversed(instructions):
            found = EVERY if one.name == "ecall" else self._through(one, found)
        return found & EVERY

    def _through(self, one: Instruction, live: int) -> int:
        for register in (one.written, *one.others):
            if register is not None:
                live &= ~(1 << register)
        for register in one.read:
            live |= 1 << register
        return live

    def _after(self, block: Block, last: Instruction, live: Dict[int, int]) -> int:
        """What is read after the last instruction of a block."""
        ways = [edge for edge in self._report.edges_from.get(block.start, ()) if edge.kind not in ("call", GUESS)]
        onward = self._joined([edge.to for edge in ways], live)
        if block.kind in INSIDE:
            return onward
        if block.kind in ("call", "icall"):
            return EVERY if last.rd == 5 else CALLED | onward & KEPT
        if block.kind == "return":
            return RETURNED
        if block.kind == "unknown":
            return TAIL
        return 0 if block.kind == "stop" else EVERY

    def _joined(self, places: Iterable[int], live: Dict[int, int]) -> int:
        found = 0
        for place in places:
            found |= live.get(place, TAIL)
        return found
