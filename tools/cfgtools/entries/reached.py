"""What of a file's code is in the blocks of a report, instruction by instruction, and whether further code fits it."""

from __future__ import annotations

import array
import functools
import re
import sys
from typing import Dict, Iterator, List, Optional, Set, Tuple

from cfgtools.elf import no_return
from cfgtools.elf.elf_file import Header, Memory
from cfgtools.isa.decoding import ENDS, UNKNOWN, Insn, decode
from cfgtools.reports.cfg_report import EDGE_KINDS, Block, Report
from cfgtools.reports.growing import Changes

APART, START, INSIDE = 0, 1, 2
# What the first two bytes of an instruction tell of it: whether it may have two more, and whether it may be LUI or AUIPC.
LONG, MAKES = 1, 2
MARKED = re.compile(rb"[^\0]")
LONGEST_TRIAL = 20_000
# How far back code is read to see whether an address begins a function, in half words.
FARTHEST = 2000
NO_INSN = Insn(UNKNOWN, 2)
# In the place of a word that its section has but half of: no instruction.
NOT_WHOLE = 0xFFFFFFFF
BRANCHES = frozenset(("beq", "bne", "blt", "bge", "bltu", "bgeu"))
# The instructions from which control does not simply go on.
TURNS = frozenset(("jal", "jalr", *BRANCHES, *ENDS))


class Halves:
    """The bytes of a code section, two by two, and what each two tell if an instruction begins with them."""

    def __init__(self, elf: Memory, section: Header) -> None:
        # (instructions stand at even addresses)
        skipped = section.address & 1
        size = max(section.size - skipped, 0) & ~1
        self.numbers = array.array("H", elf.data[section.offset + skipped:section.offset + skipped + size])
        if sys.byteorder == "big":
            self.numbers.byteswap()
        self.told = bytes(map(_TOLD.__getitem__, self.numbers))


def _told() -> bytes:
    """What each number of two bytes tells."""
    low = bytes(LONG | (MAKES if byte & 0x7F in (0x17, 0x37) else 0) if byte & 3 == 3 else 0 for byte in range(256))
    # (C.LUI has 3 in its highest bits, and 1 in its lowest)
    with_short = bytes(MAKES if byte & 3 == 1 else told for byte, told in enumerate(low))
    return b"".join(with_short if high >> 5 == 3 else low for high in range(256))


_TOLD = _told()


class Reached:
    """The instructions that are reached. More can be marked as reached than the report has. What an earlier one of the same file
    has read is not read again."""

    def __init__(self, elf: Memory, report: Report, before: "Optional[Reached]" = None, changes: Optional[Changes] = None) -> None:
        self.elf, self.report = elf, report
        self._names = elf.extensions
        # The functions that do not return.
        self.staying = {function.entry for function in report.functions if not function.may_return} | no_return.that_cfg_knows(elf)
        self._sure: Dict[int, bytearray] = before._sure if before else {one.index: bytearray(one.size // 2 + 1) for one in elf.code}
        self._halves: Dict[int, Halves] = before._halves if before else {one.index: Halves(elf, one) for one in elf.code}
        self._read: Dict[Tuple[int, int], List[Tuple[int, Insn]]] = before._read if before else {}
        self._insns: Dict[int, Insn] = before._insns if before else {}
        # The blocks that are marked, and whether an instruction of each may begin to make an address.
        self._makes: Dict[Tuple[int, int], bool] = before._makes if before else {}
        more = changes.blocks if before and changes else report.blocks.values()
        # The blocks that no earlier report has.
        self.new: List[Block] = [block for block in more if (block.start, block.end) not in self._makes]
        for block in self.new:
            self._makes[block.start, block.end] = self._mark_block(block)
        self._marks = {index: bytearray(marks) for index, marks in self._sure.items()}
        self._begun: Dict[int, Tuple[int, Optional[Tuple[int, Insn]]]] = before._begun if before else {}
        if before and changes and "ways_to" in before.__dict__:
            self.ways_to = _changed(before.ways_to, changes)

    @functools.cached_property
    def ways_to(self) -> Dict[int, List[Tuple[int, str]]]:
        """The ways to each block but for calls, in the order of the report: the blocks that they come from, and their kinds."""
        found: Dict[int, List[Tuple[int, str]]] = {}
        for edge in self.report.edges:
            if edge.kind != "call":
                found.setdefault(edge.to, []).append((edge.source, edge.kind))
        return found

    def makes(self, block: Block) -> bool:
        """Whether an instruction of a block may be one with which an address begins."""
        return self._makes[block.start, block.end]

    def instructions(self, block: Block) -> List[Tuple[int, Insn]]:
        """The instructions of a block, each with its address."""
        found = self._read.get((block.start, block.end))
        if found is None:
            found = self._read[block.start, block.end] = self._decoded(block)
        return found

    def _decoded(self, block: Block) -> List[Tuple[int, Insn]]:
        section = self.elf.code_at(block.start)
        if section is None:
            return []
        numbers, base, names, known = self._halves[section.index].numbers, section.address, self._names, self._insns
        at, found = block.start, []
        while at < block.end:
            insn = known.get(at)
            if insn is None:
                place = (at - base) >> 1
                if place + 1 < len(numbers):
                    word = numbers[place]
                    insn = known[at] = decode(word | numbers[place + 1] << 16 if word & 3 == 3 else word, names)
                else:
                    # (a block may go on in a section that stands right behind)
                    insn = self.insn(at)
            found.append((at, insn))
            at += insn.length
        return found

    def _mark_block(self, block: Block) -> bool:
        """Marks the instructions of a block, and answers whether one may begin to make an address. Their lengths are told by their
        first bytes, but for one that is not known, which ends a block."""
        section = self.elf.code_at(block.start)
        if section is None:
            return False
        if block.end > section.end:
            listed = self.instructions(block)
            self._mark_all(self._sure, listed)
            return any(insn.name in ("lui", "auipc") for _, insn in listed)
        marks, told, base = self._sure[section.index], self._halves[section.index].told, section.address
        place, end, seen = (block.start - base) >> 1, (block.end - base) >> 1, 0
        while place < end:
            marks[place] = START
            what = told[place]
            seen |= what
            if what & LONG:
                place += 1
                if place == end and self.insn(base + 2 * place - 2).length == 2:
                    break
                if not marks[place]:
                    marks[place] = INSIDE
            place += 1
        return bool(seen & MAKES)

    def state(self, address: int) -> int:
        """Whether a reached instruction starts at an address of code, or has it inside."""
        section = self.elf.code_at(address)
        return self._marks[section.index][(address - section.address) // 2] if section else APART

    def _mark_all(self, every: Dict[int, bytearray], listed: List[Tuple[int, Insn]]) -> None:
        base, end = 1, 0
        for at, insn in listed:
            if not base <= at < end:
                section = self.elf.code_at(at)
                if section is None:
                    continue
                marks, base, end = every[section.index], section.address, section.end
            place = (at - base) >> 1
            marks[place] = START
            if insn.length == 4 and not marks[place + 1]:
                marks[place + 1] = INSIDE

    def insn(self, address: int) -> Insn:
        """The instruction at an address."""
        found = self._insns.get(address)
        if found is None:
            word = self.elf.instruction(address)
            found = self._insns[address] = NO_INSN if word is None else decode(word, self._names)
        return found

    def overlaps(self, address: int) -> bool:
        """Whether an instruction at an address would share bytes with one that is reached and starts elsewhere."""
        state = self.state(address)
        return self._is_cut(address, self.insn(address)) if state == APART else state == INSIDE

    def is_padding(self, address: int, entries: Set[int]) -> bool:
        """Whether what stands at an address only fills the room up to the next entry: zeros, or what does nothing."""
        half = self.elf.half(address)
        if half in (0, 0xFFFF):
            return True
        if self.state(address) != APART:
            return False
        at = address
        while self.elf.instruction(at) in (0x0001, 0x00000013):
            at += self.insn(at).length
            if at in entries:
                return True
        return at != address and self.elf.half(at) in (None, 0)

    def trial(self, address: int) -> Optional[List[Tuple[int, Insn]]]:
        """The instructions that control may come to from an address and that are not reached yet, some thousands at the
        most; or None where they do not read as code: there is one that is not known, or they leave the code, or they
        get into the middle of one that is reached. What is called, and what stands behind a call, may be no code."""
        found: Dict[int, Insn] = {}
        left: List[Tuple[int, bool]] = [(address, False)]
        while left and len(found) < LONGEST_TRIAL:
            at, is_apart = left.pop()
            last = self._run(at, found)
            if last is None:
                continue
            at, insn = last
            if insn.name in BRANCHES:
                left += (at + insn.imm, is_apart), (at + insn.length, is_apart)
            elif insn.name != UNKNOWN:
                left += self._onward(at, insn, is_apart)
            elif not is_apart:
                return None
        return sorted(found.items())

    def _run(self, at: int, found: Dict[int, Insn]) -> Optional[Tuple[int, Insn]]:
        """Finds the instructions from an address on, up to the first from which control does not simply go on, and answers that
        one; none, if it comes to what is reached or found already. What shares bytes with another is not known, and not found."""
        section = self.elf.code_at(at)
        if section is None:
            return None if at in found else (at, NO_INSN)
        marks, base, end, known = self._marks[section.index], section.address, section.end - 2, self._insns
        numbers, names = self._halves[section.index].numbers, self._names
        while at not in found:
            if at > end:
                # (another section may stand right behind)
                return self._run(at, found) if self.elf.is_code(at) else (at, NO_INSN)
            place = (at - base) >> 1
            mark = marks[place]
            if mark == START:
                return None
            insn = known.get(at)
            if insn is None:
                word = numbers[place]
                if word & 3 == 3:
                    word = word | numbers[place + 1] << 16 if at < end else NOT_WHOLE
                insn = known[at] = decode(word, names)
            name, length, *_ = insn
            before = found.get(at - 2)
            if mark == INSIDE or before and before.length == 4 or length == 4 and marks[place + 1] == START or name == UNKNOWN:
                return at, NO_INSN
            found[at] = insn
            if name in TURNS:
                return at, insn
            at += length
        return None

    def _is_cut(self, at: int, insn: Insn) -> bool:
        """Whether an instruction at an address that is not reached shares its second half with one that is."""
        return insn.length == 4 and self.state(at + 2) == START

    def _onward(self, at: int, insn: Insn, is_apart: bool) -> Iterator[Tuple[int, bool]]:
        """Where control goes from an instruction that is no branch, and whether it comes there only by a call or behind one."""
        is_call = self.is_call(at, insn)
        if insn.name == "jal":
            yield at + insn.imm, is_apart or is_call
        if self.goes_on(at, insn):
            yield at + insn.length, is_apart or is_call

    def is_call(self, at: int, insn: Insn) -> bool:
        """Whether an instruction calls: what ends a stub does so where it is paired."""
        return insn.is_call or insn.is_stub and self._callee(at, insn) is not None

    def goes_on(self, at: int, insn: Insn) -> bool:
        """Whether control may go on to the instruction behind, if not at once, then after a call."""
        return insn.goes_on or insn.is_stub and self._callee(at, insn) is not None

    def begins(self, address: int) -> bool:
        """Whether a function may begin at an address: what stands before it, read from the last known instruction on, meets
        it, and does not run on into it. Behind a call, which may be one that never returns, it must make room on the stack."""
        section = self.elf.code_at(address)
        if section is None:
            return False
        if address == section.address or self.elf.half(address - 2) in (0, None):
            return True
        before = self._before(address)
        if before is None:
            return False
        at, insn = before
        if not self.goes_on(at, insn):
            return True
        if not self.is_call(at, insn):
            return False
        return self._callee(at, insn) in self.staying or self.makes_room(address)

    def _callee(self, at: int, insn: Insn) -> Optional[int]:
        """The address that an instruction calls, where it and the one before it tell."""
        if insn.name == "jal":
            return at + insn.imm
        upper = self.insn(at - 4)
        if upper.name == "auipc" and upper.rd == insn.rs1:
            return at - 4 + upper.imm + insn.imm
        return None

    def makes_room(self, address: int) -> bool:
        """Whether one of the first instructions at an address takes room on the stack."""
        for _ in range(4):
            insn = self.insn(address)
            if insn.name == "addi" and insn.rd == 2 and insn.rs1 == 2 and insn.imm < 0:
                return True
            if not insn.goes_on or insn.name in ("jal", "jalr"):
                return False
            address += insn.length
        return False

    def _before(self, address: int) -> Optional[Tuple[int, Insn]]:
        """The instruction that ends at an address, as code is read from the last known one on, and where it stands. What
        does nothing is passed over."""
        section = self.elf.code_at(address)
        assert section is not None
        marks, end = self._marks[section.index], (address - section.address) // 2
        farthest = max(0, end - FARTHEST)
        place = max(marks.rfind(START, farthest, end), farthest)
        known = self._begun.get(address)
        if known is None or known[0] != place:
            known = self._begun[address] = place, self._met(section.address + 2 * place, address)
        return known[1]

    def _met(self, at: int, address: int) -> Optional[Tuple[int, Insn]]:
        """The last instruction that does something of those from a place up to an address, if they end there."""
        last: Optional[Tuple[int, Insn]] = None
        known = self._insns
        while at < address:
            insn = known.get(at) or self.insn(at)
            name, length, rd, _, _, imm = insn
            if rd or imm or name != "addi":
                last = at, insn
            at += length
        return last if at == address else None

    def gaps(self) -> Iterator[Tuple[int, int]]:
        """The ranges of code in which nothing is reached. They may shrink while this goes on."""
        for section in self.elf.code:
            marks, place, end = self._marks[section.index], 0, section.size // 2
            while place < end:
                start = marks.find(APART, place, end)
                if start < 0:
                    break
                marked = MARKED.search(marks, start, end)
                place = marked.start() if marked else end
                yield section.address + 2 * start, section.address + 2 * place

    def keep(self, found: List[Tuple[int, Insn]]) -> None:
        """Marks instructions as reached."""
        self._mark_all(self._marks, found)


_ORDER = {kind: place for place, kind in enumerate(EDGE_KINDS)}


def _changed(ways: Dict[int, List[Tuple[int, str]]], changes: Changes) -> Dict[int, List[Tuple[int, str]]]:
    """The ways to each block, as `Reached.ways_to` has them, after changes."""
    for edge in changes.gone:
        if edge.kind != "call":
            ways[edge.to].remove((edge.source, edge.kind))
    more: Dict[int, List[Tuple[int, str]]] = {}
    for edge in changes.edges:
        if edge.kind != "call":
            more.setdefault(edge.to, []).append((edge.source, edge.kind))
    for to in more.keys() & ways.keys():
        ways[to] = sorted(ways[to] + more.pop(to), key=lambda way: (way[0], _ORDER[way[1]]))
    ways.update(more)
    return ways
