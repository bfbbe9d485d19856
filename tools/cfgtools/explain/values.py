"""What registers hold at an instruction: which instructions have set them, along all ways of the graph, and constants."""

from __future__ import annotations

from typing import Callable, Dict, Iterator, List, NamedTuple, Optional, Set, Tuple

from cfgtools.elf.elf_file import Elf
from cfgtools.explain.unsure import Unsure
from cfgtools.isa.extensions import decode
from cfgtools.isa.instructions import ARGUMENTS, KEPT_BY_CALLS, Instruction, signed
from cfgtools.reports.cfg_report import GUESS, Block, Edge, Report

# How many blocks are looked at for one register, how many copies are followed, and how many may set one constant.
MOST_BLOCKS, FARTHEST, MOST_SETTERS = 3000, 24, 8


class Code:
    """The instructions of the blocks of a file."""

    def __init__(self, elf: Elf, report: Report) -> None:
        self.elf, self.report = elf, report
        self._known: Dict[int, List[Instruction]] = {}

    def of(self, block: Block) -> List[Instruction]:
        """The instructions of a block. What is none of RV64GC, or of an extension that the file names, ends them."""
        if block.start not in self._known:
            data = self.elf.bytes_at(block.start, block.end) or b""
            found: List[Instruction] = []
            at = 0
            while at < len(data):
                one = decode(data[at:at + 4], block.start + at, self.elf.extensions)
                if one is None:
                    break
                found.append(one)
                at += one.length
            self._known[block.start] = found
        return self._known[block.start]

    def last(self, block: Block) -> Optional[Instruction]:
        """The instruction that a block ends with."""
        found = self.of(block)
        return found[-1] if found and found[-1].end == block.end else None


def last_instruction(elf: Elf, block: Block) -> Tuple[int, int]:
    """The address and the length of a block's last instruction. By the reckoning of `cfg` what is not decoded has two bytes."""
    data = elf.bytes_at(block.start, block.end) or b""
    at = last = 0
    while at < len(data):
        last = at
        at += 4 if data[at] & 3 == 3 and at + 4 <= len(data) else 2
    return block.start + last, len(data) - last


class Place(NamedTuple):
    """Before the instruction of this number of a block."""

    block: int
    number: int


class Setter(NamedTuple):
    """What has set a register: an instruction; a call, which leaves it so, or has it as its result; or the caller."""

    kind: str
    place: Place
    instruction: Optional[Instruction] = None


CALLER = "caller"
CALL = "call"
INSTRUCTION = "instruction"


class Values:
    """What registers hold, by the graph of a report and the instructions of its file, along the edges that are sure."""

    def __init__(self, code: Code) -> None:
        self.code, self.report = code, code.report
        self.entries = {function.entry for function in self.report.functions}
        self._constants: Dict[Tuple[int, Place], Optional[int]] = {}
        self._before: Dict[int, List[Tuple[int, str]]] = {}
        for edge in self._counted():
            self._before.setdefault(edge.to, []).append((edge.source, edge.kind))

    def _counted(self) -> Iterator[Edge]:
        """The edges along which values come: those that are not sure are left out, and those that lead out of blocks to
        which only such lead, into others."""
        unsure = Unsure(self.code.elf).see_all(self.report.items())
        onward: Dict[int, List[Edge]] = {}
        for edge in self.report.edges:
            if edge.kind not in (CALL, GUESS) and not unsure.is_unsure(edge):
                onward.setdefault(edge.source, []).append(edge)
        sure, left = set(self.entries), list(self.entries)
        while left:
            for edge in onward.get(left.pop(), ()):
                if edge.to not in sure:
                    sure.add(edge.to)
                    left.append(edge.to)
        for edges in onward.values():
            yield from (edge for edge in edges if edge.source in sure or edge.to not in sure)

    def before(self, start: int, kind: str) -> List[int]:
        """The blocks from which an edge of a kind leads to a block."""
        return [source for source, found in self._before.get(start, []) if found == kind]

    def setters(self, register: int, place: Place) -> Optional[List[Setter]]:
        """All that may have set a register that is looked at before an instruction, or None where the ways are too many,
        or where one begins nowhere that the graph knows."""
        found: List[Setter] = []
        seen: Set[int] = set()
        left = [place]
        while left:
            at = left.pop()
            setter = self._in_block(register, at)
            if setter is not None:
                found.append(setter)
                continue
            if at.block in self.entries:
                found.append(Setter(CALLER, Place(at.block, 0)))
            before = self._before.get(at.block, [])
            if not before and at.block not in self.entries or len(seen) > MOST_BLOCKS:
                return None
            for source, kind in before:
                if source in seen or kind == "tail":
                    continue
                seen.add(source)
                left.append(Place(source, len(self.code.of(self.report.blocks[source]))))
        return found

    def _in_block(self, register: int, at: Place) -> Optional[Setter]:
        block = self.report.blocks[at.block]
        instructions = self.code.of(block)
        if at.number == len(instructions) and block.kind in ("call", "icall"):
            last = instructions[-1] if instructions else None
            # Behind x5 returns a routine that saves registers for a function, and keeps its arguments.
            is_kept = register in KEPT_BY_CALLS or last is not None and last.rd == 5 and register in ARGUMENTS
            if not is_kept:
                return Setter(CALL, Place(at.block, at.number), last)
        for number in range(at.number - 1, -1, -1):
            if register in (instructions[number].written, *instructions[number].others):
                return Setter(INSTRUCTION, Place(at.block, number), instructions[number])
        return None

    def setter(self, register: int, place: Place) -> Optional[Setter]:
        """The one thing that has set a register, copies passed over."""
        for _ in range(FARTHEST):
            found = self.setters(register, place)
            if found is None or len(found) != 1:
                return None
            only = found[0]
            copy = copied(only.instruction) if only.kind == INSTRUCTION and only.instruction else None
            if copy is None:
                return only
            register, place = copy, only.place
        return None

    def constant(self, register: int, place: Place) -> Optional[int]:
        """The number that a register holds, on whatever way, where instructions alone make it up."""
        if register == 0:
            return 0
        key = (register, place)
        if key not in self._constants:
            # What depends on itself, as what a loop counts, is none.
            self._constants[key] = None
            found = self.setters(register, place) or []
            values = {self.made(setter) for setter in found[:MOST_SETTERS]} if len(found) <= MOST_SETTERS else set()
            self._constants[key] = values.pop() if len(values) == 1 else None
        return self._constants[key]

    def made(self, setter: Setter) -> Optional[int]:
        """The number that an instruction leaves in the register that it sets, where instructions alone make it up."""
        one = setter.instruction
        if setter.kind != INSTRUCTION or one is None:
            return None
        if one.name in ("lui", "auipc"):
            return (one.immediate + (one.address if one.name == "auipc" else 0)) % 2**64
        act = _ACTS.get(one.name)
        if act is None:
            return None
        values = [self.constant(register, setter.place) for register in one.read]
        if any(value is None for value in values):
            return None
        operands = [value for value in values if value is not None]
        return act(*operands, *([one.immediate] if len(operands) == 1 else [])) % 2**64


def _word(value: int) -> int:
    return signed(value, 32)


def _low(value: int) -> int:
    return value & 0xFFFFFFFF


_ACTS: Dict[str, Callable[[int, int], int]] = {
    "addi": lambda a, b: a + b, "add": lambda a, b: a + b, "sub": lambda a, b: a - b, "slli": lambda a, b: a << b,
    "addiw": lambda a, b: _word(a + b), "addw": lambda a, b: _word(a + b), "slliw": lambda a, b: _word(a << b),
    "sh1add": lambda a, b: (a << 1) + b, "sh2add": lambda a, b: (a << 2) + b, "sh3add": lambda a, b: (a << 3) + b,
    "sh1add.uw": lambda a, b: (_low(a) << 1) + b, "sh2add.uw": lambda a, b: (_low(a) << 2) + b,
    "sh3add.uw": lambda a, b: (_low(a) << 3) + b, "add.uw": lambda a, b: _low(a) + b, "slli.uw": lambda a, b: _low(a) << b,
    "sext.b": lambda a, b: signed(a, 8), "sext.h": lambda a, b: signed(a, 16), "zext.h": lambda a, b: a & 0xFFFF,
    "ori": lambda a, b: a | b, "or": lambda a, b: a | b, "andi": lambda a, b: a & b, "srli": lambda a, b: a >> b,
}


def copied(one: Instruction) -> Optional[int]:
    """The register that an instruction copies."""
    if one.name == "addi" and one.immediate == 0 and one.rs1:
        return one.rs1
    if one.name == "add" and 0 in (one.rs1, one.rs2):
        return one.rs1 or one.rs2 or None
    return None
