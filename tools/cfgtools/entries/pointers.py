"""Addresses of code that a program keeps in its data, or makes in its code."""

from __future__ import annotations

import array
import sys
from typing import Dict, Iterable, Iterator, List, Set, Tuple

from cfgtools.elf.elf_file import FINI_ARRAY, INIT_ARRAY, PREINIT_ARRAY, PROGBITS, Header, Memory
from cfgtools.entries.reached import APART, Reached
from cfgtools.isa.decoding import CALLER_SAVED, LOAD_SIZES, STORES, Insn

ARRAYS = (PREINIT_ARRAY, INIT_ARRAY, FINI_ARRAY)
# Sections whose words are read as something else.
OTHER_FORMS = (b".eh_frame", b".eh_frame_hdr", b".gcc_except_table")
# The instructions with which an address begins, those that read or write memory, and those that may make an address.
FIRST, MEMORY = frozenset(("lui", "auipc")), frozenset((*LOAD_SIZES, *STORES))


def array_entries(elf: Memory) -> List[int]:
    """The functions that run before and after the program, as its arrays list them."""
    found: List[int] = []
    for section in elf.sections:
        if section.kind in ARRAYS or section.name in (b".preinit_array", b".init_array", b".fini_array", b".ctors", b".dtors"):
            words = (elf.word(at, 8) for at in range(section.address, section.end - 7, 8))
            found += [word for word in words if word is not None and word not in (0, 2**64 - 1)]
    return found


def words(elf: Memory, section: Header) -> Iterator[Tuple[int, int]]:
    """The aligned words of eight bytes of a section that are not zero, each with its address."""
    start = section.address + -section.address % 8
    at = section.offset + start - section.address
    count = max(0, section.end - start) // 8
    numbers = array.array("Q", elf.data[at:at + 8 * count])
    if sys.byteorder == "big":
        numbers.byteswap()
    for place, number in enumerate(numbers):
        if number:
            yield start + 8 * place, number


def pointers_in_data(elf: Memory) -> List[int]:
    """The addresses of code in words of data, each once, in the order in which they are found."""
    found: Dict[int, None] = {}
    low = elf.code[0].address if elf.code else 0
    high = elf.code[-1].end if elf.code else 0
    for section in elf.allocated:
        if section.kind in (PROGBITS, *ARRAYS) and not section.is_code and section.name not in OTHER_FORMS:
            held = list(words(elf, section))
            for place, (at, number) in enumerate(held):
                if low <= number < high and at not in elf.relocated and elf.is_code(number) and not _is_counted(held, place):
                    found[number] = None
    for number in [*elf.relocated.values(), *elf.resolvers.values()]:
        if elf.is_code(number):
            found[number] = None
    return list(found)


def _is_counted(held: List[Tuple[int, int]], place: int) -> bool:
    """Whether a word and the one before it or behind it differ by 2 at most, as numbers of a table do."""
    at, number = held[place]
    near = held[max(0, place - 1):place + 2]
    return any(abs(other_at - at) == 8 and 0 < abs(other - number) <= 2 for other_at, other in near)


class PointersInCode:
    """The addresses of code in words that stand in code sections."""

    def __init__(self, elf: Memory) -> None:
        held = (word for section in elf.code for word in words(elf, section))
        self._found = [(at, number) for at, number in held if number < 1 << 32 and elf.is_code(number)]

    def apart(self, reached: Reached) -> List[int]:
        """Those where nothing is reached, so that the words may be data."""
        found = (number for at, number in self._found if all(reached.state(part) == APART for part in range(at, at + 8, 2)))
        return list(dict.fromkeys(found))


class MadeAddresses:
    """The addresses of code that instructions make, but for those that they load from or store to."""

    def __init__(self, elf: Memory) -> None:
        self._elf = elf
        self.made: Dict[int, None] = {}
        self._has_begun = False
        self.data: Set[int] = set()

    def read(self, reached: Reached) -> None:
        """Reads the blocks that no report before has."""
        for block in reached.new if self._has_begun else reached.report.blocks.values():
            # (without such an instruction nothing is known of any register)
            if reached.makes(block):
                self.read_listed(reached.instructions(block))
        self._has_begun = True

    def read_listed(self, listed: Iterable[Tuple[int, Insn]]) -> None:
        """Reads instructions in the order of their addresses."""
        known: Dict[int, int] = {}
        behind = -1
        for at, insn in listed:
            name, length, _, rs1, _, imm = insn
            if known:
                if at != behind:
                    known.clear()
                elif rs1 in known and name in MEMORY:
                    self.data.add(known[rs1])
                    self.data.add(known[rs1] + imm)
                self._follow(at, insn, known)
            elif name in FIRST:
                self._follow(at, insn, known)
            behind = at + length

    def _follow(self, at: int, insn: Insn, known: Dict[int, int]) -> None:
        """What registers hold behind an instruction, where it makes an address."""
        name, rd = insn.name, insn.rd
        if name == "lui" or name == "auipc":
            known[rd] = (insn.imm if name == "lui" else at + insn.imm) % 2**64
        elif name == "addi" and insn.rs1 in known:
            known[rd] = (known[insn.rs1] + insn.imm) % 2**64
            if self._elf.is_code(known[rd]):
                self.made[known[rd]] = None
        elif name == "add" and insn.rs1 == 0 and insn.rs2 in known:
            known[rd] = known[insn.rs2]
        elif name in ("jal", "jalr") and rd:
            for register in CALLER_SAVED & known.keys():
                del known[register]
        else:
            known.pop(rd, None)


def is_text(elf: Memory, address: int) -> bool:
    """Whether the bytes at an address of code read as a text that a zero byte ends."""
    section = elf.code_at(address)
    if section is None:
        return False
    at = section.offset + address - section.address
    data = elf.data[at:min(at + 64, section.offset + section.size)]
    text = data.split(b"\0")[0]
    return 2 <= len(text) < len(data) and all(0x20 <= byte < 0x7F or byte in b"\t\n\r\x1b" for byte in text)
