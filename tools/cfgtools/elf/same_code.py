"""Code of two builds compared instruction by instruction, modulo addresses: where something stands may differ, what is named
or which section it is in may not."""

from __future__ import annotations

from typing import Dict, Hashable, Iterable, List, NamedTuple, Optional, Tuple

from cfgtools.elf.elf_file import Elf, Symbol
from cfgtools.isa.extensions import decode
from cfgtools.isa.instructions import Instruction

GLOBAL_POINTER = 3
PAGE = 0x1000


class Piece(NamedTuple):
    """An instruction, or two bytes that are none, as it is compared and as it is shown."""

    what: Hashable
    address: int
    length: int
    text: str


class Compared:
    """The code of one build, as it is compared."""

    def __init__(self, elf: Elf) -> None:
        self.elf = elf
        self._low = min((section.start for section in elf.sections if section.start), default=0)
        self._high = max((section.end for section in elf.sections), default=0)

    def pieces(self, ranges: Iterable[Tuple[int, int]], symbol: Optional[Symbol]) -> List[Piece]:
        """What stands in ranges of addresses. Places in the symbol are told relative to it."""
        found: List[Piece] = []
        for start, end in ranges:
            data = self.elf.bytes_at(start, end) or b""
            known: Dict[int, int] = {}
            at = 0
            while at < len(data):
                one = decode(data[at:at + 4], start + at, self.elf.extensions)
                if one is None:
                    found.append(Piece(data[at:at + 2], start + at, 2, f".2byte 0x{data[at:at + 2][::-1].hex()}"))
                    at += 2
                    continue
                found.append(Piece(self._what(one, known, symbol), one.address, one.length, one.text))
                at += one.length
        return found

    def _what(self, one: Instruction, known: Dict[int, int], symbol: Optional[Symbol]) -> Hashable:
        """What is compared of an instruction. `known` has the registers that hold an address which instructions make up."""
        registers = (one.name, one.rd if one.row.operands[:1] in "dD" else 0, one.read, one.length)
        base = known.get(one.rs1) if "s" in one.row.operands and "i" in one.row.operands else None
        is_far = one.name in ("auipc", "lui")
        value = one.immediate + (one.address if one.name == "auipc" else 0)
        for register in (one.written, *one.others, *one.unknown):
            known.pop(register or 0, None)
        if is_far and (one.name == "auipc" or self._low - PAGE <= value < self._high + PAGE):
            known[one.rd] = value
            return (*registers, "address")
        if one.is_branch or one.name == "jal":
            return (*registers, self._place(one.target, symbol))
        if base is not None:
            address = (base + one.immediate) % 2**64
            if one.name == "addi" and one.written is not None:
                known[one.written] = address
            return (*registers, self._place(address, symbol))
        if "s" in one.row.operands and one.rs1 == GLOBAL_POINTER:
            return (*registers, "of the global pointer")
        return (one.word, one.length)

    def _place(self, address: int, symbol: Optional[Symbol]) -> Hashable:
        """A place as it is compared: within the symbol, by its offset there; else by the function, or the section."""
        if symbol is not None and symbol.address <= address < symbol.end:
            return address - symbol.address
        section = self.elf.section(address)
        if section is None:
            return "nowhere"
        if section.name == ".got":
            goes_to = self.elf.number(address, 8)
            return ".got", self.elf.place(goes_to) if goes_to is not None and self.elf.is_code(goes_to) else ""
        return self.elf.place(address) if self.elf.is_code(address) and self.elf.owner(address) else section.name


def difference(old: List[Piece], new: List[Piece]) -> Optional[str]:
    """In what two pieces of code differ, or None."""
    pairs = [(one, other) for one, other in zip(old, new) if one.what != other.what]
    if not pairs and len(old) == len(new):
        return None
    where = ", first at {} and {}".format(*(f"{one.address:x} ({one.text})" for one in pairs[0])) if pairs else ""
    if len(old) != len(new):
        return f"{sum(one.length for one in old)} bytes became {sum(one.length for one in new)}{where}"
    return f"{sum(one.length for one, _ in pairs)} bytes differ{where}"
