"""Stubs: the entries of a procedure linkage table, which jump to an address that they load from a word of data (RISC-V
psABI, "Program Linkage Table"). In a static program they lead to indirect functions: when the program starts, a function
that the file names, the resolver, answers which address each word gets.
"""

from __future__ import annotations

from typing import Any, Dict, Iterator, NamedTuple, Optional, Protocol, Sequence

from cfgtools.isa.decoding import decode

# The type of the symbols of indirect functions.
INDIRECT = 10
# The bytes of `jalr t1, t3`.
LAST = bytes.fromhex("67030e00")
# How many bytes its instructions take.
STUB_SIZE = 12


class File(Protocol):
    """What is asked of a file: `elf_file.Memory` has it, which is not imported here, since that module asks for stubs."""

    data: bytes

    @property
    def code(self) -> Sequence[Any]:
        """The headers of its code sections."""

    @property
    def resolvers(self) -> Dict[int, int]:
        """The functions that answer which address is put into a word, by the word's address."""

    def functions(self, kind: int) -> Iterator[Any]:
        """The symbols of functions of a type."""

    def instruction(self, address: int) -> Optional[int]:
        """The instruction word at an address."""


class Stub(NamedTuple):
    """A stub: where it begins, its last instruction, the word that it loads, and what answers the address in it, with the name
    of the indirect function, as far as the file says it."""

    address: int
    jump: int
    slot: int
    resolver: Optional[int]
    name: Optional[bytes]

    @property
    def title(self) -> str:
        """What to call it in the names of entries."""
        return f"{self.address:x}" if self.name is None else self.name.decode("latin-1")


def stubs(elf: File) -> Iterator[Stub]:
    """The stubs of a file: `auipc t3; ld t3, ..(t3); jalr t1, t3`."""
    names = {one.address: one.name for one in elf.functions(INDIRECT) if one.name}
    for section in elf.code:
        data = elf.data[section.offset:section.offset + section.size]
        at = data.find(LAST)
        while at >= 0:
            jump = section.address + at
            slot = _slot(elf, jump) if at >= 8 and jump % 2 == 0 else None
            if slot is not None:
                resolver = elf.resolvers.get(slot)
                yield Stub(jump - 8, jump, slot, resolver, names.get(resolver) if resolver is not None else None)
            at = data.find(LAST, at + 2)


def _slot(elf: File, jump: int) -> Optional[int]:
    """The word that the two instructions before the end of a stub load."""
    upper, load = (decode(elf.instruction(jump - back) or 0) for back in (8, 4))
    if (upper.name, upper.rd) != ("auipc", 28) or (load.name, load.rd, load.rs1) != ("ld", 28, 28):
        return None
    return (jump - 8 + upper.imm + load.imm) % 2**64
