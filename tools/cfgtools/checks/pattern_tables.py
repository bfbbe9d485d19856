"""The jump tables of a file by the patterns of `cfgtools.elf.table_patterns`, with sections and places as binutils give them, for checks
from outside."""

from __future__ import annotations

import struct
from typing import Dict, Iterator, Optional, Tuple

from cfgtools.checks import binutils
from cfgtools.checks import listing as listings
from cfgtools.elf.table_patterns import Patterns, Table

# Of a declared table: the addresses of the jump and of the first entry, what is added, and how many entries of what size.
RECORD = struct.Struct("<QQQII")


class Tables(Patterns):
    """Finds the jump tables of a file."""

    def __init__(self, listing: "listings.Listing") -> None:
        super().__init__()
        self._listing, self.names = listing, listing.names
        with open(listing.path, "rb") as file:
            self._bytes = file.read()
        self._held: Dict[binutils.Section, Tuple[int, bytes]] = {}
        self._read_only = binutils.read_only_sections(listing.path)
        for jump, *record in self._all_records():
            self.records.setdefault(jump, (record[0], record[1], record[2], record[3]))

    def _all_records(self) -> Iterator[Tuple[int, ...]]:
        for section in binutils.declaring_sections(self._listing.path):
            data = self._bytes[section.offset:section.offset + len(section.places)]
            yield from RECORD.iter_unpack(data[:len(data) - len(data) % RECORD.size])

    def table(self, jump: int, register: str) -> Optional[Table]:
        """The table of a jump through a register alone, as objdump names it."""
        return self.table_of(jump, int(register[1:]))

    def everywhere(self) -> Dict[int, Table]:
        """All tables of the code, by the addresses of their jumps: a jump may stand at any even address, reached or not."""
        found: Dict[int, Table] = {}
        for section in self._listing.sections:
            places = range(section.places.start + section.places.start % 2, section.places.stop - 1, 2)
            data = self._bytes[section.offset + places.start - section.places.start:][:2 * len(places)]
            for at, (half,) in zip(places, struct.iter_unpack("<H", data)):
                register = self._register(at) if half & 0xF07F == 0x8002 or half & 0x707F == 0x67 else None
                table = self.table(at, register) if register else None
                if table is not None:
                    found[at] = table
        return found

    def _register(self, jump: int) -> Optional[str]:
        """The register through which the instruction at an address jumps to what is in it and to nothing else, if it is no return."""
        one = self._placed(jump, jump)
        if one is None or one.name != "jalr" or one.immediate or one.rs1 in (0, 1, 5):
            return None
        register = f"x{one.rs1}"
        paired = not listings.jumps(f"x{one.rd}", register) or self._listing.pair(jump, register, 0) is not None
        return None if paired else register

    def section_of(self, jump: int) -> Optional[Tuple[int, bytes]]:
        section = self._listing.section(jump)
        if section is None:
            return None
        if section not in self._held:
            self._held[section] = section.places.start, self._bytes[section.offset:section.offset + len(section.places)]
        return self._held[section]

    def word_at(self, at: int) -> Optional[int]:
        for section in self._read_only:
            if at in section.places and at + 3 in section.places:
                place = section.offset + at - section.places.start
                return int.from_bytes(self._bytes[place:place + 4], "little")
        return None

    def code_at(self, address: int) -> Optional[int]:
        return self._listing.code(address)
