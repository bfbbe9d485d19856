"""The jump tables that a file declares, in sections of a type of their own, as docs/REPORT.md defines them: how they are read,
which of them count, and how they are written.

A record says of one jump where its table stands and how many entries it has. The first record that names a jump is the
one that counts, if one does. The entries are read from the file's read-only data.
"""

from __future__ import annotations

import struct
from typing import Dict, Iterable, Iterator, List, NamedTuple, Optional, Tuple, Union

from cfgtools.elf.elf_file import ALLOC, PROGBITS, WRITE, Elf, File, Header, Memory, joined
from cfgtools.isa.decoding import decode

KIND, NAME, COPIES = 0x8CF60001, b".cfg.tables", b".cfg.targets"
MOST_ENTRIES = 65536
PAGE, TOP = 4096, 2**64
LOADED_SEGMENT = 1
_RECORD = struct.Struct("<QQQII")


class Record(NamedTuple):
    """What a file says of a jump: the address of the table, what is added to each entry, how many entries it has, and how many
    bytes each."""

    jump: int
    base: int
    added: int
    count: int  # type: ignore[assignment]
    size: int


class Wanted(NamedTuple):
    """A table to declare of a jump: where its entries lead; and the address, the size of an entry and what is added to each, if
    the file has a table that leads there."""

    jump: int
    targets: Tuple[int, ...]
    place: Optional[Tuple[int, int, int]] = None


class Additions(NamedTuple):
    """What a copy of a file gets: the bytes of records, and those of tables that stand in a section of their own, at an address."""

    records: bytes
    copies: bytes
    address: int


# ---- reading


def records(elf: File) -> Iterator[Record]:
    """All records of a file, section after section. What stands behind the last whole record of one is passed over."""
    for section in elf.headers:
        if section.kind == KIND:
            data = elf.data[section.offset:section.offset + section.size]
            yield from map(Record._make, _RECORD.iter_unpack(data[:len(data) // _RECORD.size * _RECORD.size]))


def first_records(elf: File) -> Dict[int, Record]:
    """The record of each jump that has one."""
    found: Dict[int, Record] = {}
    for record in records(elf):
        found.setdefault(record.jump, record)
    return found


class Declared:
    """The tables that a file declares, by the addresses of their jumps."""

    def __init__(self, elf: Union[Elf, Memory]) -> None:
        self._elf = elf
        self._read_only = [one for one in elf.headers if one.kind == PROGBITS and one.flags & (ALLOC | WRITE) == ALLOC and one.size]
        self._last: Optional[Header] = None
        self.records = first_records(elf)

    def is_of(self, jump: int) -> bool:
        """Whether the record of a jump gives a table, if the jump is one that may have one."""
        return jump in self.records and self.why_not(self.records[jump]) is None

    def targets(self, record: Record) -> Tuple[int, ...]:
        """Where the entries of a record lead that count; none, if the record does not count for what it says."""
        if record.size not in (4, 8) or record.base % record.size:
            return ()
        found: List[int] = []
        while len(found) < min(record.count, MOST_ENTRIES):
            target = self._target(record, len(found))
            if target is None or not self._elf.is_code(target):
                break
            found.append(target)
        return tuple(found)

    def why_not(self, record: Record) -> Optional[str]:
        """Why a record gives no table, whatever instruction it names."""
        if record.size not in (4, 8):
            return f"its entries have {record.size} bytes, and not 4 or 8"
        if record.base % record.size:
            return f"its address, {record.base:x}, is no multiple of {record.size}"
        if record.count == 0:
            return "it has no entries"
        target = self._target(record, 0)
        if target is None:
            return f"its first entry, at {record.base:x}, is no read-only data"
        return None if self._elf.is_code(target) else f"its first entry leads to {target:x}, where no code is"

    def _target(self, record: Record, number: int) -> Optional[int]:
        at = record.base + record.size * number
        parts = [self.word(at + part) for part in range(0, record.size, 4)]
        if at >= TOP or None in parts:
            return None
        entry = sum(word << 32 * place for place, word in enumerate(parts) if word is not None)
        if record.size == 4 and entry >> 31:
            entry -= 1 << 32
        return (entry + record.added) % TOP & ~1

    def word(self, at: int) -> Optional[int]:
        """The word at an address, of the first section of read-only data that has all of it."""
        section = self._last
        if section is None or len(self._read_only) > 1 and section is not self._read_only[0] or not _holds(section, at):
            section = self._last = next((one for one in self._read_only if _holds(one, at)), None)
        if section is None:
            return None
        place = section.offset + at - section.address
        data = self._elf.data[place:place + 4]
        return int.from_bytes(data, "little") if len(data) == 4 else None


def _holds(section: Header, at: int) -> bool:
    return section.address <= at and at + 4 <= section.end


def jump_register(elf: Memory, at: int) -> Optional[int]:
    """The register of a jump of which a table can be declared: a jump through it alone, which is no return, without an offset,
    and not paired with the four bytes before it."""
    word = elf.instruction(at)
    insn = decode(word, elf.extensions) if word is not None else None
    if insn is None or insn.name != "jalr" or insn.rd and not insn.is_stub or insn.imm or insn.rs1 in (0, 1, 5):
        return None
    here, before = elf.code_at(at), elf.code_at(at - 4)
    if here is not None and here == before:
        place = here.offset + at - 4 - here.address
        pair = int.from_bytes(elf.data[place:place + 4], "little")
        if pair & 0x7F in (0x17, 0x37) and pair >> 7 & 31 == insn.rs1:
            return None
    return insn.rs1


# ---- writing


class Declaring:
    """The tables that a copy of a file is to declare."""

    # How often a table may change, since what it leads to may change what is known of it.
    MOST_CHANGES = 8

    def __init__(self, elf: Memory) -> None:
        self._elf, self._declared = elf, Declared(elf)
        self.tables: Dict[int, Wanted] = {}
        self.sources: Dict[int, str] = {}
        self.changes = 0
        self._times: Dict[int, int] = {}

    def put(self, source: str, table: Wanted) -> bool:
        """Declares a table, in the place of what was declared of its jump. It answers whether that is something new."""
        table = table._replace(targets=table.targets[:MOST_ENTRIES])
        times = self._times.get(table.jump, 0)
        if not table.targets or self.tables.get(table.jump) == table or times >= self.MOST_CHANGES:
            return False
        self._times[table.jump] = times + 1
        self.tables[table.jump], self.sources[table.jump] = table, source
        self.changes += 1
        return True

    def record(self, table: Wanted) -> Optional[Record]:
        """The record of a table whose entries stand in the file's read-only data as they are wanted."""
        if table.place is None:
            return None
        base, size, added = table.place
        record = Record(table.jump, base, added, len(table.targets), size)
        return record if self._declared.targets(record) == table.targets else None

    def additions(self) -> Optional[Additions]:
        """What the copy gets, if it gets anything. Entries that are no read-only data are copied, as the addresses that they
        lead to; equal tables are copied once."""
        if not self.tables:
            return None
        found: List[Record] = []
        copied: Dict[Tuple[int, ...], List[int]] = {}
        for jump in sorted(self.tables):
            record = self.record(self.tables[jump])
            if record is None:
                copied.setdefault(self.tables[jump].targets, []).append(jump)
            else:
                found.append(record)
        copies = b"".join(struct.pack(f"<{len(targets)}Q", *targets) for targets in copied)
        address = at = free_address(self._elf, len(copies)) if copies else 0
        for targets, jumps in copied.items():
            found += [Record(jump, at, 0, len(targets), 8) for jump in jumps]
            at += 8 * len(targets)
        return Additions(packed(sorted(found)), copies, address)


def packed(found: Iterable[Record]) -> bytes:
    """The bytes of records."""
    return b"".join(_RECORD.pack(*record) for record in found)


def free_address(elf: Memory, size: int) -> int:
    """The address of a page from which on so many bytes share nothing with the file's memory: above it all, if there is room."""
    taken = joined([(one.address, one.end) for one in elf.sections if one.flags & ALLOC and one.size] + list(_segments(elf)))
    above = TOP
    for start, end in [*reversed(taken), (0, PAGE)]:
        at = -(-end // PAGE) * PAGE
        if at + size < above:
            return at
        above = min(above, start)
    return 0


def _segments(elf: Memory) -> Iterator[Tuple[int, int]]:
    """The ranges of memory that the file's segments take."""
    table, = struct.unpack_from("<Q", elf.data, 32)
    size, count = struct.unpack_from("<HH", elf.data, 54)
    for number in range(count if size >= 56 else 0):
        kind, start, length = struct.unpack_from("<I12xQ16xQ", elf.data, table + size * number)
        if kind == LOADED_SEGMENT and length:
            yield start, start + length
