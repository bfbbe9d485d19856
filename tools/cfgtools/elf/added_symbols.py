"""Writes a copy of an ELF file with further function symbols, declared jump tables and declared functions that do not return, in
which nothing else changes.

The tables that grow, and the section headers, are written behind the end of the file; all that was there keeps its
place. So what is loaded, and where, stays as it was.
"""

from __future__ import annotations

import contextlib
import os
import shutil
import struct
import tempfile
from typing import Iterable, Iterator, List, NamedTuple, Optional, Sequence, Tuple

from cfgtools.elf import architecture, declared_tables, no_return
from cfgtools.elf.declared_tables import Additions
from cfgtools.elf.elf_file import ALLOC, PROGBITS, SECTION_SIZE, STRTAB, SYMBOL_SIZE, SYMTAB, Header, Memory
from cfgtools.reports.cfg_report import ReportError

LARGEST = 64 << 20
MOST_SECTIONS = 0xFF00
GLOBAL_FUNCTION = 0x12


class Entry(NamedTuple):
    """A function symbol to add."""

    address: int
    name: bytes
    size: int = 0


def with_symbols(elf: Memory, entries: Iterable[Entry], named: Optional[str] = None, tables: Optional[Additions] = None,
                 staying: Sequence[int] = ()) -> bytes:
    """The bytes of a file with function symbols added to its symbol table, or with a table of them where it has none; with
    attributes that name this architecture, if one is given; with declared jump tables; and with functions that are declared not
    to return."""
    copy = _Copy(elf)
    if tables is not None:
        _declare(copy, elf, tables)
    if staying:
        _declare_staying(copy, elf, staying)
    if named is not None:
        attributes = next((section.index for section in elf.sections if section.kind == architecture.KIND), None)
        if attributes is None:
            attributes = copy.new(architecture.NAME, architecture.KIND, 1, 0, 0)
        copy.put(attributes, architecture.section(named), 1)
    table = next((section for section in elf.sections if section.kind == SYMTAB), None)
    strings = copy.strings_of(table)
    symbols = elf.contents(table) if table else bytes(SYMBOL_SIZE)
    names = bytearray(elf.contents(strings) if strings else b"\0")
    if not names.endswith(b"\0"):
        names += b"\0"
    added = bytearray()
    for entry in sorted(entries):
        section = elf.code_at(entry.address)
        if section is None or section.index >= MOST_SECTIONS:
            raise ReportError(f"{elf.path}: {entry.address:x} is in no code section that a symbol can name")
        size = min(entry.size, section.end - entry.address)
        added += struct.pack("<IBBHQQ", len(names), GLOBAL_FUNCTION, 0, section.index, entry.address, size)
        names += entry.name + b"\0"
    strings_index = strings.index if strings else copy.new(b".strtab", STRTAB, 1, 0, 0)
    if table is None:
        # The first symbol is the one of no name; those behind it are seen everywhere.
        table_index = copy.new(b".symtab", SYMTAB, 8, SYMBOL_SIZE, 1)
    else:
        table_index = table.index
    copy.link(table_index, strings_index)
    copy.put(table_index, symbols + bytes(added), 8)
    copy.put(strings_index, bytes(names), 1)
    return copy.bytes()


def _declare(copy: "_Copy", elf: Memory, tables: Additions) -> None:
    """Adds records before those that the file has, since the first one of a jump counts, and the tables of some of them."""
    before = next((section for section in elf.sections if section.kind == declared_tables.KIND), None)
    index = before.index if before else copy.new(declared_tables.NAME, declared_tables.KIND, 8, 32, 0)
    copy.put(index, tables.records + (elf.contents(before) if before else b""), 8)
    if tables.copies:
        index = copy.new(declared_tables.COPIES, PROGBITS, 8, 8, 0, tables.address)
        copy.put(index, tables.copies, 8)


def _declare_staying(copy: "_Copy", elf: Memory, staying: Sequence[int]) -> None:
    """Adds functions that do not return to those that the file declares."""
    before = next((section for section in elf.sections if section.kind == no_return.KIND), None)
    index = before.index if before else copy.new(no_return.NAME, no_return.KIND, 8, 8, 0)
    whole = elf.contents(before)[:before.size // 8 * 8] if before else b""
    copy.put(index, whole + no_return.packed(staying), 8)


class _Copy:
    """A copy of a file whose section headers can be changed, and which grows at its end."""

    def __init__(self, elf: Memory) -> None:
        self._elf = elf
        at = elf.section_table
        count = len(elf.sections)
        self._headers = [bytearray(elf.data[at + i * SECTION_SIZE:at + (i + 1) * SECTION_SIZE]) for i in range(count)]
        self._tail = bytearray()
        self._new: List[Tuple[int, bytes]] = []

    def strings_of(self, table: "Header | None") -> "Header | None":
        """The table of names of a symbol table, where it can grow: one that is loaded cannot."""
        if table is None or table.link >= len(self._elf.sections):
            return None
        strings = self._elf.sections[table.link]
        return strings if strings.kind == STRTAB else None

    def new(self, name: bytes, kind: int, alignment: int, entry_size: int, info: int, address: Optional[int] = None) -> int:
        """A further section header, without contents: of data that can only be read, if it has an address."""
        flags = 0 if address is None else ALLOC
        header = bytearray(struct.pack("<IIQQQQIIQQ", 0, kind, flags, address or 0, 0, 0, 0, info, alignment, entry_size))
        self._headers.append(header)
        self._new.append((len(self._headers) - 1, name))
        return len(self._headers) - 1

    def link(self, index: int, to: int) -> None:
        struct.pack_into("<I", self._headers[index], 40, to)

    def put(self, index: int, contents: bytes, alignment: int) -> None:
        """Gives a section new contents, behind the end of the file."""
        flags, = struct.unpack_from("<Q", self._headers[index], 8)
        if flags & ALLOC and index < len(self._elf.sections):
            what = "table of symbols, of their names or of jump tables"
            raise ReportError(f"{self._elf.path}: its {what} is loaded, and cannot grow")
        struct.pack_into("<QQ", self._headers[index], 24, self._place(alignment), len(contents))
        self._tail += contents

    def bytes(self) -> bytes:
        """The whole copy."""
        names = self._elf.names_index
        if self._new and names < len(self._elf.sections) and self._elf.sections[names].kind == STRTAB:
            self._name_new(names)
        at = self._place(8)
        count = len(self._headers)
        if count >= MOST_SECTIONS:
            raise ReportError(f"{self._elf.path}: too many sections for another one")
        whole = bytearray(self._elf.data + self._tail + b"".join(self._headers))
        struct.pack_into("<Q", whole, 40, at)
        struct.pack_into("<HH", whole, 58, SECTION_SIZE, count)
        if len(whole) > LARGEST >= len(self._elf.data):
            raise ReportError(f"{self._elf.path}: with the symbols it has {len(whole)} bytes, more than the {LARGEST} that cfg reads")
        return bytes(whole)

    def _name_new(self, names: int) -> None:
        """Names the new sections, in the table of names of sections or in what has grown of it."""
        at, size = struct.unpack_from("<QQ", self._headers[names], 24)
        held = self._elf.data + bytes(self._tail)
        strings = bytearray(held[at:at + size])
        if not strings.endswith(b"\0"):
            strings += b"\0"
        for index, name in self._new:
            struct.pack_into("<I", self._headers[index], 0, len(strings))
            strings += name + b"\0"
        self.put(names, bytes(strings), 1)

    def _place(self, alignment: int) -> int:
        """The place at the end, from which on bytes can be written with an alignment."""
        self._tail += bytes(-(len(self._elf.data) + len(self._tail)) % alignment)
        return len(self._elf.data) + len(self._tail)


@contextlib.contextmanager
def written(path: str, like: str) -> Iterator["OutFile"]:
    """A file that takes its name only at the end: where something fails, none of it is left behind."""
    folder = os.path.dirname(os.path.abspath(path))
    handle, scratch = tempfile.mkstemp(prefix=".entries-", dir=folder)
    os.close(handle)
    try:
        out = OutFile(scratch)
        yield out
        shutil.copymode(like, scratch)
        os.replace(scratch, path)
    except BaseException:
        os.unlink(scratch)
        raise


class OutFile:
    """What is being written, under a name that it does not keep."""

    def __init__(self, path: str) -> None:
        self.path = path

    def write(self, data: bytes) -> None:
        with open(self.path, "wb") as file:
            file.write(data)
