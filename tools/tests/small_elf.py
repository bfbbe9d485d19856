"""Small ELF files with named sections, for tests, and a stand-in for `cfg` that reads them."""

from __future__ import annotations

import struct
from typing import List, NamedTuple, Sequence

import rows

PROGBITS, SYMTAB, STRTAB, RELA, NOBITS, INIT_ARRAY = 1, 2, 3, 4, 8, 14
WRITE, ALLOC, EXEC = 1, 2, 4
CODE = ALLOC | EXEC
CODE_AT, DATA_AT = 0x10000, 0x20000

STAND_IN = rows.TOOLS / "tests" / "stand_in.py"


class Part(NamedTuple):
    """A section."""

    name: str
    kind: int = PROGBITS
    flags: int = ALLOC
    address: int = 0
    data: bytes = b""
    link: int = 0
    entry_size: int = 0


def code(halves: Sequence[int], address: int = CODE_AT, name: str = ".text") -> Part:
    return Part(name, PROGBITS, CODE, address, struct.pack(f"<{len(halves)}H", *halves))


def symbols(first: int, names: Sequence[str], addresses: Sequence[int], section: int = 1) -> List[Part]:
    """A symbol table, which is section `first`, and the table of its names behind it."""
    strings, table = b"\0", bytes(24)
    for name, address in zip(names, addresses):
        table += struct.pack("<IBBHQQ", len(strings), 0x12, 0, section, address, 0)
        strings += name.encode() + b"\0"
    return [Part(".symtab", SYMTAB, 0, 0, table, first + 1, 24), Part(".strtab", STRTAB, 0, 0, strings)]


def file_of(parts: Sequence[Part], entry: int = CODE_AT, programs: bytes = b"") -> bytes:
    """A file with these sections behind the one of no kind, and a table of their names as the last one."""
    strings = b"\0"
    headers = [bytes(64)]
    body = programs
    for part in [*parts, Part(".shstrtab", STRTAB, 0)]:
        name = len(strings)
        strings += part.name.encode() + b"\0"
        data = strings if part.name == ".shstrtab" else part.data
        size = 8 if part.kind == NOBITS else len(data)
        body += bytes(-len(body) % 8)
        headers.append(struct.pack("<IIQQQQIIQQ", name, part.kind, part.flags, part.address, 64 + len(body), size, part.link, 1 if part.kind == SYMTAB else 0, 8, part.entry_size))
        body += b"" if part.kind == NOBITS else data
    body += bytes(-len(body) % 8)
    count = len(programs) // 56
    header = struct.pack("<4sBBBB8xHHIQQQIHHHHHH", b"\x7fELF", 2, 1, 1, 0, 2, 243, 1, entry, 64 if count else 0,
                         64 + len(body), 0, 64, 56 if count else 0, count, 64, len(headers), len(headers) - 1)
    return header + body + b"".join(headers)


def words(*numbers: int) -> bytes:
    """Words of eight bytes."""
    return struct.pack(f"<{len(numbers)}Q", *(number % 2**64 for number in numbers))
