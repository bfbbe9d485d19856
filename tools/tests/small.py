"""Small ELF files with several sections and symbols, and reports in the notation of rows.py."""

from __future__ import annotations

import struct
from typing import List, NamedTuple, Sequence, Tuple

import rows

CODE, READ_ONLY, WRITABLE = 6, 2, 3


class Part(NamedTuple):
    """A section: its name, the flags, its address and its bytes."""

    name: str
    flags: int
    address: int
    data: bytes


def code(*words: str) -> bytes:
    """Instructions, as words in hexadecimal digits; of four digits a compressed one."""
    return b"".join(bytes.fromhex(word)[::-1] for text in words for word in text.split())


def doublewords(*values: int) -> bytes:
    return struct.pack(f"<{len(values)}Q", *values)


def words(*values: int) -> bytes:
    return struct.pack(f"<{len(values)}i", *values)


def elf(parts: Sequence[Part], symbols: Sequence[Tuple[str, int, int]], entry: int = 0x10000) -> bytes:
    """A file with these sections, and function symbols by their names, addresses and sizes."""
    strings = b"\0" + b"".join(name.encode() + b"\0" for name, _, _ in symbols)
    titles = b"\0" + b"".join(part.name.encode() + b"\0" for part in parts)
    table = bytes(24)
    for name, address, size in symbols:
        number = next(place for place, part in enumerate(parts, 1) if part.address <= address < part.address + len(part.data))
        table += struct.pack("<IBBHQQ", strings.index(b"\0" + name.encode() + b"\0") + 1, 2, 0, number, address, size)
    chunks = [*(part.data for part in parts), table, strings, titles]
    places, at = [], 64
    for chunk in chunks:
        places.append(at)
        at += len(chunk)
    headers = [bytes(64)]

    def header(name: int, kind: int, flags: int, address: int, number: int, link: int, entry_size: int) -> bytes:
        return struct.pack("<IIQQQQIIQQ", name, kind, flags, address, places[number], len(chunks[number]), link, 0, 1, entry_size)

    for number, part in enumerate(parts):
        headers.append(header(titles.index(b"\0" + part.name.encode() + b"\0") + 1, 1, part.flags, part.address, number, 0, 0))
    count = len(parts)
    headers += [header(0, 2, 0, 0, count, count + 2, 24), header(0, 3, 0, 0, count + 1, 0, 0), header(0, 3, 0, 0, count + 2, 0, 0)]
    first = struct.pack("<4sBBBB8xHHIQQQIHHHHHH", b"\x7fELF", 2, 1, 1, 0, 2, 243, 1, entry, 0, at, 0, 64, 0, 0, 64, len(headers), count + 3)
    return first + b"".join(chunks) + b"".join(headers)


def report(functions: str, blocks: str, edges: str = "", entry: str = "10000") -> bytes:
    """A report of kind graph, in the notation of rows.py."""
    parts: List[List[str]] = list(rows.sections(rows.Row(functions, blocks, edges)))
    version = 3 if " landing" in edges else 2
    lines = [f"cfg-report {version}", f"entry {int(entry, 16):016x}", *(line for part in parts for line in part), "end"]
    return "".join(line + "\n" for line in lines).encode()
