"""Where calls land that throw, by `.eh_frame` and the exception tables that it names, as docs/REPORT.md defines the pad of a call.

What is malformed says nothing, and is no fault of the file. All that is read here stands in the file; addresses are modulo 2^64.
"""

from __future__ import annotations

import bisect
from typing import Dict, Iterator, List, NamedTuple, Optional, Union

from cfgtools.elf.elf_file import ALLOC, PROGBITS, STRTAB, WRITE, Elf, Header, Memory

NAME = b".eh_frame"
OMITTED = 0xFF
# The formats of a number by the low four bits of its encoding: the size, and whether it has a sign.
FIXED = {0: (8, False), 2: (2, False), 3: (4, False), 4: (8, False), 0xA: (2, True), 0xB: (4, True), 0xC: (8, True)}
ULEB, SLEB = 1, 9
TOP = 2**64


class Silent(Exception):
    """What is being read says nothing."""


class Range(NamedTuple):
    """Code in which what a call throws lands at a pad: `length` bytes from `begin` on."""

    begin: int
    length: int
    pad: int


class Common(NamedTuple):
    """What frame records share: the encodings of code pointers and of table pointers."""

    code: int
    table: int


class _Bytes:
    """Bytes of a section, read from a place on, up to an end."""

    def __init__(self, data: bytes, address: int, at: int, end: int) -> None:
        self.data, self.address, self.at, self.end = data, address, at, end

    def take(self, count: int) -> bytes:
        if self.at + count > self.end:
            raise Silent
        self.at += count
        return self.data[self.at - count:self.at]

    def byte(self) -> int:
        return self.take(1)[0]

    def leb(self, signed: bool = False) -> int:
        value, shift = 0, 0
        while True:
            byte = self.byte()
            value |= (byte & 0x7F) << shift if shift < 70 else 0
            shift += 7
            if byte < 0x80:
                return value - (1 << shift) if signed and byte & 0x40 and shift < 70 else value

    def number(self, encoding: int) -> int:
        form = encoding & 0xF
        if form in (ULEB, SLEB):
            return self.leb(form == SLEB) % TOP
        if form not in FIXED:
            raise Silent
        size, signed = FIXED[form]
        return int.from_bytes(self.take(size), "little", signed=signed) % TOP

    def pointer(self, encoding: int) -> int:
        place = (self.address + self.at) % TOP
        value = self.number(encoding)
        if encoding >> 4 == 0:
            return value
        if encoding >> 4 != 1:
            raise Silent
        return (place + value) % TOP if value else 0


class Landings:
    """The ranges of a file, and the pad of a call by the address of its last byte."""

    def __init__(self, elf: Union[Elf, Memory]) -> None:
        self._elf = elf
        self._tables = [one for one in elf.headers if _is_read_only(one)]
        found: Dict[int, Range] = {}
        for one in self.ranges():
            found.setdefault(one.begin, one)
        self._begins = sorted(found)
        self._found = found

    def ranges(self) -> Iterator[Range]:
        """All ranges, by the order of sections, records and entries."""
        elf = self._elf
        names = elf.headers[elf.names_index] if elf.names_index < len(elf.headers) else None
        if names is None or names.kind != STRTAB:
            return
        for section in elf.headers:
            if _is_read_only(section) and section.name == NAME:
                yield from self._of_section(section)

    def pad_of(self, end: int) -> Optional[int]:
        """Where what a call throws lands that ends before an address, if it has a pad."""
        last = end - 1
        place = bisect.bisect_right(self._begins, last) - 1
        if place < 0:
            return None
        one = self._found[self._begins[place]]
        return one.pad if last - one.begin < one.length and self._elf.is_code(one.pad) else None

    # ---- frames

    def _of_section(self, section: Header) -> Iterator[Range]:
        data = self._elf.data[section.offset:section.offset + section.size]
        known: Dict[int, Optional[Common]] = {}
        at = 0
        while at + 4 <= len(data):
            end = at + 4 + int.from_bytes(data[at:at + 4], "little")
            if end > len(data):
                return
            yield from self._of_record(_Bytes(data, section.address, at + 4, end), known)
            at = end

    def _of_record(self, record: _Bytes, known: Dict[int, Optional[Common]]) -> List[Range]:
        try:
            place = record.at
            link = int.from_bytes(record.take(4), "little")
            if link == 0 or place < link:
                return []
            if place - link not in known:
                known[place - link] = _common(record.data, place - link)
            common = known[place - link]
            if common is None or common.table == OMITTED:
                return []
            start = record.pointer(common.code)
            record.number(common.code)
            record.leb()
            table = record.pointer(common.table)
        except Silent:
            return []
        return list(self._of_table(start, table)) if table else []

    def _of_table(self, start: int, table: int) -> Iterator[Range]:
        section = next((one for one in self._tables if one.address <= table < one.end), None)
        if section is None:
            return
        data = self._elf.data[section.offset:section.offset + section.size]
        try:
            read = _Bytes(data, section.address, table - section.address, len(data))
            first = read.byte()
            base = start if first == OMITTED else read.pointer(first)
            if read.byte() != OMITTED:
                read.leb()
            encoding = read.byte()
            size = read.leb()
            if encoding >> 4 or size > read.end - read.at:
                return
            read.end = read.at + size
            while read.at < read.end:
                begin, length, to = (read.number(encoding) for _ in range(3))
                read.leb()
                if to:
                    yield Range((start + begin) % TOP, length, (base + to) % TOP)
        except Silent:
            return


def _is_read_only(section: Header) -> bool:
    return section.kind == PROGBITS and section.flags & (ALLOC | WRITE) == ALLOC


def _common(data: bytes, at: int) -> Optional[Common]:
    """What the common record says that starts, with its length, at a place of a section; None if it says nothing."""
    if at < 0 or at + 4 > len(data):
        return None
    end = at + 4 + int.from_bytes(data[at:at + 4], "little")
    try:
        if end > len(data):
            raise Silent
        read = _Bytes(data, 0, at + 4, end)
        if int.from_bytes(read.take(4), "little"):
            raise Silent
        version = read.byte()
        letters = read.take(max(data.find(b"\0", read.at, end) + 1 - read.at, 1))
        if version not in (1, 3) or letters[:1] != b"z" or letters[-1:] != b"\0":
            raise Silent
        read.leb()
        read.leb()
        _ = read.byte() if version == 1 else read.leb()
        read.leb()
        return _augmented(read, letters[1:-1])
    except Silent:
        return None


def _augmented(read: _Bytes, letters: bytes) -> Common:
    code, table = 0, OMITTED
    for letter in letters:
        if letter == ord("R"):
            code = read.byte()
        elif letter == ord("L"):
            table = read.byte()
        elif letter == ord("P"):
            encoding = read.byte()
            if encoding != OMITTED:
                if encoding & 0x70 == 0x50:
                    raise Silent
                read.number(encoding)
        elif letter not in b"SBG":
            raise Silent
    return Common(code, table)
