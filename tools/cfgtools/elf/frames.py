"""The frame descriptions of an ELF file, from `.eh_frame` and `.debug_frame` (LSB Core, "Exception Frames"; DWARF 5, section 6.4)."""

from __future__ import annotations

from typing import Dict, Iterator, List, NamedTuple, Optional

from cfgtools.elf.elf_file import NOBITS, Header, Memory
from cfgtools.reports.cfg_report import ReportError

OMITTED = 0xFF
ABSOLUTE, RELATIVE_TO_PLACE, RELATIVE_TO_TEXT, RELATIVE_TO_DATA, RELATIVE_TO_FUNCTION, ALIGNED = 0, 0x10, 0x20, 0x30, 0x40, 0x50
INDIRECT = 0x80
# The formats of a pointer by the low four bits of its encoding: the size, and whether it has a sign.
FIXED = {0: (8, False), 2: (2, False), 3: (4, False), 4: (8, False), 8: (8, True), 0xA: (2, True), 0xB: (4, True), 0xC: (8, True)}
ULEB, SLEB = 1, 9


class Frame(NamedTuple):
    """A frame description: the range of code."""

    start: int
    size: int


class Shared(NamedTuple):
    """What frame descriptions share (a common information entry)."""

    has_data: bool
    pointers: int
    language: int


class Broken(Exception):
    """Data that is not as its format says."""


class Reader:
    """Reads numbers from bytes that stand at an address."""

    def __init__(self, elf: Memory, data: bytes, address: int, at: int = 0, end: Optional[int] = None) -> None:
        self.elf, self.data, self.address = elf, data, address
        self.at, self.end = at, len(data) if end is None else end

    def take(self, count: int) -> bytes:
        if count < 0 or self.at + count > self.end:
            raise Broken(f"it ends within a field, at {self.address + self.at:x}")
        self.at += count
        return self.data[self.at - count:self.at]

    def number(self, size: int, signed: bool = False) -> int:
        return int.from_bytes(self.take(size), "little", signed=signed)

    def leb(self, signed: bool = False) -> int:
        value, shift = 0, 0
        while True:
            byte = self.number(1)
            value |= (byte & 0x7F) << shift
            shift += 7
            if byte < 0x80:
                break
            if shift > 70:
                raise Broken(f"a number of more than ten bytes, at {self.address + self.at:x}")
        return value - (1 << shift) if signed and value >> (shift - 1) & 1 else value

    def text(self) -> bytes:
        end = self.data.find(b"\0", self.at, self.end)
        if end < 0:
            raise Broken(f"a text without an end, at {self.address + self.at:x}")
        return self.take(end + 1 - self.at)[:-1]

    def value(self, encoding: int) -> int:
        """A number in the format of a pointer, with nothing added to it."""
        form = encoding & 0xF
        if form in (ULEB, SLEB):
            return self.leb(form == SLEB)
        if form not in FIXED:
            raise Broken(f"a pointer of the unknown encoding {encoding:#x}, at {self.address + self.at:x}")
        return self.number(*FIXED[form])

    def pointer(self, encoding: int, function: int = 0) -> Optional[int]:
        """An address in an encoding, or None where there is none: it is left out, or null."""
        if encoding == OMITTED:
            return None
        kind = encoding & 0x70
        if kind == ALIGNED:
            self.take(-(self.address + self.at) % 8)
            kind, encoding = ABSOLUTE, ABSOLUTE
        place = self.address + self.at
        value = self.value(encoding)
        if value == 0:
            return None
        value = (value + self._base(kind, place, function)) % 2**64
        if encoding & INDIRECT:
            return self.elf.word(value, 8)
        return value

    def _base(self, kind: int, place: int, function: int) -> int:
        if kind == ABSOLUTE:
            return 0
        if kind == RELATIVE_TO_PLACE:
            return place
        if kind == RELATIVE_TO_FUNCTION:
            return function
        name = {RELATIVE_TO_TEXT: ".text", RELATIVE_TO_DATA: ".got"}.get(kind)
        section = self.elf.section(name) if name else None
        if section is None:
            raise Broken(f"a pointer from a base that is not known, encoding {kind:#x}, at {place:x}")
        return section.address


class Frames:
    """Reads one section of frame descriptions."""

    def __init__(self, elf: Memory, section: Header, is_debugging: bool) -> None:
        self._elf, self._is_debugging = elf, is_debugging
        self._data, self._address = elf.contents(section), section.address
        self._shared: Dict[int, Shared] = {}

    def read(self) -> Iterator[Frame]:
        at = 0
        while at < len(self._data):
            reader = self._reader(at)
            length = reader.number(4)
            if length == 0:
                # Sections that were linked behind one another may each end so.
                at = reader.at
                continue
            wide = length == 0xFFFFFFFF
            if wide:
                length = reader.number(8)
            if reader.at + length > len(self._data):
                raise Broken(f"a record at {self._address + at:x} that goes past the end")
            reader.end = reader.at + length
            frame = self._record(reader, at, 8 if wide else 4)
            if frame is not None:
                yield frame
            at = reader.end

    def _reader(self, at: int) -> Reader:
        return Reader(self._elf, self._data, self._address, at)

    def _record(self, reader: Reader, at: int, width: int) -> Optional[Frame]:
        place = reader.at
        # The reference from a frame description has eight bytes in wide records of debugging data alone.
        name = reader.number(width if self._is_debugging else 4)
        if self._is_debugging:
            return None if name == (1 << 8 * width) - 1 else self._frame(reader, name)
        return None if name == 0 else self._frame(reader, place - name)

    def _frame(self, reader: Reader, shared_at: int) -> Optional[Frame]:
        shared = self._shared_at(shared_at)
        encoded = reader.pointer(shared.pointers)
        size = reader.value(shared.pointers & 0xF)
        return None if encoded is None else Frame(encoded, size)

    def _shared_at(self, at: int) -> Shared:
        if at not in self._shared:
            if not 0 <= at < len(self._data):
                raise Broken("a frame description whose common part is not in the section")
            self._shared[at] = self._read_shared(at)
        return self._shared[at]

    def _read_shared(self, at: int) -> Shared:
        reader = self._reader(at)
        length = reader.number(4)
        wide = length == 0xFFFFFFFF
        if wide:
            length = reader.number(8)
        if reader.at + length > len(self._data):
            raise Broken(f"a record at {self._address + at:x} that goes past the end")
        reader.end = reader.at + length
        width = 8 if wide and self._is_debugging else 4
        none = (1 << 8 * width) - 1 if self._is_debugging else 0
        if reader.number(width) != none:
            raise Broken(f"a frame description whose common part, at {self._address + at:x}, is none")
        version = reader.number(1)
        if version not in (1, 3, 4):
            raise Broken(f"a record of version {version}, at {self._address + at:x}")
        added = reader.text()
        if added == b"eh":
            reader.take(8)
        if version == 4 and self._is_debugging:
            if reader.number(1) != 8:
                raise Broken(f"addresses of another size than eight bytes, at {self._address + at:x}")
            reader.take(1)
        reader.leb()
        reader.leb(signed=True)
        reader.number(1) if version == 1 else reader.leb()
        return self._augmented(reader, added)

    def _augmented(self, reader: Reader, added: bytes) -> Shared:
        """What the letters of a record say of the pointers in those that share it."""
        pointers, language = ABSOLUTE, OMITTED
        if not added.startswith(b"z"):
            return Shared(False, pointers, language)
        reader.leb()
        for letter in added[1:].decode("latin-1"):
            if letter == "R":
                pointers = reader.number(1)
            elif letter == "L":
                language = reader.number(1)
            elif letter == "P":
                reader.pointer(reader.number(1))
            elif letter not in "SBG":
                # Of a letter that is not known nobody can say what stands behind it.
                break
        return Shared(True, pointers, language)


def frames(elf: Memory) -> List[Frame]:
    """All frame descriptions of a file, by their start."""
    found: Dict[int, Frame] = {}
    for name in (".eh_frame", ".debug_frame", ".zdebug_frame"):
        for section in elf.sections:
            if section.name == name.encode() and section.kind != NOBITS:
                try:
                    for frame in Frames(elf, section, name != ".eh_frame").read():
                        found.setdefault(frame.start, frame)
                except Broken as error:
                    raise ReportError(f"{elf.path}: {name} is broken: {error}") from None
    return [found[start] for start in sorted(found)]

