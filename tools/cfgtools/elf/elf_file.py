"""ELF files, as the scripts of this folder look at them: `Elf` for places, names and bytes of a file that a report is of, and
`Memory` for what memory holds of a file that entries are added to."""

from __future__ import annotations

import bisect
import functools
import struct
import zlib
from typing import Dict, FrozenSet, Iterator, List, NamedTuple, Optional, Set, Tuple

from cfgtools.elf import architecture
from cfgtools.elf.stubs import STUB_SIZE, stubs
from cfgtools.reports import names
from cfgtools.reports.cfg_report import ReportError, name_field, read_name

PROGBITS, SYMTAB, STRTAB, RELA, NOBITS = 1, 2, 3, 4, 8
INIT_ARRAY, FINI_ARRAY, PREINIT_ARRAY = 14, 15, 16
WRITE, ALLOC, EXECINSTR, THREADS, COMPRESSED = 0x1, 0x2, 0x4, 0x400, 0x800
OBJECT, FUNC = 1, 2
RELRO_SEGMENT = 0x6474E552
# Relocations of a file that is loaded at its own addresses: what is put at the place is the addend, or the address of a
# function that answers it.
RELATIVE, IRELATIVE = 3, 58
HEADER_SIZE, SECTION_SIZE, SYMBOL_SIZE = 64, 64, 24


# ---- files


class Header(NamedTuple):
    """A section header, with its place in the table and its name."""

    index: int  # type: ignore[assignment]
    name: bytes
    kind: int
    flags: int
    address: int
    offset: int
    size: int
    link: int

    @property
    def end(self) -> int:
        return self.address + self.size

    @property
    def is_code(self) -> bool:
        return self.kind == PROGBITS and self.flags & (ALLOC | EXECINSTR) == ALLOC | EXECINSTR


class Function(NamedTuple):
    """A function symbol of a code section, by its bytes."""

    address: int
    size: int
    name: bytes
    section: int
    is_local: bool = False


class File:
    """An ELF-64 file for RISC-V: its bytes, its section headers and its function symbols."""

    def __init__(self, path: str) -> None:
        self.path = path
        with open(path, "rb") as file:
            self.data = file.read()
        if self.data[:6] != b"\x7fELF\x02\x01" or len(self.data) < HEADER_SIZE:
            raise ReportError(f"{path}: no ELF file of 64 bits, little-endian")
        try:
            self._read_headers()
            self._read()
        except (struct.error, IndexError, OverflowError):
            raise ReportError(f"{path}: a broken ELF file, whose tables do not lie in it") from None

    def _read_headers(self) -> None:
        self.entry, self.section_table = struct.unpack_from("<Q8xQ", self.data, 24)
        size, count, self.names_index = struct.unpack_from("<HHH", self.data, 58)
        places = range(self.section_table, self.section_table + size * count, size) if size >= SECTION_SIZE else ()
        raw = [struct.unpack_from("<IIQQQQI", self.data, place) for place in places]
        strings = b""
        if self.names_index < len(raw):
            strings = self.data[raw[self.names_index][4]:raw[self.names_index][4] + raw[self.names_index][5]]
        self.headers = [Header(index, _text(strings, one[0]), *one[1:]) for index, one in enumerate(raw)]

    def _read(self) -> None:
        """Reads what else is wanted of the file."""

    def contents(self, section: Header) -> bytes:
        """The bytes of a section, unpacked where they are packed."""
        data = b"" if section.kind == NOBITS else self.data[section.offset:section.offset + section.size]
        if not section.flags & COMPRESSED:
            return data
        try:
            kind, size = struct.unpack_from("<I4xQ", data)
            if kind != 1 or size > 1 << 30:
                raise ReportError(f"{self.path}: {section.name.decode('latin-1')} is packed in a way that is not read here")
            return zlib.decompress(data[24:])
        except (struct.error, zlib.error):
            raise ReportError(f"{self.path}: {section.name.decode('latin-1')} is packed, and broken") from None

    def functions(self, kind: int = FUNC) -> Iterator[Function]:
        """The function symbols that name code sections, in the order of the tables; or those of indirect functions, which
        stand at what chooses one."""
        for table in self.headers:
            if table.kind != SYMTAB:
                continue
            strings = self.contents(self.headers[table.link]) if table.link < len(self.headers) else b""
            data = self.contents(table)
            for at in range(0, len(data) - SYMBOL_SIZE + 1, SYMBOL_SIZE):
                name, info, _, section, value, size = struct.unpack_from("<IBBHQQ", data, at)
                if info % 16 == kind and 0 < section < len(self.headers) and self.headers[section].is_code:
                    yield Function(value, size, _text(strings, name), section, info >> 4 == 0)

    def objects(self) -> Iterator[Tuple[int, int, bytes]]:
        """The address, the size and the name of each symbol of an object, in the order of the tables."""
        for table in self.headers:
            if table.kind == SYMTAB:
                strings = self.contents(self.headers[table.link]) if table.link < len(self.headers) else b""
                data = self.contents(table)
                for at in range(0, len(data) - SYMBOL_SIZE + 1, SYMBOL_SIZE):
                    name, info, _, section, value, size = struct.unpack_from("<IBBHQQ", data, at)
                    if info % 16 == OBJECT and section:
                        yield value, size, _text(strings, name)

    @functools.cached_property
    def architecture(self) -> Optional[str]:
        """The text of the architecture that the file names in its attributes, where it does."""
        section = next((one for one in self.headers if one.kind == architecture.KIND), None)
        return architecture.text_of(self.data[section.offset:section.offset + section.size]) if section else None

    @functools.cached_property
    def extensions(self) -> FrozenSet[str]:
        """The extensions whose instructions are decoded, in lower case."""
        return architecture.names(self.architecture or "")

    @functools.cached_property
    def relocated(self) -> Dict[int, int]:
        """What relocations put into words of eight bytes when the file is loaded at its own addresses."""
        return {place: addend for place, kind, addend in self._relocations() if kind == RELATIVE}

    @functools.cached_property
    def resolvers(self) -> Dict[int, int]:
        """The functions that answer, when the file is loaded, which address is put into a word, by the word's address."""
        return {place: addend for place, kind, addend in self._relocations() if kind == IRELATIVE}

    def _relocations(self) -> Iterator[Tuple[int, int, int]]:
        """The place, the kind and the addend of each relocation that the program has in memory."""
        for section in self.headers:
            if section.kind == RELA and section.flags & ALLOC:
                data = self.data[section.offset:section.offset + section.size]
                for place, kind, addend in struct.iter_unpack("<QQQ", data[:len(data) // 24 * 24]):
                    yield place, kind, addend


def _text(strings: bytes, at: int) -> bytes:
    end = strings.find(b"\0", at)
    return strings[at:end] if at < end else b""


# ---- what memory holds


class Memory(File):
    """A file, and what memory holds of it when it is loaded at its own addresses."""

    code: List[Header]
    allocated: List[Header]
    # The section that was found last, most often the next one too: where it begins and ends, and its header.
    _last_code: Tuple[int, int, Optional[Header]]
    _starts: List[int]
    _relro: List[Tuple[int, int]]

    def section(self, *names: str) -> Optional[Header]:
        """The first section of one of these names."""
        wanted = [name.encode() for name in names]
        return next((section for section in self.sections if section.name in wanted), None)

    def symbols(self) -> Iterator[Function]:
        """The function symbols that stand at an address of the code section which they name, in the order of the table."""
        for one in self.functions():
            section = self.sections[one.section]
            if section.address <= one.address and one.address + 2 <= section.end:
                yield one

    def code_at(self, address: int) -> Optional[Header]:
        """The code section in which an instruction can stand at an address."""
        start, end, last = self._last_code
        if start <= address <= end - 2:
            return None if address % 2 else last
        place = bisect.bisect_right(self._code_starts, address) - 1
        if place < 0 or address % 2 or address + 2 > self.code[place].end:
            return None
        found = self.code[place]
        self._last_code = found.address, found.end, found
        return found

    def is_code(self, address: int) -> bool:
        """Whether an instruction can stand at an address."""
        return self.code_at(address) is not None

    def half(self, address: int) -> Optional[int]:
        """The two bytes of code at an address."""
        found = self.code_at(address)
        if found is None:
            return None
        at = found.offset + address - found.address
        return self.data[at] | self.data[at + 1] << 8

    def instruction(self, address: int) -> Optional[int]:
        """The instruction word at an address, of two bytes or of four."""
        start, end, found = self._last_code
        if found is not None and start <= address <= end - 4 and not address & 1:
            data, at = self.data, found.offset + address - start
            half = data[at] | data[at + 1] << 8
            return half if half & 3 != 3 else half | data[at + 2] << 16 | data[at + 3] << 24
        found = self.code_at(address)
        if found is None:
            return None
        at = found.offset + address - found.address
        half = self.data[at] | self.data[at + 1] << 8
        if half & 3 != 3:
            return half
        return half | self.data[at + 2] << 16 | self.data[at + 3] << 24 if address + 4 <= found.end else None

    def section_at(self, address: int, size: int = 1) -> Optional[Header]:
        """The section of memory that has all bytes from an address on."""
        place = bisect.bisect_right(self._starts, address) - 1
        # Sections lie apart in memory but for empty ones and those of threads, which are left out.
        if place < 0 or address + size > self.allocated[place].end:
            return None
        return self.allocated[place]

    def word(self, address: int, size: int, signed: bool = False) -> Optional[int]:
        """The number of so many bytes that memory holds at an address, where the file says it."""
        if size == 8 and address in self.relocated:
            return self.relocated[address]
        section = self.section_at(address, size)
        if section is None or section.kind == NOBITS:
            return None
        at = section.offset + address - section.address
        return int.from_bytes(self.data[at:at + size], "little", signed=signed)

    def is_read_only(self, address: int, size: int) -> bool:
        """Whether the running program cannot write to bytes, at least once it has been relocated."""
        section = self.section_at(address, size)
        if section is None:
            return False
        return not section.flags & WRITE or any(start <= address and address + size <= end for start, end in self._relro)

    def _read(self) -> None:
        self.sections = self.headers
        if not self.sections:
            raise ReportError(f"{self.path}: no section headers, so that nothing says where its code is")
        for one in self.sections:
            if one.kind not in (0, NOBITS) and one.offset + one.size > len(self.data):
                raise ReportError(f"{self.path}: section {one.index} does not lie in the file")
        self.code = sorted((one for one in self.sections if one.is_code and one.size), key=lambda one: one.address)
        self._code_starts = [one.address for one in self.code]
        self._last_code = (1, 0, None)
        self.allocated = sorted((one for one in self.sections if one.flags & ALLOC and one.size
                                 and not (one.flags & THREADS and one.kind == NOBITS)), key=lambda one: one.address)
        self._starts = [one.address for one in self.allocated]
        self._relro = [(one.address, one.end) for one in self.sections if one.name.startswith(b".data.rel.ro")]
        self._relro += self._relro_segments()

    def _relro_segments(self) -> Iterator[Tuple[int, int]]:
        """The ranges that are read-only once the file is relocated."""
        table, = struct.unpack_from("<Q", self.data, 32)
        size, count = struct.unpack_from("<HH", self.data, 54)
        for i in range(count if size >= 56 else 0):
            kind, start, length = struct.unpack_from("<I12xQ16xQ", self.data, table + size * i)
            if kind == RELRO_SEGMENT:
                yield start, start + length


# ---- places and names


class Code(NamedTuple):
    """A code section: its bytes stand from `start` up to, and without, `end`."""

    start: int
    end: int
    data: bytes


class Symbol(NamedTuple):
    """A function symbol of a code section, by its name as a report has it."""

    address: int
    size: int
    name: str

    @property
    def end(self) -> int:
        return self.address + self.size


class Section(NamedTuple):
    """A section of memory: where it stands, and its bytes, which are none where the file has none."""

    start: int
    end: int
    name: str
    is_writable: bool
    data: bytes


class Elf(File):
    """A file, by the places and names in it."""

    def _read(self) -> None:
        self.code = sorted(self._read_code())
        self.sections = sorted(self._read_sections())
        self._names = self._read_names()
        self._by_name: Optional[Dict[str, Set[int]]] = None
        self._places = sorted(self._names)
        self.owners = owners(self.symbols(), self.code)
        self._owners = [start for start, _, _ in self.owners]

    def bytes_at(self, start: int, end: int) -> Optional[bytes]:
        """The bytes of code from `start` up to `end`, where they lie in one section."""
        for code in self.code:
            if code.start <= start and end <= code.end:
                return code.data[start - code.start:end - code.start]
        return None

    def is_code(self, address: int) -> bool:
        """Whether an instruction can stand at an address."""
        return address % 2 == 0 and self.bytes_at(address, address + 2) is not None

    def place(self, address: int) -> str:
        """An address as a function symbol and an offset, or as digits where no symbol is before it."""
        for offset in range(0, STUB_SIZE, 4):
            if address - offset in self.stub_names and address not in self._names:
                return f"the stub of {names.shown(self.stub_names[address - offset])}" + (f"+{offset:#x}" if offset else "")
        place = bisect.bisect_right(self._places, address) - 1
        if place < 0:
            return f"{address:x}"
        symbol = self._names[self._places[place]]
        if symbol.address != address and not symbol.size:
            symbol = self.owner(address) or symbol
        name = names.shown(symbol.name)
        if symbol.address == address:
            return name
        if symbol.size and symbol.end <= address:
            return f"after {name}"
        return f"{name}+{address - symbol.address:#x}"

    def symbols(self) -> List[Symbol]:
        """The function symbol of each address that has one. One that has no size goes up to the next, unless it lies inside one
        with a size, of which it ends nothing."""
        found: List[Symbol] = []
        held = 0
        for place, symbol in enumerate(self._names[at] for at in self._places):
            if symbol.size == 0 and symbol.address >= held:
                after = self._places[place + 1:place + 2] or [symbol.address]
                symbol = symbol._replace(size=after[0] - symbol.address)
            else:
                held = max(held, symbol.end)
            found.append(symbol)
        return found

    @functools.cached_property
    def all_names(self) -> Dict[int, List[str]]:
        """All names of the functions at each address, as a report writes names, rising. A report has the first of them."""
        found: Dict[int, Set[str]] = {}
        for one in self.functions():
            if one.name:
                found.setdefault(one.address, set()).add(_shown(one.name))
        return {address: sorted(every) for address, every in found.items()}

    @functools.cached_property
    def said(self) -> Dict[str, str]:
        """The names that people say, by the ones that a report has, if they differ: of those at an address one that is seen in all
        files before one that is not, then the one with fewest underscores in front, then the shortest. A name that is not seen in all
        files counts as one that is, if it is the end of such a name, as `malloc` of `__libc_malloc`."""
        found: Dict[int, List[Tuple[bool, str]]] = {}
        for one in self.functions():
            if one.name:
                found.setdefault(one.address, []).append((one.is_local, _shown(one.name)))
        chosen: Dict[str, Set[str]] = {}
        for every in found.values():
            chosen.setdefault(min(name for _, name in every), set()).add(best_name(every))
        return {name: best for name, bests in chosen.items() if len(bests) == 1 for best in bests if best != name}

    def also(self, address: int) -> List[str]:
        """The names of the function at an address but the one that people say, which is shown."""
        every = self.all_names.get(address, [])
        said = self.said.get(every[0], every[0]) if every else ""
        return [name for name in every if name != said]

    def aliases(self, address: int) -> List[str]:
        """The names of the function at an address but the one that a report has."""
        return self.all_names.get(address, [])[1:]

    @functools.cached_property
    def stub_names(self) -> Dict[int, str]:
        """The names of indirect functions, as a report writes names, by the addresses of the stubs through which they are called."""
        if not self.resolvers:
            return {}
        return {one.address: _shown(one.name) for one in stubs(Memory(self.path)) if one.name is not None}

    def addresses_of(self, wanted: str) -> Set[int]:
        """The addresses of the functions that have a name, as a report writes it, as text, or demangled. An indirect function stands
        for its stubs, if there is no other function of its name."""
        if self._by_name is None:
            self._by_name = {}
            for address, every in self.all_names.items():
                for name in every:
                    self._note(name, address, self._by_name)
            indirect: Dict[str, Set[int]] = {}
            for address, name in self.stub_names.items():
                self._note(name, address, indirect)
            self._by_name = {**indirect, **self._by_name}
        return self._by_name.get(wanted) or self._by_names_like(wanted)

    def _by_names_like(self, wanted: str) -> Set[int]:
        """The addresses of the functions whose demangled name is this, with its arguments or without."""
        return {address for address, every in self.all_names.items() if any(names.is_asked(name, wanted) for name in every)}

    def _note(self, name: str, address: int, found: Dict[str, Set[int]]) -> None:
        """Notes an address by all spellings of a name."""
        for spelled in {name, names.shown(name), read_name(name.encode()).decode("utf-8", "replace")}:  # type: ignore[union-attr]
            found.setdefault(spelled, set()).add(address)

    def owner(self, address: int) -> Optional[Symbol]:
        """The function symbol in whose range an address lies."""
        place = bisect.bisect_right(self._owners, address) - 1
        return self.owners[place][2] if place >= 0 and address < self.owners[place][1] else None

    def section(self, address: int) -> Optional[Section]:
        """The section of memory that an address lies in."""
        return next((section for section in self.sections if section.start <= address < section.end), None)

    def number(self, address: int, size: int) -> Optional[int]:
        """The unsigned number of so many bytes at an address, where the file has them."""
        section = self.section(address)
        data = section.data[address - section.start:address - section.start + size] if section else b""
        return int.from_bytes(data, "little") if len(data) == size else None

    def _read_code(self) -> Iterator[Code]:
        for one in self.headers:
            data = self.data[one.offset:one.offset + one.size] if one.is_code else b""
            if data:
                yield Code(one.address, one.address + len(data), data)

    def _read_sections(self) -> Iterator[Section]:
        for one in self.headers:
            if one.flags & ALLOC and not one.flags & THREADS:
                data = self.data[one.offset:one.offset + one.size] if one.kind != NOBITS else b""
                yield Section(one.address, one.end, _shown(one.name), bool(one.flags & WRITE), data)

    def _read_names(self) -> Dict[int, Symbol]:
        """The function symbol of each address that has one, by its least name, and of the greatest size."""
        found: Dict[int, Symbol] = {}
        for one in self.functions():
            other = found.get(one.address)
            name, size = _shown(one.name), one.size
            found[one.address] = Symbol(one.address, max(size, other.size), min(name, other.name)) if other else Symbol(one.address, size, name)
        return found


def _shown(name: bytes) -> str:
    """A name as a report has it."""
    return name_field(name or None)


def best_name(every: List[Tuple[bool, str]]) -> str:
    """Of the names at an address, each with whether it is local, the one that people say."""
    seen = [name for is_local, name in every if not is_local]

    def rank(one: Tuple[bool, str]) -> Tuple[bool, int, int, str]:
        is_local, name = one
        is_hidden = is_local and not any(other.endswith(f"_{name}") for other in seen)
        return is_hidden, len(name) - len(name.lstrip("_")), len(name), name

    return min(every, key=rank)[1]


def owners(symbols: List[Symbol], code: List[Code]) -> List[Tuple[int, int, Symbol]]:
    """Ranges of code, rising and apart, each with the one symbol that it counts for: of those whose ranges it lies in, the
    last that begins."""
    found: List[Tuple[int, int, Symbol]] = []
    ends = sorted((section.start, section.end) for section in code)
    inside: List[Symbol] = []
    at = 0

    def keep(end: int) -> None:
        nonlocal at
        while inside and at < end:
            symbol = inside[-1]
            if at < symbol.end:
                found.append((at, min(symbol.end, end), symbol))
                at = min(symbol.end, end)
            if symbol.end <= end:
                inside.pop()

    for symbol in sorted(symbols):
        place = bisect.bisect_right(ends, (symbol.address, 2**64)) - 1
        last = ends[place][1] if place >= 0 else symbol.address
        keep(symbol.address)
        at = max(at, symbol.address)
        if symbol.address < last and symbol.size:
            inside.append(symbol._replace(size=min(symbol.size, last - symbol.address)))
    keep(2**64)
    return found


def joined(ranges: List[Tuple[int, int]]) -> List[Tuple[int, int]]:
    """Ranges of addresses, rising, with those that overlap or touch put together."""
    found: List[Tuple[int, int]] = []
    for start, end in sorted(ranges):
        if found and start <= found[-1][1]:
            found[-1] = (found[-1][0], max(found[-1][1], end))
        else:
            found.append((start, end))
    return found


def gaps(code: List[Code], reached: List[Tuple[int, int]]) -> List[Tuple[int, int]]:
    """The ranges of code outside these ranges, which are rising and apart."""
    found: List[Tuple[int, int]] = []
    place = 0
    for section in code:
        at = section.start
        while place < len(reached) and reached[place][1] <= at:
            place += 1
        inside = place
        while inside < len(reached) and reached[inside][0] < section.end:
            if at < reached[inside][0]:
                found.append((at, reached[inside][0]))
            at = max(at, reached[inside][1])
            inside += 1
        if at < section.end:
            found.append((at, section.end))
    return found


def size_of(ranges: List[Tuple[int, int]]) -> int:
    """How many bytes ranges have that are apart."""
    return sum(end - start for start, end in ranges)
