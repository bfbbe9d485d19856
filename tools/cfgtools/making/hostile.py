"""Makes ELF files that nobody's compiler makes, from a seed, to try `cfg` on: `make(seed)` gives the same file again.

Each file has a shape, which is one function of this module: broken tables, or code that is legal and unpleasant. Half
of the shapes make a file without a fault, so that all of `cfg` is run.
"""

from __future__ import annotations

import random
import re
import struct
from typing import Callable, Dict, Iterator, List, NamedTuple, Optional, Sequence

NULL, PROGBITS, SYMTAB, STRTAB, NOBITS = 0, 1, 2, 3, 8
# The type of sections that declare jump tables, and a record of one.
DECLARING = 0x8CF60001
_RECORD = struct.Struct("<QQQII")
WRITE, ALLOC, EXECINSTR = 1, 2, 4
CODE = ALLOC | EXECINSTR
CODE_AT, DATA_AT = 0x10000, 0x800000
TOP_ADDRESS = 1 << 64

Halves = List[int]


# ---- instructions, each as its halfwords

NOP, RETURN, BREAK, ECALL = [0x0001], [0x8082], [0x9002], [0x0073, 0x0000]


def word(value: int) -> Halves:
    return [value & 0xFFFF, value >> 16 & 0xFFFF]


def immediate(opcode: int, kind: int, to: int, source: int, value: int) -> Halves:
    """An instruction with an immediate of 12 bits."""
    return word((value & 0xFFF) << 20 | source << 15 | kind << 12 | to << 7 | opcode)


def upper(opcode: int, to: int, value: int) -> Halves:
    """LUI, 0x37, or AUIPC, 0x17."""
    return word((value & 0xFFFFF) << 12 | to << 7 | opcode)


def add(to: int, first: int, second: int) -> Halves:
    return word(second << 20 | first << 15 | to << 7 | 0x33)


def jump(link: int, offset: int) -> Halves:
    """JAL, by an even offset of 21 bits."""
    high = (offset >> 20 & 1) << 31 | (offset >> 1 & 0x3FF) << 21
    return word(high | (offset >> 11 & 1) << 20 | (offset >> 12 & 0xFF) << 12 | link << 7 | 0x6F)


def branch(kind: int, first: int, second: int, offset: int) -> Halves:
    """A branch, by an even offset of 13 bits."""
    high = (offset >> 12 & 1) << 31 | (offset >> 5 & 0x3F) << 25 | second << 20
    return word(high | first << 15 | kind << 12 | (offset >> 1 & 0xF) << 8 | (offset >> 11 & 1) << 7 | 0x63)


def far(link: int, offset: int) -> Halves:
    """A pair of AUIPC and JALR, by an offset of 32 bits."""
    return upper(0x17, 6, (offset + 0x800) >> 12) + immediate(0x67, 0, link, 6, offset)


def short_jump(offset: int) -> Halves:
    """C.J, by an even offset of 12 bits."""
    bits = 0
    for place, bit in enumerate((5, 1, 2, 3, 7, 6, 10, 8, 9, 4, 11)):
        bits |= (offset >> bit & 1) << (2 + place)
    return [0xA001 | bits]


def any_bytes(rng: random.Random, count: int) -> bytes:
    return bytes(rng.randrange(256) for _ in range(count))


# ---- files


class Symbol(NamedTuple):
    """A symbol: `name` is its offset in the string table, and `section` an index."""

    value: int
    name: int = 0
    section: int = 1
    info: int = 0x12


class Section:
    """A section. Its size and its offset are what they should be, where nothing else is said."""

    def __init__(self, kind: int, flags: int = 0, address: int = 0, data: bytes = b"", alignment: int = 1) -> None:
        self.kind, self.flags, self.address, self.data, self.alignment = kind, flags, address, data, alignment
        self.link = self.entry = 0
        self.size, self.offset = len(data), -1

    def header(self) -> bytes:
        places = (number % TOP_ADDRESS for number in (self.address, self.offset, self.size))
        return struct.pack("<IIQQQQIIQQ", 0, self.kind, self.flags, *places, self.link, 0, self.alignment, self.entry)


def code_bytes(halves: Halves) -> bytes:
    return struct.pack(f"<{len(halves)}H", *halves)


def symbol_bytes(symbols: Sequence[Symbol]) -> bytes:
    return b"".join(struct.pack("<IBBHQQ", s.name, s.info, 0, s.section, s.value % TOP_ADDRESS, 0) for s in symbols)


def file_of(sections: Sequence[Section], entry: int = CODE_AT) -> bytes:
    """A file with these sections, their data one behind the other, and no program header."""
    body = b""
    for section in sections:
        if section.offset < 0:
            section.offset = 64 + len(body)
            body += section.data
    header = struct.pack("<4sBBBB8xHHIQQQIHHHHHH", b"\x7fELF", 2, 1, 1, 0, 2, 243, 1, entry % TOP_ADDRESS, 0,
                         64 + len(body), 0, 64, 0, 0, 64, len(sections), 0)
    return header + body + b"".join(section.header() for section in sections)


_NAMES = {(PROGBITS, CODE): b".text", (PROGBITS, ALLOC): b".rodata", (SYMTAB, 0): b".symtab", (STRTAB, 0): b".strtab"}


def with_names(file: bytes) -> bytes:
    """A file of `file_of` with a table of names for its sections, since GNU objdump finds no code without one."""
    table, = struct.unpack_from("<Q", file, 40)
    count, = struct.unpack_from("<H", file, 60)
    named, strings = bytearray(file), b"\0" + b"\0".join(_NAMES.values()) + b"\0"
    struct.pack_into("<HH", named, 60, count + 1, count)
    for place in range(table, table + 64 * count, 64):
        kind, flags = struct.unpack_from("<4xIQ", file, place)
        name = _NAMES.get((kind, flags), b"\0")
        struct.pack_into("<I", named, place, strings.find(name))
    names = Section(STRTAB, data=strings)
    names.offset = len(file) + 64
    return bytes(named) + names.header() + strings


def symbol_table(symbols: Sequence[Symbol], link: int) -> Section:
    """A symbol table whose names are in the section `link`."""
    table = Section(SYMTAB, data=symbol_bytes(symbols))
    table.link, table.entry = link, 24
    return table


def sections_of(
    halves: Halves, symbols: Sequence[Symbol] = (), strings: bytes = b"\0", data: bytes = b"",
) -> List[Section]:
    """Section 0, the code, the read-only data, the symbols and their names."""
    code, read_only = Section(PROGBITS, CODE, CODE_AT, code_bytes(halves)), Section(PROGBITS, ALLOC, DATA_AT, data)
    table = symbol_table([Symbol(0, section=0, info=0), *symbols], 4)
    return [Section(NULL), code, read_only, table, Section(STRTAB, data=strings)]


def file_with(halves: Halves, symbols: Sequence[Symbol] = (), strings: bytes = b"\0", data: bytes = b"") -> bytes:
    return file_of(sections_of(halves, symbols, strings, data))


def some_symbols(rng: random.Random, halves: Halves, most: int) -> List[Symbol]:
    return [Symbol(CODE_AT + 2 * rng.randrange(len(halves))) for _ in range(rng.randint(0, most))]


# ---- code


def near(rng: random.Random, reach: int) -> int:
    """An even offset, mostly of a few instructions."""
    return 2 * int(rng.triangular(-reach, reach, rng.choice((-2, 0, 1, 2, 4))))


def transfer(rng: random.Random, reach: int) -> Halves:
    """A jump, branch, call or return."""
    offset, some = near(rng, reach), rng.randrange(1, 32)
    return rng.choice((
        branch(rng.choice((0, 1, 4, 5, 6, 7)), some, rng.randrange(32), offset), branch(0, 0, 0, offset),
        jump(0, offset), jump(rng.choice((1, 1, 1, 5, some)), offset), short_jump(offset),
        far(rng.choice((0, 1, 5)), offset), RETURN, BREAK, ECALL,
        immediate(0x67, 0, rng.choice((0, 1)), rng.choice((1, 5, some)), rng.choice((0, near(rng, 8)))),
        [0x9002 | some << 7], [0xC001 | rng.randrange(0x800) << 2],
    ))


def straight(rng: random.Random) -> Halves:
    some, other, value = rng.randrange(32), rng.randrange(32), rng.randrange(1 << 20)
    return rng.choice((
        NOP, [0x4501], add(some, other, rng.randrange(32)), upper(rng.choice((0x17, 0x37)), some, value),
        immediate(0x13, 0, some, other, value), immediate(0x03, 2, some, other, value),
    ))


def busy_code(rng: random.Random, count: int, reach: int) -> Halves:
    """Instructions of which many do not go straight on."""
    share = rng.choice((0.1, 0.3, 0.6, 0.95))
    halves: Halves = []
    for _ in range(count):
        halves += transfer(rng, reach) if rng.random() < share else straight(rng)
    return halves


def table_jump(bound: Optional[int], base: int, away: int, wide: bool = False) -> Halves:
    """A jump through the table at `base`, of entries of eight bytes where it is `wide`, behind a bound test, if there is a
    bound, whose other way is `away`."""
    halves = [] if bound is None else immediate(0x13, 0, 15, 0, bound) + branch(6, 15, 10, away)
    halves += upper(0x37, 14, (base + 0x800) >> 12) + immediate(0x13, 0, 14, 14, base)
    halves += immediate(0x13, 1, 10, 10, 3 if wide else 2) + add(10, 10, 14)
    return halves + immediate(0x03, 3 if wide else 2, 15, 10, 0) + add(15, 15, 14) + immediate(0x67, 0, 0, 15, 0)


# ADDI and BLTU, and the jump, as `table_jump` has them.
_BOUND = re.compile(rb"(?=\x93\x07(..)\x63)", re.DOTALL)
_JUMP = b"\x67\x80\x07\x00"
_OPEN = 1024


def table_entries(file: bytes) -> int:
    """How many entries the jump tables of a file may have together, at the most, but for those of files that are no whole ones."""
    bounded = sum(1 + (int.from_bytes(found[1], "little") >> 4) % 2048 for found in _BOUND.finditer(file))
    return bounded + _OPEN * file.count(_JUMP) + sum(_declared_entries(file))


def _declared_entries(file: bytes) -> Iterator[int]:
    """How many entries each record of a file may give, at the most."""
    table, count = int.from_bytes(file[40:48], "little"), int.from_bytes(file[60:62], "little")
    for place in range(table, min(table + 64 * count, len(file) - 63), 64):
        kind, offset, size = struct.unpack_from("<4xI16xQQ", file, place)
        data = file[offset:offset + size] if kind == DECLARING else b""
        for *_, entries_of_one, _ in _RECORD.iter_unpack(data[:len(data) // 32 * 32]):
            yield min(entries_of_one, 65536, len(file))


# ---- shapes


def turned(rng: random.Random, file: bytes, start: int, end: int) -> bytes:
    """A file with a few of its bits turned, from the byte `start` up to `end`."""
    changed = bytearray(file)
    for _ in range(rng.choice((1, 1, 1, 2, 5))):
        changed[rng.randrange(start, end)] ^= 1 << rng.randrange(8)
    return bytes(changed)


def any_file(rng: random.Random) -> bytes:
    """A file of one of some other shapes."""
    return rng.choice((code_of_random_halfwords, symbol_tables, jump_tables, streams_of_both_parities, names))(rng)


def header_bits(rng: random.Random) -> bytes:
    file = any_file(rng)
    return turned(rng, file, 0, min(64, len(file)))


def any_bits(rng: random.Random) -> bytes:
    file = any_file(rng)
    return turned(rng, file, 0, len(file))


def section_header_bits(rng: random.Random) -> bytes:
    file = file_with(busy_code(rng, 40, 30), some_symbols(rng, NOP * 40, 4))
    return turned(rng, file, len(file) - 5 * 64, len(file))


def cut_short(rng: random.Random) -> bytes:
    file = any_file(rng)
    return file[:rng.choice((rng.randrange(100), rng.randrange(len(file)), len(file) - 1))]


def random_bytes(rng: random.Random) -> bytes:
    return b"\x7fELF\x02\x01\x01"[:rng.randrange(8)] + any_bytes(rng, rng.randrange(300))


def program_headers(rng: random.Random) -> bytes:
    """A count, a size and a place of program headers, of which some are in the file."""
    headers = b"".join(struct.pack("<I52x", rng.choice((0, 1, 2, 3, 6))) for _ in range(4))
    file = bytearray(file_with(RETURN, data=headers))
    place = rng.choice((66, 66, 0, len(file) - 56, len(file), TOP_ADDRESS - rng.randrange(200), rng.randrange(1 << 64)))
    struct.pack_into("<Q", file, 32, place % TOP_ADDRESS)
    struct.pack_into("<HH", file, 54, rng.choice((56, 56, 56, 0, 57)), rng.choice((0, 1, 2, 4, 5, 0xFFFF)))
    return bytes(file)


def odd_section(rng: random.Random) -> Section:
    """A section at a place that overlaps, touches, wraps or leaves the file."""
    code = code_bytes(busy_code(rng, rng.randrange(1, 30), 40))
    kind = rng.choice((PROGBITS, PROGBITS, PROGBITS, NOBITS, NULL, 7, 0x70000003))
    section = Section(kind, rng.choice((CODE, CODE, CODE, ALLOC, 0, CODE | WRITE)), data=code)
    section.address = rng.choice((
        CODE_AT + 2 * rng.randrange(600), CODE_AT + 4096 * rng.randrange(100), CODE_AT + rng.randrange(99),
        TOP_ADDRESS - len(code) - rng.randrange(3), TOP_ADDRESS - 2 * rng.randrange(50), rng.randrange(1 << 64),
    ))
    if rng.random() < 0.1:
        section.offset = rng.choice((0, 64, 1 << 32, TOP_ADDRESS - rng.randrange(99), rng.randrange(1 << 64)))
    if rng.random() < 0.1:
        section.size = rng.choice((0, 1, len(code) - 1, len(code) + 1, 1 << 40, TOP_ADDRESS - 1 - rng.randrange(99)))
    return section


def odd_sections(rng: random.Random) -> bytes:
    sections = [Section(NULL), Section(PROGBITS, CODE, CODE_AT, code_bytes(busy_code(rng, 30, 60)))]
    sections += [odd_section(rng) for _ in range(rng.choice((1, 2, 3, 30)))]
    rng.shuffle(sections)
    return file_of(sections, rng.choice((CODE_AT, CODE_AT, CODE_AT + rng.randrange(60), sections[-1].address)))


def code_sections(rng: random.Random, sections: List[Section], most: int) -> bytes:
    """A file with these code sections and section 0, in any order, and function symbols in them."""
    sections = [Section(NULL), *sections]
    if rng.random() < 0.5:
        rng.shuffle(sections)
    symbols: List[Symbol] = []
    for _ in range(rng.randint(0, most)):
        place = rng.randrange(len(sections))
        symbols.append(Symbol(sections[place].address + rng.randrange(0, len(sections[place].data) + 2, 2), 0, place))
    return file_of([*sections, symbol_table(symbols, len(sections) + 1), Section(STRTAB, data=b"\0")])


def joined_sections(rng: random.Random) -> bytes:
    """One code in sections that stand one behind the other without a gap."""
    halves = busy_code(rng, rng.choice((20, 200, 2000)), 60)
    sections: List[Section] = []
    at = 0
    while at < len(halves):
        end, flags = at + rng.choice((1, 2, 3, 20, 100)), rng.choice((CODE, CODE, CODE | WRITE))
        sections.append(Section(PROGBITS, flags, CODE_AT + 2 * at, code_bytes(halves[at:end])))
        at = end
    return code_sections(rng, sections, rng.choice((0, 10, 500)))


def many_sections(rng: random.Random) -> bytes:
    """Thousands of code sections that touch or have gaps, in falling order or none."""
    step = rng.choice((4, 6, 8))
    places = range(CODE_AT, CODE_AT + step * rng.choice((100, 4000)), step)
    sections = [Section(PROGBITS, CODE, at, code_bytes(transfer(rng, 500)[:step // 2])) for at in places]
    return code_sections(rng, sections[::-1], rng.choice((0, 100, 5000)))


def odd_symbol(rng: random.Random, size: int) -> Symbol:
    """A symbol whose value, name, section or type may be none."""
    value = rng.choice((CODE_AT + rng.randrange(size), CODE_AT + 2 * rng.randrange(size), DATA_AT, 0, TOP_ADDRESS - 1))
    name = rng.choice((0, 0, 1, 2, rng.randrange(40), 0xFFFFFFFF if rng.random() < 0.1 else 1))
    section = rng.choice((1, 1, 1, 2, 0, 0xFFF1, rng.randrange(0x10000)))
    return Symbol(value, name, section, rng.choice((2, 0x12, 0x12, rng.randrange(256))))


def symbol_tables(rng: random.Random) -> bytes:
    """Symbol tables of a wrong size, entry size, link or number."""
    halves = busy_code(rng, 30, 40)
    symbols = [odd_symbol(rng, 2 * len(halves)) for _ in range(rng.choice((0, 1, 5, 300)))]
    sections = sections_of(halves, symbols, rng.choice((b"", b"\0", b"\0one\0two", b"\0one\0two\0" + bytes(40))))
    table = sections[3]
    wrong = rng.randrange(8)
    if wrong == 0:
        table.entry = rng.choice((0, 1, 23, 25, 48, TOP_ADDRESS - 1))
    elif wrong == 1:
        table.size += rng.choice((-24, -23, -1, 1, 23, 1 << 30, -table.size))
    elif wrong == 2:
        table.link = rng.choice((0, 1, 3, 5, 0xFFFFFFFF))
    elif wrong == 3:
        sections.append(symbol_table([], 4))
    elif wrong == 4:
        sections[4].kind = rng.choice((NULL, PROGBITS, NOBITS))
    return file_of(sections)


def names(rng: random.Random) -> bytes:
    """Names of all bytes, some of them the end of others, and many at one address."""
    parts = [rng.choice((b"-", b"\\", b" ", b"a", b"\x7f", b"\xff\xfe", b"\n", any_bytes(rng, 9))) for _ in range(60)]
    strings = b"\0" + b"".join(parts) + b"\0" + b"long" * rng.choice((1, 1, 2000)) + b"\0"
    count = rng.choice((3, 100))
    symbols = [Symbol(CODE_AT + 2 * rng.randrange(20), rng.randrange(len(strings))) for _ in range(count)]
    return file_with(NOP * 19 + RETURN, symbols, strings)


def code_of_random_halfwords(rng: random.Random) -> bytes:
    halves = [rng.randrange(0x10000) for _ in range(rng.choice((1, 2, 30, 500, 5000)))]
    return file_with(halves, some_symbols(rng, halves, rng.choice((0, 100, len(halves)))))


def busy(rng: random.Random) -> bytes:
    """Many branches, jumps and calls, to places in the middle of instructions too."""
    halves = busy_code(rng, rng.choice((5, 20, 100, 1000, 5000)), rng.choice((4, 20, 200)))
    return file_with(halves, some_symbols(rng, halves, rng.choice((0, 5, 100, len(halves)))))


def streams_of_both_parities(rng: random.Random) -> bytes:
    """Words whose upper halves begin words too, with symbols at both, which meet late or never."""
    halves: Halves = []
    for _ in range(rng.choice((2, 30, 1000))):
        short = rng.random() < 0.03
        halves += rng.choice((NOP, RETURN)) if short else [rng.choice((0x0013, 0x0513, 0x0463, 0x006F, 0x00EF))]
    ends: List[Halves] = [[], NOP + RETURN, RETURN]
    halves += rng.choice(ends)
    return file_with(halves, some_symbols(rng, halves, 6) + [Symbol(CODE_AT + 2)])


def entries(rng: random.Random, count: int, base: int, size: int) -> List[int]:
    """Table entries, from `base`, that lead to places in a code of this size, into the pattern itself too."""
    step = rng.choice((2, 2, 4))
    places = [CODE_AT + step * rng.randrange(max(1, size // step)) for _ in range(count)]
    if rng.random() < 0.2:
        places[rng.randrange(count)] = rng.choice((0, DATA_AT, CODE_AT + size, CODE_AT - 2))
    return [(place - base) % (1 << 32) for place in places]


def jump_tables(rng: random.Random) -> bytes:
    """Tables that overlap, each of which may lead into the jumps of all."""
    count = rng.choice((1, 2, 3, 20))
    size = 8 * rng.choice((1, 4, 40))
    bases = [DATA_AT + 4 * rng.randrange(size) for _ in range(count)]
    if rng.random() < 0.2:
        bases[0] = rng.choice((CODE_AT, DATA_AT + 2, DATA_AT + 4 * size - 4, DATA_AT + 4 * size))
    halves: Halves = []
    wide = rng.choice((0, 0, 0.5, 1))
    for base in bases:
        away = rng.choice((36, 40, 44, near(rng, 20)))
        bound = rng.choice((0, 1, 3, 7, 60, 2047, None, None))
        halves += table_jump(bound, base, away, rng.random() < wide) + RETURN * rng.randrange(4)
    halves += rng.choice((RETURN * 8, busy_code(rng, 20, 30)))
    words = entries(rng, size, rng.choice(bases), 2 * len(halves))
    if rng.random() < wide:
        words[1::2] = [0xFFFFFFFF if word >> 31 else 0 for word in words[::2]]
    data = struct.pack(f"<{size}I", *words)
    symbols = [Symbol(CODE_AT + 2 * place) for place in range(len(halves)) if rng.random() < 0.05]
    return file_with(halves, symbols, data=data)


def wide_tables(rng: random.Random) -> bytes:
    """Tables of as many entries as there may be, which overlap, or are one."""
    count, size = rng.choice((1, 5, 60)), 2048
    step = rng.choice((0, 0, 4, 4096))
    halves: Halves = []
    for place in range(count):
        halves += table_jump(rng.choice((2047, 2047, None)), DATA_AT + step * place, 40) + RETURN
    targets = rng.choice((entries(rng, 1, DATA_AT, 2 * len(halves)), entries(rng, 50, DATA_AT, 2 * len(halves))))
    data = struct.pack(f"<{size}I", *rng.choices(targets, k=size)) * max(1, step * count // (4 * size))
    return file_with(halves, some_symbols(rng, halves, rng.choice((0, 100))), data=data)


def declared_tables(rng: random.Random) -> bytes:
    """Tables that the file declares, by good records and wrong ones, of jumps and of other places, several of the same one."""
    count, size = rng.choice((1, 3, 40)), rng.choice((8, 64, 2048))
    halves: Halves = []
    jumps: List[int] = []
    for _ in range(count):
        before: List[Halves] = [[], table_jump(rng.choice((1, 7, None)), DATA_AT, 40), busy_code(rng, 3, 8)]
        halves += rng.choice(before)
        jumps.append(CODE_AT + 2 * len(halves))
        halves += rng.choice((immediate(0x67, 0, 0, 15, 0), [0x8782], immediate(0x67, 0, 6, 28, 0), immediate(0x67, 0, 0, 15, 4), RETURN))
    halves += RETURN * 8
    data = struct.pack(f"<{size}I", *entries(rng, size, DATA_AT, 2 * len(halves)))

    def section() -> Section:
        found = b"".join(declared_record(rng, rng.choice(jumps), size) for _ in range(rng.choice((0, 1, count, 3 * count))))
        flags, address = rng.choice(((0, 0), (0, 0), (ALLOC, 0x900000), (CODE, CODE_AT), (WRITE, TOP_ADDRESS - 8)))
        return Section(DECLARING, flags, address, found + any_bytes(rng, rng.choice((0, 0, 31))))

    sections = sections_of(halves, some_symbols(rng, halves, rng.choice((0, 30))), data=data)
    return file_of([*sections, *(section() for _ in range(rng.choice((1, 1, 2, 5))))])


def declared_record(rng: random.Random, jump: int, size: int) -> bytes:
    """A record of a jump, most often of a table of words at some place of the data."""
    base = DATA_AT + rng.choice((0, 0, 4, 4 * rng.randrange(size), 4 * size, 2, -4))
    added = rng.choice((DATA_AT, DATA_AT, 0, rng.randrange(TOP_ADDRESS)))
    return _RECORD.pack(jump + rng.choice((0, 0, 0, 2)), base, added, rng.choice((0, 1, 3, size, 65536, 2**32 - 1)), rng.choice((4, 4, 4, 8, 5)))


def table_chain(rng: random.Random) -> bytes:
    """Tables each of which begins inside the one before, and whose entries lead to the next jump, so that a cut takes
    code away that has the table which made it."""
    count, bound = rng.choice((3, 30, 200)), rng.choice((1, 2, 3))
    step = 2 * (len(table_jump(0, 0, 0)) + 1)
    halves: Halves = []
    for place in range(count):
        halves += table_jump(bound, DATA_AT + 4 * place, step - 4) + RETURN
    data = b""
    for place in range(count + bound):
        to = CODE_AT + rng.choice((place + 1, place, rng.randrange(count))) % count * step
        base = DATA_AT + 4 * rng.choice((place, max(0, place - 1)))
        data += struct.pack("<I", (to - base) % (1 << 32))
    return file_with(halves, some_symbols(rng, halves, 3), data=data)


def ring_of_calls(rng: random.Random) -> bytes:
    """Functions that call the next one in a ring, some of which may return without it."""
    count, step = rng.choice((1, 2, 3, 50, 2000)), 6
    halves: Halves = []
    leaves = rng.choice((0.0, 0.001, 0.5))
    for place in range(count):
        to = (place + rng.choice((1, 1, 1, 2, -1))) % count
        offset = 2 * step * (to - place)
        begin = branch(0, 10, 0, 8) if rng.random() < leaves else NOP * 2
        halves += begin + (jump(1, offset - 4) + RETURN + NOP)
        halves += NOP * (step * (place + 1) - len(halves))
    return file_with(halves, some_symbols(rng, halves, 10))


def deep_calls(rng: random.Random) -> bytes:
    """A chain of calls, or of tail calls, whose last function returns or does not."""
    count = rng.choice((3, 100, 5000))
    call = rng.choice((lambda: jump(1, 10), lambda: far(1, 14), lambda: rng.choice((jump(1, 10), jump(0, 10)))))
    halves: Halves = []
    for _ in range(count):
        body = call()
        halves += body + NOP * 2 + RETURN
    halves += rng.choice((RETURN, short_jump(0), BREAK, jump(0, -2 * len(halves) if len(halves) < 1 << 18 else 0)))
    return file_with(halves, some_symbols(rng, halves, rng.choice((0, 5, 200))))


def calls_from_behind(rng: random.Random) -> bytes:
    """Functions that call the one before them, and so each waits for all those before it."""
    count = rng.choice((3, 100, 3000))
    halves = RETURN + NOP * 3
    for _ in range(count):
        halves += jump(1, -8) + RETURN + NOP
    entry = CODE_AT + 8 * count
    return file_of(sections_of(halves, some_symbols(rng, halves, 50)), entry)


def symbols_on_nops(rng: random.Random) -> bytes:
    """One run of instructions that go straight on, with a symbol at each of many places."""
    count = rng.choice((10, 300, 5000))
    ends: List[Halves] = [RETURN, NOP, short_jump(-20), []]
    halves = rng.choice((NOP * count, [0x0013] * count)) + rng.choice(ends)
    share = rng.choice((0.1, 1.0))
    symbols = [Symbol(CODE_AT + 2 * place) for place in range(len(halves)) if rng.random() < share]
    rng.shuffle(symbols)
    return file_with(halves, symbols)


def branch_ladder(rng: random.Random) -> bytes:
    """Branches that all lead to one place, or each back into the block before, in rising or falling order."""
    count = rng.choice((10, 300))
    to = rng.choice((
        lambda place: -4 * place, lambda place: 4 * (count - place), lambda place: -2,
        lambda place: 6 - 8 * (place % 2),
    ))
    halves: Halves = []
    for place in range(count):
        halves += branch(1, 10, 11, to(place))
    return file_with(halves + RETURN, some_symbols(rng, halves, rng.choice((0, 100))))


SHAPES: Dict[str, Callable[[random.Random], bytes]] = {
    make.__name__: make for make in (
        header_bits, any_bits, section_header_bits, cut_short, random_bytes, program_headers, odd_sections,
        joined_sections, many_sections, symbol_tables, names, code_of_random_halfwords, busy,
        streams_of_both_parities, jump_tables, wide_tables, declared_tables, table_chain, ring_of_calls, deep_calls,
        calls_from_behind, symbols_on_nops, branch_ladder,
    )
}


class Made(NamedTuple):
    """A file, and which shape it has."""

    shape: str
    data: bytes


def make(seed: str) -> Made:
    """The file of a seed."""
    rng = random.Random(seed)
    shape = rng.choice(list(SHAPES))
    return Made(shape, SHAPES[shape](rng))
