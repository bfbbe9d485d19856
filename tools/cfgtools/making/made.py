"""The program that `cfg --make N` makes in memory, as a file.

Each of the N functions calls two others, and one in four has a jump table; after them stand a function that returns and
one that loops without end. `crates/big_case/specs` defines the code and the tables, `crates/elf_maker/specs` the file
around them. The program is only read, never run.
"""

from __future__ import annotations

import struct
from typing import List

from cfgtools.making.hostile import (
    ALLOC, CODE, NULL, PROGBITS, STRTAB, Halves, Section, Symbol, add, branch, code_bytes, file_of, immediate, jump,
    symbol_table, upper,
)

MOST = 100_000
SLOTS_AT, SLOT_SIZE = 0x10000, 128
TABLES_AT, TABLE_SIZE = 0x2000000, 16
# Where the entries of a table lead, as offsets in the slot whose jump goes through it.
ENTRIES = (52, 56, 60, 64)

RETURN = immediate(0x67, 0, 0, 1, 0)
LOOP = jump(0, 0)
COUNT_DOWN = immediate(0x13, 0, 10, 10, -1)
COUNT_UP = immediate(0x13, 0, 11, 11, 1)
REPEAT = branch(1, 10, 0, -4)
SKIP_CALL = branch(0, 10, 0, 12)
BOUND_TEST = immediate(0x13, 0, 15, 0, 4) + branch(6, 15, 10, 44)
LOAD_ENTRY = immediate(0x13, 1, 10, 10, 2) + add(10, 10, 14) + immediate(0x03, 2, 15, 10, 0) + add(15, 15, 14)
JUMP_TO_ENTRY = immediate(0x67, 0, 0, 15, 0)
BEHIND_JUMP = RETURN + RETURN + immediate(0x13, 0, 10, 0, 1) + RETURN


def slot_at(i: int) -> int:
    return SLOTS_AT + SLOT_SIZE * i


def table_at(j: int) -> int:
    return TABLES_AT + TABLE_SIZE * j


def upper_part(distance: int) -> int:
    """What AUIPC adds of a distance; the instruction behind it adds the rest, which has a sign."""
    return (distance + 0x800) >> 12


def call(at: int, slot: int) -> Halves:
    """A call of a slot, which stands at an address."""
    distance = slot_at(slot) - at
    return upper(0x17, 1, upper_part(distance)) + immediate(0x67, 0, 1, 1, distance)


def table_address(at: int, j: int) -> Halves:
    """The address of a table in x14, by two instructions that stand at an address."""
    distance = table_at(j) - at
    return upper(0x17, 14, upper_part(distance)) + immediate(0x13, 0, 14, 14, distance)


def body(n: int, i: int) -> Halves:
    """What function i of n has behind its two calls."""
    at = slot_at(i)
    if i % 4 == 0:
        return COUNT_DOWN + REPEAT + RETURN
    if i % 4 == 1:
        return COUNT_DOWN + COUNT_UP + REPEAT + RETURN
    if i % 4 == 2:
        return SKIP_CALL + call(at + 20, n + 1) + RETURN
    return BOUND_TEST + table_address(at + 24, i // 4) + LOAD_ENTRY + JUMP_TO_ENTRY + BEHIND_JUMP


def function(n: int, i: int) -> Halves:
    """Function i of n, which calls 2 i + 1 and 2 i + 2, or the slot that returns in place of those that are not there."""
    at = slot_at(i)
    return call(at, min(2 * i + 1, n)) + call(at + 8, min(2 * i + 2, n)) + body(n, i)


def code(n: int) -> bytes:
    """The slots, each with zero bytes up to its size."""
    slots = [*(function(n, i) for i in range(n)), RETURN, LOOP]
    return b"".join(code_bytes(slot).ljust(SLOT_SIZE, b"\0") for slot in slots)


def tables(n: int) -> bytes:
    """The tables of functions 3, 7, 11 and so on, whose entries are distances from their table."""
    distances = (slot_at(4 * j + 3) - table_at(j) for j in range(n // 4))
    return b"".join(struct.pack("<4i", *(distance + offset for offset in ENTRIES)) for distance in distances)


def sections(n: int) -> List[Section]:
    """Section 0, the code and the tables. Their sizes are multiples of eight bytes, so nothing stands between them."""
    null = Section(NULL, alignment=0)
    null.offset = 0
    text = Section(PROGBITS, CODE, SLOTS_AT, code(n), alignment=2)
    return [null, text, Section(PROGBITS, ALLOC, TABLES_AT, tables(n), alignment=4)]


def made(n: int) -> bytes:
    """The file that `cfg --make` makes, to the byte."""
    return file_of(sections(n), SLOTS_AT)


def made_with_functions(n: int) -> bytes:
    """The same program with a symbol for each function: `f0`, `f1` and so on."""
    names = [b"f%d" % i for i in range(n + 2)]
    places = [1]
    for name in names:
        places.append(places[-1] + len(name) + 1)
    symbols = [Symbol(slot_at(i), place) for i, place in zip(range(n + 2), places)]
    strings = Section(STRTAB, data=b"\0" + b"\0".join(names) + b"\0")
    return file_of([*sections(n), symbol_table([Symbol(0, section=0, info=0), *symbols], 4), strings], SLOTS_AT)
