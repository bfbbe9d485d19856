"""The patterns of jump tables: the hoisted form, whose address is set before the run to the jump."""

from __future__ import annotations

import struct
import unittest
from typing import Optional, Sequence

from small_elf import CODE_AT, DATA_AT, Part, code
from cfgtools.elf.declared_tables import KIND
from cfgtools.elf.elf_file import Memory
from cfgtools.elf.table_patterns import OfFile, Setting, Table
from cfgtools.making.hostile import NOP, RETURN, Halves, add, immediate, upper
from test_add_entries import WithFile

A0, A4, A5, S1, S2, SP = 10, 14, 15, 9, 18, 2
HERE, THERE = DATA_AT, DATA_AT + 0x40


def set_to(register: int, address: int, through: Optional[int] = None) -> Halves:
    """LUI and ADDI that set a register to an address."""
    source = register if through is None else through
    return upper(0x37, source, (address + 0x800) >> 12) + immediate(0x13, 0, register, source, (address & 0xFFF ^ 0x800) - 0x800)


def shift(register: int, by: int, source: Optional[int] = None) -> Halves:
    return immediate(0x13, 1, register, register if source is None else source, by)


def load(to: int, source: int, offset: int = 0, width: int = 2) -> Halves:
    return immediate(0x03, width, to, source, offset)


def store(slot: int, register: int) -> Halves:
    word = (slot >> 5) << 25 | register << 20 | SP << 15 | 3 << 12 | (slot & 31) << 7 | 0x23
    return [word & 0xFFFF, word >> 16]


JUMP = immediate(0x67, 0, 0, A5, 0)
WORD = immediate(0x1B, 0, A5, A5, 0)


def run(base: int, between: Halves = []) -> Halves:
    """A table of 4-byte entries at the address in a register, which is also added: slli a0,a0,2; add a5,a0,base; lw; add; jr."""
    return shift(A0, 2) + add(A5, A0, base) + load(A5, A5) + between + add(A5, A5, base) + JUMP


class Hoisted(WithFile):
    def table(self, halves: Sequence[int], more: Sequence[Part] = (), entries: Sequence[int] = (0, 4), there: Sequence[int] = (8,)) -> Optional[Table]:
        """The table of a jump at the end of code, with two tables in read-only data, of places of the code as offsets from each."""
        data = struct.pack("<16i", *[CODE_AT + entry - HERE for entry in entries], *[1 << 30] * (16 - len(entries)))
        data += struct.pack("<4i", *[CODE_AT + entry - THERE for entry in there], *[1 << 30] * (4 - len(there)))
        elf = Memory(self.elf_file([code(list(halves) + RETURN), Part(".rodata", address=DATA_AT, data=data), *more]))
        return OfFile(elf).table_of(CODE_AT + 2 * len(halves) - 4, A5)

    def base(self, halves: Sequence[int], **words: Sequence[int]) -> Optional[int]:
        found = self.table(halves, **words)  # type: ignore[arg-type]
        self.assertTrue(found is None or found.is_open and found.is_hoisted)
        return found.base if found else None

    def test_before_a_loop(self) -> None:
        found = self.table(set_to(S1, HERE) + RETURN + run(S1))
        assert found is not None
        self.assertEqual((found.base, found.width, found.added, found.targets, found.is_hoisted), (HERE, 4, HERE, (CODE_AT, CODE_AT + 4), True))

    def test_the_nearest_pair(self) -> None:
        self.assertEqual(self.base(set_to(S1, HERE) + set_to(S1, THERE) + RETURN + run(S1)), THERE)
        self.assertEqual(self.base(set_to(S1, HERE) + set_to(S2, THERE) + RETURN + run(S1)), HERE)
        # (other writes between do not matter)
        self.assertEqual(self.base(set_to(S1, HERE) + load(S1, SP, 8, 3) + RETURN + run(S1)), HERE)
        self.assertEqual(self.base(set_to(S1, HERE, through=A4) + RETURN + run(S1)), HERE)

    def test_a_pair_that_is_none(self) -> None:
        far = immediate(0x13, 0, S1, S1, 0)
        self.assertIsNone(self.base(far + RETURN + run(S1)))
        self.assertEqual(self.base(set_to(S1, HERE) + NOP * 16 + far + RETURN + run(S1)), HERE)

    def test_how_far(self) -> None:
        # The run that counts begins with the shift, after a return; the ADDI stands 4,096 bytes before it, or two more.
        for more, wanted in ((0, HERE), (1, None)):
            between = [1] * (2046 - len(RETURN) + more) + RETURN
            self.assertEqual(self.base(set_to(S1, HERE) + between + run(S1)), wanted, more)

    def test_compressed_upper(self) -> None:
        # c.lui s1,0x20 would need six bits with a sign; so the data stand at 1f000 here.
        half = 3 << 13 | S1 << 7 | 1 | 0x1F << 2
        setting = Setting(0x10000, struct.pack("<3H", half, *immediate(0x13, 0, S1, S1, 8)), frozenset())
        self.assertEqual(setting.before(S1, 0x10006), 0x1F008)
        self.assertIsNone(setting.before(S1, 0x10004))
        # One of 32 bits that does not end before the ADDI does not count.
        lui = upper(0x37, S1, 0x20)
        self.assertIsNone(Setting(0x10000, struct.pack("<3H", lui[0], *immediate(0x13, 0, S1, S1, 8)), frozenset()).before(S1, 0x10006))

    def test_a_shift_of_an_address(self) -> None:
        self.assertEqual(self.base(set_to(A0, THERE) + set_to(S1, HERE) + RETURN + run(S1)), HERE)

    def test_two_registers(self) -> None:
        halves = set_to(S1, HERE) + set_to(S2, HERE) + RETURN + shift(A0, 2) + add(A5, A0, S1) + load(A5, A5) + add(A5, S2, A5) + JUMP
        self.assertEqual(self.base(halves), HERE)

    def test_a_word_that_is_extended(self) -> None:
        self.assertEqual(self.base(set_to(S1, HERE) + RETURN + run(S1, WORD)), HERE)

    def test_a_slot_of_the_stack(self) -> None:
        reload = load(S1, SP, 24, 3)
        kept = set_to(A4, HERE) + store(24, A4) + set_to(A4, THERE) + store(32, A4)
        self.assertEqual(self.base(kept + RETURN + reload + run(S1)), HERE)
        self.assertIsNone(self.base(kept + RETURN + load(S1, SP, 40, 3) + run(S1)))
        # A store that no pair stands before is passed over.
        self.assertEqual(self.base(kept + store(24, A0) + RETURN + reload + run(S1)), HERE)

    def test_a_first_place_that_gives_no_table(self) -> None:
        # At 50000 is no data. A run that begins with the copy of s2 finds the address to which s2 was set before that.
        halves = set_to(S2, HERE) + RETURN + upper(0x37, S2, 0x50) + immediate(0x13, 0, S1, S2, 0) + run(S1)
        self.assertEqual(self.base(halves), HERE)

    def test_a_declared_table_comes_first(self) -> None:
        halves = set_to(S1, HERE) + RETURN + run(S1)
        record = struct.pack("<QQQII", CODE_AT + 2 * len(halves) - 4, THERE, THERE, 1, 4)
        found = self.table(halves, [Part(".own", KIND, 0, 0, record)])
        self.assertEqual((found.base, found.is_declared) if found else None, (THERE, True))


if __name__ == "__main__":
    unittest.main()
