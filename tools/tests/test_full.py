"""tools/full and tools/guess_calls: what they find, what they take back, and what they say."""

from __future__ import annotations

import struct
import unittest
from typing import List, Sequence

import small
import small_elf
from cfgtools.elf import no_return
from cfgtools.elf.declared_tables import Declared
from cfgtools.elf.elf_file import Memory
from cfgtools.making.hostile import NOP, RETURN, jump
from small import CODE, READ_ONLY, Part
from small_elf import ALLOC, CODE_AT, DATA_AT, STAND_IN, WRITE
import test_add_entries
from test_add_entries import RA, WithFile, symbols
from test_tools import InFolder


class Full(WithFile):
    def full(self, path: str, *words: str) -> List[str]:
        done = self.run_script("full", path, "-o", str(self.folder / "out"), *words, cfg=str(STAND_IN))
        self.assertEqual((done.returncode, done.stderr), (0, ""))
        return done.stdout.splitlines()

    def entries(self) -> List[str]:
        return [symbol.name.decode() for symbol in Memory(str(self.folder / "out")).symbols()]

    def test_cases_are_no_functions(self) -> None:
        # Of the four cases of a switch, in data that is relocated, pointers make entries before its table is declared.
        path = test_add_entries.Switches.program(self, 8, flags=ALLOC | WRITE)  # type: ignore[arg-type]
        said = self.full(path)
        self.assertEqual([name for name in self.entries() if "ptr" in name], [])
        self.assertEqual(list(Declared(Memory(str(self.folder / "out"))).records), [test_add_entries.Switches.JUMP])
        self.assertEqual(said[2:4], ["from the file alone:", "    1 tables of switches beside those that cfg finds, with a bound test"])
        self.assertIn("still open: nothing", said)
        self.assertIn("main may return: ", said[-1])

    def test_what_is_guessed(self) -> None:
        # A function that a pointer names, one that nothing names, and `exit`, whose code returns.
        halves = jump(RA, 16) + NOP * 6 + RETURN * 3
        parts = [small_elf.code(halves), *symbols(2, ["main", "exit"], [CODE_AT, CODE_AT + 16]),
                 small_elf.Part(".data", flags=ALLOC | WRITE, address=DATA_AT, data=struct.pack("<Q", CODE_AT + 20))]
        report = str(self.folder / "report")
        said = self.full(self.elf_file(parts), "--report", report)
        self.assertEqual(said[2:], ["from the file alone:", "    1 functions that do not return, by their names", "guessed:",
                                    "    1 functions that only pointers name", "    1 functions in code that nothing refers to", "still open: nothing",
                                    f"main does not return: tools/query no-return {self.folder / 'out'} 10000"])
        self.assertEqual(self.entries(), ["main", "exit", "entry_gap_10012", "entry_ptr_10014"])
        self.assertEqual(list(no_return.declared(Memory(str(self.folder / "out")))), [CODE_AT + 16])
        with open(report, "rb") as file:
            self.assertTrue(file.read().endswith(b"\nend\n"))

    def test_after_wfi(self) -> None:
        halves = [0x0073, 0x1050] + RETURN
        said = self.full(self.elf_file([small_elf.code(halves), *symbols(2, ["main"], [CODE_AT])]))
        self.assertIn("    1 places after calls of Go's mcall and morestack, or after WFI", said)

    def test_where_it_would_take_the_place_of_the_file(self) -> None:
        path = self.elf_file([small_elf.code(RETURN)])
        done = self.run_script("full", path, "-o", path, cfg=str(STAND_IN))
        self.assertEqual((done.returncode, "would take the place of the file" in done.stderr), (2, True))


# ld a0,0(a0); ld a5,8(a0); jalr a5; ret: a call of the second virtual function of an object.
VIRTUAL = ("00053503", "00853783", "000780E7", "00008067")


class Calls(InFolder):
    FUNCTIONS = "10000 may-return f: 10000 1000c, 10010 may-return g: 10010, 10014 may-return h: 10014"
    BLOCKS = "10000 1000c icall, 1000c 10010 return, 10010 10014 return, 10014 10018 return"

    def guessed(self, words: Sequence[str], parts: Sequence[Part], blocks: str = BLOCKS) -> List[str]:
        code = small.code(*words, "00008067", "00008067")
        self.path = self.file("elf", small.elf([Part(".text", CODE, 0x10000, code), *parts], [("f", 0x10000, 16), ("g", 0x10010, 4), ("h", 0x10014, 4)]))
        self.report = self.file("report", small.report(self.FUNCTIONS, blocks, "10000 1000c after"))
        return self.said("guess_calls", self.path, self.report)

    def test_a_slot(self) -> None:
        # lui a4,0x20; ld a5,8(a4); jalr a5
        said = self.guessed(("00020737", "00873783", "000780E7", "00008067"), [Part(".got", small.WRITABLE, 0x20000, small.doublewords(0, 0x10014))])
        self.assertEqual(said, ["10008 10014 guess  # f+0x8: the pointer at 20008: h", "# 1 of 1 calls and jumps through registers have a guess"])

    def test_a_virtual_function(self) -> None:
        # A table that code at g stores: lui a5,0x20; sd a5,0(a0).
        table = Part(".rodata", READ_ONLY, 0x20000, small.doublewords(0x10010, 0x10014, 0))
        functions = "10000 may-return f: 10000 1000c, 10010 may-return g: 10010, 10014 may-return h: 10014, 10018 may-return made: 10018"
        code = small.code(*VIRTUAL, "00008067", "00008067", "000207B7", "00F53023", "00008067")
        path = self.file("elf", small.elf([Part(".text", CODE, 0x10000, code), table], [("f", 0x10000, 16), ("g", 0x10010, 4), ("h", 0x10014, 4), ("made", 0x10018, 12)]))
        report = self.file("report", small.report(functions, self.BLOCKS + ", 10018 10024 return", "10000 1000c after"))
        said = self.said("guess_calls", path, report)
        self.assertEqual(said[0], "10008 10014 guess  # f+0x8: virtual, at 8 of the table at 20000: h")
        edges = self.file("edges", "\n".join(said).encode())
        self.assertEqual(self.said("query", "reach", "--elf", path, report, "f", "h", "--edges", edges), ["f -> (a guess: icall at 10008) h"])
        self.assertEqual(self.said("query", "callers", "--elf", path, report, "h", "--edges", edges), ["f at 10000, guess from the block at 10000"])
        self.assertIn("style=\"dotted,bold\"", "\n".join(self.said("call_graph", report, "--edges", edges)))

    def test_an_array(self) -> None:
        # lui a4,0x20; slli a0,a0,3; add a0,a0,a4; ld a5,0(a0); jalr a5
        code = small.code("00020737", "00351513", "00E50533", "00053783", "000780E7", "00008067", "00008067", "00008067")
        table = Part(".rodata", READ_ONLY, 0x20000, small.doublewords(0x10018, 0x1001C, 0x10018, 5))
        path = self.file("elf", small.elf([Part(".text", CODE, 0x10000, code), table], [("f", 0x10000, 24), ("g", 0x10018, 4), ("h", 0x1001C, 4)]))
        report = self.file("report", small.report("10000 may-return f: 10000 10014, 10018 may-return g: 10018, 1001c may-return h: 1001c",
                                                  "10000 10014 icall, 10014 10018 return, 10018 1001c return, 1001c 10020 return", "10000 10014 after"))
        self.assertEqual(self.said("guess_calls", path, report)[:2], ["10010 10018 guess  # f+0x10: an entry of the pointers at 20000: g",
                                                                     "10010 1001c guess  # f+0x10: an entry of the pointers at 20000: h"])

    def test_what_may_hide_a_way(self) -> None:
        self.guessed(VIRTUAL, [])
        self.assertEqual(self.said("query", "reach", "--elf", self.path, self.report, "f", "h"), [
            "no way from f to h is known; 1 functions on the way call or jump through a register: f (tools/guess_calls guesses where)"])

    def test_dead(self) -> None:
        # f is the entry, a word of data has the address of h, and nothing that of g.
        self.guessed(VIRTUAL, [Part(".data", small.WRITABLE, 0x20000, small.doublewords(0x10014, 0))])
        self.assertEqual(self.said("query", "dead", "--elf", self.path, self.report), ["g at 10010, 1 blocks, 4 bytes"])


if __name__ == "__main__":
    unittest.main()
