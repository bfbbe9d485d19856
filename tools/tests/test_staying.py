"""Functions that do not return by a report: why, and which may after all."""

from __future__ import annotations

import unittest
from typing import List

import small
import small_elf
from cfgtools.elf import no_return
from cfgtools.making.hostile import NOP, RETURN, jump
from small import CODE, Part
from small_elf import CODE_AT
from test_add_entries import WithFile, symbols
from test_tools import InFolder

RET, CALL_4, CALL_8 = "00008067", "004000EF", "008000EF"


class Doubts(InFolder):
    def asked(self, code: bytes, functions: str, blocks: str, edges: str, names: "List[tuple[str, int, int]]", question: str = "no-return") -> "list[str]":
        elf = self.file("elf", small.elf([Part(".text", CODE, 0x10000, code)], names))
        self.words = ("--elf", elf, self.file("report", small.report(functions, blocks, edges)))
        return self.said("query", question, *self.words)

    def ends(self, word: str, end: int = 0x1000A) -> "list[str]":
        """What is said of a function that calls g, whose code ends with an instruction that is not decoded."""
        return self.asked(small.code(CALL_8, RET, word, RET), "10000 no-return f: 10000, 10008 no-return g: 10008", f"10000 10004 call, 10008 {end:x} stop",
                          "10000 10008 call", [("f", 0x10000, 8), ("g", 0x10008, 8)])

    def test_instructions_that_are_not_decoded(self) -> None:
        for word, what in (("0AB56533", "0ab56533 max, of the extension Zbb"), ("10500073", "10500073 wfi, of a privileged mode"),
                           ("30200073", "30200073 mret, of a privileged mode"), ("10200073", "10200073 sret, of a privileged mode"),
                           ("12000073", "12000073 sfence.vma, of a privileged mode"), ("0000707F", "0000707f"),
                           ("02008057", "02008057 vector.arithmetic, of the extension V")):
            with self.subTest(word=word):
                said = self.ends(word)
                self.assertEqual(said[0], f"f at 10000: MAY RETURN AFTER ALL, through g: the instruction at 10008 is not decoded ({what}); "
                                          "calls g, which does not return, at 10000")
                self.assertIn(f"g at 10008: MAY RETURN AFTER ALL, the instruction at 10008 is not decoded ({what}); stops at 10008", said[1])

    def test_ends_that_are_meant(self) -> None:
        for word, end in (("00100073", 0x1000C), ("C0001073", 0x1000A), ("00000000", 0x1000A), ("00019002", 0x1000A)):
            with self.subTest(word=word):
                self.assertNotIn("AFTER ALL", "\n".join(self.ends(word, end)))

    def test_an_end_of_the_code(self) -> None:
        said = self.asked(small.code("00000013"), "10000 no-return f: 10000", "10000 10004 stop", "", [("f", 0x10000, 4)])
        self.assertIn("MAY RETURN AFTER ALL, the code ends at 10004", said[0])

    def test_every_script_says_it(self) -> None:
        self.ends("0AB56533")
        _, elf, report = self.words
        self.assertIn("    of these may return after all 2 (tools/query no-return): f, through g: the instruction at 10008 is not decoded "
                      "(0ab56533 max, of the extension Zbb); g, the instruction", "\n".join(self.said("summary", *self.words)))
        said = "\n".join(self.said("unresolved", elf, report))
        self.assertIn("2 functions are said not to return, and may after all; what calls them ends there:\n    f at 10000, through g: the", said)
        self.assertIn(f"    tools/add_entries {elf} -o more.elf --arch rv64gc_zbb", said)
        picture = "\n".join(self.said("draw", *self.words, "f")).replace("\\n", " ")
        self.assertIn("does not return by the report, and may after all (through g: the instruction at 10008", picture)
        self.assertIn('"doubt":"through g: ', "\n".join(self.said("query", "no-return", "--json", *self.words)))

    def test_morestack(self) -> None:
        code = small.code(CALL_8, RET, "0000006F")
        functions = "10000 no-return f: 10000, 10008 no-return runtime.morestack_noctxt: 10008"
        said = self.asked(code, functions, "10000 10004 call, 10008 1000c jump", "10000 10008 call, 10008 10008 jump",
                          [("f", 0x10000, 8), ("runtime.morestack_noctxt", 0x10008, 4)])
        self.assertIn("f at 10000: MAY RETURN AFTER ALL, through runtime.morestack_noctxt: it is Go's morestack, which comes back by ways of its own", said[0])
        self.assertEqual(self.said("query", "behind", *self.words, "runtime.morestack_noctxt"), ["behind_10004 10004"])
        text = "\n".join(self.said("unresolved", self.words[1], self.words[2]))
        self.assertIn(f"    tools/add_entries {self.words[1]} -o more.elf --after", text)

    def test_each_way_of_go(self) -> None:
        code = small.code(CALL_8, RET, "0000006F", "004000EF", "0000006F")
        functions = "10000 no-return f: 10000, 10008 no-return runtime.mcall: 10008, 1000c no-return g: 1000c, 10010 no-return runtime.morestack.abi0: 10010"
        said = self.asked(code, functions, "10000 10004 call, 10008 1000c jump, 1000c 10010 call, 10010 10014 jump",
                          "10000 10008 call, 10008 10008 jump, 1000c 10010 call, 10010 10010 jump",
                          [("f", 0x10000, 8), ("runtime.mcall", 0x10008, 4), ("g", 0x1000C, 4), ("runtime.morestack.abi0", 0x10010, 4)])
        self.assertIn("it is Go's mcall, which comes back by ways of its own", "\n".join(said))
        text = "\n".join(self.said("unresolved", self.words[1], self.words[2]))
        self.assertEqual(text.count(f"tools/add_entries {self.words[1]} -o more.elf --after"), 1)

    def test_behind_wfi(self) -> None:
        self.ends("10500073")
        self.assertEqual(self.said("query", "behind", *self.words), ["behind_1000c 1000c"])
        self.ends("30200073")
        self.assertEqual(self.said("query", "behind", *self.words), [])

    def test_what_returns_is_not_doubted(self) -> None:
        # A function that calls one which may return, and loops; and one whose way ends in a loop beside what is not decoded.
        said = self.asked(small.code(CALL_8, "0000006F", RET), "10000 no-return f: 10000 10004, 10008 may-return g: 10008",
                          "10000 10004 call, 10004 10008 jump, 10008 1000c return", "10000 10004 after, 10000 10008 call, 10004 10004 jump",
                          [("f", 0x10000, 8), ("g", 0x10008, 4)])
        self.assertEqual(said, ["f at 10000: loops for ever at 10004"])


class ByName(WithFile):
    # main calls `longjmp`, whose code returns.
    def test_a_call_that_does_not_come_back(self) -> None:
        path = self.elf_file([small_elf.code(jump(1, 8) + RETURN + NOP + RETURN + NOP), *symbols(2, ["main", "longjmp"], [CODE_AT, CODE_AT + 8])])
        said = self.run_script("query", "no-return", path, cfg=str(small_elf.STAND_IN)).stdout
        self.assertEqual(said, "main at 10000: calls longjmp, which by its name does not come back, at 10000\n")

    def test_one_that_the_file_declares(self) -> None:
        section = small_elf.Part(".cfg.no_return", no_return.KIND, 0, 0, small_elf.words(CODE_AT + 8))
        path = self.elf_file([small_elf.code(jump(1, 8) + RETURN + NOP + RETURN + NOP), *symbols(2, ["main", "leave"], [CODE_AT, CODE_AT + 8]), section])
        said = self.run_script("query", "no-return", path, cfg=str(small_elf.STAND_IN)).stdout
        self.assertEqual(said, "main at 10000: calls leave, which does not return, as the file declares, at 10000\n")


if __name__ == "__main__":
    unittest.main()
