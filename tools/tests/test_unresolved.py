"""Lost code by functions, reasons, and reports of another file."""

from __future__ import annotations

import unittest
from typing import Sequence

import small
from small import CODE, READ_ONLY, WRITABLE, Part
from test_tools import InFolder, ends_first

# lui a4,0x20; slli a0,a0,3; add a0,a0,a4; ld a5,0(a0); then jr a5, or jalr a5.
ADDRESS, INDEX, JUMP, CALL = "00020737", "00351513 00E50533 00053783", "00078067", "000780E7"
NOP, RET = "00000013", "00008067"
CASES = small.doublewords(0x10000, 0x10004)

# What is said of a jump of which a table can be declared.
BY_RUN = "; try add_entries with --trace or --tables, which declare its targets"


class Files(InFolder):
    def unresolved(self, code: bytes, report: bytes, parts: Sequence[Part] = (), size: int = 0) -> "list[str]":
        symbols = [("f", 0x10000, size or len(code))]
        elf = small.elf([Part(".text", CODE, 0x10000, code), *parts], symbols)
        return ends_first(self.said("unresolved", "--last", "0", self.file("elf", elf), self.file("report", report)))


class Reasons(Files):
    def of_table(self, code: bytes, part: Part) -> str:
        """What is said of a jump at the end of one block, behind which eight bytes are lost."""
        end = 0x10000 + len(code)
        report = small.report("10000 may-return f: 10000", f"10000 {end:x} unknown")
        return self.unresolved(code + small.code(RET, RET), report, [part])[0]

    def test_tables(self) -> None:
        rodata = Part(".rodata", READ_ONLY, 0x20000, CASES)
        near = small.code(ADDRESS, INDEX, JUMP)
        far = small.code(ADDRESS, *[NOP] * 14, INDEX, JUMP)
        just_near = small.code(ADDRESS, *[NOP] * 12, INDEX, JUMP)
        lost = "; not reached: 8 of {} bytes of f"
        for code, part, why in (
            (near, Part(".data.rel.ro", WRITABLE, 0x20000, CASES), "a jump table in a section that can be written to (20000 in .data.rel.ro, 8-byte entries)"),
            (near, Part(".rodata", READ_ONLY, 0x20000, small.doublewords(0x40000)), "a jump table whose first entry leads to no code (20000 in .rodata, 8-byte entries, to 40000)"),
            (near, Part(".rodata", READ_ONLY, 0x30000, CASES), "a jump table that lies in no section (20000, in no section, 8-byte entries)"),
            (far, rodata, "a jump table whose calculation begins more than 16 instructions before the jump (20000 in .rodata, 8-byte entries; 18 instructions)"),
            (just_near, rodata, "a jump table; what keeps it from being found is not told (20000 in .rodata, 8-byte entries)"),
        ):
            with self.subTest(why=why):
                at = 0x10000 + len(code) - 4
                said = self.of_table(code, part)
                told = f"{at:x} unknown in f+{at - 0x10000:#x}: {why}" + lost.format(len(code) + 8)
                self.assertEqual(said[:len(told)], told)

    def test_a_bound_test_of_a_copy(self) -> None:
        # sext.w a4,a0; li a5,1; bltu a5,a4 to the last ret; slli a5,a0,32; lui a4; srli a0,a5,30; add a0,a0,a4; lw a5,0(a0); add a5,a5,a4; jr a5
        code = small.code("0005071B", "00100793", "02E7E463", "02051793", ADDRESS, "01E7D513", "00E50533", "00052783", "00E787B3", JUMP, RET, RET, RET)
        table = Part(".rodata", READ_ONLY, 0x20000, small.words(0x10028 - 0x20000, 0x1002C - 0x20000))
        functions = "10000 may-return f: 10000 1000c 10028 1002c 10030"
        blocks = "10000 1000c branch, 1000c 10028 table-open, 10028 1002c return, 1002c 10030 return, 10030 10034 return"
        report = small.report(functions, blocks, "10000 1000c fall, 10000 10030 taken, 1000c 10028 table, 1000c 1002c table")
        told = "a table whose bound test stands in none of the patterns by which cfg finds the end of one"
        self.assertEqual(self.unresolved(code, report, [table])[0], f"10024 table-open in f+0x24: {told} (2 successors; bltu a5,a4,10030 at 10008 "
                         "lets 2 values on, of a copy that addiw a4,a0,0 at 10000 makes)")
        # (the test of another register is none)
        other = code[:8] + small.code("02B7E463") + code[12:]
        self.assertIn("table-open in f+0x24: a table without a bound test: where it ends is not known (2 successors)", self.unresolved(other, report, [table])[0])

    def test_address_before_a_branch(self) -> None:
        # lui a4; beqz a1 to the ret; the rest of the calculation; jr a5; ret
        code = small.code(ADDRESS, "00058A63", INDEX, JUMP, RET)
        report = small.report("10000 may-return f: 10000 10008 10018", "10000 10008 branch, 10008 10018 unknown, 10018 1001c return",
                              "10000 10008 fall, 10000 10018 taken")
        said = self.unresolved(code, report, [Part(".rodata", READ_ONLY, 0x20000, CASES)])
        self.assertIn("a jump table whose calculation begins before the last branch or jump (20000 in .rodata, 8-byte entries; lui a4,0x20 at 10000)", said[0])

    def test_a_call_through_a_table_is_no_jump_table(self) -> None:
        report = small.report("10000 may-return f: 10000 10014", "10000 10014 icall, 10014 10018 return", "10000 10014 after")
        said = self.unresolved(small.code(ADDRESS, INDEX, CALL, RET), report, [Part(".rodata", READ_ONLY, 0x20000, CASES)])
        self.assertEqual(said[0], "10010 icall in f+0x10: a table of pointers to functions (20000 in .rodata, 8-byte entries)")

    def test_only_what_reaches_the_jump_counts(self) -> None:
        # jalr a1; li a1,5; ret: the li is behind the call.
        report = small.report("10000 may-return f: 10000 10004", "10000 10004 icall, 10004 1000c return", "10000 10004 after")
        said = self.unresolved(small.code("000580E7 00500593", RET), report)
        self.assertEqual(said[0], "10000 icall in f: through an argument of the function (a1)")
        # li a5,5; beqz a0, to the ret; ld a5,0(a0); jalr a5; ret: the load is above the call.
        report = small.report("10000 may-return f: 10000 10008 10010", "10000 10008 branch, 10008 10010 icall, 10010 10014 return",
                              "10000 10008 fall, 10000 10010 taken, 10008 10010 after")
        said = self.unresolved(small.code("00500793 00050663 00053783 000780E7", RET), report)
        self.assertEqual(said[0], "1000c icall in f+0xc: through a pointer in memory (ld a5,0(a0) at 10008)")

    def test_behind_calls(self) -> None:
        # A call of g, and then jr a1; by x1 it may have set a1, by x5 it is a routine that saves registers.
        report = small.report("10000 may-return f: 10000 10004, 10008 may-return g: 10008", "10000 10004 call, 10004 10008 unknown, 10008 1000c return",
                              "10000 10004 after, 10000 10008 call")
        for word, why in (("008000EF", "through the result of a call (a1, the call at 10000)"), ("008002EF", "through an argument of the function (a1)")):
            self.assertEqual(self.unresolved(small.code(word, "00058067 00008067"), report)[0], f"10004 unknown in f+0x4: {why}{BY_RUN}")

    def test_several_ways(self) -> None:
        # mv a5,a1 ; beqz a0,+8 ; ld a5,0(a0) ; jr a5
        report = small.report("10000 may-return f: 10000 10008 1000c", "10000 10008 branch, 10008 1000c fall, 1000c 10010 unknown",
                              "10000 10008 fall, 10000 1000c taken, 10008 1000c fall")
        said = self.unresolved(small.code("00058793 00050463 00053783", JUMP), report)
        self.assertEqual(said[0], "1000c unknown in f+0xc: through a register that is set in several ways (a5: a pointer in memory; an argument of the function)" + BY_RUN)


class Lost(Files):
    def test_lost_bytes(self) -> None:
        # f is 40 bytes, of which a table hides 16; g behind it 8 bytes, of which 4 are lost behind its return; 4 in no symbol.
        code = small.code(ADDRESS, INDEX, JUMP, "00000000", RET, *[NOP] * 3, RET, NOP, NOP)
        parts = [Part(".text", CODE, 0x10000, code), Part(".data.rel.ro", WRITABLE, 0x20000, CASES)]
        elf = self.file("elf", small.elf(parts, [("f", 0x10000, 0x28), ("g", 0x28 + 0x10000, 8)]))
        report = self.file("report", small.report("10000 may-return f: 10000, 10028 may-return g: 10028",
                                                  "10000 10014 unknown, 10028 1002c return"))
        said = ends_first(self.said("unresolved", elf, report))
        self.assertIn("; not reached: 20 of 40 bytes of f; try add_entries with --switches, which declares its table: 2 cases | ", said[0])
        self.assertEqual(said[1:5], [
            "code 52 bytes, not reached 28 in 2 ranges, by functions:", "    20 of 40 bytes of f at 10000, by the jump at 10010",
            "    4 of 8 bytes of g at 10028, by no jump of it that may lead there", "    4 bytes in 1 ranges that belong to no function symbol"])
        summary = self.said("summary", "--elf", elf, report)
        self.assertRegex("\n".join(summary), r"code 52 bytes, reached 24 \(46.2 %\), in 2 ranges not reached 28\b")
        self.assertIn("    most is lost of: f at 10000, 20 of 40 bytes not reached", summary)
        self.assertIn('label="f, 1 blocks, may return, 20 of 40 bytes not reached"', "\n".join(self.said("draw", "--elf", elf, report, "f")))

    def test_most_first(self) -> None:
        code = small.code(ADDRESS, INDEX, JUMP, RET, ADDRESS, INDEX, JUMP, RET, RET, RET)
        parts = [Part(".text", CODE, 0x10000, code), Part(".data.rel.ro", WRITABLE, 0x20000, CASES)]
        elf = self.file("elf", small.elf(parts, [("f", 0x10000, 0x18), ("g", 0x10018, 0x20)]))
        report = self.file("report", small.report("10000 may-return f: 10000, 10018 may-return g: 10018",
                                                  "10000 10014 unknown, 10018 1002c unknown"))
        self.assertEqual([line.split(" ")[0] for line in ends_first(self.said("unresolved", elf, report))[:2]], ["10028", "10010"])

    def test_behind_a_call_that_does_not_return(self) -> None:
        # f: call of g; ret. g: jump to itself.
        elf = self.file("elf", small.elf([Part(".text", CODE, 0x10000, small.code("008000EF", RET, "0000006F"))], [("f", 0x10000, 8), ("g", 0x10008, 4)]))
        report = self.file("report", small.report("10000 no-return f: 10000, 10008 no-return g: 10008",
                                                  "10000 10004 call, 10008 1000c jump", "10000 10008 call, 10008 10008 jump"))
        self.assertIn("    4 of 8 bytes of f at 10000, after calls that do not return, the first of g at 10000", self.said("unresolved", elf, report))


class Many(InFolder):
    # Thirty functions: jr a5, and one that is called through a0.
    def files(self) -> "tuple[str, str]":
        count = 30
        code = small.code(*["00078067"] * count, "000500E7", RET)
        functions = ", ".join(f"{at:x} may-return f{at:x}: {at:x}" for at in range(0x10000, 0x10000 + 4 * count, 4)) + ", 10078 may-return g: 10078 1007c"
        blocks = ", ".join(f"{at:x} {at + 4:x} unknown" for at in range(0x10000, 0x10000 + 4 * count, 4)) + ", 10078 1007c icall, 1007c 10080 return"
        elf = small.elf([Part(".text", CODE, 0x10000, code)], [(f"f{at:x}", at, 4) for at in range(0x10000, 0x10000 + 4 * count, 4)] + [("g", 0x10078, 8)])
        return self.file("elf", elf), self.file("report", small.report(functions, blocks, "10078 1007c after"))

    def test_totals_first_and_twenty_lines(self) -> None:
        said = self.said("unresolved", *self.files())
        self.assertEqual(said[:3], ["31 of 32 blocks (96.9 %) end where a successor is unknown or may be false",
                                    "    30  unknown  through an argument of the function", "     1  icall    through an argument of the function"])
        # One of each cause comes first.
        self.assertEqual([line.split(" ")[0] for line in said[3:6]], ["10000", "10078", "10004"])
        self.assertEqual((said[23], said[24].split(" ")[0]), ("and 11 more (--all shows all)", "code"))
        self.assertEqual(len([line for line in self.said("unresolved", "--all", *self.files()) if line.startswith("100")]), 31)


class OtherFiles(InFolder):
    def test_a_report_of_another_file(self) -> None:
        report = self.file("report", small.report("10000 may-return f: 10000", "10000 10004 return"))
        text = small.code(RET, RET)
        for elf, why in (
            (small.elf([Part(".text", CODE, 0x10000, text)], [("f", 0x10000, 8)], 0x10004), "the report's entry is 10000, and the file's 10004"),
            (small.elf([Part(".text", CODE, 0x20000, text), Part(".data", WRITABLE, 0x10000, text)], []), "the block from 10000 to 10004 of the report does not lie in its code"),
            (small.elf([Part(".text", CODE, 0x10000, small.code(NOP, RET))], []), "the block from 10000 to 10004 of the report ends with return, and its code does not"),
        ):
            path = self.file("elf", elf)
            for words in (("summary", "--elf", path, report), ("unresolved", path, report), ("draw", "--elf", path, report, "f"),
                          ("to_json", "--elf", path, report), ("call_graph", "--elf", path, report), ("query", "where", "--elf", path, report, "10000"),
                          ("diff_reports", "--elf", path, path, report, report), ("coverage", "--elf", path, "--trace", path, report)):
                with self.subTest(script=words[0], why=why):
                    status, said, error = self.run_main(*words)
                    self.assertEqual(status, 2)
                    self.assertIn(f"this is no report of {path}: {why}", error)
                    self.assertEqual(said, [])


if __name__ == "__main__":
    unittest.main()
