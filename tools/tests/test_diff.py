"""What diff_reports says of code that is not reached, and of instructions."""

from __future__ import annotations

import unittest

import small
from small import CODE, WRITABLE, Part
from test_tools import InFolder

# f: a jump through a register, and 12 bytes behind it; g: a return.
JUMP, RET, NOP = "00058067", "00008067", "00000013"
FUNCTIONS, BLOCKS = "10000 may-return f: 10000, 10010 may-return g: 10010", "10000 10004 unknown, 10010 10014 return"


class Unreached(InFolder):
    def build(self, name: str, rest: str, at: int = 0x10000) -> "tuple[str, str]":
        code = small.code(JUMP, rest, RET)
        symbols = [("f", at, 16), ("g", at + 16, 4)]
        parts = [Part(".text", CODE, at, code), Part(".data", WRITABLE, at + 0x1000, bytes(64))]
        report = small.report(FUNCTIONS, BLOCKS).replace(b"00000001", f"{at >> 12:07x}0".encode()[:8] if at != 0x10000 else b"00000001")
        return self.file(name + ".elf", small.elf(parts, symbols, at)), self.file(name, report)

    def test_reports_alone(self) -> None:
        path = self.build("a", f"{RET} {NOP} {RET}")[1]
        self.assertEqual(self.said("diff_reports", path, path), [
            "not compared f: 12 of 16 bytes in A, 12 of 16 in B",
            "0 functions lost, 0 added, 0 changed, 0 changed in bytes alone, 1 the same, 1 the same as far as they are reached",
            "not compared, since not reached: 12 bytes in A, 12 in B, of 1 functions; --elf A B compares them"])

    def test_changed_where_it_is_not_reached(self) -> None:
        (a, report), (b, _) = self.build("a", f"FFF50513 00150513 {RET}"), self.build("b", f"FFF50513 {NOP} {RET}")
        self.assertEqual(self.said("diff_reports", "--elf", a, b, report, report, status=1), [
            "changed f: of the code that is not reached 4 bytes differ, first at 10008 (addi a0,a0,1) and 10008 (nop)",
            "0 functions lost, 0 added, 1 changed, 0 changed in bytes alone, 1 the same",
            "not reached, and compared by instructions: 12 bytes in A, 12 in B; not compared, since in no function symbol: 0 bytes in A, 0 in B"])
        self.assertEqual(self.said("diff_reports", "--elf", a, a, report, report)[0], "0 functions lost, 0 added, 0 changed, 0 changed in bytes alone, 2 the same")

    def test_moved(self) -> None:
        # auipc and addi of an address in .data, which has moved nearer; a jump to g.
        a = self.build("a", "00001517 00450513 0040006F")
        b_elf = small.elf([Part(".text", CODE, 0x20000, small.code(JUMP, "00002517 00C50513 0040006F", RET)), Part(".data", WRITABLE, 0x22000, bytes(64))],
                          [("f", 0x20000, 16), ("g", 0x20010, 4)], 0x20000)
        b_report = small.report(FUNCTIONS.replace("100", "200"), BLOCKS.replace("100", "200"), entry="20000")
        b = self.file("b.elf", b_elf), self.file("b", b_report)
        self.assertEqual(self.said("diff_reports", "--elf", a[0], b[0], a[1], b[1])[0],
                         "0 functions lost, 0 added, 0 changed, 0 changed in bytes alone, 2 the same")
        # The same but for the register.
        c_elf = small.elf([Part(".text", CODE, 0x20000, small.code(JUMP, "00002597 00C58593 0040006F", RET)), Part(".data", WRITABLE, 0x22000, bytes(64))],
                          [("f", 0x20000, 16), ("g", 0x20010, 4)], 0x20000)
        self.assertIn("changed f: ", self.said("diff_reports", "--elf", a[0], self.file("c.elf", c_elf), a[1], b[1], status=1)[0])

    def test_instructions_of_blocks(self) -> None:
        files = []
        for name, word in (("a", "00150513"), ("b", "00250513")):
            elf = small.elf([Part(".text", CODE, 0x10000, small.code(word, RET))], [("f", 0x10000, 8)])
            files.append(self.file(name + ".elf", elf))
        report = self.file("report", small.report("10000 may-return f: 10000", "10000 10008 return"))
        self.assertEqual(self.said("diff_reports", "--elf", *files, report, report)[0], "0 functions lost, 0 added, 0 changed, 1 changed in bytes alone, 0 the same")


class WithoutNames(InFolder):
    # _start calls one function, which has moved by 40 bytes in the second build, and then jumps to another one.
    BLOCKS = "10000 10004 call, 10004 10008 jump, 10010 10014 branch, 10014 10018 return, {a} {b} return"
    EDGES = "10000 10004 after, 10000 {a} call, 10004 10010 tail, 10010 10010 taken, 10010 10014 fall"
    FUNCTIONS = "10000 may-return _start: 10000 10004, 10010 may-return -: 10010 10014, {a} may-return -: {a}"

    def build(self, name: str, start: str, end: str) -> str:
        return self.file(name, small.report(*(text.format(a=start, b=end) for text in (self.FUNCTIONS, self.BLOCKS, self.EDGES))))

    def test_one_that_moved(self) -> None:
        old, new = self.build("old", "10020", "10024"), self.build("new", "10048", "1004c")
        said = self.said("diff_reports", old, new)
        self.assertEqual([line for line in said if line.startswith(("lost", "added", "changed"))], [])
        self.assertIn("0 functions lost, 0 added, 0 changed, 0 changed in bytes alone", said[-2])

    def test_one_that_changed_where_it_is(self) -> None:
        old, new = self.build("old", "10020", "10024"), self.build("new", "10020", "1002c")
        self.assertIn("0 functions lost, 0 added, 0 changed, 1 changed in bytes alone", self.said("diff_reports", old, new)[-2])

    def test_one_more(self) -> None:
        old = self.build("old", "10020", "10024")
        more = [text.format(a="10048", b="1004c") for text in (self.FUNCTIONS, self.BLOCKS, self.EDGES)]
        new = self.file("new", small.report(more[0] + ", 10050 may-return -: 10050", more[1] + ", 10050 10052 return", more[2]))
        said = self.said("diff_reports", old, new, status=1)
        self.assertEqual([line for line in said if line.startswith(("lost", "added", "changed"))], ["added 10050: 1 block, may-return"])


if __name__ == "__main__":
    unittest.main()
