"""The decoder: words and what they are, as the listings of the standard and an assembler have them."""

from __future__ import annotations

import unittest

import rows
from cfgtools.isa import decoding
from cfgtools.isa.instructions import decode

# (it puts the folder of the scripts on the path)
assert rows.TOOLS
# The bytes as a number, at address 10000, and the instruction.
LISTED = """
00000013 nop|00020737 lui a4,0x20|00351513 slli a0,a0,0x3|00053783 ld a5,0(a0)|00078067 jr a5|000780e7 jalr a5|00008067 ret
00058463 beqz a1,10008|fe051ee3 bnez a0,fffc|010000ef jal 10010|0000006f j 10000|ff5ff06f j fff4|0000f517 auipc a0,0xf
fff50513 addi a0,a0,-1|4ff5d513 .|4035d513 srai a0,a1,0x3|03f5d513 srli a0,a1,0x3f|0035d51b srliw a0,a1,0x3|02c58533 mul a0,a1,a2
00c5b023 sd a2,0(a1)|fec5ae23 sw a2,-4(a1)|00c5f027 .|00c5b027 fsd fa2,0(a1)|0005a507 flw fa0,0(a1)|00100073 ebreak|00000073 ecall
100525af lr.w a1,(a0)|18b5252f sc.w a0,a1,(a0)|00b5352f amoadd.d a0,a1,(a0)|06b5252f amoadd.w.aqrl a0,a1,(a0)|c0001073 csrrw zero,0xc00,zero
02c5f553 fadd.d fa0,fa1,fa2|420581d3 fcvt.d.s ft3,fa1|c2059553 fcvt.w.d a0,fa1|6ac5f543 fmadd.d fa0,fa1,fa2,fa3|57060007 .
0001 nop|8082 ret|8782 jr a5|9782 jalr a5|9002 ebreak|0000 .|4501 li a0,0|852e mv a0,a1|953e add a0,a0,a5|1141 addi sp,sp,-16
e406 sd ra,8(sp)|60a2 ld ra,8(sp)|6582 ld a1,0(sp)|410c lw a1,0(a0)|e10c sd a1,0(a0)|c111 beqz a0,10004|fd75 bnez a0,fffc|a001 j 10000
7179 addi sp,sp,-48|1808 addi a0,sp,48|6505 lui a0,0x1|757d lui a0,0xfffff|8d0d sub a0,a0,a1|9d2d addw a0,a0,a1|2505 addiw a0,a0,1
050e slli a0,a0,0x3|810d srli a0,a0,0x3|8905 andi a0,a0,1|2388 fld fa0,0(a5)|a388 fsd fa0,0(a5)|8002 .|6101 .|2001 .
"""


class Decoder(unittest.TestCase):
    def test_listed(self) -> None:
        for item in LISTED.strip().replace("\n", "|").split("|"):
            number, _, text = item.partition(" ")
            with self.subTest(number=number):
                one = decode(bytes.fromhex(number)[::-1], 0x10000)
                if text == ".":
                    self.assertIsNone(one)
                elif not text.endswith(" ."):
                    assert one is not None
                    self.assertEqual((one.text, one.length), (text, len(number) // 2))

    def test_cut_off(self) -> None:
        self.assertIsNone(decode(b"\x13\x00", 0))
        self.assertIsNone(decode(b"\x01", 0))
        self.assertIsNone(decode(b"", 0))

    def test_registers(self) -> None:
        for number, written, read in (("00c58533", 10, (11, 12)), ("00c5b023", None, (11, 12)), ("00053783", 15, (10,)), ("00008067", None, (1,)),
                                      ("000780e7", 1, (15,)), ("00058463", None, (11, 0)), ("02c5f553", None, ()), ("c2059553", 10, ()), ("953e", 10, (10, 15))):
            one = decode(bytes.fromhex(number)[::-1], 0)
            assert one is not None
            self.assertEqual((one.written, one.read), (written, read), number)

    def test_what_scripts_want_of_it(self) -> None:
        # As decoding.py has them: the name, the length, rd, rs1, rs2 and the immediate.
        for word, wanted in (
            (0x00351513, ("slli", 4, 10, 10, 0, 3)), (0x0000F517, ("auipc", 4, 10, 0, 0, 0xF000)), (0x00C5B023, ("sd", 4, 0, 11, 12, 0)),
            (0xFE051EE3, ("bne", 4, 0, 10, 0, -4)), (0x008000EF, ("jal", 4, 1, 0, 0, 8)), (0x8082, ("jalr", 2, 0, 1, 0, 0)),
            (0x852E, ("add", 2, 10, 0, 11, 0)), (0x4501, ("addi", 2, 10, 0, 0, 0)), (0x9002, ("ebreak", 2, 0, 0, 0, 0)), (0x60A2, ("ld", 2, 1, 2, 0, 8)),
            # Of others whether they write an integer register.
            (0x02C58533, ("calculated", 4, 10, 0, 0, 0)), (0x100525AF, ("calculated", 4, 11, 0, 0, 0)), (0xC2059553, ("calculated", 4, 10, 0, 0, 0)),
            (0x02C5F553, ("other", 4, 0, 0, 0, 0)), (0x2388, ("other", 2, 0, 0, 0, 0)), (0x00000073, ("other", 4, 0, 0, 0, 0)),
            # Of further extensions: sh1add, vadd.vv, min; and mret.
            (0x20C5A533, ("sh1add", 4, 10, 11, 12, 0)), (0x57, ("other", 4, 0, 0, 0, 0)), (0x0AC5C533, ("calculated", 4, 10, 0, 0, 0)),
            (0x30200073, ("mret", 4, 0, 0, 0, 0)),
            # No instruction: no rounding mode, a reserved halfword, zeros.
            (0x02C5E553, ("?", 2, 0, 0, 0, 0)), (0x8002, ("?", 2, 0, 0, 0, 0)), (0x0000, ("?", 2, 0, 0, 0, 0)),
        ):
            self.assertEqual(tuple(decoding.decode(word)), wanted, f"{word:x}")


if __name__ == "__main__":
    unittest.main()
