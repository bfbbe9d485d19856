"""The instructions of further extensions, the architecture that a file names, and what scripts say of it."""

from __future__ import annotations

import re
import shutil
import subprocess
import unittest
from typing import List, Optional

import small
import small_elf
from cfgtools.checks import binutils, listing
from cfgtools.checks.listing import Listing
from cfgtools.checks.pattern_tables import Tables
from cfgtools.elf.table_patterns import Table
from cfgtools.elf import architecture
from cfgtools.elf.elf_file import Elf, Memory
from cfgtools.isa import decoding, extensions
from cfgtools.making.hostile import RETURN
from small_elf import Part, code
from test_add_entries import WithFile
from test_tools import ends_first
from test_tools import InFolder, script

# Each extension with words of it, as an assembler writes them (LLVM 19).
WORDS = """
zba: 20c5a533 sh1add a0,a1,a2|20c5c533 sh2add a0,a1,a2|20c5e533 sh3add a0,a1,a2|20c5a53b sh1add.uw a0,a1,a2|20c5c53b sh2add.uw a0,a1,a2|20c5e53b sh3add.uw a0,a1,a2|08c5853b add.uw a0,a1,a2|0835951b slli.uw a0,a1,3|0a85951b slli.uw a0,a1,40
zbb: 40c5f533 andn a0,a1,a2|40c5e533 orn a0,a1,a2|40c5c533 xnor a0,a1,a2|60c59533 rol a0,a1,a2|60c5d533 ror a0,a1,a2|60c5953b rolw a0,a1,a2|60c5d53b rorw a0,a1,a2|62d5d513 rori a0,a1,45|6055d51b roriw a0,a1,5|6b85d513 rev8 a0,a1|0805c53b zext.h a0,a1|60059513 clz a0,a1|60159513 ctz a0,a1|60259513 cpop a0,a1|6005951b clzw a0,a1|6015951b ctzw a0,a1|6025951b cpopw a0,a1|60459513 sext.b a0,a1|60559513 sext.h a0,a1|0ac5c533 min a0,a1,a2|0ac5d533 minu a0,a1,a2|0ac5e533 max a0,a1,a2|0ac5f533 maxu a0,a1,a2|2875d513 orc.b a0,a1
zbs: 48c59533 bclr a0,a1,a2|48c5d533 bext a0,a1,a2|68c59533 binv a0,a1,a2|28c59533 bset a0,a1,a2|4bc59513 bclri a0,a1,60|4bc5d513 bexti a0,a1,60|6bc59513 binvi a0,a1,60|2bc59513 bseti a0,a1,60
zbc: 0ac59533 clmul a0,a1,a2|0ac5a533 clmulr a0,a1,a2|0ac5b533 clmulh a0,a1,a2
zbkb: 08c5c533 pack a0,a1,a2|08c5f533 packh a0,a1,a2|08c5c53b packw a0,a1,a2|6875d513 brev8 a0,a1
zbkx: 28c5a533 xperm4 a0,a1,a2|28c5c533 xperm8 a0,a1,a2
zicond: 0ec5d533 czero.eqz a0,a1,a2|0ec5f533 czero.nez a0,a1,a2
zawrs: 00d00073 wrs.nto|01d00073 wrs.sto
zicbom: 0005200f cbo.inval (a0)|0015200f cbo.clean (a0)|0025200f cbo.flush (a0)
zicboz: 0045200f cbo.zero (a0)
zfh: 00251507 flh fa0,2(a0)|00a51127 fsh fa0,2(a0)|e4050553 fmv.x.h a0,fa0|f4050553 fmv.h.x fa0,a0|40258553 fcvt.s.h fa0,fa1|4405f553 fcvt.h.s fa0,fa1|42258553 fcvt.d.h fa0,fa1|4415f553 fcvt.h.d fa0,fa1|04c5f553 fadd.h fa0,fa1,fa2|6cc5f543 fmadd.h fa0,fa1,fa2,fa3|a4c58553 fle.h a0,fa1,fa2|c4057553 fcvt.w.h a0,fa0|d4357553 fcvt.h.lu fa0,a0|5c05f553 fsqrt.h fa0,fa1|e4051553 fclass.h a0,fa0|24c5a553 fsgnjx.h fa0,fa1,fa2|2cc59553 fmax.h fa0,fa1,fa2
zfbfmin: 4065f553 fcvt.s.bf16 fa0,fa1|4485f553 fcvt.bf16.s fa0,fa1
zfa: f01a0553 fli.s fa0,2.0|f21a0553 fli.d fa0,2.0|4045f553 fround.s fa0,fa1|4255f553 froundnx.d fa0,fa1|28c5a553 fminm.s fa0,fa1,fa2|2ac5b553 fmaxm.d fa0,fa1,fa2|c2859553 fcvtmod.w.d a0,fa1,rtz|a0c5c553 fleq.s a0,fa1,fa2|a2c5d553 fltq.d a0,fa1,fa2
zacas: 28b6252f amocas.w a0,a1,(a2)|28b6352f amocas.d a0,a1,(a2)|28c7452f amocas.q a0,a2,(a4)
zabha: 00b6052f amoadd.b a0,a1,(a2)|e0b6152f amomaxu.h a0,a1,(a2)|0eb6052f amoswap.b.aqrl a0,a1,(a2)
zimop: 81c5c573 mop.r.0 a0,a1|cdf5c573 mop.r.31 a0,a1|cec5c573 mop.rr.7 a0,a1,a2
v: 022180d7 vadd.vv v1,v2,v3|022540d7 vadd.vx v1,v2,a0|022550d7 vfadd.vf v1,v2,fa0|42102557 vmv.x.s a0,v1|42182557 vcpop.m a0,v1|4218a557 vfirst.m a0,v1|0c05f557 vsetvli a0,a1,e8,m1,ta,ma|cc027557 vsetivli a0,4,e8,m1,ta,ma|80c5f557 vsetvl a0,a1,a2|02050087 vle8.v v1,(a0)|0ab56087 vlse32.v v1,(a0),a1|06257087 vluxei64.v v1,(a0),v2|020550a7 vse16.v v1,(a0)|0ac570a7 vsse64.v v1,(a0),a2|5e01b0d7 vmv.v.i v1,3|962560d7 vmul.vx v1,v2,a0
zcb: 81e8 c.lbu a0,3(a1)|85a8 c.lhu a0,2(a1)|85e8 c.lh a0,2(a1)|89c8 c.sb a0,1(a1)|8da8 c.sh a0,2(a1)|9d61 c.zext.b a0|9d65 c.sext.b a0|9d69 c.zext.h a0|9d6d c.sext.h a0|9d71 c.zext.w a0|9d75 c.not a0|9d4d c.mul a0,a1
zknd: 3ac58533 aes64ds a0,a1,a2|3ec58533 aes64dsm a0,a1,a2|30059513 aes64im a0,a1|31059513 aes64ks1i a0,a1,0|31a59513 aes64ks1i a0,a1,10|7ec58533 aes64ks2 a0,a1,a2
zkne: 32c58533 aes64es a0,a1,a2|36c58533 aes64esm a0,a1,a2
zknh: 10059513 sha256sum0 a0,a1|10159513 sha256sum1 a0,a1|10259513 sha256sig0 a0,a1|10359513 sha256sig1 a0,a1|10459513 sha512sum0 a0,a1|10559513 sha512sum1 a0,a1|10659513 sha512sig0 a0,a1|10759513 sha512sig1 a0,a1
zksh: 10859513 sm3p0 a0,a1|10959513 sm3p1 a0,a1
zksed: 70c58533 sm4ed a0,a1,a2,1|f4c58533 sm4ks a0,a1,a2,3
zicfiss: 48b6252f ssamoswap.w a0,a1,(a2)|4eb6352f ssamoswap.d.aqrl a0,a1,(a2)
zcmop: 6081 c.mop.1|6281 c.mop.5|6781 c.mop.15
"""
ASSEMBLER = ("llvm-mc-19", "llvm-mc")
FEATURES = {"zcb": "+c,+zcb,+zbb,+zba,+m", "zcmop": "+c,+zimop,+zcmop", "zabha": "+a,+zabha,+experimental-zabha",
            "zacas": "+a,+experimental-zacas", "zfa": "+d,+zfa", "zfh": "+d,+zfh", "zfbfmin": "+d,+zfbfmin", "zicfiss": "+a,+experimental-zicfiss"}


def groups() -> "List[tuple[str, List[List[str]]]]":
    found = []
    for line in WORDS.strip().split("\n"):
        name, _, items = line.partition(": ")
        found.append((name, [item.split(" ", 1) for item in items.split("|")]))
    return found


class Rows(unittest.TestCase):
    def test_each_word(self) -> None:
        for name, items in groups():
            for digits, text in items:
                word = int(digits, 16)
                with self.subTest(text=text):
                    data = bytes.fromhex(digits)[::-1]
                    self.assertIsNone(extensions.decode(data, 0x10000))
                    self.assertIn(name, " ".join(extensions.names_needed(word) or ()))
                    names = frozenset(extensions.names_needed(word) or ())
                    one = extensions.decode(data, 0x10000, names)
                    assert one is not None
                    self.assertEqual(one.length, len(data))
                    mnemonic = text.split(" ")[0]
                    if name not in ("zcb", "zcmop", "zimop", "v"):
                        self.assertEqual(one.name, mnemonic.split(".aq")[0])
                    if re.match(r"\S+ a0\b", text) and not re.match(r"c\.s[bh] ", text):
                        self.assertEqual(one.written, 10)
                    self.assertEqual(decoding.decode(word, names).length, len(data))
                    self.assertIn("of the extension", extensions.told(word) or "")

    @unittest.skipUnless(any(map(shutil.which, ASSEMBLER)), "llvm-mc is not installed")
    def test_words_are_those_of_an_assembler(self) -> None:
        tool = next(it for it in map(shutil.which, ASSEMBLER) if it)
        for name, items in groups():
            text = "".join(item[1] + "\n" for item in items)
            done = subprocess.run([tool, "-triple=riscv64", f"-mattr={FEATURES.get(name, '+' + name)}", "-show-encoding"],
                                  input=text, capture_output=True, text=True)
            if done.returncode == 0:
                said = [bytes(int(byte, 16) for byte in one.split(","))[::-1].hex() for one in re.findall(r"encoding: \[(.*?)\]", done.stdout)]
                self.assertEqual(said, [digits for digits, _ in items], name)

    def test_no_row_is_of_the_base(self) -> None:
        for name, items in groups():
            for digits, text in items:
                self.assertIsNone(extensions.instructions.decoded(int(digits, 16)), text)

    def test_what_compares_and_swaps_reads_its_destination(self) -> None:
        names = frozenset(("zacas", "zabha"))
        for digits, read, written, pair in (
            ("28b6252f", {10, 11, 12}, 10, None), ("28b6152f", {10, 11, 12}, 10, None), ("28c7452f", {10, 11, 12, 13, 14}, 10, 11),
            ("28c7402f", {0, 12, 13, 14}, None, None), ("2807452f", {10, 11, 0, 14}, 10, 11),
        ):
            one = extensions.decode(bytes.fromhex(digits)[::-1], 0, names)
            assert one is not None
            self.assertEqual((set(one.read), one.written, one.others), (read, written, (pair,) if pair else ()), one.text)
            line = listing.of_named(binutils.Line(4, int(digits, 16), ".4byte", []), names)
            assert line is not None
            self.assertEqual(script("compare_live").effects_of(line.mnemonic, line.operands),
                             (read - {0}, {register for register in (written, pair) if register}), one.text)

    def test_reserved_words(self) -> None:
        # A pair of registers begins at an even one, and two numbers name no rounding mode.
        every = frozenset(name for name, _ in groups())
        for digits in ("28c745af", "04c5d553", "6001"):
            self.assertIsNone(extensions.decode(bytes.fromhex(digits)[::-1], 0, every))
        self.assertEqual(extensions.told(0x10500073), "of a privileged mode")
        self.assertEqual(extensions.shown(0x12000073), "12000073 sfence.vma")
        self.assertEqual(extensions.told(0x0000000B), "of an extension of a vendor (custom-0)")
        self.assertIsNone(extensions.told(0x0000707F))


class Taken(unittest.TestCase):
    """What a file names may take the encodings of F and D away."""

    def expect(self, text: str, names: str, digits: str, read: str, written: str) -> None:
        one = extensions.decode(bytes.fromhex(digits)[::-1], 0, frozenset(names.split()))
        assert one is not None, text
        found = [one.written, *one.others] if one.written is not None else []
        self.assertEqual(({f"x{r}" for r in one.read if r}, {f"x{r}" for r in found}), (set(read.split()), set(written.split())), text)

    def test_floats_in_integer_registers(self) -> None:
        for digits, text, read, written in (
            ("6ac5f543", "fmadd.d x10,x11,x12,x13", "x11 x12 x13", "x10"), ("d02372d3", "fcvt.s.l x5,x6", "x6", "x5"),
            ("a23100d3", "fle.d x1,x2,x3", "x2 x3", "x1"), ("e2059553", "fclass.d x10,x11", "x11", "x10"), ("043170d3", "fadd.h x1,x2,x3", "x2 x3", "x1"),
            ("022552d7", "vfadd.vf v5,v2,x10", "x10", ""), ("421012d7", "vfmv.f.s x5,v1", "", "x5"),
        ):
            self.expect(text, "zfinx zhinx v", digits, read, written)
        for digits in ("0005b507", "00a5b027", "e2050553", "f2050553", "2108", "a108", "2502", "a02a"):
            self.assertIsNone(extensions.decode(bytes.fromhex(digits)[::-1], 0, frozenset(("zfinx",))), digits)
        self.assertIsNone(extensions.decode(bytes.fromhex("043170d3")[::-1], 0, frozenset(("zfinx", "zhinxmin"))))
        self.expect("fcvt.s.h x1,x2", "zfinx zhinxmin", "402100d3", "x2", "x1")

    def test_pushes_and_pops(self) -> None:
        saved = "x8 x9 x18 x19 x20 x21 x22 x23 x24 x25"
        for digits, text, read, written in (
            ("b852", "cm.push {x1,x8},-16", "x1 x2 x8", "x2"), ("bae2", "cm.pop {x1,x8-x9,x18-x25},112", "x2", f"x1 x2 {saved}"),
            ("bef2", "cm.popret {x1,x8-x9,x18-x27},112", "x2", f"x1 x2 {saved} x26 x27"), ("bc42", "cm.popretz {x1},16", "x2", "x1 x2 x10"),
            ("afa2", "cm.mvsa01 x23,x8", "x10 x11", "x8 x23"), ("affe", "cm.mva01s x23,x23", "x23", "x10 x11"),
            ("a07e", "cm.jt 31", "", ""), ("a082", "cm.jalt 32", "", "x1"),
        ):
            self.expect(text, "zcmp zcmt", digits, read, written)
            one = extensions.decode(bytes.fromhex(digits)[::-1], 0, frozenset(("zcmp", "zcmt")))
            self.assertEqual(one is not None and one.is_straight, text[:6] not in ("cm.pop", "cm.jt ", "cm.jal") or text.startswith("cm.pop "), text)
        for digits in ("b832", "aca6", "2108", "a502"):
            self.assertIsNone(extensions.decode(bytes.fromhex(digits)[::-1], 0, frozenset(("zcmp", "zcmt"))), digits)

    def test_words_of_a_vendor(self) -> None:
        for digits, name in (("f8b6450b", "vendor"), ("44c5c50b", "th.lrw"), ("04c5950b", "th.addsl")):
            one = extensions.decode(bytes.fromhex(digits)[::-1], 0, frozenset(("xthead",)))
            assert one is not None
            self.assertEqual((one.name, set(one.read), one.written), (name, {10, 11, 12}, None))


class Architecture(unittest.TestCase):
    def test_names(self) -> None:
        for text, wanted in (
            ("rv64i2p1_m2p0_a2p1_f2p2_d2p2_c2p0_zicsr2p0_zba1p0_zbb1p0_v1p0", "i m a f d c zicsr zba zbb v"),
            ("rv64gczba_zbb", "g c zba zbb"), ("rv64gczbazbb", "g c zbazbb"), ("RV64GC_ZBS", "g c zbs"), ("rv64gc_b", "g c b zba zbb zbs"),
            ("RV64I2_m2b1zba1_Zbkc1p0", "i m b zba zbb zbs zbkc"), ("rv64i2p", "i p"), ("rv64i2pb", "i p b zba zbb zbs"),
            ("rv64zba", ""), ("rv64c_zba", ""), ("rv64_i_zba", ""), ("rva23u64", ""), ("rv32i_zba", ""), ("", ""), ("rv64gc__zbs_", "g c zbs"),
            ("rv64gc_b1-zbc_zbs", "g c zbs"), ("rv64gc_1b_zbs", "g c zbs"), ("rv64gc-_zbs", "zbs"), ("rv64i_zkb1p", "i zkb1p"),
            ("rv64i_zbs1p0p1", "i zbs1p"), ("rv64i_zvl128b1p0", "i zvl128b"), ("rv64i_z1", "i z"), ("rv64imafdcsu_zba", "i m a f d c su zba"),
            ("rv64gc_zve32x1p0_zvl128b1p0", "g c zve32x zvl128b v"), ("rv64gc_xtheadba1p0", "g c xtheadba xthead"),
            ("rv64i_zk", "i zk zbkb zbkc zbkx zkne zknd zknh"), ("rv64i_zks", "i zks zbkb zbkc zbkx zksed zksh"),
            ("rv64imac_zce", "i m a c zce zcb zcmp zcmt"), ("rv64i_zdinx_zfh_zfa", "i zdinx zfinx"),
        ):
            self.assertEqual(architecture.names(text), frozenset(wanted.split()), text)

    def test_text(self) -> None:
        section = architecture.section("rv64gc_zbb")
        self.assertEqual(architecture.text_of(section), "rv64gc_zbb")
        attribute = b"\x04\x10\x05rv64gc\0"

        def whole(attributes: bytes, tag: bytes = b"\x01") -> bytes:
            return tag + (len(tag) + 4 + len(attributes)).to_bytes(4, "little") + attributes

        def vendor(parts: bytes, name: bytes = b"riscv") -> bytes:
            return (5 + len(name) + len(parts)).to_bytes(4, "little") + name + b"\0" + parts

        good = vendor(whole(attribute))
        for data, wanted in (
            (b"A" + good, "rv64gc"), (b"B" + good, None), (b"A" + vendor(b"", b"gnu") + good, "rv64gc"), (b"A" + good[:-1], None),
            (b"A" + vendor(whole(b"\x05rv64i\0", b"\x02") + whole(attribute)), "rv64gc"), (b"A" + vendor(whole(b"\x04\x80")), None),
            (b"A" + b"\xff\0\0\0gnu\0" + good, None), (b"", None), (b"A", None), (b"A" + vendor(whole(b"\x84\x00\x81\x01\x05rv64gc\0")), "rv64gc"),
            (b"A" + vendor(whole(b"\x84\x00\x01\x85\x00rv64gc\0")), "rv64gc"),
        ):
            self.assertEqual(architecture.text_of(data), wanted, data)


class Files(WithFile):
    # max a0,a0,a1; ret
    MAX = [0x6533, 0x0AB5]

    def test_what_a_file_names_is_decoded(self) -> None:
        named = Part(".riscv.attributes", architecture.KIND, 0, 0, architecture.section("rv64gc_zbb"))
        path = self.elf_file([code(self.MAX + RETURN), named])
        self.assertEqual(Elf(path).extensions, {"g", "c", "zbb"})
        self.assertEqual(decoding.decode(0x0AB56533, Memory(path).extensions).rd, 10)
        self.assertEqual(Elf(self.elf_file([code(RETURN)], "none")).extensions, frozenset())
        # The first section of the type decides.
        two = [Part("broken", architecture.KIND, 0, 0, b"B"), named]
        self.assertIsNone(Elf(self.elf_file([code(RETURN), *two], "two")).architecture)

    def test_a_stop_and_what_to_do(self) -> None:
        report = self.file("report", small.report("10000 no-return -: 10000", "10000 10002 stop"))
        said = ends_first(self.said("unresolved", "--last", "0", self.elf_file([code(self.MAX + RETURN)]), report))
        self.assertIn("10000 stop in 10000: an instruction that cfg does not decode, of the extension Zbb (0ab56533 max)"
                      "; try add_entries with --arch rv64gc_zbb", said[0])
        path = self.elf_file([code(self.MAX + RETURN)])
        self.added(path, "--arch", "rv64gc_zbb")
        self.assertEqual(Elf(str(self.folder / "out")).architecture, "rv64gc_zbb")
        self.refused(path, "--arch", "rv64gc-zbb", why="names no")

    def test_an_old_section_is_replaced(self) -> None:
        named = Part(".riscv.attributes", architecture.KIND, 0, 0, architecture.section("rv64gc"))
        path = self.elf_file([code(RETURN), named])
        self.added(path, "--arch", "rv64gc_v")
        self.assertEqual(Elf(str(self.folder / "out")).architecture, "rv64gc_v")
        kinds = [section.kind for section in Memory(str(self.folder / "out")).sections]
        self.assertEqual(kinds.count(architecture.KIND), 1)


@unittest.skipIf(binutils.missing(binutils.READELF, binutils.OBJDUMP), "binutils are not installed")
class FromOutside(InFolder):
    """What the checks from outside make of the instructions of a file that names them."""

    # A bound test, and `sh2add a0,a0,a4` in the place of slli and add: li a5,1; bltu a5,a0; lui a4; sh2add; lw; add; jr; ret; ret.
    TABLE = small.code("00100793 02A7E063", "00020737 20E54533", "00052783 00E787B3 00078067", "00008067 00008067 00008067")
    ENTRIES = small.words(0x1001C - 0x20000, 0x10020 - 0x20000)

    def elf_named(self, code: bytes, text: str, name: str = "elf") -> str:
        parts = [small_elf.Part(".text", 1, 6, 0x10000, code), small_elf.Part(".rodata", 1, 2, 0x20000, self.ENTRIES),
                 small_elf.Part(".riscv.attributes", architecture.KIND, 0, 0, architecture.section(text))]
        return self.file(name, small_elf.file_of(parts))

    def table(self, text: str) -> Optional[Table]:
        return Tables(Listing(self.elf_named(self.TABLE, text))).table(0x10018, "x15")

    def test_a_table_whose_index_is_scaled_and_added_at_once(self) -> None:
        found = self.table("rv64gc_zba")
        assert found is not None
        self.assertEqual((found.base, found.width, found.is_open, found.targets), (0x20000, 4, False, (0x1001C, 0x10020)))
        self.assertIsNone(self.table("rv64gc"))

    def test_scripts_find_it_too(self) -> None:
        path = self.elf_named(self.TABLE, "rv64gc_zba")
        report = self.file("report", small.report(
            "10000 may-return -: 10000 10008 1001c 10020 10024", "10000 10008 branch, 10008 1001c table, 1001c 10020 return, 10020 10024 return, 10024 10028 return",
            "10000 10008 fall, 10000 10024 taken, 10008 1001c table, 10008 10020 table"))
        self.assertIn("table 20000 of the jump at 10018 in 10018: table, 2 entries of 4 bytes", self.said("check_report", "--tables", "--elf", path, report))

    def test_lines_and_registers(self) -> None:
        tool = script("compare_live")
        for word, reads, writes in (("0AB56533", {10, 11}, {10}), ("0EC5F533", {11, 12}, {10}), ("02050087", {10}, set()), ("022180D7", set(), set()),
                                    ("28B6252F", {10, 11, 12}, {10}), ("0055200F", set(), set())):
            listing = Listing(self.elf_named(small.code(word, "00008067"), "rv64gc_zbb_zicond_v_zacas", f"elf_{word}"))
            line = listing.line(0x10000)
            if word == "0055200F":
                self.assertEqual(line.mnemonic, "none")
                continue
            self.assertEqual((line.length, listing.flow_at(0x10000).kind), (4, "fall"), word)
            self.assertEqual(tool.effects_of(line.mnemonic, line.operands), (reads, writes), word)
        plain = Listing(self.elf_named(small.code("0AB56533", "00008067"), "rv64gc", "plain"))
        self.assertEqual((plain.line(0x10000).mnemonic, plain.flow_at(0x10000).kind), ("none", "stop"))


if __name__ == "__main__":
    unittest.main()
