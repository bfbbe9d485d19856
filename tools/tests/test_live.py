"""Live registers: the fifth kind of report in each script that reads it, and the scripts that are about it alone."""

from __future__ import annotations

import json
import os
import re
import shutil
import subprocess
import sys
import unittest
from pathlib import Path

import rows
import small
import stand_in
from cfgtools.checks import listing
from cfgtools.elf.elf_file import Memory
from cfgtools.isa import registers
from cfgtools.reports.cfg_report import Function, Heading, Live, Lives, ReportError
from test_cfg_report import load
from test_tools import InFolder, script

HAS_BINUTILS = any(map(shutil.which, ("riscv64-unknown-elf-objdump", "riscv64-linux-gnu-objdump")))
EVERY = 0xFFFFFFFE


class Masks(unittest.TestCase):
    def test_names(self) -> None:
        self.assertEqual(registers.names_of(1 << 1 | 1 << 10 | 1 << 31), ["ra", "a0", "t6"])
        self.assertEqual(registers.free(EVERY & ~(1 << 15 | 1 << 2)), 1 << 15)
        self.assertEqual(registers.free(EVERY & ~(1 << 15 | 1 << 2), True), 1 << 15 | 1 << 2)

    def test_shown(self) -> None:
        for numbers, text in (
            ((), "none"), ((10,), "a0"), ((10, 11), "a0 a1"), ((10, 11, 12), "a0-a2"), ((5, 6, 7, 28), "t0-t3"), ((1, 9, 8, 18), "s0-s2 ra"),
            (range(1, 32), "t0-t6 a0-a7 s0-s11 ra sp gp tp"), ((11, 13, 14, 15, 17), "a1 a3-a5 a7"),
        ):
            self.assertEqual(registers.shown(sum(1 << r for r in numbers)), text)


class Reader(unittest.TestCase):
    def test_items(self) -> None:
        self.assertEqual(list(load(rows.report(12, "live")).items())[:3], [
            Heading(0x10000), Function(0x10000, True, None, (0x10000, 0x10004)),
            Lives(0x10000, (Live(0x10000, EVERY), Live(0x10004, 0)))])
        self.assertEqual(load(rows.report(9, "live")).lives, {0x10000: {0x10000: 0xFFFFFFFC}})

    def test_what_is_said(self) -> None:
        text = rows.report(6, "live")
        for old, new, line, why in (
            (b"fffffffe", b"FFFFFFFE", 5, "no mask of eight hexadecimal digits"), (b"fffffffe", b"fffffffff", 5, "no mask of eight"),
            (b"fffffffe", b"ffffffff", 5, "has bit 0"), (b"may-return 3", b"may-return 4", 8, "4 lines `live BLOCK MASK` were announced"),
            (b"lives 1", b"functions 1", 5, "1 lines|3 lines `in BLOCK` were announced"), (b"lives 1", b"lives 2", 8, "2 lines `function"),
            (b"live 0000000000010004", b"in 0000000000010004", 6, "3 lines `live BLOCK MASK`"),
            (b"live 0000000000010004", b"live 0000000000010000", 6, "blocks rise"), (b"end", b"blocks 0", 8, "here should be a line `end`"),
        ):
            with self.subTest(new=new), self.assertRaises(ReportError) as caught:
                self.assertNotEqual(text.replace(old, new, 1), text)
                load(text.replace(old, new, 1))
            self.assertRegex(str(caught.exception), f"^line {line}: .*({why})")


class Page(unittest.TestCase):
    def test_example(self) -> None:
        page = (rows.TOOLS.parent / "docs" / "LIVE.md").read_text(encoding="utf-8")
        self.assertIn("```\n" + rows.report(40, "live").decode() + "```", page)

    def test_digits(self) -> None:
        """The table of the digits of a mask."""
        page = (rows.TOOLS.parent / "docs" / "LIVE.md").read_text(encoding="utf-8")
        for digit in range(8):
            names = [registers.NAMES[r] for r in range(31 - 4 * digit, 27 - 4 * digit, -1)]
            self.assertIn(f"| {digit + 1} | {' '.join(names).replace(' zero', ', and 0')} |", page)


NEEDED = ("riscv64-unknown-elf-gcc", "riscv64-unknown-elf-objdump", "qemu-riscv64")


@unittest.skipUnless(all(map(shutil.which, NEEDED)), "no compiler for RISC-V, or no qemu")
class Counter(InFolder):
    """The counter that docs/LIVE.md inserts."""

    def test_counted(self) -> None:
        page = (rows.TOOLS.parent / "docs" / "LIVE.md").read_text(encoding="utf-8").partition("### A counter")[2]
        code, commands, counter = (re.findall(rf"```{kind}\n(.*?)```", page, re.DOTALL)[0] for kind in ("c", "sh", "python"))
        self.folder.joinpath("count.c").write_text(code)
        environment = dict(os.environ, PYTHONPATH=str(rows.TOOLS))

        def done(*words: str) -> int:
            return subprocess.run(words, cwd=self.folder, env=environment).returncode

        self.assertEqual(done(*commands.splitlines()[0].split()), 0)
        elf, graph, live = (str(self.folder / name) for name in ("program.elf", "program.report", "program.live"))
        Path(graph).write_text("\n".join([*stand_in.report(Memory(elf)), ""]))
        Path(live).write_text("\n".join([*self.said("maintain/compare_live", "--report", graph, "--print", elf), ""]))
        self.assertEqual(done(sys.executable, "-B", "-c", counter), 0)
        self.folder.joinpath("counted.elf").chmod(0o755)
        self.assertEqual((done("qemu-riscv64", "program.elf"), done("qemu-riscv64", "counted.elf")), (0, 9))


class Readers(InFolder):
    def test_json(self) -> None:
        found = [json.loads(line) for line in self.said("to_json", self.row(13, "live"))]
        self.assertEqual([one["record"] for one in found], ["report", "function", *["live"] * 5, "end"])
        self.assertEqual({key: found[3][key] for key in ("function", "block", "mask", "free")}, {
            "function": "0000000000010000", "block": "0000000000010008", "mask": "ffff3ffe", "free": ["a4", "a5"]})
        self.assertEqual(len(found[3]["live"]), 29)

    def test_what_cfg_is_asked_for(self) -> None:
        asked, elf, program = self.folder / "asked", self.elf(6), self.folder / "cfg"
        program.write_text(f"#!/bin/sh\necho \"$@\" >>'{asked}'\n[ \"$1\" = --report ] && exec cat '{self.row(6, 'live')}'\nexec cat '{self.row(6)}'\n")
        program.chmod(0o755)
        self.assertIn("report live, entry 0000000000010000", self.said("summary", "--live", elf, cfg=str(program)))
        self.assertIn('"record":"live"', "".join(self.said("to_json", "--live", elf, cfg=str(program))))
        self.said("free_registers", elf, cfg=str(program))
        live, graph = f"--report live -- {elf}\n", f"-- {elf}\n"
        # The graph tells which masks are not to be relied on.
        self.assertEqual(asked.read_text(), live + graph + live + graph + live)

    def test_summary(self) -> None:
        said = self.said("summary", self.row(13, "live"))
        self.assertEqual(said[0], "report live, entry 0000000000010000")
        self.assertIn("masks 5, on average 0.6 registers are free (without sp, gp and tp)", said)
        self.assertIn("    2 or more free: 1 (20.0 %)", said)
        self.assertIn("    most often free: a5, at 2 (40.0 %)", said)

    def test_differences(self) -> None:
        old, new = self.row(13, "live"), self.file("new", rows.report(13, "live").replace(b"ffff7ffe", b"ffffbffe"))
        self.assertEqual(self.said("diff_reports", "--live", old, old), ["0 functions lost, 0 added, 0 changed, 1 the same"])
        self.assertEqual(self.said("diff_reports", "--live", old, new, status=1), [
            "changed 10000: 1 of 5 blocks have another mask, more free: a4 (1), less free: a5 (1)",
            "0 functions lost, 0 added, 1 changed, 0 the same"])
        self.assertEqual(self.said("diff_reports", "--live", self.row(6, "live"), self.row(17, "live"), status=1)[0], "added g")
        self.assertIn("one of kind live is needed", self.run_main("diff_reports", "--live", old, self.row(13))[2])

    def test_other_kinds_are_refused(self) -> None:
        for name, words in (("draw", ["REPORT", "10000"]), ("call_graph", ["REPORT"]), ("query", ["where", "REPORT", "10000"]), ("diff_reports", ["REPORT", "REPORT"])):
            with self.subTest(name=name):
                done = self.run_script(name, *(self.row(1, "live") if word == "REPORT" else word for word in words))
                self.assertEqual(done.returncode, 2)
                self.assertRegex(done.stderr, "one of kind graph is needed\n$")


class FreeRegisters(InFolder):
    def test_function(self) -> None:
        path = self.row(13, "live")
        self.assertEqual(self.said("free_registers", path, "10000"), [
            "10000 at 10000, 5 blocks; free at all of them: none", "    10000   1  a5", "    10008   2  a4 a5",
            "at 3 blocks no register is free:", "    10020 10024 10028"])
        self.assertEqual(self.said("free_registers", "--at-least", "2", path, "10008"), [
            "10000 at 10000, 5 blocks; free at all of them: none", "    10008   2  a4 a5",
            "at 4 blocks fewer than 2 registers are free:", "    10000 10020 10024 10028"])
        self.assertEqual(self.said("free_registers", self.row(16, "live"), "10000")[1:], [
            "    10000  28  t0-t6 a0-a7 s0-s11 ra", "there is no block at which no register is free"])
        self.assertIn("  31  t0-t6 a0-a7 s0-s11 ra sp gp tp", self.said("free_registers", "--with-reserved", self.row(16, "live"), "10000")[1])

    def test_program(self) -> None:
        self.assertEqual(self.said("free_registers", self.row(10, "live")), [
            "10000 10000, 3 blocks: free at all: none, fewest 0 at 10000, none at 2", "1000c 1000c, 2 blocks: free at all: none, fewest 0 at 10010, none at 1",
            "2 of 5 blocks (40.0 %) have 1 or more free registers, on average 0.4; in 0 of 2 functions all blocks do", "most often free: ra 40 %"])
        self.assertEqual(self.said("free_registers", self.row(17, "live"))[1], "1000c g, 1 block: free at all: none, fewest 0 at 1000c, none at 1")

    def test_refused(self) -> None:
        self.assertIn("this is a report of kind graph, and one of kind live is needed", self.run_main("free_registers", self.row(6))[2])
        self.assertIn("no function has the name", self.run_main("free_registers", self.row(6, "live"), "main")[2])
        self.assertEqual(self.run_main("free_registers", "--at-least", "0", self.row(6, "live"))[0], 2)


class NotReliedOn(InFolder):
    """beqz a0, to `max a0,a0,a1`, which is not decoded; jump behind it; that instruction; ret: by the report a1 and the rest
    are free at it, and at the block before."""

    CODE = small.code("00050463 00C0006F 0AB56533 00008067 00000013 00008067")
    GRAPH = small.report("10000 may-return f: 10000 10004 10008 10010", "10000 10004 branch, 10004 10008 jump, 10008 1000a stop, 10010 10018 return",
                         "10000 10004 fall, 10000 10008 taken, 10004 10010 jump")
    LIVE = (b"cfg-report 2\nentry 0000000000010000\nlives 1\nfunction 0000000000010000 may-return 4 f\nlive 0000000000010000 7ffffffe\n"
            b"live 0000000000010004 7ffffffe\nlive 0000000000010008 00000000\nlive 0000000000010010 7ffffffe\nend\n")

    def setUp(self) -> None:
        super().setUp()
        self.path = self.file("elf", small.elf([small.Part(".text", small.CODE, 0x10000, self.CODE)], [("f", 0x10000, 24)]))
        graph, live = self.file("graph", self.GRAPH), self.file("live", self.LIVE)
        self.cfg = self.file("cfg", f'#!/bin/sh\n[ "$1" = --report ] && exec cat {live}\nexec cat {graph}\n'.encode())
        Path(self.cfg).chmod(0o755)

    def test_free_registers(self) -> None:
        said = self.said("free_registers", self.path, "f", cfg=self.cfg)
        self.assertEqual(said, [
            "f at 10000, 4 blocks; free at all of them: none", "    10004   1  t6", "    10010   1  t6", "at 2 blocks no register is free:", "    10000 10008",
            "of these, the masks of 2 blocks are not to be relied on, since an instruction that is not decoded is reached from them:", "    10000 10008"])
        said = self.said("free_registers", "--elf", self.path, self.file("live", self.LIVE), cfg=self.cfg)
        self.assertIn("of the others, the masks of 2 blocks are not to be relied on, since an instruction that is not decoded is reached from them", said)
        # Without the file nothing is told apart.
        self.assertIn("    10008  28  t0-t6 a0-a7 s0-s11 ra", self.said("free_registers", self.file("live", self.LIVE), "f"))

    def test_summary_and_picture(self) -> None:
        said = self.said("summary", "--live", self.path, cfg=self.cfg)
        self.assertIn("    and 2 that are not to be relied on, since an instruction that is not decoded is reached from them", said)
        self.assertIn("    1 or more free: 2 (100.0 %)", said)
        drawn = "\n".join(self.said("draw", "--live", self.path, "f", cfg=self.cfg))
        self.assertEqual(drawn.count("not to be relied on:"), 2)
        self.assertEqual(drawn.count("free:"), 2)


class Pictures(InFolder):
    def test_beside_blocks(self) -> None:
        said = "\n".join(self.said("draw", "--lives", self.row(13, "live"), self.row(13), "10000"))
        self.assertIn('10008 to 10020: table<br/>24 bytes</td><td border="1" sides="L" cellpadding="4" align="left" balign="left" valign="top">'
                      '<font color="darkgreen">free:<br/>a4<br/>a5</font></td>', said)
        self.assertIn("free:<br/>none", said)
        self.assertNotIn("free:", "\n".join(self.said("draw", self.row(13), "10000")))

    def test_refused(self) -> None:
        self.assertIn("--live needs the ELF file", self.run_main("draw", "--live", self.row(13), "10000")[2])
        self.assertIn("no live registers of the function at 10000", self.run_main("draw", "--lives", self.row(6, "live"), self.row(13), "10000")[2])
        self.assertIn("without --edges and --sure", self.run_main("draw", "--sure", "--lives", self.row(13, "live"), self.row(13), "10000")[2])

    @unittest.skipUnless(shutil.which("dot"), "dot is not installed")
    def test_dot_draws(self) -> None:
        path = str(self.folder / "a.svg")
        self.said("draw", "--elf", self.elf(13), "--lives", self.row(13, "live"), "-o", path, self.row(13), "10000")
        self.assertIn("free:", Path(path).read_text(encoding="utf-8"))


class CompareLive(InFolder):
    def test_effects(self) -> None:
        tool = script("compare_live")
        for line, reads, writes in (
            ("addi x10,x11,-1", {11}, {10}), ("addi x0,x0,0", set(), set()), ("c.addi x10,-1", {10}, {10}), ("c.addi16sp x2,-32", {2}, {2}),
            ("c.addi4spn x8,x2,16", {2}, {8}), ("c.li x10,5", set(), {10}), ("c.mv x10,x11", {11}, {10}), ("c.add x10,x11", {10, 11}, {10}),
            ("c.sub x8,x9", {8, 9}, {8}), ("c.srai x8,0x3", {8}, {8}), ("c.slli64 x1", {1}, {1}), ("lui x10,0x12", set(), {10}), ("c.lui x10,0x12", set(), {10}),
            ("c.ldsp x1,8(x2)", {2}, {1}), ("c.sdsp x1,8(x2)", {1, 2}, set()), ("sd x10,-8(x11)", {10, 11}, set()), ("lw x10,0(x10)", {10}, {10}),
            ("beq x10,x11,10150", {10, 11}, set()), ("c.beqz x8,10150", {8}, set()), ("jal x1,10150", set(), {1}), ("c.j 10150", set(), set()),
            ("jalr x1,0(x5)", {5}, {1}), ("jalr x0,0(x1)", {1}, set()), ("c.jr x1", {1}, set()), ("c.jalr x5", {5}, {1}),
            ("lr.w.aq x10,(x11)", {11}, {10}), ("sc.d x10,x12,(x11)", {11, 12}, {10}), ("amoadd.w.aqrl x0,x12,(x11)", {11, 12}, set()),
            ("csrrw x0,fcsr,x10", {10}, set()), ("csrrs x10,fflags,x0", set(), {10}), ("csrrwi x10,frm,3", set(), {10}), ("fence iorw,iorw", set(), set()),
            ("fld f10,0(x10)", {10}, set()), ("fsw f10,4(x11)", {11}, set()), ("c.fsdsp f8,16(x2)", {2}, set()), ("fcvt.w.s x10,f10,rtz", set(), {10}),
            ("fcvt.d.w f10,x10", {10}, set()), ("fmv.x.d x10,f11", set(), {10}), ("feq.d x10,f11,f12", set(), {10}), ("fmadd.d f1,f2,f3,f4", set(), set()),
            ("ecall", set(range(1, 32)), set()), ("ebreak", set(), set()), ("none x1,x2", set(), set()), ("c.unimp", set(), set()),
        ):
            mnemonic, _, operands = line.partition(" ")
            with self.subTest(line=line):
                self.assertEqual(tool.effects_of(mnemonic, operands.split(",") if operands else []), (reads, writes))

    @unittest.skipUnless(HAS_BINUTILS, "objdump is not installed")
    def test_rows(self) -> None:
        """The masks of the rows were worked out by hand."""
        for number in rows.ROWS:
            with self.subTest(row=number):
                said = self.said("compare_live", "--report", self.row(number), "--print", self.elf(number))
                self.assertEqual("\n".join(said) + "\n", rows.report(number, "live").decode())

    @unittest.skipUnless(HAS_BINUTILS, "objdump is not installed")
    def test_fences_that_objdump_does_not_read(self) -> None:
        """FENCE.I whose other fields are not zero has four bytes, and is no c.mv of s1 behind two of something else."""
        elf = self.file("fence", small.elf([small.Part(".text", small.CODE, 0x10000, small.code("84D69D8F 00008067"))], []))
        graph = self.file("graph", small.report("10000 may-return -: 10000", "10000 10008 return"))
        self.assertIn("live 0000000000010000 fffffffe", self.said("compare_live", "--report", graph, "--print", elf))

    @unittest.skipUnless(HAS_BINUTILS, "objdump is not installed")
    def test_rounding_modes_that_are_reserved(self) -> None:
        """objdump lists an instruction whose rounding mode is reserved. By the profile it is none, and stops."""
        elf = self.file("rounding", small.elf([small.Part(".text", small.CODE, 0x10000, small.code("09E1DB4F 00008067"))], []))
        found = listing.Listing(str(elf))
        self.assertEqual((found.line(0x10000).mnemonic, found.flow_at(0x10000).kind), ("none", "stop"))

    @unittest.skipUnless(HAS_BINUTILS, "objdump is not installed")
    def test_files_that_are_made(self) -> None:
        """A script stands in for cfg, which knows no jump tables."""
        cfg = self.folder / "cfg"
        stand_in, live = rows.TOOLS / "tests" / "stand_in.py", rows.MAINTAIN / "compare_live"
        cfg.write_text(f"""#!/bin/sh
[ $# = 0 ] && exit 1
[ "$1" = --report ] || exec '{sys.executable}' -B '{stand_in}' "$1"
'{sys.executable}' -B '{stand_in}' "$3" >'{self.folder}/graph' && exec '{sys.executable}' -B '{live}' --report '{self.folder}/graph' --print "$3"
""")
        cfg.chmod(0o755)
        said = self.run_script("compare_live", "--made", "6", "--seed", "3", cfg=str(cfg)).stdout.splitlines()
        self.assertRegex(said[-1], r"^\d of 6 files, \d+ masks: 0 differences$")

    @unittest.skipUnless(HAS_BINUTILS, "objdump is not installed")
    def test_differences(self) -> None:
        elf, graph = self.elf(6), self.row(6)
        said = self.said("compare_live", "--report", graph, "--live", self.row(6, "live"), elf)
        self.assertRegex(said[-1], "1 functions, 3 masks, 31.0 of 31 registers are live on average .*: 0 differences$")
        wrong = self.file("wrong", rows.report(6, "live").replace(b"10000 fffffffe", b"10000 ffffffde"))
        said = self.said("compare_live", "--report", graph, "--live", wrong, elf, status=1)
        self.assertEqual(said[:2], ["10000 at 10000, block 10000: the report has ffffffde, and here it is fffffffe",
                                    "    the report lacks t0: 10000 > 10004 > 1000c, which leaves the function"])
        more = self.file("more", rows.report(16, "live").replace(b"00000000\nend", b"00000400\nend"))
        said = self.said("compare_live", "--report", self.row(16), "--live", more, self.elf(16), status=1)
        self.assertEqual(said[1], "    only the report has a0")
        self.assertIn("is not there", self.said("compare_live", "--report", self.row(17), "--live", self.row(6, "live"), self.elf(17), status=1)[1])


if __name__ == "__main__":
    unittest.main()
