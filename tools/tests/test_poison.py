"""poison: the code that blocks jump to, and a small program that is run with random numbers in its dead registers."""

from __future__ import annotations

import random
import shutil
import subprocess
import sys
import unittest
from pathlib import Path

import rows
import small
from cfgtools.checks import binutils
from cfgtools.elf.elf_file import Elf
from cfgtools.isa.instructions import Instruction, decode
from cfgtools.making.hostile import code_bytes
from test_tools import InFolder, script

SOURCE = r"""
long call(long number, long a, long b, long c) {
    register long a7 __asm__("a7") = number, a0 __asm__("a0") = a, a1 __asm__("a1") = b, a2 __asm__("a2") = c;
    __asm__ volatile("ecall" : "+r"(a0) : "r"(a7), "r"(a1), "r"(a2) : "memory");
    return a0;
}
__attribute__((noinline)) long mixed(long x, long n) { long s = 0; for (long i = 0; i < n; i++) s += i & 1 ? x * i : x ^ s; return s; }
void _start(void) {
    char text[17];
    long value = mixed(12345, 20) + mixed(7, 3);
    for (int i = 0; i < 16; i++) text[i] = "0123456789abcdef"[value >> 4 * i & 15];
    text[16] = '\n';
    call(64, 1, (long)text, 17);
    call(93, 7, 0, 0);
    for (;;) { }
}
"""
LACKING = binutils.missing(binutils.GCC, binutils.OBJDUMP, binutils.READELF, "qemu-riscv64")


def insn(word: int, at: int = 0x10000) -> Instruction:
    found = decode(word.to_bytes(4, "little"), at)
    assert found is not None
    return found


class Moved(unittest.TestCase):
    def read(self, halves, at: int):  # type: ignore[no-untyped-def]
        """The text of each of some instructions, which stand at an address."""
        data, found = code_bytes(halves), []
        while data:
            one = decode(data, at)
            assert one is not None
            found.append(one.text)
            data, at = data[one.length:], at + one.length
        return found

    def test_what_is_done_elsewhere(self) -> None:
        tool = script("poison")
        for word, wanted in (
            (0x00A58513, ["addi a0,a1,10"]), (0x852E, ["mv a0,a1"]), (0x00008067, ["ret"]), (0x9002, ["ebreak"]),
            # auipc a0,0x1: 11000, from 20000.
            (0x00001517, ["auipc a0,0xffff1", "mv a0,a0"]),
            # beq a0,a1,10010; jal ra,10010 and jalr ra,4(a0): the links are those of the old place.
            (0x00B50863, ["beq a0,a1,20008", "j 10004", "j 10010"]), (0x010000EF, ["auipc ra,0xffff0", "addi ra,ra,4", "j 10010"]),
            (0x004500E7, ["auipc ra,0xffff0", "addi ra,ra,4", "jalr zero,4(a0)"]),
        ):
            with self.subTest(word=f"{word:x}"):
                self.assertEqual(self.read(tool.done_elsewhere(insn(word), 0x20000, None), 0x20000), wanted)

    def test_what_is_far(self) -> None:
        tool = script("poison")
        self.assertEqual(self.read(tool.go(0x10000, 0x110800, 15), 0x10000), ["auipc a5,0x101", "jalr zero,-2048(a5)"])
        with self.assertRaises(tool.TooFar):
            tool.go(0x10000, 0x110000, None)
        self.assertFalse(tool.can_move(insn(0x004080E7)))

    def test_random_numbers_go_to_dead_registers(self) -> None:
        tool = script("poison")
        patch = tool.Patch(0x10000, (insn(0x00A58513),), 1 << 10 | 1 << 15, 15)
        code = tool.code_for(patch, patch.dead, 0x20000, random.Random(1))
        data, at, written = code_bytes(code), 0x20000, []
        while data:
            one = decode(data, at)
            assert one is not None
            written.append(one.written)
            data, at = data[one.length:], at + one.length
        self.assertEqual(written, [10, 15, 10, None])


@unittest.skipIf(LACKING, f"{LACKING} is not installed")
class Runs(InFolder):
    def setUp(self) -> None:
        super().setUp()
        path = binutils.compile_c(str(self.folder / "program.elf"), SOURCE, "-O2", "-march=rv64imac", "-mabi=lp64", "-nostdlib", "-static")
        assert path is not None
        self.path = path
        self.graph = self.file("graph", self.output(rows.TOOLS / "tests" / "stand_in.py", path))
        self.live = self.file("live", self.output(rows.MAINTAIN / "compare_live", "--report", self.graph, "--print", path))

    def output(self, program: Path, *words: str) -> bytes:
        return subprocess.run([sys.executable, "-B", str(program), *words], capture_output=True, check=True).stdout

    def poison(self, live: str, *words: str) -> "tuple[int, list[str]]":
        done = self.run_process("poison", "--report", self.graph, "--live", live, *words, self.path)
        self.assertEqual(done.stderr, "")
        return done.returncode, done.stdout.splitlines()

    def test_the_same(self) -> None:
        status, said = self.poison(self.live, "--count")
        self.assertEqual(status, 0)
        self.assertRegex(said[0], r"^\d+ blocks, at \d+ of which a register is dead; \d+ chosen, [1-9]\d* changed, with \d+ registers$")
        self.assertRegex(said[-2], r"^\d+ of the changed blocks were entered, \d+ times; \d+ registers were overwritten$")
        self.assertEqual(said[-1], "the same output (17 and 0 bytes) and status (7)")
        self.assertRegex(self.poison(self.live, "--sample", "3")[1][0], "; 3 chosen, ")
        self.assertEqual(self.poison(self.live)[1][-2].split(" ")[1:], ["of", "the", "changed", "blocks", "were", "entered"])

    def test_a_register_that_is_not_dead(self) -> None:
        lines = (self.folder / "live").read_text().splitlines()
        entry = next(place for place, line in enumerate(lines) if line.endswith(" mixed"))
        block, mask = lines[entry + 1].split(" ")[1:]
        lines[entry + 1] = f"live {block} {int(mask, 16) & ~(1 << 10):08x}"
        status, said = self.poison(self.file("wrong", "".join(line + "\n" for line in lines).encode()))
        self.assertEqual(status, 1)
        self.assertEqual(said[-2], "DIFFERENT: standard output")
        self.assertRegex(said[-1], rf"^the block at {int(block, 16):x} \([a-z]+\), with .*a0.*, makes it by itself$")


class Illegal(InFolder):
    SOURCE = "void _start(void) { __asm__ volatile(\".4byte 0x0AB56533\"); for (;;) { } }"

    @unittest.skipIf(LACKING, f"{LACKING} is not installed")
    def test_both_runs_end_by_an_illegal_instruction(self) -> None:
        path = binutils.compile_c(str(self.folder / "program.elf"), self.SOURCE, "-O2", "-march=rv64imac", "-mabi=lp64", "-nostdlib", "-static")
        assert path is not None
        entry = Elf(path).entry
        graph = self.file("graph", small.report(f"{entry:x} no-return _start: {entry:x}", f"{entry:x} {entry + 2:x} stop", entry=f"{entry:x}"))
        live = self.file("live", f"cfg-report 2\nentry {entry:016x}\nlives 1\nfunction {entry:016x} no-return 1 _start\nlive {entry:016x} 00000000\nend\n".encode())
        qemu = self.file("qemu", b"#!/bin/sh\nexit 132\n")
        Path(qemu).chmod(0o755)
        done = self.run_process("poison", "--report", graph, "--live", live, "--qemu", qemu, path)
        self.assertEqual(done.returncode, 1)
        self.assertIn("NOT SHOWN: an illegal instruction ends both runs", done.stdout)


class Refused(InFolder):
    def test_without_a_header_to_spare(self) -> None:
        done = self.run_script("poison", "--report", self.row(17), "--live", self.row(17, "live"), "--qemu", shutil.which("true") or "true", self.elf(17))
        self.assertEqual(done.returncode, 2)
        self.assertRegex(done.stderr, "row17.elf: no program header, so that it cannot be run\n$")


if __name__ == "__main__":
    unittest.main()
