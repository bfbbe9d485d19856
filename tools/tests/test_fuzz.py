"""The maker of hostile files, and what fuzz and sweep_memory say of programs that answer wrongly."""

from __future__ import annotations

import os
import random
import shutil
import struct
import subprocess
import sys
import tempfile
import unittest
from pathlib import Path
from typing import List, Set

import rows
import test_tools
from cfgtools.elf.elf_file import Elf
from cfgtools.making import hostile

GOOD = rows.report(1)
USAGE = "[ $# = 0 ] && exit 1"


class Maker(unittest.TestCase):
    def test_a_seed_gives_the_same_file_again(self) -> None:
        for seed in ("1:0", "1:1", "x"):
            self.assertEqual(hostile.make(seed), hostile.make(seed))
        self.assertNotEqual(hostile.make("1:0").data, hostile.make("2:0").data)

    def test_each_shape_makes_files(self) -> None:
        for name, make in hostile.SHAPES.items():
            with self.subTest(name):
                for seed in range(3):
                    self.assertIsInstance(make(random.Random(seed)), bytes)

    def test_instructions(self) -> None:
        # As binutils encodes them.
        self.assertEqual(hostile.jump(1, -4), hostile.word(0xFFDFF0EF))
        self.assertEqual(hostile.jump(0, 0xFFFFE), hostile.word(0x7FFFF06F))
        self.assertEqual(hostile.branch(5, 10, 0, -4), hostile.word(0xFE055EE3))
        self.assertEqual(hostile.branch(6, 15, 10, 36), hostile.word(0x02A7E263))
        self.assertEqual(hostile.short_jump(-2), [0xBFFD])
        self.assertEqual(hostile.short_jump(20), [0xA811])
        self.assertEqual(hostile.far(1, 4), [0x0317, 0x0000, 0x00E7, 0x0043])

    def test_a_jump_table(self) -> None:
        jump = hostile.table_jump(7, 0x20000, 36)
        wanted = "00700793 02A7E263 00020737 00070713 00251513 00E50533 00052783 00E787B3 00078067"
        self.assertEqual(jump, [half for word in wanted.split() for half in hostile.word(int(word, 16))])
        self.assertEqual(hostile.table_entries(hostile.file_with(jump * 3)), 3 * (8 + 1024))
        jump = hostile.table_jump(None, 0x20000, 36, wide=True)
        wanted = "00020737 00070713 00351513 00E50533 00053783 00E787B3 00078067"
        self.assertEqual(jump, [half for word in wanted.split() for half in hostile.word(int(word, 16))])

    def test_a_file_without_a_fault(self) -> None:
        with tempfile.NamedTemporaryFile() as file:
            file.write(hostile.file_with(hostile.NOP + hostile.RETURN, [hostile.Symbol(0x10002, 1)], b"\0end\0"))
            file.flush()
            elf = Elf(file.name)
        self.assertEqual(elf.bytes_at(0x10000, 0x10004), struct.pack("<HH", 1, 0x8082))
        self.assertEqual(elf.place(0x10002), "end")

    def test_names_of_sections(self) -> None:
        plain = hostile.file_with(hostile.RETURN, [hostile.Symbol(0x10000, 1)], b"\0end\0")
        file = hostile.with_names(plain)
        table, = struct.unpack_from("<Q", file, 40)
        count, index = struct.unpack_from("<HH", file, 60)
        headers = [struct.unpack_from("<I20xQQ", file, table + 64 * number) for number in range(count)]
        _, offset, size = headers[index]
        names = [file[offset + name:offset + size].split(b"\0")[0] for name, _, _ in headers]
        self.assertEqual(names, [b"", b".text", b".rodata", b".symtab", b".strtab", b""])
        self.assertEqual((offset + size, file[64:table]), (len(file), plain[64:table]))


class Fuzz(unittest.TestCase):
    """With a shell script in the place of cfg."""

    def setUp(self) -> None:
        folder = tempfile.TemporaryDirectory()
        self.addCleanup(folder.cleanup)
        self.folder = Path(folder.name)

    def said(self, script: str, status: int) -> List[str]:
        """What fuzz says of three files."""
        program = self.folder / "cfg"
        program.write_text(f"#!/bin/sh\n{USAGE}\n{script}\n")
        program.chmod(0o755)
        (self.folder / "report").write_bytes(GOOD)
        command = [sys.executable, "-B", str(rows.MAINTAIN / "fuzz"), "--count", "3", "--workers", "1,4"]
        environment = dict(os.environ, CFG=str(program))
        done = subprocess.run(command, cwd=self.folder, env=environment, capture_output=True, text=True)
        self.assertEqual((done.returncode, done.stderr), (status, ""))
        return done.stdout.splitlines()

    def test_answers_that_may_be(self) -> None:
        line = self.said("cat report", 0)[-1]
        self.assertTrue(line.startswith("3 files of "), line)
        self.assertIn("2 Short 3 times", self.said("echo 'cfg: malformed: Short' >&2; exit 2", 0)[-1])
        self.assertIn("5 3 times", self.said("echo 'cfg: out of memory' >&2; exit 5", 0)[-1])
        # Want of memory with one number of workers alone.
        script = "[ $2 = 1 ] && exec cat report; echo 'cfg: out of memory' >&2; exit 5"
        self.assertIn("0 3 times", self.said(script, 0)[-1])

    def test_wrong_answers(self) -> None:
        for script, wrong in (
            ("echo 'cfg: read fault' >&2; exit 3", "status 3"), ("exit 1", "status 1"), ("exit 2", "status 2"),
            ("echo 'cfg: malformed: Long' >&2; exit 2", "status 2"),
            ("echo x; echo 'cfg: out of memory' >&2; exit 5", "printed 2 bytes"),
            ("kill -SEGV $$", "signal 11"), ("cat report; echo more >&2", "status 0"), ("true", "its report is none"),
            ("head -n 5 report", "its report is none"), ("sed s/may/no/ report", "in its report"),
            ("[ $2 = 1 ] && exec cat report; echo 'cfg: malformed: Short' >&2; exit 2", "it gives another answer"),
        ):
            with self.subTest(script):
                lines = self.said(script, 1)
                self.assertIn(wrong, lines[0])
                self.assertTrue(lines[0].startswith("WRONG ./hostile-1-0.elf"), lines[0])
                self.assertEqual((self.folder / "hostile-1-0.elf").read_bytes(), hostile.make("1:0").data)

    def test_walks(self) -> None:
        program = self.folder / "cfg_walk"
        command = [sys.executable, "-B", str(rows.MAINTAIN / "fuzz"), "--program", "cfg_walk", "--steps", "7", "--count", "2"]
        environment = dict(os.environ, CFG_WALK=str(program))
        for script, status, told in (
            ("[ $1 = 7 ] && printf 'at 0000000000010000\\nend steps\\n'", 0, "0 2 times"),
            ("echo 'cfg_walk: too much memory asked' >&2; exit 6", 0, "6 2 times"),
            ("echo 'cfg_walk: malformed: Short' >&2; exit 2", 0, "2 Short 2 times"),
            ("printf 'at 0000000000010000\\n'", 1, "its trace is none: line 1: the trace is cut off"),
            ("echo 'cfg: malformed: Short' >&2; exit 2", 1, "status 2"),
            ("exit 4", 1, "again: tools/maintain/fuzz --seed 1 --first 0 --count 1 --program cfg_walk --steps 7"),
        ):
            with self.subTest(script):
                program.write_text(f"#!/bin/sh\n{USAGE}\n{script}\n")
                program.chmod(0o755)
                done = subprocess.run(command, cwd=self.folder, env=environment, capture_output=True, text=True)
                self.assertEqual((done.returncode, done.stderr), (status, ""))
                self.assertIn(told, done.stdout)

    def test_no_program(self) -> None:
        command = [sys.executable, "-B", str(rows.MAINTAIN / "fuzz")]
        done = subprocess.run(command, env=dict(os.environ, CFG="/nowhere/cfg"), capture_output=True)
        self.assertEqual((done.returncode, done.stderr), (2, b"fuzz: /nowhere/cfg: No such file or directory\n"))


class Corpus(unittest.TestCase):
    """The files of tools/tests/corpus, which a fuzzer kept since each of them took `cfg` where those before it had not been."""

    def test_answers(self) -> None:
        path = rows.TOOLS.parent / "crates" / "cfg" / "out" / "cfg"
        if not os.access(path, os.X_OK):
            self.skipTest("cfg is not built")
        fuzz = test_tools.script("fuzz")
        program = fuzz.Program("cfg", str(path), 0)
        statuses: Set[str] = set()
        files = sorted((rows.TOOLS / "tests" / "corpus").iterdir())
        for file in files:
            with self.subTest(file.name):
                trial = fuzz.fares(program, str(file), file.read_bytes(), [1, 4])
                self.assertIsNone(trial.wrong)
                statuses.add(trial.status)
        self.assertEqual(len(files), 60)
        self.assertTrue({"0", "2 Entry", "2 SectionRange", "2 SymbolTable", "2 SymbolName"} <= statuses, statuses)


# A program that asks for memory three times, and answers want of memory by its status, or does not.
ASKS = r"""
#include <stdio.h>
#include <stdlib.h>
#include <unistd.h>
static int refused(void) { (void)!write(2, LINE, LENGTH); return 5; }
int main(int count, char **words) {
    if (count == 1) return 1;
    void *volatile first = malloc(100), *volatile second = malloc(100);
    if (!first) return WITHOUT_FIRST;
    if (!second) return refused();
    void *volatile third = realloc(second, 200);
    if (!third) return refused();
    (void)!write(1, words[2], 1);
    return 0;
}
"""


@unittest.skipUnless(shutil.which("cc"), "cc is not installed")
class Sweep(unittest.TestCase):
    def swept(self, without_first: str, name: str = "cfg") -> "subprocess.CompletedProcess[str]":
        """A sweep over a program that does this without its first piece of memory."""
        with tempfile.TemporaryDirectory() as folder:
            program = os.path.join(folder, "asks")
            line = f"{name}: out of memory\\n"
            words = [f"-DWITHOUT_FIRST={without_first}", f'-DLINE="{line}"', f"-DLENGTH={len(line) - 1}"]
            subprocess.run(["cc", *words, "-x", "c", "-", "-o", program], input=ASKS, text=True, check=True)
            command = [sys.executable, "-B", str(rows.MAINTAIN / "sweep_memory"), "--program", name, "--workers", "1"]
            return subprocess.run(command, env={**os.environ, name.upper(): program}, capture_output=True, text=True)

    def test_a_program(self) -> None:
        done = self.swept("refused()")
        self.assertEqual((done.returncode, done.stderr), (0, ""))
        self.assertIn("| one return (row 1) | 1 | 3 | 3 | 0 | 3 | 0 |", done.stdout)

    def test_a_program_that_walks(self) -> None:
        done = self.swept("refused()", "cfg_walk")
        self.assertEqual((done.returncode, done.stderr), (0, ""))
        self.assertIn("| one return (row 1) | 1 | 3 | 3 | 0 | 3 | 0 |", done.stdout)
        self.assertNotIn("--make", done.stdout)

    def test_a_wrong_status(self) -> None:
        done = self.swept("3")
        self.assertEqual(done.returncode, 1)
        self.assertIn("WRONG one return (row 1), 1 workers, request 1 refused: status 3, 0 bytes, b''", done.stdout)


if __name__ == "__main__":
    unittest.main()
