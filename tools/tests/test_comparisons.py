"""The scripts that compare a built program with other tools: what they say without it, and what they read for it."""

from __future__ import annotations

import argparse
import contextlib
import io
import shutil
import subprocess
import sys
import tempfile
import unittest

import rows
from cfgtools.checks import binutils
from cfgtools.elf.elf_file import Elf
from test_tools import InFolder, script

TABLES = script("compare_tables")
DUMP = rows.TOOLS.parent / "crates" / "dump_files" / "out" / "dump_files"


class NoProgram(unittest.TestCase):
    def test_a_program_that_is_not_there(self) -> None:
        for name, *words in (("compare_blocks",), ("compare_decoder",), ("compare_expander",), ("compare_seeds",), ("compare_tables", "--dump")):
            with self.subTest(name=name):
                done = subprocess.run([sys.executable, "-B", str(rows.script_path(name)), *words, "/not/there"], capture_output=True, text=True)
                if "skipped" not in done.stdout:
                    self.assertEqual(done.returncode, 2)
                    self.assertIn(f"{name}: no program /not/there", done.stdout + done.stderr)


@unittest.skipIf(binutils.missing(binutils.READELF, binutils.OBJDUMP) or not TABLES.compilers(), "no compiler for RISC-V")
class WrittenTables(unittest.TestCase):
    def setUp(self) -> None:
        folder = tempfile.TemporaryDirectory()
        self.addCleanup(folder.cleanup)
        name, command = next(iter(TABLES.compilers().items()))
        self.written, self.path = TABLES.build(command, ("-O2", "-fpic"), folder.name)

    def test_relocations_tell_what_the_assembly_tells(self) -> None:
        places = TABLES.symbols(self.path)
        self.assertEqual(TABLES.kept_tables(self.path), TABLES.written_tables(self.written, places))
        self.assertEqual(len(TABLES.kept_tables(self.path)), 31)

    def test_a_file_without_relocations(self) -> None:
        strip = next(filter(shutil.which, ("riscv64-unknown-elf-strip", "riscv64-linux-gnu-strip")))
        subprocess.run([strip, self.path], check=True)
        self.assertEqual(TABLES.kept_tables(self.path), {})

    def test_jumps_through_registers(self) -> None:
        line = {"c.jr": binutils.Line(2, 0, "c.jr", ["x15"]), "c.ret": binutils.Line(2, 0, "c.jr", ["x1"]),
                "jalr": binutils.Line(4, 0, "jalr", ["x0", "0(x14)"]), "ret": binutils.Line(4, 0, "jalr", ["x0", "0(x1)"]),
                "stub": binutils.Line(4, 0, "jalr", ["x6", "0(x28)"]), "other": binutils.Line(4, 0, "jalr", ["x6", "0(x5)"]),
                "call": binutils.Line(4, 0, "jalr", ["x1", "0(x14)"]), "add": binutils.Line(4, 0, "add", ["x0", "x1", "x14"])}
        listed = dict(enumerate(line.values()))
        self.assertEqual(list(TABLES.register_jumps(listed)), [0, 2, 4])

    @unittest.skipUnless(DUMP.exists(), "dump_files is not built")
    def test_a_program_of_ones_own(self) -> None:
        said = io.StringIO()
        with contextlib.redirect_stdout(said):
            differences = TABLES.tell(self.path, argparse.Namespace(dump=str(DUMP), cfg=None))
        self.assertEqual(differences, 0)
        self.assertIn("of 31 tables that the compilers wrote 14 are found by a bound test, 0 declared, 17 open, 0 not", said.getvalue())


class ManyFunctions(InFolder):
    def made(self, *words: str) -> "subprocess.CompletedProcess[str]":
        return subprocess.run(["sh", str(rows.MAINTAIN / "many_functions"), *words], capture_output=True, text=True)

    def test_words(self) -> None:
        for words in ((), ("3", "flat"), ("x", "flat", "f"), ("3", "wide", "f")):
            with self.subTest(words=words):
                self.assertEqual(self.made(*words).returncode, 2)

    def test_functions(self) -> None:
        for shape in ("flat", "deep"):
            path = str(self.folder / shape)
            done = self.made("3", shape, path)
            if "skipped" in done.stdout:
                self.skipTest(done.stdout.strip())
            with self.subTest(shape=shape):
                self.assertEqual(done.returncode, 0)
                names = {symbol.name for symbol in Elf(path).symbols()}
                self.assertTrue({"f1", "f2", "f3", "_start"} <= names)


if __name__ == "__main__":
    unittest.main()
