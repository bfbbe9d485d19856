"""The file of `cfg --make N`: words of it that were worked out by hand, whole files by the numbers that the tests of
crates/big_case have of another program's, and what cfg says of it."""

from __future__ import annotations

import io
import os
import struct
import subprocess
import sys
import tempfile
import unittest
from pathlib import Path
from typing import List

import rows
from cfgtools.checks.binutils import OBJDUMP, instructions, missing
from cfgtools.elf.elf_file import Elf
from cfgtools.making.hostile import with_names
from cfgtools.making.made import made, made_with_functions
from cfgtools.reports import cfg_report

CFG = rows.TOOLS.parent / "crates" / "cfg" / "out" / "cfg"


def words_at(file: bytes, address: int, count: int) -> str:
    """The words at an address, which the file's section headers find."""
    table, = struct.unpack_from("<Q", file, 40)
    for place in range(table, len(file), 64):
        start, offset, size = struct.unpack_from("<16xQQQ", file, place)
        if start <= address and address + 4 * count <= start + size:
            return " ".join(f"{word:08X}" for word in struct.unpack_from(f"<{count}I", file, offset + address - start))
    return ""


class InFolder(unittest.TestCase):
    def setUp(self) -> None:
        folder = tempfile.TemporaryDirectory()
        self.addCleanup(folder.cleanup)
        self.path = Path(folder.name) / "made.elf"


class MadeFile(InFolder):
    JUMPING = "00251513 00E50533 00052783 00E787B3 00078067 00008067 00008067 00100513 00008067"
    WORDS = {
        1: {
            0x10000: "00000097 080080E7 00000097 078080E7 FFF50513 FE051EE3 00008067 00000000",
            0x10080: "00008067 00000000", 0x10100: "0000006F 00000000",
        },
        4: {
            0x10100: "00000097 100080E7 00000097 0F8080E7 00050663 00000097 16C080E7 00008067 00000000",
            0x10180: f"00000097 080080E7 00000097 078080E7 00400793 02A7E663 01FF0717 E6870713 {JUMPING} 00000000",
            0x10200: "00008067 00000000", 0x10280: "0000006F 00000000",
            0x2000000: "FE0101B4 FE0101B8 FE0101BC FE0101C0",
        },
        # The call at 10114 is of the slot at 10A80, so far away that its lower part is less than zero.
        20: {
            0x10100: "00000097 180080E7 00000097 1F8080E7 00050663 00001097 96C080E7 00008067 00000000",
            0x10380: f"00000097 400080E7 00000097 478080E7 00400793 02A7E663 01FF0717 C7870713 {JUMPING} 00000000",
            0x10480: "00000097 500080E7 00000097 578080E7 FFF50513 00158593 FE051EE3 00008067 00000000",
            0x10500: "00000097 500080E7 00000097 4F8080E7 00050663",
            0x10A00: "00008067 00000000", 0x10A80: "0000006F 00000000",
            0x2000010: "FE0103A4 FE0103A8 FE0103AC FE0103B0", 0x2000040: "FE010974 FE010978 FE01097C FE010980",
        },
    }
    # The length, and the bytes as each added to 31 times what came before, modulo 2^64.
    WHOLE = {
        4: (1040, 0x42FD7098457CEF9E), 5: (1168, 0xAEEEAF2FB2DAEC82), 7: (1424, 0x6FC62C2AA92E2F80),
        8: (1568, 0xD74807C83B652103), 5000: (660512, 0xC26CD4C09EB1AC66),
    }

    def test_words(self) -> None:
        for n, places in self.WORDS.items():
            for address, wanted in places.items():
                with self.subTest(n=n, address=f"{address:x}"):
                    self.assertEqual(words_at(made(n), address, len(wanted.split())), wanted)

    def test_where_it_ends(self) -> None:
        for n in (1, 3, 4, 20):
            with self.subTest(n=n):
                self.path.write_bytes(made(n))
                code, = Elf(str(self.path)).code
                self.assertEqual((code.start, code.end), (0x10000, 0x10000 + 128 * (n + 2)))
                self.assertEqual(words_at(made(n), 0x2000000 + n // 4 * 16, 1), "")

    def test_whole_files(self) -> None:
        for n, wanted in self.WHOLE.items():
            with self.subTest(n=n):
                total = 0
                for byte in made(n):
                    total = (31 * total + byte) % 2**64
                self.assertEqual((len(made(n)), total), wanted)

    @unittest.skipIf(missing(OBJDUMP), "no objdump for RISC-V is installed")
    def test_objdump_reads_it_by_the_names(self) -> None:
        self.path.write_bytes(with_names(made(4)))
        found = instructions(str(self.path))
        read = " ".join(f"{found[address].word:08X}" for address in range(0x10180, 0x101C4, 4))
        self.assertEqual(read + " 00000000", self.WORDS[4][0x10180])


class Script(InFolder):
    def run_script(self, *words: str) -> "subprocess.CompletedProcess[str]":
        command = [sys.executable, "-B", str(rows.MAINTAIN / "made_program"), *words]
        return subprocess.run(command, capture_output=True, text=True)

    def test_files(self) -> None:
        named = with_names(made_with_functions(6))
        for options, wanted in (
            ((), made(6)), (("--names",), with_names(made(6))), (("--functions",), made_with_functions(6)),
            (("--functions", "--names"), named),
        ):
            done = self.run_script(*options, "6", str(self.path))
            self.assertEqual((done.returncode, done.stdout, done.stderr), (0, "", ""))
            self.assertEqual(self.path.read_bytes(), wanted)

    def test_what_is_wrong(self) -> None:
        for words in (("0", str(self.path)), ("100001", str(self.path)), ("four", str(self.path)), ("4",)):
            with self.subTest(words=words):
                done = self.run_script(*words)
                self.assertEqual((done.returncode, done.stdout, done.stderr[:6]), (2, "", "usage:"))
                self.assertFalse(self.path.exists())
        done = self.run_script("4", str(self.path / "nowhere"))
        self.assertEqual((done.returncode, done.stderr.count("\n")), (2, 1))


@unittest.skipUnless(os.access(CFG, os.X_OK), "cfg is not built")
class ByCfg(InFolder):
    """The graph of the file has the counts of the summary of the program that is made in memory."""

    def said(self, *words: str) -> bytes:
        done = subprocess.run([str(CFG), *words], stdin=subprocess.DEVNULL, capture_output=True)
        self.assertEqual((done.returncode, done.stderr), (0, b""))
        return done.stdout

    def summary(self, n: int, text: bytes) -> List[str]:
        """The lines that a report of the program of n functions comes to."""
        report = cfg_report.load(io.BytesIO(text))
        may_return = sum(function.may_return for function in report.functions)
        counts = {
            "cfg-made": n, "functions": len(report.functions), "blocks": len(report.blocks), "edges": len(report.edges),
            "may-return": may_return, "no-return": len(report.functions) - may_return,
        }
        return [f"{word} {count}" for word, count in counts.items()]

    def test_summaries(self) -> None:
        for n in (4, 5, 6, 7, 20, 1000):
            with self.subTest(n=n):
                self.path.write_bytes(made(n))
                report = self.said(str(self.path))
                self.assertEqual(self.summary(n, report), self.said("--make", str(n)).decode().splitlines())
                self.path.write_bytes(with_names(made(n)))
                self.assertEqual(self.said(str(self.path)), report)

    def test_symbols_name_its_functions(self) -> None:
        self.path.write_bytes(made_with_functions(9))
        report = cfg_report.load(io.BytesIO(self.said(str(self.path))))
        named = {function.entry: function.name for function in report.functions}
        self.assertEqual(named, {0x10000 + 128 * i: f"f{i}".encode() for i in range(11)})

    def test_the_worked_summary(self) -> None:
        # The one of docs/REPORT.md.
        self.path.write_bytes(made(4))
        wanted = ["cfg-made 4", "functions 6", "blocks 24", "edges 32", "may-return 5", "no-return 1"]
        self.assertEqual(self.summary(4, self.said(str(self.path))), wanted)


if __name__ == "__main__":
    unittest.main()
