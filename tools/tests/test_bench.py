"""The contrived programs, and what bench prints of a program that stands in the place of cfg."""

from __future__ import annotations

import io
import os
import subprocess
import sys
import tempfile
import unittest
from pathlib import Path
from typing import Dict, List, Optional
from unittest import mock

import rows
from cfgtools.checks import binutils
from cfgtools.elf.elf_file import Elf
from cfgtools.making import contrived
from cfgtools.making.hostile import with_names
from cfgtools.making.made import made_with_functions
from cfgtools.reports import cfg_report
from test_tools import script

DUMP = rows.TOOLS.parent / "crates" / "dump_threads" / "out" / "dump_threads"


class Contrived(unittest.TestCase):
    def setUp(self) -> None:
        folder = tempfile.TemporaryDirectory()
        self.addCleanup(folder.cleanup)
        self.path = Path(folder.name) / "contrived.elf"

    def test_each_shape_grows_with_its_size(self) -> None:
        for name, make in contrived.SHAPES.items():
            with self.subTest(name):
                sizes = [len(make(size)) for size in (2560, 10240)]
                self.assertTrue(1.2 < sizes[1] / sizes[0] <= 4.1)
                self.path.write_bytes(make(40))
                self.assertTrue(Elf(str(self.path)).code)

    def test_branches_lead_where_they_should(self) -> None:
        # Two branches over a jump of four bytes each, and a return: as binutils encodes them.
        halves = contrived.branches_to([9, 10])
        self.assertEqual(halves, [0x1463, 0x00B5, 0x006F, 0x00E0, 0x1463, 0x00B5, 0x006F, 0x0080, 0x8082])

    @unittest.skipIf(binutils.missing(binutils.OBJDUMP, binutils.READELF), "objdump or readelf is not installed")
    def test_live_registers_of_shapes(self) -> None:
        """What the shapes for live registers are made for."""
        masks = {name: self.masks(contrived.SHAPES[name](32)) for name in ("zigzag", "shared_tail", "one_long_body", "waves")}
        self.assertEqual(masks["zigzag"], [{0x10000 + 4 * place: 0xFFFFFFFE for place in range(32)}])
        self.assertEqual(masks["one_long_body"], [{0x10000 + 4 * place: 1 << 10 for place in range(33)}])
        self.assertEqual([set(each.values()) for each in masks["waves"]], [{0xFFFFFFFE}])
        self.assertEqual(len(masks["waves"][0]), 1 + 31 + 32 + 31)
        first, second = masks["shared_tail"]
        tail = 0x10000 + 2 * (8 * 16 + 2)
        shared = {start: mask for start, mask in first.items() if start >= tail}
        self.assertEqual(shared, {start: mask for start, mask in second.items() if start >= tail})
        self.assertEqual([mask for _, mask in sorted(shared.items())][:16], [0xFFFFFFFE & ((1 << 16 + block) - 1) for block in range(16)])
        self.assertEqual((len(first), len(shared)), (2 * 16 + 1 + 16, 16))

    def masks(self, file: bytes) -> List[Dict[int, int]]:
        """The live registers of each function of a file, by what compare_live works out."""
        self.path.write_bytes(with_names(file))
        report = Path(self.path).with_suffix(".report")
        report.write_bytes(subprocess.run([sys.executable, "-B", str(rows.TOOLS / "tests" / "stand_in.py"), str(self.path)], capture_output=True).stdout)
        command = [sys.executable, "-B", str(rows.MAINTAIN / "compare_live"), "--report", str(report), "--print", str(self.path)]
        text = subprocess.run(command, capture_output=True).stdout
        return list(cfg_report.load(io.BytesIO(text)).lives.values())

    def test_words(self) -> None:
        command = [sys.executable, "-B", str(rows.MAINTAIN / "contrived")]
        self.assertEqual(subprocess.run([*command, "rising", "5", str(self.path)]).returncode, 0)
        self.assertEqual(self.path.read_bytes(), contrived.rising(5))
        done = subprocess.run([*command, "no-shape", "5", str(self.path)], capture_output=True, text=True)
        self.assertEqual((done.returncode, done.stderr[:6]), (2, "usage:"))


class Bench(unittest.TestCase):
    """What bench prints of one made program, with scripts in the place of cfg and of the other readers."""

    def setUp(self) -> None:
        folder = tempfile.TemporaryDirectory()
        self.addCleanup(folder.cleanup)
        self.folder = Path(folder.name)

    def program(self, name: str, text: str) -> str:
        path = self.folder / name
        path.write_text(f"#!/bin/sh\n{text}\n")
        path.chmod(0o755)
        return str(path)

    def said(self, wanted: str, *words: str) -> List[List[str]]:
        """The cells of the table."""
        cfg = self.program("cfg", f"[ $# = 0 ] && exit 1\necho \"$@\" >>'{self.folder}/words'\nexit 0")
        command = [sys.executable, "-B", str(rows.MAINTAIN / "bench"), "--small", "--only", wanted, *words]
        environment = dict(os.environ, CFG=cfg, PATH=str(self.folder))
        done = subprocess.run(command, env=environment, capture_output=True, text=True)
        self.assertEqual((done.returncode, done.stderr), (0, ""))
        return [[cell.strip() for cell in line.strip("|").split("|")] for line in done.stdout.splitlines()]

    def test_a_table(self) -> None:
        table = self.said("call_chain 8000")
        self.assertEqual(table[0][:3], ["Program", "Reader", "User and system"])
        self.assertEqual([cells[:2] for cells in table[2:]], [["call_chain 8000", "cfg"]])
        earlier = self.folder / "earlier"
        earlier.write_text("| call_chain 8000 | cfg | 3.00 s | 3.00 s | 1 MB |  |  |\n")
        again = self.said("call_chain 8000", "--earlier", str(earlier))
        self.assertEqual(again[2][5], "3.00 s")
        self.assertGreater(float(again[2][6]), 1)

    def test_live_registers(self) -> None:
        table = self.said("call_chain 8000", "--live")
        self.assertEqual([cells[1] for cells in table[2:]], ["cfg", "cfg, live", "cfg, live, 4 workers"])
        words = [line.split(" ")[:-1] for line in (self.folder / "words").read_text().splitlines()]
        self.assertEqual(words[:9], [[]] * 3 + [["--report", "live"]] * 3 + [["--report", "live", "--workers", "4"]] * 3)

    def test_a_program_made_in_memory(self) -> None:
        copy = self.folder / "copy"
        for name in ("llvm-objdump-13", "llvm-objdump-14", "llvm-objdump-18", "riscv64-linux-gnu-objdump"):
            self.program(name, f"[ \"$1\" = -d ] && exec /bin/cp \"$2\" '{copy}'")
        table = self.said("make")
        readers = ["cfg", "llvm-objdump-18 -d", "riscv64-linux-gnu-objdump -d"]
        self.assertEqual([cells[:2] for cells in table[2:]], [["--make 10000", reader] for reader in readers])
        self.assertIn("--make 10000", (self.folder / "words").read_text().splitlines())
        maker = script("made_program")
        self.assertEqual(copy.read_bytes(), maker.with_names(maker.made(10_000)))

    def test_who_takes_too_long(self) -> None:
        bench = script("bench")
        cfg, slow = self.program("cfg", ""), self.program("llvm-objdump", "exec /bin/sleep 60")
        program = bench.Program("slow", ["slow"], slow)
        with mock.patch.dict(os.environ, PATH=str(self.folder)), mock.patch.object(bench, "PATIENCE_WITH_OTHERS", 0.2):
            alone, other = bench.readings(cfg, program)
        self.assertIsNotNone(alone.taken)
        self.assertEqual((alone.patience, other), (120, ("llvm-objdump -d", None, 0.2)))
        cells = ("slow", "llvm-objdump -d", "over 20 s", "", "", "3.00 s", "")
        self.assertEqual(bench.row("slow", other._replace(patience=bench.PATIENCE_WITH_OTHERS), 3.0), cells)


class Shared(unittest.TestCase):
    """The table of runs beside others, by a script in the place of cfg."""

    def said(self, folder: str, times: str, text: str) -> "subprocess.CompletedProcess[str]":
        program = Path(folder) / "cfg"
        program.write_text(f"#!/bin/sh\n[ $# = 0 ] && exit 1\necho $2 >>'{folder}/workers'\n{text}\n")
        program.chmod(0o755)
        command = [sys.executable, "-B", str(rows.TOOLS / "maintain" / "bench"), "--shared", times, str(Path(folder) / "some.elf")]
        return subprocess.run(command, env=dict(os.environ, CFG=str(program)), capture_output=True, text=True)

    @unittest.skipIf(len(os.sched_getaffinity(0)) < 2, "there is one processor alone")
    def test_runs_take_turns(self) -> None:
        with tempfile.TemporaryDirectory() as folder:
            done = self.said(folder, "3", "sleep 0.$2")
            workers = (Path(folder) / "workers").read_text().split()
        self.assertEqual((done.returncode, done.stderr), (0, ""))
        self.assertEqual(workers, ["1", "2", "4"] * 3)
        table = [[cell.strip() for cell in line.strip("|").split("|")] for line in done.stdout.splitlines()]
        self.assertEqual([cells[:2] for cells in table[2:]], [["some.elf", count] for count in ("1", "2", "4")])
        for cells in table[2:]:
            clock = [float(number) for number in cells[2].replace(" s", "").split(",")]
            self.assertEqual((clock, clock[0] >= int(cells[1]) / 10), (sorted(clock), True))
        self.assertEqual(table[2][3], "")
        self.assertGreater(min(float(number) for number in table[4][3].split(",")), 0.0)

    def test_what_is_wrong_is_one_line(self) -> None:
        with tempfile.TemporaryDirectory() as folder:
            for times, text in (("0", "exit 0"), ("x", "exit 0"), ("1", "exit 3")):
                done = self.said(folder, times, text)
                self.assertEqual((done.returncode, done.stdout, done.stderr.count("\n")), (2, "", 1))


class WorkersOf(unittest.TestCase):
    """The table of what workers counted, by a script in the place of dump_threads and by dump_threads itself."""

    def said(self, folder: str, workers: int, *, program: Optional[Path] = None) -> "subprocess.CompletedProcess[str]":
        path = Path(folder) / "made.elf"
        path.write_bytes(made_with_functions(4))
        environment = dict(os.environ, **({"DUMP_THREADS": str(program)} if program else {}))
        command = [sys.executable, "-B", str(rows.MAINTAIN / "bench"), "--workers-of", str(workers), str(path)]
        return subprocess.run(command, env=environment, capture_output=True, text=True)

    def answering(self, folder: str, text: str, status: int = 0) -> Path:
        program = Path(folder) / "dump"
        program.write_text(f"#!/bin/sh\ncat <<'END'\n{text}END\nexit {status}\n")
        program.chmod(0o755)
        return program

    def test_sums(self) -> None:
        with tempfile.TemporaryDirectory() as folder:
            program = self.answering(folder, "worker=0 turns=7 from_kept=1\nworker=1 turns=5 from_kept=0\n")
            done = self.said(folder, 2, program=program)
        self.assertEqual((done.returncode, done.stderr), (0, ""))
        lines = ["| worker | turns | from kept |", "|---|---|---|", "| 0 | 7 | 1 |", "| 1 | 5 | 0 |", "| all | 12 | 1 |"]
        self.assertEqual(done.stdout.splitlines(), lines)

    def test_what_is_wrong_is_one_line(self) -> None:
        with tempfile.TemporaryDirectory() as folder:
            for program in (Path(folder) / "none", self.answering(folder, "fault BadMagic\n"), self.answering(folder, "", 1)):
                done = self.said(folder, 2, program=program)
                self.assertEqual((done.returncode, done.stdout, done.stderr.count("\n")), (2, "", 1))

    @unittest.skipUnless(os.access(DUMP, os.X_OK), "dump_threads is not built")
    def test_what_workers_count(self) -> None:
        for workers in (2, 5, 64):
            with self.subTest(workers), tempfile.TemporaryDirectory() as folder:
                done = self.said(folder, workers)
                self.assertEqual((done.returncode, done.stderr), (0, ""))
                table = [[cell.strip() for cell in line.strip("|").split("|")] for line in done.stdout.splitlines()]
                self.assertEqual([cells[0] for cells in table[2:]], [*map(str, range(workers)), "all"])
                for cells in table[2:]:
                    count = dict(zip(table[0][1:], map(int, cells[1:])))
                    self.assertLessEqual(count["made"] + count["put"], count["kept"] + count["from deques"])
                    self.assertLessEqual(count["made"], count["from kept"] + count["from deques"])
                # The names of the six functions are dealt out.
                self.assertLessEqual(count["from deques"], count["put"] + 6)
                self.assertGreater(count["turns"], 0)


class LivesOf(unittest.TestCase):
    """The table of what lists of live registers take, by a script in the place of dump_threads and by dump_threads itself."""

    def said(self, folder: str, *, program: Optional[Path] = None) -> "subprocess.CompletedProcess[str]":
        path = Path(folder) / "row.elf"
        path.write_bytes(rows.elf(40))
        environment = dict(os.environ, **({"DUMP_THREADS": str(program)} if program else {}))
        command = [sys.executable, "-B", str(rows.MAINTAIN / "bench"), "--lives-of", str(path)]
        return subprocess.run(command, env=environment, capture_output=True, text=True)

    def answering(self, folder: str, script: str) -> Path:
        program = Path(folder) / "dump"
        program.write_text(f"#!/bin/sh\n{script}\n")
        program.chmod(0o755)
        return program

    def cells(self, done: "subprocess.CompletedProcess[str]") -> List[List[str]]:
        self.assertEqual((done.returncode, done.stderr), (0, ""))
        table = [[cell.strip() for cell in line.strip("|").split("|")] for line in done.stdout.splitlines()]
        self.assertEqual(table[0], ["Workers", "Lists alone", "Times less"])
        self.assertEqual([cells[0] for cells in table[2:]], ["1", "2", "4"])
        return table[2:]

    def test_difference_of_two_runs(self) -> None:
        # Twenty times more take 0.2 s by one worker and 0.04 s by four: 10 ms and 2 ms each time.
        with tempfile.TemporaryDirectory() as folder:
            script = ('[ $3 = 1 ] || case $2 in 1) sleep 0.2 ;; 2) sleep 0.12 ;; 4) sleep 0.04 ;; esac\n'
                      'echo functions=1 blocks=1 checksum=00000000fffffbfe')
            rows_of = self.cells(self.said(folder, program=self.answering(folder, script)))
        for cells, wanted in zip(rows_of, (10.0, 6.0, 2.0)):
            self.assertAlmostEqual(float(cells[1].split()[0]), wanted, delta=4.0)
        self.assertEqual(rows_of[0][2], "1.0")

    def test_what_is_wrong_is_one_line(self) -> None:
        scripts = ("echo fault Magic", "exit 1", "echo functions=$2 blocks=1 checksum=00000000fffffbfe")
        with tempfile.TemporaryDirectory() as folder:
            for program in (Path(folder) / "none", *(self.answering(folder, script) for script in scripts)):
                done = self.said(folder, program=program)
                self.assertEqual((done.returncode, done.stderr.count("\n")), (2, 1))

    @unittest.skipUnless(os.access(DUMP, os.X_OK), "dump_threads is not built")
    def test_lists_of_a_file(self) -> None:
        with tempfile.TemporaryDirectory() as folder:
            self.cells(self.said(folder))
            done = subprocess.run([DUMP, "lives", "3", "2", Path(folder) / "row.elf"], capture_output=True, text=True)
        self.assertEqual(done.stdout, "functions=1 blocks=1 checksum=00000000fffffbfe\n")


if __name__ == "__main__":
    unittest.main()
