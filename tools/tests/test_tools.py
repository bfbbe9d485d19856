"""The scripts: what they say of the rows' reports, and of files that are missing or broken."""

from __future__ import annotations

import contextlib
import importlib.machinery
import importlib.util
import io
import json
import os
import shutil
import subprocess
import sys
import tempfile
import unittest
from pathlib import Path
from types import ModuleType
from typing import Dict, List, Optional, Tuple
from unittest import mock

import rows
from cfgtools.elf.elf_file import Code, Elf, gaps, joined
from cfgtools.reports import cfg_report, names, progress
from cfgtools.reports.cfg_report import ReportError
import small

SCRIPTS = {
    "check_report": ["REPORT"], "summary": ["REPORT"], "to_json": ["REPORT"], "draw": ["REPORT", "10000"],
    "call_graph": ["REPORT"], "diff_reports": ["REPORT", "REPORT"], "unresolved": ["ELF", "REPORT"],
    "query": ["where", "REPORT", "10000"], "coverage": ["--trace", "TRACE", "REPORT"],
}


Done = subprocess.CompletedProcess
LOADED: Dict[str, ModuleType] = {}


def script(name: str) -> ModuleType:
    """A script as a module."""
    loader = importlib.machinery.SourceFileLoader(name, str(rows.script_path(name)))
    spec = importlib.util.spec_from_loader(name, loader)
    assert spec is not None
    module = importlib.util.module_from_spec(spec)
    loader.exec_module(module)
    return module


class InFolder(unittest.TestCase):
    """A test that has a folder of its own."""

    def setUp(self) -> None:
        folder = tempfile.TemporaryDirectory()
        self.addCleanup(folder.cleanup)
        self.folder = Path(folder.name)

    def file(self, name: str, data: bytes) -> str:
        path = self.folder / name
        path.write_bytes(data)
        return str(path)

    def row(self, number: int, kind: str = "graph") -> str:
        return self.file(f"row{number}.{kind}", rows.report(number, kind))

    def elf(self, number: int) -> str:
        return self.file(f"row{number}.elf", rows.elf(number))

    def answering(self, status: int, output: bytes, error: str = "") -> str:
        """A program in the place of cfg, with this answer."""
        said = self.file("answer", output)
        path = self.file("cfg", f"#!/bin/sh\ncat '{said}'\n{f'echo {error!r} >&2' if error else ''}\nexit {status}\n".encode())
        os.chmod(path, 0o755)
        return path

    def run_script(self, name: str, *words: str, cfg: Optional[str] = None, path: Optional[str] = None, given: bytes = b"") -> Done:
        """Runs a script within the test, as a process would: its status, standard output and standard error."""
        if name not in LOADED:
            LOADED[name] = script(name)
        out, err, status = io.StringIO(), io.StringIO(), None
        environment = {"CFG": cfg or "/nowhere/cfg", "PATH": path or os.environ["PATH"]}
        with contextlib.ExitStack() as changed:
            changed.enter_context(mock.patch.object(sys, "argv", [name, *words]))
            # How far a script is may be said on a busy machine, and is no part of its answer.
            changed.enter_context(mock.patch.object(progress, "FIRST", 3600.0))
            changed.enter_context(mock.patch.object(sys, "stdin", io.TextIOWrapper(io.BytesIO(given))))
            changed.enter_context(mock.patch.dict(os.environ, environment))
            changed.enter_context(contextlib.redirect_stdout(out))
            changed.enter_context(contextlib.redirect_stderr(err))
            changed.callback(names.demangle, False)
            try:
                cfg_report.run(LOADED[name].main)
            except SystemExit as end:
                status = end.code
        return subprocess.CompletedProcess([name, *words], status, out.getvalue(), err.getvalue())  # type: ignore[arg-type]

    def run_process(self, name: str, *words: str, cfg: str = "/nowhere/cfg", given: bytes = b"") -> Done:
        """Runs a script as a process of its own."""
        command = [sys.executable, "-B", str(rows.script_path(name)), *words]
        done = subprocess.run(command, input=given, capture_output=True, env=dict(os.environ, CFG=cfg))
        return subprocess.CompletedProcess(command, done.returncode, done.stdout.decode(), done.stderr.decode())

    def run_main(self, name: str, *words: str) -> Tuple[int, List[str], str]:
        """The status, the lines of standard output, and standard error."""
        done = self.run_script(name, *words)
        return done.returncode, done.stdout.splitlines(), done.stderr

    def said(self, name: str, *words: str, status: int = 0, cfg: Optional[str] = None, path: Optional[str] = None) -> List[str]:
        done = self.run_script(name, *words, cfg=cfg, path=path)
        self.assertEqual((done.returncode, done.stderr), (status, ""))
        return done.stdout.splitlines()


def ends_first(said: List[str]) -> List[str]:
    """What unresolved says, from the first open end on, and behind it the totals."""
    begin = next((place for place in range(1, len(said)) if not said[place].startswith("    ")), len(said))
    return [*said[begin:], *said[:begin]]


class Errors(InFolder):
    def refused(self, name: str, *words: str, why: str, cfg: Optional[str] = None) -> None:
        """The script says why in one line, and ends with status 2."""
        done = self.run_script(name, *words, cfg=cfg)
        self.assertEqual(done.returncode, 2, done.stderr)
        self.assertRegex(done.stderr, f"^{name}: .*{why}.*\n$")

    def with_report(self, name: str, report: str) -> List[str]:
        known = {"REPORT": report, "ELF": self.elf(1), "TRACE": self.file("trace", b"10000\n")}
        return [known.get(word, word) for word in SCRIPTS[name]]

    def test_usage(self) -> None:
        for name in SCRIPTS:
            with self.subTest(name=name):
                self.assertEqual(self.run_script(name, "--help").returncode, 0)
                done = self.run_script(name)
                self.assertEqual(done.returncode, 2)
                self.assertTrue(done.stderr.startswith("usage: "))

    def test_missing_and_broken_reports(self) -> None:
        whole = rows.report(1)
        files = {
            "missing: No such file": str(self.folder / "missing"),
            "Is a directory": str(self.folder),
            "line 1: the report is empty": self.file("empty", b""),
            "line 1: this is no report": self.file("text", b"hello\n" * 100),
            "line 9: .* cut off": self.file("cut", whole[:-4]),
            "line 7: `retrun`": self.file("wrong", whole.replace(b" return", b" retrun")),
        }
        for name in SCRIPTS:
            for why, path in files.items():
                with self.subTest(name=name, why=why):
                    self.refused(name, *self.with_report(name, path), why=why)

    def test_a_program_that_is_not_heard_to_its_end(self) -> None:
        # More than a pipe holds is printed, and the script stops at the first block.
        count = 4000
        blocks = ", ".join(f"{at:x} {at + 4:x} return" for at in range(0x10000, 0x10000 + 4 * count, 4))
        functions = ", ".join(f"{at:x} may-return -: {at:x}" for at in range(0x10000, 0x10000 + 4 * count, 4))
        said = self.file("answer", small.report(functions, blocks))
        program = self.file("cfg", f"#!/bin/sh\ntrap '' PIPE\ncat '{said}' 2>&- || echo 'cfg: write fault' >&2\nsleep 1\n".encode())
        os.chmod(program, 0o755)
        done = self.run_process("draw", self.elf(1), "nosuch", cfg=program)
        self.assertEqual((done.returncode, len(done.stderr.splitlines())), (2, 1), done.stderr)
        self.assertIn("no function has the name", done.stderr)

    def test_reports_of_another_kind(self) -> None:
        for name in ("draw", "call_graph", "diff_reports", "unresolved", "query", "coverage"):
            with self.subTest(name=name):
                for kind in ("functions", "blocks", "edges"):
                    self.refused(name, *self.with_report(name, self.row(1, kind)), why="one of kind graph is needed")

    def test_elf_files(self) -> None:
        elf = self.elf(1)
        done = self.run_process("summary", elf, cfg=self.answering(2, b"", "cfg: malformed: Type"))
        self.assertEqual(done.returncode, 2)
        self.assertRegex(done.stderr, "^cfg: malformed: Type\nsummary: .*status 2\n$")
        self.refused("summary", elf, why="No such file", cfg=str(self.folder / "nothing"))
        self.refused("summary", "--elf", self.row(1), self.row(1), why="no ELF file")
        self.refused("unresolved", self.file("cut.elf", rows.elf(1)[:100]), self.row(1), why="broken ELF file")

    def test_a_program_that_is_not_built(self) -> None:
        """What takes hours is not begun unasked. A package, which cannot build, has its programs."""
        with mock.patch.object(cfg_report, "TOP", str(self.folder)), mock.patch.dict(os.environ):
            os.environ.pop("CFG", None)
            self.assertEqual(cfg_report.program_of("cfg"), str(self.folder / "bin" / "cfg"))
            (self.folder / "bin").mkdir()
            (self.folder / "bin" / "proved").touch()
            with self.assertRaisesRegex(ReportError, "^cfg is not built: .*/bin/cfg, run once, proves and builds it, in up to an hour.*--build"):
                cfg_report.program_of("cfg")
            with mock.patch.object(cfg_report, "may_build", True):
                self.assertEqual(cfg_report.program_of("cfg"), str(self.folder / "bin" / "cfg"))
            os.environ["CFG"] = "/another"
            self.assertEqual(cfg_report.program_of("cfg"), "/another")

    def test_the_first_word_build_and_the_installed_name(self) -> None:
        with mock.patch.object(cfg_report, "may_build", False), mock.patch.dict(os.environ, {"CFG_SCRIPT": "cfg-summary"}):
            done = self.run_script("summary", "--build", self.row(1))
            self.assertTrue(cfg_report.may_build)
            self.assertEqual((done.returncode, done.stderr), (0, ""))
            self.assertIn("usage: cfg-summary ", self.run_script("summary", "--help").stdout)

    def test_functions_and_pictures(self) -> None:
        self.refused("draw", self.row(1), "main", why="no function has the name or the address main")
        self.refused("call_graph", "--from", "main", self.row(1), why="no function has the name")
        self.refused("draw", "-o", str(self.folder / "a.jpg"), self.row(1), "10000", why="a file name ends with")
        self.refused("draw", "-o", str(self.folder / "no" / "a.dot"), self.row(1), "10000", why="No such file")


class Processes(InFolder):
    def test_as_processes(self) -> None:
        """Each script is run once as a user runs it, and once with a report that is missing."""
        for name in SCRIPTS:
            with self.subTest(name=name):
                words = [self.row(1) if word == "REPORT" else word for word in SCRIPTS[name]]
                words = [self.elf(1) if word == "ELF" else self.file("trace", b"10000\n") if word == "TRACE" else word for word in words]
                done = self.run_process(name, *words)
                self.assertEqual((done.returncode, done.stderr), (0, ""))
                self.assertTrue(done.stdout)
                done = self.run_process(name, *[word.replace("row1.graph", "missing") for word in words])
                self.assertEqual(done.returncode, 2)
                self.assertRegex(done.stderr, f"^{name}: .*missing: No such file or directory\n$")


class Summary(InFolder):
    def test_counts(self) -> None:
        for number in rows.ROWS:
            text = rows.report(number).decode()
            said = self.said("summary", self.row(number))
            for word in ("function", "block", "edge"):
                self.assertIn(f"{word}s {text.count(chr(10) + word + ' ')}", said)
            for kind in ("unknown", "icall", "table-cut", "table-open", "branch-out", "stop"):
                count = text.count(f" {kind}\n")
                self.assertEqual(any(line == f"    {kind} {count}" for line in said), count > 0)

    def test_other_kinds(self) -> None:
        self.assertEqual(self.said("summary", self.row(6, "edges"))[:2], ["report edges, entry 0000000000010000", "edges 3"])
        self.assertIn("functions 1", self.said("summary", self.row(6, "functions")))
        self.assertIn("blocks 3", self.said("summary", self.row(6, "blocks")))

    def test_code(self) -> None:
        said = self.said("summary", "--elf", self.elf(15), self.row(15))
        self.assertEqual(said[-2:], ["code 88 bytes, reached 84 (95.5 %), in 1 ranges not reached 4",
                                     "    not reached: 1004c to 10050, 4 bytes, from after start"])

    def test_standard_input_and_elf(self) -> None:
        done = self.run_script("summary", "-", given=rows.report(6))
        self.assertIn("blocks 3\n", done.stdout)
        self.assertIn("blocks 3", self.said("summary", self.elf(6), cfg=self.answering(0, rows.report(6))))


class Json(InFolder):
    def test_objects(self) -> None:
        found = [json.loads(line) for line in self.said("to_json", self.row(17))]
        self.assertEqual(found[0], {"record": "report", "version": 2, "entry": "0000000000010000"})
        self.assertEqual(found[2], {"record": "function", "entry": "000000000001000c", "may_return": True, "name": "g", "blocks": ["000000000001000c"]})
        self.assertEqual(found[3], {"record": "block", "start": "0000000000010000", "end": "0000000000010004", "kind": "branch"})
        self.assertEqual(found[-2], {"record": "edge", "from": "000000000001000c", "to": "0000000000010000", "kind": "tail"})
        self.assertEqual(found[-1], {"record": "end", "kind": "graph"})


class Pictures(InFolder):
    def test_function(self) -> None:
        said = "\n".join(self.said("draw", self.row(17), "10000"))
        for part in ("b10000 ", "b10004 -> b10000 [color=royalblue", "10000 to 10004: branch", "3 blocks, may return"):
            self.assertIn(part, said)
        self.assertNotIn("b1000c ", said)
        said = "\n".join(self.said("draw", self.row(17), "g"))
        self.assertIn('[label="10000", shape=ellipse', said)
        self.assertIn("tail: a jump that is a tail call", said)

    def test_names_are_escaped(self) -> None:
        report = self.file("quoted", rows.report(5).replace(b" c\n", b' a"\\\\b\n'))
        self.assertIn('digraph "a\\"\\\\\\\\b" {', self.said("draw", report, "10004")[0])

    def test_call_graph(self) -> None:
        said = self.said("call_graph", self.row(10))
        for way in ("    f10000 -> f1000c [color=firebrick];", "    f1000c -> f10000 [color=firebrick];"):
            self.assertIn(way, said)
        self.assertIn("    f1000c -> f10000 [color=purple, style=bold];", self.said("call_graph", self.row(17)))
        kept = self.said("call_graph", "--from", "10000", self.row(17))
        self.assertFalse(any("f1000c" in line for line in kept))
        kept = self.said("call_graph", "--to", "10000", "--depth", "1", self.row(17))
        self.assertTrue(any("f1000c" in line for line in kept))

    @unittest.skipUnless(shutil.which("dot"), "dot is not installed")
    def test_dot_draws(self) -> None:
        for number in rows.ROWS:
            path = str(self.folder / f"{number}.svg")
            self.said("draw", "-o", path, self.row(number), "10000")
            self.assertIn("<svg", Path(path).read_text())

    def test_instructions(self) -> None:
        said = "\n".join(self.said("draw", "--elf", self.elf(6), self.row(6), "10000"))
        self.assertIn("10004  addi a0,a0,-1\\l10008  bnez a0,10004", said)
        # Two streams of instructions: each block has those of its own.
        said = "\n".join(self.said("draw", "--elf", self.elf(8), self.row(8), "10000"))
        self.assertIn("10000  addi zero,sp,0", said.replace("mv zero,sp", "addi zero,sp,0"))
        self.assertIn("10002  nop", said)
        said = "\n".join(self.said("draw", "--elf", self.elf(16), self.row(16), "10000"))
        self.assertIn("10000  .2byte 0x0000", said)
        elf = self.file("wfi", small.elf([small.Part(".text", small.CODE, 0x10000, small.code("00150513 10500073 00008067"))], [("f", 0x10000, 12)]))
        report = self.file("wfi_report", small.report("10000 no-return f: 10000", "10000 10006 stop"))
        self.assertIn("10004  wfi, which is not decoded", "\n".join(self.said("draw", "--elf", elf, report, "f")))

    def test_a_call_graph_of_many_functions_has_straight_lines(self) -> None:
        for count, is_coarse in ((300, False), (301, True)):
            starts = [f"{0x10000 + 4 * number:x}" for number in range(count + 1)]
            report = self.file("many", small.report(", ".join(f"{at} may-return -: {at}" for at in starts[:-1]),
                                                    ", ".join(f"{at} {end} return" for at, end in zip(starts, starts[1:]))))
            status, _, complaints = self.run_main("call_graph", "-o", str(self.folder / "many.dot"), report)
            self.assertEqual((status, "splines=line" in (self.folder / "many.dot").read_text(), "with straight lines" in complaints), (0, is_coarse, is_coarse))


class Differences(InFolder):
    def test_same(self) -> None:
        self.assertEqual(self.said("diff_reports", self.row(10), self.row(10)),
                         ["0 functions lost, 0 added, 0 changed, 0 changed in bytes alone, 2 the same",
                          "not compared, since not reached: 0 bytes in A, 0 in B, of 0 functions"])

    def test_moved(self) -> None:
        moved = self.file("moved", rows.report(17).replace(b"00000001", b"00000002"))
        self.assertEqual(self.said("diff_reports", self.file("named", rows.report(17).replace(b"3 -", b"3 f")),
                                   self.file("moved", rows.report(17).replace(b"3 -", b"3 f").replace(b"00000001", b"00000002")))[-2],
                         "0 functions lost, 0 added, 0 changed, 0 changed in bytes alone, 2 the same")
        self.assertTrue(os.path.exists(moved))

    def test_lost_added_and_changed(self) -> None:
        said = self.said("diff_reports", self.row(6), self.row(17), status=1)
        self.assertEqual(said[0], "added g: 1 block, may-return")
        self.assertIn("changed 10000: ", said[1])
        self.assertEqual(self.said("diff_reports", self.row(17), self.row(6), status=1)[0], "lost g: 1 block, may-return")
        said = self.said("diff_reports", self.row(9), self.row(16), status=1)
        self.assertEqual(said[0], "changed 10000: -call 10000, -block call, +block stop")


class Unresolved(InFolder):
    def test_reasons(self) -> None:
        for number, lines in (
            (0, ["10006 unknown in after start: a return that is read as paired with the four bytes before it, which are no"
                 " instruction (auipc ra,0x18, so to 28002, where no code is)"]),
            (1, ["code 4 bytes, not reached 0 in 0 ranges", "0 of 1 blocks (0.0 %) end where a successor is unknown or may be false"]),
            (11, ["10004 icall in after start: to where no code is (110000)", "1000c unknown in after start: to where no code is (110008)"]),
            (12, ["10000 branch-out in start: a branch to where no code is (10040)"]),
        ):
            with self.subTest(row=number):
                self.assertEqual(ends_first(self.said("unresolved", "--last", "0", self.elf(number), self.row(number)))[:len(lines)], lines)
        self.assertEqual(self.said("unresolved", self.elf(16), self.row(16))[:2], [
            "0 of 1 blocks (0.0 %) end where a successor is unknown or may be false", "    1  stop  ebreak or unimp, which are meant"])
        said = ends_first(self.said("unresolved", "--last", "1", self.elf(15), self.row(15)))
        self.assertRegex(said[0], r"^1001c table-cut in after start: fewer entries .* \| jr a5$")
        said = ends_first(self.said("unresolved", "--last", "1", self.elf(32), self.row(32)))
        self.assertRegex(said[0], r"^10014 table-open in after start: a table without a bound test: .* \| jr a5$")


class Elfs(InFolder):
    def test_reading(self) -> None:
        elf = Elf(self.elf(6))
        self.assertEqual([(code.start, code.end) for code in elf.code], [(0x10000, 0x10010)])
        self.assertEqual([elf.place(at) for at in (0xFFFE, 0x10000, 0x10002, 0x10004)], ["fffe", "start", "start+0x2", "after start"])
        self.assertEqual([elf.is_code(at) for at in (0xFFFE, 0x10000, 0x10001, 0x1000E, 0x10010)], [False, True, False, True, False])

    def test_gaps(self) -> None:
        code = [Code(0, 10, b""), Code(20, 30, b"")]
        self.assertEqual(gaps(code, []), [(0, 10), (20, 30)])
        self.assertEqual(gaps(code, joined([(2, 4), (4, 6), (5, 8), (22, 30)])), [(0, 2), (8, 10), (20, 22)])
        self.assertEqual(gaps(code, [(0, 30)]), [])


if __name__ == "__main__":
    unittest.main()
