"""`cfgtools.graph`, the notebook of docs/, and what pip installs."""

from __future__ import annotations

import json
import os
import shutil
import subprocess
import sys
import unittest
from pathlib import Path
from typing import Any, Dict
from unittest import mock

import rows
import small
import cfgtools
from cfgtools.explain.abi_lives import AbiLives
from cfgtools.explain.values import Code
from cfgtools.elf.elf_file import Elf
from cfgtools.reports import cfg_report
from test_tools import InFolder

TOP = rows.TOOLS.parent
DEBIAN = "/usr/bin/python3"
RET = "00008067"


class Graphs(InFolder):
    def test_a_graph(self) -> None:
        with mock.patch.dict(os.environ, CFG=self.answering(0, rows.report(6))):
            found = cfgtools.graph(self.elf(6))
        self.assertEqual(repr(found), "<graph of row6.elf: 1 functions, 3 blocks, 3 edges>")
        self.assertEqual(found.function(0x10000).blocks, (0x10000, 0x10004, 0x1000C))
        self.assertEqual(found.function("10000"), found.functions[0])
        self.assertEqual([edge.kind for edge in found.edges], ["fall", "taken", "fall"])
        with self.assertRaises(KeyError):
            found.function("nosuch")

    def test_names_and_callees(self) -> None:
        report = self.file("report", small.report("10000 may-return main: 10000 10004, 10008 may-return _Z3topi: 10008",
                                                  "10000 10004 call, 10004 10008 return, 10008 1000c return", "10000 10004 after, 10000 10008 call"))
        found = cfgtools.graph(Path(report))
        self.assertEqual([one.entry for one in found.callees("main")], [0x10008])
        if shutil.which("c++filt"):
            self.assertEqual(found.function("top").name, "top(int)")
            self.assertEqual(repr(found.function("top")), "<top(int) at 0x10008, 1 blocks, may return>")

    def test_errors_carry_the_line(self) -> None:
        with mock.patch.dict(os.environ, CFG=self.answering(2, b"", "cfg: malformed: Interp")):
            with self.assertRaises(cfgtools.GraphError) as raised:
                cfgtools.graph(self.elf(6))
        self.assertEqual((raised.exception.status, raised.exception.line), (2, f"{self.elf(6)}: cfg: malformed: Interp"))
        with self.assertRaisesRegex(cfgtools.GraphError, "No such file"):
            cfgtools.graph("/nowhere/program")
        with self.assertRaisesRegex(cfgtools.GraphError, "this is no report"):
            cfgtools.graph(self.file("text", b"hello\n"))

    def test_the_notebook(self) -> None:
        with open(TOP / "docs" / "first_graph.ipynb", encoding="utf-8") as file:
            cells = json.load(file)["cells"]
        self.assertEqual(len(cells), 10)
        names: Dict[str, Any] = {}
        before = os.getcwd()
        shutil.copy(self.elf(6), self.folder / "program.elf")
        try:
            os.chdir(self.folder)
            with mock.patch.dict(os.environ, CFG=self.answering(0, rows.report(6))), mock.patch("builtins.print") as said:
                for cell in cells:
                    if cell["cell_type"] == "code":
                        exec(compile("".join(cell["source"]), "cell", "exec"), names)
        finally:
            os.chdir(before)
        self.assertEqual(repr(names["g"]), "<graph of program.elf: 1 functions, 3 blocks, 3 edges>")
        self.assertIn("/dev/null", str(said.call_args[0][0]))


class Installed(InFolder):
    def test_lists(self) -> None:
        text = (TOP / "pyproject.toml").read_text(encoding="utf-8")
        scripts = subprocess.run(["sh", str(TOP / "bin" / "install"), "--scripts"], capture_output=True, text=True).stdout.split()
        for name in scripts:
            self.assertIn(f'cfg-{name.replace("_", "-")} = "cfgtools.repository.launch:{name}"\n', text)
            self.assertIn(f'"{name}"', text)
        for room in (rows.TOOLS / "cfgtools").iterdir():
            if room.is_dir() and room.name != "__pycache__":
                self.assertIn(f'"cfgtools.{room.name}"', text)

    @unittest.skipUnless(os.access(DEBIAN, os.X_OK) and not subprocess.run([DEBIAN, "-c", "import pip, setuptools, wheel"], capture_output=True).returncode,
                         "pip, setuptools or wheel is not installed")
    def test_pip(self) -> None:
        source, to = self.folder / "source", self.folder / "to"
        source.mkdir()
        shutil.copy(TOP / "pyproject.toml", source)
        shutil.copytree(rows.TOOLS, source / "tools", ignore=shutil.ignore_patterns("tests", "maintain", "__pycache__"))
        command = [DEBIAN, "-m", "pip", "install", "-q", "--no-deps", "--no-build-isolation", "--no-index", "--target", str(to), str(source)]
        done = subprocess.run(command, capture_output=True, text=True)
        self.assertEqual(done.returncode, 0, done.stderr)
        environment = dict(os.environ, PYTHONPATH=str(to), CFG=self.answering(0, rows.report(6)))
        said = subprocess.run([sys.executable, str(to / "bin" / "cfg-query"), "where", self.elf(6), "10004"], env=environment, capture_output=True, text=True)
        self.assertIn("in the block from 10004 to 1000c", said.stdout, said.stderr)


class ByTheAbi(InFolder):
    # f: call of g; add a0,a0,s1; ret. g: ret.
    def test_masks(self) -> None:
        code = small.code("00C000EF", "00950533", RET, RET)
        path = self.file("elf", small.elf([small.Part(".text", small.CODE, 0x10000, code)], [("f", 0x10000, 12), ("g", 0x1000C, 4)]))
        report = self.file("report", small.report("10000 may-return f: 10000 10004, 1000c may-return g: 1000c",
                                                  "10000 10004 call, 10004 1000c return, 1000c 10010 return", "10000 10004 after, 10000 1000c call"))
        loaded = cfg_report.load_path(report)
        masks = AbiLives(Code(Elf(path), loaded), loaded).masks(loaded.functions[0])
        # At the call neither t0 nor ra is read; at its end s1 and ra are.
        self.assertFalse(masks[0x10000] >> 5 & 1 or masks[0x10000] >> 1 & 1)
        self.assertTrue(masks[0x10000] >> 9 & 1 and masks[0x10000] >> 10 & 1)
        self.assertTrue(masks[0x10004] >> 1 & 1 and masks[0x10004] >> 9 & 1 and not masks[0x10004] >> 12 & 1)

    def test_script(self) -> None:
        program = self.answering(0, rows.report(10))
        said = self.run_script("free_registers", "--abi", self.elf(10), "10000", cfg=program).stdout.splitlines()
        self.assertIn("which is an assumption", said[0])
        self.assertEqual(self.run_script("free_registers", "--abi", self.row(10)).returncode, 2)


if __name__ == "__main__":
    unittest.main()
