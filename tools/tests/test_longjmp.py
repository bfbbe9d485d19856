"""A program in C that leaves nested calls by `longjmp`: no call of it comes back, and a run stays in the graph.

The program and the addresses that a run of it executed, in qemu-riscv64, are kept in the folder longjmp, so no compiler is needed."""

from __future__ import annotations

import os
import subprocess
import unittest
from pathlib import Path

import rows
from cfgtools.reports import cfg_report
from test_check_trace import log
from test_tools import InFolder

HERE = Path(__file__).resolve().parent / "longjmp"
PROGRAM = rows.TOOLS.parent / "crates" / "cfg_one" / "out" / "cfg_one"


class Longjmp(InFolder):
    def setUp(self) -> None:
        super().setUp()
        if not os.access(PROGRAM, os.X_OK):
            self.skipTest("cfg_one is not built")
        done = subprocess.run([str(PROGRAM), str(HERE / "parser")], capture_output=True, timeout=60)
        self.assertEqual((done.returncode, done.stderr), (0, b""))
        self.path = self.file("report", done.stdout)

    def test_no_call_comes_back(self) -> None:
        with open(self.path, "rb") as stream:
            report = cfg_report.load(stream)
        at = {it.name: it.entry for it in report.functions}
        returning = {it.name for it in report.functions if it.may_return}
        calls = {it.source for it in report.edges if it.kind == "call" and it.to == at[b"longjmp"]}
        others = {it.source for it in report.edges if it.kind == "call"} - calls
        back = {it.source for it in report.edges if it.kind == "after"}
        self.assertEqual((len(calls), calls & back), (1, set()))
        self.assertTrue(others & back)
        # `longjmp` itself ends in a return, so its own status is that of its blocks.
        self.assertEqual(returning & {b"error", b"main", b"longjmp"}, {b"main", b"longjmp"})

    def test_a_run_stays_in_the_graph(self) -> None:
        steps = [int(it, 16) for it in (HERE / "trace").read_text().split()]
        self.assertGreater(len(steps), 1000)
        status, lines, _ = self.run_main("check_trace", "--report", self.path, "--log", self.file("log", log(*steps)), str(HERE / "parser"))
        self.assertEqual((status, lines[-1]), (0, "0 outliers"))
        self.assertFalse([line for line in lines if "in no block" in line])


if __name__ == "__main__":
    unittest.main()
