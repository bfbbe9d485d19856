"""What tools/maintain/same_bytes says of programs in the place of `cfg`: one that always prints the same, and one that does not."""

from __future__ import annotations

import os
import subprocess
import sys
import tempfile
import unittest
from pathlib import Path

import rows

STAND_IN = """#!/bin/sh
case $# in 0) exit 1 ;; esac
echo "$3"
test "$2" = WORKERS && echo another
exit 0
"""
THIEF = """#!/bin/sh
echo worker=0 turns=3 stolen=2
echo worker=1 turns=4 stolen=5
"""


class SameBytes(unittest.TestCase):
    def setUp(self) -> None:
        folder = tempfile.TemporaryDirectory()
        self.addCleanup(folder.cleanup)
        self.folder = Path(folder.name)

    def program(self, name: str, text: str) -> str:
        path = self.folder / name
        path.write_text(text)
        path.chmod(0o755)
        return str(path)

    def run_script(self, cfg: str, *words: str, thief: str = "/nowhere") -> "subprocess.CompletedProcess[str]":
        environment = dict(os.environ, CFG=cfg, DUMP_THREADS=thief)
        command = [sys.executable, "-B", str(rows.MAINTAIN / "same_bytes"), *words]
        return subprocess.run(command, capture_output=True, text=True, env=environment)

    def test_programs_of_its_own(self) -> None:
        cfg = self.program("cfg", STAND_IN)
        done = self.run_script(cfg, "--runs", "3", "--processors", "1", "--load")
        names = [f"same_bytes: 3 runs on {name}" for name in ("many seeds", "one seed", "--make 2000")]
        self.assertEqual((done.returncode, done.stdout.splitlines()), (0, names))

    def test_a_difference(self) -> None:
        cfg = self.program("cfg", STAND_IN.replace("WORKERS", "5"))
        done = self.run_script(cfg, "--runs", "63", cfg)
        self.assertEqual(done.returncode, 1)
        self.assertEqual(done.stdout.splitlines(), [
            f"same_bytes: {cfg} with 5 workers is not what one worker prints", f"same_bytes: 63 runs on {cfg}",
        ])

    def test_what_is_stolen(self) -> None:
        cfg, thief = self.program("cfg", STAND_IN), self.program("thief", THIEF)
        done = self.run_script(cfg, "--runs", "1", cfg, thief=thief)
        self.assertEqual(done.stdout, f"same_bytes: 1 runs on {cfg}; four workers stole 7 operations\n")

    def test_wrong_words(self) -> None:
        cfg = self.program("cfg", STAND_IN)
        for words in (("--runs", "0"), ("--processors", "0"), ("--runs", "many")):
            with self.subTest(words=words):
                self.assertEqual(self.run_script(cfg, *words).returncode, 2)


if __name__ == "__main__":
    unittest.main()
