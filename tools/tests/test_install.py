"""bin/install, with a program in the place of cfg."""

from __future__ import annotations

import os
import shutil
import subprocess
import sys
import tempfile
import unittest
from pathlib import Path

import rows

TOP = rows.TOOLS.parent


class Install(unittest.TestCase):
    def setUp(self) -> None:
        folder = tempfile.TemporaryDirectory()
        self.addCleanup(folder.cleanup)
        self.top, self.prefix = Path(folder.name) / "a top", Path(folder.name) / "a prefix"
        for name in ("bin", "docs", "tools"):
            shutil.copytree(TOP / name, self.top / name, ignore=shutil.ignore_patterns("__pycache__"))

    def install(self) -> "subprocess.CompletedProcess[str]":
        command = ["sh", str(self.top / "bin" / "install"), str(self.prefix)]
        return subprocess.run(command, capture_output=True, text=True, check=False)

    def test_a_program_that_is_not_built_is_said(self) -> None:
        ran = self.install()
        self.assertEqual(ran.returncode, 1)
        self.assertIn("not built yet", ran.stderr)
        self.assertFalse(self.prefix.exists())

    def test_program_scripts_and_pages_are_put_in_place(self) -> None:
        program = self.top / "crates" / "cfg" / "out" / "cfg"
        program.parent.mkdir(parents=True)
        report = self.top / "one"
        report.write_bytes(rows.report(1))
        program.write_text(f"#!/bin/sh\nexec cat '{report}'\n")
        program.chmod(0o755)
        ran = self.install()
        self.assertEqual((ran.returncode, ran.stderr), (0, ""))
        self.assertIn("cfg_walk is left out", ran.stdout)
        for line in ran.stdout.splitlines():
            if line.startswith(str(self.prefix)) and not line.endswith("is not on the PATH"):
                self.assertTrue(Path(line).is_file(), line)
        self.assertTrue((self.prefix / "share" / "man" / "man1" / "cfg.1").is_file())
        elf = self.top / "one.elf"
        elf.write_bytes(rows.elf(1))
        environment = {name: value for name, value in os.environ.items() if name != "CFG"}
        said = subprocess.run([self.prefix / "bin" / "cfg-summary", elf], capture_output=True, text=True, env=environment, check=False)
        self.assertEqual((said.returncode, said.stderr), (0, ""))
        self.assertIn("functions", said.stdout)
        shutil.rmtree(self.top)
        self.assert_scripts_run()

    def assert_scripts_run(self) -> None:
        """Each script that is installed finds its modules, as does a reader of one's own."""
        scripts = sorted((self.prefix / "bin").glob("cfg-*"))
        self.assertEqual(len(scripts), 19)
        for script in scripts:
            said = subprocess.run([script, "--help"], cwd="/", capture_output=True, text=True, check=False)
            self.assertEqual((said.returncode, said.stderr), (0, ""), script.name)
            self.assertTrue(said.stdout.startswith(f"usage: {script.name} "), script.name)
        environment = dict(os.environ, PYTHONPATH=str(self.prefix / "share" / "cfg" / "tools"))
        command = [sys.executable, "-B", "-c", "from cfgtools.reports import cfg_report; print(cfg_report.FIRST_LINE)"]
        said = subprocess.run(command, cwd="/", env=environment, capture_output=True, text=True, check=False)
        self.assertEqual(said.stdout, "b'cfg-report 2\\n'\n")

    def test_no_module_of_an_earlier_version_is_left(self) -> None:
        program = self.top / "crates" / "cfg" / "out" / "cfg"
        program.parent.mkdir(parents=True)
        program.write_text("#!/bin/sh\n")
        program.chmod(0o755)
        self.install()
        old = self.prefix / "share" / "cfg" / "tools" / "cfgtools" / "reports" / "old.py"
        old.write_text("")
        self.assertEqual(self.install().returncode, 0)
        self.assertFalse(old.exists())

    def test_further_programs_that_are_built(self) -> None:
        for name in ("cfg", "cfg_walk", "cfg_check"):
            program = self.top / "crates" / name / "out" / name
            program.parent.mkdir(parents=True)
            program.write_text("#!/bin/sh\n")
            program.chmod(0o755)
        ran = self.install()
        self.assertEqual((ran.returncode, ran.stderr), (0, ""))
        self.assertIn(f"{self.prefix}/bin/cfg_walk\n", ran.stdout)
        self.assertTrue(os.access(self.prefix / "bin" / "cfg_walk", os.X_OK))
        self.assertTrue(os.access(self.prefix / "bin" / "cfg_check", os.X_OK))
        for page in ("cfg_walk.1", "cfg_check.1"):
            self.assertTrue((self.prefix / "share" / "man" / "man1" / page).is_file())


if __name__ == "__main__":
    unittest.main()
