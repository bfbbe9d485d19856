"""Manual pages of the scripts: each is read by `man` without a warning, and has all options of the script."""

from __future__ import annotations

import re
import shutil
import subprocess
import unittest
from pathlib import Path

import rows
from test_tools import InFolder, script


class Pages(InFolder):
    def test_each_page(self) -> None:
        names = script("manual_pages").SCRIPTS
        said = self.said("manual_pages", str(self.folder / "made" / "man1"))
        self.assertEqual(len(said), len(names))
        for name, path in zip(names, said):
            with self.subTest(name=name):
                text = Path(path).read_text(encoding="utf-8")
                self.assertEqual(Path(path).name, f"cfg-{name.replace('_', '-')}.1")
                for section in ("NAME", "SYNOPSIS", "DESCRIPTION", "OPTIONS"):
                    self.assertIn(f".SH {section}\n", text)
                self.assertIn(f"cfg\\-{name.replace('_', chr(92) + '-')}", text)
                self.assertNotIn(f"tools/{name} ", text)
                options = set(re.findall(r"^ +(--[a-z-]+)", self.run_script(name, "--help").stdout, re.MULTILINE))
                for option in options:
                    self.assertIn(option.replace("-", "\\-"), text)

    @unittest.skipUnless(shutil.which("man") and shutil.which("lexgrog"), "man is not installed")
    def test_man_reads_them(self) -> None:
        for path in self.said("manual_pages", str(self.folder)):
            done = subprocess.run(["man", "--warnings", "-E", "UTF-8", "-l", "-Tutf8", "-Z", path], capture_output=True, text=True)
            self.assertEqual((done.returncode, done.stderr), (0, ""), path)
            self.assertEqual(subprocess.run(["lexgrog", path], capture_output=True).returncode, 0, path)

    def test_every_script_for_users_has_one(self) -> None:
        page = (rows.TOOLS.parent / "docs" / "USING.md").read_text(encoding="utf-8")
        named = set(re.findall(r"^\| `tools/(\w+)[ `]", page, re.MULTILINE))
        self.assertEqual(named, set(script("manual_pages").SCRIPTS))


if __name__ == "__main__":
    unittest.main()
