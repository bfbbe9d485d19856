"""What docs/USING.md shows: each of its Python recipes runs, and its JSON lines are those of the script."""

from __future__ import annotations

import importlib
import io
import json
import os
import re
import subprocess
import sys
import tempfile
import unittest
from pathlib import Path
from typing import Dict, List

import rows
from cfgtools.reports import cfg_report

PAGE = (rows.TOOLS.parent / "docs" / "USING.md").read_text(encoding="utf-8")


def blocks(language: str) -> List[str]:
    return re.findall(rf"^```{language}\n(.*?)^```$", PAGE, re.DOTALL | re.MULTILINE)


class Recipes(unittest.TestCase):
    # What each recipe says of row 17, whose function at 10000 is called _start here, by a word of its code.
    SAID: Dict[str, List[str]] = {
        "open_ends": ["3 of 4 blocks, at 0 of them a successor is unknown"],
        "registers.free": ["10000: none", "10004: none", "10008: none"],
    }

    def run_recipe(self, code: str) -> List[str]:
        with tempfile.TemporaryDirectory() as folder:
            for kind, name in (("graph", "program.report"), ("live", "program.live")):
                Path(folder, name).write_bytes(rows.report(17, kind).replace(b"3 -\n", b"3 _start\n"))
            environment = dict(os.environ, PYTHONPATH=str(rows.TOOLS))
            done = subprocess.run([sys.executable, "-B", "-c", code], cwd=folder, env=environment, capture_output=True, text=True)
        self.assertEqual((done.returncode, done.stderr), (0, ""))
        return done.stdout.splitlines()

    def test_recipes(self) -> None:
        recipes = blocks("python")
        self.assertEqual(len(recipes), len(self.SAID))
        for code in recipes:
            word = next(word for word in self.SAID if word in code)
            with self.subTest(recipe=word):
                self.assertEqual(self.run_recipe(code), self.SAID[word])


class Calls(unittest.TestCase):
    """docs/PYTHON.md: its example runs, and the calls that it names are there."""

    PAGE = (rows.TOOLS.parent / "docs" / "PYTHON.md").read_text(encoding="utf-8")

    def test_example(self) -> None:
        first, code = re.findall(r"^```python\n(.*?)^```$", self.PAGE, re.DOTALL | re.MULTILINE)
        with tempfile.TemporaryDirectory() as folder:
            text = rows.report(17).replace(b"3 -\n", b"3 _start\n").replace(b"1000c return", b"1000c unknown")
            Path(folder, "program.report").write_bytes(text)
            environment = dict(os.environ, PYTHONPATH=str(rows.TOOLS))
            done = subprocess.run([sys.executable, "-B", "-c", first], cwd=folder, env=environment, capture_output=True, text=True)
            self.assertEqual((done.returncode, done.stderr), (0, ""))
            self.assertIn("<graph of program.report: 2 functions, 4 blocks, 4 edges>", done.stdout)
            done = subprocess.run([sys.executable, "-B", "-c", code], cwd=folder, env=environment, capture_output=True, text=True)
            self.assertEqual((done.returncode, done.stderr), (0, ""))
            self.assertEqual(done.stdout.splitlines(), ["_start at 10000, tail from the block at 10008", "g at 1000c"])
            self.assertIn(b"edge 0000000000010008 000000000001000c tail\n", Path(folder, "more.report").read_bytes())

    def test_names(self) -> None:
        for module, name in re.findall(r"^\| `(?:([\w.]+)\.)?(\w+)[(`]", self.PAGE, re.MULTILINE):
            found = cfg_report.load(io.BytesIO(rows.report(17))) if module == "report" else importlib.import_module(f"cfgtools.{module or 'reports.cfg_report'}")
            self.assertTrue(hasattr(found, name), f"{module}.{name}")


class Sources(unittest.TestCase):
    def test_each_source_of_entries_is_in_the_table(self) -> None:
        done = subprocess.run([sys.executable, "-B", str(rows.TOOLS / "add_entries"), "--help"], capture_output=True, text=True)
        page = (rows.TOOLS.parent / "docs" / "ENTRIES.md").read_text(encoding="utf-8")
        options = set(re.findall(r"^  (--[a-z-]+)", done.stdout, re.MULTILINE))
        listed = set(re.findall(r"^\| `(--[a-z-]+)(?: [A-Z0-9]+)?` \|", page, re.MULTILINE))
        self.assertLessEqual(listed, options)
        self.assertEqual([option for option in sorted(options) if f"`{option}" not in page], [])
        self.assertEqual(options - listed, {"--keep-overlaps", "--switches", "--tables", "--no-return", "--arch"})


class JsonLines(unittest.TestCase):
    def test_example(self) -> None:
        shown, = blocks("json")
        done = subprocess.run([sys.executable, "-B", str(rows.TOOLS / "to_json"), "-"], input=rows.report(17), capture_output=True)
        said = [json.loads(line) for line in done.stdout.splitlines()]
        for line in shown.splitlines():
            self.assertIn(json.loads(line), said)


if __name__ == "__main__":
    unittest.main()
