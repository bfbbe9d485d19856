"""`tools/maintain/page_tables`: the tables of docs/ are those of the sources of today; and what it does with sources of its own."""

from __future__ import annotations

import importlib.machinery
import importlib.util
import re
import subprocess
import sys
import tempfile
import unittest
from pathlib import Path
from types import ModuleType
from typing import Dict, Set

import rows

SCRIPT = rows.MAINTAIN / "page_tables"
CRATES = """# NAME: the libraries that it names.

# Bytes. What is read.
low: of_kit
# More of them.
middle: low of_kit

# Programs: the product.
cfg: middle low
"""
FILES = {
    "crates.txt": CRATES,
    "crates/low/src/lib.rt": "//! Reads\n//! bytes.\n//!\n//! More.\n",
    "crates/low/specs/Lib.antt": "pub mod Bytes\n",
    "crates/low/specs/Bytes.antt": "-- The bytes of a file, as numbers from 0 to 255 (System V ABI, \"Data Encoding\").\nuse A.{B}\n\nabbrev pub X : ℕ\nX = 1\n",
    "crates/low/specs/FewWords.antt": "-- Few words.\nuse A.{B}\n\n-- a number\nabbrev pub X : ℕ\nX = 1\n\n-- Longer, but not public.\nX : ℕ\n",
    "crates/low/specs/Inner/Hidden.antt": "-- Hidden.\nabbrev pub X : ℕ\nX = 1\n",
    "crates/middle/proofs/A.antt": "use Rattle.low.proofs.Lemmas.Some.{one}\nuse Rattle.std.proofs.Common.{two}\n",
    "crates/cfg/src/main.rt": "//! The program.\nfn main() {}\n",
    "crates/check_rows/data/code": """row 7, file 1: two functions
file row 7 0
run cfg --workers @ F
> cfg-report 2
> entry 0000000000010000
> functions 2
> function 0000000000010000 may-return 1 -
> in 0000000000010000
> function 0000000000010004 no-return 1 c
> in 0000000000010004
> blocks 2
> block 0000000000010000 0000000000010004 return
> block 0000000000010004 0000000000010008 jump
> edges 1
> edge 0000000000010004 0000000000010004 jump
> end

row 8: a byte is another one
file row 7 0
bytes 64 00
run cfg --workers @ F
> cfg-report 2
""",
}
PAGE = """# A page

<!-- made: crates -->
<!-- end -->

<!-- made: cited -->
stale
<!-- end -->

<!-- made: definitions low -->
| Notion | File | Source | What it says |
|---|---|---|---|
| kept notion | `low/FewWords` | ISA 2.2 | stale |
| gone | `low/Gone` | none | stale |
<!-- end -->
"""
ROWS = """<!-- made: rows -->
| Row | File | Answer | Graph |
|---|---|---|---|
| 7 | two words | | |
| | the same | status 2 | stale |
| 8 | another byte | status 0 | stale |
<!-- end -->
"""
SCRIPTS = """<!-- made: scripts tools -->
| Script | Does | See |
|---|---|---|
| `tools/second FILE` | stale | a page |
| `tools/gone` | stale | |
<!-- end -->
"""
GATE = """<!-- gate -->

| Crate | Check | Its tests | Start of its edits | Edits | Seconds of these | Sum |
|---|---|---|---|---|---|---|
| `low` | 1,200 | 3* |  |  |  | 1,203 |
| `cfg` | 10 |  |  | 1 | 2 | 12 |
| all, seconds | 1,210 | 3 |  | 1 | 2 | 1,215 |
| all, minutes | 20 | 0 | | | 0 | 20 |

<!-- end -->

<!-- made: gate-differs -->
<!-- end -->
"""


def module() -> ModuleType:
    loader = importlib.machinery.SourceFileLoader("page_tables", str(SCRIPT))
    spec = importlib.util.spec_from_loader("page_tables", loader)
    assert spec
    found = importlib.util.module_from_spec(spec)
    loader.exec_module(found)
    return found


class Pages(unittest.TestCase):
    def test_no_table_is_stale(self) -> None:
        done = subprocess.run([sys.executable, "-B", str(SCRIPT), "--check"], capture_output=True, text=True)
        self.assertEqual((done.returncode, done.stdout, done.stderr), (0, "", ""))


class Links(unittest.TestCase):
    """Every link of a page leads to a file that is there, and to a heading in it."""

    @staticmethod
    def anchors(page: Path) -> Set[str]:
        text = re.sub(r"(?ms)^```.*?^```$", "", page.read_text(encoding="utf-8"))
        return {re.sub(r"[^\w\- ]", "", it.lower()).replace(" ", "-") for it in re.findall(r"(?m)^#+ (.*)$", text)}

    def test_links(self) -> None:
        for page in module().pages(rows.TOOLS.parent):
            for link in re.findall(r"\]\(([^)\s]+)\)", page.read_text(encoding="utf-8")):
                path, _, anchor = link.partition("#")
                target = page.parent / path if path else page
                with self.subTest(page=page.name, link=link):
                    self.assertTrue(target.exists())
                    self.assertTrue(not anchor or anchor in self.anchors(target))


class Made(unittest.TestCase):
    def setUp(self) -> None:
        folder = tempfile.TemporaryDirectory()
        self.addCleanup(folder.cleanup)
        self.top, self.tables = Path(folder.name), module()
        self.write(FILES)

    def write(self, files: Dict[str, str]) -> None:
        for name, text in files.items():
            (self.top / name).parent.mkdir(parents=True, exist_ok=True)
            (self.top / name).write_text(text, encoding="utf-8")

    def test_crates(self) -> None:
        page = self.tables.remade(self.top, PAGE)
        self.assertIn("### Bytes\n\n| Crate | Stands on | Under | What it is for |\n|---|---|---|---|\n"
                      "| `low` | `of_kit` | `cfg` | Reads bytes |\n| `middle` | `low` | `cfg` |  |\n\n### Programs: the product\n", page)
        self.assertIn("| `cfg` | `middle` |  | The program |\n", page)

    def test_cited(self) -> None:
        page = self.tables.remade(self.top, PAGE)
        self.assertIn("| `low` | `Lemmas` | `middle` |\n\n<!-- end -->", page)
        self.assertNotIn("std", page)

    def test_definitions(self) -> None:
        page = self.tables.remade(self.top, PAGE)
        self.assertIn("|---|---|---|---|\n| kept notion | `low/FewWords` | ISA 2.2 | Few words: a number |\n"
                      "| bytes | `low/Bytes` | ELF, \"Data Encoding\" | The bytes of a file, as numbers from 0 to 255 |\n\n<!-- end -->", page)

    def test_worked_rows(self) -> None:
        page = self.tables.remade(self.top, ROWS)
        self.assertIn("| 7 | two words |  | blocks 10000 10004 return, 10004 10008 jump; edges 10004 10004 jump; "
                      "functions 10000 may-return 1 -, in 10000; 10004 no-return 1 c, in 10004 |\n"
                      "|  | the same | status 2 |  |\n| 8 | another byte | status 0 |  |\n", page)
        self.assertEqual(self.tables.written(self.top, page).split(), "Row File Answer 7 two words the same status 2 8 another byte status 0".split())

    def test_scripts(self) -> None:
        for name, text in (("first", "#!/bin/sh\n# Makes a|b, or\n# nothing. More.\n#\n#     tools/first\nexit 1\n"),
                           ("second", "#!/usr/bin/env python3\n\"\"\"Reads\na file.\n\n    tools/second FILE\n\"\"\"\n"), ("note", "")):
            self.write({f"tools/{name}": text})
            (self.top / "tools" / name).chmod(0o644 if name == "note" else 0o755)
        page = self.tables.remade(self.top, SCRIPTS)
        self.assertIn("| Script | Does | See |\n|---|---|---|\n| `tools/second FILE` | Reads a file | a page |\n"
                      "| `tools/first` | Makes a\\|b, or nothing |  |\n\n<!-- end -->", page)
        self.assertEqual(self.tables.remade(self.top, page), page)
        self.assertEqual(self.tables.written(self.top, page).split(), "Script See `tools/second FILE` a page `tools/first`".split())

    def test_made_again_it_is_the_same(self) -> None:
        page = self.tables.remade(self.top, PAGE)
        self.assertNotEqual(page, PAGE)
        self.assertEqual(self.tables.remade(self.top, page), page)

    def test_a_change_of_the_sources_is_seen(self) -> None:
        page = self.tables.remade(self.top, PAGE)
        for name, old, new in (("crates.txt", "cfg: middle low", "cfg: low"), ("crates/low/src/lib.rt", "Reads", "Takes"),
                               ("crates/middle/proofs/A.antt", "Lemmas", "Others"), ("crates/low/specs/Bytes.antt", "as numbers", "as counts")):
            self.write({**FILES, name: FILES[name].replace(old, new)})
            self.assertNotEqual(self.tables.remade(self.top, page), page, name)

    def test_crates_without_a_table_of_definitions(self) -> None:
        self.write({"crates/middle/specs/A.antt": "-- A.\nabbrev pub X : ℕ\n"})
        self.assertEqual(self.tables.without_table(self.top, self.tables.uses_of(str(self.top)), PAGE), ["no table has the definitions of middle"])

    def test_words_that_people_wrote(self) -> None:
        self.assertEqual(len(self.tables.written(self.top, self.tables.remade(self.top, PAGE)).split()), len("# A page kept notion ISA 2.2".split()))

    def test_marks_that_mean_nothing(self) -> None:
        for mark in ("unknown", "definitions nothing", ""):
            with self.assertRaises(self.tables.Problem):
                self.tables.remade(self.top, f"<!-- made: {mark} -->\n<!-- end -->\n")

    def test_gate(self) -> None:
        page = self.tables.remade(self.top, GATE)
        self.assertIn("It has no row of `middle`. The number of edits is another one today in 1 of its rows.", page)
        self.assertEqual(self.tables.gate_problems(page), [])
        self.write({"crates/cfg/must-fail/a.edit": ""})
        without = GATE.replace("| `low` |", "| `gone` |")
        self.assertIn("It has no row of `low`, `middle`. It has rows of crates that are no more: `gone`.\n", self.tables.remade(self.top, without))

    def test_gate_that_is_wrong(self) -> None:
        for old, new in (("| 1,210 |", "| 1,310 |"), ("| `cfg` |", "| `low` |")):
            self.assertEqual(len(self.tables.gate_problems(GATE.replace(old, new))), 1, new)
        for text in ("", GATE.replace("| 10 |", "| ten |")):
            with self.assertRaises(self.tables.Problem):
                self.tables.gate_problems(text)


if __name__ == "__main__":
    unittest.main()
