"""What `tools/maintain/plant_less` plants: each text stands once in its file, and each test is there."""

from __future__ import annotations

import re
import subprocess
import sys
import unittest

import rows
import test_work_done
from test_tools import script

TOP = rows.TOOLS.parent


class PlantLess(unittest.TestCase):
    def setUp(self) -> None:
        self.tool = script("plant_less")

    def test_each_text_stands_once(self) -> None:
        for body in self.tool.BODIES:
            with self.subTest(body.name):
                text = (TOP / body.file).read_text(encoding="utf-8")
                self.assertEqual([text.count(old) for old, _ in body.edits], [1] * len(body.edits))
                self.assertTrue(all(old != new for old, new in body.edits))

    def test_each_test_is_there(self) -> None:
        for body in self.tool.BODIES:
            with self.subTest(body.name):
                if not body.crate.startswith("test_"):
                    self.assertIn(body.crate, ("cfg", "cfg_one"))
                    self.assertTrue(hasattr(test_work_done.WorkDone, body.test.rpartition(".")[2]))
                    continue
                module, _, name = body.test.partition("::")
                text = (TOP / "crates" / body.crate / "src" / f"{module}.rt").read_text(encoding="utf-8")
                self.assertRegex(text, rf"#\[test\]\nfn {re.escape(name)}\(")

    def test_names(self) -> None:
        names = [body.name for body in self.tool.BODIES]
        self.assertEqual(len(names), len(set(names)))
        command = [sys.executable, "-B", str(rows.MAINTAIN / "plant_less"), "no_such_body"]
        done = subprocess.run(command, capture_output=True, text=True)
        self.assertEqual((done.returncode, done.stdout), (2, ""))
        self.assertIn(names[0], done.stderr)


if __name__ == "__main__":
    unittest.main()
