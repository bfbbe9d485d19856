"""Where scripts are run from: from any directory, and through a symbolic link, they find their modules."""

from __future__ import annotations

import os
import subprocess
import unittest

import rows
from test_tools import InFolder

SCRIPTS = [path for folder in (rows.TOOLS, rows.MAINTAIN) for path in sorted(folder.iterdir()) if path.is_file() and os.access(path, os.X_OK)]


class Places(InFolder):
    def test_each_script_through_a_link(self) -> None:
        self.assertGreater(len(SCRIPTS), 30)
        for script in SCRIPTS:
            with self.subTest(script=script.name):
                link = self.folder / f"link-to-{script.name}"
                link.symlink_to(script)
                done = subprocess.run([link, "--help"], cwd="/", capture_output=True, text=True)
                self.assertNotIn("Traceback", done.stderr)
                # (some take --help for a file that is not there)
                self.assertIn(done.returncode, (0, 2), done.stderr)

    def test_a_link_to_the_folder(self) -> None:
        link = self.folder / "scripts"
        link.symlink_to(rows.TOOLS)
        report = self.row(6)
        for script in (link / "summary", link / "to_json"):
            done = subprocess.run([script, report], cwd="/", capture_output=True, text=True)
            self.assertEqual((done.returncode, done.stderr), (0, ""))

    def test_what_a_folder_holds(self) -> None:
        """Users' scripts alone stand at the top, each with a name that is one of no other script."""
        names = [path.name for path in SCRIPTS]
        self.assertEqual(len(names), len(set(names)))
        at_top = {path.name for path in rows.TOOLS.iterdir() if path.is_file()}
        listed = subprocess.run(["sh", str(rows.TOOLS.parent / "bin" / "install"), "--scripts"], capture_output=True, text=True)
        self.assertEqual(at_top, set(listed.stdout.split()))


if __name__ == "__main__":
    unittest.main()
