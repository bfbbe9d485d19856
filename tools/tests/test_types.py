"""The types of the scripts, by mypy, if it is installed; names that are not there or not used, by ruff or pyflakes; and that no
module imports itself, through others."""

from __future__ import annotations

import ast
import os
import shutil
import subprocess
import unittest
from pathlib import Path
from typing import Dict, List, Set

import rows
from test_tools import InFolder

# What begins a script in Python.
FIRST_LINE = b"#!/usr/bin/env python3\n"
PACKAGE = rows.TOOLS / "cfgtools"
FOLDERS = (rows.TOOLS, rows.MAINTAIN, rows.TOOLS.parent / "bin", *sorted(it for it in PACKAGE.iterdir() if it.is_dir()), PACKAGE)
TESTS = rows.TOOLS / "tests"
# The rules: what is no Python, and names.
RUFF = ("ruff", "check", "--isolated", "--no-cache", "--select", "E9,F")
LINTER = RUFF if shutil.which("ruff") else ("pyflakes3",)

Imports = Dict[str, Set[str]]


def is_python(path: Path) -> bool:
    return path.suffix == ".py" or path.is_file() and path.read_bytes().startswith(FIRST_LINE)


def scripts(*folders: Path) -> List[str]:
    """The files in Python of some folders."""
    return [str(path) for folder in folders for path in sorted(folder.iterdir()) if is_python(path)]


def imported(path: Path) -> Set[str]:
    """The modules that a file may import, wherever in it: what is imported from a package may be one."""
    found: Set[str] = set()
    for item in ast.walk(ast.parse(path.read_bytes())):
        if isinstance(item, ast.Import):
            found.update(one.name for one in item.names)
        elif isinstance(item, ast.ImportFrom) and item.module:
            found.update([item.module, *(f"{item.module}.{one.name}" for one in item.names)])
    return found


def modules() -> Imports:
    """The modules of the package, and of each those that it imports."""
    paths = {f"cfgtools.{path.parent.name}.{path.stem}": path for path in PACKAGE.glob("*/*.py") if path.stem != "__init__"}
    return {name: imported(path) & paths.keys() for name, path in paths.items()}


def in_cycles(left: Imports) -> List[str]:
    """Those that import themselves, through others, and those that import such a one."""
    while True:
        # What imports nothing that is left is in no cycle.
        done = {name for name, used in left.items() if not used & left.keys()}
        if not done:
            return sorted(left)
        left = {name: used for name, used in left.items() if name not in done}


class Types(InFolder):
    @unittest.skipUnless(shutil.which("mypy"), "mypy is not installed")
    def test_types(self) -> None:
        words = ["mypy", "--cache-dir", str(self.folder), "--scripts-are-modules", "--disallow-untyped-defs", "--disallow-incomplete-defs"]
        environment = dict(os.environ, MYPYPATH=os.pathsep.join(map(str, (rows.TOOLS, TESTS))))
        done = subprocess.run([*words, *scripts(*FOLDERS, TESTS)], cwd=rows.TOOLS, env=environment, capture_output=True, text=True)
        self.assertEqual(done.returncode, 0, done.stdout)

    @unittest.skipUnless(shutil.which(LINTER[0]), "neither ruff nor pyflakes3 is installed")
    def test_names(self) -> None:
        done = subprocess.run([*LINTER, *scripts(*FOLDERS, TESTS)], cwd=rows.TOOLS, capture_output=True, text=True)
        self.assertEqual(done.returncode, 0, done.stdout)


class Cycles(unittest.TestCase):
    def test_no_module_imports_itself(self) -> None:
        self.assertEqual(in_cycles(modules()), [])

    def test_no_room_imports_one_that_imports_it(self) -> None:
        room = {name: name.split(".")[1] for name in modules()}
        rooms: Imports = {it: set() for it in room.values()}
        for name, used in modules().items():
            rooms[room[name]] |= {room[it] for it in used} - {room[name]}
        self.assertEqual(in_cycles(rooms), [])
        # The page of the package has them from the ground up.
        page = ast.get_docstring(ast.parse((PACKAGE / "__init__.py").read_text()), clean=False) or ""
        listed = [line.split()[0] for line in page.splitlines() if line.startswith("    ")]
        self.assertEqual(sorted(listed), sorted(rooms))
        for name, used in rooms.items():
            self.assertLessEqual(used, set(listed[:listed.index(name)]), name)

    def test_a_cycle_is_seen(self) -> None:
        self.assertEqual(in_cycles({"a": {"b"}, "b": {"c"}, "c": {"b"}, "d": set()}), ["a", "b", "c"])

    def test_modules_are_imported_by_their_whole_names(self) -> None:
        short = {name.rpartition(".")[2] for name in modules()}
        for path in map(Path, scripts(*FOLDERS, TESTS)):
            self.assertEqual(imported(path) & short, set(), path)


if __name__ == "__main__":
    unittest.main()
