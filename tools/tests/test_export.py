"""tools/export: each form, read back by what reads it, or by stand-ins for the programs that do."""

from __future__ import annotations

import contextlib
import io
import json
import re
import shutil
import sqlite3
import subprocess
import sys
import types
import unittest
import xml.etree.ElementTree as xml
from pathlib import Path
from typing import Any, Dict, List
from unittest import mock

import rows
import small
from test_tools import InFolder

FORMS = ("dot", "graphml", "ghidra", "ida", "rizin", "sarif", "sqlite")
USING = (rows.TOOLS.parent / "docs" / "USING.md").read_text(encoding="utf-8")


class Recorder:
    """Takes any call and any name, and notes the calls."""

    def __init__(self, **numbers: int) -> None:
        self.calls: List[Any] = []
        self.__dict__.update(numbers)

    def __getattr__(self, name: str) -> Any:
        def noted(*words: Any) -> int:
            self.calls.append((name, *words))
            return len(self.calls)

        return noted


class Export(InFolder):
    def setUp(self) -> None:
        super().setUp()
        # Two functions, one with two names: a call, a branch that is not decoded behind it, and a return.
        code = small.code("008000EF 00008067", "00050463 0AB56533", "00008067")
        symbols = [("main", 0x10000, 8), ("g", 0x10008, 12), ("other", 0x10008, 12)]
        self.path = self.file("elf", small.elf([small.Part(".text", small.CODE, 0x10000, code)], symbols))
        self.report = self.file("report", small.report(
            "10000 may-return main: 10000 10004, 10008 may-return g: 10008 1000c 10010",
            "10000 10004 call, 10004 10008 return, 10008 1000c branch, 1000c 1000e stop, 10010 10014 return",
            "10000 10004 after, 10000 10008 call, 10008 1000c fall, 10008 10010 taken"))

    def out(self, form: str, *words: str) -> str:
        path = self.folder / f"out.{form}"
        self.said("export", form, "--elf", self.path, "-o", str(path), self.report, *words)
        return str(path)

    def test_words(self) -> None:
        self.assertEqual(self.run_script("export", "--help").returncode, 0)
        self.assertIn("a database needs -o FILE", self.run_main("export", "sqlite", self.report)[2])
        for form in ("ghidra", "ida", "rizin", "sarif"):
            self.assertIn("this form needs the ELF file", self.run_main("export", form, self.report)[2])
        self.assertEqual(self.run_script("export", "other", self.report).returncode, 2)

    def test_dot(self) -> None:
        said = self.said("export", "dot", self.report)
        self.assertIn("b10000 -> b10008 [color=firebrick];", said)
        self.assertEqual(sum(line.startswith("b") and "->" not in line for line in said), 5)
        if shutil.which("dot"):
            subprocess.run(["dot", "-Tcanon", self.out("dot")], check=True, capture_output=True)

    def test_graphml(self) -> None:
        names = {"g": "http://graphml.graphdrawing.org/xmlns"}
        root = xml.parse(self.out("graphml")).getroot()
        nodes, edges = root.findall(".//g:node", names), root.findall(".//g:edge", names)
        self.assertEqual((len(nodes), len(edges)), (5, 4))
        self.assertEqual({one.get("key"): one.text for one in nodes[0]}, {
            "start": "0000000000010000", "end": "0000000000010004", "kind": "call", "functions": "main"})
        self.assertEqual([one.text for one in edges[1]], ["call"])
        keys = {one.get("id") for one in root.findall("g:key", names)}
        self.assertTrue({data.get("key") for data in root.findall(".//g:data", names)} <= keys)

    def run_as(self, path: str, modules: Dict[str, Any], given: Dict[str, Any]) -> str:
        said = io.StringIO()
        with mock.patch.dict(sys.modules, modules), contextlib.redirect_stdout(said):
            exec(compile(Path(path).read_text(), path, "exec"), {"__file__": path, **given})
        return said.getvalue()

    def test_ida(self) -> None:
        funcs, names, xrefs = Recorder(), Recorder(SN_NOWARN=0, SN_FORCE=0), Recorder(fl_CN=16, fl_JN=18, XREF_USER=32)
        ua = types.SimpleNamespace(create_insn=lambda at: 4)
        said = self.run_as(self.out("ida"), {"ida_funcs": funcs, "ida_name": names, "ida_ua": ua, "ida_xref": xrefs}, {})
        self.assertEqual(said, "2 functions, 5 blocks, 2 edges\n")
        self.assertEqual([call for call in funcs.calls if call[0] != "get_func"],
                         [("add_func", 0x10000, 0x10008), ("add_func", 0x10008, 0x1000E), ("append_func_tail", 4, 0x10010, 0x10014)])
        self.assertEqual(names.calls, [("set_name", 0x10000, "main", 0), ("set_name", 0x10008, "g", 0)])
        self.assertEqual(xrefs.calls, [("add_cref", 0x10000, 0x10008, 48), ("add_cref", 0x10008, 0x10010, 50)])

    def test_ghidra(self) -> None:
        path, references, function = self.out("ghidra"), Recorder(), Recorder()
        kinds = types.SimpleNamespace(UNCONDITIONAL_CALL="call", COMPUTED_JUMP="table", CONDITIONAL_JUMP="branch", UNCONDITIONAL_JUMP="jump")
        modules = {name: types.ModuleType(name) for name in ("ghidra", "ghidra.program", "ghidra.program.model", "ghidra.program.model.address",
                                                             "ghidra.program.model.symbol")}
        modules["ghidra.program.model.address"].AddressSet = Recorder  # type: ignore[attr-defined]
        modules["ghidra.program.model.symbol"].RefType = kinds  # type: ignore[attr-defined]
        modules["ghidra.program.model.symbol"].SourceType = types.SimpleNamespace(USER_DEFINED="user")  # type: ignore[attr-defined]
        source = types.SimpleNamespace(getAbsolutePath=lambda: path)
        given = {"getSourceFile": lambda: source, "toAddr": lambda text: int(text, 16), "getInstructionAt": lambda at: at, "disassemble": None,
                 "getFunctionAt": lambda at: None, "createFunction": lambda at, name: function,
                 "currentProgram": types.SimpleNamespace(getReferenceManager=lambda: references)}
        self.assertEqual(self.run_as(path, modules, given), "2 functions, 5 blocks, 2 edges\n")
        self.assertEqual([call[:2] for call in function.calls if call[0] == "setName"], [("setName", "main"), ("setName", "g")])
        self.assertEqual(references.calls, [("addMemoryReference", 0x10000, 0x10008, "call", "user", 0), ("addMemoryReference", 0x10008, 0x10010, "branch", "user", 0)])
        # Jython reads Python 2: no form of Python 3 alone.
        self.assertIsNone(re.search(r'\bf"|: (int|str)\b|nonlocal|->', Path(path).read_text()))

    def test_rizin(self) -> None:
        lines = Path(self.out("rizin")).read_text().splitlines()
        self.assertEqual(lines[1:], [
            "af+ 0x10000 main", "afb+ 0x10000 0x10000 4 0x10004", "afb+ 0x10000 0x10004 4", "af+ 0x10008 g", "afb+ 0x10008 0x10008 4 0x10010 0x1000c",
            "afb+ 0x10008 0x1000c 2", "afb+ 0x10008 0x10010 4", "axC 0x10008 0x10000", "axc 0x10010 0x10008"])
        if shutil.which("rizin"):
            said = subprocess.run(["rizin", "-q", "-i", str(self.folder / "out.rizin"), "-c", "afl", self.path], capture_output=True, text=True)
            self.assertIn("main", said.stdout)

    def test_sarif(self) -> None:
        log = json.loads(Path(self.out("sarif")).read_text())
        self.assertEqual(log["version"], "2.1.0")
        run, = log["runs"]
        result, = run["results"]
        self.assertEqual(result["ruleId"], run["tool"]["driver"]["rules"][0]["id"])
        self.assertEqual(result["locations"][0]["physicalLocation"]["address"], {"absoluteAddress": 0x1000C, "fullyQualifiedName": "g+0x4"})
        self.assertIn("of the extension Zbb (0ab56533 max)", result["message"]["text"])

    def test_sqlite(self) -> None:
        base = sqlite3.connect(self.out("sqlite"))
        self.addCleanup(base.close)
        counts = [base.execute(f"SELECT count(*) FROM {table}").fetchone()[0] for table in ("functions", "names", "blocks", "bodies", "edges", "lives")]
        self.assertEqual(counts, [2, 3, 5, 5, 4, 0])
        self.assertEqual(base.execute("SELECT printf('%x', last), last_length FROM blocks ORDER BY start").fetchall(),
                         [("10000", 4), ("10004", 4), ("10008", 4), ("1000c", 2), ("10010", 4)])
        self.assertIn("it is there already", self.run_main("export", "sqlite", "-o", str(self.folder / "out.sqlite"), self.report)[2])

    def test_lives_in_a_database(self) -> None:
        graph, live = self.row(13), self.row(13, "live")
        cfg = self.file("cfg", f'#!/bin/sh\n[ "$1" = --report ] && exec cat {live}\nexec cat {graph}\n'.encode())
        Path(cfg).chmod(0o755)
        path = str(self.folder / "base")
        self.said("export", "sqlite", "--live", "-o", path, self.elf(13), cfg=cfg)
        base = sqlite3.connect(path)
        self.addCleanup(base.close)
        self.assertEqual(base.execute("SELECT printf('%x', block), free FROM lives WHERE free <> '' ORDER BY block").fetchall(),
                         [("10000", "a5"), ("10008", "a4 a5")])

    def test_the_queries_of_the_page(self) -> None:
        base = sqlite3.connect(self.out("sqlite"))
        self.addCleanup(base.close)
        queries = [query for text in re.findall(r"^```sql\n(.*?)^```$", USING, re.DOTALL | re.MULTILINE) for query in text.split(";") if query.strip()]
        self.assertEqual(len(queries), 5)
        said = [base.execute(query).fetchall() for query in queries]
        # Who calls a function by any of its names; what is reached; the largest functions; what is unresolved; jumps by their place.
        self.assertEqual(said[0], [("main", "10000")])
        self.assertEqual(said[1], [("g",), ("main",)])
        self.assertEqual(said[2], [("g", 3, 10), ("main", 2, 8)])
        self.assertEqual(said[3], [("g", "stop", 1)])
        self.assertEqual(said[4], [("10000", "10008", "call")])


if __name__ == "__main__":
    unittest.main()
