"""Jump tables by their entries, and edges that are not sure."""

from __future__ import annotations

import json
import unittest

import small
from small import CODE, READ_ONLY, Part
from test_tools import InFolder

# Row 32 of docs/ROWS.md: a table of four-byte entries at 20000 without a bound test. Of its entries here the first and the
# third lead to f's return, the second to the next instruction, and the last into g, which begins with the return at 10020.
TEXT = small.code("00020737 00251513 00E50533 00052783 00E787B3 00078067 00008067 00008067 00008067")
TABLE = small.words(0x10018 - 0x20000, 0x1001C - 0x20000, 0x10018 - 0x20000, 0x10020 - 0x20000)
FUNCTIONS = "10000 may-return f: 10000 10018 1001c, 10020 may-return g: 10020"
BLOCKS = "10000 10018 table-open, 10018 1001c return, 1001c 10020 return, 10020 10024 return"
EDGES = "10000 10018 table, 10000 1001c table, 10000 10020 table"


class Open(InFolder):
    def setUp(self) -> None:
        super().setUp()
        parts = [Part(".text", CODE, 0x10000, TEXT), Part(".rodata", READ_ONLY, 0x20000, TABLE)]
        self.elf_path = self.file("elf", small.elf(parts, [("f", 0x10000, 0x20), ("g", 0x10020, 4)]))
        self.path = self.file("report", small.report(FUNCTIONS, BLOCKS, EDGES))

    def test_entries(self) -> None:
        said = self.said("check_report", "--tables", "--elf", self.elf_path, self.path)
        self.assertEqual(said, [
            "table 20000 of the jump at 10014 in f+0x14: table-open, 4 entries of 4 bytes",
            "    10018 f+0x18: 0, 2", "    1001c f+0x1c: 1", "    10020 g: 3, not sure: outside the symbol"])
        said = self.said("check_report", "--tables", "--sure", "--elf", self.elf_path, self.path)
        self.assertEqual(said[0], "table 20000 of the jump at 10014 in f+0x14: table-open, 3 entries of 4 bytes")
        self.assertEqual(len(said), 3)

    def test_eight_bytes_with_a_bound(self) -> None:
        code = small.code("00100793 02A7E063 00020737 00351513 00E50533 00053783 00078067 00008067 00008067 00008067")
        parts = [Part(".text", CODE, 0x10000, code), Part(".rodata", READ_ONLY, 0x20000, small.doublewords(0x1001C, 0x10020, 0x1001C))]
        elf = self.file("elf8", small.elf(parts, [("f", 0x10000, len(code))]))
        said = self.said("check_report", "--tables", "--elf", elf, self.row(33))
        self.assertEqual(said, ["table 20000 of the jump at 10018 in f+0x18: table, 2 entries of 8 bytes", "    1001c f+0x1c: 0", "    10020 f+0x20: 1"])

    def test_marks(self) -> None:
        for words in ((), ("--elf", self.elf_path)):
            with self.subTest(words=words):
                self.assertIn("    not sure: 1, of tables without a bound test, outside the symbol that holds the jump",
                              self.said("summary", *words, self.path))
                edges = [json.loads(line) for line in self.said("to_json", *words, self.path) if '"edge"' in line]
                self.assertEqual([edge.get("unsure") for edge in edges], [None, None, True])
                self.assertIn('    f10000 -> f10020 [color=deeppink, style=dotted, label="?"];', self.said("call_graph", *words, self.path))
                drawn = "\n".join(self.said("draw", *words, self.path, "f"))
                self.assertIn("b10000 -> out10000_10020 [color=deeppink, style=dotted, label=", drawn)
                self.assertIn("not sure: outside the symbol that holds the jump", drawn)

    def test_sure(self) -> None:
        edges = [line for line in self.said("to_json", "--sure", self.path) if '"edge"' in line]
        self.assertEqual(len(edges), 2)
        self.assertFalse(any("->" in line for line in self.said("call_graph", "--sure", self.path)))
        self.assertNotIn("out10000", "\n".join(self.said("draw", "--sure", self.path, "f")))
        self.assertIn("2 functions, 4 blocks, 2 edges", self.said("check_report", "--sure", self.path)[0])

    def test_blocks_behind_what_is_not_sure_go_too(self) -> None:
        # The table leads into the middle of g, whose call of h is then one of f.
        functions = "10000 may-return f: 10000 10018 10024 10028, 10020 may-return g: 10020 10024 10028, 1002c may-return h: 1002c"
        blocks = "10000 10018 table-open, 10018 1001c return, 10020 10024 fall, 10024 10028 call, 10028 1002c return, 1002c 10030 return"
        edges = "10000 10018 table, 10000 10024 table, 10020 10024 fall, 10024 10028 after, 10024 1002c call"
        path = self.file("more", small.report(functions, blocks, edges))
        drawn = self.said("call_graph", path)
        self.assertIn('    f10000 -> f1002c [color=deeppink, style=dotted, label="?"];', drawn)
        self.assertIn("    f10020 -> f1002c [color=firebrick];", drawn)
        self.assertFalse(any("f10000 -> " in line for line in self.said("call_graph", "--sure", path)))
        items = [json.loads(line) for line in self.said("to_json", "--sure", path) if '"function"' in line]
        self.assertEqual(items[0]["blocks"], ["0000000000010000", "0000000000010018"])

    def test_symbols_that_were_added_inside_end_nothing(self) -> None:
        # As tools/add_entries does: at each case an entry without a size.
        parts = [Part(".text", CODE, 0x10000, TEXT), Part(".rodata", READ_ONLY, 0x20000, TABLE)]
        added = [("entry_ptr_10018", 0x10018, 0), ("entry_gap_1001c", 0x1001C, 0)]
        elf = self.file("more.elf", small.elf(parts, [("f", 0x10000, 0x20), *added, ("g", 0x10020, 4)]))
        functions = "10000 may-return f: 10000, 10018 may-return entry_ptr_10018: 10018, 1001c may-return entry_gap_1001c: 1001c, 10020 may-return g: 10020"
        path = self.file("more", small.report(functions, BLOCKS, EDGES))
        for words in (("--elf", elf), ()):
            edges = [json.loads(line) for line in self.said("to_json", *words, path) if '"edge"' in line]
            self.assertEqual([edge.get("unsure") for edge in edges], [None, None, True], words)
        self.assertEqual(len([line for line in self.said("to_json", "--sure", "--fold", "--elf", elf, path) if '"edge"' in line]), 2)
        self.assertIn("    10018 entry_ptr_10018: 0, 2", self.said("check_report", "--tables", "--elf", elf, path))

    def test_numbers_in_pictures(self) -> None:
        drawn = "\n".join(self.said("draw", "--elf", self.elf_path, self.path, "f"))
        self.assertIn('b10000 -> b10018 [color=deeppink, style=solid, label="0, 2", fontcolor=deeppink]', drawn)
        self.assertIn('label="3?"', drawn)


if __name__ == "__main__":
    unittest.main()
