"""--fold: entries that add_entries guessed belong to the functions around them."""

from __future__ import annotations

import unittest

import rows
import small
from cfgtools.reports.changed_graph import folded
from cfgtools.reports.guesses import is_guess
from test_cfg_report import load
from test_tools import InFolder

# f ends with a switch whose cases are entries, the second of which runs into g; a gap stands behind g, and one entry is called.
REPORT = small.report(
    "10000 may-return f: 10000, 10008 may-return behind_10008: 10008, 1000c may-return behind_1000c: 1000c, 10010 may-return g: 10010 10014, "
    "10018 may-return entry_gap_10018: 10018, 1001c may-return behind_1001c: 1001c",
    "10000 10008 unknown, 10008 1000c return, 1000c 10010 jump, 10010 10014 call, 10014 10018 return, 10018 1001c return, 1001c 10020 return",
    "1000c 10010 tail, 10010 10014 after, 10010 1001c call")


class Guesses(unittest.TestCase):
    def test_names(self) -> None:
        for name, wanted in ((b"behind_10000", True), (b"entry_gap_10000", True), (b"entry_gap_10004", False), (b"entry_eh_10000", False),
                             (b"behind_f", False), (b"entry_ptr_10000", False), (None, False)):
            self.assertEqual(is_guess(name, 0x10000), wanted, name)

    def test_bodies(self) -> None:
        found = folded(load(REPORT))
        self.assertEqual([(one.name, [f"{start:x}" for start in one.blocks]) for one in found.functions], [
            (b"f", ["10000", "10008", "1000c"]), (b"g", ["10010", "10014", "10018"]), (b"behind_1001c", ["1001c"])])
        self.assertEqual(len(found.blocks), 7)
        self.assertEqual([edge.kind for edge in found.edges], ["tail", "after", "call"])

    def test_cases_that_pointers_gave(self) -> None:
        # A table of f leads to an entry in f, to one in g, and to one in f that is called; none leads to that at 1000c.
        found = folded(load(small.report(
            "10000 may-return f: 10000, 10008 may-return entry_ptr_10008: 10008, 1000c may-return entry_ptr_1000c: 1000c, "
            "10010 may-return entry_made_10010: 10010, 10014 may-return g: 10014, 10018 may-return entry_ptr_10018: 10018",
            "10000 10008 table-open, 10008 1000c return, 1000c 10010 return, 10010 10014 return, 10014 10018 call, 10018 1001c return",
            "10000 10008 table, 10000 10010 table, 10000 10018 table, 10014 10010 call, 10014 10018 after")))
        self.assertEqual([(one.name, [f"{start:x}" for start in one.blocks]) for one in found.functions], [
            (b"f", ["10000", "10008"]), (b"entry_ptr_1000c", ["1000c"]), (b"entry_made_10010", ["10010"]), (b"g", ["10014"]), (b"entry_ptr_10018", ["10018"])])

    def test_nothing_to_fold(self) -> None:
        for number in rows.ROWS:
            whole = load(rows.report(number))
            self.assertEqual(list(folded(whole).items()), list(whole.items()), number)


class Scripts(InFolder):
    def test_each(self) -> None:
        path = self.file("report", REPORT)
        self.assertIn("10008 is in behind_10008", self.said("query", "where", path, "10008")[0])
        self.assertIn("10008 is in f at 10000", self.said("query", "where", "--fold", path, "10008")[0])
        self.assertIn('label="f, 3 blocks', "\n".join(self.said("draw", "--fold", path, "f")))
        self.assertFalse(any("behind_1000" in line for line in self.said("call_graph", "--fold", path)))


if __name__ == "__main__":
    unittest.main()
