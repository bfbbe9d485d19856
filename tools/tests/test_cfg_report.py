"""The reader of reports: what it takes, and what it refuses, by line number."""

from __future__ import annotations

import io
import itertools
import random
import re
import tracemalloc
import unittest
from typing import List

import rows
import small
from cfgtools.reports import cfg_report
from cfgtools.reports.cfg_report import Block, Edge, End, Function, Heading, ReportError
from cfgtools.reports.growing import Growing, differences


def load(text: bytes) -> cfg_report.Report:
    return cfg_report.load(io.BytesIO(text))


def joined(lines: List[str]) -> bytes:
    return "".join(line + "\n" for line in lines).encode()


class Whole(unittest.TestCase):
    def test_every_row_of_every_kind(self) -> None:
        for number in rows.ROWS:
            for kind in cfg_report.REPORT_KINDS:
                with self.subTest(row=number, kind=kind):
                    report = load(rows.report(number, kind))
                    self.assertEqual(report.kind, kind)
                    self.assertEqual(list(report.problems()), [])

    def test_items_in_order(self) -> None:
        self.assertEqual(list(cfg_report.read(io.BytesIO(rows.report(17)))), [
            Heading(0x10000),
            Function(0x10000, True, None, (0x10000, 0x10004, 0x10008)),
            Function(0x1000C, True, b"g", (0x1000C,)),
            Block(0x10000, 0x10004, "branch"), Block(0x10004, 0x10008, "jump"),
            Block(0x10008, 0x1000C, "return"), Block(0x1000C, 0x10010, "jump"),
            Edge(0x10000, 0x10004, "fall"), Edge(0x10000, 0x10008, "taken"),
            Edge(0x10004, 0x10000, "jump"), Edge(0x1000C, 0x10000, "tail"),
            End("graph"),
        ])

    def test_functions_by_name_and_address(self) -> None:
        report = load(rows.report(17))
        self.assertEqual(report.function("g").entry, 0x1000C)
        for wanted in ("10000", "0x10000", "0000000000010000"):
            self.assertEqual(report.function(wanted).entry, 0x10000)
        with self.assertRaisesRegex(ReportError, "no function has the name or the address h"):
            report.function("h")

    def test_one_name_of_two_functions(self) -> None:
        report = load(rows.report(5).replace(b" c\n", b" a\n"))
        with self.assertRaisesRegex(ReportError, "2 functions are named a: give the address: a at 10000, a at 10004"):
            report.function("a")

    def test_a_stream_is_not_kept(self) -> None:
        count = 20_000
        blocks = (b"block %016x %016x return\n" % (place, place + 2) for place in range(0, 2 * count, 2))
        head = [b"cfg-report 2\n", b"entry %016x\n" % 0, b"blocks %d\n" % count]

        lines = itertools.chain(head, blocks, [b"end\n"])

        class Lines(io.RawIOBase):
            def readline(self, limit: int = -1) -> bytes:  # type: ignore[override]
                return next(lines, b"")

        tracemalloc.start()
        found = sum(isinstance(item, Block) for item in cfg_report.read(Lines()))  # type: ignore[arg-type]
        peak = tracemalloc.get_traced_memory()[1]
        tracemalloc.stop()
        self.assertEqual(found, count)
        self.assertLess(peak, 200_000)


class Page(unittest.TestCase):
    def test_examples_of_the_page(self) -> None:
        page = (rows.TOOLS.parent / "docs" / "REPORT.md").read_text(encoding="utf-8")
        shown = [part.encode() for part in re.findall(r"^```\n(.*?)^```$", page, re.DOTALL | re.MULTILINE)]
        heading = b"cfg-report 2\nentry 0000000000010000\n"
        reports = [part for part in shown if part.startswith(b"cfg-report")]
        reports += [heading + part + b"end\n" for part in shown if part.startswith(b"functions")]
        self.assertEqual(reports, [rows.report(number) for number in (1, 6, 15)])


class Names(unittest.TestCase):
    def test_escapes(self) -> None:
        for name, field in ((None, "-"), (b"-", "\\x2d"), (b"a b", "a\\x20b"), (b"a\\b", "a\\\\b"),
                            ("é".encode(), "\\xc3\\xa9"), (b"--", "--"), (b"\\x20", "\\\\x20")):
            self.assertEqual(cfg_report.name_field(name), field)
            self.assertEqual(cfg_report.read_name(field.encode()), name)

    def test_every_byte(self) -> None:
        for byte in range(256):
            name = bytes([0x61, byte])
            self.assertEqual(cfg_report.read_name(cfg_report.name_field(name).encode()), name)

    def test_what_is_no_name(self) -> None:
        for field in (b"a\\", b"a\\x2", b"a\\x2G", b"a\\xC3", b"a\\n", b"\xc3\xa9", b"a\x7f", b"a\\x41", b"a\\x2d", b"\\x5c"):
            with self.subTest(field=field), self.assertRaises(ValueError):
                cfg_report.read_name(field)


class Broken(unittest.TestCase):
    def refused(self, text: bytes, line: int, why: str) -> None:
        with self.assertRaises(ReportError) as caught:
            load(text)
        self.assertRegex(str(caught.exception), f"^line {line}: .*{why}")

    def test_every_prefix(self) -> None:
        for number in (1, 6, 17):
            text = rows.report(number)
            for length in range(len(text)):
                with self.subTest(row=number, length=length), self.assertRaises(ReportError):
                    load(text[:length])

    def test_every_line_missing_or_twice(self) -> None:
        for number in (1, 10, 15):
            for kind in cfg_report.REPORT_KINDS:
                lines = rows.lines(number, kind)
                for place in range(len(lines)):
                    for wrong in (lines[:place] + lines[place + 1:], lines[:place + 1] + lines[place:]):
                        with self.subTest(row=number, kind=kind, place=place), self.assertRaises(ReportError):
                            load(joined(wrong))

    def test_every_two_lines_exchanged(self) -> None:
        for kind in cfg_report.REPORT_KINDS:
            lines = rows.lines(10, kind)
            for place in range(len(lines) - 1):
                wrong = lines[:place] + [lines[place + 1], lines[place]] + lines[place + 2:]
                with self.subTest(kind=kind, place=place), self.assertRaises(ReportError):
                    load(joined(wrong))

    def test_what_is_said(self) -> None:
        for old, new, line, why in (
            (b"cfg-report 2", b"cfg-report 1", 1, "another version"),
            (b"cfg-report 2", b"\x7fELF", 1, "no report of cfg"),
            (b"entry 0", b"entry ", 2, "no address of sixteen"),
            (b"entry 0000000000010000", b"entry 0000000000010004", 7, "no function starts at the program's entry, 10004"),
            (b"functions 1", b"functions 01", 3, "`01` is no count"),
            (b"functions 1", b"functions 2", 8, "2 lines `function .*` were announced"),
            (b"may-return 3", b"may-return 4", 8, "4 lines `in BLOCK` were announced, and here, after 3"),
            (b"may-return 3", b"may-return 2", 7, "here should be a line `blocks COUNT`"),
            (b"may-return 3", b"returns 3", 4, "`returns` is not one of may-return, no-return"),
            (b"3 -", b"3 a\\q", 4, "is no name"),
            (b"in 0000000000010004", b"in 0000000000010000", 6, "blocks rise"),
            (b"in 0000000000010000", b"in 0000000000010002", 7, "does not have the block at its own entry"),
            (b"blocks 3", b"blocks 4", 12, "4 lines `block START END KIND` were announced"),
            (b"10004 fall\nblock", b"10004  fall\nblock", 9, "here should be a line"),
            (b"10004 fall\nblock", b"1000G fall\nblock", 9, "no address"),
            (b"10004 fall\nblock", b"10000 fall\nblock", 9, "before its start"),
            (b"10004 fall\nblock", b"10004 falls\nblock", 9, "`falls` is not one of fall"),
            (b"branch\n", b"branch\r\n", 10, "is not one of"),
            (b"edges 3", b"edges 2", 15, "here should be a line `end`"),
            (b"10004 taken", b"10004 icall", 14, "is not one of fall, taken, jump, tail"),
            (b"end\n", b"end", 16, "no newline"),
            (b"end\n", b"end\n\n", 17, "has ended"),
        ):
            with self.subTest(new=new):
                text = rows.report(6).replace(old, new, 1)
                self.assertNotEqual(text, rows.report(6))
                self.refused(text, line, why)

    def test_edges_out_of_order(self) -> None:
        lines = rows.lines(6)
        lines[-4:-1] = [lines[-3], lines[-4], lines[-2]]
        self.refused(joined(lines), 14, "out of order")


class Problems(unittest.TestCase):
    def test_what_does_not_fit(self) -> None:
        for number, old, new, why in (
            (6, b"may-return", b"no-return", "is said to be no-return"),
            (17, b"tail", b"jump", "should be of kind tail"),
            (17, b"10000 jump", b"10000 tail", "should be of kind jump"),
            (6, b"10004 000000000001000c branch", b"10004 000000000001000c jump", "ends with jump, and has the edges: taken, fall"),
            (6, b"edge 0000000000010004 000000000001000c", b"edge 0000000000010004 0000000000010010", "no block starts at 10010"),
            (6, b"block 0000000000010000 0000000000010004", b"block 0000000000010000 0000000000010002", "does not lead to the end of its block"),
            (10, b"may-return 2 -\nin 000000000001000c\nin 0000000000010010", b"may-return 1 -\nin 000000000001000c", "other blocks than its edges lead to"),
        ):
            with self.subTest(row=number, new=new):
                found = list(load(rows.report(number).replace(old, new, 1)).problems())
                self.assertTrue(any(why in problem for problem in found), found)


class Writing(unittest.TestCase):
    def test_what_is_read_is_written(self) -> None:
        for number in rows.ROWS:
            for kind in ("graph", "functions", "blocks", "edges", "live"):
                text, out = rows.report(number, kind), io.BytesIO()
                cfg_report.write(load(text), out)
                self.assertEqual(out.getvalue(), text)

    def test_names_with_escapes(self) -> None:
        text, out = rows.report(5).replace(b" c\n", b" a\\\\b\\x20c\n"), io.BytesIO()
        cfg_report.write(load(text), out)
        self.assertEqual(out.getvalue(), text)


class Landings(unittest.TestCase):
    """A report with an edge of the kind `landing` is of version 3, and no other is."""

    TEXT = small.report("10000 may-return f: 10000 10004 10008, 1000c may-return g: 1000c",
                        "10000 10004 call, 10004 10008 return, 10008 1000c return, 1000c 10010 return",
                        "10000 10004 after, 10000 10008 landing, 10000 1000c call").replace(b"cfg-report 2", b"cfg-report 3")

    def test_version_3(self) -> None:
        report, out = load(self.TEXT), io.BytesIO()
        self.assertEqual(list(report.problems()), [])
        cfg_report.write(report, out)
        self.assertEqual(out.getvalue(), self.TEXT)
        growing = Growing()
        self.assertEqual(growing.read(io.BytesIO(self.TEXT)).edges, report.edges)

    def test_exactly_then(self) -> None:
        with self.assertRaisesRegex(ReportError, "^line 17: an edge of the kind `landing`, and the first line says version 2"):
            load(self.TEXT.replace(b"cfg-report 3", b"cfg-report 2"))
        for kind in ("graph", "functions", "blocks", "edges", "live"):
            with self.assertRaisesRegex(ReportError, "the first line says version 3, and no edge"):
                load(rows.report(6, kind).replace(b"cfg-report 2", b"cfg-report 3"))

    def test_an_edge_too_many(self) -> None:
        twice = self.TEXT.replace(b"edges 3", b"edges 4").replace(b"edge 0000000000010000 000000000001000c call\n",
                                  b"edge 0000000000010000 000000000001000c call\nedge 0000000000010000 000000000001000c landing\n")
        self.assertTrue(any("ends with call, and has the edges" in problem for problem in load(twice).problems()))


class GrowingFile(unittest.TestCase):
    def test_reports_one_after_the_other(self) -> None:
        growing = Growing()
        for number in (6, 17, 13, 10, 33, 10, 16, 41):
            whole, found = load(rows.report(number)), growing.read(io.BytesIO(rows.report(number)))
            self.assertEqual((found.entry, found.blocks, found.edges), (whole.entry, whole.blocks, sorted(whole.edges)), number)
            self.assertEqual([(one.entry, one.may_return) for one in found.functions], [(one.entry, one.may_return) for one in whole.functions])

    def test_changes_lead_from_one_report_to_the_next(self) -> None:
        growing, before = Growing(), load(rows.report(6))
        growing.read(io.BytesIO(rows.report(6)))
        for number in (17, 13, 10, 33, 33, 16, 41):
            whole, found = load(rows.report(number)), growing.read(io.BytesIO(rows.report(number)))
            changes = growing.changes
            assert changes is not None
            self.assertEqual(set(before.edges).difference(changes.gone).union(changes.edges), set(whole.edges))
            self.assertFalse(set(changes.gone) & set(whole.edges) or set(changes.edges) & set(before.edges))
            self.assertEqual(set(changes.blocks), set(whole.blocks.values()) - set(before.blocks.values()))
            self.assertEqual({start: edges for start, edges in found.edges_from.items() if edges},
                             {start: sorted(edges) for start, edges in whole.edges_from.items()})
            before = whole

    def test_lines_of_two_texts(self) -> None:
        chosen = random.Random(1)
        for size in (3, 40, 700, 5000):
            places = sorted(chosen.sample(range(20 * size), size))
            texts = []
            for _ in range(2):
                gap = chosen.randrange(size), chosen.randrange(size)
                kept = [place for number, place in enumerate(places) if chosen.random() < 0.99 and not min(gap) <= number < max(gap)]
                texts.append(sorted({b"at %06x %d" % (place, chosen.random() < 0.01) for place in kept for _ in range(chosen.randrange(1, 3))}))
            before, after = (b"".join(b"\n" + line for line in lines) for lines in texts)
            more, gone = differences(before, after, len("\nat 000000"))
            self.assertEqual((sorted(more), sorted(gone)), (sorted(set(texts[1]) - set(texts[0])), sorted(set(texts[0]) - set(texts[1]))))

    def test_lines_of_a_text_and_of_none(self) -> None:
        self.assertEqual(differences(b"", b"\na\nb", 2), ([b"a", b"b"], []))
        self.assertEqual(differences(b"\na\nb", b"", 2), ([], [b"a", b"b"]))
        self.assertEqual(differences(b"\nab", b"\nab", 2), ([], []))
        self.assertEqual(differences(b"\nab\nb", b"\nabc", 2), ([b"abc"], [b"ab", b"b"]))

    def test_what_is_wrong_is_said(self) -> None:
        for text, why in ((rows.report(6)[:-4], "cut off"), (rows.report(6, "edges"), "kind graph is needed"), (b"", "empty")):
            with self.assertRaisesRegex(ReportError, why):
                Growing().read(io.BytesIO(text))


if __name__ == "__main__":
    unittest.main()
