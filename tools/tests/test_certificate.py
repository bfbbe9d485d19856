"""Certificates: their text, valid ones by a naive maker, and spoilt ones."""

from __future__ import annotations

import io
import os
import struct
import subprocess
import unittest
from typing import List, Sequence, Tuple
from unittest import mock

import rows
import naive_certificates
import small
from cfgtools.checks import binutils, certificate as certificates
from cfgtools.checks.certificate import Certificate, Lead, Part, Program, Return
from cfgtools.checks.listing import Listing
from cfgtools.checks.pattern_tables import Tables
from test_tools import InFolder

# The program, if it is built.
CHECK = rows.TOOLS.parent / "crates" / "cfg_check" / "out" / "cfg_check"
LACKING = binutils.missing(binutils.OBJDUMP, binutils.READELF)
# Rows without tables. Rows 5 and 7 are told by their symbols, which these files do not have.
PLAIN_ROWS = [number for number in sorted(rows.ROWS) if number not in (5, 7, 13, 15, 32, 33, 34)]
ROW_1 = "cfg-cert 1\npart none\nret 0000000000010000 0 self\nlead 0000000000010000 0 seed\nend\n"
ROW_8 = """cfg-cert 1
part none
ret 0000000000010004 1 to 0000000000010008
ret 0000000000010008 0 self
lead 0000000000010000 0 seed
lead 0000000000010002 1 from 0000000000010000
lead 0000000000010004 2 join 0000000000010002 0000000000010000
lead 0000000000010008 1 from 0000000000010000
end
"""


def parsed(text: str) -> Certificate:
    return certificates.read(io.BytesIO(text.encode()))


class Text(unittest.TestCase):
    def test_there_and_back(self) -> None:
        part = Part((Return(2, 0, "self"), Return(4, 1, "to", 6), Return(6, 2**64 - 1, "call")),
                    (Lead(2, 0, "seed"), Lead(4, 1, "from", 2), Lead(6, 2, "join", 2, 4)))
        for one in (Certificate(part), Certificate(part, Part((), ()))):
            self.assertEqual(parsed(certificates.text(one)), one)
        self.assertEqual(certificates.text(parsed(ROW_8)), ROW_8)

    def test_no_text(self) -> None:
        lines = ROW_8.splitlines(keepends=True)
        for text in ("", ROW_8[:-1], ROW_8 + "\n", ROW_8.replace("cert 1", "cert 2"), ROW_8.replace(" 2 join", " 02 join"),
                     ROW_8.replace(" 2 join", f" {2**64} join"), ROW_8.replace("ret 0000000000010004", "ret 000000000001000A"),
                     ROW_8.replace("ret 0000000000010004", "ret 0000000000010008"), ROW_8.replace("part none\n", ""),
                     "".join([*lines[:2], lines[4], *lines[2:4], *lines[5:]]), ROW_8.replace(" seed", "  seed"),
                     ROW_8.replace("end", "part cuts\npart cuts\nend"), ROW_8.replace("self", "seed"), ROW_8.replace("\n", "\r\n")):
            with self.subTest(text=text), self.assertRaises(certificates.NoCertificate):
                parsed(text)
        # Lists without lines are a text.
        self.assertEqual(parsed("cfg-cert 1\npart none\nend\n"), Certificate(Part((), ())))


@unittest.skipIf(LACKING, f"{LACKING} is not installed")
class Certificates(InFolder):
    def faults(self, path: str, text: str) -> List[str]:
        return list(certificates.faults(Listing(path), parsed(text)))

    def row_elf(self, number: int) -> str:
        return self.file(f"{number}.elf", rows.elf(number))

    def with_tables(self, symbols: Sequence[Tuple[str, int, int]] = (("a", 0x10000, 0), ("b", 0x10028, 0))) -> str:
        """The file of row 15: two functions with a table each; the second one begins inside the first."""
        code = b"".join(int(word, 16).to_bytes(4, "little") for word in rows.ROWS[15].code.split())
        data = struct.pack("<4i", *(to - 0x20000 for to in (0x10020, 0x10020)), *(to - 0x20008 for to in (0x10054, 0x10054)))
        parts = [small.Part(".text", small.CODE, 0x10000, code), small.Part(".rodata", small.READ_ONLY, 0x20000, data)]
        return self.file("tables.elf", small.elf(parts, list(symbols)))

    def test_rows_by_hand(self) -> None:
        for number, wanted in ((1, ROW_1), (8, ROW_8)):
            self.assertEqual(certificates.text(naive_certificates.made(self.row_elf(number))), wanted)
            self.assertEqual(self.faults(self.row_elf(number), wanted), [])

    def test_made_ones_are_valid(self) -> None:
        for number in PLAIN_ROWS:
            with self.subTest(row=number):
                path = self.row_elf(number)
                text = certificates.text(naive_certificates.made(path))
                status, said, _ = self.run_main("check_certificate", path, self.file("cert", text.encode()))
                self.assertEqual((status, said[-1]), (0, "faults: 0"))
        # With the report of the row.
        cert = self.file("cert", ROW_8.encode())
        self.assertEqual(self.run_main("check_certificate", "--report", self.row(8), self.row_elf(8), cert)[:2],
                         (0, ["4 leads and 2 returns, ranks up to 2", "faults: 0", "differences of the report: 0"]))
        status, said, _ = self.run_main("check_certificate", "--report", self.row(6), self.row_elf(8), cert)
        self.assertEqual((status, said[2]), (1, "the report has no block 10002 10004 fall"))

    def test_ranks_need_not_be_least(self) -> None:
        self.assertEqual(self.faults(self.row_elf(8), ROW_8.replace(" 2 join", " 17 join").replace("4 1 to", "4 9 to")), [])

    def test_tables_and_their_cuts(self) -> None:
        path = self.with_tables()
        found = naive_certificates.made(path)
        # Without cuts the first table has four entries, two of which are the second one's and lead elsewhere.
        self.assertNotIn(0x1004C, {one.at for one in found.part.leads})
        tables = Tables(Listing(path))
        plain = naive_certificates.made_part(Program(Listing(path), tables, {}))
        self.assertEqual(sorted({one.at for one in plain.leads} - {one.at for one in found.part.leads}), [0x1004C])
        text = certificates.text(found)
        self.assertEqual(self.faults(path, text), [])
        self.assertTrue(self.faults(path, certificates.text(Certificate(plain))))
        # A second part is read, and never valid.
        for one in (Certificate(plain, found.part), Certificate(found.part, found.part)):
            self.assertIn("there is a second part", self.faults(path, certificates.text(one)))
        self.assertEqual(self.faults(self.row_elf(1), ROW_1.replace("end", "part cuts\nend")), ["there is a second part"])
        report = self.file("report", small.report(rows.ROWS[15].functions, rows.ROWS[15].blocks, rows.ROWS[15].edges))
        status, said, _ = self.run_main("check_certificate", "--report", report, path, self.file("cert", text.encode()))
        self.assertEqual((status, said[-2:]), (0, ["faults: 0", "differences of the report: 0"]))

    def test_tables_that_nothing_reaches(self) -> None:
        # The second function has no symbol here.
        path = self.with_tables([("a", 0x10000, 0)])
        self.assertEqual(sorted(Tables(Listing(path)).everywhere()), [0x1001C, 0x10048])
        found = naive_certificates.made(path)
        self.assertEqual([one.at for one in found.part.leads], [0x10000, 0x10008, 0x10020, 0x10024])

    def test_each_item(self) -> None:
        for text, fault in (
            (ROW_8.replace("lead 0000000000010000 0 seed\n", ""), "the seed 10000 is no lead"),
            (ROW_8.replace("8 1 from 0000000000010000", "8 1 seed"), "lead 10008: no seed"),
            (ROW_8.replace("8 1 from 0000000000010000", "8 0 from 0000000000010000"), "lead 10008: the rank of 10000 is not lower"),
            (ROW_8.replace("8 1 from 0000000000010000", "8 3 from 0000000000010006"), "lead 10008: 10006 is no lead"),
            (ROW_8.replace("4 2 join 0000000000010002 0000000000010000", "4 2 from 0000000000010000"),
             "lead 10004: the chain of 10000 does not lead there"),
            (ROW_8.replace("join 0000000000010002 0000000000010000", "join 0000000000010000 0000000000010002"),
             "lead 10004: no straight instruction of 2 bytes before it is on the chain of 10000"),
            ("".join(line for line in ROW_8.splitlines(True) if "join" not in line), "10004 lies in the blocks of 10000 and 10002"),
            ("".join(line for line in ROW_8.splitlines(True) if not line.startswith("lead 0000000000010002") and "join" not in line),
             "lead 10000: its way on from 10004 to 10002 is no lead"),
            (ROW_8.replace("4 1 to", "4 0 to"), "ret 10004: 10008 is not listed to return with a lower rank"),
            (ROW_8.replace("1 to 0000000000010008", "1 to 0000000000010000"), "ret 10004: 10000 is no successor"),
            (ROW_8.replace("1 to 0000000000010008", "1 self"), "ret 10004: it does not return by itself"),
            (ROW_8.replace("1 to 0000000000010008", "1 call"), "ret 10004: it is no call of a known address"),
            (ROW_8.replace("ret 0000000000010008 0 self\n", ""), "10008 returns, by itself, and is not listed"),
            (ROW_8.replace("ret 0000000000010004 1 to 0000000000010008\n", ""), "10004 returns, since a successor does, and is not listed"),
            (ROW_8.replace("ret 0000000000010008", "ret 0000000000010006 9 self\nret 0000000000010008"), "ret 10006: no lead's chain ends there"),
            (ROW_8.replace("lead 0000000000010008", "lead 0000000000010007 0 seed\nlead 0000000000010008"), "lead 10007: no code address"),
        ):
            with self.subTest(fault=fault):
                self.assertIn(fault, self.faults(self.row_elf(8), text))

    def test_calls(self) -> None:
        # 10000 calls 10008 and goes on to 10004.
        path = self.file("calls.elf", small.elf([small.Part(".text", small.CODE, 0x10000, small.code("008000ef 00008067 00008067"))], []))
        text = certificates.text(naive_certificates.made(path))
        self.assertEqual(self.faults(path, text), [])
        self.assertIn("ret 0000000000010000 1 call\n", text)
        for old, new, fault in (
            ("ret 0000000000010000 1 call\n", "", "10000 returns, since it calls what returns, and goes on to what returns, and is not listed"),
            ("lead 0000000000010004 1 from 0000000000010000\n", "", "lead 10000: its way on from 10000 to 10004 is no lead"),
            (" 1 call", " 0 call", "ret 10000: 10008 is not listed to return with a lower rank"),
            (" 1 call", " 1 to 0000000000010008", "ret 10000: 10008 is no successor"),
        ):
            self.assertIn(fault, self.faults(path, text.replace(old, new)))

    def test_no_line_can_be_left_out(self) -> None:
        for number in PLAIN_ROWS:
            path = self.row_elf(number)
            lines = certificates.text(naive_certificates.made(path)).splitlines(True)
            for place in range(2, len(lines) - 1):
                with self.subTest(row=number, line=lines[place]):
                    self.assertTrue(self.faults(path, "".join(lines[:place] + lines[place + 1:])))

    def test_why(self) -> None:
        path, cert = self.row_elf(8), self.file("cert", ROW_8.encode())
        status, said, _ = self.run_main("why", "--certificate", cert, path, "10008")
        self.assertEqual((status, said), (0, [
            "why 10008 (after start) is reached:", "  10000 (start): a seed, the program's entry",
            "  10008 (after start): gone on to from the branch not taken at 10004 (after start)",
            "why the block at 10008 (after start) may return:", "  10008 (after start): a return"]))
        said = self.run_main("why", "--certificate", cert, path, "10004")[1]
        self.assertEqual(said[1:4], ["  10000 (start): a seed, the program's entry",
                                     "  10002 (start+0x2): branched to at 10004 (after start)",
                                     "  10004 (after start): two streams of instructions join, one from 10002 and one from 10000"])
        self.assertEqual(said[-2:], ["  10004 (after start): goes on to 10008 (after start)", "  10008 (after start): a return"])
        self.assertEqual(self.run_main("why", "--certificate", cert, path, "start")[1][:2],
                         ["why 10000 (start) is reached:", "  10000 (start): a seed, the program's entry"])
        self.assertEqual(self.run_main("why", "--certificate", cert, path, "10006")[:2], (1, ["10006 is in no block: no leader's chain has it"]))
        # A reason that the certificate does not have.
        spoilt = self.file("spoilt", ROW_8.replace("from 0000000000010000", "from 0000000000010006").encode())
        self.assertEqual(self.run_process("why", "--certificate", spoilt, path, "10008").returncode, 2)

    def test_spoil(self) -> None:
        for path in (self.row_elf(8), self.with_tables()):
            cert = self.file("cert", certificates.text(naive_certificates.made(path)).encode())
            status, said, _ = self.run_main("spoil", "--count", "15", path, cert)
            self.assertEqual((status, said[-1]), (0, "0 spoilt certificates show another graph"))
            self.assertEqual(said[0], "a line left out: 15 refused")
            self.assertRegex(said[3], r"^another rank: \d+ refused, \d+ valid, the same graph$")
            self.assertRegex(said[-2], r"^a text that is none: \d+ no text$")
        # A judge that takes everything, with a graph of its own for each.
        judge = self.file("judge", b'#!/bin/sh\nsum "$3"\n')
        os.chmod(judge, 0o755)
        status, said, _ = self.run_main("spoil", "--count", "2", "--checker", judge, path, cert)
        self.assertEqual((status, said[0]), (1, "a line left out: 2 VALID, ANOTHER GRAPH"))

    def test_why_and_spoil_ask_for_a_certificate(self) -> None:
        path, cert = self.row_elf(8), self.file("cert", ROW_8.encode())
        maker = self.file("maker", f'#!/bin/sh\ntest "$1 $2" = "make {path}" && exec cat {cert}\n'.encode())
        os.chmod(maker, 0o755)
        with mock.patch.dict(os.environ, {"CFG_CHECK": maker}):
            self.assertEqual(self.run_main("why", path, "10008"), self.run_main("why", "--certificate", cert, path, "10008"))
            self.assertEqual(self.run_main("spoil", "--count", "2", path), self.run_main("spoil", "--count", "2", path, cert))
        with mock.patch.dict(os.environ, {"CFG_CHECK": "false"}):
            self.assertEqual(self.run_process("why", path, "10008").returncode, 2)

    @unittest.skipUnless(os.access(CHECK, os.X_OK), "cfg_check is not built")
    def test_both_makers_agree(self) -> None:
        for path in (*map(self.row_elf, PLAIN_ROWS), self.with_tables()):
            with self.subTest(path=path):
                made = subprocess.run([str(CHECK), "make", path], stdout=subprocess.PIPE, check=True).stdout
                self.assertEqual(made.decode(), certificates.text(naive_certificates.made(path)))
                tested = subprocess.run([str(CHECK), "test", path, self.file("cert", made)], stdout=subprocess.PIPE, check=True).stdout
                self.assertTrue(tested.startswith(b"cfg-report 2\n"))

    def test_statuses(self) -> None:
        path = self.row_elf(1)
        self.assertEqual(self.run_main("check_certificate", path, self.file("cert", ROW_1.replace("ret 0000000000010000 0 self\n", "").encode()))[0], 1)
        done = self.run_process("check_certificate", path, self.file("cert", ROW_1[:-1].encode()))
        self.assertEqual((done.returncode, done.stdout), (2, ""))
        self.assertIn("line 5: here should be the line `end`", done.stderr)


if __name__ == "__main__":
    unittest.main()
