"""Questions in text and JSON, dominators and loops, edges that are known otherwise, names, and coverage."""

from __future__ import annotations

import contextlib
import io
import json
import os
import random
import sys
import unittest
from typing import Dict, List, Set
from unittest import mock

import small
from cfgtools.reports import progress as progress_module
from cfgtools.reports.body import Body
from test_tools import InFolder, ends_first


class Query(InFolder):
    def asked(self, question: str, *words: str) -> List[str]:
        return self.said("query", question, *words)

    def test_callers_and_callees(self) -> None:
        self.assertEqual(self.asked("callers", self.row(10), "1000c"), ["10000 at 10000, call from the block at 10004"])
        self.assertEqual(self.asked("callees", self.row(17), "g"), ["10000 at 10000, tail from the block at 1000c"])
        self.assertEqual(self.asked("callees", self.row(11), "10000"), ["not known: icall from the block at 10000", "not known: unknown from the block at 10008"])

    def test_where(self) -> None:
        self.assertEqual(self.asked("where", self.row(17), "1000a"), ["1000a is in 10000 at 10000, in the block from 10008 to 1000c, which ends with return"])
        self.assertEqual(self.asked("where", self.row(17), "10010"), ["10010 is in no block"])
        # A block that two functions share.
        self.assertEqual([json.loads(line)["function"] for line in self.asked("where", self.row(7), "10004", "--json")], ["10000", "two"])

    def test_reach(self) -> None:
        self.assertEqual(self.asked("reach", self.row(17), "g", "10000"), ["g -> 10000"])
        self.assertEqual(self.asked("reach", self.row(17), "10000", "g"), ["no way from 10000 to g"])
        self.assertEqual(self.asked("reach", self.row(10), "10000"), ["1000c at 1000c"])
        self.assertEqual(self.asked("reached", self.row(17), "10000"), ["g at 1000c"])
        answer, = self.asked("reach", self.row(17), "g", "10000", "--json")
        self.assertEqual(json.loads(answer), {"reaches": True, "way": ["g", "10000"], "entries": ["000000000001000c", "0000000000010000"]})

    def test_no_return(self) -> None:
        self.assertEqual(self.asked("no-return", self.row(9)), ["10000 at 10000: calls 10000, which does not return, at 10000"])
        self.assertEqual(self.asked("no-return", self.row(16)), ["10000 at 10000: stops at 10000"])
        self.assertEqual(self.asked("no-return", self.row(17)), [])
        self.assertEqual(self.asked("no-return", self.row(17), "g"), ["g at 1000c may return"])
        report = small.report("10000 no-return f: 10000, 10004 no-return g: 10004", "10000 10004 jump, 10004 10008 jump", "10000 10004 tail, 10004 10004 jump")
        self.assertEqual(self.asked("no-return", self.file("loop", report)),
                         ["f at 10000: goes on to g, which does not return, at 10000", "g at 10004: loops for ever at 10004"])

    def test_loops_and_dominators(self) -> None:
        # A loop at 10004 with one at 10008 in it, and one of two entries at 10010 and 10014.
        blocks = ", ".join(f"{at:x} {at + 4:x} branch" for at in range(0x10000, 0x10018, 4)) + ", 10018 1001c return"
        edges = ("10000 10004 fall, 10000 10014 taken, 10004 10008 fall, 10004 10010 taken, 10008 10008 taken, 10008 1000c fall,"
                 " 1000c 10004 taken, 1000c 10010 fall, 10010 10014 fall, 10010 10018 taken, 10014 10010 taken, 10014 10018 fall")
        report = self.file("loops", small.report("10000 may-return f: 10000 10004 10008 1000c 10010 10014 10018", blocks, edges))
        self.assertEqual(self.asked("loops", report, "f"), ["loop at 10004: 3 blocks", "    loop at 10008: 1 blocks", "loop at 10010, 10014: 2 blocks, irreducible"])
        self.assertEqual(self.asked("dominators", report, "10004"), ["10000", "  10004", "    10008", "      1000c", "  10010", "  10014", "  10018"])
        self.assertEqual(json.loads(self.asked("loops", report, "f", "--json")[1])["depth"], 1)

    def test_dominators_by_their_definition(self) -> None:
        chance = random.Random(7)
        for _ in range(40):
            count = chance.randrange(1, 12)
            body = Body.__new__(Body)
            body.entry, body.blocks = 0, tuple(range(count))
            body.onward = {one: sorted({chance.randrange(count) for _ in range(chance.randrange(3))}) for one in range(count)}
            body.back = {one: [other for other in range(count) if one in body.onward[other]] for one in range(count)}
            self.assertEqual(body.dominators(), self.by_removal(body.onward))

    def by_removal(self, onward: Dict[int, List[int]]) -> Dict[int, int]:
        """The immediate dominators by the definition: what cannot be reached without a block is dominated by it."""
        def reached(without: int) -> Set[int]:
            found: Set[int] = set()
            left = [0] if without else []
            while left:
                one = left.pop()
                if one not in found and one != without:
                    found.add(one)
                    left += onward[one]
            return found

        every = reached(-1)
        above = {one: {other for other in every if other != one and one not in reached(other)} for one in every}
        return {one: max(above[one], key=lambda other: len(above[other])) for one in every if one}


class Edges(InFolder):
    def test_call_and_jump(self) -> None:
        # An icall and an unknown jump, each with a way that is known; and what is in no block.
        report = small.report("10000 may-return f: 10000 10004, 10010 no-return g: 10010, 10014 may-return h: 10014 10018",
                              "10000 10004 icall, 10004 10008 unknown, 10010 10014 jump, 10014 10018 fall, 10018 1001c return",
                              "10000 10004 after, 10010 10010 jump, 10014 10018 fall")
        path = self.file("report", report)
        edges = self.file("edges", b"# what a trace knows\n10000 10010\n0x10006 10014\n10004 20000 jump\n")
        status, said, error = self.run_main("query", "callees", path, "f", "--edges", edges)
        self.assertEqual(said[:2], ["g at 10010, call from the block at 10000", "h at 10014, tail from the block at 10004"])
        self.assertIn("1 places are in no block, and edges to or from them are left out: 20000", error)
        self.assertEqual(self.said("query", "reach", path, "f", "h"), ["no way from f to h is known; 1 functions on the way call or jump through a register: "
                         "f (tools/guess_calls guesses where)"])
        known = self.file("known", b"10000 10010 call\n10004 10018\n")
        items = [json.loads(line) for line in self.said("to_json", path, "--edges", known)]
        self.assertIn({"record": "edge", "from": "0000000000010004", "to": "0000000000010018", "kind": "jump"}, items)
        function = next(item for item in items if item.get("name") == "f")
        self.assertEqual(function["blocks"], ["0000000000010000", "0000000000010004", "0000000000010018"])
        for name, words in (("summary", [path]), ("draw", [path, "f"]), ("call_graph", [path]), ("check_report", [path]), ("coverage", ["--trace", known, path])):
            with self.subTest(name=name):
                self.assertEqual(self.run_main(name, *words, "--edges", known)[0], 0)
        self.assertEqual(self.run_main("diff_reports", path, path, "--edges", known, known)[0], 0)
        self.assertEqual(self.run_main("diff_reports", path, path, "--edges", known, self.file("none", b""))[0], 1)

    def test_open_ends(self) -> None:
        report = self.file("report", small.report("10000 may-return f: 10000 10004", "10000 10004 icall, 10004 10008 return", "10000 10004 after"))
        elf = self.file("elf", small.elf([small.Part(".text", small.CODE, 0x10000, small.code("000580E7 00008067"))], [("f", 0x10000, 8)]))
        said = ends_first(self.said("unresolved", "--last", "0", elf, report, "--edges", self.file("edges", b"10000 10000\n")))
        self.assertEqual(said[0], "10000 icall in f: through an argument of the function (a1); known otherwise: 1 successors")

    def test_into_a_block(self) -> None:
        path = self.file("report", small.report("10000 may-return f: 10000, 10010 may-return g: 10010", "10000 10004 unknown, 10010 10020 return"))
        items = [json.loads(line) for line in self.said("to_json", path, "--edges", self.file("edges", b"10000 10018\n10000 10014\n"))]
        blocks = [(item["start"][-5:], item["end"][-5:], item["kind"]) for item in items if item["record"] == "block"]
        self.assertEqual(blocks, [("10000", "10004", "unknown"), ("10010", "10014", "fall"), ("10014", "10018", "fall"), ("10018", "10020", "return")])

    def test_wrong_files(self) -> None:
        for text in (b"10000\n", b"10000 10004 leap\n", b"main 10004\n"):
            status, _, error = self.run_main("query", "where", self.row(1), "10000", "--edges", self.file("edges", text))
            self.assertEqual(status, 2)
            self.assertIn("line 1: ", error)

    def test_of_a_trace(self) -> None:
        # f: an icall at 10000, a jump through a register at 10004; g at 10010.
        report = self.file("report", small.report("10000 may-return f: 10000 10008, 10010 may-return g: 10010",
                                                  "10000 10008 icall, 10008 1000c unknown, 10010 10018 return", "10000 10008 after"))
        steps = self.file("trace", b"10000\n10004\n10010\n10014\n10008\n20000\n")
        self.assertEqual(self.said("query", "open", report, steps), ["10000 10010  # icall in f, to g", "10008 20000  # unknown in f, to in no block"])
        # By the first addresses of parts that run straight on, in qemu's words; a part may be cut within a block.
        log = "".join(f"Trace 0: 0x7f00 [00000000/{at:016x}/00000000/00000000] f\n" for at in (0x10000, 0x10004, 0x10010, 0x10008, 0x20000))
        said = self.said("query", "open", report, self.file("log", log.encode()))
        self.assertEqual(said, ["10000 10010  # icall in f, to g", "10008 20000  # unknown in f, to in no block"])
        edges = self.file("edges", "\n".join(said).encode())
        self.assertEqual(self.run_main("query", "reach", report, "f", "g", "--edges", edges)[1], ["f -> g"])


class Coverage(InFolder):
    REPORT = ("10000 may-return f: 10000 10008 1000c, 10010 may-return g: 10010",
              "10000 10008 branch, 10008 1000c return, 1000c 10010 return, 10010 10014 return", "10000 10008 fall, 10000 1000c taken")
    SAID = ["functions 1 of 2 (50.0 %), blocks 2 of 4 (50.0 %), bytes of blocks 12 of 20 (60.0 %)",
            "    f at 10000: blocks 2 of 3 (66.7 %), bytes 12 of 16 (75.0 %)",
            "executed, and in no block: 4 bytes in 1 ranges", "    20000 to 20004, 4 bytes"]

    def test_log_of_instructions(self) -> None:
        report = self.file("report", small.report(*self.REPORT))
        log = "".join(f"0x{at:016x}:  00000013          nop\n" for at in (0x10000, 0x10004, 0x10008, 0x20000))
        trace = self.file("log", ("----------------\nIN: f\n" + log).encode())
        self.assertEqual(self.said("coverage", "--trace", trace, report), self.SAID)
        self.assertEqual(self.said("coverage", "--ranges", "--trace", trace, report)[-3:],
                         ["executed: 16 bytes in 2 ranges", "    10000 to 1000c", "    20000 to 20004"])

    def test_addresses(self) -> None:
        report = self.file("report", small.report(*self.REPORT))
        trace = self.file("trace", b"10000\n10004\n10008\n10000\n")
        self.assertEqual(self.said("coverage", "--trace", trace, report)[:2], self.SAID[:2])

    def test_parts_that_run_straight_on(self) -> None:
        report = self.file("report", small.report(*self.REPORT))
        log = "".join(f"Trace 0: 0x7f00 [00000000/{at:016x}/00000000/00000000] f\n" for at in (0x10000, 0x10008, 0x10000))
        self.assertEqual(self.said("coverage", "--trace", self.file("log", log.encode()), report)[:2], self.SAID[:2])

    def test_moved(self) -> None:
        report = self.file("report", small.report(*self.REPORT))
        log = "".join(f"0x{at + 0x4000000000:016x}:  00000013          nop\n" for at in (0x10000, 0x10004, 0x10008, 0x20000))
        self.assertEqual(self.said("coverage", "--trace", self.file("log", log.encode()), report), self.SAID)

    def test_program_that_is_started(self) -> None:
        report = self.file("report", small.report(*self.REPORT))
        log = "".join(f"0x{at:016x}:  00000013          nop\\n" for at in (0x10000, 0x10004, 0x10008, 0x20000))
        qemu = self.file("qemu", f'#!/bin/sh\n[ "$1 $2 $3" = "-d in_asm -D" ] || exit 9\nprintf "{log}" > "$4"\necho said by "$5" >&2\nexit 3\n'.encode())
        os.chmod(qemu, 0o755)
        done = self.run_process("coverage", report, "--", qemu, "a-program")
        self.assertEqual((done.returncode, done.stderr), (0, "said by a-program\n"))
        self.assertEqual(done.stdout.splitlines(), ["the program ended with status 3", *self.SAID])
        done = self.run_process("coverage", report, "--", str(self.folder / "nothing"))
        self.assertEqual(done.returncode, 2)


class Progress(unittest.TestCase):
    def test_said(self) -> None:
        error = io.StringIO()
        with mock.patch.object(sys, "argv", ["tool"]), contextlib.redirect_stderr(error), mock.patch("time.monotonic", side_effect=[0, 1, 5, 5, 6, 14, 14]):
            progress = progress_module.Progress(lambda: "half")
            for _ in range(4):
                progress.step()
        self.assertEqual(error.getvalue(), "tool: half\ntool: half\n")


class Names(InFolder):
    def test_demangled(self) -> None:
        filt = self.file("c++filt", f"#!{sys.executable}\nimport sys\nfor line in iter(sys.stdin.readline, ''):\n    print(line.strip().replace('_Z1fv', 'f()'), flush=True)\n".encode())
        os.chmod(filt, 0o755)
        report = self.file("report", small.report("10000 may-return _Z1fv: 10000", "10000 10004 return"))
        path = str(self.folder) + os.pathsep + os.environ["PATH"]
        self.assertIn("f() at 10000", self.run_script("query", "where", "--demangle", report, "10000", path=path).stdout.replace("is in ", ""))
        self.assertIn('digraph "f()"', self.run_script("draw", "--demangle", report, "f()", path=path).stdout)
        for name in ("summary", "to_json", "call_graph"):
            with self.subTest(name=name):
                self.assertIn("f()", self.run_script(name, "--demangle", report, path=path).stdout)
                self.assertIn("_Z1fv", self.run_script(name, report, path=path).stdout)


if __name__ == "__main__":
    unittest.main()
