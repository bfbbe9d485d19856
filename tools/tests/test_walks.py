"""Traces of cfg_walk: what they cover of a report, and traces that are broken."""

from __future__ import annotations

from typing import List

import small
from test_tools import InFolder


def trace(*lines: str) -> bytes:
    """A trace in short: addresses of `at` lines without their zeros."""
    return "".join(f"at {int(line[3:], 16):016x}\n" if line.startswith("at ") else f"{line}\n" for line in lines).encode()


class Walks(InFolder):
    REPORT = ("10000 may-return f: 10000 10008 1000c, 10010 may-return g: 10010, 10014 may-return h: 10014",
              "10000 10008 branch, 10008 1000c call, 1000c 10010 return, 10010 10014 return, 10014 10018 return",
              "10000 10008 fall, 10000 1000c taken, 10008 1000c after, 10008 10010 call")

    def said_of(self, *lines: str, words: List[str] = []) -> List[str]:
        report = self.file("report", small.report(*self.REPORT))
        return self.said("coverage", *words, report, self.file("trace", trace(*lines)))

    def test_a_walk_through_a_call(self) -> None:
        said = self.said_of("at 10000", "at 10008", "at 10010", "out return", "at 1000c", "out return", "end left")
        self.assertEqual(said, [
            "the walk ended: left, in the block at 1000c",
            "functions 2 of 3 (66.7 %), blocks 4 of 5 (80.0 %), edges 2 of 3 (66.7 %), other exits 2",
            "functions by how often their blocks were entered: 2",
            "    3 f at 10000: blocks 3 of 3 (100.0 %), edges 2 of 3 (66.7 %)",
            "    1 g at 10010: blocks 1 of 1 (100.0 %), edges 0 of 0 (0.0 %)",
            "functions never reached: 1",
            "    h at 10014",
            "edges never taken, from blocks that were reached: 1",
            "    10000 1000c",
        ])

    def test_counts(self) -> None:
        report = self.row(6)
        steps = self.file("trace", trace("at 10000", "at 10004", "at 10004", "at 10004", "end steps"))
        self.assertEqual(self.said("coverage", "--counts", report, steps), [
            "the walk ended: steps, in the block at 10004",
            "functions 1 of 1 (100.0 %), blocks 2 of 3 (66.7 %), edges 2 of 3 (66.7 %), other exits 0",
            "functions by how often their blocks were entered: 1",
            "    4 10000 at 10000: blocks 2 of 3 (66.7 %), edges 2 of 3 (66.7 %)",
            "blocks by count: 2", "    3 10004", "    1 10000",
            "edges by count: 2", "    2 10004 10004", "    1 10000 10004",
            "blocks never reached, of functions that were: 1", "    1000c",
            "edges never taken, from blocks that were reached: 1", "    10004 1000c",
        ])

    def test_the_stored_run(self) -> None:
        steps = self.file("trace", trace("at 10000", "out return", "end left"))
        self.assertIn("    1 10000 return left", self.said("coverage", "--counts", self.row(1), steps))

    def test_few_lines(self) -> None:
        said = self.said_of("at 10000", "end trap Ecall", words=["--top", "1"])
        self.assertEqual(said[0], "the walk ended: trap Ecall, in the block at 10000")
        self.assertIn("functions never reached: 2", said)
        self.assertIn("    and 1 more (--top N shows N)", said)

    def test_broken_traces(self) -> None:
        report = self.row(6)
        for why, lines in {
            "line 1: `at 10000` is no line of a trace": b"at 10000\n",
            "line 1: .* no line of a trace": b"out gone\n",
            "line 1: an `out` comes only after an `at`": b"out return\n",
            "line 2: `end left` comes after an `out`": trace("at 10000", "end left"),
            "line 3: there is a line after": trace("at 10000", "end steps", "end steps"),
            "cut off": trace("at 10000"),
            "line 1: .* no line of a trace ": b"at 0000000000010000",
            "a block at 10008, which the report does not have": trace("at 10008", "end steps"),
            "from 10000 to 1000c, which is no edge": trace("at 10000", "at 1000c", "end steps"),
            "line 2: .* no line of a trace": trace("at 10000", "end trap Ecal"),
        }.items():
            with self.subTest(why=why):
                done = self.run_process("coverage", report, self.file("trace", lines))
                self.assertEqual(done.returncode, 2, done.stderr)
                self.assertRegex(done.stderr, f"^coverage: .*{why.strip()}.*\n$")

    def test_one_trace_is_wanted(self) -> None:
        steps = self.file("trace", trace("at 10000", "end steps"))
        for words in ([self.row(1)], ["--trace", steps, self.row(1), steps]):
            self.assertEqual(self.run_process("coverage", *words).returncode, 2)
