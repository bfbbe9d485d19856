"""Moves of a run, judged by a report."""

from __future__ import annotations

import os
import unittest
from typing import List, Sequence, Tuple

import small
from cfgtools.elf.elf_file import Memory
from cfgtools.reports import cfg_report
from test_tools import InFolder, script

# A branch, a call, a return of two bytes before it, a table of one kept entry that may have more, and a stop.
CODE = small.code("00100513 00050463", "008000ef", "00008067", "0001 8082", "00050067", "00100073")
BLOCKS = ("10000 10008 branch, 10008 1000c call, 1000c 10010 return, 10010 10014 return, 10014 10018 table-open, 10018 1001c stop")
EDGES = "10000 10008 fall, 10000 1000c taken, 10008 1000c after, 10008 10010 call, 10014 10018 table"
FUNCTIONS = "10000 may-return f: 10000 10008 1000c, 10010 may-return g: 10010, 10014 no-return h: 10014 10018"
ALL_GOOD = [0x10000, 0x10004, 0x10008, 0x10010, 0x10012, 0x1000C, 0x30000, 0x30004, 0x10014, 0x10018]


def log(*steps: object) -> bytes:
    """A log of qemu: an address of thread 0, a thread and an address, or a line."""
    lines = []
    for step in steps:
        if isinstance(step, str):
            lines.append(step)
            continue
        thread, at = step if isinstance(step, tuple) else (0, step)
        lines.append(f"Trace {thread}: 0x7f00{at:x} [0000000000000000/{at:016x}/00207600/00000201] f")
    return "".join(line + "\n" for line in lines).encode()


def broken(said: List[str]) -> List[str]:
    """What breaks the order of a run, by the lines of a check: a line for each place, with its sort."""
    lines = said[next(number for number, line in enumerate(said) if line.startswith("orderly: ")):]
    found, sort = [], ""
    for line in lines[1:]:
        if line.startswith("OUTLIER") or line.endswith(" outliers"):
            break
        if line.startswith("     "):
            sort = line[14:].strip()
        else:
            found.append(f"{sort}: {line.strip()}")
    assert lines[0] == f"orderly: {'no' if found else 'yes'}", lines
    return found


class CheckTrace(InFolder):
    def setUp(self) -> None:
        super().setUp()
        self.path = self.file("elf", small.elf([small.Part(".text", small.CODE, 0x10000, CODE)], [("f", 0x10000, 16), ("g", 0x10010, 4)]))
        self.report = self.file("report", small.report(FUNCTIONS, BLOCKS, EDGES))

    def checked(self, *steps: object, words: Sequence[str] = ()) -> Tuple[int, List[str]]:
        path = self.file("log", log(*steps))
        return self.run_main("check_trace", "--report", self.report, "--log", path, *words, self.path)[:2]

    def test_good_moves(self) -> None:
        self.assertEqual(self.checked(*ALL_GOOD), (0, [
            "10 steps in 1 thread, 9 different moves", "             2  inside a block", "             1  along an edge: fall",
            "             1  along an edge: call", "             1  along an edge: table", "             2  out of a block: return",
            "             2  from code in no block",
            "the code in no block has 2 of the executed instructions; 1 moves led there out of blocks", "orderly: no",
            "             1  a return where no call is open", "    from 1000c (f+0xc) to 30000 (after g), 1 times, first at step 7", "0 outliers"]))

    def test_each_move(self) -> None:
        tool = script("check_trace")
        with open(self.report, "rb") as stream:
            graph = tool.Graph(cfg_report.load(stream), Memory(self.path))
        for last, at, wanted in (
            (0x10000, 0x10004, tool.INSIDE), (0x10004, 0x10008, "along an edge: fall"), (0x10004, 0x1000C, "along an edge: taken"),
            (0x10004, 0x10010, tool.OUTLIER), (0x10000, 0x10008, tool.OUTLIER), (0x10000, 0x1000C, tool.OUTLIER),
            # A call goes to its callee alone. What it returns to is a move of the return.
            (0x10008, 0x10010, "along an edge: call"), (0x10008, 0x10014, tool.OUTLIER), (0x1000C, 0x10004, "out of a block: return"),
            # The instruction of two bytes, and the middle of one of four.
            (0x10010, 0x10012, tool.INSIDE), (0x10010, 0x10014, tool.OUTLIER), (0x10002, 0x10004, tool.OUTSIDE),
            (0x10014, 0x10018, "along an edge: table"), (0x10014, 0x10000, "out of a block: table-open"),
            (0x10018, 0x1001C, "out of a block: stop"), (0x20000, 0x10000, tool.OUTSIDE), (0x10000, 0x10000, tool.AGAIN),
        ):
            self.assertEqual(graph.judge(last, at), wanted, f"from {last:x} to {at:x}")

    def test_outlier(self) -> None:
        status, said = self.checked(0x10000, 0x10004, 0x10010, 0x10012, 0x10004, 0x10010)
        self.assertEqual(status, 1)
        self.assertEqual(said[-3:], ["OUTLIER: from 10004 (f+0x4) to 10010 (g), 2 times, first at step 3",
                                     "    the block at 10000 ends at 10008 with branch", "1 outliers"])

    def test_overlapping_streams(self) -> None:
        # From 10002 on the same bytes are other instructions: the ends of blocks tell the streams apart.
        elf = self.file("two", small.elf([small.Part(".text", small.CODE, 0x10000, small.code("00010013 8082"))], [("f", 0x10000, 6)]))
        report = self.file("two_report", small.report(
            "10000 may-return f: 10000 10004, 10002 may-return -: 10002 10004", "10000 10004 fall, 10002 10004 fall, 10004 10006 return",
            "10000 10004 fall, 10002 10004 fall"))
        path = self.file("log", log(0x10000, 0x10004, 0x10002, 0x10004))
        self.assertEqual(self.run_main("check_trace", "--report", report, "--log", path, elf)[1][1:],
                         ["             2  along an edge: fall", "             1  out of a block: return", "orderly: no",
                          "             1  a return where no call is open", "    from 10004 (f+0x4) to 10002 (f+0x2), 1 times, first at step 3", "0 outliers"])

    # main calls f, which calls g and returns; by the report g does not return, since it ends with what is not decoded.
    RULED_OUT = (small.code("008000EF 00008067", "008000EF 00008067", "0AB56533 00008067"),
                 "10000 no-return main: 10000, 10008 no-return f: 10008, 10010 no-return g: 10010",
                 "10000 10004 call, 10008 1000c call, 10010 10012 stop", "10000 10008 call, 10008 10010 call")

    def test_returns_that_the_report_rules_out(self) -> None:
        code, functions, blocks, edges = self.RULED_OUT
        self.path = self.file("elf", small.elf([small.Part(".text", small.CODE, 0x10000, code)], [("main", 0x10000, 8), ("f", 0x10008, 8), ("g", 0x10010, 8)]))
        self.report = self.file("report", small.report(functions, blocks, edges))
        status, said = self.checked(0x10000, 0x10008, 0x10010, 0x10014, 0x1000C, 0x10004, 0x30000)
        self.assertEqual(status, 1)
        self.assertIn("             2  of these by a return that the report rules out: OUTLIER", said)
        self.assertEqual(said[-7:], [
            "OUTLIER: a return from 10014 (g+0x4) to 1000c (f+0x4), 1 times, first at step 5",
            "    the call of g in the block at 10008 has no edge `after`",
            "    g at 10010 is said not to return: MAY RETURN AFTER ALL, the instruction at 10010 is not decoded (0ab56533 max, of the extension Zbb); "
            "stops at 10010, where the instruction at 10010 is not decoded (0ab56533 max, of the extension Zbb)",
            "OUTLIER: a return from 1000c (f+0x4) to 10004 (main+0x4), 1 times, first at step 6",
            "    the call of f in the block at 10000 has no edge `after`",
            "    f at 10008 is said not to return: MAY RETURN AFTER ALL, through g: the instruction at 10010 is not decoded (0ab56533 max, of the extension "
            "Zbb); calls g, which does not return, at 10008",
            "2 outliers"])

    def test_what_is_thrown_lands_right_behind_a_call(self) -> None:
        code, _, blocks, edges = self.RULED_OUT
        self.path = self.file("elf", small.elf([small.Part(".text", small.CODE, 0x10000, code)], [("main", 0x10000, 8)]))
        report = small.report("10000 may-return main: 10000 10004, 10008 no-return f: 10008, 10010 no-return g: 10010",
                              blocks.replace(", ", ", 10004 10008 return, ", 1), f"10000 10004 landing, {edges}")
        self.report = self.file("report", report.replace(b"cfg-report 2", b"cfg-report 3"))
        self.assertEqual(self.checked(0x10000, 0x10008, 0x10010, 0x10014, 0x10004, 0x30000)[0], 0)

    def test_landings(self) -> None:
        # What g throws lands after the call in main, by a return from g.
        code, _, blocks, edges = self.RULED_OUT
        functions = "10000 may-return main: 10000 10004, 10008 no-return f: 10008, 10010 no-return g: 10010"
        self.path = self.file("elf", small.elf([small.Part(".text", small.CODE, 0x10000, code)], [("main", 0x10000, 8), ("f", 0x10008, 8), ("g", 0x10010, 8)]))
        self.report = self.file("report", small.report(functions, "10000 10004 call, 10004 10008 return" + blocks[16:], "10000 10004 landing, " + edges))
        self.assertEqual(self.checked(0x10000, 0x10008, 0x10010, 0x10014, 0x10004)[0], 0)
        self.assertEqual(self.checked(0x10000, 0x10008, 0x10010, 0x10014, 0x1000C)[0], 1)

    def test_a_call_through_a_register_of_what_does_not_return(self) -> None:
        # jalr a5; ret; and at 10008 the same g.
        code = small.code("000780E7 00008067", "0AB56533 00008067")
        self.path = self.file("elf", small.elf([small.Part(".text", small.CODE, 0x10000, code)], [("main", 0x10000, 8), ("g", 0x10008, 8)]))
        self.report = self.file("report", small.report("10000 may-return main: 10000 10004, 10008 no-return g: 10008",
                                                       "10000 10004 icall, 10004 10008 return, 10008 1000a stop", "10000 10004 after"))
        status, said = self.checked(0x10000, 0x10008, 0x1000C, 0x10004)
        self.assertEqual((status, said[-1]), (1, "1 outliers"))
        self.assertIn("g at 10008 is said not to return", said[-2])
        # A jump back to the same place, as by longjmp, is a return of no call that is known.
        self.assertEqual(self.checked(0x10004, 0x30000, 0x30004, 0x10000)[0], 0)

    def test_threads_and_signals(self) -> None:
        # The moves of two threads are apart. A signal leads to its handler, at any instruction, once.
        steps = (0x10000, (1, 0x10008), 0x10004, (1, 0x10010), "--- SIGURG {si_signo=SIGURG, si_code=SI_TKILL} ---", 0x10008, (1, 0x10000))
        status, said = self.checked(*steps)
        self.assertEqual((status, said[0], said[-1]), (0, "6 steps in 2 threads, 4 different moves", "0 outliers"))
        self.assertIn("             1  to the handler of a signal, of 1 signals", said)
        self.assertEqual(broken(said), ["a thread begins at no function's entry: to 10008 (f+0x8), 1 times, first at step 2",
                                        "a signal interrupts the run: from 10010 (g) to 10000 (f), 1 times, first at step 6"])
        self.assertEqual(self.checked(*steps, (1, 0x10004), (1, 0x10008), (1, 0x10000))[0], 1)

    # f calls through a register and returns, g returns, h jumps where a register says. Then a pair that jumps to the last word, a
    # jump through an open table to g, and a stop. After it, code that is in no block.
    ORDER = (small.code("000780E7 00008067", "00008067", "00078067", "00000317 00C30067", "00078067", "00100073", "00000013"),
             "10000 may-return f: 10000 10004, 10008 may-return g: 10008, 1000c may-return h: 1000c, 10010 no-return i: 10010 1001c, 10018 may-return j: 10018",
             "10000 10004 icall, 10004 10008 return, 10008 1000c return, 1000c 10010 unknown, 10010 10018 jump, 10018 1001c table-open, 1001c 10020 stop",
             "10000 10004 after, 10010 1001c jump, 10018 10008 table")

    def of_order(self) -> None:
        code, functions, blocks, edges = self.ORDER
        names = [("f", 0x10000, 8), ("g", 0x10008, 4), ("h", 0x1000C, 4), ("i", 0x10010, 8), ("j", 0x10018, 4)]
        self.path = self.file("elf", small.elf([small.Part(".text", small.CODE, 0x10000, code)], names))
        self.report = self.file("report", small.report(functions, blocks, edges))

    def test_orderly_runs(self) -> None:
        self.of_order()
        for steps in (
            # Calls through a register, one in another, that come back; a jump to a function in place of a call.
            (0x10000, 0x10008, 0x10004), (0x10000, 0x10000, 0x10008, 0x10004, 0x10004), (0x10000, 0x1000C, 0x10008, 0x10004),
            # A pair from its first half, and a jump through a table to a target that is kept.
            (0x10010, 0x10014, 0x1001C), (0x10000, 0x10018, 0x10008, 0x10004),
        ):
            with self.subTest(steps=steps):
                status, said = self.checked(*steps)
                self.assertEqual((status, broken(said)), (0, []))

    def test_what_breaks_order(self) -> None:
        self.of_order()
        register, table = "a call or a jump through a register goes to no function's entry: ", "a jump through a table goes to none of its kept targets: "
        cases: Sequence[Tuple[Sequence[object], Sequence[str]]] = (
            ((0x10000, 0x10004), [register + "from 10000 (f) to 10004 (f+0x4), 1 times, first at step 2"]),
            ((0x10000, 0x30000, 0x10004), [register + "from 10000 (f) to 30000 (after j), 1 times, first at step 2"]),
            ((0x1000C, 0x10004), [register + "from 1000c (h) to 10004 (f+0x4), 1 times, first at step 2"]),
            ((0x10008, 0x10000), ["a return where no call is open: from 10008 (g) to 10000 (f), 1 times, first at step 2"]),
            ((0x10018, 0x1000C), [table + "from 10018 (j) to 1000c (h), 1 times, first at step 2"]),
            ((0x1000C, 0x10014), [register + "from 1000c (h) to 10014 (i+0x4), 1 times, first at step 2",
                                  "the second half of an address pair comes not right after the first: from 1000c (h) to 10014 (i+0x4), 1 times, first at step 2"]),
            ((0x1001C, 0x10020), ["a thread begins at no function's entry: to 1001c (after j), 1 times, first at step 1",
                                  "control goes on where the report has no code: from 1001c (after j) to 10020 (after j), 1 times, first at step 2"]),
        )
        for steps, wanted in cases:
            with self.subTest(steps=steps):
                self.assertEqual(broken(self.checked(*steps)[1]), wanted)

    def test_after_a_jump_out_of_calls(self) -> None:
        # A return to no open call, as by longjmp: which calls are open is known again at the next return to one.
        self.of_order()
        found = broken(self.checked(0x10000, 0x10000, 0x10000, 0x10008, 0x1000C, 0x10008, 0x10004, 0x10004, 0x10004)[1])
        self.assertEqual(found, ["a return goes elsewhere than to the address after the last call: from 10008 (g) to 1000c (h), 1 times, first at step 5"])
        found = broken(self.checked(0x10000, 0x1000C, 0x10000, 0x10008, 0x10008, 0x10004, 0x10004, 0x10004)[1])
        self.assertEqual([one[:40] for one in found], ["a return goes elsewhere than to the addr", "a return where no call is open: from 100"])

    def test_handlers_come_back(self) -> None:
        # Not by the stack of calls, but by code that is not the file's. Then the interrupted call goes on.
        self.of_order()
        signal = "--- SIGURG {si_signo=SIGURG} ---"
        # One handler right after another, and one at a return.
        for before, steps in (("10010 (i)", (0x10010, signal, 0x10008, 0x30000, signal, 0x10008, 0x30000, 0x10014)),
                              ("10008 (g)", (0x10000, 0x10008, signal, 0x10008, 0x30000, signal, 0x10008, 0x30000, 0x10008))):
            self.assertEqual([one.partition(",")[0] for one in broken(self.checked(*steps)[1])],
                             [f"a signal interrupts the run: from {at} to 10008 (g)" for at in (before, "30000 (after j)")])
        found = broken(self.checked(0x10010, 0x10014, signal, 0x10000, 0x10008, 0x10004, 0x30000, 0x1001C)[1])
        self.assertEqual(found, ["a signal interrupts the run: from 10014 (i+0x4) to 10000 (f), 1 times, first at step 3"])

    def test_what_is_unwound(self) -> None:
        # f calls g, which throws by h; f has a pad, and so has i, which is not open.
        code = small.code("008000EF 00008067", "008000EF 00008067", "00008067", "000780E7", "00008067")
        names = [("f", 0x10000, 8), ("g", 0x10008, 8), ("_Unwind_h", 0x10010, 4), ("i", 0x10014, 8)]
        self.path = self.file("elf", small.elf([small.Part(".text", small.CODE, 0x10000, code)], names))
        report = small.report("10000 may-return f: 10000 10004, 10008 no-return g: 10008, 10010 may-return _Unwind_h: 10010, 10014 may-return i: 10014 10018",
                              "10000 10004 call, 10004 10008 return, 10008 1000c call, 10010 10014 return, 10014 10018 icall, 10018 1001c return",
                              "10000 10004 landing, 10000 10008 call, 10008 10010 call, 10014 10018 landing")
        self.report = self.file("report", report.replace(b"cfg-report 2", b"cfg-report 3"))
        self.assertEqual(broken(self.checked(0x10000, 0x10008, 0x10010, 0x10004)[1]), [])
        for at in (0x10018, 0x10008):
            found = broken(self.checked(0x10000, 0x10008, 0x10010, at)[1])
            self.assertEqual([one.partition(",")[0] for one in found], [
                f"what is unwound lands at no pad of an open call: from 10010 (_Unwind_h) to {at:x} ({'i+0x4' if at == 0x10018 else 'g'})"])

    def test_words(self) -> None:
        self.assertEqual(self.checked(*ALL_GOOD, words=["--steps", "3"])[1][0], "3 steps in 1 thread, 2 different moves")
        done = self.run_process("check_trace", "--report", self.report, "--log", self.file("no_log", b"nothing\n"), self.path)
        self.assertEqual(done.returncode, 2)
        self.assertIn("no step was logged", done.stderr)

    def test_program_that_is_started(self) -> None:
        path = self.file("log", log(*ALL_GOOD))
        qemu = self.file("qemu", f'#!/bin/sh\n[ "$1" = -help ] && exit 0\n[ "$1 $2 $3 $5" = "-d exec,nochain,strace -D -singlestep" ] || exit 9\n'
                         f'cat {path} > "$4"\necho said by "$7" >&2\nexit 3\n'.encode())
        os.chmod(qemu, 0o755)
        done = self.run_process("check_trace", "--report", self.report, "--qemu", qemu, self.path, "a-word", "--steps")
        self.assertEqual((done.returncode, done.stderr), (0, "said by a-word\n"))
        self.assertEqual(done.stdout.splitlines()[:2], ["the program ended with status 3", "10 steps in 1 thread, 9 different moves"])


if __name__ == "__main__":
    unittest.main()
