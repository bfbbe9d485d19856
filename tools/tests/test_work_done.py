"""That the built programs leave no work out: large files, files that come in pieces, paths with blanks at their ends, and the
threads of a run.

No contract sees the bytes of a real file, and none says that a thread runs. So these tests count: the blocks of a report, of which
a file is made to have so many, and the threads that a run starts, by tools/maintain/count_threads.c."""

from __future__ import annotations

import os
import re
import shutil
import subprocess
import tempfile
import threading
import unittest
from pathlib import Path
from typing import Dict, Iterator, NamedTuple, Sequence, Tuple

import rows
from cfgtools.making.hostile import CODE_AT, NOP, RETURN, Halves, Symbol, file_with
from cfgtools.making.made import made, made_with_functions

CRATES = rows.TOOLS.parent / "crates"
# The largest file that is read.
LIMIT = 64 << 20
WORKERS = (1, 2, 3, 8, 17, 64)
# From a size on that is worth it (file_crew::Step): how much of a step's work a worker gets at least, and how many of these
# shares are worth the start of threads.
SHARES = {"tables": 65_536, "outline": 32_768, "functions": 8_192, "tails": 16_384}
LEAST_SHARES = 3
# report_crew: the lines that a worker gets in a round, and the fewest lines that several share.
ROUND_LINES, LEAST_LINES = 4 * 4_096, 8_192
# How many instructions of two bytes stand before the return of a function.
BODY = 30
# The halfwords of code of a function of a made program.
HALFWORDS = 64


def functions(count: int, size: int = 0, halves: int = BODY) -> bytes:
    """A file with so many functions of one block each, with a symbol each. If a size is given, the file has that many bytes."""
    code: Halves = (NOP * halves + RETURN) * count
    symbols = [Symbol(CODE_AT + 2 * (halves + 1) * number) for number in range(1, count)]
    data = file_with(code, symbols)
    return data if not size else file_with(code, symbols, data=bytes(size - len(data)))


class Counted(NamedTuple):
    """What the first lines of the parts of a report say, and how many lines come after them."""

    functions: int
    blocks: int
    edges: int
    inner: int

    def lines(self) -> Tuple[int, int, int]:
        return self.functions + self.inner, self.blocks, self.edges


def counted(report: bytes) -> Counted:
    """Counts the lines of a report, and holds each count in it to them."""
    told = {name: int(number) for name, number in re.findall(rb"^(functions|blocks|edges) (\d+)$", report, re.M)}
    found = {word: len(re.findall(rb"^%s " % word, report, re.M)) for word in (b"function", b"block", b"edge", b"in")}
    if [told[b"functions"], told[b"blocks"], told[b"edges"]] != [found[b"function"], found[b"block"], found[b"edge"]]:
        raise AssertionError(f"the report tells {told}, and has {found}")
    return Counted(told[b"functions"], told[b"blocks"], told[b"edges"], found[b"in"])


def worth(step: str, work: int, workers: int) -> int:
    """How many of so many workers a step is worth."""
    shares = work // SHARES[step]
    return 1 if shares < LEAST_SHARES else min(shares, workers)


def rounds(report: Counted, workers: int) -> int:
    """How many rounds of the text several workers make: one if it fits into one, else those of each part of the report."""
    at_once = ROUND_LINES * workers
    parts = report.lines()
    if sum(parts) + 6 <= at_once:
        return int(sum(parts) >= LEAST_LINES)
    return sum(lines // at_once + (lines % at_once >= LEAST_LINES) for lines in parts)


def threads_of(report: Counted, halfwords: int, seeds: int, workers: int) -> int:
    """The threads of a run, its first one among them, if each step has those that docs/PERFORMANCE.md and the sizes say.

    A step that `map_drawn` shares starts one thread fewer than it has workers, since the caller is one of them."""
    if workers == 1:
        return 1
    others = workers - 1
    # The reader of the seeds, and the chain index.
    count = 1 + 1 + others
    if seeds > 1:
        # The crew, the look for what it left, and the marks of the 64 shards, beside which the state is dropped.
        count += others + others + 1 + others
    count += worth("tables", halfwords, workers) - 1
    outline = worth("outline", halfwords, workers)
    # Blocks are cut, and then made; lists are joined side by side.
    count += 2 * (outline - 1) + 1 if outline > 1 else 0
    # Entries and first edges are found side by side.
    by_function = worth("functions", report.blocks, workers)
    count += 1 + by_function - 1 if by_function > 1 else 0
    count += worth("tails", report.edges, workers) - 1
    return count + others * rounds(report, workers)


def pieces(data: bytes, sizes: Sequence[int]) -> Iterator[bytes]:
    """The bytes in pieces of these sizes, over and over."""
    at, number = 0, 0
    while at < len(data):
        size = sizes[number % len(sizes)]
        yield data[at:at + size]
        at, number = at + size, number + 1


class WorkDone(unittest.TestCase):
    def setUp(self) -> None:
        folder = tempfile.TemporaryDirectory()
        self.addCleanup(folder.cleanup)
        self.folder = Path(folder.name)

    def built(self, name: str) -> str:
        path = str(CRATES / name / "out" / name)
        if not os.access(path, os.X_OK):
            self.skipTest(f"{name} is not built")
        return path

    def report(self, program: str, *words: str) -> bytes:
        done = subprocess.run([self.built(program), *words], cwd=self.folder, stdin=subprocess.DEVNULL, capture_output=True, timeout=300)
        self.assertEqual((done.returncode, done.stderr), (0, b""), (program, words))
        return done.stdout

    def file(self, name: str, data: bytes) -> str:
        (self.folder / name).write_bytes(data)
        return name

    def test_large_files(self) -> None:
        """Of 20 MB, and of one byte less than the limit and at it: each function is one block, and none has an edge."""
        for count, size in ((200_000, 20_000_000), (300_000, LIMIT - 1), (300_000, LIMIT)):
            data = functions(count, size)
            self.assertEqual(len(data), size)
            self.file("large", data)
            for program, words in (("cfg_one", ["large"]), ("cfg", ["--workers", "4", "large"])):
                with self.subTest(size=size, program=program):
                    self.assertEqual(counted(self.report(program, *words)), Counted(count, count, 0, count))

    def test_a_file_over_the_limit(self) -> None:
        self.file("large", functions(10, LIMIT + 1))
        for program, words in (("cfg_one", ["large"]), ("cfg", ["--workers", "4", "large"]), ("cfg_walk", ["9", "large"]), ("cfg_check", ["make", "large"])):
            with self.subTest(program):
                name = "cfg" if program == "cfg_one" else program
                done = subprocess.run([self.built(program), *words], cwd=self.folder, capture_output=True, timeout=60)
                self.assertEqual((done.returncode, done.stdout, done.stderr), (2, b"", f"{name}: malformed: TooLarge\n".encode()))

    def test_a_file_in_pieces(self) -> None:
        """A file of 3 MB through a pipe, in pieces of odd sizes and in large ones."""
        count = 35_000
        data = functions(count)
        self.assertGreater(len(data), 3_000_000)
        wanted = self.report("cfg_one", self.file("whole", data))
        self.assertEqual(counted(wanted), Counted(count, count, 0, count))
        os.mkfifo(self.folder / "pipe")
        for sizes in ((1, 4_095, 65_537, 13), (1 << 20,), (len(data),), (65_535, 65_537)):
            for program, words in (("cfg_one", ["pipe"]), ("cfg", ["--workers", "3", "pipe"])):
                with self.subTest(sizes=sizes, program=program):
                    self.built(program)
                    writer = threading.Thread(target=self.write, args=(data, sizes))
                    writer.start()
                    try:
                        given = self.report(program, *words)
                    finally:
                        writer.join(60)
                    self.assertTrue(given == wanted)

    def write(self, data: bytes, sizes: Sequence[int]) -> None:
        try:
            with open(self.folder / "pipe", "wb", buffering=0) as pipe:
                for piece in pieces(data, sizes):
                    pipe.write(piece)
        except BrokenPipeError:
            pass

    def named(self) -> Dict[str, int]:
        """Files whose names have blanks at their ends, and how many functions each has, beside one whose name has none."""
        names = ("a", " a", "a ", " a ", "a\n", "\ta", "a\t", "\u00a0a", "a\r", " ")
        found = {name: count for count, name in enumerate(names, 1)}
        for name, count in found.items():
            self.file(name, functions(count))
        return found

    def test_paths_with_blanks_at_their_ends(self) -> None:
        for name, count in self.named().items():
            for workers in ("1", "2"):
                with self.subTest(name=name, workers=workers):
                    self.assertEqual(counted(self.report("cfg", "--workers", workers, name)), Counted(count, count, 0, count))
            with self.subTest(name=name):
                self.assertEqual(counted(self.report("cfg_one", name)), Counted(count, count, 0, count))

    def test_paths_of_the_other_programs(self) -> None:
        for name, count in self.named().items():
            with self.subTest(name=name):
                self.assertTrue(self.report("cfg_walk", "9", name).startswith(b"at 0000000000010000\n"))
                self.assertEqual(self.report("cfg_check", "make", name).count(b"\nlead "), count)

    def counter(self) -> str:
        """The program that counts threads."""
        if not shutil.which("cc"):
            self.skipTest("there is no C compiler cc")
        path = str(self.folder / "count_threads")
        subprocess.run(["cc", "-O1", "-Wall", "-Wextra", "-Werror", "-o", path, str(rows.MAINTAIN / "count_threads.c")], check=True)
        return path

    def threads(self, counter: str, program: str, *words: str) -> Tuple[int, int]:
        """All threads of a run, and the most that there were at one time."""
        command = [counter, str(self.folder / "counts"), self.built(program), *words]
        done = subprocess.run(command, cwd=self.folder, stdin=subprocess.DEVNULL, stdout=subprocess.DEVNULL, stderr=subprocess.PIPE, timeout=300)
        if done.returncode == 125:
            self.skipTest("no program can be traced here")
        self.assertEqual((done.returncode, done.stderr), (0, b""))
        every, most = (self.folder / "counts").read_text().split()
        return int(every), int(most)

    def check_threads(self, data: bytes, slots: int, seeds: int) -> None:
        """Exactly as many threads start as the steps and the sizes of the file ask for: none for one worker, those of all workers
        in the steps that do not look at sizes, and in the others those that the work is worth."""
        counter = self.counter()
        self.file("made", data)
        report = counted(self.report("cfg_one", "made"))
        for workers in WORKERS:
            with self.subTest(workers=workers):
                every, most = self.threads(counter, "cfg", "--workers", str(workers), "made")
                self.assertEqual(every, threads_of(report, HALFWORDS * slots, seeds, workers))
                # (no more is said of these: a thread counts until the system has told of its end, which may be late)
                self.assertGreaterEqual(most, min(workers, 2))

    def test_threads_from_one_seed(self) -> None:
        self.check_threads(made(3_000), 3_002, 1)

    def test_threads_of_a_small_file(self) -> None:
        self.check_threads(made_with_functions(3_000), 3_002, 3_002)

    def test_threads_of_a_large_file(self) -> None:
        self.check_threads(made_with_functions(20_000), 20_002, 20_002)

    def test_one_worker_starts_no_thread(self) -> None:
        self.assertEqual(self.threads(self.counter(), "cfg_one", self.file("made", made(3_000))), (1, 1))


class Model(unittest.TestCase):
    """What the tests count by, without a program."""

    def test_sizes(self) -> None:
        self.assertEqual(len(functions(10, 10_000)), 10_000)
        self.assertEqual([worth("tails", it, 8) for it in (0, 49_151, 49_152, 98_303, 98_304, 10**6)], [1, 1, 3, 5, 6, 8])
        self.assertEqual(b"".join(pieces(b"abcdefg", (1, 3))), b"abcdefg")
        self.assertEqual([len(it) for it in pieces(b"abcdefg", (1, 3))], [1, 3, 1, 2])

    def test_less_work_is_less_threads(self) -> None:
        """Two workers where eight are asked for, and steps that are never worth it."""
        report = Counted(20_002, 110_002, 155_001, 110_002)
        eight = threads_of(report, HALFWORDS * 20_002, 20_002, 8)
        self.assertGreater(eight, threads_of(report, HALFWORDS * 20_002, 20_002, 7))
        self.assertGreater(eight, threads_of(report, 0, 20_002, 8))

    def test_a_report_that_tells_more_than_it_has(self) -> None:
        self.assertEqual(counted(rows.report(6)), Counted(1, 3, 3, 3))
        with self.assertRaises(AssertionError):
            counted(rows.report(6).replace(b"blocks 3", b"blocks 4"))


if __name__ == "__main__":
    unittest.main()
