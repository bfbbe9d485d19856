"""How the programs begin and end, as built: the status, standard output and standard error of runs that are refused.

What a run does is proved; that a `main` hands on the words, the streams and the status is shown here, byte for byte. The lines
are those of docs/REPORT.md, docs/WALKING.md and docs/CERTIFICATES.md."""

from __future__ import annotations

import os
import resource
import shutil
import struct
import subprocess
import tempfile
import unittest
from pathlib import Path
from typing import BinaryIO, Callable, Dict, List, NamedTuple, Optional, Tuple, Union

import rows
import small_elf

CRATES = rows.TOOLS.parent / "crates"
PROGRAMS = ("cfg", "cfg_walk", "cfg_check")
USAGE = {
    "cfg": b"cfg: usage: cfg [--workers N] [--report KIND] FILE | cfg [--workers N] --make N\n",
    "cfg_walk": b"cfg_walk: usage: cfg_walk STEPS FILE\n",
    "cfg_check": b"cfg_check: usage: cfg_check make FILE | cfg_check test FILE CERT\n",
}
REPORT = rows.report(1)
TRACE = b"at 0000000000010000\nout return\nend left\n"
HEAD, RETURN, LEAD = b"cfg-cert 1\npart none\n", b"ret 0000000000010000 0 self\n", b"lead 0000000000010000 0 seed\n"
CERTIFICATE = HEAD + RETURN + LEAD + b"end\n"
# The summary of a made program, as docs/REPORT.md has it for N = 4.
MADE = b"cfg-made 4\nfunctions 6\nblocks 24\nedges 32\nmay-return 5\nno-return 1\n"
# Less memory than a file of this size needs, with the system's own libraries.
LITTLE_MEMORY, BIG_FILE = 40 << 20, 60 << 20

Answer = Tuple[int, bytes, bytes]


class Case(NamedTuple):
    """A run of a program, and what it has to answer. `how` has what is not as usual of its streams or its memory."""

    program: str
    name: str
    words: List[Union[str, bytes]]
    wanted: Answer
    how: str = ""


def no_such_memory() -> bytes:
    """A file with one return, and a section without bytes that asks for one byte more than 256 MiB."""
    parts = [small_elf.code([0x8082]), small_elf.Part(".bss", small_elf.NOBITS, small_elf.ALLOC | small_elf.WRITE, 0x100000)]
    data = bytearray(small_elf.file_of(parts))
    table = struct.unpack_from("<Q", data, 40)[0]
    struct.pack_into("<Q", data, table + 2 * 64 + 32, (256 << 20) + 1)
    return bytes(data)


FILES: Dict[str, bytes] = {
    "one": (CRATES / "cfg" / "data" / "one.elf").read_bytes(), "short": b"", "magic": bytes(64), "much": no_such_memory(),
    "certificate": CERTIFICATE, "refused": HEAD + LEAD + b"end\n", "broken": CERTIFICATE[:-1], "-": b"",
}


def cases() -> List[Case]:
    """The runs: those that each program answers alike, and its own."""
    found: List[Case] = []
    begins: List[Tuple[str, List[Union[str, bytes]], bytes]] = [
        ("cfg", [], REPORT), ("cfg_walk", ["10"], TRACE), ("cfg_check", ["make"], CERTIFICATE)]
    for program, before, text in begins:
        def case(name: str, words: List[Union[str, bytes]], status: int, line: str = "", out: bytes = b"", how: str = "") -> None:
            error = f"{program}: {line}\n".encode() if line else b""
            found.append(Case(program, name, words, (status, out, USAGE[program] if status == 1 else error), how))

        case("a file", [*before, "one"], 0, out=text)
        case("no words", [], 1)
        case("a word too many", [*before, "one", "one", "one"], 1)
        case("no file", before, 1)
        case("a word that is not UTF-8", [*before, b"one\xff"], 1)
        case("a first word that is not UTF-8", [b"\xc3(", "one"], 1)
        case("an empty file", [*before, "short"], 2, "malformed: Short")
        case("zeros", [*before, "magic"], 2, "malformed: Magic")
        case("a missing file", [*before, "none"], 3, "read fault")
        case("a folder", [*before, "."], 3, "read fault")
        case("a full disk", [*before, "one"], 4, "write fault", how="full")
        case("an error that nobody reads", [*before, "magic"], 2, how="full error")
        case("little memory", [*before, "big"], 5, "out of memory", how="little memory")
        case("no memory for the words", [*before, "one"], 5, "out of memory", how="refused")
    yes = [("cfg", "options", ["--workers=2", "--report", "functions", "one"], rows.report(1, "functions")),
           ("cfg", "a made program", ["--make", "4"], MADE),
           ("cfg", "live registers", ["--report", "live", "one"], rows.report(1, "live")),
           ("cfg_walk", "one step", ["1", "one"], TRACE),
           ("cfg_check", "a certificate", ["test", "one", "certificate"], REPORT)]
    found += [Case(program, name, list(words), (0, out, b"")) for program, name, words, out in yes]
    no = [("cfg", "no workers", ["--workers", "0", "one"]), ("cfg", "an option twice", ["--workers", "1", "--workers", "1", "one"]),
          ("cfg", "a report of no kind", ["--report", "all", "one"]), ("cfg", "no such option", ["--help"]),
          ("cfg", "a made program of three", ["--make", "3"]), ("cfg_walk", "no steps", ["0", "one"]),
          ("cfg_walk", "too many steps", ["1000001", "one"]), ("cfg_walk", "no number", ["ten", "one"]),
          ("cfg_check", "neither word", ["check", "one"]), ("cfg_check", "no certificate named", ["test", "one"])]
    found += [Case(program, name, list(words), (1, b"", USAGE[program])) for program, name, words in no]
    own = [("cfg_walk", "much memory asked", ["10", "much"], 6, "too much memory asked"),
           ("cfg_check", "a refused certificate", ["test", "one", "refused"], 7, "refused"),
           ("cfg_check", "a certificate cut off", ["test", "one", "broken"], 6, "no certificate"),
           ("cfg_check", "an empty certificate", ["test", "one", "short"], 6, "no certificate"),
           ("cfg_check", "a missing certificate", ["test", "one", "none"], 3, "read fault"),
           ("cfg_check", "a folder for a certificate", ["test", "one", "."], 3, "read fault"),
           ("cfg_check", "a faulty file to test", ["test", "magic", "none"], 2, "malformed: Magic"),
           ("cfg_check", "a big certificate in little memory", ["test", "one", "big"], 5, "out of memory")]
    for program, name, words, status, line in own:
        how = "little memory" if status == 5 else ""
        found.append(Case(program, name, list(words), (status, b"", f"{program}: {line}\n".encode()), how))
    return found


def wrong(case: Case, answer: Answer) -> str:
    """What is wrong with an answer, or nothing."""
    if answer == case.wanted:
        return ""
    return f"{case.program}, {case.name}: {answer!r}, and not {case.wanted!r}"


class Runner:
    """Runs programs on the files, in a folder of their own."""

    def __init__(self, folder: Path) -> None:
        self.folder = folder
        for name, data in FILES.items():
            (folder / name).write_bytes(data)
        with open(folder / "big", "wb") as it:
            it.truncate(BIG_FILE)
        self.library = self.compiled()

    def compiled(self) -> str:
        """The library that refuses memory, or nothing where there is no C compiler."""
        path = str(self.folder / "refuse.so")
        source = str(rows.MAINTAIN / "refuse_memory.c")
        if not shutil.which("cc"):
            return ""
        subprocess.run(["cc", "-O1", "-shared", "-fPIC", "-o", path, source], check=True)
        return path

    def run(self, case: Case, program: str) -> Answer:
        environment: Dict[str, str] = {}
        if case.how == "refused":
            # From the first request on: that for the list of the words.
            state = self.folder / "state"
            state.write_bytes(struct.pack("=QQQ", 0, 1, (1 << 64) - 1))
            environment = {"LD_PRELOAD": self.library, "REFUSE_STATE": str(state)}
        limit: Optional[Callable[[], None]] = None
        if case.how == "little memory":
            limit = lambda: resource.setrlimit(resource.RLIMIT_AS, (LITTLE_MEMORY, LITTLE_MEMORY))
        with open("/dev/full", "wb") as full:
            out: Union[int, BinaryIO] = full if case.how == "full" else subprocess.PIPE
            error: Union[int, BinaryIO] = full if case.how == "full error" else subprocess.PIPE
            done = subprocess.run([program, *case.words], cwd=self.folder, env=environment, stdin=subprocess.DEVNULL, stdout=out,
                                  stderr=error, preexec_fn=limit, timeout=60)
        return done.returncode, done.stdout or b"", done.stderr or b""


class Mains(unittest.TestCase):
    def setUp(self) -> None:
        folder = tempfile.TemporaryDirectory()
        self.addCleanup(folder.cleanup)
        self.folder = Path(folder.name)

    def built(self, name: str) -> str:
        path = CRATES / name / "out" / name
        if not os.access(path, os.X_OK):
            self.skipTest(f"{name} is not built")
        return str(path)

    def check(self, name: str, build: str = "") -> None:
        """Holds a program, or another build of it, to the runs of that name."""
        program, runner = self.built(build or name), Runner(self.folder)
        for case in cases():
            if case.program == name and (case.how != "refused" or runner.library):
                with self.subTest(case.name):
                    self.assertEqual(wrong(case, runner.run(case, program)), "")

    def test_cfg(self) -> None:
        self.check("cfg")

    def test_cfg_for_one_worker(self) -> None:
        self.check("cfg", "cfg_one")

    def test_cfg_walk(self) -> None:
        self.check("cfg_walk")

    def test_cfg_check(self) -> None:
        self.check("cfg_check")

    def test_runs_that_are_wrong_are_refused(self) -> None:
        """Programs that end as these do, but for one thing: as if one line of `main` were another."""
        planted: Dict[str, Callable[[Answer], Answer]] = {
            "always status 0": lambda it: (0, it[1], it[2]),
            "status 1 for each refusal": lambda it: (min(it[0], 1), it[1], it[2]),
            "errors on standard output": lambda it: (it[0], it[1] + it[2], b""),
            "no line of an error": lambda it: (it[0], it[1], b""),
            "no newline": lambda it: (it[0], it[1], it[2][:-1]),
            "no output": lambda it: (it[0], b"", it[2]),
            "output behind a refusal": lambda it: (it[0], it[1] or REPORT, it[2]),
        }
        for name in PROGRAMS:
            own = [it for it in cases() if it.program == name]
            self.assertEqual([it.name for it in own if wrong(it, it.wanted)], [])
            for what, answer in planted.items():
                with self.subTest(program=name, planted=what):
                    self.assertTrue([it for it in own if wrong(it, answer(it.wanted))])

    def test_a_program_that_always_ends_well_is_refused(self) -> None:
        program, runner = self.built("cfg"), Runner(self.folder)
        planted = self.folder / "planted"
        planted.write_text(f"#!/bin/sh\n'{program}' \"$@\"\nexit 0\n")
        planted.chmod(0o755)
        own = [it for it in cases() if it.program == "cfg" and it.how != "refused"]
        refused = {it.name for it in own if wrong(it, runner.run(it, str(planted)))}
        self.assertEqual(refused, {it.name for it in own if it.wanted[0]})

    def test_each_status_has_a_run(self) -> None:
        statuses = {name: {it.wanted[0] for it in cases() if it.program == name} for name in PROGRAMS}
        self.assertEqual(statuses, {"cfg": {*range(6)}, "cfg_walk": {*range(7)}, "cfg_check": {*range(8)}})


if __name__ == "__main__":
    unittest.main()
