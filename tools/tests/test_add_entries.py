"""tools/add_entries: each source, the file that is written, and what is refused."""

from __future__ import annotations

import os
import random
import shutil
import struct
import subprocess
import sys
import unittest
from pathlib import Path
from typing import Dict, List, Sequence, Set, Tuple

import rows
from cfgtools.elf import no_return
from cfgtools.elf.declared_tables import Declared, Record
from cfgtools.elf.elf_file import Memory
from cfgtools.elf.frames import Frame, frames
from cfgtools.elf.landings import Landings
from cfgtools.entries.reached import INSIDE, START, Reached
from cfgtools.isa.decoding import UNKNOWN, Insn, decode
from cfgtools.making import hostile
from cfgtools.making.hostile import NOP, RETURN, Halves, add, branch, immediate, jump, upper
from cfgtools.reports import cfg_report
from cfgtools.reports.cfg_report import Block, Edge, End, Heading, Report, ReportError
import small_elf
from small_elf import ALLOC, CODE_AT, DATA_AT, INIT_ARRAY, NOBITS, RELA, STAND_IN, WRITE, Part, code, file_of, symbols, words
from test_tools import InFolder

CFG = rows.TOOLS.parent / "crates" / "cfg" / "out" / "cfg"

A0, A1, A4, A5, S1, RA, SP = 10, 11, 14, 15, 9, 1, 2
CALL_A5, JUMP_A5 = immediate(0x67, 0, RA, A5, 0), immediate(0x67, 0, 0, A5, 0)
ROOM = immediate(0x13, 0, SP, SP, -16)


def load(to: int, source: int, offset: int = 0) -> Halves:
    return immediate(0x03, 3, to, source, offset)


def load_word(to: int, source: int, offset: int = 0) -> Halves:
    return immediate(0x03, 2, to, source, offset)


def address_of(to: int, at: int, address: int) -> Halves:
    """The address in a register, by AUIPC and ADDI that stand at a place."""
    distance = address - at
    return upper(0x17, to, (distance + 0x800) >> 12) + immediate(0x13, 0, to, to, distance)


class WithFile(InFolder):
    """A test that makes files, and runs add_entries on them with a stand-in for cfg."""

    def elf_file(self, parts: Sequence[Part], name: str = "program", **more: object) -> str:
        return self.file(name, file_of(parts, **more))  # type: ignore[arg-type]

    def memory(self, parts: Sequence[Part]) -> Memory:
        return Memory(self.elf_file(parts))

    def added(self, path: str, *options: str) -> Dict[int, str]:
        """The entries that add_entries adds, by address."""
        out = str(self.folder / "out")
        done = self.run_script("add_entries", path, "-o", out, *options, cfg=str(small_elf.STAND_IN))
        complaints = [line for line in done.stderr.splitlines() if not line.startswith("add_entries: round ")]
        self.assertEqual((done.returncode, complaints), (0, []))
        self.said_last = done.stdout.splitlines()
        before = {symbol.address for symbol in Memory(path).symbols()}
        return {symbol.address: symbol.name.decode() for symbol in Memory(out).symbols() if symbol.address not in before}

    def declared(self) -> Dict[int, Tuple[Record, Tuple[int, ...]]]:
        """The records of the file that was written, and where their entries lead."""
        found = Declared(Memory(str(self.folder / "out")))
        return {jump: (record, found.targets(record)) for jump, record in found.records.items()}

    def refused(self, path: str, *options: str, why: str) -> None:
        """add_entries says why in a line, ends with status 2, and leaves no file behind."""
        there = sorted(os.listdir(self.folder))
        done = self.run_script("add_entries", path, "-o", str(self.folder / "out"), *options, cfg=str(small_elf.STAND_IN))
        self.assertEqual(done.returncode, 2, done.stderr)
        self.assertRegex(done.stderr, f"^(cfg: .*\n|add_entries: round .*\n)*add_entries: .*{why}.*\n$")
        self.assertEqual(sorted(os.listdir(self.folder)), there)


# ---- frame descriptions


def leb(value: int) -> bytes:
    found = b""
    while True:
        byte, value = value & 0x7F, value >> 7
        if value in (0, -1) and (byte >> 6 & 1) == -value:
            return found + bytes([byte])
        found += bytes([byte | 0x80])


def uleb(value: int) -> bytes:
    found = b""
    while value >= 0x80:
        found, value = found + bytes([value & 0x7F | 0x80]), value >> 7
    return found + bytes([value])


def record(body: bytes, wide: bool = False) -> bytes:
    body += bytes(-len(body) % 4)
    return (b"\xff\xff\xff\xff" + struct.pack("<Q", len(body)) if wide else struct.pack("<I", len(body))) + body


def shared(letters: bytes, data: bytes = b"", version: int = 1) -> bytes:
    """What frame descriptions of .eh_frame share."""
    added = uleb(len(data)) + data if letters.startswith(b"z") else data
    return record(struct.pack("<IB", 0, version) + letters + b"\0" + b"\x01\x78\x01" + added)


class FrameDescriptions(WithFile):
    AT = 0x30000

    def read(self, section: bytes, name: str = ".eh_frame", more: Sequence[Part] = ()) -> List[Frame]:
        return frames(self.memory([code(NOP * 64), Part(name, address=self.AT, data=section), *more]))

    def described(self, encoding: int, pointer: bytes, size: bytes) -> bytes:
        """A section with one description, whose pointers have an encoding; the pointer stands at 0x30 of it."""
        first = shared(b"zR", bytes([encoding]))
        first += bytes(-len(first) % 8)
        first = first if len(first) >= 0x28 else struct.pack("<I", 0x24) + first[4:] + bytes(0x28 - len(first))
        return first + record(struct.pack("<I", len(first) + 4) + pointer + size + b"\0")

    def test_each_encoding_of_a_pointer(self) -> None:
        at, start, size = self.AT + 0x30, 0x10008, 12
        for encoding, pointer, length in (
            (0x00, words(start), words(size)), (0x03, struct.pack("<I", start), struct.pack("<I", size)),
            (0x04, words(start), words(size)), (0x0B, struct.pack("<i", start), struct.pack("<i", size)), (0x0C, words(start), words(size)),
            (0x01, uleb(start), uleb(size)), (0x09, leb(start), leb(size)),
            (0x1B, struct.pack("<i", start - at), struct.pack("<i", size)), (0x1C, words(start - at), words(size)),
            (0x19, leb(start - at), leb(size)), (0x2B, struct.pack("<i", start - CODE_AT), struct.pack("<i", size)),
            (0x22, struct.pack("<H", start - CODE_AT), struct.pack("<H", size)), (0x2A, struct.pack("<h", start - CODE_AT), struct.pack("<h", size)),
            (0x3B, struct.pack("<i", start - DATA_AT), struct.pack("<i", size)), (0x50, words(start), words(size)),
            (0x80, words(DATA_AT), words(size)), (0x9B, struct.pack("<i", DATA_AT - at), struct.pack("<i", size)),
        ):
            with self.subTest(encoding=hex(encoding)):
                got = Part(".got", flags=ALLOC | WRITE, address=DATA_AT, data=words(start))
                self.assertEqual(self.read(self.described(encoding, pointer, length), more=[got]), [Frame(start, size)])

    def test_letters(self) -> None:
        personality = b"\x00" + words(0x10020)
        for letters, data in ((b"zR", b"\x03"), (b"zPLR", personality + b"\xff\x03"), (b"zRS", b"\x03"), (b"zPR", b"\x9b" + bytes(4) + b"\x03"),
                              (b"zR?", b"\x03\x11")):
            first = shared(letters, data)
            section = first + record(struct.pack("<III", len(first) + 4, 0x10004, 8) + b"\0")
            self.assertEqual(self.read(section), [Frame(0x10004, 8)], letters)
        first = shared(b"eh", words(7))
        self.assertEqual(self.read(first + record(struct.pack("<I", len(first) + 4) + words(0x10004, 8))), [Frame(0x10004, 8)])
        first = shared(b"")
        self.assertEqual(self.read(first + record(struct.pack("<I", len(first) + 4) + words(0x10004, 8))), [Frame(0x10004, 8)])

    def test_language_data_is_passed_over(self) -> None:
        first = shared(b"zLR", b"\x03\x03")
        section = first + record(struct.pack("<III", len(first) + 4, 0x10004, 8) + b"\x04" + struct.pack("<I", 0x40010))
        section += record(struct.pack("<III", len(section) + 4, 0x1000C, 8) + b"\x04" + bytes(4))
        self.assertEqual(self.read(section), [Frame(0x10004, 8), Frame(0x1000C, 8)])

    def test_ends_wide_records_and_debugging_data(self) -> None:
        first = shared(b"zR", b"\x03")
        one = record(struct.pack("<III", len(first) + 4, 0x10004, 8) + b"\0")
        # Two sections that were linked one behind the other, each with an end.
        self.assertEqual(len(self.read((first + one + bytes(4)) * 2 + bytes(4))), 1)
        wide = record(struct.pack("<III", len(first) + 12, 0x10008, 8) + b"\0", wide=True)
        self.assertEqual(self.read(first + wide), [Frame(0x10008, 8)])
        four = record(struct.pack("<IB", 0xFFFFFFFF, 4) + b"\0\x08\0\x01\x78\x01")
        self.assertEqual(self.read(four + record(struct.pack("<I", 0) + words(0x10004, 8)), ".debug_frame"), [Frame(0x10004, 8)])
        four = record(struct.pack("<QB", 2**64 - 1, 3) + b"\0\x01\x78\x01", wide=True)
        self.assertEqual(self.read(four + record(struct.pack("<Q", 0) + words(0x10004, 8), wide=True), ".debug_frame"), [Frame(0x10004, 8)])

    def test_broken(self) -> None:
        first = shared(b"zR", b"\x03")
        good = first + record(struct.pack("<III", len(first) + 4, 0x10004, 8) + b"\0")
        for section in (good[:-3], good[:2], first + record(struct.pack("<III", 2, 0x10004, 8)), first + record(struct.pack("<I", len(first) + 4)),
                        shared(b"zR", b"\x07") + record(struct.pack("<III", len(first) + 4, 1, 1)), shared(b"zR", b"\x03", version=9) + good[len(first):],
                        first + record(struct.pack("<III", 0x7FFF, 0x10004, 8)), b"\xff" * 16):
            with self.assertRaises(ReportError):
                self.read(section)
        path = self.elf_file([code(RETURN), Part(".eh_frame", address=self.AT, data=good[:-3])])
        self.refused(path, "--eh-frame", why=r"\.eh_frame is broken")
        self.refused(path, why=r"\.eh_frame is broken")

    def test_entries(self) -> None:
        first = shared(b"zR", b"\x03")
        section = first
        for start in (0x10002, 0, 0x10004, 0x10006, 0x10007, 0x50000, 0x1000C):
            section += record(struct.pack("<III", len(section) + 4, start, 4) + b"\0")
        # Two entries, the second of which is reached; a function that was thrown away; one inside an instruction that is
        # reached, one at an odd address, one outside the code; and zeros.
        halves = RETURN + RETURN + ROOM + RETURN + RETURN + [0, 0]
        path = self.elf_file([code(halves), *symbols(2, ["main"], [0x10004]), Part(".eh_frame", address=self.AT, data=section)])
        self.assertEqual(self.added(path, "--eh-frame"), {0x10002: "entry_eh_10002"})
        self.assertEqual(self.said_last[0], "eh-frame: 1 entries; left out: 1 an entry already, 1 inside an instruction that is reached, "
                                            "2 no address of code, 1 in padding")
        self.assertIn(0x10006, self.added(path, "--eh-frame", "--keep-overlaps"))
        sizes = {symbol.address: symbol.size for symbol in Memory(str(self.folder / "out")).symbols()}
        self.assertEqual(sizes[0x10002], 4)


class NoReturn(WithFile):
    # main calls `exit`, which returns by its code, and then `g`; what stands after that call is the next function.
    HALVES = jump(RA, 16) + jump(RA, 16) + RETURN + NOP + RETURN + NOP + RETURN + NOP + RETURN + NOP
    NAMES = ["main", "after", "exit", "g"]

    def file_of(self, *more: Part) -> str:
        places = [CODE_AT, CODE_AT + 8, CODE_AT + 16, CODE_AT + 20]
        return self.elf_file([code(self.HALVES), *symbols(2, self.NAMES, places), *more])

    def staying(self, path: str, *words: str) -> List[int]:
        self.added(path, *words)
        return list(no_return.declared(Memory(str(self.folder / "out"))))

    def test_by_name_and_address(self) -> None:
        path = self.file_of()
        self.assertEqual(self.staying(path, "--no-return", "g"), [CODE_AT + 20])
        self.assertIn("no-return: 1 functions, of which 1 may return by the graph", self.said_last)
        self.assertEqual(self.staying(path, "--no-return", "10014", "--no-return", "exit"), [CODE_AT + 16, CODE_AT + 20])
        self.refused(path, "--no-return", "nosuch", why="no function of .* has the name nosuch")

    def test_the_list(self) -> None:
        self.assertEqual(self.staying(self.file_of(), "--no-return"), [CODE_AT + 16])
        edges = self.run_script("to_json", str(self.folder / "out"), cfg=str(STAND_IN)).stdout
        self.assertNotIn('"from":"0000000000010000","to":"0000000000010004"', edges)

    def test_a_file_that_declares_some(self) -> None:
        section = Part(".own", no_return.KIND, 0, 0, words(CODE_AT + 16) + b"abc")
        path = self.file_of(section)
        self.assertEqual(self.staying(path, "--no-return"), [CODE_AT + 16])
        self.assertEqual(self.staying(path, "--no-return", "g"), [CODE_AT + 16, CODE_AT + 20])

    def test_names(self) -> None:
        for name, wanted in (("abort", True), ("_ZSt20__throw_out_of_rangePKc", True), ("runtime.panicIndex", True), ("runtime.goPanicSliceAlen", True),
                             ("runtime.panicCheck1", False), ("_ZN4core9panicking9panic_fmt17h0123456789abcdefE", True), ("error", False),
                             ("_RNvNtCs1234_4core9panicking18panic_bounds_check", True), ("_ZN4core3fmt5write17h0123456789abcdefE", False)):
            self.assertEqual(no_return.is_likely(name.encode()), wanted, name)


class Pads(WithFile):
    """Where calls land by the exception tables, in the words of docs/REPORT.md."""

    # A function at 10000 whose first four instructions call, and which lands at 10020 and at 10024.
    CALLS = [(0, 4, 0), (4, 8, 0x20), (12, 4, 0x24)]

    def data(self, encoding: int, calls: Sequence[Tuple[int, int, int]], start: bytes = b"\xff", types: bytes = b"\xff") -> bytes:
        pack = {1: lambda number: uleb(number), 3: lambda number: struct.pack("<I", number)}[encoding]
        table = b"".join(pack(first) + pack(size) + pack(pad) + b"\0" for first, size, pad in calls)
        return start + types + bytes([encoding]) + uleb(len(table)) + table

    def parts(self, data: bytes, letters: bytes = b"zLR", values: bytes = b"\x03\x03", version: int = 1) -> List[Part]:
        first = shared(letters, values, version)
        section = first + record(struct.pack("<III", len(first) + 4, 0x10000, 64) + b"\x04" + struct.pack("<I", 0x40002))
        return [code(NOP * 64), Part(".eh_frame", address=0x30000, data=section, flags=ALLOC),
                Part(".gcc_except_table", address=0x40000, data=b"\0\0" + data, flags=ALLOC)]

    def pads(self, data: bytes, letters: bytes = b"zLR", values: bytes = b"\x03\x03") -> List[Tuple[int, int, int]]:
        return [(one.begin, one.begin + one.length, one.pad) for one in Landings(self.memory(self.parts(data, letters, values))).ranges()]

    def test_reading(self) -> None:
        found = [(0x10004, 0x1000C, 0x10020), (0x1000C, 0x10010, 0x10024)]
        for encoding in (1, 3):
            self.assertEqual(self.pads(self.data(encoding, self.CALLS)), found)
        self.assertEqual(self.pads(self.data(1, self.CALLS, types=b"\x9b" + uleb(300))), found)
        self.assertEqual(self.pads(self.data(1, [(4, 8, 0x10)], start=b"\x03" + struct.pack("<I", 0x10010))), [(0x10004, 0x1000C, 0x10020)])
        # What is not whole says nothing; the entries before one that is not whole count.
        self.assertEqual(self.pads(self.data(1, self.CALLS)[:-2]), [])
        self.assertEqual(self.pads(b"\xff\xff\x01" + uleb(7) + uleb(4) + uleb(8) + uleb(0x20) + b"\0" + uleb(12) + uleb(4) + uleb(0x24)), found[:1])
        for data in (b"\xff", b"\xff\xff\x01\x7f", b"\xff\xff\x13\x04\x04\x08\x20\0"):
            self.assertEqual(self.pads(data), [])
        self.assertEqual(self.pads(self.data(1, self.CALLS), b"zLRX", b"\x03\x03"), [])

    def test_the_pad_of_a_call(self) -> None:
        found = Landings(self.memory(self.parts(self.data(1, self.CALLS + [(32, 8, 0x1001)]))))
        for end, pad in ((0x10004, None), (0x10005, 0x10020), (0x1000C, 0x10020), (0x10010, 0x10024), (0x10011, None), (0x10024, None)):
            self.assertEqual(found.pad_of(end), pad, f"{end:x}")


class Marks(WithFile):
    def reached(self, elf: Memory, blocks: Sequence[Block], edges: Sequence[Edge] = ()) -> Reached:
        return Reached(elf, Report([Heading(CODE_AT), *blocks, *edges, End("graph")]))

    def listed(self, elf: Memory, start: int, count: int) -> List[Tuple[int, Insn]]:
        """Some instructions from an address on, one by one, up to the first that is not known."""
        found: List[Tuple[int, Insn]] = []
        at = start
        while len(found) < count and elf.is_code(at):
            word = elf.instruction(at)
            found.append((at, decode(word) if word is not None else Insn(UNKNOWN, 2)))
            if found[-1][1].name == UNKNOWN:
                break
            at += found[-1][1].length
        return found

    def test_blocks_are_marked_as_their_instructions_stand(self) -> None:
        chosen = random.Random(2)
        for address in (CODE_AT, CODE_AT + 1):
            for _ in range(40):
                elf = self.memory([code([chosen.getrandbits(16) for _ in range(60)], address)])
                every = [self.listed(elf, elf.entry + 2 * chosen.randrange(59), chosen.randrange(1, 9)) for _ in range(6)]
                blocks = {listed[0][0]: Block(listed[0][0], listed[-1][0] + listed[-1][1].length, "fall") for listed in every if listed}
                reached = self.reached(elf, list(blocks.values()))
                starts: Set[int] = set()
                inside: Set[int] = set()
                for block in blocks.values():
                    found = reached.instructions(block)
                    self.assertEqual(found, self.listed(elf, block.start, len(found)))
                    starts.update(at for at, _ in found)
                    inside.update(at + 2 for at, insn in found if insn.length == 4)
                    self.assertLessEqual(any(insn.name in ("lui", "auipc") for _, insn in found), reached.makes(block))
                states = {at: reached.state(at) for at in range(elf.entry, elf.entry + 118, 2)}
                self.assertEqual({at for at, state in states.items() if state == START}, starts & states.keys())
                self.assertEqual({at for at, state in states.items() if state == INSIDE}, (inside - starts) & states.keys())


class Data(WithFile):
    # Five functions, of which main alone is reached; the bytes at 1000a are zeros.
    HALVES = RETURN + RETURN + RETURN + RETURN + RETURN + [0] + RETURN + RETURN

    def test_arrays(self) -> None:
        arrays = [Part(".init_array", INIT_ARRAY, ALLOC | WRITE, DATA_AT, words(0x10002, 0, -1)),
                  Part(".fini_array", INIT_ARRAY + 1, ALLOC | WRITE, DATA_AT + 0x100, words(0x10003)),
                  Part(".preinit_array", INIT_ARRAY + 2, ALLOC | WRITE, DATA_AT + 0x200, words(0x10004))]
        path = self.elf_file([code(self.HALVES), *arrays])
        self.assertEqual(self.added(path, "--arrays"), {0x10002: "entry_array_10002", 0x10004: "entry_array_10004"})
        self.assertEqual(self.said_last[0], "arrays: 2 entries; left out: 1 no address of code")

    def test_relocated_words(self) -> None:
        parts = [code(self.HALVES), Part(".init_array", INIT_ARRAY, ALLOC | WRITE, DATA_AT, words(0)),
                 Part(".data", flags=ALLOC | WRITE, address=DATA_AT + 0x100, data=words(0)),
                 Part(".rela.dyn", RELA, ALLOC, 0x30000, words(DATA_AT, 3, 0x10002, DATA_AT + 0x100, 3, 0x10004, DATA_AT + 0x108, 58, 0x10006), entry_size=24)]
        path = self.elf_file(parts)
        self.assertEqual(self.added(path, "--arrays"), {0x10002: "entry_array_10002"})
        self.assertEqual(set(self.added(path, "--pointers")), {0x10002, 0x10004, 0x10006})

    def test_words_of_data(self) -> None:
        # A pointer; what is at no multiple of eight bytes; a text; numbers of a table; zeros; inside an instruction.
        halves = RETURN + RETURN + NOP + ROOM + RETURN + [0x6548, 0x6C6C, 0x006F] + [0] + RETURN * 3
        data = words(0x10002, 0, 0x10006, 0x10008, 0, 0x1000C, 0, 0x10012, 0, 0x90000) + bytes(4) + words(0x10014)
        path = self.elf_file([code(halves), Part(".data", flags=ALLOC | WRITE, address=DATA_AT, data=data), Part(".bss", NOBITS, ALLOC | WRITE, 0x40000)])
        self.assertEqual(self.added(path, "--pointers"), {0x10002: "entry_ptr_10002"})

    def test_made_addresses_until_nothing_is_new(self) -> None:
        # main makes the address of a function and stores it, which calls through a word of data; what main loads from
        # is no function.
        main = address_of(A5, 0x10000, 0x10020) + address_of(A4, 0x10008, 0x10030) + load(A4, A4) + RETURN + NOP
        second = address_of(A0, 0x10020, 0x10040) + RETURN + NOP
        halves = (main + NOP * 16)[:16] + (second + NOP * 8)[:8] + RETURN * 8 + RETURN * 4
        path = self.elf_file([code(halves)])
        self.assertEqual(self.added(path, "--pointers"), {0x10020: "entry_made_10020", 0x10040: "entry_made_10040"})

    def test_where_functions_do_not_begin(self) -> None:
        # In the middle of straight code that is not reached; and where only a branch leads.
        halves = RETURN + [0x0505] * 3 + RETURN + branch(0, A0, 0, 6) + NOP + RETURN
        path = self.elf_file([code(halves), *symbols(2, ["main"], [0x1000A]), Part(".rodata", address=DATA_AT, data=words(0x10006, 0, 0x10010))])
        self.assertEqual(self.added(path, "--pointers"), {})
        self.assertIn("no code by the look of it", self.said_last[0])


class Gaps(WithFile):
    def test_code_between_what_is_reached(self) -> None:
        # main calls 10010. Nothing leads to 10008, 1000c and 10012; a text at 10016, and a word that is no instruction.
        halves = jump(RA, 16) + RETURN + NOP + ROOM + RETURN + NOP + RETURN + [0x0505] + RETURN + [0x6548, 0x6C6C, 0x006F]
        path = self.elf_file([code(halves + [0xFFFF, 0xFFFF])])
        self.assertEqual(self.added(path, "--gaps"), {0x10008: "entry_gap_10008", 0x10012: "entry_gap_10012"})
        self.assertEqual(self.added(path, "--pointers"), {})


class Named(WithFile):
    """What summary and unresolved say of the sources."""

    def said_of(self, script: str, path: str) -> str:
        report = self.file("report", subprocess.run([small_elf.STAND_IN, path], capture_output=True, check=True).stdout)
        done = self.run_script(script, *(["--elf", path, report] if script == "summary" else [path, report]))
        self.assertEqual((done.returncode, done.stderr), (0, ""))
        return done.stdout

    def test_summary(self) -> None:
        halves = CALL_A5 + RETURN * 4
        data = [Part(".data", flags=ALLOC | WRITE, address=DATA_AT, data=words(0x10006)), Part(".init_array", INIT_ARRAY, ALLOC | WRITE, 0x30000, words(0x10008))]
        path = self.elf_file([code(halves), *data])
        self.assertIn("code 12 bytes, reached 6 (50.0 %), in 1 ranges not reached 6; to reach more: tools/add_entries --arrays (1 not reached)"
                      " --pointers (2 not reached) --switches --trace FILE\n", self.said_of("summary", path))
        self.assertNotIn("to reach more", self.said_of("summary", self.elf_file([code(RETURN)])))

    def test_unresolved(self) -> None:
        path = self.elf_file([code(CALL_A5 + RETURN * 4)])
        self.assertIn("; try add_entries with --trace", self.said_of("unresolved", path))
        path = self.elf_file([code(CALL_A5 + RETURN * 4), Part(".data", flags=ALLOC | WRITE, address=DATA_AT, data=words(0x10006))])
        self.assertIn("; try add_entries with --pointers, --trace", self.said_of("unresolved", path))
        self.assertNotIn("try add_entries", self.said_of("unresolved", self.elf_file([code(CALL_A5 + RETURN)])))
        self.assertIn("; try add_entries with --switches, which declares its table: 4 cases, 4 of them not reached", self.said_of("unresolved", Switches.program(self, 4)))  # type: ignore[arg-type]


class Traces(WithFile):
    def test_arrivals(self) -> None:
        # main calls through a register; 10010 is called so, and jumps to 10014 through one; 1001a is a handler.
        path = self.elf_file([code((CALL_A5 + RETURN + NOP * 13)[:8] + JUMP_A5 + ROOM[:2] + RETURN * 4)])
        run = [0x10000, 0x10010, 0x10014, 0x10018, 0x10004, 0x1001A, 0x70000]
        plain = self.file("trace.txt", "".join(f"{at:x}\n" for at in run).encode())
        expected = {0x10010: "entry_trace_10010", 0x1001A: "entry_trace_1001a"}
        self.assertEqual(self.added(path, "--trace", plain), expected)
        self.assertEqual({jump: targets for jump, (_, targets) in self.declared().items()}, {0x10010: (0x10014,)})
        log = "".join(f"Trace 0: 0x7f00 [0000000000000000/{at:016x}/00000000/ff000201] \n" for at in run)
        self.assertEqual(self.added(path, "--trace", self.file("log", log.encode())), expected)
        self.assertEqual({jump: targets for jump, (_, targets) in self.declared().items()}, {0x10010: (0x10014,)})
        # What was translated, in the order of that, tells of no jump where it went.
        log = "".join(f"0x{at:x}:  {memory_word:08x}  what\n" for at, memory_word in ((0x10000, 0x780E7), (0x10010, 0x78067), (0x10014, 0x1141)))
        self.assertEqual(self.added(path, "--trace", self.file("translated", log.encode())), {at: expected.get(at, "entry_trace_10014") for at in (0x10010, 0x10014)})
        self.refused(path, "--trace", self.file("text", b"10000\nhello\n"), why="line 2: no address")
        self.refused(path, "--trace", str(self.folder / "missing"), why="No such file")


class Lists(WithFile):
    def test_list(self) -> None:
        path = self.elf_file([code(RETURN * 4)])
        listed = self.file("list", b"# names and addresses\n10002\nother 0x10004\n\n10009 \n")
        self.assertEqual(self.added(path, "--list", listed), {0x10002: "entry_list_10002", 0x10004: "other"})
        self.refused(path, "--list", self.file("wrong", b"10002\nnot a line\n"), why="wrong: line 2")

    def test_from(self) -> None:
        parts = [code(RETURN * 2 + ROOM + RETURN)]
        other = self.elf_file([code(RETURN * 2 + ROOM + RETURN), *symbols(2, ["main", "second", "third"], [0x10000, 0x10002, 0x10004])], "other")
        self.assertEqual(self.added(self.elf_file(parts), "--from", other), {0x10002: "second", 0x10004: "third"})
        changed = self.elf_file([code(RETURN * 2 + NOP + NOP + RETURN)])
        self.assertEqual(self.added(changed, "--from", other), {})
        self.assertIn("other code there", self.said_last[0])


class Switches(WithFile):
    """A loop with a switch, whose table's address is set in front of the loop."""

    def program(self, width: int, bounded: bool = True, flags: int = ALLOC, more: Sequence[Part] = ()) -> str:
        shift = {4: 2, 8: 3}[width]
        set_up = address_of(S1, 0x10000, DATA_AT)
        set_up += immediate(0x13, 0, A1, 0, 3) if bounded else immediate(0x13, 0, A1, 0, 1)
        # The loop, at 1000c: the index in a0 is tested, moved up and added to the table's address.
        test = branch(6, A1, A0, 0x44) if bounded else branch(0, A1, 0, 0x44)
        loop = test + immediate(0x13, 1, A5, A0, shift) + add(A5, A5, S1)
        loop += load_word(A5, A5) + add(A5, A5, S1) if width == 4 else load(A5, A5) + NOP * 2
        loop += JUMP_A5
        halves = set_up + loop
        halves += NOP * (32 - len(halves))
        # Four cases, which go on with the loop, and the default.
        for place in range(0x10040, 0x1004C, 4):
            halves += jump(0, 0x1000C - place)
        halves += RETURN * 2 + RETURN * 2
        cases = (0x10044, 0x10040, 0x1004C, 0x10048)
        data = words(*cases) if width == 8 else struct.pack("<4i", *(case - DATA_AT for case in cases))
        parts = [code(halves), *symbols(2, ["main", "next"], [CODE_AT, 0x10050]), Part(".data.rel.ro" if flags & WRITE else ".rodata", flags=flags, address=DATA_AT, data=data + bytes(8)), *more]
        return self.elf_file(parts)

    CASES, JUMP = (0x10044, 0x10040, 0x1004C, 0x10048), 0x10020

    def test_cases(self) -> None:
        for width in (4, 8):
            for bounded in (True, False):
                with self.subTest(width=width, bounded=bounded):
                    self.assertEqual(self.added(self.program(width, bounded=bounded), "--switches"), {})
                    record = Record(self.JUMP, DATA_AT, DATA_AT if width == 4 else 0, 4, width)
                    self.assertEqual(self.declared(), {self.JUMP: (record, self.CASES)})
                    self.assertEqual(self.said_last[0], "switches: 1 tables")

    def test_tables_that_are_copied(self) -> None:
        path = self.program(8, flags=ALLOC | WRITE)
        self.assertEqual(self.added(path, "--switches"), {})
        record, targets = self.declared()[self.JUMP]
        self.assertEqual(targets, self.CASES)
        self.assertEqual(self.said_last[0], "switches: 1 tables, 1 of them copied")
        self.assertEqual((record.added, record.count, record.size), (0, 4, 8))
        out = Memory(str(self.folder / "out"))
        copied = [section for section in out.sections if section.name == b".cfg.targets"]
        self.assertEqual([(one.address, one.flags, one.size) for one in copied], [(record.base, ALLOC, 32)])
        self.assertTrue(all(one.end <= record.base for one in Memory(path).allocated))

    def test_pointers_come_after_tables(self) -> None:
        # What would be an entry by a word of data is a case.
        for bounded in (True, False):
            self.assertEqual(self.added(self.program(8, bounded=bounded, flags=ALLOC | WRITE), "--switches", "--pointers"), {})
            self.assertEqual(self.declared()[self.JUMP][1], self.CASES)

    def test_relocated_tables_are_copied_with_what_relocations_put_there(self) -> None:
        relocations = b"".join(words(DATA_AT + 8 * number, 3, case) for number, case in enumerate(self.CASES))
        zeros = self.program(8, flags=ALLOC | WRITE, more=[Part(".rela.dyn", RELA, ALLOC, 0x40000, relocations, 0, 24)])
        held, table = bytearray(Path(zeros).read_bytes()), Memory(zeros).section(".data.rel.ro")
        assert table is not None
        held[table.offset:table.offset + 32] = bytes(32)
        self.added(self.file("zeros", bytes(held)), "--switches")
        self.assertEqual(self.declared()[self.JUMP][1], self.CASES)

    def test_what_can_be_written_is_no_table(self) -> None:
        parts = [code(NOP * 4)]
        elf = self.memory([*parts, Part(".data", flags=ALLOC | WRITE, address=DATA_AT, data=words(1)), Part(".data.rel.ro", flags=ALLOC | WRITE, address=0x30000, data=words(1))])
        self.assertEqual([elf.is_read_only(at, 8) for at in (DATA_AT, 0x30000, 0x30008)], [False, True, False])


# ---- the file that is written


class Written(WithFile):
    def test_nothing_else_changes(self) -> None:
        for named, parts in (
            ("no symbols", [code(RETURN * 4)]),
            ("symbols", [code(RETURN * 4), *symbols(2, ["main", "other"], [0x10000, 0x10006])]),
            ("names of sections in the table of names", [code(RETURN * 4), *symbols(2, ["main"], [0x10000])]),
        ):
            with self.subTest(named):
                path = self.elf_file(parts)
                if named.startswith("names"):
                    data = bytearray(Path(path).read_bytes())
                    struct.pack_into("<I", data, len(data) - 64 * 5 + 64 * 2 + 40, 4)
                    path = self.file("shared", bytes(data))
                known = {symbol.name: symbol.address for symbol in Memory(path).symbols()}
                self.assertEqual(self.added(path, "--list", self.file("list", b"second 10002\n")), {0x10002: "second"})
                before, after = Path(path).read_bytes(), (self.folder / "out").read_bytes()
                self.assertEqual(before[:40], after[:40])
                self.assertEqual(before[48:58], after[48:58])
                self.assertEqual(before[62:], after[62:len(before)])
                self.assert_sections_kept(path)
                found = {symbol.name: symbol.address for symbol in Memory(str(self.folder / "out")).symbols()}
                self.assertEqual(found, {**known, b"second": 0x10002})

    def assert_sections_kept(self, path: str) -> None:
        old, new = Memory(path), Memory(str(self.folder / "out"))
        for section in old.sections:
            other = new.sections[section.index]
            if section.name not in (b".symtab", b".strtab", b".shstrtab"):
                self.assertEqual(section, other)
            else:
                self.assertEqual(new.contents(other)[:section.size], old.contents(section))
        self.assertEqual([section.name for section in new.sections[len(old.sections):]], [] if old.section(".symtab") else [b".strtab", b".symtab"])

    def test_size_and_mode(self) -> None:
        path = self.elf_file([code(RETURN * 4)])
        os.chmod(path, 0o755)
        self.added(path, "--list", self.file("list", b"10002"))
        self.assertEqual(os.stat(self.folder / "out").st_mode & 0o777, 0o755)
        from cfgtools.elf import added_symbols
        largest = added_symbols.LARGEST
        self.addCleanup(setattr, added_symbols, "LARGEST", largest)
        added_symbols.LARGEST = len(Path(path).read_bytes()) + 10
        with self.assertRaises(ReportError):
            added_symbols.with_symbols(Memory(path), [added_symbols.Entry(0x10002, b"a")])

    @unittest.skipUnless(shutil.which("readelf"), "readelf is not installed")
    def test_readelf(self) -> None:
        path = self.elf_file([code(RETURN * 4), *symbols(2, ["main"], [0x10000])])
        self.added(path, "--list", self.file("list", b"second 10002\nthird 10004"))

        def said(option: str, which: str) -> List[str]:
            done = subprocess.run(["readelf", option, which], capture_output=True, text=True, check=True)
            self.assertEqual(done.stderr, "")
            return [line.strip() for line in done.stdout.splitlines()]

        out = str(self.folder / "out")
        before, after = said("-sW", path), said("-sW", out)
        self.assertEqual([line for line in after if line not in before and "FUNC" in line],
                         ["2: 0000000000010002     0 FUNC    GLOBAL DEFAULT    1 second", "3: 0000000000010004     0 FUNC    GLOBAL DEFAULT    1 third"])
        self.assertEqual([line for line in before if "FUNC" in line], [line for line in after if "main" in line])
        kept = [line for line in said("-SW", path) if "] ." in line and "tab" not in line]
        self.assertEqual(kept, [line for line in said("-SW", out) if "] ." in line and "tab" not in line])

    @unittest.skipUnless(os.access(CFG, os.X_OK), "cfg is not built")
    def test_cfg(self) -> None:
        path = self.elf_file([code(RETURN + jump(RA, 6) + RETURN + RETURN), *symbols(2, ["main"], [0x10000])])
        out = str(self.folder / "out")
        done = self.run_script("add_entries", path, "-o", out, "--list", self.file("list", b"second 10002"), cfg=str(CFG))
        self.assertEqual((done.returncode, done.stderr), (0, ""))
        reports = []
        for one in (path, out):
            with cfg_report.opened(one, str(CFG)) as stream:
                reports.append(cfg_report.load(stream))
        self.assertEqual([function.entry for function in reports[0].functions], [0x10000])
        self.assertEqual([(function.entry, function.name) for function in reports[1].functions], [(0x10000, b"main"), (0x10002, b"second"), (0x10008, None)])
        self.assertTrue(reports[0].blocks.items() <= reports[1].blocks.items())

    @unittest.skipUnless(os.access(CFG, os.X_OK), "cfg is not built")
    def test_each_run_finds_the_same(self) -> None:
        # Python's order of texts in sets is another one in each run.
        path, out, found = self.file("hostile", hostile.make("7 195").data), str(self.folder / "out"), set()
        for seed in range(4):
            words = [sys.executable, "-B", str(rows.TOOLS / "add_entries"), path, "-o", out, "--pointers", "--switches", "--gaps"]
            subprocess.run(words, check=True, capture_output=True, env={**os.environ, "PYTHONHASHSEED": str(seed), "CFG": str(CFG)})
            found.add(Path(out).read_bytes())
        self.assertEqual(len(found), 1)


class Refused(WithFile):
    def test_bad_files(self) -> None:
        good = file_of([code(RETURN * 4)])
        bare = bytearray(good)
        struct.pack_into("<QHHH", bare, 40, 0, 64, 0, 0)
        struct.pack_into("<HHH", bare, 58, 0, 0, 0)
        self.refused(self.file("text", b"hello"), why="no ELF file")
        self.refused(self.file("short", good[:50]), why="no ELF file")
        self.refused(self.file("cut", good[:-70]), why="broken ELF file")
        self.refused(self.file("bare", bytes(bare)), why="no section headers")
        far = bytearray(good)
        struct.pack_into("<Q", far, 40, 2**64 - 64)
        self.refused(self.file("far", bytes(far)), why="broken ELF file")
        self.refused(self.elf_file([code(RETURN * 4), code(RETURN * 4, 0x10004, ".more")]), why="status 2")
        self.refused(str(self.folder / "missing"), why="No such file")
        self.refused(str(self.folder), why="Is a directory")

    def test_the_file_itself_is_not_overwritten(self) -> None:
        path = self.elf_file([code(RETURN * 4)])
        data = Path(path).read_bytes()
        done = self.run_script("add_entries", path, "-o", path, cfg=str(small_elf.STAND_IN))
        self.assertEqual((done.returncode, Path(path).read_bytes()), (2, data))
        done = self.run_script("add_entries", path, "-o", str(self.folder / "no" / "out"), cfg=str(small_elf.STAND_IN))
        self.assertEqual(done.returncode, 2)

    def test_words(self) -> None:
        self.assertEqual(self.run_script("add_entries", "--help").returncode, 0)
        self.assertEqual(self.run_script("add_entries", "file").returncode, 2)

    def test_default_sources(self) -> None:
        path = self.elf_file([code(RETURN * 4), Part(".data", flags=ALLOC | WRITE, address=DATA_AT, data=words(0x10002))])
        self.assertEqual(self.added(path), {0x10002: "entry_ptr_10002"})


if __name__ == "__main__":
    unittest.main()
