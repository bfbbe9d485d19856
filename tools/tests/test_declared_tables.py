"""Jump tables that a file declares: how records are read and written, which of them count, and what is told of them."""

from __future__ import annotations

import shutil
import struct
import unittest
from typing import Dict, List, Tuple

import small_elf
from cfgtools.elf.added_symbols import with_symbols
from cfgtools.elf.declared_tables import COPIES, KIND, NAME, Declared, Declaring, Record, Wanted, free_address, jump_register, packed, records
from cfgtools.elf.elf_file import Memory
from cfgtools.entries.declaring import listed
from cfgtools.making.hostile import NOP, RETURN, Halves, immediate, upper
from cfgtools.reports.cfg_report import ReportError
from small_elf import ALLOC, CODE_AT, DATA_AT, WRITE, Part, code, symbols, words
from test_add_entries import JUMP_A5, WithFile

# Two jumps through a5, at 10000 and at 10010, and places that they may lead to.
TEXT = JUMP_A5 + NOP * 6 + JUMP_A5 + RETURN * 8
FIRST, SECOND = 0x10000, 0x10010
TARGETS = (0x10014, 0x10016, 0x10018)
ENTRIES = words(*TARGETS, 0)


def section(*found: Record, tail: bytes = b"", flags: int = 0, address: int = 0) -> Part:
    return Part(NAME.decode(), KIND, flags, address, packed(found) + tail)


class Reading(WithFile):
    def of(self, *more: Part, halves: Halves = TEXT) -> Memory:
        return self.memory([code(halves), Part(".rodata", address=DATA_AT, data=ENTRIES), *more])

    def targets(self, record: Record, *more: Part) -> Tuple[int, ...]:
        return Declared(self.of(*more)).targets(record)

    def test_records(self) -> None:
        one, other = Record(FIRST, DATA_AT, 0, 3, 8), Record(FIRST, DATA_AT, 0, 1, 8)
        last = Record(SECOND, DATA_AT, 2**64 - 2, 2**32 - 1, 4)
        elf = self.of(section(one, other, tail=b"behind"), section(), section(last, one, address=0x50000, flags=ALLOC))
        self.assertEqual(list(records(elf)), [one, other, last, one])
        self.assertEqual(Declared(elf).records, {FIRST: one, SECOND: last})
        self.assertEqual(list(records(self.of(Part("empty", KIND), Part("short", KIND, data=bytes(31))))), [])

    def test_which_entries_count(self) -> None:
        self.assertEqual(self.targets(Record(FIRST, DATA_AT, 0, 2, 8)), TARGETS[:2])
        # The fourth entry leads to no code, and ends the table.
        for count in (3, 4, 65536, 2**32 - 1):
            self.assertEqual(self.targets(Record(FIRST, DATA_AT, 0, count, 8)), TARGETS)
        self.assertEqual(self.targets(Record(FIRST, DATA_AT + 8, 1, 9, 8)), TARGETS[1:])
        near = struct.pack("<4i", -4, -6, -8, 1 << 30)
        self.assertEqual(self.targets(Record(FIRST, 0x30000, 0x1001C, 9, 4), Part(".near", address=0x30000, data=near)), (0x10018, 0x10016, 0x10014))

    def test_wrong_records(self) -> None:
        writable = Part(".data", flags=ALLOC | WRITE, address=0x30000, data=ENTRIES)
        for why, record in (
            ("5 bytes", Record(FIRST, DATA_AT, 0, 3, 5)), ("0 bytes", Record(FIRST, DATA_AT, 0, 3, 0)),
            ("no multiple", Record(FIRST, DATA_AT + 4, 0, 3, 8)), ("no multiple", Record(FIRST, DATA_AT + 2, 0, 3, 4)),
            ("no entries", Record(FIRST, DATA_AT, 0, 0, 8)), ("no read-only data", Record(FIRST, 0x30000, 0, 3, 8)),
            ("no read-only data", Record(FIRST, 0x70000, 0, 3, 8)), ("no read-only data", Record(FIRST, 2**64 - 8, 0, 3, 8)),
            ("where no code is", Record(FIRST, DATA_AT + 24, 0, 3, 8)), ("where no code is", Record(FIRST, DATA_AT, 1 << 40, 3, 8)),
        ):
            with self.subTest(why=why, record=record):
                found = Declared(self.of(writable))
                self.assertEqual(found.targets(record), ())
                self.assertIn(why, found.why_not(record) or "")
        # Memory of a section of records is no read-only data, though it lies in memory.
        held = section(Record(FIRST, 0x50000, 0, 1, 8), flags=ALLOC, address=0x50000)
        self.assertEqual(Declared(self.of(held)).targets(Record(FIRST, 0x50000, 0, 1, 8)), ())

    def test_which_jumps_may_have_one(self) -> None:
        a5, offset, link = immediate(0x67, 0, 0, 15, 0), immediate(0x67, 0, 0, 15, 4), immediate(0x67, 0, 1, 15, 0)
        returns, stub, compressed = immediate(0x67, 0, 0, 5, 0), immediate(0x67, 0, 6, 28, 0), [0x8782]
        for halves, register in ((a5, 15), (offset, None), (link, None), (returns, None), (stub, 28), (compressed, 15), (RETURN, None), (NOP, None)):
            self.assertEqual(jump_register(self.of(halves=NOP * 2 + halves + NOP), CODE_AT + 4), register, halves)
        self.assertIsNone(jump_register(self.of(halves=upper(0x17, 15, 0) + a5), CODE_AT + 4))
        self.assertEqual(jump_register(self.of(halves=upper(0x17, 14, 0) + a5), CODE_AT + 4), 15)
        self.assertIsNone(jump_register(self.of(), 0x70000))

    def test_many_records(self) -> None:
        many = [Record(FIRST + 2 * (number % 7), DATA_AT, 0, number % 5, 8) for number in range(100_000)]
        found = Declared(self.of(section(*many))).records
        self.assertEqual(found, {record.jump: record for record in many[:7]})


class Writing(WithFile):
    def made(self, *more: Part, halves: Halves = TEXT) -> Memory:
        return self.memory([code(halves), Part(".rodata", address=DATA_AT, data=ENTRIES), *symbols(3, ["main"], [CODE_AT]), *more])

    def written(self, elf: Memory, *tables: Wanted) -> Memory:
        declaring = Declaring(elf)
        for table in tables:
            self.assertTrue(declaring.put("tables", table))
            self.assertFalse(declaring.put("tables", table))
        return Memory(self.file("out", with_symbols(elf, [], None, declaring.additions())))

    def declared_by(self, elf: Memory) -> Dict[int, Tuple[int, ...]]:
        found = Declared(elf)
        return {jump: found.targets(record) for jump, record in found.records.items()}

    def test_in_place_and_copied(self) -> None:
        elf = self.made()
        in_place = Wanted(FIRST, TARGETS, (DATA_AT, 8, 0))
        out = self.written(elf, in_place, Wanted(SECOND, TARGETS[::-1]))
        self.assertEqual(self.declared_by(out), {FIRST: TARGETS, SECOND: TARGETS[::-1]})
        self.assertEqual(Declared(out).records[FIRST], Record(FIRST, DATA_AT, 0, 3, 8))
        copies = out.section(COPIES.decode())
        assert copies is not None
        self.assertEqual((copies.flags, copies.kind, copies.size), (ALLOC, 1, 24))
        self.assertTrue(all(other.end <= copies.address or copies.end <= other.address for other in out.allocated if other != copies))
        self.assertEqual(elf.data[62:], out.data[62:len(elf.data)])
        # What does not stand there as it is wanted is copied, and equal tables once.
        out = self.written(elf, Wanted(FIRST, TARGETS[1:], (DATA_AT, 8, 0)), Wanted(SECOND, TARGETS[1:]))
        self.assertEqual(self.declared_by(out), {FIRST: TARGETS[1:], SECOND: TARGETS[1:]})
        self.assertEqual(len(out.contents(out.section(COPIES.decode()))), 16)  # type: ignore[arg-type]

    def test_records_that_are_there(self) -> None:
        wrong, other = Record(FIRST, DATA_AT, 0, 0, 8), Record(SECOND, DATA_AT, 0, 1, 8)
        out = self.written(self.made(section(wrong, other)), Wanted(FIRST, TARGETS, (DATA_AT, 8, 0)))
        self.assertEqual(self.declared_by(out), {FIRST: TARGETS, SECOND: TARGETS[:1]})
        again = self.written(out, Wanted(SECOND, TARGETS))
        self.assertEqual(self.declared_by(again), {FIRST: TARGETS, SECOND: TARGETS})
        loaded = self.made(section(wrong, flags=ALLOC, address=0x50000))
        with self.assertRaisesRegex(ReportError, "cannot grow"):
            self.written(loaded, Wanted(FIRST, TARGETS))

    def test_free_addresses(self) -> None:
        self.assertEqual(free_address(self.made(), 8), 0x21000)
        high = Part(".high", address=2**64 - 4096, data=bytes(4095))
        self.assertEqual(free_address(self.made(high), 8), 0x21000)
        self.assertEqual(free_address(self.made(Part(".high", address=0x21000, data=bytes(5000)), high), 8), 0x23000)
        segment = struct.pack("<IIQQQQQQ", 1, 4, 0, 0x20000, 0x20000, 0, 0x9000, 4096)
        path = self.elf_file([code(TEXT), Part(".rodata", address=DATA_AT, data=ENTRIES)], programs=segment)
        self.assertEqual(free_address(Memory(path), 8), 0x29000)

    def test_a_table_changes_only_so_often(self) -> None:
        declaring = Declaring(self.made())
        changes = [declaring.put("switches", Wanted(FIRST, TARGETS[:1] * number)) for number in range(1, 20)]
        self.assertEqual(sum(changes), Declaring.MOST_CHANGES)
        self.assertFalse(declaring.put("switches", Wanted(SECOND, ())))


class Lists(WithFile):
    def program(self) -> str:
        return self.elf_file([code(TEXT), Part(".rodata", address=DATA_AT, data=ENTRIES), *symbols(3, ["main"], [CODE_AT])])

    def test_lines(self) -> None:
        path = self.file("tables", b"# from a debugger\n10000 10014 0x10016\n\n10010 10018 # more\n10000 10018 10014\n")
        self.assertEqual(listed(path), {FIRST: [0x10014, 0x10016, 0x10018], SECOND: [0x10018]})
        for text in (b"10000\n", b"10000 what\n", b"10000 10014 12345678901234567\n"):
            with self.assertRaisesRegex(ReportError, "line 1: no line `JUMP TARGET TARGET"):
                listed(self.file("wrong", text))

    def test_they_are_declared_until_nothing_new_is_reached(self) -> None:
        # The second jump is reached by the first one's table alone; the return is no jump, and 70000 no code.
        tables = self.file("tables", b"10010 10018\n10000 10010 70000\n10014 10016\n")
        self.assertEqual(self.added(self.program(), "--tables", tables), {})
        self.assertEqual({jump: targets for jump, (_, targets) in self.declared().items()}, {FIRST: (SECOND,), SECOND: (0x10018,)})
        self.assertEqual(self.said_last[0], "tables: 2 tables, 2 of them copied; left out: 1 no address of code, 1 no jump that a table can be declared of")
        self.assertIn(": 1 functions, 3 blocks, 2 edges", self.said_last[-1])

    def test_a_run_adds_to_what_is_known(self) -> None:
        # By a list the first jump leads to the second one, and by the run to 10014 too; the second one goes to 10016.
        tables = self.file("tables", b"10000 10010\n")
        run = self.file("run", b"10000\n10014\n10000\n10010\n10016\n")
        self.assertEqual(self.added(self.program(), "--tables", tables, "--trace", run), {0x10014: "entry_trace_10014"})
        self.assertEqual({jump: targets for jump, (_, targets) in self.declared().items()}, {FIRST: (SECOND,), SECOND: (0x10016,)})
        self.assertEqual(self.added(self.program(), "--trace", run), {})
        self.assertEqual({jump: targets for jump, (_, targets) in self.declared().items()}, {FIRST: (0x10014, SECOND), SECOND: (0x10016,)})


class Told(WithFile):
    """What the scripts that read tables say of declared ones."""

    def path(self, *found: Record) -> str:
        return self.elf_file([code(TEXT), Part(".rodata", address=DATA_AT, data=ENTRIES), *symbols(3, ["main"], [CODE_AT]), section(*found)])

    def test_tables_by_their_entries(self) -> None:
        path = self.path(Record(FIRST, DATA_AT, 0, 3, 8), Record(SECOND, DATA_AT, 0, 3, 8), Record(0x10014, DATA_AT, 0, 3, 7))
        said = self.said_with("check_report", "--elf", path, "--tables", path)
        self.assertEqual(said[0], "table 20000 of the jump at 10000 in main: table-open, declared, 3 entries of 8 bytes")
        self.assertEqual(said[-2:], ["record of the jump at 10010 in main+0x10, which does not count: no block ends there",
                                     "record of the jump at 10014 in main+0x14, which does not count: its entries have 7 bytes, and not 4 or 8"])
        self.assertIn("a table that the file declares: nothing proves where it ends (3 successors)", "\n".join(self.said_with("unresolved", path)))

        self.assertIn("    declared: tables of 3 jumps, of which 2 have an entry that leads to code", self.said_with("summary", "--elf", path, path))

    def said_with(self, script: str, *options: str) -> List[str]:
        done = self.run_script(script, *options, cfg=str(small_elf.STAND_IN))
        self.assertEqual(done.returncode, 0, done.stderr)
        return done.stdout.splitlines()

    def test_unresolved_names_what_declares_a_table(self) -> None:
        self.assertIn("; try add_entries with --trace or --tables, which declare its targets", "\n".join(self.said_with("unresolved", self.path())))


@unittest.skipUnless(shutil.which("riscv64-unknown-elf-readelf") and shutil.which("riscv64-unknown-elf-objdump"), "binutils for RISC-V are not installed")
class FromOutside(WithFile):
    """What the checks from outside read, by readelf and objdump."""

    def test_the_same_is_read(self) -> None:
        from cfgtools.checks import listing, pattern_tables
        from cfgtools.elf import table_patterns
        found = [Record(FIRST, DATA_AT, 0, 2, 8), Record(SECOND, DATA_AT + 8, 0, 2**32 - 1, 8), Record(FIRST, DATA_AT, 0, 1, 8)]
        wrong = [Record(0x10014, DATA_AT, 0, 1, 8), Record(0x10016, DATA_AT + 4, 0, 1, 8)]
        path = self.elf_file([code(TEXT), Part(".rodata", address=DATA_AT, data=ENTRIES), section(*found), section(*wrong)])
        listed_file = listing.Listing(path)
        tables = pattern_tables.Tables(listed_file)
        self.assertEqual(tables.records.keys(), Declared(Memory(path)).records.keys())
        self.assertIsNone(listed_file.register_alone(0x10014))
        first, second = tables.table(FIRST, "x15"), tables.table(SECOND, "x15")
        assert first is not None and second is not None
        self.assertEqual((first.targets, first.bound, first.is_open, first.is_declared), (TARGETS[:2], 2, True, True))
        self.assertEqual((second.targets, second.bound), (TARGETS[1:], 65536))
        self.assertEqual(table_patterns.cuts({FIRST: first, SECOND: second}), {FIRST: 1})

    def test_certificates(self) -> None:
        from cfgtools.checks import certificate, listing
        import naive_certificates
        found = [Record(FIRST, DATA_AT, 0, 3, 8), Record(0x10014, DATA_AT, 0, 3, 8)]
        path = self.elf_file([code(TEXT), Part(".rodata", address=DATA_AT, data=ENTRIES), section(*found)])
        made, listed_file = naive_certificates.made(path), listing.Listing(path)
        self.assertEqual(list(certificate.faults(listed_file, made)), [])
        blocks, edges = certificate.graph(certificate.cut_program(listed_file), made.part)
        self.assertIn((FIRST, FIRST + 4, "table-open"), blocks)
        self.assertEqual({(edge.to, edge.kind) for edge in edges}, {(target, "table") for target in TARGETS})


if __name__ == "__main__":
    unittest.main()
