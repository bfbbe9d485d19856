"""The stubs of indirect functions: how scripts read them, and the entries that they give."""

from __future__ import annotations

import io
import shutil
import struct
import subprocess
import unittest
from typing import List

import rows
import small
from cfgtools.checks import binutils
from cfgtools.checks.listing import Listing
from cfgtools.elf.elf_file import Elf, Memory
from cfgtools.elf.stubs import Stub, stubs
from cfgtools.entries.reached import Reached
from cfgtools.isa import decoding
from cfgtools.isa.instructions import decode
from cfgtools.making.hostile import NOP, RETURN, immediate, jump, upper
from cfgtools.reports.cfg_report import load
from small_elf import ALLOC, CODE_AT, DATA_AT, RELA, SYMTAB, STRTAB, WRITE, Part, code, words
from test_add_entries import WithFile
from test_tools import ends_first

X6, X28 = 6, 28
STUB_AT, RESOLVER, TARGET = CODE_AT + 8, CODE_AT + 0x18, CODE_AT + 0x1A
# `main` calls the stub and returns; then stand the stub, what chooses a function, and the function that it chooses.
STUB = upper(0x17, X28, (DATA_AT - STUB_AT + 0x800) >> 12) + immediate(0x03, 3, X28, X28, DATA_AT - STUB_AT - (DATA_AT - STUB_AT + 0x800 >> 12 << 12))
HALVES = jump(1, 8) + RETURN + NOP + STUB + immediate(0x67, 0, X6, X28, 0) + NOP * 2 + RETURN + RETURN


def indirect(first: int) -> List[Part]:
    """A symbol table, which is section `first`, with the function `main` and the indirect function `chosen`."""
    table = bytes(24) + struct.pack("<IBBHQQ", 1, 0x12, 0, 1, CODE_AT, 8) + struct.pack("<IBBHQQ", 6, 0x1A, 0, 1, RESOLVER, 2)
    return [Part(".symtab", SYMTAB, 0, 0, table, first + 1, 24), Part(".strtab", STRTAB, 0, 0, b"\0main\0chosen\0")]


def parts(with_symbols: bool = True) -> List[Part]:
    found = [code(HALVES), Part(".got", flags=ALLOC | WRITE, address=DATA_AT, data=words(0)),
             Part(".rela.iplt", RELA, ALLOC, 0x30000, words(DATA_AT, 58, RESOLVER), entry_size=24)]
    return found + (indirect(4) if with_symbols else [])


class Decoders(unittest.TestCase):
    def test_what_jumps(self) -> None:
        for registers, is_jump in (((X6, X28), True), ((X6, 5), False), ((5, X28), False), ((0, X28), False), ((1, X28), False)):
            for offset in (0, 16):
                halves = immediate(0x67, 0, *registers, offset)
                data = struct.pack("<2H", *halves)
                one = decode(data, 0x10000)
                assert one is not None
                insn = decoding.decode(int.from_bytes(data, "little"))
                self.assertEqual((one.is_stub, insn.is_stub), (is_jump, is_jump))
                self.assertEqual((insn.goes_on, insn.is_call), (not is_jump and registers[0] != 0,) * 2)


class Files(WithFile):
    def test_reading(self) -> None:
        self.assertEqual(list(stubs(self.memory(parts()))), [Stub(STUB_AT, STUB_AT + 8, DATA_AT, RESOLVER, b"chosen")])
        self.assertEqual([stub.title for stub in stubs(self.memory(parts(False)))], [f"{STUB_AT:x}"])
        # Without the two instructions before it, it is no stub.
        self.assertEqual(list(stubs(self.memory([code(NOP * 4 + immediate(0x67, 0, X6, X28, 0))]))), [])

    def test_entries(self) -> None:
        path = self.elf_file(parts())
        self.assertEqual(self.added(path, "--stubs"), {STUB_AT: f"entry_stub_chosen_{STUB_AT:x}", RESOLVER: f"entry_resolver_chosen_{RESOLVER:x}"})
        trace = self.file("trace", "".join(f"{at:x}\n" for at in (CODE_AT, STUB_AT, STUB_AT + 4, STUB_AT + 8, TARGET)).encode())
        self.assertEqual(self.added(path, "--stubs", "--trace", trace)[TARGET], f"entry_target_chosen_{TARGET:x}")
        # So it has if a pointer gives it before.
        pointed = [*parts(), Part(".data", flags=ALLOC | WRITE, address=0x50000, data=words(TARGET))]
        self.assertEqual(self.added(self.elf_file(pointed, "pointed"), "--stubs", "--pointers")[TARGET], f"entry_ptr_{TARGET:x}")
        self.assertEqual(self.added(self.elf_file(pointed, "pointed"), "--stubs", "--pointers", "--trace", trace)[TARGET], f"entry_target_chosen_{TARGET:x}")
        self.assertEqual(self.added(path, "--stubs", "--trace", trace)[TARGET], f"entry_target_chosen_{TARGET:x}")
        # The stub's jump has the way there too, of which its table tells.
        self.assertEqual({jump: targets for jump, (_, targets) in self.declared().items()}, {STUB_AT + 8: (TARGET,)})
        self.assertEqual(self.added(self.elf_file(parts(False)), "--stubs")[RESOLVER], f"entry_resolver_{STUB_AT:x}_{RESOLVER:x}")

    def test_the_name_of_an_indirect_function_stands_for_its_stub(self) -> None:
        path, stand_in = self.elf_file(parts()), str(rows.TOOLS / "tests" / "stand_in.py")
        self.assertEqual((Elf(path).addresses_of("chosen"), Elf(path).place(STUB_AT)), ({STUB_AT}, "the stub of chosen"))

        def answer(*words: str) -> List[str]:
            return self.run_script("query", *words, cfg=stand_in).stdout.splitlines()

        self.assertEqual(answer("callers", path, "chosen"), [f"main at {CODE_AT:x}, call from the block at {CODE_AT:x}"])
        self.assertEqual(answer("callees", path, "main"), [f"{STUB_AT:x}, the stub of chosen, at {STUB_AT:x}, call from the block at {CODE_AT:x}"])
        self.assertEqual(answer("where", path, "chosen"), [f"{STUB_AT:x} is in {STUB_AT:x}, the stub of chosen, at {STUB_AT:x}, "
                                                           f"in the block from {STUB_AT:x} to {STUB_AT + 12:x}, which ends with unknown"])
        self.assertIn('"stub_of":"chosen"', "".join(answer("callees", path, "main", "--json")))
        self.assertEqual(Elf(self.elf_file(parts(False))).stub_names, {})

    def test_reason(self) -> None:
        done = self.run_script("unresolved", "--last", "0", self.elf_file(parts()), cfg=str(rows.TOOLS / "tests" / "stand_in.py"))
        self.assertEqual(ends_first(done.stdout.splitlines())[0], (
            f"{STUB_AT + 8:x} unknown in the stub of chosen+0x8: to an indirect function: through a word that its resolver answers when the program starts "
            f"({DATA_AT:x} in .got, by after main at {RESOLVER:x}); try add_entries with --stubs, for what answers where it leads; and --trace, for that place"))

    @unittest.skipIf(binutils.missing(binutils.READELF, binutils.OBJDUMP), "binutils are not installed")
    def test_listing(self) -> None:
        listing = Listing(self.elf_file(parts()))
        self.assertEqual(listing.flow_at(STUB_AT + 8).kind, "unknown")
        self.assertEqual(listing.register_alone(STUB_AT + 8), "x28")
        # Behind the AUIPC of its register it is a call, and through another register it is one through a register.
        paired = Listing(self.elf_file([code(upper(0x17, X28, 0) + immediate(0x67, 0, X6, X28, 12) + immediate(0x67, 0, X6, 5, 0) + RETURN)], "paired"))
        self.assertEqual((paired.flow_at(CODE_AT + 4).kind, paired.flow_at(CODE_AT + 8).kind), ("call", "icall"))

    def test_paired_in_code_that_is_tried(self) -> None:
        elf = self.memory([code(upper(0x17, X28, 0) + immediate(0x67, 0, X6, X28, 12) + STUB[:2] + immediate(0x67, 0, X6, X28, 8) + RETURN * 2)])
        reached = Reached(elf, load(io.BytesIO(small.report("10000 may-return f: 10000", "10000 10002 stop"))))
        insn = reached.insn(CODE_AT + 4)
        self.assertTrue(insn.is_stub and reached.goes_on(CODE_AT + 4, insn) and reached.is_call(CODE_AT + 4, insn))


class Reasons(WithFile):
    def test_places(self) -> None:
        path = self.elf_file(parts())
        self.assertEqual((Elf(path).resolvers, Memory(path).relocated), ({DATA_AT: RESOLVER}, {}))


@unittest.skipUnless(shutil.which("riscv64-linux-gnu-gcc"), "no compiler with glibc")
class RealProgram(WithFile):
    SOURCE = b"""static int one(int x) { return x + 1; }
static void *pick(void) { return (void *)one; }
int chosen(int) __attribute__((ifunc("pick")));
int main(int argc, char **argv) { return chosen(argc); }
"""

    def test_stub_of_glibc(self) -> None:
        source, path = self.file("ifunc.c", self.SOURCE), str(self.folder / "ifunc")
        subprocess.run(["riscv64-linux-gnu-gcc", "-O2", "-static", source, "-o", path], check=True)
        found, = stubs(Memory(path))
        self.assertEqual(found.name, b"chosen")


if __name__ == "__main__":
    unittest.main()
