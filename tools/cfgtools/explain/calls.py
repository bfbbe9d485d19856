"""Where calls and jumps through registers may lead: guesses, by what the code before them loads.

- **A slot**: a pointer is loaded from a fixed address, as one of the table of global offsets. What stands there in the file, or
  what a relocation puts there, is the target.
- **A table**: a pointer is loaded from an array at a fixed address, by an index. The pointers to code from there on are targets.
- **A virtual function**: a pointer is loaded, at a distance, from where another loaded pointer leads. If that is a table of virtual
  functions, the target is its entry at that distance. Such tables are those that symbols name (`_ZTV..`), and the runs of
  pointers to code whose addresses the code stores, as constructors do.

A guess may be false, and others may be missing. Nothing of it is proved.
"""

from __future__ import annotations

import bisect
from typing import Dict, Iterator, List, NamedTuple, Optional, Set, Tuple

from cfgtools.elf.elf_file import Elf, Memory
from cfgtools.explain.tables import use_of_table
from cfgtools.explain.values import INSTRUCTION, Code, Place, Setter, Values
from cfgtools.isa.instructions import Instruction
from cfgtools.reports.cfg_report import GUESS, Block, Report

OPEN_KINDS = ("icall", "unknown")
# How many entries an array has at most, and to how many virtual functions a call is said to lead.
MOST_ENTRIES, MOST_VIRTUAL = 1024, 64
# In a table of virtual functions two words stand before the first function: the distance to the top, and the type (Itanium C++ ABI).
BEFORE_FUNCTIONS = 16
LOADS = ("ld", "c.ld")


class Guess(NamedTuple):
    """Where a call or jump may lead, and by what."""

    at: int
    to: int
    how: str


class GuessedCalls:
    """The guesses for the open calls and jumps of a report. `many` has the calls of virtual functions that have too many."""

    def __init__(self, elf: Elf, report: Report) -> None:
        self._elf, self._memory, self._report = elf, Memory(elf.path), report
        self._code = Code(elf, report)
        self._values = Values(self._code)
        self._entries = {function.entry for function in report.functions}
        self._bases: List[int] = []
        self._virtual: Optional[List[int]] = None
        self.many: Dict[int, int] = {}

    def found(self) -> Iterator[Guess]:
        for block in self._report.blocks.values():
            last = self._code.last(block)
            if block.kind in OPEN_KINDS and last is not None and last.rs1:
                yield from self._of_block(block, last)

    def lines(self) -> Iterator[str]:
        """The guesses as lines of a file for `--edges`."""
        for guess in self.found():
            yield f"{guess.at:x} {guess.to:x} {GUESS}  # {self._elf.place(guess.at)}: {guess.how}: {self._elf.place(guess.to)}"
        for at, count in self.many.items():
            yield f"# {at:x} {self._elf.place(at)}: {count} virtual functions, which are too many to say"

    def _of_block(self, block: Block, last: Instruction) -> Iterator[Guess]:
        place = Place(block.start, len(self._code.of(block)) - 1)
        use = use_of_table(self._values, last.rs1, place)
        if use is not None and use.address is not None and use.size == 8 and not use.added:
            for to in self._pointers(use.address):
                yield Guess(last.address, to, f"an entry of the pointers at {use.address:x}")
            return
        for setter in self._values.setters(last.rs1, place) or []:
            yield from self._of_setter(last.address, setter)

    def _of_setter(self, at: int, setter: Setter) -> Iterator[Guess]:
        one = setter.instruction
        if setter.kind != INSTRUCTION or one is None or one.name not in LOADS:
            return
        address = self._values.constant(one.rs1, setter.place)
        if address is not None:
            slot = (address + one.immediate) % 2**64
            to = self._memory.word(slot, 8)
            if to is not None and self._is_function(to):
                yield Guess(at, to, f"the pointer at {slot:x}")
            return
        object_of = self._values.setter(one.rs1, setter.place)
        if object_of is not None and object_of.instruction is not None and object_of.kind == INSTRUCTION and object_of.instruction.name in LOADS:
            yield from self._virtual_at(at, one.immediate)

    def _virtual_at(self, at: int, distance: int) -> Iterator[Guess]:
        targets: Dict[int, int] = {}
        for table in self.virtual_tables():
            to = self._entry(table, distance)
            if to is not None:
                targets.setdefault(to, table)
        if len(targets) > MOST_VIRTUAL:
            self.many[at] = len(targets)
            return
        for to, table in sorted(targets.items()):
            yield Guess(at, to, f"virtual, at {distance} of the table at {table:x}")

    def _entry(self, table: int, distance: int) -> Optional[int]:
        """The entry of a table of virtual functions, if it has one at a distance."""
        place = bisect.bisect_right(self._bases, table)
        end = self._bases[place] if place < len(self._bases) else 2**64
        if distance < 0 or distance % 8 or table + distance + 8 > end:
            return None
        words = [self._memory.word(table + at, 8) for at in range(0, distance + 8, 8)]
        if all(word is not None and self._is_function(word) for word in words):
            return words[-1]
        return None

    def _pointers(self, address: int) -> List[int]:
        """The pointers to code of an array in data that is not written to, each once."""
        found: Dict[int, None] = {}
        for number in range(MOST_ENTRIES):
            at = address + 8 * number
            word = self._memory.word(at, 8)
            if word is None or not self._memory.is_read_only(at, 8) or word and not self._is_function(word):
                break
            if word:
                found[word] = None
        return list(found)

    def _is_function(self, address: int) -> bool:
        """Whether an address is code at which a function may begin: an entry, if the report has code there."""
        return self._elf.is_code(address) and (address in self._entries or address not in self._report.blocks)

    # ---- tables of virtual functions

    def virtual_tables(self) -> List[int]:
        """The addresses to which the first words of objects lead: of the first virtual function of each table."""
        if self._virtual is None:
            found = set(self._by_symbols()) | set(self._by_stores())
            self._virtual = sorted(found)
            self._bases = self._virtual
        return self._virtual

    def _by_symbols(self) -> Iterator[int]:
        for address, size, name in self._memory.objects():
            if name.startswith(b"_ZTV") and size:
                yield from self._groups(address, size)

    def _groups(self, address: int, size: int) -> Iterator[int]:
        """The tables of a symbol, which has several for several base classes: each begins after two words that are no functions."""
        last_two: Tuple[bool, bool] = (True, True)
        for at in range(address, address + size, 8):
            word = self._memory.word(at, 8)
            is_one = word is not None and self._is_function(word)
            if is_one and at - address >= BEFORE_FUNCTIONS and not any(last_two):
                yield at
            last_two = last_two[1], is_one

    def _by_stores(self) -> Set[int]:
        """The runs of pointers to code in data that is not written to, whose addresses instructions make and store where a register
        leads."""
        found: Set[int] = set()
        for block in self._report.blocks.values():
            made: Dict[int, int] = {}
            for one in self._code.of(block):
                if one.name in ("sd", "c.sd") and one.immediate == 0 and one.rs2 in made and one.rs1 != 2:
                    found.add(made[one.rs2])
                self._follow(one, made)
        return {address for address in found if address % 8 == 0 and self._memory.is_read_only(address, 8)
                and self._is_function(self._memory.word(address, 8) or 0)}

    def _follow(self, one: Instruction, made: Dict[int, int]) -> None:
        """What registers hold after an instruction, where a few instructions make an address."""
        if one.written is None:
            return
        if one.name in ("lui", "auipc"):
            made[one.written] = (one.immediate + (one.address if one.name == "auipc" else 0)) % 2**64
        elif one.name == "addi" and one.rs1 in made:
            made[one.written] = (made[one.rs1] + one.immediate) % 2**64
        elif one.name == "ld" and one.rs1 in made:
            word = self._memory.word((made[one.rs1] + one.immediate) % 2**64, 8)
            made.pop(one.written, None)
            if word:
                made[one.written] = word
        else:
            made.pop(one.written, None)
