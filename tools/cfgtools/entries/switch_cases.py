"""The tables of switches whose jump ends a block with `unknown`, or with `table-open`: they are found by following the target
of the jump backwards, through all blocks that lead to it.

A target is a sum: a constant, and what was loaded or is not known, each so many times. A jump goes through a table of
offsets where its target is a constant and a loaded word of four bytes, and through one of addresses where it is a loaded
word of eight; and where the address of that load is a constant and four or eight times one number.
"""

from __future__ import annotations

import bisect
from typing import Dict, FrozenSet, Iterator, List, NamedTuple, Optional, Set, Tuple

from cfgtools.entries.reached import START, Reached
from cfgtools.isa.decoding import CALLER_SAVED, LOAD_SIZES, Insn
from cfgtools.reports.cfg_report import Block

DEEPEST, MOST_BLOCKS = 16, 4000
# How many cases a switch has at the most: by a test, and without one.
MOST_TESTED, MOST_CASES = 65536, 1024
KINDS = ("unknown", "table-open")
TEST_BLOCKS = 12


class Sum(NamedTuple):
    """A constant, and terms with how often each is in the sum."""

    constant: int
    terms: FrozenSet[Tuple[Tuple, int]] = frozenset()

    def plus(self, other: "Sum") -> "Sum":
        terms = dict(self.terms)
        for term, times in other.terms:
            terms[term] = terms.get(term, 0) + times
        kept = frozenset((term, times) for term, times in terms.items() if times)
        return Sum((self.constant + other.constant) % 2**64, kept)

    def times(self, factor: int) -> "Sum":
        return Sum(self.constant * factor % 2**64, frozenset((term, times * factor) for term, times in self.terms))

    def only(self) -> Optional[Tuple[Tuple, int]]:
        """The one term, where there is one."""
        return next(iter(self.terms)) if len(self.terms) == 1 else None


def unknown(*what: object) -> Sum:
    return Sum(0, frozenset([(("unknown", *what), 1)]))


# An instruction that writes a register: its block, its place there, its address, and itself. One without an instruction stands for
# what is not known.
Writer = Tuple[int, int, int, Optional[Insn]]


class Switch(NamedTuple):
    """A jump through a table: the table's address, the size of an entry, what is added to each, how many there are by a test,
    if there is one, where the cases are, in the order of the table, and the address of the test."""

    block: Block
    jump: int
    table: int
    width: int
    added: int
    bound: Optional[int]
    cases: Tuple[int, ...]
    test: Optional[int] = None


class Known:
    """What was found of jumps before, by their blocks: a switch that a test bounds, of which no more is asked, or how much code led
    to a jump in its function when no table was found. While that stays, it is not asked again."""

    def __init__(self) -> None:
        self.bounded: Dict[int, int] = {}
        self.bases: Set[int] = set()
        self.fruitless: Dict[int, Tuple[int, ...]] = {}
        # What writes registers last, in each block.
        self.writers: Dict[Tuple[int, int], Dict[int, Writer]] = {}


class Switches:
    """Finds switches in what is reached."""

    def __init__(self, reached: Reached, known: "Optional[Known]" = None) -> None:
        self._reached, self._elf, self._known = reached, reached.elf, known or Known()
        report = reached.report
        self._blocks = report.blocks
        self._entries = {function.entry for function in report.functions}
        self._rising = sorted(self._entries)
        self._starts, self._before = sorted(self._blocks), reached.ways_to
        self._sizes: Dict[Tuple[int, int], Tuple[int, int]] = {}
        self._held: Dict[Tuple[int, int], Sum] = {}
        self._listed: Dict[int, List[Tuple[int, Insn]]] = {}
        self._written: Dict[int, Dict[int, Writer]] = {}
        self._stores: Dict[int, Optional[Dict[int, Tuple[int, int]]]] = {}

    def found(self) -> Iterator[Switch]:
        """The switches, by the address of their block."""
        tables = []
        for block in self._blocks.values():
            if block.kind in KINDS and block.start not in self._known.bounded:
                around = self._around(block)
                if self._known.fruitless.get(block.start) == around:
                    continue
                found = self._table(block)
                if found:
                    tables.append((block, *found))
                else:
                    self._known.fruitless[block.start] = around
        self._known.bases.update(table for _, _, table, *_ in tables)
        for block, jump, table, width, added, index in tables:
            bound, test = self._bound(block, index) or (None, None)
            most = bound or (index[1] + 1 if index[0] == "masked" else MOST_CASES)
            cases = self._cases(jump, table, width, added, most, bound is not None)
            if cases:
                if bound is not None:
                    self._known.bounded[block.start] = table
                yield Switch(block, jump, table, width, added, bound, tuple(cases), test)

    def _around(self, block: Block) -> Tuple[int, ...]:
        """The extent of the function that a block is in, and how many blocks and edges are there."""
        extent = self._extent(block.start)
        if extent not in self._sizes:
            starts = self._starts[slice(*(bisect.bisect_left(self._starts, address) for address in extent))]
            self._sizes[extent] = len(starts), sum(len(self._before.get(start, ())) for start in starts)
        return extent + self._sizes[extent]

    def is_fixed(self, block: Block) -> bool:
        """Whether a block ends at a known address, by an instruction that names it or through a register."""
        listed = self._instructions(block.start)
        insn = listed[-1][1]
        return insn.name != "jalr" or not self.value(block.start, len(listed) - 1, insn.rs1).terms

    # ---- what a register holds

    def _instructions(self, start: int) -> List[Tuple[int, Insn]]:
        if start not in self._listed:
            self._listed[start] = self._reached.instructions(self._blocks[start])
        return self._listed[start]

    def value(self, start: int, place: int, register: int, depth: int = 0) -> Sum:
        """What a register holds in front of an instruction of a block, by its place in the block."""
        if register == 0:
            return Sum(0)
        for at in range(place - 1, -1, -1):
            address, insn = self._instructions(start)[at]
            if insn.rd == register:
                return self._result(start, at, address, insn, depth)
        if (start, register) not in self._held:
            self._held[start, register] = unknown("itself", start, register)
            self._held[start, register] = self._held_at(start, register, depth)
        return self._held[start, register]

    def _held_at(self, start: int, register: int, depth: int) -> Sum:
        """What a register holds where a block begins."""
        if depth > DEEPEST:
            return unknown("deep", start, register)
        # Tables without a bound, and calls that do not return, seem to lead here from other functions too.
        for near in (True, False):
            writers = self._writers(start, register, near)
            values = {self._result(*writer, depth + 1) for writer in writers if writer[3]}
            only = values.pop() if len(values) == 1 else None
            if only is not None and (not only.terms or all(writer[3] for writer in writers)):
                return only
        return unknown("several", frozenset(writers), register)

    def _writers(self, start: int, register: int, near: bool) -> List[Writer]:
        """The instructions that may have set a register where a block begins, in the same function if `near`. One without an
        instruction stands for the caller of a function, or for a call that does not keep the register."""
        # (in the order in which they are found, so that each run of the script finds the same)
        found: Dict[Writer, None] = {}
        low, high = self._extent(start) if near else (0, 2**64)
        seen, left, is_kept, written = {start}, [start], register not in CALLER_SAVED, self._written
        while left and len(seen) < MOST_BLOCKS:
            block = left.pop()
            ways = () if block in self._entries else [way for way in self._before.get(block, ()) if low <= way[0] < high]
            if not ways:
                found[block, 0, block, None] = None
            for source, kind in ways:
                if kind in ("after", "landing") and not is_kept:
                    found[source, 0, source, None] = None
                elif source not in seen:
                    seen.add(source)
                    writer = (written.get(source) or self._writers_of(source)).get(register)
                    if writer:
                        found[writer] = None
                    else:
                        left.append(source)
        return list(found)

    def _extent(self, address: int) -> Tuple[int, int]:
        """From the entry before an address up to the next one."""
        place = bisect.bisect_right(self._rising, address)
        return (self._rising[place - 1] if place else 0), (self._rising[place] if place < len(self._rising) else 2**64)

    def _writers_of(self, start: int) -> Dict[int, Writer]:
        """The last instruction of a block that writes each register."""
        key = start, self._blocks[start].end
        found = self._known.writers.get(key)
        if found is None:
            listed = enumerate(self._instructions(start))
            found = {insn.rd: (start, at, address, insn) for at, (address, insn) in listed if insn.rd and insn.name not in ("jal", "jalr")}
            self._known.writers[key] = found
        self._written[start] = found
        return found

    def _result(self, start: int, place: int, address: int, insn: Optional[Insn], depth: int) -> Sum:
        """What an instruction leaves in its register."""
        if insn is None or depth > DEEPEST:
            return unknown(address)
        name = insn.name
        if name in ("lui", "auipc"):
            return Sum((insn.imm + (address if name == "auipc" else 0)) % 2**64)

        def held(register: int) -> Sum:
            return self.value(start, place, register, depth + 1)

        if name == "addi" or name == "addiw" and insn.imm == 0:
            return held(insn.rs1).plus(Sum(insn.imm % 2**64))
        if name == "add":
            return held(insn.rs1).plus(held(insn.rs2))
        if name == "slli" and insn.imm <= 32:
            return held(insn.rs1).times(1 << insn.imm)
        if name == "srli":
            return self._moved_down(held(insn.rs1), insn.imm, address)
        if name in ("sh1add", "sh2add", "sh3add"):
            return held(insn.rs1).times(1 << int(name[2])).plus(held(insn.rs2))
        if name in LOAD_SIZES and insn.rs1 == 2:
            spilled = self._spilled(start, insn, depth)
            if spilled is not None:
                return spilled
        if name in ("lw", "ld"):
            return Sum(0, frozenset([(("load", LOAD_SIZES[name], held(insn.rs1).plus(Sum(insn.imm % 2**64))), 1)]))
        if name == "addiw":
            return unknown(address)
        if name == "andi" and 0 <= insn.imm:
            return Sum(0, frozenset([(("masked", insn.imm, address), 1)]))
        return unknown(address)

    def _moved_down(self, value: Sum, by: int, address: int) -> Sum:
        """A number of 32 bits that was moved up by 32, and down again by some bits less."""
        only = value.only()
        if only and value.constant == 0 and only[1] == 1 << 32 and by <= 32:
            return Sum(0, frozenset([(only[0], 1 << (32 - by))]))
        return unknown(address)

    def _spilled(self, start: int, load: Insn, depth: int) -> Optional[Sum]:
        """What was put at a place of the stack, where the blocks around do so once."""
        if load.name != "ld":
            return None
        found = self._stores_before(start).get(load.imm)
        if found is None or found[0] < 0:
            return None
        block, place = found
        return self.value(block, place, self._instructions(block)[place][1].rs2, depth + 1)

    def _stores_before(self, start: int) -> Dict[int, Tuple[int, int]]:
        """The one store to each place of the stack, in the blocks that lead to one; or a block less than zero where there
        are several."""
        if start not in self._stores:
            stores: Dict[int, Tuple[int, int]] = {}
            seen, left = {start}, [start]
            while left and len(seen) < MOST_BLOCKS:
                block = left.pop()
                for place, (_, insn) in enumerate(self._instructions(block)):
                    if insn.name == "sd" and insn.rs1 == 2:
                        stores[insn.imm] = (-1, 0) if insn.imm in stores else (block, place)
                if block not in self._entries:
                    for source, _ in self._before.get(block, []):
                        if source not in seen:
                            seen.add(source)
                            left.append(source)
            self._stores[start] = stores
        return self._stores[start] or {}

    # ---- tables

    def _table(self, block: Block) -> Optional[Tuple[int, int, int, int, Tuple]]:
        """The jump, the table's address, the size of its entries, what is added to each, and the index."""
        listed = self._instructions(block.start)
        jump, insn = listed[-1]
        if insn.name != "jalr" or insn.rd and not insn.is_stub or insn.rs1 in (1, 5):
            return None
        target = self.value(block.start, len(listed) - 1, insn.rs1).plus(Sum(insn.imm % 2**64))
        loaded = target.only()
        if not loaded or loaded[1] != 1 or loaded[0][0] != "load":
            return None
        _, width, place = loaded[0]
        index = place.only()
        if not index or index[1] != width or not place.constant or width == 8 and target.constant:
            return None
        return jump, place.constant, width, target.constant, index[0]

    def _cases(self, jump: int, table: int, width: int, added: int, most: int, is_tested: bool) -> List[int]:
        """Where the entries of a table lead, up to a number that is tested; or else as long as they lead into the function, and
        to what reads as code."""
        low, high = self._extent(jump)
        found: List[int] = []
        for number in range(most):
            at = table + width * number
            word = self._elf.word(at, width, signed=width == 4)
            if word is None or not self._elf.is_read_only(at, width) or number and at in self._known.bases:
                break
            case = (added + word) % 2**64 & ~1
            if not self._elf.is_code(case) or not is_tested and not (low <= case < high and self._reads_as_code(case)):
                break
            found.append(case)
        return found

    def _reads_as_code(self, case: int) -> bool:
        return self._reached.state(case) == START or not self._reached.overlaps(case) and self._reached.trial(case) is not None

    def _bound(self, block: Block, index: Tuple) -> Optional[Tuple[int, int]]:
        """How many entries a test of the index allows, in the blocks before the jump, and where it is."""
        seen, left = {block.start}, [(block.start, 0)]
        while left:
            start, depth = left.pop(0)
            if start in self._entries:
                continue
            for source, kind in self._before.get(start, []):
                if source in seen or depth >= TEST_BLOCKS:
                    continue
                seen.add(source)
                left.append((source, depth + 1))
                tested = self._tested(source, kind, index)
                if tested is not None:
                    return tested, self._instructions(source)[-1][0]
        return None

    def _tested(self, start: int, kind: str, index: Tuple) -> Optional[int]:
        """How many values of an index let control go along an edge, where the block tests it."""
        listed = self._instructions(start)
        insn = listed[-1][1]
        if insn.name not in ("bltu", "bgeu") or kind not in ("fall", "taken"):
            return None
        first, second = (self.value(start, len(listed) - 1, register) for register in (insn.rs1, insn.rs2))
        is_less = (insn.name == "bltu") == (kind == "taken")
        one = Sum(0, frozenset([(index, 1)]))
        # first < second where `is_less`, and else first >= second.
        if is_less and first == one and not second.terms:
            limit = second.constant
        elif not is_less and second == one and not first.terms:
            limit = first.constant + 1
        else:
            return None
        return limit if 0 < limit <= MOST_TESTED else None
