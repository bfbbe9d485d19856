"""Jump tables: what the instructions before a jump through a register load from where, and a table's entries.

docs/REPORT.md says which tables `cfg` finds. Here a calculation is followed along all ways of the graph, and so further. The
tables that the file declares are read from its records.
"""

from __future__ import annotations

import bisect
import itertools
from typing import Dict, Iterable, Iterator, List, NamedTuple, Optional, Set, Tuple

from cfgtools.elf.declared_tables import Declared
from cfgtools.elf.elf_file import Elf
from cfgtools.elf.table_patterns import OfFile
from cfgtools.explain.unsure import Unsure
from cfgtools.explain.values import INSTRUCTION, Code, Place, Setter, Values
from cfgtools.isa.instructions import Instruction, signed
from cfgtools.reports.cfg_report import TABLE_KINDS, Block, Report

# Instructions that scale an index by the size of an entry and add an address.
SCALED_SUMS = {"sh1add": 2, "sh2add": 4, "sh3add": 8, "sh1add.uw": 2, "sh2add.uw": 4, "sh3add.uw": 8}
SIZES = {"lb": 1, "lbu": 1, "lh": 2, "lhu": 2, "lw": 4, "lwu": 4, "ld": 8}


class Use(NamedTuple):
    """A jump through an entry of a table: the load, and how many bytes it loads; the register that holds the table's
    address, where; the address, and what is added to an entry, where these are constants; the instructions of it."""

    load: Instruction
    size: int
    base: Tuple[int, Place]
    address: Optional[int]
    added: Optional[int]
    parts: Tuple[Instruction, ...]

    def target(self, elf: Elf, number: int) -> Optional[int]:
        """Where an entry leads."""
        if self.address is None or self.added is None:
            return None
        entry = elf.number(self.address + self.size * number, self.size)
        if entry is None:
            return None
        is_signed = not self.load.name.endswith("u")
        return ((signed(entry, 8 * self.size) if is_signed else entry) + self.added) % 2**64 & ~1


def use_of_table(values: Values, register: int, place: Place) -> Optional[Use]:
    """The table that a register has an entry of, where it is calculated as one: an index is moved up by as many bits as an
    entry needs, an address is added, an entry is loaded, and perhaps something is added to it."""
    found = values.setter(register, place)
    if found is None or found.kind != INSTRUCTION or found.instruction is None:
        return None
    if found.instruction.is_load:
        return _loaded(values, found, 0, ())
    if found.instruction.name != "add":
        return None
    one = found.instruction
    for part, other in ((one.rs1, one.rs2), (one.rs2, one.rs1)):
        load = values.setter(part, found.place)
        if load is not None and load.kind == INSTRUCTION and load.instruction is not None and load.instruction.is_load:
            use = _loaded(values, load, values.constant(other, found.place), (one,))
            if use is not None:
                return use
    return None


def _loaded(values: Values, load: Setter, added: Optional[int], parts: Tuple[Instruction, ...]) -> Optional[Use]:
    """The table that a load is of. What is added to the entry, and by which instructions, is given."""
    one = load.instruction
    assert one is not None
    size = SIZES[one.name]
    total = values.setter(one.rs1, load.place)
    if total is None or total.instruction is None:
        return None
    add = total.instruction
    if add.name in SCALED_SUMS and SCALED_SUMS[add.name] == size:
        return _at(values, one, size, add.rs2, total, added, (*parts, one, add))
    if add.name != "add":
        return None
    for index, base in ((add.rs1, add.rs2), (add.rs2, add.rs1)):
        scaled = _scaled(values, index, total.place, size)
        if scaled is None:
            continue
        return _at(values, one, size, base, total, added, (*parts, one, add, *scaled))
    return None


def _at(values: Values, load: Instruction, size: int, base: int, total: Setter, added: Optional[int], parts: Tuple[Instruction, ...]) -> Use:
    """A table at the address in a register, to which a scaled index is added."""
    address = values.constant(base, total.place)
    if address is not None:
        address = (address + load.immediate) % 2**64
    setters = values.setters(base, total.place) or []
    makers = [setter.instruction for setter in setters if setter.kind == INSTRUCTION and setter.instruction]
    return Use(load, size, (base, total.place), address, added, (*parts, *makers))


def _scaled(values: Values, register: int, place: Place, size: int) -> Optional[Tuple[Instruction, ...]]:
    """The instructions that move an index up by as many bits as an entry of a size needs."""
    shift = size.bit_length() - 1
    moved = values.setter(register, place)
    if shift == 0:
        return ()
    if moved is None or moved.instruction is None:
        return None
    one = moved.instruction
    if one.name == "slli" and one.immediate == shift:
        return (one,)
    if one.name == "srli" and one.immediate == 32 - shift:
        before = values.setter(one.rs1, moved.place)
        left = before.instruction if before is not None else None
        if left is not None and left.name == "slli" and left.immediate == 32:
            return (one, left)
    return None


class Table(NamedTuple):
    """The jump table of a block: its address, the size of an entry in bytes, where each entry that is kept leads, and whether the
    file declares it or its address was set far before the jump."""

    block: Block
    jump: int
    address: int
    size: int
    targets: Tuple[int, ...]
    is_declared: bool = False
    is_hoisted: bool = False

    def places(self) -> Dict[int, List[int]]:
        """The numbers of the entries that lead to each address."""
        found: Dict[int, List[int]] = {}
        for number, target in enumerate(self.targets):
            found.setdefault(target, []).append(number)
        return found


def numbers(found: Iterable[int]) -> str:
    """Numbers, which rise, in few words: 0, 3-5."""
    ranges: List[List[int]] = []
    for number in found:
        if ranges and ranges[-1][1] == number - 1:
            ranges[-1][1] = number
        else:
            ranges.append([number, number])
    return ", ".join(f"{low}-{high}" if high > low else str(low) for low, high in ranges)


class Tables:
    """The jump tables that the graph of a report goes through, by the starts of their blocks: as the patterns find them, by which
    `cfg` does."""

    def __init__(self, code: Code) -> None:
        self.code = code
        patterns = OfFile(code.elf)
        whole: Dict[int, Table] = {}
        for block in code.report.blocks.values():
            last = code.last(block) if block.kind in TABLE_KINDS else None
            found = patterns.table_of(last.address, last.rs1) if last is not None else None
            if last is not None and found is not None:
                whole[block.start] = Table(block, last.address, found.base, found.width, found.targets, found.is_declared, found.is_hoisted)
        self._bases = sorted({table.address for table in whole.values()})
        self.found = {start: self._kept(table) for start, table in whole.items()}

    def _kept(self, table: Table) -> Table:
        """The entries from the first on, as long as the graph has an edge to where they lead, up to the next table."""
        edges = {edge.to for edge in self.code.report.edges_from.get(table.block.start, ())}
        after = self._bases[bisect.bisect_right(self._bases, table.address):][:1]
        most = max((after[0] - table.address) // table.size, 1) if after else len(table.targets)
        return table._replace(targets=tuple(itertools.takewhile(edges.__contains__, table.targets[:most])))


def described_tables(elf: Elf, report: Report) -> Iterator[str]:
    """Lines that tell of the jump tables of a report: where they are, and which entries lead to which address."""
    unsure = Unsure(elf).see_all(report.items())
    code = Code(elf, report)
    found = Tables(code).found
    for block in report.blocks.values():
        if block.kind not in TABLE_KINDS:
            continue
        table, last = found.get(block.start), code.last(block)
        jump = last.address if last else block.start
        if table is None:
            yield f"table of the jump at {jump:x} in {elf.place(jump)}: {block.kind}, not worked out"
            continue
        how = ", declared" if table.is_declared else ", its address set before the run to the jump" if table.is_hoisted else ""
        what = f"{block.kind}{how}, {len(table.targets)} entries of {table.size} bytes"
        yield f"table {table.address:x} of the jump at {jump:x} in {elf.place(jump)}: {what}"
        outside = {edge.to for edge in report.edges_from.get(block.start, []) if unsure.is_unsure(edge)}
        for target, places in sorted(table.places().items(), key=lambda item: item[1]):
            mark = ", not sure: outside the symbol" if target in outside else ""
            yield f"    {target:x} {elf.place(target)}: {numbers(places)}{mark}"
    yield from _described_records(elf, report, {table.jump for table in found.values() if table.is_declared})


def _described_records(elf: Elf, report: Report, used: Set[int]) -> Iterator[str]:
    """Lines that tell of the records of jumps whose table is not the declared one, and why."""
    declared, code = Declared(elf), Code(elf, report)
    kinds = {last.address: block.kind for block in report.blocks.values() for last in [code.last(block)] if last is not None}
    for jump, record in declared.records.items():
        if jump in used:
            continue
        kind = kinds.get(jump)
        why = declared.why_not(record)
        if why is None and kind in ("table", "table-cut"):
            why = "a bound test before the jump shows its table"
        elif why is None and kind is None:
            why = "no block ends there"
        yield f"record of the jump at {jump:x} in {elf.place(jump)}, which does not count: {why or f'the block ends with {kind}'}"
