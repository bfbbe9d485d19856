"""Why the ways on from a block are not known: what was checked of the instructions that lead up to its end."""

from __future__ import annotations

import functools
from typing import Dict, List, NamedTuple, Optional, Tuple

from cfgtools.elf.declared_tables import Declared
from cfgtools.elf.elf_file import Memory
from cfgtools.entries.reached import Reached
from cfgtools.entries.switch_cases import Switch, Switches
from cfgtools.explain.staying import undecoded
from cfgtools.explain.tables import Use, use_of_table
from cfgtools.explain.unsure import Unsure
from cfgtools.explain.values import CALL, CALLER, Code, Place, Setter, Values, copied
from cfgtools.isa import extensions
from cfgtools.isa.instructions import ARGUMENTS, NAMES, Instruction, signed
from cfgtools.reports.cfg_report import Block, Report

KINDS = ("unknown", "icall", "table-cut", "table-open", "branch-out", "stop")
RETURN = bytes.fromhex("8280")
# What may make a copy of the index of a table for its bound test.
EXTENSIONS = frozenset(("sext.b", "sext.h", "zext.h", "add.uw", "andi"))
# How many instructions may go straight on to the jump of a table.
MOST_STRAIGHT = 16


class Why(NamedTuple):
    """A reason, in words that are the same for all blocks of one sort, and what is special to a block."""

    what: str
    detail: str = ""

    def __str__(self) -> str:
        return f"{self.what} ({self.detail})" if self.detail else self.what


MEANT = Why("ebreak or unimp, which are meant")
NO_CODE = "to where no code is"
NOT_TOLD = Why("not told: no instruction of RV64GC ends the block")
CUT = Why("fewer entries of its table are kept than its bound test allows: another table begins inside it, or an entry "
          "leads to no code")
OPEN = "a table without a bound test: where it ends is not known"
TESTED = "a table whose bound test stands in none of the patterns by which cfg finds the end of one"
DECLARED = "a table that the file declares: nothing proves where it ends"
TABLE = "a jump table"
INDIRECT = "to an indirect function: through a word that its resolver answers when the program starts"


class KnownSwitches:
    """The switches of a report's blocks that constants tell, by the starts of the blocks."""

    def __init__(self, path: str, report: Report) -> None:
        self.elf = Memory(path)
        self.reached = Reached(self.elf, report)
        self.values = Switches(self.reached)
        self.found: Dict[int, Switch] = {switch.block.start: switch for switch in self.values.found()}


class Reasons:
    """Why the ways on from blocks of a report are not known."""

    def __init__(self, code: Code, values: Optional[Values] = None) -> None:
        self.code, self.elf, self.report = code, code.elf, code.report
        self.values = values or Values(code)
        self.unsure = Unsure(self.elf).see_all(self.report.items())
        self.ends = {block.end: block for block in self.report.blocks.values()}
        self._declared = Declared(self.elf)

    def blocks(self) -> List[Block]:
        """The blocks whose ways on are not known."""
        return [block for block in self.report.blocks.values() if block.kind in KINDS or self.is_lost_return(block)]

    def is_lost_return(self, block: Block) -> bool:
        """Whether a block ends with the compressed `ret`, and is said to end with a jump."""
        return block.kind == "jump" and self.elf.bytes_at(block.end - 2, block.end) == RETURN

    def why(self, block: Block) -> Why:
        if block.kind == "stop":
            return self._why_stop(block)
        last = self.code.last(block)
        if last is None:
            return NOT_TOLD
        if block.kind == "branch-out":
            if self.elf.is_code(last.target):
                return Why("no code after the branch", f"{block.end:x}")
            return Why("a branch " + NO_CODE, f"{last.target:x}")
        if block.kind == "table-cut":
            return CUT
        if block.kind == "table-open":
            ways = self.report.edges_from.get(block.start, [])
            outside = sum(map(self.unsure.is_unsure, ways))
            told = f"{len(ways)} successors" + (f", {outside} of them outside its symbol" if outside else "")
            if self._declared.is_of(last.address):
                return Why(DECLARED, told)
            test = self._test(block)
            return Why(TESTED, f"{told}; {test}") if test else Why(OPEN, told)
        if last.name == "jal":
            return Why(NO_CODE, f"{last.target:x}")
        return self._why_jump(block, last)

    @functools.cached_property
    def switches(self) -> "KnownSwitches":
        """The switches that constants tell, of blocks whose ways on are not known or may be false."""
        return KnownSwitches(self.elf.path, self.report)

    def _test(self, block: Block) -> Optional[str]:
        """The bound test of an open table that stands further back or tests a copy of the index, in words."""
        switch = self.switches.found.get(block.start)
        if switch is None or switch.bound is None or switch.test is None:
            return None
        place = next((Place(one.start, len(own) - 1) for one in self._blocks_at(switch.test) for own in [self.code.of(one)] if own), None)
        if place is None:
            return None
        test = self.code.of(self.report.blocks[place.block])[place.number]
        return f"{test.text} at {test.address:x} lets {switch.bound} values on{self._copy_of(test, place)}"

    def _blocks_at(self, last: int) -> List[Block]:
        """The blocks whose last instruction stands at an address."""
        return [self.ends[last + size] for size in (2, 4) if last + size in self.ends and self.code.of(self.ends[last + size])[-1:]
                and self.code.of(self.ends[last + size])[-1].address == last]

    def _copy_of(self, test: Instruction, place: Place) -> str:
        """The instruction that makes a copy of the index for a test, if one does."""
        for register in (test.rs1, test.rs2):
            setter = self.values.setter(register, place)
            one = setter.instruction if setter is not None else None
            if one is not None and (one.name in EXTENSIONS or one.name == "addiw" and one.immediate == 0):
                return f", of a copy that {one.text} at {one.address:x} makes"
        return ""

    def _why_stop(self, block: Block) -> Why:
        found = undecoded(self.code, block)
        if found is None:
            last = self.code.last(block)
            return Why("runs on " + NO_CODE, f"{block.end:x}") if last is not None and last.is_straight else MEANT
        told = extensions.told(found[1])
        return Why("an instruction that cfg does not decode" + (f", {told}" if told else ""), extensions.shown(found[1]))

    def _why_jump(self, block: Block, last: Instruction) -> Why:
        """Of a jump or call through a register."""
        if last.rs1 == 0:
            what = "to a fixed address through the register zero, as where a weak symbol is not there"
            return Why(what, f"{last.immediate}")
        pair = self._pair(last)
        if pair is None:
            return self.why_register(last.rs1, Place(block.start, len(self.code.of(block)) - 1), last)
        base, goes_to = pair
        where = f"{goes_to:x}" + ("" if self.elf.is_code(goes_to) else ", where no code is")
        if any(one.address == last.address - 4 for one in self.code.of(block)):
            return Why(NO_CODE, f"{goes_to:x}")
        is_return = last.rs1 in (1, 5) and last.rd == 0
        what = "a return" if is_return else "a jump through a register"
        read = f"{what} that is read as paired with the four bytes before it, which are no instruction"
        return Why(read, f"{base}, so to {where}")

    def _pair(self, last: Instruction) -> Optional[Tuple[str, int]]:
        """What the four bytes before a jump read as, where that is an AUIPC or LUI of its register, and the target."""
        word = int.from_bytes(self.elf.bytes_at(last.address - 4, last.address) or b"", "little")
        if word & 0x7F not in (0x17, 0x37) or last.rs1 != word >> 7 & 31:
            return None
        name, base = ("auipc", last.address - 4) if word & 0x7F == 0x17 else ("lui", 0)
        goes_to = (base + signed(word & 0xFFFFF000, 32) + last.immediate) % 2**64 & ~1
        return f"{name} {NAMES[last.rs1]},{word >> 12:#x}", goes_to

    def why_register(self, register: int, place: Place, last: Instruction) -> Why:
        """Where the value of a register comes from, along all ways to a place."""
        use = use_of_table(self.values, register, place)
        if use is not None:
            return self._why_table(use, place, last)
        constant = self.values.constant(register, place)
        if constant is not None:
            return self._why_constant(constant)
        setters = self._all_setters(register, place)
        if setters is None:
            return Why("through a register; where it is set was not followed to its end", NAMES[register])
        reasons = [self._why_setter(register, setter) for setter in setters]
        if len({reason.what for reason in reasons}) == 1:
            at = f" at {len(reasons)} places" if len(reasons) > 1 else ""
            return reasons[0]._replace(detail=reasons[0].detail + at)
        what = "through a register that is set in several ways"
        ways = sorted({reason.what.replace("through ", "") for reason in reasons})
        return Why(what, f"{NAMES[register]}: {'; '.join(ways)}")

    def _all_setters(self, register: int, place: Place) -> Optional[List[Tuple[int, Setter]]]:
        """What sets a register, copies followed back to what they are of, each with the register that it sets."""
        found: List[Tuple[int, Setter]] = []
        left, seen = [(register, place)], set()
        while left:
            one = left.pop()
            if one in seen:
                continue
            seen.add(one)
            setters = self.values.setters(*one)
            if setters is None or len(seen) > 60:
                return None
            for setter in setters:
                copy = copied(setter.instruction) if setter.kind not in (CALL, CALLER) and setter.instruction else None
                if copy is not None:
                    left.append((copy, setter.place))
                elif (one[0], setter) not in found:
                    found.append((one[0], setter))
        return found

    def _why_setter(self, register: int, found: Tuple[int, Setter]) -> Why:
        own, setter = found
        one = setter.instruction
        name = NAMES[own]
        if setter.kind == CALLER:
            if own in ARGUMENTS:
                return Why("through an argument of the function", name)
            return Why("through a register that the caller has set", name)
        if setter.kind == CALL or one is None:
            at = f"{one.address:x}" if one else "?"
            what = "through the result of a call" if own in (10, 11) else "through a register that a call has left"
            return Why(what, f"{name}, the call at {at}")
        if one.is_load:
            return self._why_load(one, setter.place)
        made = self.values.made(setter)
        if made is not None:
            return self._why_constant(made)
        return Why("through a register that is calculated", f"{one.text} at {one.address:x}")

    def _why_constant(self, constant: int) -> Why:
        where = "" if self.elf.is_code(constant) else ", where no code is"
        return Why("to a fixed address, but not right after its AUIPC or LUI", f"{constant:x}{where}")

    def _why_load(self, load: Instruction, place: Place) -> Why:
        address = self.values.constant(load.rs1, place)
        if address is not None:
            address = (address + load.immediate) % 2**64
            resolver = self.elf.resolvers.get(address)
            if resolver is not None:
                return Why(INDIRECT, f"{address:x}{self._section(address)}, by {self.elf.place(resolver)} at {resolver:x}")
            return Why("through a pointer loaded from a fixed address", f"{address:x}{self._section(address)}")
        if load.rs1 == 2:
            return Why("through a value on the stack", f"{load.text} at {load.address:x}")
        return Why("through a pointer in memory", f"{load.text} at {load.address:x}")

    def _section(self, address: int) -> str:
        section = self.elf.section(address)
        return f" in {section.name}" if section else ", in no section"

    def _why_table(self, use: Use, place: Place, last: Instruction) -> Why:
        """What keeps a table from the patterns that `cfg` looks for, as far as that can be checked."""
        entries = f"{use.size}-byte entries"
        is_call = last.rd != 0 and not last.is_stub
        table = "a table of pointers to functions" if is_call else TABLE
        if use.address is None:
            is_one = self.values.setter(*use.base) is not None
            how = f": {self.why_register(*use.base, last)}" if is_one else ""
            return Why(f"{table} at an address that is no constant", f"{entries}, {NAMES[use.base[0]]}{how}")
        where = f"{use.address:x}{self._section(use.address)}, {entries}"
        if is_call:
            return Why(table, where)
        section = self.elf.section(use.address)
        if section is None:
            return Why(f"{table} that lies in no section", where)
        if section.is_writable:
            return Why(f"{table} in a section that can be written to", where)
        if use.size not in (4, 8):
            return Why(f"{table} of entries of {use.size} bytes", where)
        if use.address % use.size:
            return Why(f"{table} whose address is no multiple of the size of its entries", where)
        if use.added is None:
            return Why(f"{table} to whose entries is added what is no constant", where)
        first = use.target(self.elf, 0)
        if first is None or not self.elf.is_code(first):
            to = f", to {first:x}" if first is not None else ""
            return Why(f"{table} whose first entry leads to no code", where + to)
        return self._why_far(use, place, last, table, where)

    def _why_far(self, use: Use, place: Place, last: Instruction, table: str, where: str) -> Why:
        """Of a table that is in order: how far before the jump its calculation begins."""
        straight = self._straight(self.report.blocks[place.block], last)
        at = {one.address: number for number, one in enumerate(straight)}
        far = [one for one in use.parts if one.address not in at]
        if far:
            first = min(far, key=lambda one: one.address)
            what = f"{table} whose calculation begins before the last branch or jump"
            return Why(what, f"{where}; {first.text} at {first.address:x}")
        begin = min(at[one.address] for one in use.parts)
        count = len(straight) - begin
        if count > MOST_STRAIGHT:
            what = f"{table} whose calculation begins more than {MOST_STRAIGHT} instructions before the jump"
            return Why(what, f"{where}; {count} instructions")
        return Why(f"{table}; what keeps it from being found is not told", where)

    def _straight(self, block: Block, last: Instruction) -> List[Instruction]:
        """The instructions that stand right before a jump and go straight on to it, across the starts of blocks."""
        found = [one for one in self.code.of(block) if one.address < last.address]
        start = block.start
        while len(found) < 200 and start in self.ends and self.ends[start].kind == "fall":
            before = self.ends[start]
            found = self.code.of(before) + found
            start = before.start
        return found


def may_be_table(block: Block, why: Why) -> bool:
    """Whether what is lost of a function may be behind a block: whether it ends with a jump whose targets may lie in the
    function, as those of a switch."""
    return block.kind in ("table-cut", "table-open") or block.kind == "unknown" and TABLE in why.what
