"""Which tables `tools/add_entries` declares: of switches that constants tell, of jumps that a run took, and of a list."""

from __future__ import annotations

import bisect
import re
from typing import Collection, Dict, Iterator, List, Mapping, Set, Tuple

from cfgtools.elf.declared_tables import Declaring, Wanted, jump_register
from cfgtools.elf.elf_file import Memory
from cfgtools.entries.reached import Reached
from cfgtools.entries.switch_cases import Known, Switches
from cfgtools.reports.cfg_report import Report, ReportError

Moves = Mapping[int, Collection[int]]


def ways_of_table(report: Report, start: int) -> List[int]:
    """Where the table leads that a block of a report ends with."""
    return [edge.to for edge in report.edges_from.get(start, ()) if edge.kind == "table"]


class SwitchTables:
    """The tables of switches whose jump has none in the report, and of those whose table there runs on."""

    def __init__(self) -> None:
        self._known = Known()
        # The jumps of those whose end a bound test shows.
        self.tested: Set[int] = set()

    def found(self, reached: Reached, declared: Collection[int]) -> Iterator[Wanted]:
        for switch in Switches(reached, self._known).found():
            if jump_register(reached.elf, switch.jump) is None:
                continue
            if switch.block.kind == "table-open" and switch.jump not in declared:
                # A table that the pattern found, which only a test tells more of.
                if switch.bound is None or set(ways_of_table(reached.report, switch.block.start)) == set(switch.cases):
                    continue
            if switch.bound is not None:
                self.tested.add(switch.jump)
            yield Wanted(switch.jump, switch.cases, (switch.table, switch.width, switch.added))


class TracedTables:
    """The tables of jumps through registers that a run took, where the report has no table or another one."""

    def __init__(self, elf: Memory, moves: Moves) -> None:
        self.jumps = {at: tuple(places) for at, places in moves.items() if jump_register(elf, at) is not None}
        self._called = {to for at, places in moves.items() if at not in self.jumps for to in places}
        self._from: Dict[int, List[int]] = {}
        for jump, places in self.jumps.items():
            for to in places:
                self._from.setdefault(to, []).append(jump)

    def found(self, reached: Reached, tables: Mapping[int, Wanted]) -> Iterator[Wanted]:
        for block in reached.report.blocks.values():
            if block.kind not in ("unknown", "table-open"):
                continue
            jump, known = reached.instructions(block)[-1][0], ways_of_table(reached.report, block.start)
            if jump in self.jumps and not set(self.jumps[jump]).issubset(known):
                before = tables[jump].targets if jump in tables else known
                yield Wanted(jump, tuple(dict.fromkeys((*before, *self.jumps[jump]))))

    def is_case(self, address: int, entries: List[int]) -> bool:
        """Whether a run came to an address by jumps of the same function alone; entries, which rise, tell functions apart."""
        def place(at: int) -> int:
            return bisect.bisect_right(entries, at)

        jumps = self._from.get(address, ())
        return bool(jumps) and address not in self._called and all(place(jump) == place(address) for jump in jumps)


# ---- lists


_ADDRESS = re.compile(r"(?:0x)?[0-9a-fA-F]{1,16}")


def listed(path: str) -> Dict[int, List[int]]:
    """The tables of a file with lines JUMP TARGET TARGET ..; what several lines say of a jump is put together."""
    found: Dict[int, Dict[int, None]] = {}
    with open(path, encoding="utf-8", errors="surrogateescape") as file:
        for number, line in enumerate(file, 1):
            words = line.split("#")[0].split()
            if not words:
                continue
            if len(words) < 2 or not all(map(_ADDRESS.fullmatch, words)):
                raise ReportError(f"{path}: line {number}: no line `JUMP TARGET TARGET ..`, with hexadecimal digits")
            jump, *targets = (int(word, 16) for word in words)
            found.setdefault(jump, {}).update(dict.fromkeys(targets))
    return {jump: list(targets) for jump, targets in found.items()}


def told(declaring: Declaring, jumps_with_table: Set[int], reached: Reached) -> Iterator[Tuple[str, str]]:
    """How many tables each source gave, in words, and how many of these do not show in the report."""
    for source in sorted(set(declaring.sources.values())):
        jumps = [jump for jump, found in declaring.sources.items() if found == source]
        copied = sum(declaring.record(declaring.tables[jump]) is None for jump in jumps)
        words = [f"{len(jumps)} tables", *([f"{copied} of them copied"] if copied else [])]
        missed = [jump for jump in jumps if jump not in jumps_with_table]
        apart = sum(not reached.state(jump) for jump in missed)
        words += [f"{apart} of jumps that are not reached"] if apart else []
        words += [f"{len(missed) - apart} that this cfg does not take"] if len(missed) > apart else []
        yield source, ", ".join(words)
