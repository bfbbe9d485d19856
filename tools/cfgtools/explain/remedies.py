"""Which sources of `tools/add_entries` would bring more of a file's code into its report, and which close an open jump."""

from __future__ import annotations

import bisect
from typing import Dict, Iterable, List, Optional, Set, Tuple

from cfgtools.elf.declared_tables import first_records, jump_register
from cfgtools.elf.elf_file import Memory, joined, size_of
from cfgtools.elf.frames import frames
from cfgtools.elf.stubs import stubs
from cfgtools.entries.pointers import array_entries, pointers_in_data
from cfgtools.entries.declaring import ways_of_table
from cfgtools.explain.reasons import KnownSwitches
from cfgtools.explain.staying import undecoded
from cfgtools.explain.values import Code
from cfgtools.isa import extensions
from cfgtools.reports.cfg_report import Block, Report, ReportError

Ranges = List[Tuple[int, int]]


def starts(elf: Memory) -> Dict[str, List[int]]:
    """The addresses of code that each source finds in the file alone."""
    try:
        framed = frames(elf)
    except ReportError:
        framed = []
    return {
        "--eh-frame": [frame.start for frame in framed if elf.is_code(frame.start)],
        "--stubs": [stub.resolver for stub in stubs(elf) if stub.resolver is not None and elf.is_code(stub.resolver)],
        "--arrays": [address for address in array_entries(elf) if elf.is_code(address)],
        "--pointers": pointers_in_data(elf),
    }


def apart(addresses: Iterable[int], reached: Ranges) -> List[int]:
    """The addresses that are in none of these ranges, which are rising and apart."""
    places = [start for start, _ in reached]

    def is_reached(address: int) -> bool:
        place = bisect.bisect_right(places, address) - 1
        return place >= 0 and address < reached[place][1]

    return [address for address in dict.fromkeys(addresses) if not is_reached(address)]


def what_to_try(path: str, reached: Ranges, has_open_ends: bool) -> str:
    """Which sources name addresses of code that is not reached, and how many each, as the end of a line."""
    found = {source: len(apart(addresses, reached)) for source, addresses in starts(Memory(path)).items()}
    named = [f"{source} ({count:,} not reached)" for source, count in found.items() if count]
    named += ["--switches", "--trace FILE"] if has_open_ends else []
    return f"; to reach more: tools/add_entries {' '.join(named)}" if named else ""


def architecture_for(code: Code, report: Report) -> str:
    """The text of an architecture that names what the file names, and the extensions of what is not decoded."""
    needed: Set[str] = set()
    for block in report.blocks.values():
        found = undecoded(code, block)
        needed |= (extensions.names_needed(found[1]) or set()) if found else set()
    return "_".join([code.elf.architecture or "rv64gc", *sorted(needed - code.elf.extensions)])


class Remedies:
    """What closes the open ends of a report."""

    def __init__(self, code: Code, report: Report, switches: KnownSwitches) -> None:
        elf = self._elf = switches.elf
        self._code, self._report, self._architecture = code, report, architecture_for(code, report)
        self._declared = first_records(elf)
        self._reached, self._values, self._switches = switches.reached, switches.values, switches.found
        reached = joined([(block.start, block.end) for block in report.blocks.values()])
        self._is_all = size_of(reached) >= sum(section.size for section in elf.code)
        self._stubs = {stub.jump + 4 for stub in stubs(elf) if stub.resolver is not None}
        self._pointers = any(map(self._reached.begins, apart(pointers_in_data(elf), reached)))

    def text(self, block: Block) -> str:
        """The end of a line that names it."""
        remedy = self.of(block)
        return f"; try add_entries with {remedy}" if remedy else ""

    def of(self, block: Block) -> Optional[str]:
        """The source of tables or entries that brings what a block leads to into the report, if one does."""
        if block.kind == "stop":
            found = undecoded(self._code, block)
            needed = extensions.names_needed(found[1]) if found else None
            return f"--arch {self._architecture}" if needed and not needed <= self._code.elf.extensions else None
        if block.end in self._stubs and block.kind in ("unknown", "icall"):
            return "--stubs, for what answers where it leads; and --trace, for that place"
        switch = self._switches.get(block.start)
        if switch is not None and block.kind == "unknown":
            count = len({case for case in switch.cases if not self._reached.state(case)})
            more = f", {count} of them not reached" if count else ""
            return f"--switches, which declares its table: {len(set(switch.cases))} cases{more}"
        if switch is not None and block.kind == "table-open" and switch.bound is not None and switch.jump not in self._declared:
            is_so = set(ways_of_table(self._report, block.start)) == set(switch.cases)
            return None if is_so else f"--switches, which declares its end: {switch.bound} entries"
        if block.kind not in ("unknown", "icall") or self._values.is_fixed(block):
            return None
        if block.kind == "unknown" and jump_register(self._elf, self._reached.instructions(block)[-1][0]) is not None:
            return "--trace or --tables, which declare its targets" + ("; and --pointers" if self._pointers and not self._is_all else "")
        if self._is_all:
            return None
        return "--pointers, --trace" if self._pointers else "--trace"
