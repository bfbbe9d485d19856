"""What a trace has executed of a report: ranges of addresses, and blocks."""

from __future__ import annotations

import bisect
from typing import Iterator, List, Optional, Set, Tuple

from cfgtools.elf.elf_file import Elf, joined
from cfgtools.reports.cfg_report import Report
from cfgtools.reports.changed_graph import Places
from cfgtools.runs import traces

Range = Tuple[int, int]
# How many steps are kept before they are put together into ranges.
MANY = 1 << 16


def straight_on(places: Places, at: int) -> Iterator[Range]:
    """The ranges from an address on, up to the end of the block with which control no longer goes straight on."""
    block = places.of(at)
    while block is not None:
        yield max(block.start, at), block.end
        block = places.blocks.get(block.end) if block.kind == "fall" else None


def executed_ranges(steps: "traces.Trace", report: Report, elf: Optional[Elf]) -> List[Range]:
    """The ranges of addresses of a trace. The length of an instruction is what the trace says, or the file, or else two
    bytes."""
    places = Places(report)
    found: List[Range] = []
    new: Set[Range] = set()
    parts: Set[int] = set()
    for step in steps.steps():
        length = step.length
        if step.is_part and step.address not in parts:
            parts.add(step.address)
            new.update(straight_on(places, step.address))
        if not length and elf is not None and (step.address, step.address + 2) not in new:
            length = 4 if (elf.bytes_at(step.address, step.address + 2) or b"\0")[0] & 3 == 3 else 2
        new.add((step.address, step.address + (length or 2)))
        if len(new) >= MANY:
            found, new = joined(found + list(new)), set()
    return joined(found + list(new))


def run_blocks(report: Report, ran: List[Range]) -> Set[int]:
    """The starts of the blocks whose first bytes lie in ranges, which rise and are apart."""
    starts = [start for start, _ in ran]

    def has_run(address: int) -> bool:
        place = bisect.bisect_right(starts, address) - 1
        return place >= 0 and address < ran[place][1]

    return {start for start in report.blocks if has_run(start)}
