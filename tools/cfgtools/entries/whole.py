"""All sources of entries, of tables and of functions that do not return, in rounds until nothing is new; and then without the
entries that turned out to lie inside functions."""

from __future__ import annotations

import argparse
import bisect
from typing import Dict, List, NamedTuple, Optional, Set, Tuple

from cfgtools.elf.elf_file import Memory, joined, size_of
from cfgtools.elf.frames import frames
from cfgtools.entries.sources import add
from cfgtools.entries.work import Work
from cfgtools.reports.cfg_report import Report, ReportError
from cfgtools.reports.guesses import ends_nothing

# What leads from a block to one of the same function.
WITHIN = frozenset(("fall", "taken", "table", "landing"))
# The sources of entries of which the file itself says that something begins there, and what it is.
FACTS = {"eh-frame": "functions, by frame descriptions", "arrays": "functions that run before or after main, by arrays of addresses",
         "stubs": "stubs of indirect functions and what chooses where they lead, by relocations",
         "trace": "places where the run arrived through registers"}
GUESSES = {"pointers": "functions that only pointers name", "gaps": "functions in code that nothing refers to",
           "after": "places after calls of Go's mcall and morestack, or after WFI"}


class Share(NamedTuple):
    """How many functions and blocks a report has, and how many bytes of code they are."""

    functions: int
    blocks: int
    reached: int

    def told(self, code: int) -> str:
        percent = 100 * self.reached / code if code else 0.0
        return f"{self.functions:,} functions, {self.blocks:,} blocks, {percent:.1f} % of {code:,} bytes of code"


def share(report: Report) -> Share:
    return Share(len(report.functions), len(report.blocks), size_of(reached(report)))


def reached(report: Report) -> List[Tuple[int, int]]:
    return joined([(block.start, block.end) for block in report.blocks.values()])


def all_sources(elf: str, arch: Optional[str], trace: Optional[str]) -> argparse.Namespace:
    """The words of `tools/add_entries` that ask for all that can be had of the file."""
    found = argparse.Namespace(elf=elf, arch=arch, trace=trace, tables=None, list=None, keep_overlaps=False, no_return=[None])
    setattr(found, "from", None)
    for source in ("eh_frame", "arrays", "stubs", "pointers", "switches", "after", "gaps"):
        setattr(found, source, True)
    return found


def run(work: Work, words: argparse.Namespace) -> Optional[str]:
    """Adds all that is found, and answers what is wrong with the frame descriptions, if they cannot be read."""
    wrong = broken_frames(work.elf)
    words.eh_frame = wrong is None
    add(work, words)
    fold(work)
    return wrong


def broken_frames(elf: Memory) -> Optional[str]:
    try:
        frames(elf)
    except ReportError as error:
        return str(error)
    return None


def fold(work: Work) -> None:
    """Takes back the entries that are cases of switches or other blocks of the function around them."""
    dropped = work.drop(inner(work))
    if not dropped:
        return
    before = reached(work.report)
    work.again()
    lost = _missing(before, reached(work.report), sorted(dropped))
    while lost:
        work.restore({address: dropped[address] for address in lost})
        for address in lost:
            del dropped[address]
        work.again()
        lost = _missing(before, reached(work.report), sorted(dropped))


def inner(work: Work) -> Set[int]:
    """The entries that may be no function, which nothing calls, and to which a block of the function around them leads."""
    report = work.report
    called = {edge.to for edge in report.edges if edge.kind == "call"}
    may_be = {address for address, entry in work.added.items() if ends_nothing(entry.name, address) and address not in called}
    rising = sorted(function.entry for function in report.functions if function.entry not in may_be)

    def holder(address: int) -> int:
        return bisect.bisect_right(rising, address)

    return {edge.to for edge in report.edges if edge.to in may_be and edge.kind in WITHIN and holder(edge.source) == holder(edge.to)}


def _missing(before: List[Tuple[int, int]], after: List[Tuple[int, int]], addresses: List[int]) -> Set[int]:
    """Which of these addresses lie in what was reached before and is not any more; all, if something else is missing."""
    if size_of(before) == size_of(after):
        return set()
    starts = [start for start, _ in after]

    def is_in(address: int) -> bool:
        place = bisect.bisect_right(starts, address) - 1
        return place >= 0 and address < after[place][1]

    return {address for address in addresses if not is_in(address)} or set(addresses)


# ---- what is said of it


def kinds_of_tables(work: Work) -> Dict[str, int]:
    """How many tables are declared, by how they are known."""
    switches = [jump for jump, source in work.declaring.sources.items() if source == "switches"]
    traced = sum(source == "trace" for source in work.declaring.sources.values())
    tested = sum(jump in work.tested for jump in switches)
    return {"tested": tested, "untested": len(switches) - tested, "traced": traced}


def facts(work: Work) -> List[str]:
    """What came from the file alone, a line each."""
    given, tables = work.given, kinds_of_tables(work)
    found = [f"{given[source]:,} {what}" for source, what in FACTS.items() if given[source]]
    if work.staying:
        found.append(f"{len(work.staying):,} functions that do not return, by their names")
    if tables["tested"]:
        found.append(f"{tables['tested']:,} tables of switches beside those that cfg finds, with a bound test")
    if tables["traced"]:
        found.append(f"{tables['traced']:,} tables of jumps that the run took")
    return found


def guesses(work: Work) -> List[str]:
    """What was guessed, a line each."""
    given, tables = work.given, kinds_of_tables(work)
    found = [f"{given[source]:,} {what}" for source, what in GUESSES.items() if given[source]]
    if tables["untested"]:
        found.append(f"{tables['untested']:,} tables of switches beside those that cfg finds, without a bound test")
    return found
