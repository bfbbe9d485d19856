"""A file to which entries and declared tables are added, round by round, and what `cfg` reaches of it then."""

from __future__ import annotations

import argparse
import functools
from collections import Counter
from typing import Counter as Counts, Dict, Iterable, List, Optional, Set, Tuple

from cfgtools.elf import architecture, no_return
from cfgtools.elf.added_symbols import Entry, OutFile, with_symbols
from cfgtools.elf.declared_tables import Declaring, Wanted
from cfgtools.elf.elf_file import Memory
from cfgtools.elf.frames import Frame, frames
from cfgtools.entries.reached import Reached
from cfgtools.isa.decoding import Insn
from cfgtools.reports import cfg_report
from cfgtools.reports.cfg_report import Report
from cfgtools.reports.growing import Growing
from cfgtools.reports.progress import Progress

NO_CODE, OVERLAP, PADDING = "no address of code", "inside an instruction that is reached", "in padding"
KNOWN, HERE, UNFIT = "an entry already", "reached already", "no code by the look of it"
NO_JUMP = "no jump that a table can be declared of"


class Work:
    """A file, the entries that are added to it, and what is reached with them."""

    reached: Reached

    def __init__(self, words: argparse.Namespace, out: OutFile) -> None:
        self.elf, self._out, self._keep_overlaps, self._arch = Memory(words.elf), out, words.keep_overlaps, words.arch
        self.names = {symbol.address: symbol.name for symbol in self.elf.symbols()}
        self.names.setdefault(self.elf.entry, b"")
        self.added: Dict[int, Entry] = {}
        # Names that say more than those that a source gives.
        self.better_names: Dict[int, bytes] = {}
        self.declaring = Declaring(self.elf)
        # The functions that are declared not to return, with the source of each.
        self.staying: Dict[int, str] = {}
        # The source of each entry, and the jumps of declared tables whose end a bound test shows.
        self.sources: Dict[int, str] = {}
        self.tested: Set[int] = set()
        self.left_out: Dict[str, Dict[str, Set[int]]] = {}
        self._rounds, self._offered = 0, 0
        # The entry that was tried last, after how many others, and what it would reach.
        self._trial: Optional[Tuple[int, int, Optional[List[Tuple[int, Insn]]]]]
        self._progress, self._growing = Progress(self._far), Growing()
        with cfg_report.opened(words.elf) as stream:
            self.first = self._take(self._growing.read(stream))
        if self._arch is not None:
            # What was read without these extensions is read again.
            self.elf.extensions = architecture.names(self._arch)  # type: ignore[misc]
            self.reached = Reached(self.elf, self.report)

    def _take(self, report: Report) -> Report:
        self.report = report.want("graph")
        self.reached = Reached(self.elf, report, getattr(self, "reached", None), self._growing.changes)
        self.reached.staying |= self.staying.keys()
        self._trial = None
        # What is likely to be reached by the entries that were added since.
        self.fresh: List[List[Tuple[int, Insn]]] = []
        self.entries = {function.entry for function in report.functions}
        self._known = self.entries | self.names.keys()
        return report

    @functools.cached_property
    def frames(self) -> List[Frame]:
        return frames(self.elf)

    def again(self) -> None:
        """Writes the file with what was added, and sees what is reached now."""
        self._out.write(with_symbols(self.elf, self.added.values(), self._arch, self.declaring.additions(), sorted(self.staying)))
        with cfg_report.naming(self.elf.path), cfg_report.opened(self._out.path) as stream:
            self._take(self._growing.read(stream))
        self._rounds += 1
        self._progress.step()

    def _far(self) -> str:
        """How far it is, in words."""
        counts = f"{self._offered} addresses looked at, {len(self.added)} entries added, {len(self.report.blocks)} blocks reached"
        return f"round {self._rounds + 1}: {counts}"

    def offer(self, source: str, address: int, name: bytes, size: int = 0, guess: bool = False) -> bool:
        """Adds an entry, where it is one. A guess must also read as code."""
        self._offered += 1
        self._progress.step()
        why = self._why_not(address, guess)
        if why is not None:
            self.left_out.setdefault(source, {}).setdefault(why, set()).add(address)
            return False
        found = self._tried(address)
        name = self.better_names.get(address, name)
        self.added[address] = Entry(address, name, size)
        self.names[address] = name
        self._known.add(address)
        self.sources[address] = source
        if found is not None:
            self.reached.keep(found)
            self.fresh.append(found)
        return True

    def _why_not(self, address: int, guess: bool) -> Optional[str]:
        if not self.elf.is_code(address):
            return NO_CODE
        if address in self.names:
            return KNOWN
        if not self._keep_overlaps and self.reached.overlaps(address):
            return OVERLAP
        if self.reached.is_padding(address, self._known):
            return PADDING
        if guess and self._tried(address) is None:
            return UNFIT
        return None

    def declare(self, source: str, table: Wanted) -> None:
        """Declares a table, unless a list has one of the same jump."""
        if source == "tables" or self.declaring.sources.get(table.jump) != "tables":
            self.declaring.put(source, table)

    def stay(self, source: str, address: int) -> None:
        """Declares that a function does not return, unless `cfg` knows."""
        if self.elf.is_code(address) and address not in no_return.that_cfg_knows(self.elf):
            self.staying.setdefault(address, source)
        elif not self.elf.is_code(address):
            self.left_out.setdefault(source, {}).setdefault(NO_CODE, set()).add(address)

    def jumps_with_table(self) -> Set[int]:
        """The last instructions of the blocks that end with a table."""
        return {self.reached.instructions(block)[-1][0] for block in self.report.blocks.values() if block.kind in cfg_report.TABLE_KINDS}

    @property
    def given(self) -> Counts[str]:
        """How many entries each source gave."""
        return Counter(self.sources.values())

    def drop(self, addresses: Iterable[int]) -> Dict[int, Tuple[Entry, str]]:
        """Takes entries back, and answers what `restore` needs."""
        found = {address: (self.added.pop(address), self.sources.pop(address)) for address in addresses}
        for address in found:
            del self.names[address]
        return found

    def restore(self, dropped: Dict[int, Tuple[Entry, str]]) -> None:
        for address, (entry, source) in dropped.items():
            self.added[address], self.sources[address], self.names[address] = entry, source, entry.name

    def size(self) -> Tuple[int, int]:
        """What grows whenever something is added."""
        return len(self.added), self.declaring.changes + len(self.staying)

    def _tried(self, address: int) -> Optional[List[Tuple[int, Insn]]]:
        """What an entry would reach, which is asked of a guess twice."""
        if self._trial is None or self._trial[:2] != (address, len(self.added)):
            self._trial = address, len(self.added), self.reached.trial(address)
        return self._trial[2]


def named(source: str, address: int) -> bytes:
    return f"entry_{source}_{address:x}".encode()
