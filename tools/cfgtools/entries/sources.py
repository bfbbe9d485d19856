"""The sources of entries, of tables and of functions that do not return: what the file alone says, and what is seen in the code that is
reached."""

from __future__ import annotations

import argparse
import bisect
import re
from typing import Callable, Dict, Iterator, List, Optional, Tuple, Union

from cfgtools.elf import no_return
from cfgtools.elf.declared_tables import Wanted, jump_register
from cfgtools.elf.elf_file import Elf, Memory
from cfgtools.elf.frames import frames
from cfgtools.elf.stubs import Stub, stubs
from cfgtools.entries.declaring import SwitchTables, TracedTables, listed
from cfgtools.entries.pointers import MadeAddresses, PointersInCode, array_entries, is_text, pointers_in_data
from cfgtools.entries.reached import APART, START
from cfgtools.entries.work import NO_CODE, NO_JUMP, UNFIT, Work, named
from cfgtools.isa import extensions
from cfgtools.reports.cfg_report import ReportError
from cfgtools.runs import traces

# Instructions of privileged modes that are not decoded, and after which control goes on.
GOES_ON = ("wfi", "sfence.vma")


# ---- sources that the file alone tells


def from_frames(work: Work, words: argparse.Namespace) -> None:
    for frame in work.frames:
        # The linker leaves zero in the descriptions of functions that it threw away.
        if frame.start:
            work.offer("eh-frame", frame.start, named("eh", frame.start), frame.size)


def from_arrays(work: Work, words: argparse.Namespace) -> None:
    for address in array_entries(work.elf):
        work.offer("arrays", address, named("array", address))


def from_stubs(work: Work, words: argparse.Namespace) -> None:
    """The stubs of indirect functions, and what answers where they lead. By a trace the places themselves are found."""
    for stub in stubs(work.elf):
        if stub.resolver is not None:
            work.offer("stubs", stub.resolver, named(f"resolver_{stub.title}", stub.resolver))
            work.offer("stubs", stub.address, named(f"stub_{stub.title}", stub.address))


def from_list(work: Work, words: argparse.Namespace) -> None:
    with open(words.list, encoding="utf-8", errors="surrogateescape") as file:
        for number, line in enumerate(file, 1):
            parts = line.split()
            if not parts or parts[0].startswith("#"):
                continue
            if len(parts) > 2 or not re.fullmatch(r"(0x)?[0-9a-fA-F]{1,16}", parts[-1]):
                raise ReportError(f"{words.list}: line {number}: no line `ADDRESS` or `NAME ADDRESS`, with hexadecimal digits")
            address = int(parts[-1], 16)
            name = parts[0].encode("utf-8", "surrogateescape") if len(parts) == 2 else named("list", address)
            work.offer("list", address, name)


def from_tables(work: Work, words: argparse.Namespace) -> None:
    for jump, targets in listed(words.tables).items():
        good = tuple(filter(work.elf.is_code, targets))
        work.left_out.setdefault("tables", {}).setdefault(NO_CODE, set()).update(set(targets) - set(good))
        if jump_register(work.elf, jump) is None:
            work.left_out["tables"].setdefault(NO_JUMP, set()).add(jump)
        else:
            work.declare("tables", Wanted(jump, good))


def from_other(work: Work, words: argparse.Namespace) -> None:
    """The symbols of another build of the same code. Where the code is another, they are left out."""
    other = Memory(getattr(words, "from"))
    for symbol in other.symbols():
        size = max(symbol.size, 4)
        if _code(other, symbol.address, size) == _code(work.elf, symbol.address, size):
            work.offer("from", symbol.address, symbol.name or named("from", symbol.address), symbol.size)
        else:
            work.left_out.setdefault("from", {}).setdefault("other code there", set()).add(symbol.address)


def _code(elf: Memory, address: int, size: int) -> Optional[bytes]:
    section = elf.code_at(address)
    if section is None:
        return None
    at = section.offset + address - section.address
    return elf.data[at:min(at + size, section.offset + section.size)]


def from_no_return(work: Work, words: argparse.Namespace) -> None:
    """What is declared not to return: what is named, or all that the list knows by name."""
    elf = Elf(work.elf.path)
    for wanted in words.no_return:
        if wanted is None:
            for address in no_return.likely(work.elf):
                work.stay("no-return", address)
            continue
        places = elf.addresses_of(wanted)
        if not places and not re.fullmatch(r"(0x)?[0-9a-fA-F]{1,16}", wanted):
            raise ReportError(f"no function of {work.elf.path} has the name {wanted}")
        for address in places or {int(wanted, 16)}:
            work.stay("no-return", address)


# ---- sources that look at what is reached


def known_functions(elf: Memory) -> List[Tuple[int, int]]:
    """The extents of functions that symbols and frame descriptions give, rising."""
    found = {(symbol.address, symbol.address + symbol.size) for symbol in elf.symbols() if symbol.size}
    try:
        found |= {(frame.start, frame.start + frame.size) for frame in frames(elf)}
    except ReportError:
        pass
    return sorted(found)


class Pointers:
    """Addresses of code in data, and those that reached code makes. Many are cases of switches: those inside a function, by the size of
    a symbol or by a frame description, and those that make no room on the stack come late, when no table is found that has them."""

    def __init__(self, work: Work) -> None:
        self._work = work
        self._in_data, self._in_code = pointers_in_data(work.elf), PointersInCode(work.elf)
        self._made = MadeAddresses(work.elf)
        self._known = known_functions(work.elf)
        self._starts = [start for start, _ in self._known]
        self._is_late = False

    def offer_late(self) -> None:
        self._is_late = True
        self.offer()
        self._is_late = False

    def offer(self) -> None:
        work = self._work
        self._made.read(work.reached)
        for address in self._in_data:
            self._one(address, "ptr")
        for address in self._in_code.apart(work.reached):
            self._one(address, "ptr")
        while True:
            for address in self._made.made:
                if address not in self._made.data:
                    self._one(address, "made")
            if not work.fresh:
                break
            while work.fresh:
                self._made.read_listed(work.fresh.pop())

    def _may_be_case(self, address: int) -> bool:
        place = bisect.bisect_right(self._starts, address) - 1
        is_inside = place >= 0 and self._known[place][0] < address < self._known[place][1]
        return is_inside or not self._work.reached.makes_room(address)

    def _one(self, address: int, what: str) -> None:
        work = self._work
        if address in work.names or address in work.entries or not self._is_late and self._may_be_case(address):
            return
        if work.reached.state(address) == START:
            if not self._is_jumped_to(address):
                return
        elif is_text(work.elf, address) or not work.reached.begins(address):
            work.left_out.setdefault("pointers", {}).setdefault(UNFIT, set()).add(address)
            return
        work.offer("pointers", address, named(what, address), guess=True)

    def _is_jumped_to(self, address: int) -> bool:
        """Whether an address, which is no entry, is reached by jumps alone, as a function is to which there are only tail calls."""
        ways = self._work.reached.ways_to.get(address, ())
        return bool(ways) and all(kind == "jump" for _, kind in ways)


class Gaps:
    """Code between what is reached, where it begins right behind what does not run on into it."""

    def __init__(self, work: Work) -> None:
        self._work = work

    def offer(self) -> None:
        for start, end in self._work.reached.gaps():
            at: Optional[int] = start
            while at is not None and at < end:
                at = self._behind(at, end)

    def _behind(self, at: int, end: int) -> Optional[int]:
        """Offers what stands first in a gap, and answers where the gap goes on."""
        reached = self._work.reached
        if reached.state(at) != APART:
            return at + 2
        half = reached.elf.half(at)
        if half in (0, 1) or reached.elf.instruction(at) == 0x13:
            return at + (4 if half == 0x13 else 2)
        if is_text(reached.elf, at) or not reached.begins(at):
            return None
        return at + 2 if self._work.offer("gaps", at, named("gap", at), guess=True) else None


class Trace:
    """Where a run arrived through registers: tables of the jumps that it took, and entries in no block."""

    def __init__(self, work: Work, path: str) -> None:
        self._work = work
        arrivals = traces.arrivals(work.elf, path)
        self._places, self._tables = arrivals.places, TracedTables(work.elf, arrivals.moves)
        found = {stub.jump: stub for stub in stubs(work.elf)}
        came = [(at, to) for at, places in arrivals.moves.items() for to in places] + [(at, to) for to, at in arrivals.places[traces.JUMP].items()]
        self._chosen: Dict[int, Stub] = {to: found[at] for at, to in came if at in found and work.elf.is_code(to)}
        # (pointers may give them before)
        work.better_names.update((address, named(f"target_{stub.title}", address)) for address, stub in self._chosen.items())

    def offer(self) -> None:
        work = self._work
        before, entries = work.size(), sorted(work.entries)
        # What a stub leads to is a function, which its table alone would not make it.
        for address, stub in self._chosen.items():
            if work.reached.state(address) != START:
                work.offer("trace", address, named(f"target_{stub.title}", address))
        for table in self._tables.found(work.reached, work.declaring.tables):
            work.declare("trace", table)
        # What a jump of its own function leads to is reached by its table, most often, and is no entry.
        for is_case in (False, True):
            # A return arrives in a function that most often is found by then.
            for places in self._places:
                if work.size() > before:
                    return
                for address in places:
                    if work.reached.state(address) != START and self._tables.is_case(address, entries) == is_case:
                        work.offer("trace", address, named("trace", address))


class SwitchJumps:
    """The tables of switches that the report has not."""

    def __init__(self, work: Work) -> None:
        self._work, self._tables = work, SwitchTables()

    def offer(self) -> None:
        work = self._work
        for table in self._tables.found(work.reached, work.declaring.tables):
            work.declare("switches", table)
        work.tested |= self._tables.tested


class After:
    """The places after calls of Go's `mcall` and `morestack`, which come back by ways of their own, and after WFI and SFENCE.VMA."""

    def __init__(self, work: Work) -> None:
        self._work = work
        names = no_return.names_of(work.elf)
        self._back = {address for address, every in names.items() if not every.isdisjoint(no_return.COME_BACK)}

    def offer(self) -> None:
        for at in list(self._places()):
            self._work.offer("after", at, named("after", at))

    def _places(self) -> Iterator[int]:
        report, elf = self._work.report, self._work.elf
        for block in report.blocks.values():
            edges = report.edges_from.get(block.start, ())
            if block.kind == "call" and any(edge.to in self._back for edge in edges) and all(edge.kind != "after" for edge in edges):
                yield block.end
            elif block.kind == "stop":
                # (what is not decoded has two bytes by the reckoning of cfg)
                word = elf.instruction(block.end - 2)
                if word is not None and extensions.privileged(word) in GOES_ON:
                    yield block.end + 2


# ---- all of them


def stages(work: Work, words: argparse.Namespace) -> List[List[Callable[[], None]]]:
    """What offers entries again whenever more is reached. Each stage comes when those before it have nothing new."""
    pointers = Pointers(work) if words.pointers else None
    first = [pointers.offer] if pointers else []
    first += [source(work).offer for option, source in AGAIN if getattr(words, option)]
    trace = [Trace(work, words.trace).offer] if words.trace else []
    return [first, trace, [pointers.offer_late] if pointers else [], [Gaps(work).offer] if words.gaps else []]


AGAIN: Tuple[Tuple[str, Callable[[Work], Union[SwitchJumps, After]]], ...] = (("switches", SwitchJumps), ("after", After))
ONCE = (("from", from_other), ("list", from_list), ("tables", from_tables), ("eh_frame", from_frames), ("arrays", from_arrays), ("stubs", from_stubs),
        ("no_return", from_no_return))


def add(work: Work, words: argparse.Namespace) -> None:
    for option, source in ONCE:
        if getattr(words, option):
            source(work, words)
    work.again()
    again = stages(work, words)
    while any(is_new(work, offers) for offers in again):
        work.again()


def is_new(work: Work, offers: List[Callable[[], None]]) -> bool:
    """Whether some of these add an entry or declare a table."""
    before = work.size()
    for offer in offers:
        offer()
    return work.size() > before
