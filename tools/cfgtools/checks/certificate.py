"""Certificates of a control-flow graph, and what makes one valid, by objdump's listing and plain Python.

A certificate has one part, which lists addresses: each terminator that returns, and each leader (an address where a block
starts), both with a rank and a reason. A reason rests on other listed addresses of lower rank. So what is listed is true, and
what is true is listed if nothing more follows from the list. It is of the program under the cuts of its jump tables. A text
may have a second part; no certificate that has one is valid.
"""

from __future__ import annotations

import contextlib
import re
import subprocess
import sys
from typing import BinaryIO, Dict, Iterator, List, NamedTuple, NoReturn, Optional, Sequence, Set, Tuple, Union

from cfgtools.checks.listing import Flow, Listing
from cfgtools.checks.pattern_tables import Tables
from cfgtools.elf.table_patterns import Table, cuts
from cfgtools.reports.cfg_report import Block, Edge, ReportError, program_of

FIRST_LINE = b"cfg-cert 1\n"
MOST_RANK = 2**64 - 1


class Return(NamedTuple):
    """A terminator that returns: by itself, `self`; since the successor `to` does; or as a `call` whose two ways do."""

    at: int
    rank: int
    why: str
    to: int = 0


class Lead(NamedTuple):
    """A leader: a `seed`; one that the block of the lead `first` leads to, `from`; or one where two streams `join`, one of
    which comes from `first` with two bytes and the other from `second` with four."""

    at: int
    rank: int
    why: str
    first: int = 0
    second: int = 0


class Part(NamedTuple):
    """The lines of a part, in their order."""

    returns: Tuple[Return, ...]
    leads: Tuple[Lead, ...]


class Certificate(NamedTuple):
    part: Part
    second: Optional[Part] = None


# ---- where one comes from


@contextlib.contextmanager
def opened(path: Optional[str], elf: str) -> Iterator[BinaryIO]:
    """The stream of a certificate: of a file, of standard input for `-`, or of what `cfg_check` makes."""
    if path == "-":
        yield sys.stdin.buffer
    elif path is not None:
        with open(path, "rb") as stream:
            yield stream
    else:
        program = program_of("cfg_check")
        with subprocess.Popen([program, "make", elf], stdout=subprocess.PIPE) as run:
            assert run.stdout is not None
            yield run.stdout  # type: ignore[misc]
        if run.returncode:
            raise ReportError(f"{program} ended with status {run.returncode}")


# ---- the text


class NoCertificate(ReportError):
    """A text that is none of a certificate."""


_HEX, _RANK = rb"([0-9a-f]{16})", rb"(0|[1-9][0-9]*)"
_RETURN = re.compile(rb"ret " + _HEX + rb" " + _RANK + rb"(?: (self|call)| to " + _HEX + rb")\n")
_LEAD = re.compile(rb"lead " + _HEX + rb" " + _RANK + rb"(?: (seed)| from " + _HEX + rb"| join " + _HEX + rb" " + _HEX + rb")\n")


class _Reader:
    def __init__(self, stream: BinaryIO) -> None:
        self._stream = stream
        self.number = 0
        self.line = b""
        self.next()

    def next(self) -> None:
        self.number += 1
        self.line = self._stream.readline()

    def take(self, line: bytes) -> None:
        if self.line != line:
            self.fail(f"here should be the line `{line.decode().strip()}`")
        self.next()

    def fail(self, why: str) -> NoReturn:
        raise NoCertificate(f"line {self.number}: {why}")

    def part(self) -> Part:
        return Part(tuple(self._returns()), tuple(self._leads()))

    def _rank(self, digits: bytes) -> int:
        if int(digits) > MOST_RANK:
            self.fail("a rank of 2^64 or more")
        return int(digits)

    def _rising(self, at: int, before: int) -> int:
        if at <= before:
            self.fail("the addresses of a list rise, each there once")
        return at

    def _returns(self) -> Iterator[Return]:
        before = -1
        while self.line.startswith(b"ret "):
            found = _RETURN.fullmatch(self.line) or self.fail("no line `ret ADDRESS RANK self`, `.. to ADDRESS` or `.. call`")
            before = self._rising(int(found[1], 16), before)
            why = found[3].decode() if found[3] else "to"
            yield Return(before, self._rank(found[2]), why, int(found[4] or b"0", 16))
            self.next()

    def _leads(self) -> Iterator[Lead]:
        before = -1
        while self.line.startswith(b"lead "):
            found = _LEAD.fullmatch(self.line) or self.fail("no line `lead ADDRESS RANK seed`, `.. from ADDRESS` or `.. join ADDRESS ADDRESS`")
            before = self._rising(int(found[1], 16), before)
            why = "seed" if found[3] else "from" if found[4] else "join"
            yield Lead(before, self._rank(found[2]), why, int(found[4] or found[5] or b"0", 16), int(found[6] or b"0", 16))
            self.next()


def read(stream: BinaryIO) -> Certificate:
    """The certificate that a text is."""
    reader = _Reader(stream)
    reader.take(FIRST_LINE)
    reader.take(b"part none\n")
    part, second = reader.part(), None
    if reader.line == b"part cuts\n":
        reader.next()
        second = reader.part()
    reader.take(b"end\n")
    if reader.line:
        reader.fail("the certificate has ended, and here is another line")
    return Certificate(part, second)


def text(certificate: Certificate) -> str:
    """The text of a certificate."""
    lines = ["cfg-cert 1"]
    for name, part in (("none", certificate.part), ("cuts", certificate.second)):
        if part is not None:
            lines.append(f"part {name}")
            lines += [f"ret {one.at:016x} {one.rank} {f'to {one.to:016x}' if one.why == 'to' else one.why}" for one in part.returns]
            lines += [f"lead {one.at:016x} {one.rank} {_reason(one)}" for one in part.leads]
    return "".join(line + "\n" for line in [*lines, "end"])


def _reason(one: Lead) -> str:
    return {"seed": "seed", "from": f"from {one.first:016x}", "join": f"join {one.first:016x} {one.second:016x}"}[one.why]


# ---- the program


class Program:
    """The program of a listing under cuts of its jump tables: where instructions send control, and chains, the runs in which
    control goes straight on."""

    def __init__(self, listing: Listing, tables: Tables, kept: Dict[int, int]) -> None:
        self.listing, self.seeds = listing, sorted(listing.seeds)
        self._tables, self._kept = tables, kept
        self._flows: Dict[int, Flow] = {}
        self._terms: Dict[int, int] = {}

    def is_code(self, at: int) -> bool:
        return self.listing.code(at) is not None

    def flow(self, at: int) -> Flow:
        if at not in self._flows:
            flow = self.listing.flow_at(at)
            table = self.table(at) if flow.kind == "unknown" else None
            self._flows[at] = Flow("table", targets=tuple(table.targets[:self._kept.get(at)])) if table else flow
        return self._flows[at]

    def table(self, at: int) -> Optional[Table]:
        """The jump table of an instruction, whole."""
        register = self.listing.register_alone(at)
        return self._tables.table(at, register) if register else None

    def length(self, at: int) -> int:
        return self.listing.line(at).length

    def next(self, at: int) -> Optional[int]:
        """The address after an instruction that goes straight on."""
        flow = self.flow(at)
        return flow.fall if flow.kind == "fall" else None

    def term(self, start: int) -> int:
        """The terminator of the chain of an address: its last one."""
        passed: List[int] = []
        at = start
        while at not in self._terms:
            passed.append(at)
            after = self.next(at)
            if after is None:
                self._terms[at] = at
                break
            at = after
        found = self._terms[at]
        self._terms.update(dict.fromkeys(passed, found))
        return found

    def is_on_chain(self, start: int, at: int) -> bool:
        """Whether an address is on the chain of another. Chains only go up."""
        place: Optional[int] = start
        while place is not None and place < at:
            place = self.next(place)
        return place == at

    def successors(self, term: int) -> Tuple[int, ...]:
        """Where control goes from an instruction within its function, but for the way after a known call."""
        flow = self.flow(term)
        if flow.kind == "table":
            return flow.targets
        ways = (flow.pad,) if flow.kind == "call" else (flow.to, flow.fall, flow.pad)
        return tuple(way for way in ways if way is not None)

    def targets(self, term: int) -> Tuple[int, ...]:
        """The successors of an instruction, and the target of a call."""
        flow = self.flow(term)
        return (*((flow.to,) if flow.kind == "call" and flow.to is not None else ()), *self.successors(term))

    def returns_by_itself(self, term: int) -> bool:
        return self.flow(term).kind in ("return", "unknown", "branch-out")

    def call(self, term: int) -> Optional[Tuple[int, Optional[int]]]:
        """The target of a call of a known address, and where it returns to."""
        flow = self.flow(term)
        return (flow.to, flow.fall) if flow.kind == "call" and flow.to is not None else None


def cut_program(listing: Listing) -> Program:
    """The program of a listing under the cuts of its jump tables: each of the code's tables counts."""
    tables = Tables(listing)
    return Program(listing, tables, cuts(tables.everywhere()))


# ---- what makes a certificate valid


def faults(listing: Listing, certificate: Certificate) -> Iterator[str]:
    """What is wrong with a certificate of a file."""
    if certificate.second is not None:
        yield "there is a second part"
    yield from part_faults(cut_program(listing), certificate.part)


def part_faults(program: Program, part: Part) -> Iterator[str]:
    """What is wrong with a part, by six items; each is asked of every line."""
    lists: Tuple[Tuple[str, Sequence[Union[Return, Lead]]], ...] = (("ret", part.returns), ("lead", part.leads))
    for name, lines in lists:
        at = [one.at for one in lines]
        if at != sorted(set(at)):
            yield f"the lines `{name}` do not rise"
        yield from (f"{name} {one:x}: no code address" for one in at if not program.is_code(one))
    check = _Check(program, part)
    # What is no code has no chain to follow.
    if all(program.is_code(one.at) for _, lines in lists for one in lines):
        yield from check.faults()


class _Check:
    def __init__(self, program: Program, part: Part) -> None:
        self.program, self.part = program, part
        self.leads = {one.at: one for one in part.leads}
        self.returns = {one.at: one for one in part.returns}

    def faults(self) -> Iterator[str]:
        yield from (f"the seed {seed:x} is no lead" for seed in self.program.seeds if seed not in self.leads)
        for lead in self.part.leads:
            yield from (f"lead {lead.at:x}: {why}" for why in self._wrong_reason(lead))
            yield from (f"lead {lead.at:x}: {why}" for why in self._missing_ways(lead))
        yield from self._shared()
        terms = {self.program.term(lead.at) for lead in self.part.leads}
        for one in self.part.returns:
            if one.at not in terms:
                yield f"ret {one.at:x}: no lead's chain ends there"
            yield from (f"ret {one.at:x}: {why}" for why in self._wrong_return(one))
        for term in sorted(terms - self.returns.keys()):
            yield from (f"{term:x} returns, {why}, and is not listed" for why in self._missed_return(term))

    def _term_rank(self, at: int) -> Optional[int]:
        """The rank of the terminator of an address, if it is listed."""
        found = self.returns.get(self.program.term(at)) if self.program.is_code(at) else None
        return found.rank if found else None

    # ---- leads

    def _ways(self, term: int) -> Tuple[int, ...]:
        """What the block with a terminator leads to: its targets, and the fall of a call that is listed to return."""
        targets, call = self.program.targets(term), self.program.call(term)
        if call is None or call[1] is None or self._term_rank(call[0]) is None:
            return targets
        return (*targets, call[1])

    def _wrong_reason(self, lead: Lead) -> Iterator[str]:
        if lead.why == "seed":
            if lead.at not in self.program.seeds:
                yield "no seed"
            return
        for premise in (lead.first, lead.second) if lead.why == "join" else (lead.first,):
            if premise not in self.leads:
                yield f"{premise:x} is no lead"
                return
            if self.leads[premise].rank >= lead.rank:
                yield f"the rank of {premise:x} is not lower"
        if lead.why == "from":
            if lead.at not in self._ways(self.program.term(lead.first)):
                yield f"the chain of {lead.first:x} does not lead there"
            return
        for start, length in ((lead.first, 2), (lead.second, 4)):
            at = lead.at - length
            if not self._goes_on(at, lead.at) or not self.program.is_on_chain(start, at):
                yield f"no straight instruction of {length} bytes before it is on the chain of {start:x}"

    def _goes_on(self, at: int, to: int) -> bool:
        return self.program.is_code(at) and self.program.next(at) == to

    def _missing_ways(self, lead: Lead) -> Iterator[str]:
        term = self.program.term(lead.at)
        yield from (f"its way on from {term:x} to {way:x} is no lead" for way in self._ways(term) if way not in self.leads)

    def _shared(self) -> Iterator[str]:
        """Addresses that lie in two blocks."""
        owner: Dict[int, int] = {}
        for lead in self.part.leads:
            at: Optional[int] = lead.at
            while at is not None and (at == lead.at or at not in self.leads):
                if at in owner:
                    yield f"{at:x} lies in the blocks of {owner[at]:x} and {lead.at:x}"
                    break
                owner[at] = lead.at
                at = self.program.next(at)

    # ---- returns

    def _wrong_return(self, one: Return) -> Iterator[str]:
        if one.why == "self":
            if not self.program.returns_by_itself(one.at):
                yield "it does not return by itself"
            return
        call = self.program.call(one.at)
        if one.why == "to":
            premises: Tuple[Optional[int], ...] = (one.to,)
            if one.to not in self.program.successors(one.at):
                yield f"{one.to:x} is no successor"
                return
        elif call is None:
            yield "it is no call of a known address"
            return
        else:
            premises = call
        for premise in premises:
            rank = None if premise is None else self._term_rank(premise)
            if rank is None or rank >= one.rank:
                what = "a way after the call" if premise is None else f"{premise:x}"
                yield f"{what} is not listed to return with a lower rank"

    def _missed_return(self, term: int) -> Iterator[str]:
        call = self.program.call(term)
        if self.program.returns_by_itself(term):
            yield "by itself"
        elif any(self._term_rank(way) is not None for way in self.program.successors(term)):
            yield "since a successor does"
        elif call is not None and call[1] is not None and None not in (self._term_rank(call[0]), self._term_rank(call[1])):
            yield "since it calls what returns, and goes on to what returns"


# ---- the graph that it shows


def graph(program: Program, part: Part) -> Tuple[Set[Block], Set[Edge]]:
    """The blocks and the edges that a valid part shows. Tail calls are jumps here."""
    leads, returns = {lead.at for lead in part.leads}, {one.at for one in part.returns}
    blocks: Set[Block] = set()
    edges: Set[Edge] = set()
    for start in leads:
        at, after = start, program.next(start)
        while after is not None and after not in leads:
            at, after = after, program.next(after)
        blocks.add(Block(start, at + program.length(at), _kind(program, at)))
        edges.update(Edge(start, to, kind) for to, kind in _ways(program, at, returns))
    return blocks, edges


def _kind(program: Program, at: int) -> str:
    """What a block ends with whose last instruction stands at an address."""
    table = program.table(at) if program.flow(at).kind == "table" else None
    if table is None:
        return str(program.flow(at).kind)
    if table.is_open:
        return "table-open"
    return "table" if len(program.flow(at).targets) == table.bound else "table-cut"


def _ways(program: Program, at: int, returns: Set[int]) -> Iterator[Tuple[int, str]]:
    flow = program.flow(at)
    if flow.kind == "table":
        yield from ((to, "table") for to in flow.targets)
    elif flow.kind == "call" and flow.to is not None:
        yield flow.to, "call"
        if flow.fall is not None and program.term(flow.to) in returns:
            yield flow.fall, "after"
        yield from ((to, "landing") for to in (flow.pad,) if to is not None)
    elif flow.kind == "icall":
        yield from ((to, kind) for to, kind in ((flow.fall, "after"), (flow.pad, "landing")) if to is not None)
    else:
        ways = (flow.to, "jump" if flow.kind == "jump" else "taken"), (flow.fall, "fall")
        yield from ((to, kind) for to, kind in ways if to is not None)
