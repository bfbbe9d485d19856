"""Certificates by a naive maker: rounds over all that is known, until nothing new is found."""

from __future__ import annotations

from typing import Dict, List, Optional, Set

import rows
from cfgtools.checks.certificate import Certificate, Lead, Part, Program, Return, cut_program
from cfgtools.checks.listing import Listing

# (it puts the folder of the scripts on the path)
assert rows.TOOLS


def made(path: str) -> Certificate:
    """A certificate of a file, with least ranks."""
    return Certificate(made_part(cut_program(Listing(path))))


def made_part(program: Program) -> Part:
    leads, returns = _closure(program)
    return Part(tuple(_returns(program, returns)), tuple(_leads(program, leads, returns)))


def _ways(program: Program, start: int, returns: Set[int]) -> List[int]:
    term = program.term(start)
    found, call = list(program.targets(term)), program.call(term)
    if call is not None and call[1] is not None and program.term(call[0]) in returns:
        found.append(call[1])
    return found


def _closure(program: Program) -> "tuple[Set[int], Set[int]]":
    """All leads, and all terminators of theirs that return."""
    leads, returns = set(program.seeds), set()  # type: Set[int], Set[int]
    while True:
        before = len(leads), len(returns)
        reached = set()
        for start in sorted(leads):
            leads.update(_ways(program, start, returns))
            at: Optional[int] = start
            while at is not None and at not in reached:
                reached.add(at)
                at = program.next(at)
        leads.update(at for at in [program.next(one) for one in reached] if at is not None and {at - 2, at - 4} <= reached
                     and program.next(at - 2) == at == program.next(at - 4))
        returns.update(term for term in map(program.term, leads) if _reason(program, term, returns) is not None)
        if (len(leads), len(returns)) == before:
            return leads, returns


def _reason(program: Program, term: int, known: Set[int]) -> Optional[Return]:
    """Why a terminator returns if these do, with no rank."""
    if program.returns_by_itself(term):
        return Return(term, 0, "self")
    for way in sorted(program.successors(term)):
        if program.term(way) in known:
            return Return(term, 0, "to", way)
    call = program.call(term)
    if call is not None and call[1] is not None and {program.term(call[0]), program.term(call[1])} <= known:
        return Return(term, 0, "call")
    return None


def _returns(program: Program, returns: Set[int]) -> List[Return]:
    found: Dict[int, Return] = {}
    rank = 0
    while len(found) < len(returns):
        # Those of rank 0 rest on nothing.
        reasons = [_reason(program, term, set(found)) for term in returns - found.keys()]
        new = [one for one in reasons if one is not None and (rank or one.why == "self")]
        found.update((one.at, one._replace(rank=rank)) for one in new)
        rank += 1
    return [found[at] for at in sorted(found)]


def _leads(program: Program, leads: Set[int], returns: Set[int]) -> List[Lead]:
    found = {seed: Lead(seed, 0, "seed") for seed in program.seeds}
    rank = 0
    while len(found) < len(leads):
        rank += 1
        new: Dict[int, Lead] = {}
        for start in sorted(found):
            for way in _ways(program, start, returns):
                if way not in found:
                    new.setdefault(way, Lead(way, rank, "from", start))
        for at in leads - found.keys() - new.keys():
            sides = [_upstream(program, at, length, found) for length in (2, 4)]
            if None not in sides:
                new[at] = Lead(at, rank, "join", sides[0] or 0, sides[1] or 0)
        found.update(new)
    return [found[at] for at in sorted(found)]


def _upstream(program: Program, at: int, length: int, found: Dict[int, Lead]) -> Optional[int]:
    """The least known lead whose chain has the straight instruction of a length before an address."""
    if not program.is_code(at - length) or program.next(at - length) != at:
        return None
    return next((start for start in sorted(found) if program.is_on_chain(start, at - length)), None)
