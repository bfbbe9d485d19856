"""Why functions do not return by a report, and which of them may return after all.

A function is `no-return` if each way from its entry ends in a loop, in a `stop`, or in a call that does not return. That
is not to be relied on if such an end is one of these, which the scripts call doubtful:

- an instruction that is not decoded, as one of an extension that the file does not name;
- WFI, MRET, SRET or SFENCE.VMA, after which control does go on, there or elsewhere;
- the code of Go's `morestack` and `mcall`, which come back to their callers by ways of their own;
- an end of the code.

What may be false by one of them is every function that may return if they did, through calls and tail calls. A call of
`_Unwind_Resume`, `longjmp` and their like does not come back, nor does one of a function that the file declares so.
"""

from __future__ import annotations

from typing import Dict, Iterator, List, NamedTuple, Optional, Set, Tuple

from cfgtools.elf.elf_file import Elf
from cfgtools.elf.no_return import COME_BACK, by_name, declared
from cfgtools.explain.values import Code
from cfgtools.isa import extensions
from cfgtools.isa.instructions import UNIMP
from cfgtools.reports.body import Body
from cfgtools.reports.cfg_report import Block, Edge, Function, Item, Report, function_name

STAYS, NAMED = "which does not return", "which by its name does not come back"
DECLARED = "which does not return, as the file declares"
OF_ITS_OWN = "which comes back by ways of its own"
# Instructions of privileged modes that are not decoded, and after which control goes on to the next one.
GOES_ON = ("wfi", "sfence.vma")
# How many calls a chain of reasons names before it is cut short, and how many reasons are given of one function.
LONGEST, MOST = 6, 6


class Doubt(NamedTuple):
    """Why a `no-return` may be false: the function whose end is doubtful, the address, and what is there in words."""

    function: int
    at: int
    what: str


def undecoded(code: Code, block: Block) -> Optional[Tuple[int, int]]:
    """The address and the word of the instruction of a block of kind `stop` that is not decoded, if that is its end. By the
    reckoning of `cfg` it has two bytes."""
    if block.kind != "stop" or code.last(block) is not None:
        return None
    at = block.end - 2
    half = int.from_bytes(code.elf.bytes_at(at, block.end) or b"", "little")
    word = int.from_bytes(code.elf.bytes_at(at, at + 4) or b"", "little")
    word = word if half & 3 == 3 and word else half
    return None if word in (0, UNIMP) else (at, word)


def end_of_stop(code: Code, block: Block) -> Optional[str]:
    """What is doubtful of the end of a block of kind `stop`: nothing of EBREAK and `unimp`."""
    found = undecoded(code, block)
    if found is not None:
        told = extensions.told(found[1])
        return f"the instruction at {found[0]:x} is not decoded ({extensions.shown(found[1])}{f', {told}' if told else ''})"
    last = code.last(block)
    return f"the code ends at {block.end:x}" if last is not None and last.is_straight else None


class Staying:
    """The functions of a report that do not return, and why."""

    def __init__(self, report: Report, elf: Optional[Elf] = None) -> None:
        self.report, self.elf = report, elf
        self.code = Code(elf, report) if elf else None
        self.functions = {function.entry: function for function in report.functions}
        # Of functions after whose calls no edge leads on, whatever they do: what says so.
        self._said: Dict[int, str] = {**dict.fromkeys(declared(elf), DECLARED), **dict.fromkeys(by_name(elf), NAMED)} if elf else {}
        self._homes: Dict[int, int] = {}
        for function in report.functions:
            self._homes.update((start, function.entry) for start in function.blocks if start not in self._homes or function.entry <= start)
        self._next: Dict[int, Tuple[Optional[int], Optional[Doubt]]] = {}
        self._follow()

    def name(self, entry: int) -> str:
        function = self.functions.get(entry)
        return function_name(entry, function.name) if function else f"{entry:x}"

    # ---- what may return after all

    def _follow(self) -> None:
        """Finds the blocks from which a doubtful end is reached, each with the next one on the way to it."""
        back: Dict[int, List[int]] = {}
        for edge in self.report.edges:
            if edge.kind != "call" or edge.to not in self._said and not self.returns(edge.source):
                back.setdefault(edge.to, []).append(edge.source)
        left = []
        for start, doubt in self._doubts():
            self._next[start] = None, doubt
            left.append(start)
        for start in left:
            for before in back.get(start, ()):
                if before not in self._next:
                    self._next[before] = start, None
                    left.append(before)

    def returns(self, start: int) -> bool:
        """Whether a block that ends with a call goes on behind it."""
        return any(edge.kind == "after" for edge in self.report.edges_from.get(start, ()))

    def _doubts(self) -> Iterator[Tuple[int, Doubt]]:
        """The blocks whose ends are doubtful."""
        for entry, function in self.functions.items():
            if function.name in COME_BACK and not function.may_return and entry in self.report.blocks:
                yield entry, Doubt(entry, entry, f"it is Go's {COME_BACK[function.name]}, {OF_ITS_OWN}")
        for block in self.report.blocks.values():
            what = self._what(block)
            if what is not None:
                yield block.start, Doubt(self._holder(block.start), block.end - 2, what)

    def _what(self, block: Block) -> Optional[str]:
        return end_of_stop(self.code, block) if self.code is not None and block.kind == "stop" else None

    def _holder(self, start: int) -> int:
        """A function that has a block: the last that begins before it, or any."""
        return self._homes.get(start, start)

    def doubt(self, entry: int) -> Optional[Doubt]:
        """What is doubtful of a function that does not return, if anything is."""
        function = self.functions.get(entry)
        if function is None or function.may_return:
            return None
        found = self._next.get(entry)
        while found is not None and found[0] is not None:
            found = self._next[found[0]]
        return found[1] if found else None

    def chain(self, entry: int) -> List[int]:
        """The functions on the way from one to the end that is doubtful, itself first."""
        found, at = [entry], entry
        while True:
            after = self._next[at][0] if at in self._next else None
            if after is None:
                return found
            if after in self.functions:
                found.append(after)
            at = after

    def doubtful(self) -> Iterator[Tuple[Function, Doubt]]:
        """The functions that may return though the report says that they do not, with why."""
        for function in self.report.functions:
            doubt = self.doubt(function.entry)
            if doubt is not None:
                yield function, doubt

    def why_doubtful(self, entry: int) -> Optional[str]:
        """Why a function may return after all, in words."""
        doubt = self.doubt(entry)
        if doubt is None:
            return None
        chain = [self.name(one) for one in self.chain(entry)[1:]]
        if doubt.function != entry and self.name(doubt.function) not in chain:
            chain.append(self.name(doubt.function))
        if len(chain) > LONGEST:
            chain[LONGEST // 2:-LONGEST // 2] = [".."]
        return (f"through {', '.join(chain)}: " if chain else "") + doubt.what

    # ---- why a function does not return

    def why(self, function: Function) -> List[str]:
        """How the ways of a function end that does not return, and first of all what may be false of that."""
        found: List[str] = []
        doubtful = self.why_doubtful(function.entry)
        for start in function.blocks:
            found += self._end(self.report.blocks[start], function.entry)
        body = Body(self.report, function)
        for loop in body.loops():
            edges = [edge for start in loop.blocks for edge in self.report.edges_from.get(start, [])]
            if loop.depth == 0 and all(edge.kind == "call" or edge.to in loop.blocks for edge in edges):
                found.append(f"loops for ever at {min(loop.entries):x}")
        found = found[:MOST] + ([f"and {len(found) - MOST} more"] if len(found) > MOST else [])
        return ([f"MAY RETURN AFTER ALL, {doubtful}"] if doubtful else []) + found

    def _end(self, block: Block, entry: int) -> Iterator[str]:
        """What ends at a block of a function, or leaves it."""
        start, edges = block.start, self.report.edges_from.get(block.start, [])
        if block.kind == "stop":
            what = end_of_stop(self.code, block) if self.code else None
            yield f"stops at {start:x}" + (f", where {what}" if what else "")
        elif block.kind in ("call", "icall") and all(edge.kind == "call" for edge in edges):
            callee = f"{self.name(edges[0].to)}, {self._said.get(edges[0].to, STAYS)}" if edges else "what is not known"
            yield f"calls {callee}, at {start:x}"
        for edge in edges:
            if edge.kind != "call" and edge.to in self.functions and edge.to != entry:
                yield f"goes on to {self.name(edge.to)}, which does not return, at {start:x}"


class Kept:
    """The part of a report that tells why functions do not return, taken from it item by item: such functions, their blocks and
    the edges from them."""

    def __init__(self) -> None:
        self._items: List[Item] = []
        self._blocks: Set[int] = set()

    def see(self, item: Item) -> None:
        if isinstance(item, Function) and not item.may_return:
            self._items.append(item)
            self._blocks.update(item.blocks)
        elif isinstance(item, Block) and item.start in self._blocks or isinstance(item, Edge) and item.source in self._blocks:
            self._items.append(item)

    def staying(self, elf: Optional[Elf]) -> Staying:
        report = Report(self._items)
        report.kind = "graph"
        return Staying(report, elf)


# ---- what to do about it


def behind(staying: Staying, callee: Optional[int] = None) -> Iterator[int]:
    """The places at which control goes on though the report does not say so: after each call of a function that has no edge
    `after`; or, without one, after WFI and SFENCE.VMA."""
    for block in staying.report.blocks.values():
        if block.kind == "call" and not staying.returns(block.start):
            to = next(edge.to for edge in staying.report.edges_from[block.start])
            if to == callee:
                yield block.end
        elif block.kind == "stop" and callee is None and staying.code is not None:
            found = undecoded(staying.code, block)
            if found is not None and extensions.privileged(found[1]) in GOES_ON:
                yield found[0] + 4


def advice(staying: Staying, architecture: str) -> List[str]:
    """What to do about functions of which it is doubtful that they do not return, as commands, a line each. The text of an
    architecture is given that names all that is decoded nowhere."""
    doubts = [doubt for _, doubt in staying.doubtful()]
    path = staying.elf.path if staying.elf else "ELF"
    found = []
    if any(OF_ITS_OWN in doubt.what or _is_passed(doubt) for doubt in doubts):
        found.append(f"tools/add_entries {path} -o more.elf --after")
    if any("of the extension" in doubt.what for doubt in doubts):
        found.append(f"tools/add_entries {path} -o more.elf --arch {architecture}")
    return found


def _is_passed(doubt: Doubt) -> bool:
    """Whether it is an instruction after which control goes on."""
    return any(f" {name}, of a privileged mode" in doubt.what for name in GOES_ON)
