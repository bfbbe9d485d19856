"""Reads the reports of `cfg`, of every kind, and checks them as it reads.

There are two ways to read. `read(stream)` gives the heading, each function, block and edge, the live registers of each
function, and the end of a report one by one, and keeps none of them, so that a report of any size can be read. `load(stream)`
keeps all of them in one `Report`. Both raise `ReportError`, with the number of the line, where the text is no report by
docs/REPORT.md. `opened(path)` gives the stream: of a report, of standard input for `-`, or of what `cfg` says of an ELF
file. Where another kind than `graph` is wanted of an ELF file, it is named. `write(report, file)` writes a report. `run` is
what scripts begin with. `tools/check_report` is the script that checks a report.
"""

from __future__ import annotations

import contextlib
import os
import re
import shutil
import subprocess
import sys
from typing import BinaryIO, Callable, Dict, Iterable, Iterator, List, NamedTuple, NoReturn, Optional, Set, Tuple, Union

from cfgtools.reports import names, progress

TOP = os.path.abspath(os.path.join(os.path.dirname(__file__), "..", "..", ".."))
# A text that has an edge of the kind `landing` is of version 3, and any other of version 2.
FIRST_LINE, WITH_LANDINGS = b"cfg-report 2\n", b"cfg-report 3\n"

BLOCK_KINDS = (
    "fall", "branch", "branch-out", "jump", "call", "icall", "return", "table", "table-cut", "table-open", "unknown",
    "stop",
)
# Those that end with a jump through a jump table.
TABLE_KINDS = ("table", "table-cut", "table-open")
# In the order in which a report has the edges of one block to one other.
EDGE_KINDS = ("fall", "taken", "jump", "tail", "call", "after", "table", "landing")
# A kind that files of edges have, and no report: a call or jump through a register that may lead there. It leads to functions.
GUESS = "guess"
REPORT_KINDS = ("graph", "functions", "blocks", "edges", "live")

# Whether a block that ends in this way may have edges of just these kinds.
EDGES_OF: Dict[str, Callable[[List[str]], bool]] = {
    "fall": lambda kinds: kinds == ["fall"],
    "branch": lambda kinds: sorted(kinds) == ["fall", "taken"],
    "branch-out": lambda kinds: kinds in ([], ["fall"], ["taken"]),
    "jump": lambda kinds: kinds in (["jump"], ["tail"]),
    "call": lambda kinds: "call" in kinds and sorted(kinds) == sorted({*kinds} & {"call", "after", "landing"}),
    "icall": lambda kinds: sorted(kinds) == sorted({*kinds} & {"after", "landing"}),
    "return": lambda kinds: not kinds,
    **{kind: lambda kinds: set(kinds) == {"table"} for kind in TABLE_KINDS},
    "unknown": lambda kinds: not kinds,
    "stop": lambda kinds: not kinds,
}
LEAVES_FUNCTION = ("return", "unknown", "branch-out")


class ReportError(Exception):
    """A text that is no report, or a report that cannot be had."""


class Heading(NamedTuple):
    """The first two lines: where the program starts."""

    entry: int


class Function(NamedTuple):
    """A function, with the starts of the blocks of its body, rising. `name` is None where it has none."""

    entry: int
    may_return: bool
    name: Optional[bytes]
    blocks: Tuple[int, ...]


class Block(NamedTuple):
    """A basic block, from its start up to, and without, its end."""

    start: int
    end: int
    kind: str


class Edge(NamedTuple):
    """A way from the block that starts at `source` to the one that starts at `to`."""

    source: int
    to: int
    kind: str


class Live(NamedTuple):
    """The registers that are live at a block: xr is, where bit r of the mask is set."""

    block: int
    mask: int


class Lives(NamedTuple):
    """The live registers of a function: for each block of its body, rising. It comes right behind its function."""

    entry: int
    blocks: Tuple[Live, ...]


class End(NamedTuple):
    """The last line, behind which it is known of what kind the report is."""

    kind: str


Item = Union[Heading, Function, Block, Edge, Lives, End]


# ---- names and addresses

_ESCAPE = re.compile(rb"\\\\|\\x([0-9a-f]{2})")
_NAME = re.compile(rb"(?:[!-\[\]-~]|\\\\|\\x[0-9a-f]{2})+")


def name_field(name: Optional[bytes]) -> str:
    """The field that a report has for a name."""
    if name is None:
        return "-"
    if name == b"-":
        return "\\x2d"
    return "".join("\\\\" if byte == 0x5C else chr(byte) if 0x21 <= byte <= 0x7E else f"\\x{byte:02x}" for byte in name)


def read_name(field: bytes) -> Optional[bytes]:
    """The name that a field stands for. The field must be one that `name_field` writes."""
    if field == b"-":
        return None
    if not _NAME.fullmatch(field):
        raise ValueError(f"`{_shown(field)}` is no name: a byte that is not visible, or an escape that is none")
    if b"\\" not in field:
        return field
    name = _ESCAPE.sub(lambda found: bytes([int(found[1], 16)]) if found[1] else b"\\", field)
    if name_field(name).encode() != field:
        raise ValueError(f"`{_shown(field)}` has an escape for a byte that stands for itself")
    return name


def address(value: int) -> str:
    """An address as a report has it."""
    return f"{value:016x}"


def function_name(entry: int, name: Optional[bytes]) -> str:
    """What to call a function: its name, or its address."""
    return f"{entry:x}" if name is None else names.shown(name_field(name))


def _shown(line: bytes) -> str:
    text = line.rstrip(b"\n").decode("ascii", "backslashreplace")
    return text if len(text) <= 80 else text[:77] + "..."


# ---- reading

_HEX = rb"([0-9a-f]{16})"
_COUNT = rb"(0|[1-9][0-9]*)"


_Form = Callable[[bytes], Optional["re.Match[bytes]"]]


def _line(*fields: bytes) -> _Form:
    return re.compile(b" ".join(fields) + b"\n").fullmatch


def _one_of(words: Tuple[str, ...]) -> bytes:
    return b"(" + "|".join(sorted(words, key=len, reverse=True)).encode() + b")"


_ENTRY = _line(rb"entry", _HEX)
_SECTION = {name: _line(name.encode(), _COUNT) for name in ("functions", "blocks", "edges", "lives")}
_FUNCTION = _line(rb"function", _HEX, rb"(may-return|no-return)", _COUNT, rb"([^ \n]+)")
_IN = _line(rb"in", _HEX)
_BLOCK = _line(rb"block", _HEX, _HEX, _one_of(BLOCK_KINDS))
_EDGE = _line(rb"edge", _HEX, _HEX, _one_of(EDGE_KINDS))
_LIVE = _line(rb"live", _HEX, rb"([0-9a-f]{8})")

_FORMS = {
    "entry": "entry ADDRESS",
    "functions": "functions COUNT",
    "blocks": "blocks COUNT",
    "edges": "edges COUNT",
    "lives": "lives COUNT",
    "function": "function ENTRY STATUS COUNT NAME",
    "in": "in BLOCK",
    "block": "block START END KIND",
    "edge": "edge FROM TO KIND",
    "live": "live BLOCK MASK",
    "end": "end",
}
_WORDS = {"STATUS": ("may-return", "no-return"), "block KIND": BLOCK_KINDS, "edge KIND": EDGE_KINDS}


def _wrong_field(form: str, place: str, field: bytes) -> Optional[str]:
    """What is wrong with one field of a line, if anything is."""
    words = _WORDS.get(place) or _WORDS.get(f"{form} {place}")
    if not field:
        return "a field is empty: there is exactly one space between two fields"
    if words:
        return None if field.decode("latin-1") in words else f"`{_shown(field)}` is not one of {', '.join(words)}"
    if place == "COUNT":
        return None if re.fullmatch(_COUNT, field) else f"`{_shown(field)}` is no count"
    if place == "NAME":
        return None
    if place == "MASK":
        is_mask = re.fullmatch(rb"[0-9a-f]{8}", field)
        return None if is_mask else f"`{_shown(field)}` is no mask of eight hexadecimal digits, in lower case"
    if re.fullmatch(_HEX, field):
        return None
    return f"`{_shown(field)}` is no address of sixteen hexadecimal digits, in lower case"


def _wrong_line(form: str, line: bytes) -> str:
    """What is wrong with a line that should have this form."""
    if not line:
        return f"the report ends here, where a line `{_FORMS[form]}` should be: it was cut off"
    if not line.endswith(b"\n"):
        return f"the line `{_shown(line)}` has no newline at its end: the report was cut off"
    places, fields = _FORMS[form].split(" "), line[:-1].split(b" ")
    if fields[0].decode("latin-1") != places[0] or len(fields) != len(places):
        return f"here should be a line `{_FORMS[form]}`, and is `{_shown(line)}`"
    for place, field in zip(places[1:], fields[1:]):
        wrong = _wrong_field(form, place, field)
        if wrong:
            return wrong
    return f"`{_shown(line)}` is no line `{_FORMS[form]}`"


class Reader:
    """Reads one report from a stream of bytes. `line` is the number of the line that was read last."""

    def __init__(self, stream: BinaryIO) -> None:
        self._stream = stream
        self.line = 0
        # Whether edges may be of the kind `landing`, and whether one is still to come.
        self._may_land = self._is_landing_due = False

    def items(self) -> Iterator[Item]:
        """All that the report has, in its order."""
        heading = self._heading()
        yield heading
        line = self._next()
        kind = "graph"
        if line.startswith(b"lives"):
            kind = "live"
            yield from self._functions(self._count("lives", line), heading.entry, self._with_masks)
            line = self._next()
        elif line.startswith(b"functions"):
            yield from self._functions(self._count("functions", line), heading.entry, self._with_body)
            line = self._next()
            if line == b"end\n":
                kind = "functions"
        elif line.startswith((b"blocks", b"edges")):
            kind = line[:6].strip().decode()
        else:
            self.fail(_wrong_line("functions", line))
        if kind in ("graph", "blocks"):
            yield from self._blocks(self._count("blocks", line), heading.entry)
            line = self._next()
        if kind in ("graph", "edges"):
            yield from self._edges(self._count("edges", line))
            line = self._next()
        if line != b"end\n":
            self.fail(_wrong_line("end", line))
        if self._is_landing_due:
            self.fail("the first line says version 3, and no edge is of the kind `landing`")
        if self._next():
            self.fail("the report has ended, and here is another line")
        yield End(kind)

    def fail(self, why: str) -> NoReturn:
        raise ReportError(f"line {self.line}: {why}")

    def _next(self) -> bytes:
        self.line += 1
        return self._stream.readline()

    def _heading(self) -> Heading:
        self.line = 1
        first = self._stream.readline(len(FIRST_LINE))
        self._is_landing_due = self._may_land = first == WITH_LANDINGS
        if first not in (FIRST_LINE, WITH_LANDINGS):
            if not first:
                self.fail("the report is empty")
            if first.startswith(b"cfg-report "):
                self.fail("a report of another version than 2 and 3")
            self.fail("this is no report of cfg, which begins with a line `cfg-report 2`")
        line = self._next()
        found = _ENTRY(line)
        return Heading(int(found[1], 16)) if found else self.fail(_wrong_line("entry", line))

    def _count(self, section: str, line: bytes) -> int:
        found = _SECTION[section](line)
        return int(found[1]) if found else self.fail(_wrong_line(section, line))

    def _wrong_item(self, form: str, line: bytes, place: int, count: int) -> NoReturn:
        """Fails at a line that is not the item that a count has announced."""
        if line.split(b" ")[0].rstrip(b"\n").decode("latin-1") in set(_FORMS) - {form}:
            self.fail(f"{count} lines `{_FORMS[form]}` were announced, and here, after {place}, is `{_shown(line)}`")
        self.fail(_wrong_line(form, line))

    def _functions(self, count: int, entry: int, completed: Callable[[Function, int], Iterator[Item]]) -> Iterator[Item]:
        """The functions, each of them completed by the lines behind it, of which there are so many."""
        before, entry_seen = -1, False
        for place in range(count):
            line = self._next()
            found = _FUNCTION(line) or self._wrong_item("function", line, place, count)
            at = int(found[1], 16)
            if at <= before:
                self.fail(f"the function at {at:x} stands after the one at {before:x}: entries rise, each there once")
            try:
                name = read_name(found[4])
            except ValueError as error:
                self.fail(str(error))
            before, entry_seen = at, entry_seen or at == entry
            yield from completed(Function(at, found[2] == b"may-return", name, ()), int(found[3]))
        if not entry_seen:
            self.fail(f"no function starts at the program's entry, {entry:x}")

    def _with_body(self, function: Function, count: int) -> Iterator[Item]:
        yield function._replace(blocks=tuple(int(found[1], 16) for found in self._body("in", _IN, function.entry, count)))

    def _with_masks(self, function: Function, count: int) -> Iterator[Item]:
        masks = [Live(int(found[1], 16), int(found[2], 16)) for found in self._body("live", _LIVE, function.entry, count)]
        yield function._replace(blocks=tuple(one.block for one in masks))
        yield Lives(function.entry, tuple(masks))

    def _body(self, form: str, is_line: _Form, entry: int, count: int) -> Iterator["re.Match[bytes]"]:
        """The lines of the blocks of a function's body."""
        before, entry_seen = -1, False
        for place in range(count):
            line = self._next()
            found = is_line(line) or self._wrong_item(form, line, place, count)
            start = int(found[1], 16)
            if start <= before:
                self.fail(f"the block at {start:x} stands after the one at {before:x}: blocks rise, each there once")
            if form == "live" and int(found[2], 16) & 1:
                self.fail(f"the mask {found[2].decode()} has bit 0, and x0 is never live")
            before, entry_seen = start, entry_seen or start == entry
            yield found
        if not entry_seen:
            self.fail(f"the function at {entry:x} does not have the block at its own entry")

    def _blocks(self, count: int, entry: int) -> Iterator[Block]:
        before, entry_seen = -1, False
        for place in range(count):
            line = self._next()
            found = _BLOCK(line) or self._wrong_item("block", line, place, count)
            start, end = int(found[1], 16), int(found[2], 16)
            if start <= before:
                self.fail(f"the block at {start:x} stands after the one at {before:x}: starts rise, each there once")
            if end <= start:
                self.fail(f"the block at {start:x} ends at {end:x}, before its start")
            before, entry_seen = start, entry_seen or start == entry
            yield Block(start, end, _KIND[found[3]])
        if not entry_seen:
            self.fail(f"no block starts at the program's entry, {entry:x}")

    def _edges(self, count: int) -> Iterator[Edge]:
        before = (-1, -1, -1)
        for place in range(count):
            line = self._next()
            found = _EDGE(line) or self._wrong_item("edge", line, place, count)
            edge = Edge(int(found[1], 16), int(found[2], 16), _KIND[found[3]])
            if edge.kind == "landing":
                self._is_landing_due = False
                if not self._may_land:
                    self.fail("an edge of the kind `landing`, and the first line says version 2, not 3")
            rank = (edge.source, edge.to, _RANK[edge.kind])
            if rank <= before:
                self.fail(f"`{_shown(line)}` is out of order, or there twice: edges are in order of FROM, TO and KIND")
            before = rank
            yield edge


_KIND = {kind.encode(): kind for kind in BLOCK_KINDS + EDGE_KINDS}
_RANK = {kind: rank for rank, kind in enumerate((*EDGE_KINDS, GUESS))}


def read(stream: BinaryIO) -> Iterator[Item]:
    """All that a report has, in its order, none of it kept."""
    return Reader(stream).items()


# ---- whole reports

# How many functions of one name are named.
MOST_NAMED = 5
# What gives the addresses of a name, if there is something: a report keeps one name of each function, and a file may have more.
Names = Optional[Callable[[str], Set[int]]]


class Report:
    """A whole report, of its parts. What its kind leaves out is empty."""

    def __init__(self, items: Iterable[Item]) -> None:
        self.entry = 0
        self.kind = ""
        self.functions: List[Function] = []
        self.blocks: Dict[int, Block] = {}
        self.edges: List[Edge] = []
        self.edges_from: Dict[int, List[Edge]] = {}
        # The masks of a report of kind live, by the entry of a function and a block of its body.
        self.lives: Dict[int, Dict[int, int]] = {}
        for item in items:
            self._keep(item)

    def items(self) -> Iterator[Item]:
        """All that the report has, in its order."""
        yield Heading(self.entry)
        for function in self.functions:
            yield function
            if function.entry in self.lives:
                yield Lives(function.entry, tuple(Live(*one) for one in self.lives[function.entry].items()))
        yield from self.blocks.values()
        yield from self.edges
        yield End(self.kind)

    def _keep(self, item: Item) -> None:
        if isinstance(item, Edge):
            self.edges.append(item)
            self.edges_from.setdefault(item.source, []).append(item)
        elif isinstance(item, Block):
            self.blocks[item.start] = item
        elif isinstance(item, Function):
            self.functions.append(item)
        elif isinstance(item, Lives):
            self.lives[item.entry] = {one.block: one.mask for one in item.blocks}
        elif isinstance(item, Heading):
            self.entry = item.entry
        else:
            self.kind = item.kind

    def want(self, *kinds: str) -> "Report":
        """The report, where it is of one of these kinds."""
        if self.kind not in kinds:
            raise ReportError(f"this is a report of kind {self.kind}, and one of kind {' or '.join(kinds)} is needed")
        return self

    def function(self, wanted: str, named: Names = None) -> Function:
        """The function of this name, as the report writes it or as text, or at this hexadecimal address."""
        return find_function(self.functions, wanted, named)

    def problems(self) -> Iterator[str]:
        """What does not fit together in a report of kind graph."""
        if self.kind == "graph":
            yield from _unknown_places(self)
            yield from _wrong_edges(self)
            yield from _wrong_bodies(self)
            yield from _wrong_statuses(self)


def find_function(functions: List[Function], wanted: str, named: Names = None) -> Function:
    """The one function of this name, or with this further name, or at this address; or else of this name without its arguments."""
    found = [function for function in functions if _is_named(function, wanted)]
    if not found and named is not None:
        places = named(wanted)
        found = [function for function in functions if function.entry in places]
    if not found and re.fullmatch(r"(0x)?[0-9a-fA-F]{1,16}", wanted):
        found = [f for f in functions if f.entry == int(wanted, 16)]
    if not found:
        found = [function for function in functions if function.name is not None and names.is_asked(name_field(function.name), wanted)]
    if len(found) > 1:
        some = ", ".join(f"{names.demangled(name_field(function.name))} at {function.entry:x}" for function in found[:MOST_NAMED])
        raise ReportError(f"{len(found)} functions are named {wanted}: give the address: {some}{', ..' if len(found) > MOST_NAMED else ''}")
    if not found:
        near = names.like(wanted, [name_field(function.name) for function in functions if function.name is not None])
        more = f"; did you mean {', '.join(near[:-1])}{' or ' if near[1:] else ''}{near[-1]}?" if near else ""
        more += "" if named is not None else "; a report has one name of each, and --elf gives the others"
        raise ReportError(f"no function has the name or the address {wanted}{more}")
    return found[0]


def _is_named(function: Function, wanted: str) -> bool:
    name = function.name
    return name is not None and wanted in (name_field(name), name.decode("utf-8", "replace"), names.shown(name_field(name)))


def load(stream: BinaryIO) -> Report:
    """A whole report."""
    return Report(read(stream))


def write(report: Report, file: BinaryIO) -> None:
    """Writes a report, of any kind, as `cfg` prints one: what `load` reads of it is the same report."""
    for line in lines(report):
        file.write(line.encode() + b"\n")


def lines(report: Report) -> Iterator[str]:
    """The lines of a report."""
    first = WITH_LANDINGS if any(edge.kind == "landing" for edge in report.edges) else FIRST_LINE
    yield from (first.decode().rstrip(), f"entry {address(report.entry)}")
    if report.kind in ("graph", "functions", "live"):
        yield f"{'lives' if report.kind == 'live' else 'functions'} {len(report.functions)}"
        for function in report.functions:
            status = "may-return" if function.may_return else "no-return"
            yield f"function {address(function.entry)} {status} {len(function.blocks)} {name_field(function.name)}"
            masks = report.lives.get(function.entry, {})
            for start in function.blocks:
                yield f"live {address(start)} {masks[start]:08x}" if report.kind == "live" else f"in {address(start)}"
    if report.kind in ("graph", "blocks"):
        yield f"blocks {len(report.blocks)}"
        yield from (f"block {address(one.start)} {address(one.end)} {one.kind}" for one in report.blocks.values())
    if report.kind in ("graph", "edges"):
        yield f"edges {len(report.edges)}"
        yield from (f"edge {address(one.source)} {address(one.to)} {one.kind}" for one in report.edges)
    yield "end"


def _unknown_places(report: Report) -> Iterator[str]:
    for function in report.functions:
        for start in function.blocks:
            if start not in report.blocks:
                yield f"the function at {function.entry:x} has a block at {start:x}, and no block line does"
    for edge in report.edges:
        for place in (edge.source, edge.to):
            if place not in report.blocks:
                yield f"the edge {_words(edge)}: no block starts at {place:x}"
    for start in report.blocks.keys() - {start for function in report.functions for start in function.blocks}:
        yield f"the block at {start:x} is in no function"


def _wrong_edges(report: Report) -> Iterator[str]:
    entries = {function.entry for function in report.functions}
    for block in report.blocks.values():
        edges = report.edges_from.get(block.start, [])
        kinds = [edge.kind for edge in edges]
        if not EDGES_OF[block.kind](kinds):
            yield f"the block at {block.start:x} ends with {block.kind}, and has the edges: {', '.join(kinds) or 'none'}"
        for edge in edges:
            if edge.kind in ("fall", "after") and edge.to != block.end:
                yield f"the edge {_words(edge)} does not lead to the end of its block, {block.end:x}"
            if edge.kind in ("call", "tail") and edge.to not in entries:
                yield f"the edge {_words(edge)} does not lead to a function"


def _words(edge: Edge) -> str:
    return f"{edge.source:x} {edge.to:x} {edge.kind}"


def _wrong_bodies(report: Report) -> Iterator[str]:
    bodies = {function.entry: set(function.blocks) for function in report.functions}
    for entry, body in bodies.items():
        found: Set[int] = set()
        left = [entry]
        while left:
            start = left.pop()
            if start not in found:
                found.add(start)
                onward = [edge.to for edge in report.edges_from.get(start, []) if edge.kind != "call"]
                left += [to for to in onward if to == entry or to not in bodies]
        if found != body:
            yield f"the function at {entry:x} has other blocks than its edges lead to"
    for edge in report.edges:
        is_tail = edge.to in bodies and edge.source not in bodies[edge.to]
        if edge.kind == ("jump" if is_tail else "tail"):
            yield f"the edge {_words(edge)} should be of kind {'tail' if is_tail else 'jump'}"


def _wrong_statuses(report: Report) -> Iterator[str]:
    back: Dict[int, List[int]] = {}
    for edge in report.edges:
        if edge.kind != "call":
            back.setdefault(edge.to, []).append(edge.source)
    returning: Set[int] = set()
    left = [block.start for block in report.blocks.values() if block.kind in LEAVES_FUNCTION]
    while left:
        start = left.pop()
        if start not in returning:
            returning.add(start)
            left += back.get(start, [])
    for function in report.functions:
        if function.may_return != (function.entry in returning):
            status = "may-return" if function.may_return else "no-return"
            yield f"the function at {function.entry:x} is said to be {status}, and is not"


# ---- files, and what scripts have in common


@contextlib.contextmanager
def opened(path: str, program: Optional[str] = None, kind: str = "graph") -> Iterator[BinaryIO]:
    """The stream of a report: of a file, of standard input for `-`, or of what `cfg` says of an ELF file, of this kind."""
    if path == "-":
        yield sys.stdin.buffer
    elif is_elf(path):
        with _answer(path, program or program_of("cfg"), kind) as stream:
            yield stream
    else:
        with open(path, "rb") as stream:
            yield stream


# Whether a program may be built that is not, which takes hours: with the first word `--build` of any script.
may_build = False


def program_of(name: str) -> str:
    """The command of a program: what the variable CFG names, or CFG_WALK or CFG_CHECK, or bin/NAME, if it is built."""
    variable = os.environ.get(name.upper())
    starter = os.path.join(TOP, "bin", name)
    in_package = not os.path.isfile(os.path.join(TOP, "bin", "proved"))
    # (bin/cfg runs one of two programs)
    built = any(os.access(os.path.join(TOP, "crates", it, "out", it), os.X_OK) for it in ([name, "cfg_one"] if name == "cfg" else [name]))
    if variable or may_build or built or in_package and os.access(starter, os.X_OK):
        return variable or starter
    on_path = shutil.which(name)
    if on_path or in_package:
        return on_path or starter
    how = f"{starter}, run once, proves and builds it, in up to an hour of processor time, as `--build` as the first word does here"
    raise ReportError(f"{name} is not built: {how}; the variable {name.upper()} may name another one")


def is_elf(path: str) -> bool:
    """Whether a file begins as an ELF file does."""
    # What is no regular file, as a pipe, could not be read again.
    if path == "-" or not os.path.isfile(path):
        return False
    with open(path, "rb") as stream:
        return stream.read(4) == b"\x7fELF"


@contextlib.contextmanager
def _answer(path: str, program: str, kind: str) -> Iterator[BinaryIO]:
    """What `cfg` prints of an ELF file. Where it answers another status than 0, that is told."""
    words = [] if kind == "graph" else ["--report", kind]
    with subprocess.Popen([program, *words, "--", path], stdout=subprocess.PIPE) as run:
        assert run.stdout is not None
        try:
            yield run.stdout  # type: ignore[misc]
        except ReportError:
            while run.stdout.read(1 << 20):
                pass
            if run.wait() == 0:
                raise
        except BaseException:
            # (what is not read to its end would be a fault of the program, which says so)
            run.kill()
            raise
        if run.stdout.read(1):
            run.kill()
            return
    if run.returncode not in (0, -13):
        raise ReportError(f"{program} ended with status {run.returncode}")


def run(main: Callable[[], int]) -> NoReturn:
    """Runs a script and ends with its status. What is wrong with a file is one line on standard error, and status 2. With the
    first word --build a program may be built that is not."""
    global may_build
    # bin/install gives the scripts other names.
    sys.argv[0] = os.environ.get("CFG_SCRIPT") or sys.argv[0]
    name = os.path.basename(sys.argv[0])
    if sys.argv[1:2] == ["--build"]:
        may_build = True
        del sys.argv[1]
    if sys.stderr.isatty():
        sys.stdout = progress.Clearing(sys.stdout)  # type: ignore[assignment]
    try:
        status = main()
        sys.stdout.flush()
    except ReportError as error:
        status = _told(name, str(error))
    except BrokenPipeError:
        os.dup2(os.open(os.devnull, os.O_WRONLY), 1)
        status = 0
    except OSError as error:
        status = _told(name, f"{error.filename}: {error.strerror}" if error.filename else str(error))
    except KeyboardInterrupt:
        status = 130
    progress.clear()
    sys.exit(status)


def _told(name: str, why: str) -> int:
    progress.clear()
    print(f"{name}: {why}", file=sys.stderr)
    return 2


@contextlib.contextmanager
def naming(path: str) -> Iterator[None]:
    """Puts the name of a file in front of what is wrong with it, once."""
    try:
        yield
    except ReportError as error:
        name = "standard input" if path == "-" else path
        raise error if str(error).startswith(f"{name}: ") else ReportError(f"{name}: {error}") from None


def load_path(path: str) -> Report:
    """The whole report of a file, of standard input, or of an ELF file."""
    with naming(path), opened(path) as stream:
        return load(stream)
