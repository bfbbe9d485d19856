"""A whole program as one page: the data that it shows, an index and parts that are unpacked at first use, and the page itself.

The data is JSON, packed as raw deflate and written in base64. Addresses are numbers: those whose high words differ are numbered
anew, in their order, so that each is exact in a script. docs/BROWSE.md has what the page does.
"""

from __future__ import annotations

import base64
import hashlib
import html
import json
import os
import re
import zlib
from typing import Any, Dict, Iterable, Iterator, List, NamedTuple, Optional, Sequence, Tuple

from cfgtools.elf.elf_file import Elf
from cfgtools.explain.lost import LostCode
from cfgtools.explain.open_ends import OpenEnds
from cfgtools.explain.reliance import Reliance
from cfgtools.explain.staying import Staying
from cfgtools.explain.tables import numbers
from cfgtools.explain.unsure import Unsure
from cfgtools.explain.values import Code
from cfgtools.isa import extensions
from cfgtools.reports.cfg_report import BLOCK_KINDS, EDGE_KINDS, GUESS, Block, Function, Report, function_name, name_field
from cfgtools.reports.progress import Progress
from cfgtools.shown import colours

FOLDER = os.path.join(os.path.dirname(os.path.realpath(__file__)), "browse")
# In the order in which they are loaded: each uses only what stands in those before it.
SCRIPTS = ("data.js", "groups.js", "layout.js", "items.js", "picture.js", "panels.js", "view.js")
# How much JSON makes a part, in characters.
PART = 256 << 10
# A kind is a digit in a text of kinds.
DIGITS = "0123456789abcdefghijklmnopqrstuvwxyz"
BLOCK_DIGITS = {kind: DIGITS[place] for place, kind in enumerate(BLOCK_KINDS)}
EDGE_DIGITS = {kind: DIGITS[place] for place, kind in enumerate((*EDGE_KINDS, GUESS))}


class Ran(NamedTuple):
    """What a run went through: how often each block was entered, or 1 if only that is known."""

    counts: Dict[int, int]
    are_counts: bool


class Addresses:
    """Addresses as numbers that a script has exactly: the number of an address's high word, and its low word."""

    def __init__(self, found: Iterable[int]) -> None:
        self.high = sorted({0, *(address >> 32 for address in found)})
        self._places = {high: place << 32 for place, high in enumerate(self.high)}

    def number(self, address: int) -> int:
        return self._places[address >> 32] | address & 0xFFFFFFFF


def differences(values: Iterable[int]) -> List[int]:
    """Numbers as differences, each from the one before it."""
    found, last = [], 0
    for value in values:
        found.append(value - last)
        last = value
    return found


def dense(data: Any) -> str:
    return json.dumps(data, ensure_ascii=False, separators=(",", ":"))


def packed(text: str) -> str:
    """A text as raw deflate, in base64."""
    press = zlib.compressobj(9, zlib.DEFLATED, -15)
    # (a name may hold half of a pair of surrogates, which no text in UTF-8 has)
    return base64.b64encode(press.compress(text.encode("utf-8", "replace")) + press.flush()).decode()


class Program:
    """A program's graph as data. Without the ELF file it lacks instructions and reasons."""

    def __init__(self, report: Report, elf: Optional[Elf], lives: Optional[Report] = None, ran: Optional[Ran] = None, title: str = "") -> None:
        self.report, self.elf, self.lives, self.ran, self.title = report, elf, lives, ran, title
        self._at = Addresses(place for block in report.blocks.values() for place in (block.start, block.end))
        self._places = {function.entry: place for place, function in enumerate(report.functions)}
        self._unsure = Unsure(elf).see_all(report.items())
        self._code = Code(elf, report) if elf else None
        self._ends = OpenEnds(elf, report, self._code) if elf and self._code else None
        self._staying = Staying(report, elf)
        self._lost = LostCode(elf, [(block.start, block.end) for block in report.blocks.values()]) if elf else None
        self._reliance = Reliance(self._code, report) if self._code and lives else None
        self._texts: Dict[Tuple[str, int, int], str] = {}
        self._entries: Dict[Tuple[int, int], str] = {}
        tables = self._ends.tables() if self._ends else None
        for table in tables.found.values() if tables else ():
            self._entries.update({(table.block.start, to): numbers(places) for to, places in table.places().items()})

    # ---- parts

    def parts(self) -> Iterator[List[str]]:
        """The functions as JSON, as many in a list as make a part."""
        progress = Progress(lambda: f"{done} of {len(self.report.functions)} functions are put into the page")
        part: List[str] = []
        size = done = 0
        for function in self.report.functions:
            part.append(dense(self._function(function)))
            size += len(part[-1])
            done += 1
            progress.step()
            if size >= PART:
                yield part
                part, size = [], 0
        if part:
            yield part

    def _function(self, function: Function) -> Dict[str, Any]:
        """What the page has of a function's blocks. Docs of the fields: docs/BROWSE.md is for users; data.js reads them."""
        blocks = [self.report.blocks[start] for start in function.blocks]
        data: Dict[str, Any] = {
            "s": differences(self._at.number(block.start) for block in blocks),
            "l": [block.end - block.start for block in blocks],
            "k": "".join(BLOCK_DIGITS[block.kind] for block in blocks),
        }
        data.update(self._edges(blocks))
        if self._code is not None:
            data["t"] = ["\n".join(self._text(block)) for block in blocks]
        reasons = {place: self._ends.text(block) for place, block in enumerate(blocks) if block.start in self._ends.ends} if self._ends else {}
        if reasons:
            data["r"] = reasons
        if self.lives is not None:
            masks = self.lives.lives.get(function.entry, {})
            data["m"] = [masks.get(start, -1) for start in function.blocks]
            doubtful = self._reliance.not_relied_on(function) if self._reliance else frozenset()
            if doubtful:
                data["d"] = [place for place, start in enumerate(function.blocks) if start in doubtful]
        if self.ran is not None:
            data["c"] = [self.ran.counts.get(start, 0) for start in function.blocks]
        return data

    def _edges(self, blocks: Sequence[Block]) -> Dict[str, Any]:
        """The edges of blocks: how many each has, their kinds, and where they lead, as seen from the block's end."""
        counts: List[int] = []
        kinds: List[str] = []
        to: List[int] = []
        entries: Dict[int, str] = {}
        unsure: List[int] = []
        for block in blocks:
            edges = self.report.edges_from.get(block.start, ())
            counts.append(len(edges))
            for edge in edges:
                if (edge.source, edge.to) in self._entries and edge.kind == "table":
                    entries[len(to)] = self._entries[edge.source, edge.to]
                if self._unsure.is_unsure(edge):
                    unsure.append(len(to))
                kinds.append(EDGE_DIGITS[edge.kind])
                to.append(self._at.number(edge.to) - self._at.number(block.end))
        data: Dict[str, Any] = {"e": counts, "ek": "".join(kinds), "et": to}
        if entries:
            data["en"] = entries
        if unsure:
            data["eu"] = unsure
        return data

    def _text(self, block: Block) -> Iterator[str]:
        """The instructions of a block; one of two bytes has a dot before it."""
        assert self._code is not None and self.elf is not None
        at = block.start
        for one in self._code.of(block):
            # (what names no other place reads the same everywhere)
            key = (one.name, one.word, one.length)
            text = self._texts.get(key)
            if text is None:
                text = one.text if one.length == 4 else f".{one.text}"
                if "b" not in one.row.operands:
                    self._texts[key] = text
            yield text
            at = one.end
        if at < block.end:
            data, whole = self.elf.bytes_at(at, block.end) or b"", self.elf.bytes_at(at, at + 4) or b""
            shown = extensions.shown(int.from_bytes(whole, "little"))
            yield f"{shown.partition(' ')[2]}, which is not decoded" if " " in shown else f".{len(data)}byte 0x{data[::-1].hex()}"

    # ---- the index

    def index(self, part_of: Sequence[int]) -> Dict[str, Any]:
        """What the page knows of all functions, each in the part of this number."""
        functions = self.report.functions
        names = [function_name(function.entry, function.name) for function in functions]
        written = {place: name_field(function.name) for place, function in enumerate(functions)
                   if function.name is None or name_field(function.name) != names[place]}
        doubts = {place: self._staying.why_doubtful(function.entry) for place, function in enumerate(functions)}
        aliases = {place: self.elf.also(function.entry) for place, function in enumerate(functions)} if self.elf else {}
        lost = {place: self._lost.at(function.entry) for place, function in enumerate(functions)} if self._lost else {}
        return {
            "title": self.title, "entry": self._at.number(self.report.entry), "high": [f"{high:x}" for high in self._at.high],
            "blockKinds": BLOCK_KINDS, "fills": {kind: fill.web for kind, fill in colours.BLOCKS.items()}, "ran": colours.RAN,
            "edgeKinds": [[kind, look.web, look.dashes, look.meaning, look.mark] for kind, look in colours.EDGES.items()],
            "unsure": ["unsure", colours.UNSURE.web, colours.UNSURE.dashes, colours.UNSURE.meaning, colours.UNSURE.mark],
            "at": differences(self._at.number(function.entry) for function in functions),
            "names": names, "written": written, "returns": "".join("1" if function.may_return else "0" for function in functions),
            "blocks": [len(function.blocks) for function in functions], "sizes": [self._size(function) for function in functions],
            "open": [self._open_ends(function) for function in functions], "callees": [self._callees(function) for function in functions],
            "parts": part_of, "doubts": {place: why for place, why in doubts.items() if why},
            "aliases": {place: found for place, found in aliases.items() if found},
            "lost": {place: found.share() for place, found in lost.items() if found is not None},
            "passed": [sum(start in self.ran.counts for start in function.blocks) for function in functions] if self.ran else None,
            "has": {"texts": self.elf is not None, "lives": self.lives is not None, "counts": bool(self.ran and self.ran.are_counts)},
        }

    def _size(self, function: Function) -> int:
        """How many bytes the blocks of a function have, those that lie in two of them counted once."""
        size = last = 0
        for start in function.blocks:
            end = self.report.blocks[start].end
            size += max(0, end - max(start, last))
            last = max(last, end)
        return size

    def _open_ends(self, function: Function) -> int:
        """How many blocks have successors that are unknown."""
        if self._ends is not None:
            return sum(start in self._ends.ends for start in function.blocks)
        return sum(self.report.blocks[start].kind in OpenEnds.BY_KIND for start in function.blocks)

    def _callees(self, function: Function) -> List[int]:
        """The functions that a function calls or leads to otherwise, as differences."""
        body = set(function.blocks)
        found = {self._places[edge.to] for start in function.blocks for edge in self.report.edges_from.get(start, ())
                 if edge.to in self._places and (edge.kind == "call" or edge.to not in body)}
        return differences(sorted(found))


# ---- the page


def _file(name: str) -> str:
    with open(os.path.join(FOLDER, name), encoding="utf-8") as file:
        return file.read()


def _hash(text: str) -> str:
    return "'sha256-" + base64.b64encode(hashlib.sha256(text.encode()).digest()).decode() + "'"


def text_of(program: Program) -> str:
    """The text of the page."""
    part_of: List[int] = []
    texts: List[str] = []
    for number, part in enumerate(program.parts()):
        part_of += [number] * len(part)
        texts.append(packed(f"[{','.join(part)}]"))
    style, scripts = _file("style.css"), [_file(name) for name in SCRIPTS]
    policy = f"default-src 'none'; script-src {' '.join(map(_hash, scripts))}; style-src {_hash(style)}; base-uri 'none'; form-action 'none'"
    data = [f'<script type="text/plain" id="index">{packed(dense(program.index(part_of)))}</script>']
    data += [f'<script type="text/plain" id="part{number}">{text}</script>' for number, text in enumerate(texts)]
    code = [f"<script>{script}</script>" for script in scripts]
    found = {"POLICY": policy, "TITLE": html.escape(program.title.encode("utf-8", "replace").decode()), "STYLE": style, "DATA": "\n".join([*data, *code])}
    return re.sub("@([A-Z]+)@", lambda key: found[key[1]], _file("page.html"))


def write(program: Program, path: str) -> None:
    with open(path, "w", encoding="utf-8", newline="\n") as file:
        file.write(text_of(program))
