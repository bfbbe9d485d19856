"""A small program for tests of the page of `tools/browse`, with its report and made-up live registers; and the data of a page."""

from __future__ import annotations

import base64
import json
import re
import tempfile
import zlib
from pathlib import Path
from typing import Any, Callable, Dict, List, Tuple, Union

import small_elf
import stand_in
from cfgtools.elf.declared_tables import KIND, NAME, Record, packed
from cfgtools.elf.elf_file import Memory
from cfgtools.making.hostile import RETURN, Halves, branch, immediate, jump
from cfgtools.reports import cfg_report
from cfgtools.reports.cfg_report import Block, Edge, End, Function, Heading, Item, Report
from cfgtools.shown.page import DIGITS

CASES = 24
HOSTILE = "<script>document.title='taken'</script><img/src=x/onerror=\"document.title='taken'\">"
NOTHING = immediate(0x13, 0, 0, 0, 0)
LOAD = immediate(0x03, 3, 14, 10, 8)
# An item of the code: a label, an instruction, or what makes one of the distance to a label.
Line = Union[str, Halves, Tuple[str, Callable[[int], Halves]]]


def to(label: str, made: Callable[[int], Halves]) -> Line:
    return label, made


def call(label: str) -> Line:
    return to(label, lambda away: jump(1, away))


def go(label: str) -> Line:
    return to(label, lambda away: jump(0, away))


def unless(label: str) -> Line:
    return to(label, lambda away: branch(0, 10, 0, away))


def machine() -> List[Line]:
    """An interpreter: a loop around a table of cases, some of which share a part, and two of which have one of their own."""
    lines: List[Line] = ["machine", NOTHING, "next", LOAD, unless("done"), "dispatch", immediate(0x67, 0, 0, 15, 0)]
    for number in range(CASES):
        lines += [f"case{number}", LOAD]
        if number == 5:
            lines += [unless("five_more"), call("helper"), "five_more", NOTHING]
        if number == 7:
            lines += ["again", LOAD, unless("seven_more"), go("again"), "seven_more", immediate(0x67, 0, 1, 13, 0)]
        lines.append(go("shared" if number % 4 == 1 else "next"))
    return [*lines, "shared", call("helper"), go("next"), "done", RETURN]


def ladder(count: int) -> List[Line]:
    """A function of many blocks: a ladder of branches, each around one call, and a loop of two blocks at its end."""
    lines: List[Line] = ["ladder"]
    for number in range(count):
        lines += [LOAD, unless(f"rung{number}"), call("helper"), f"rung{number}", NOTHING]
    return [*lines, "turn", LOAD, unless("out"), NOTHING, go("turn"), "out", RETURN]


def text() -> List[Line]:
    start: List[Line] = ["main", LOAD, call("helper"), unless("skip"), call("machine"), "skip", call("ladder"), immediate(0x67, 0, 1, 15, 0), call("tailing"), RETURN]
    rest: List[Line] = ["helper", LOAD, RETURN, "tailing", LOAD, go("helper"), "staying", go("staying"), "unknown", LOAD, immediate(0x67, 0, 0, 15, 0),
                        "calls_hostile", call("hostile"), RETURN, "hostile", RETURN]
    return [*start, *machine(), *ladder(60), *rest]


def assembled(lines: List[Line]) -> Tuple[Halves, Dict[str, int]]:
    """The halfwords of a text, and where its labels are."""
    labels: Dict[str, int] = {}
    at = small_elf.CODE_AT
    for line in lines:
        if isinstance(line, str):
            labels[line] = at
        else:
            at += 4 if isinstance(line, tuple) else 2 * len(line)
    halves: Halves = []
    for line in lines:
        if isinstance(line, tuple):
            halves = [*halves, *line[1](labels[line[0]] - small_elf.CODE_AT - 2 * len(halves))]
        elif not isinstance(line, str):
            halves = [*halves, *line]
    return halves, labels


class Made:
    """The program, put into a folder: its paths, its labels, and its report."""

    FUNCTIONS = ("main", "machine", "ladder", "helper", "tailing", "staying", "unknown", "calls_hostile", "hostile")

    def __init__(self, folder: Path) -> None:
        halves, self.labels = assembled(text())
        names = [HOSTILE if name == "hostile" else name for name in self.FUNCTIONS]
        record = Record(self.labels["dispatch"], small_elf.DATA_AT, 0, CASES, 8)
        entries = small_elf.words(*(self.labels[f"case{number}"] for number in range(CASES)))
        aliases = small_elf.symbols(4, [*names, "other_helper"], [self.labels[name] for name in (*self.FUNCTIONS, "helper")])
        parts = [small_elf.code(halves), small_elf.Part(".rodata", address=small_elf.DATA_AT, data=entries),
                 small_elf.Part(NAME.decode(), KIND, 0, 0, packed([record])), *aliases]
        self.elf, self.graph, self.live = (str(folder / name) for name in ("made.elf", "made.report", "made.live"))
        Path(self.elf).write_bytes(small_elf.file_of(parts))
        Path(self.graph).write_text("\n".join([*stand_in.report(Memory(self.elf)), ""]))
        self.report = cfg_report.load_path(self.graph)
        with open(self.live, "wb") as file:
            cfg_report.write(lives(self.report), file)

    def hex(self, label: str) -> str:
        return f"{self.labels[label]:x}"


def lives(report: Report) -> Report:
    """Live registers that are made up, of the right form."""
    found = Report([Heading(report.entry), *report.functions, End("live")])
    found.lives = {function.entry: {start: start * 2654435761 % 2**32 & ~1 for start in function.blocks} for function in report.functions}
    return found


# ---- the data of a page


def unpacked(page: str) -> Dict[str, Any]:
    """The pieces of data of a page, by their names."""
    found = re.findall(r'<script type="text/plain" id="(\w+)">([^<]*)</script>', page)
    return {name: json.loads(zlib.decompress(base64.b64decode(data), -15)) for name, data in found}


def summed(values: List[int]) -> List[int]:
    return [sum(values[:place + 1]) for place in range(len(values))]


def report_of(page: str) -> List[str]:
    """The report that a page has, line for line."""
    data = unpacked(page)
    index = data["index"]
    parts = [function for number in range(len(data) - 1) for function in data[f"part{number}"]]

    def address(number: int) -> int:
        return int(index["high"][number >> 32], 16) << 32 | number & 0xFFFFFFFF

    blocks: Dict[int, Block] = {}
    edges: Dict[Edge, None] = {}
    functions: List[Item] = []
    for number, entry in enumerate(summed(index["at"])):
        part, starts = parts[number], summed(parts[number]["s"])
        name = index["written"].get(str(number), index["names"][number])
        functions.append(Function(address(entry), index["returns"][number] == "1", cfg_report.read_name(name.encode()), tuple(map(address, starts))))
        place = 0
        for start, length, kind, count in zip(starts, part["l"], part["k"], part["e"]):
            block = Block(address(start), address(start) + length, index["blockKinds"][DIGITS.index(kind)])
            blocks[block.start] = block
            for way in range(place, place + count):
                kind = index["edgeKinds"][DIGITS.index(part["ek"][way])][0]
                edges[Edge(block.start, address(start + length + part["et"][way]), kind)] = None
            place += count
    rank = {kind: place for place, kind in enumerate(cfg_report.EDGE_KINDS)}
    rising = sorted(edges, key=lambda edge: (edge.source, edge.to, rank[edge.kind]))
    items: List[Item] = [Heading(address(index["entry"])), *functions, *(block for _, block in sorted(blocks.items())), *rising, End("graph")]
    return list(cfg_report.lines(Report(items)))


def scripts(page: str) -> List[str]:
    """The texts of the scripts of a page."""
    return re.findall(r"<script>(.*?)</script>", page, re.DOTALL)


if __name__ == "__main__":
    with tempfile.TemporaryDirectory() as place:
        made = Made(Path(place))
        print(open(made.graph, encoding="utf-8").read())
