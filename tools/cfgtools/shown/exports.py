"""Reports in the forms of other programs: Graphviz and GraphML, scripts for Ghidra, rizin and IDA, SARIF, and a SQLite file.

Each form is a function of an `Export`; `FORMS` has them by name. Those that end in text give it piece by piece.
"""

from __future__ import annotations

import json
import os
import re
import sqlite3
from typing import Any, Callable, Dict, Iterator, List, Optional, Tuple
from xml.sax.saxutils import quoteattr

from cfgtools.elf.elf_file import Elf
from cfgtools.explain.reasons import MEANT, Reasons
from cfgtools.explain.staying import Staying
from cfgtools.explain.unsure import Unsure
from cfgtools.explain.values import Code, last_instruction
from cfgtools.isa import registers
from cfgtools.reports.cfg_report import Block, Function, Report, ReportError, address, function_name
from cfgtools.shown.colours import EDGES
from cfgtools.shown.picture import quoted

# The kinds of edges that no other program finds by the instruction alone.
TOLD = ("table", "jump", "tail", "call", "taken")


class Export:
    """A whole report of kind graph, its file if it is at hand, and the live registers, if they are."""

    def __init__(self, report: Report, elf: Optional[Elf], lives: Optional[Report] = None) -> None:
        self.report, self.elf, self.lives = report, elf, lives
        self.unsure = Unsure(elf).see_all(report.items())

    def need(self) -> Elf:
        """The file, which this form needs."""
        if self.elf is None:
            raise ReportError("this form needs the ELF file: give it instead of the report, or with --elf")
        return self.elf

    def last(self, block: Block) -> Tuple[Optional[int], Optional[int]]:
        """The address and the length of a block's last instruction, which the file tells."""
        return last_instruction(self.elf, block) if self.elf else (None, None)

    def places(self) -> Iterator[Tuple[int, int, str]]:
        """Where control goes by other ways than straight on: the last instruction, where it goes, and the kind of the edge."""
        elf = self.need()
        for edge in self.report.edges:
            if edge.kind in TOLD:
                yield last_instruction(elf, self.report.blocks[edge.source])[0], edge.to, edge.kind


def name_of(function: Function) -> str:
    return function_name(function.entry, function.name)


# ---- graphs


def dot(export: Export) -> Iterator[str]:
    """Graphviz source of the whole graph: a cluster for each function, with the blocks that it has first."""
    yield 'digraph cfg {\nnode [shape=box, fontname="DejaVu Sans Mono", fontsize=10];\n'
    drawn = set()
    for function in export.report.functions:
        yield f"subgraph cluster_{function.entry:x} {{\nlabel={quoted(name_of(function))};\n"
        for start in function.blocks:
            if start not in drawn:
                drawn.add(start)
                block = export.report.blocks[start]
                yield f'b{start:x} [label="{start:x} to {block.end:x}\\n{block.kind}"];\n'
        yield "}\n"
    for edge in export.report.edges:
        style = ", style=dotted" if export.unsure.is_unsure(edge) else ""
        yield f"b{edge.source:x} -> b{edge.to:x} [color={EDGES[edge.kind].colour}{style}];\n"
    yield "}\n"


def graphml(export: Export) -> Iterator[str]:
    """GraphML of the whole graph: a node for each block, with its end, its kind and its functions, and the edges with kinds."""
    yield '<?xml version="1.0" encoding="UTF-8"?>\n<graphml xmlns="http://graphml.graphdrawing.org/xmlns">\n'
    for key, of, kind in (("start", "node", "string"), ("end", "node", "string"), ("kind", "node", "string"), ("functions", "node", "string"),
                          ("edge", "edge", "string"), ("unsure", "edge", "boolean")):
        yield f'<key id="{key}" for="{of}" attr.name="{"kind" if key == "edge" else key}" attr.type="{kind}"/>\n'
    yield '<graph id="cfg" edgedefault="directed">\n'
    homes: Dict[int, List[str]] = {}
    for function in export.report.functions:
        for start in function.blocks:
            homes.setdefault(start, []).append(name_of(function))
    for start, block in export.report.blocks.items():
        data = (("start", address(start)), ("end", address(block.end)), ("kind", block.kind), ("functions", " ".join(homes.get(start, ()))))
        yield f'<node id="b{start:x}">{"".join(_data(*one) for one in data)}</node>\n'
    for edge in export.report.edges:
        mark = _data("unsure", "true") if export.unsure.is_unsure(edge) else ""
        yield f'<edge source="b{edge.source:x}" target="b{edge.to:x}">{_data("edge", edge.kind)}{mark}</edge>\n'
    yield "</graph>\n</graphml>\n"


def _data(key: str, text: str) -> str:
    return f"<data key={quoteattr(key)}>{quoteattr(text)[1:-1]}</data>"


# ---- scripts for other programs

# Both scripts read their own last lines, which hold the data: a Java method, which Jython makes of a script, holds little.
_READ = '''
BLOCKS, FUNCTIONS, EDGES = [], [], []
with open(PATH) as lines:
    for line in lines:
        parts = line.split()
        if parts[:2] == ["#:", "block"]:
            BLOCKS.append((int(parts[2], 16), int(parts[3], 16)))
        elif parts[:2] == ["#:", "function"]:
            ends = [int(part, 16) for part in parts[4:]]
            FUNCTIONS.append((int(parts[2], 16), None if parts[3] == "-" else parts[3], list(zip(ends[::2], ends[1::2]))))
        elif parts[:2] == ["#:", "edge"]:
            EDGES.append((int(parts[2], 16), int(parts[3], 16), parts[4]))
'''
_GHIDRA = '''# Brings functions, blocks and edges of a report of cfg into the program that is open in Ghidra: run it by the script manager.
# @category RISCV
from ghidra.program.model.address import AddressSet
from ghidra.program.model.symbol import RefType, SourceType

PATH = getSourceFile().getAbsolutePath()
KINDS = {"call": RefType.UNCONDITIONAL_CALL, "table": RefType.COMPUTED_JUMP, "taken": RefType.CONDITIONAL_JUMP}
''' + _READ + '''

def at(address):
    return toAddr("%x" % address)


for start, end in BLOCKS:
    if getInstructionAt(at(start)) is None:
        disassemble(at(start))
for entry, name, ranges in FUNCTIONS:
    body = AddressSet()
    for start, end in ranges:
        body.addRange(at(start), at(end - 1))
    function = getFunctionAt(at(entry)) or createFunction(at(entry), name)
    if function is None:
        print("%x: no function could be made" % entry)
        continue
    if name is not None:
        function.setName(name, SourceType.USER_DEFINED)
    try:
        function.setBody(body)
    except Exception as error:
        print("%x: %s" % (entry, error))
references = currentProgram.getReferenceManager()
for source, target, kind in EDGES:
    references.addMemoryReference(at(source), at(target), KINDS.get(kind, RefType.UNCONDITIONAL_JUMP), SourceType.USER_DEFINED, 0)
print("%d functions, %d blocks, %d edges" % (len(FUNCTIONS), len(BLOCKS), len(EDGES)))
'''

_IDA = '''# Brings functions, blocks and edges of a report of cfg into the database that is open in IDA: run it by File, Script file.
import ida_funcs
import ida_name
import ida_ua
import ida_xref

PATH = __file__
KINDS = {"call": ida_xref.fl_CN}
''' + _READ + '''
for start, end in BLOCKS:
    at = start
    while at < end:
        at += max(ida_ua.create_insn(at), 2)
for entry, name, ranges in FUNCTIONS:
    ida_funcs.add_func(entry, [end for start, end in ranges if start <= entry < end][0])
    if name is not None:
        ida_name.set_name(entry, name, ida_name.SN_NOWARN | ida_name.SN_FORCE)
    function = ida_funcs.get_func(entry)
    for start, end in ranges:
        if function is not None and not start <= entry < end:
            ida_funcs.append_func_tail(function, start, end)
for source, target, kind in EDGES:
    ida_xref.add_cref(source, target, KINDS.get(kind, ida_xref.fl_JN) | ida_xref.XREF_USER)
print("%d functions, %d blocks, %d edges" % (len(FUNCTIONS), len(BLOCKS), len(EDGES)))
'''


def _ranges(export: Export, function: Function) -> List[Tuple[int, int]]:
    """The blocks of a function as ranges that touch nowhere."""
    found: List[Tuple[int, int]] = []
    for start in function.blocks:
        end = export.report.blocks[start].end
        if found and start <= found[-1][1]:
            found[-1] = found[-1][0], max(end, found[-1][1])
        else:
            found.append((start, end))
    return found


def _plain(function: Function) -> Optional[str]:
    """A name of letters, digits and a few more characters, as other programs take it."""
    return None if function.name is None else re.sub(r"[^\w.$@?]", "_", function.name.decode("utf-8", "replace"), flags=re.ASCII)


def _with_data(export: Export, script: str) -> Iterator[str]:
    """A script, and behind it the data that it reads, for Python 2 and 3."""
    yield script
    for block in export.report.blocks.values():
        yield f"#: block {block.start:x} {block.end:x}\n"
    for function in export.report.functions:
        ranges = " ".join(f"{start:x} {end:x}" for start, end in _ranges(export, function))
        yield f"#: function {function.entry:x} {_plain(function) or '-'} {ranges}\n"
    for source, to, kind in export.places():
        yield f"#: edge {source:x} {to:x} {kind}\n"


def ghidra(export: Export) -> Iterator[str]:
    """A script for Ghidra."""
    return _with_data(export, _GHIDRA)


def ida(export: Export) -> Iterator[str]:
    """A script for IDA."""
    return _with_data(export, _IDA)


def rizin(export: Export) -> Iterator[str]:
    """Commands for rizin, to be read with `rizin -i`."""
    yield "# Functions, blocks and edges of a report of cfg: rizin -i THIS FILE ELF\n"
    for function in export.report.functions:
        yield f"af+ 0x{function.entry:x} {_plain(function) or f'fcn.{function.entry:08x}'}\n"
        for start in function.blocks:
            yield _block_of_rizin(export, function, export.report.blocks[start])
    for source, to, kind in export.places():
        yield f"{'axC' if kind == 'call' else 'axc'} 0x{to:x} 0x{source:x}\n"


def _block_of_rizin(export: Export, function: Function, block: Block) -> str:
    """A block, with where it jumps and where it goes on otherwise."""
    ways = {edge.kind: edge.to for edge in export.report.edges_from.get(block.start, ()) if edge.kind not in ("call", "table")}
    jump = next((ways[kind] for kind in ("taken", "jump", "tail", "after") if kind in ways), ways.get("fall"))
    fail = ways.get("fall") if "taken" in ways else None
    more = "".join(f" 0x{to:x}" for to in (jump, fail) if to is not None)
    return f"afb+ 0x{function.entry:x} 0x{block.start:x} {block.end - block.start}{more}\n"


# ---- what is unresolved


def sarif(export: Export) -> Iterator[str]:
    """SARIF 2.1.0 of the blocks whose successors are not known, and of functions that may return after all."""
    elf = export.need()
    reasons, staying = Reasons(Code(elf, export.report)), Staying(export.report, elf)
    rules: Dict[str, Dict[str, Any]] = {}
    results: List[Dict[str, Any]] = []

    def add(rule: str, what: str, text: str, at: int, level: str) -> None:
        rules.setdefault(rule, {"id": rule, "shortDescription": {"text": what}})
        place = {"artifactLocation": {"uri": os.path.basename(elf.path)}, "address": {"absoluteAddress": at, "fullyQualifiedName": elf.place(at)}}
        results.append({"ruleId": rule, "level": level, "message": {"text": text}, "locations": [{"physicalLocation": place}]})

    for block in reasons.blocks():
        why = reasons.why(block)
        if why is not MEANT:
            at = last_instruction(elf, block)[0]
            add(f"{block.kind}/{_slug(why.what)}", why.what, f"{block.kind} at {at:x} in {elf.place(at)}: {why}", at, "warning")
    for function, _ in staying.doubtful():
        text = f"{name_of(function)} is said not to return, and may after all, {staying.why_doubtful(function.entry)}"
        add("no-return/doubtful", "a function that is said not to return may return after all", text, function.entry, "error")
    driver = {"name": "cfg", "rules": list(rules.values())}
    log = {"$schema": "https://json.schemastore.org/sarif-2.1.0.json", "version": "2.1.0", "runs": [{"tool": {"driver": driver}, "results": results}]}
    yield json.dumps(log, indent=1) + "\n"


def _slug(text: str) -> str:
    return re.sub(r"[^a-z0-9]+", "-", text.lower()).strip("-")[:60]


# ---- a database

_TABLES = """
CREATE TABLE report (entry INTEGER NOT NULL, file TEXT);
CREATE TABLE functions (entry INTEGER PRIMARY KEY, name TEXT, may_return INTEGER NOT NULL, doubt TEXT);
CREATE TABLE names (address INTEGER NOT NULL, name TEXT NOT NULL);
CREATE TABLE blocks (start INTEGER PRIMARY KEY, end INTEGER NOT NULL, kind TEXT NOT NULL, last INTEGER, last_length INTEGER);
CREATE TABLE bodies (function INTEGER NOT NULL REFERENCES functions, block INTEGER NOT NULL REFERENCES blocks);
CREATE TABLE edges (source INTEGER NOT NULL REFERENCES blocks, target INTEGER NOT NULL REFERENCES blocks, kind TEXT NOT NULL, unsure INTEGER NOT NULL);
CREATE TABLE lives (function INTEGER NOT NULL, block INTEGER NOT NULL, mask INTEGER NOT NULL, free TEXT NOT NULL);
"""
_INDEXES = """
CREATE INDEX bodies_by_function ON bodies (function);
CREATE INDEX bodies_by_block ON bodies (block);
CREATE INDEX edges_by_source ON edges (source);
CREATE INDEX edges_by_target ON edges (target);
CREATE INDEX names_by_name ON names (name);
"""


def signed(value: int) -> int:
    """An address as SQLite has it, whose numbers have a sign: `printf('%x', address)` shows it."""
    return value - 2**64 if value >> 63 else value


def sqlite(export: Export, path: str) -> None:
    """Writes a SQLite file."""
    if os.path.exists(path):
        raise ReportError(f"{path}: it is there already")
    base = sqlite3.connect(path)
    try:
        base.executescript(_TABLES)
        _fill(export, base)
        base.executescript(_INDEXES)
        base.commit()
    finally:
        base.close()


def _fill(export: Export, base: sqlite3.Connection) -> None:
    report, staying = export.report, Staying(export.report, export.elf)

    def put(table: str, rows: Iterator[Tuple[Any, ...]], count: int) -> None:
        base.executemany(f"INSERT INTO {table} VALUES ({', '.join('?' * count)})", rows)

    put("report", iter([(signed(report.entry), export.elf.path if export.elf else None)]), 2)
    put("functions", ((signed(one.entry), None if one.name is None else name_of(one), one.may_return, staying.why_doubtful(one.entry))
                      for one in report.functions), 4)
    put("names", _names(export), 2)
    put("blocks", ((signed(one.start), signed(one.end), one.kind, *_signed_last(export.last(one))) for one in report.blocks.values()), 5)
    put("bodies", ((signed(one.entry), signed(start)) for one in report.functions for start in one.blocks), 2)
    put("edges", ((signed(one.source), signed(one.to), one.kind, export.unsure.is_unsure(one)) for one in report.edges), 4)
    lives = export.lives.lives if export.lives else {}
    put("lives", ((signed(entry), signed(block), mask, " ".join(registers.names_of(registers.free(mask))))
                  for entry, masks in lives.items() for block, mask in masks.items()), 4)


def _signed_last(last: Tuple[Optional[int], Optional[int]]) -> Tuple[Optional[int], Optional[int]]:
    return (None if last[0] is None else signed(last[0])), last[1]


def _names(export: Export) -> Iterator[Tuple[int, str]]:
    """Every name of each function: those of the file, or those of the report without it."""
    if export.elf is not None:
        yield from ((signed(at), name) for at, every in sorted(export.elf.all_names.items()) for name in every)
    else:
        yield from ((signed(one.entry), name_of(one)) for one in export.report.functions if one.name is not None)


FORMS: Dict[str, Callable[[Export], Iterator[str]]] = {"dot": dot, "graphml": graphml, "ghidra": ghidra, "ida": ida, "rizin": rizin, "sarif": sarif}
