"""A graph for scripts and notebooks of your own: `cfgtools.graph("program.elf")`.

It is what `cfg` reports of a file, with names as text, and in the forms of other packages if these are installed.
"""

from __future__ import annotations

import io
import os
import subprocess
from typing import Any, Dict, List, NamedTuple, Optional, Set, Tuple

from cfgtools.elf.elf_file import Elf
from cfgtools.reports import cfg_report, names
from cfgtools.reports.cfg_report import Block, Edge, Report, ReportError, name_field


class GraphError(Exception):
    """Why there is no graph: the line that the program printed on standard error, and its exit status, if it ran."""

    def __init__(self, line: str, status: Optional[int] = None) -> None:
        super().__init__(line)
        self.line, self.status = line, status


class Function(NamedTuple):
    """A function: its entry, its name as text or its address if it has none, whether it may return, and the starts of its blocks."""

    entry: int
    name: str
    may_return: bool
    blocks: Tuple[int, ...]

    def __repr__(self) -> str:
        return f"<{self.name} at {self.entry:#x}, {len(self.blocks)} blocks, {'may return' if self.may_return else 'does not return'}>"


class Frames(NamedTuple):
    """Tables of pandas."""

    functions: Any
    blocks: Any
    edges: Any


class Graph:
    """The graph of a program. `report` has it as the modules of `cfgtools.reports` do, `elf` the file, if there is one."""

    def __init__(self, report: Report, path: str, elf: Optional[Elf] = None) -> None:
        self.report, self.path, self.elf = report, path, elf
        said = elf.said if elf is not None else {}
        self.functions = [Function(one.entry, _text(one.entry, one.name, said), one.may_return, one.blocks) for one in report.functions]
        self._by_entry = {one.entry: one for one in self.functions}

    @property
    def entry(self) -> int:
        """Where the program starts."""
        return self.report.entry

    @property
    def blocks(self) -> List[Block]:
        """The basic blocks, by rising start."""
        return list(self.report.blocks.values())

    @property
    def edges(self) -> List[Edge]:
        """The edges, by rising start of the blocks from which they lead."""
        return self.report.edges

    def function(self, wanted: Any) -> Function:
        """The function of a name, with its arguments or without, or at an address, given as a number or in hexadecimal digits."""
        text = f"{wanted:x}" if isinstance(wanted, int) else wanted
        try:
            return self._by_entry[self.report.function(text, self.elf.addresses_of if self.elf else None).entry]
        except ReportError as error:
            raise KeyError(str(error)) from None

    def callees(self, wanted: Any) -> List[Function]:
        """The functions that one calls or goes on to, by their entries."""
        one = self.function(wanted)
        found: Set[int] = {edge.to for start in one.blocks for edge in self.report.edges_from.get(start, ())
                           if edge.to in self._by_entry and (edge.kind == "call" or edge.to != one.entry)}
        return [self._by_entry[entry] for entry in sorted(found)]

    def to_networkx(self) -> Any:
        """A MultiDiGraph of networkx: a node for each block, by its start, with `end`, `kind` and `functions`; an edge with its kind as key
        and as `kind`."""
        import networkx  # type: ignore[import]
        made = networkx.MultiDiGraph(entry=self.entry)
        homes: Dict[int, List[str]] = {}
        for function in self.functions:
            for start in function.blocks:
                homes.setdefault(start, []).append(function.name)
        for block in self.blocks:
            made.add_node(block.start, end=block.end, kind=block.kind, functions=homes.get(block.start, []))
        for edge in self.edges:
            made.add_edge(edge.source, edge.to, key=edge.kind, kind=edge.kind)
        return made

    def to_frames(self) -> Frames:
        """Three tables of pandas: functions, blocks and edges."""
        import pandas  # type: ignore[import]
        functions = [(one.entry, one.name, one.may_return, len(one.blocks)) for one in self.functions]
        return Frames(pandas.DataFrame(functions, columns=["entry", "name", "may_return", "blocks"]),
                      pandas.DataFrame(self.blocks, columns=["start", "end", "kind"]),
                      pandas.DataFrame(self.edges, columns=["source", "to", "kind"]))

    def __repr__(self) -> str:
        name = os.path.basename(self.path)
        return f"<graph of {name}: {len(self.functions):,} functions, {len(self.report.blocks):,} blocks, {len(self.edges):,} edges>"


def _text(entry: int, name: Optional[bytes], said: Dict[str, str]) -> str:
    if name is None:
        return f"{entry:x}"
    field = name_field(name)
    return names.demangled(said.get(field, field))


def graph(path: Any, program: Optional[str] = None) -> Graph:
    """The graph of an ELF file, for which `cfg` is run, or of a report. `program` is the command of `cfg`: by default what the variable
    CFG names, bin/cfg of the repository, or cfg on the PATH."""
    path = os.fspath(path)
    try:
        if not cfg_report.is_elf(path):
            with open(path, "rb") as file:
                return Graph(cfg_report.load(file).want("graph"), path)
        data = _answer(program or cfg_report.program_of("cfg"), path)
        return Graph(cfg_report.load(io.BytesIO(data)).want("graph"), path, Elf(path))
    except OSError as error:
        raise GraphError(f"{path}: {error.strerror}") from None
    except ReportError as error:
        raise GraphError(f"{path}: {error}") from None


def _answer(program: str, path: str) -> bytes:
    done = subprocess.run([program, "--", path], stdout=subprocess.PIPE, stderr=subprocess.PIPE)
    if done.returncode:
        said = done.stderr.decode("utf-8", "replace").strip()
        raise GraphError(f"{path}: {said or f'{program} ended with status {done.returncode}'}", done.returncode)
    return done.stdout
