"""Graphviz source, and pictures that `dot` makes of it."""

from __future__ import annotations

import argparse
import html
import os
import shutil
import subprocess
import sys
import tempfile
import textwrap
import time
from typing import Iterable, List, Optional, Tuple

from cfgtools.reports.cfg_report import ReportError
from cfgtools.reports.progress import Progress

SOURCES = (".dot", ".gv")
PICTURES = (".svg", ".png", ".pdf")

# How much care dot takes with a picture, by statements of its source: of some hundred nodes, of more, and of many more.
LAYOUTS = (
    (), ("splines=polyline", "nslimit=0.5", "mclimit=0.2"), ("splines=line", "nslimit=0.1", "nslimit1=0.5", "mclimit=0.1"),
)


def quoted(text: str) -> str:
    """A text as a Graphviz string, its backslashes as they are."""
    return '"' + text.replace("\\", "\\\\").replace('"', '\\"') + '"'


# How many characters of a line are shown, as of one with a long name; the whole line is shown on hover.
MOST_SHOWN = 72


def cut(line: str) -> str:
    return line if len(line) <= MOST_SHOWN else line[:MOST_SHOWN - 2] + ".."


def hover(lines: Iterable[str]) -> List[str]:
    """What is shown on hover of a node: its lines that are cut, if there are any."""
    long = [line for line in lines if len(line) > MOST_SHOWN]
    return [f"tooltip={quoted(chr(10).join(long))}"] if long else []


def left_lines(lines: Iterable[str]) -> str:
    """Lines of a label, each of them at the left."""
    return '"' + "".join(quoted(cut(line))[1:-1] + "\\l" for line in lines) + '"'


def beside(lines: Iterable[str], notes: Iterable[str]) -> str:
    """A label of lines, and of notes in a column of its own at their right."""
    cells = [f'<td align="left" balign="left" valign="top">{html_lines(column)}</td>' for column in (lines, notes)]
    noted = cells[1].replace("<td", '<td border="1" sides="L" cellpadding="4"', 1).replace(">", '><font color="darkgreen">', 1)
    noted = noted[:-len("</td>")] + "</font></td>"
    return f'<<table border="0" cellborder="0" cellspacing="0"><tr>{cells[0]}{noted}</tr></table>>'


def html_lines(found: Iterable[str]) -> str:
    """Lines in a label that is written as HTML."""
    return "<br/>".join(html.escape(cut(line)) for line in found)


def wrapped(text: str, width: int) -> str:
    """A text as a Graphviz string, in lines of so many characters where it has spaces."""
    lines = textwrap.wrap(text, width, break_long_words=False, break_on_hyphens=False) or [""]
    return '"' + "\\n".join(quoted(line)[1:-1] for line in lines) + '"'


def graph(name: str, settings: Iterable[str], lines: Iterable[str]) -> str:
    return "\n".join([f"digraph {quoted(name)} {{", *(f"    {line};" for line in (*settings, *lines)), "}\n"])


def add_out(parser: argparse.ArgumentParser) -> None:
    """The word that says where a picture goes."""
    what = "a file .svg, .png, .pdf or .dot, or a folder; without it Graphviz source on standard output"
    parser.add_argument("-o", dest="out", metavar="FILE", help=what)


def legend(rows: Iterable[Tuple[str, str]]) -> str:
    """The node of a legend: a text in its colour, a line each."""
    lines = "".join(f'<tr><td align="left"><font color="{colour}">{text}</font></td></tr>' for colour, text in rows)
    table = f'<table border="1" cellborder="0" cellspacing="0">{lines}</table>'
    return f"legend [shape=plain, fontname=Helvetica, fontsize=9, label=<{table}>]"


def write(source: str, path: Optional[str]) -> None:
    """Writes Graphviz source to standard output, or to a file, or makes the picture that the file's name asks for."""
    suffix = os.path.splitext(path)[1] if path else ""
    if path is None:
        sys.stdout.write(source)
    elif suffix in SOURCES:
        with open(path, "w", encoding="utf-8") as file:
            file.write(source)
    elif suffix in PICTURES:
        _draw(source, path, suffix)
    else:
        raise ReportError(f"{path}: a file name ends with one of {', '.join(SOURCES + PICTURES)}")


def _draw(source: str, path: str, suffix: str) -> None:
    if shutil.which("dot") is None:
        raise ReportError(f"{path}: a picture needs dot, of the package graphviz; without it write {SOURCES[0]}")
    begun = time.monotonic()
    progress = Progress(lambda: f"dot has been at work for {time.monotonic() - begun:.0f} seconds")
    with open(path, "wb") as file, tempfile.TemporaryFile() as given:
        given.write(source.encode())
        given.seek(0)
        with subprocess.Popen(["dot", f"-T{suffix[1:]}"], stdin=given, stdout=file, stderr=subprocess.PIPE) as run:
            told = None
            while told is None:
                try:
                    told = run.communicate(timeout=0.5)[1].decode(errors="replace").splitlines()
                except subprocess.TimeoutExpired:
                    progress.step()
    if run.returncode != 0:
        raise ReportError(f"{path}: dot failed: {told[0] if told else 'it says nothing'}")
