"""What the scripts have in common: the words that each takes, and the report that these ask for."""

from __future__ import annotations

import argparse
import re
from typing import BinaryIO, Iterator, Optional, Sequence, Tuple

from cfgtools.elf.elf_file import Elf
from cfgtools.explain.matching import Matching
from cfgtools.explain.unsure import Unsure
from cfgtools.reports import cfg_report, names
from cfgtools.reports.cfg_report import Block, Heading, Item, Reader, Report, ReportError
from cfgtools.reports.changed_graph import folded, rebuilt, with_edges
from cfgtools.reports.progress import Progress

REPORT_HELP = "a report, - for standard input, or an ELF file to run cfg on"


def add_words(parser: argparse.ArgumentParser, sure: bool = False) -> argparse.ArgumentParser:
    """Adds the words that all scripts take, and `--sure` for some."""
    parser.add_argument("--edges", metavar="FILE", help="edges that are known otherwise, a line each: FROM TO [KIND]")
    parser.add_argument("--demangle", action="store_true", help="show names of C++ and Rust as c++filt does")
    if sure:
        what = "leave out the edges of open tables that lead outside the function symbol that holds the jump"
        parser.add_argument("--sure", action="store_true", help=what)
        what = "count entries that add_entries guessed, as cases of switches, to the functions around them"
        parser.add_argument("--fold", action="store_true", help=what)
    return parser


def command(description: str, sure: bool = False, before: Optional[Tuple[str, Sequence[str]]] = None) -> argparse.ArgumentParser:
    """The words of a script, the first of which says what report to read; or the second, after one of several words."""
    parser = argparse.ArgumentParser(description=description)
    if before is not None:
        parser.add_argument(before[0], metavar=before[0].upper(), choices=before[1], help=", ".join(before[1]))
    parser.add_argument("report", metavar="REPORT_OR_ELF", help=REPORT_HELP)
    return add_words(parser, sure)


def live_command(description: str) -> argparse.ArgumentParser:
    """The words of a script that reads live registers."""
    parser = argparse.ArgumentParser(description=description)
    what = "a report of kind live, - for standard input, or an ELF file to run cfg --report live on"
    parser.add_argument("report", metavar="REPORT_OR_ELF", help=what)
    parser.add_argument("--demangle", action="store_true", help="show names of C++ and Rust as c++filt does")
    return parser


def add_elf(parser: argparse.ArgumentParser, what: str) -> None:
    parser.add_argument("--elf", help=f"the ELF file that the report is of, {what}")


def add_live(parser: argparse.ArgumentParser) -> None:
    """The word that asks `cfg` for a report of kind live, where it is run."""
    parser.add_argument("--live", action="store_true", help="run cfg for the live registers of an ELF file, not for its graph")


def address(text: str) -> int:
    """An address that is given in hexadecimal digits."""
    if not re.fullmatch(r"(0x)?[0-9a-fA-F]{1,16}", text):
        raise ReportError(f"`{text}` is no address in hexadecimal digits")
    return int(text, 16)


def the_elf(words: argparse.Namespace) -> Optional[Elf]:
    """The ELF file that is given, or that stands in the place of the report."""
    path = words.elf or (words.report if cfg_report.is_elf(words.report) else None)
    return Elf(path) if path else None


def items(words: argparse.Namespace, path: str, elf: Optional[Elf] = None) -> Iterator[Item]:
    """The parts of the report one by one: as they are read, where the words do not ask for another graph. They are compared
    with the ELF file."""
    _names(words, elf)
    if words.edges or getattr(words, "sure", False) or getattr(words, "fold", False):
        yield from report(words, path, elf, whole=False).items()
        return
    with cfg_report.opened(path, kind=_kind(words)) as stream:
        yield from _matching(stream, elf)


def _names(words: argparse.Namespace, elf: Optional[Elf]) -> None:
    """How names are shown from now on."""
    names.demangle(words.demangle)
    names.prefer(elf.said if elf is not None else {})


def parsed(parser: argparse.ArgumentParser, own: Optional[Sequence[str]] = None) -> argparse.Namespace:
    """The words of a script, in any order."""
    return parser.parse_intermixed_args(own)


def _kind(words: argparse.Namespace) -> str:
    """The kind of report to run `cfg` for."""
    return "live" if getattr(words, "live", False) else "graph"


def _matching(stream: BinaryIO, elf: Optional[Elf]) -> Iterator[Item]:
    """The parts of the report of a stream. Where that is a long one, it is said how far it is read."""
    matching = Matching(elf) if elf else None
    reader = Reader(stream)
    progress = Progress(lambda: f"{reader.line} lines of the report are read")
    for item in reader.items():
        if matching is not None and isinstance(item, Block):
            matching.block(item)
        elif matching is not None and isinstance(item, Heading):
            matching.entry(item.entry)
        progress.step()
        yield item


def lives(words: argparse.Namespace, path: str) -> Report:
    """A report of kind live, of a file or of what `cfg` says of an ELF file."""
    names.demangle(words.demangle)
    with cfg_report.naming(path), cfg_report.opened(path, kind="live") as stream:
        return Report(cfg_report.read(stream)).want("live")


def report(words: argparse.Namespace, path: str, elf: Optional[Elf] = None, whole: bool = True) -> Report:
    """The whole report that the words ask for, compared with the ELF file. One that is to be whole must be of kind graph
    and fit together."""
    _names(words, elf)
    with cfg_report.naming(path), cfg_report.opened(path, kind=_kind(words)) as stream:
        found = Report(_matching(stream, elf))
        if whole or words.edges or getattr(words, "sure", False) or getattr(words, "fold", False):
            found.want("graph")
            for problem in found.problems():
                raise ReportError(problem)
    if words.edges:
        found = with_edges(found, words.edges)
    if getattr(words, "fold", False):
        found = folded(found)
    if getattr(words, "sure", False):
        unsure = Unsure(elf).see_all(found.items())
        found = rebuilt(found, [edge for edge in found.edges if not unsure.is_unsure(edge)])
    return found
