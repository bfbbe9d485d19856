"""The words of the programs' command lines: which of them a program refuses, as docs/REPORT.md and the other pages say, and help."""

from __future__ import annotations

import os
import subprocess
from typing import Dict, List, Optional

USAGE = {
    "cfg": "cfg [--workers N] [--report KIND] FILE | cfg [--workers N] --make N",
    "cfg_walk": "cfg_walk STEPS FILE",
    "cfg_check": "cfg_check make FILE | cfg_check test FILE CERT",
}
USAGE["cfg_one"] = USAGE["cfg"]
REPORT_KINDS = ("graph", "functions", "blocks", "edges", "live")
MOST_WORKERS, MOST_STEPS, MADE = 64, 1_000_000, range(4, 100_001)

HELP = {"cfg": """
usage: bin/cfg [--workers N] [--report KIND] FILE
       bin/cfg [--workers N] --make N

Prints the control-flow graph of a statically linked ELF-64 executable for RISC-V as text.

  FILE            the executable; after --, also one whose name begins with a dash
  --report KIND   graph, or a part of it: functions, blocks or edges; or live, the live registers
  --workers N     N threads, 1 to 64; the bytes are the same for every N
  --make N        reads no file: makes a program of N functions, 4 to 100000, and prints a summary of its graph
  --stale         as the first word: run the program that is built, whatever it was made from
  --unproved      as the first word: build a program without a proof, in some minutes, for this run alone
  -h, --help      print this; --version says what is built

The exit status is 0 with a report, 1 for wrong words, 2 for a file that is no such executable. The first use proves and builds
the program. docs/USING.md has what to do with a report; tools/full finds more code.
""", "cfg_walk": """
usage: bin/cfg_walk STEPS FILE

Runs a program on a machine that is written as a definition, and prints the blocks that it passes.

  STEPS   how many instructions it takes at most, 1 to 1000000
  FILE    a statically linked ELF-64 executable for RISC-V that needs no operating system

The first use proves and builds the program. docs/WALKING.md explains the trace.
""", "cfg_check": """
usage: bin/cfg_check make FILE
       bin/cfg_check test FILE CERT

Makes a certificate of a file's control-flow graph, or tests one and prints the report if it is valid.

The first use proves and builds the program. docs/CERTIFICATES.md explains certificates.
"""}
HELP["cfg_one"] = HELP["cfg"]


def asks_for_help(name: str, words: List[str]) -> bool:
    return name in HELP and any(it in ("-h", "--help") for it in _options(name, words))


def asks_for_version(name: str, words: List[str]) -> bool:
    return name in HELP and "--version" in _options(name, words)


def _options(name: str, words: List[str]) -> List[str]:
    """The words at which help may be asked for: those before `--`; of programs without options, the first."""
    if not name.startswith("cfg_one") and name != "cfg":
        return words[:1]
    return words[:words.index("--")] if "--" in words else words


def version(name: str, top: str) -> str:
    """What is built, and of what: the commit, and the toolchain's kit by the note that bin/build wrote."""
    git = ["git", "-C", top, "describe", "--always", "--dirty"]
    try:
        done = subprocess.run(git, stdout=subprocess.PIPE, stderr=subprocess.DEVNULL, text=True)
        commit = done.stdout.strip() or "unknown"
    except OSError:
        commit = "unknown"
    kit = next((line.partition(" ")[2] for line in _note(name, top) if line.startswith("kit ")), None)
    return f"{name}: sources of commit {commit}; " + (f"built by {kit}" if kit else "not built")


def _note(name: str, top: str) -> List[str]:
    for one in (name, "cfg_one") if name == "cfg" else (name,):
        path = os.path.join(top, "crates", one, "out", f"{one}.made")
        if os.path.isfile(path):
            with open(path, encoding="utf-8") as file:
                return file.read().splitlines()
    return []


def are_taken(name: str, words: List[str]) -> bool:
    """Whether a program takes these words. A word that is not UTF-8 is none."""
    if any(not _is_utf8(word) for word in words):
        return False
    if name == "cfg_walk":
        return len(words) == 2 and _number(words[0], range(1, MOST_STEPS + 1))
    if name == "cfg_check":
        return words[:1] == ["make"] and len(words) == 2 or words[:1] == ["test"] and len(words) == 3
    return _of_cfg(words)


def _of_cfg(words: List[str]) -> bool:
    found = parsed(words)
    if found is None or ("file" in found) == ("make" in found) or "make" in found and "report" in found:
        return False
    return (_number(found.get("workers", "1"), range(1, MOST_WORKERS + 1)) and found.get("report", "graph") in REPORT_KINDS
            and _number(found.get("make", "4"), MADE))


def parsed(words: List[str]) -> Optional[Dict[str, str]]:
    """What each argument of `cfg` is given; None if that cannot be. No value that counts begins with a dash, so the word after an
    option is taken for its value."""
    found: Dict[str, str] = {}
    left, is_escaped = list(words), False
    while left:
        word = left.pop(0)
        if not is_escaped and word == "--":
            is_escaped = True
            continue
        if is_escaped or not word.startswith("-") or word == "-":
            name, value = "file", word
        else:
            name, has_value, value = word[2:].partition("=")
            if not word.startswith("--") or name not in ("workers", "report", "make") or not has_value and not left:
                return None
            value = value if has_value else left.pop(0)
        if name in found:
            return None
        found[name] = value
    return found


def _number(text: str, among: range) -> bool:
    return text.isascii() and text.isdigit() and len(text) <= 9 and int(text) in among


def _is_utf8(word: str) -> bool:
    try:
        word.encode()
        return True
    except UnicodeEncodeError:
        return False
