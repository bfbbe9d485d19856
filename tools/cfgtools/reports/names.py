"""Names as they are shown and asked for: of several names of a function the one that people say; those of C++ and Rust demangled, by
`c++filt` if it is there; with their arguments or without."""

from __future__ import annotations

import difflib
import re
import shutil
import subprocess
import sys
from typing import Dict, Iterable, List, Optional

TOOLS = ("c++filt", "riscv64-linux-gnu-c++filt", "riscv64-unknown-elf-c++filt", "llvm-cxxfilt")
MANGLED = ("_Z", "_R", "__Z")
# How many names are offered in the place of one that is not there.
MOST_LIKE = 3
_IDENTIFIER = re.compile(r"\w+")

_is_wanted = False
_run: "Optional[subprocess.Popen[str]]" = None
_known: Dict[str, str] = {}
# The name that people say, by the one that a report has.
_said: Dict[str, str] = {}


def demangle(wanted: bool) -> None:
    """Says whether names are demangled from now on."""
    global _is_wanted
    _is_wanted = wanted
    _close()
    if wanted and _tool() is None:
        print(f"names are not demangled, since {TOOLS[0]} is not installed", file=sys.stderr)


def prefer(said: Dict[str, str]) -> None:
    """Says which name is shown instead of one that a report has."""
    _said.clear()
    _said.update(said)


def _tool() -> Optional[str]:
    return next((name for name in TOOLS if shutil.which(name)), None)


def can_demangle() -> bool:
    """Whether a program is there that demangles."""
    return _tool() is not None


def _close() -> None:
    """Ends the program that demangles."""
    global _run
    _known.clear()
    if _run is not None:
        assert _run.stdin is not None and _run.stdout is not None
        _run.stdin.close()
        _run.stdout.close()
        _run.wait()
        _run = None


def demangled(name: str) -> str:
    """A name without the form that C++ and Rust give it in a file, if that can be told."""
    global _run
    if not name.startswith(MANGLED):
        return name
    if name not in _known:
        tool = _tool() if _run is None else None
        if tool is not None:
            _run = subprocess.Popen([tool], stdin=subprocess.PIPE, stdout=subprocess.PIPE, text=True, bufsize=1)
        if _run is None:
            return name
        assert _run.stdin is not None and _run.stdout is not None
        _run.stdin.write(name + "\n")
        _run.stdin.flush()
        _known[name] = _run.stdout.readline().rstrip("\n") or name
    return _known[name]


def shown(name: str) -> str:
    """A name as it is shown."""
    name = _said.get(name, name)
    return demangled(name) if _is_wanted else name


def without_arguments(name: str) -> str:
    """A demangled name up to its arguments, as `Shape::area` of `Shape::area() const`."""
    depth = 0
    for place in range(len(name) - 1, 0, -1):
        depth += {")": 1, "(": -1}.get(name[place], 0)
        if name[place] == "(" and depth == 0:
            return name[:place]
    return name


def is_asked(name: str, wanted: str) -> bool:
    """Whether a name is the one that is wanted, demangled, and with its arguments or without."""
    last = _IDENTIFIER.findall(without_arguments(wanted))[-1:]
    if not name.startswith(MANGLED) or not last or last[0] not in name:
        return False
    whole = demangled(name)
    return wanted.replace(" ", "") in (whole.replace(" ", ""), without_arguments(whole).replace(" ", ""))


def like(wanted: str, among: Iterable[str]) -> List[str]:
    """The names that are most like one that is wanted, as they are shown."""
    texts = {without_arguments(demangled(_said.get(name, name))): name for name in among}
    ends = [text for text in texts if text.rpartition("::")[2] == wanted or text.strip("_") == wanted.strip("_")]
    near = difflib.get_close_matches(without_arguments(wanted), list(texts), MOST_LIKE, 0.7)
    return list(dict.fromkeys([*sorted(ends), *near]))[:MOST_LIKE]
