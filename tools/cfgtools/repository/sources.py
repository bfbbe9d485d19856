"""The crates of a repository: which stands on which, and sums of their files; and what the toolchain says of itself."""

from __future__ import annotations

import hashlib
import os
import re
import shutil
import subprocess
from typing import Container, Dict, Iterator, List, Optional, Sequence, Tuple

# What a check of a crate does not read, and what a program is not made from: if only a proof has changed, its code stays proved.
NOT_CHECKED = ("out", "must-fail", "more-edits")
NOT_BUILT = (*NOT_CHECKED, "proofs")

Uses = Dict[str, List[str]]


def uses_of(top: str) -> Uses:
    """The crates of the repository, in the order of crates.txt, and of each the crates that it uses."""
    with open(os.path.join(top, "crates.txt"), encoding="utf-8") as it:
        rows = [line.partition("#")[0].partition(":") for line in it]
    named = {head.split()[0]: tail.split() for head, _, tail in rows if head.strip()}
    return {name: [it for it in uses if it in named] for name, uses in named.items()}


def below(name: str, uses: Uses) -> List[str]:
    """The crates that a crate stands on, each behind those that it uses, and the crate itself."""
    found: List[str] = []

    def visit(crate: str) -> None:
        for it in uses[crate]:
            if it not in found:
                visit(it)
        found.append(crate)

    visit(name)
    return found


def put_rows(room: str, top: str, crates: Container[str]) -> None:
    """Puts into a folder the rows that crates.txt has of these crates, and HANDLES."""
    with open(os.path.join(top, "crates.txt"), encoding="utf-8") as it:
        rows = [line for line in it if (line.partition(":")[0].split() or [""])[0] in crates]
    with open(os.path.join(room, "crates.txt"), "w", encoding="utf-8") as it:
        it.write("".join(rows))
    if os.path.isfile(os.path.join(top, "HANDLES")):
        shutil.copy(os.path.join(top, "HANDLES"), room)


def files_of(crate: str, left_out: Sequence[str] = NOT_CHECKED) -> Iterator[str]:
    """The files of the crate in this folder, and the folders in it that they are in."""
    for at, folders, files in os.walk(crate):
        folders[:] = sorted(it for it in folders if it not in left_out)
        yield from (os.path.join(at, it) for it in folders)
        yield from (os.path.join(at, it) for it in sorted(files))


def newest(crate: str) -> float:
    """The time at which the crate in this folder was last changed."""
    return max(os.path.getmtime(it) for it in files_of(crate))


def sum_of(crate: str, uses: List[str], left_out: Sequence[str] = NOT_CHECKED) -> str:
    """A sum of the crate in this folder, without the libraries below it."""
    found = hashlib.sha256(repr(sorted(uses)).encode())
    for file in files_of(crate, left_out):
        if os.path.isfile(file):
            with open(file, "rb") as it:
                found.update(repr((os.path.relpath(file, crate), it.read())).encode())
    return found.hexdigest()


def file_sum(path: str) -> str:
    with open(path, "rb") as it:
        return hashlib.sha256(it.read()).hexdigest()


def kit_of(rt: Optional[str]) -> str:
    """The line that the toolchain whose command this is says of itself; nothing without a command."""
    if not rt:
        return ""
    return said_by(rt, "version")[0].strip()


def keeps_proofs(rt: str) -> bool:
    """Whether the gate of the toolchain whose command this is keeps here what it proved: by its help it can prove all anew, and
    the folder beside the kit can be written to."""
    of_gate = re.search(r"(?ms)^ *rt ci\b.*?(?=^ *rt (?!ci\b)|\Z)", "".join(said_by(rt, "help")))
    if not of_gate or "--anew" not in of_gate[0]:
        return False
    beside = os.path.dirname(os.path.dirname(said_by(rt, "doc")[0].strip()))
    store = os.path.join(beside, "rattle-kept")
    if os.path.lexists(store):
        return os.path.isdir(store) and os.lstat(store).st_uid == os.geteuid()
    return os.access(beside, os.W_OK)


def said_by(rt: str, word: str) -> Tuple[str, str]:
    """What the toolchain says to a word: on standard output, and on standard error."""
    said = subprocess.run([rt, word], stdin=subprocess.DEVNULL, capture_output=True, text=True, errors="replace")
    return said.stdout, said.stderr
