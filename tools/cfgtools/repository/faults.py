"""What the programs' error lines mean, and what to do: a sentence after each. docs/REPORT.md has the definitions."""

from __future__ import annotations

import os
import re
import struct
from typing import Dict, List, Optional

# Of a file that is refused: what it is, and what to do.
MALFORMED: Dict[str, str] = {
    "TooLarge": "the file has more than 64 MiB: `strip -g` drops debugging data and keeps the symbols",
    "Short": "the file has fewer than 64 bytes, so it is no ELF file, or its download stopped at once",
    "Magic": "this is no ELF file: give the file that the linker made, and not a source, a script or an archive",
    "Class": "this is a 32-bit file, and cfg reads 64-bit ones: compile for rv64",
    "Data": "this is a file for a big-endian machine, and cfg reads little-endian ones",
    "Version": "the file has an unknown ELF version: it is damaged",
    "Machine": "this file is not for RISC-V: compile it with a cross compiler, such as riscv64-linux-gnu-gcc -static",
    "Type": "this is an object file, which must be linked first, or a core dump",
    "HeaderSize": "the file's header has another size than 64: it is damaged",
    "ProgramTable": "the program headers do not lie in the file: a copy or a download stopped early",
    "Interp": "this file is dynamically linked: link it with -static or -static-pie",
    "NoSections": "the file has no section headers: a tool such as sstrip dropped them, so use the file from before",
    "SectionTable": "the section headers do not lie in the file: a copy or a download stopped early",
    "SectionRange": "a section does not lie in the file: a copy or a download stopped early, or the file is damaged",
    "SectionWrap": "a section goes past the last address: the file is damaged, or an address of a linker script is wrong",
    "CodeParity": "a code section begins at an odd address: look at the linker script, or for data that is marked as code",
    "CodeOverlap": "two code sections share an address: the file has overlays, by its linker script",
    "Entry": "the file starts where no instruction can stand: give the linker an entry symbol with -e; or this is a shared object",
    "SymbolTable": "the symbol table is not as the ABI says: `strip` drops it, and tools/full then finds the code",
    "SymbolName": "a symbol has a name outside the string table: `strip` drops the symbols, and tools/full then finds the code",
}
OTHERS: Dict[str, str] = {
    "write fault": "standard output was closed, as by head, or the disk is full; what was printed is cut off",
    "out of memory": "docs/PERFORMANCE.md says how much is needed",
    "too large": "its sections ask for more memory than the machine of cfg_walk has, 256 MiB",
}
# Machines by their numbers in the header of an ELF file.
MACHINES = {3: "x86", 8: "MIPS", 20: "PowerPC", 21: "PowerPC", 22: "S/390", 40: "ARM", 62: "x86-64", 183: "AArch64", 258: "LoongArch"}
_MACHINE_AT = 18


def meaning(said: str, words: List[str]) -> Optional[str]:
    """What the error line of a program that got these words means, and what to do."""
    found = re.match(r"\w+: malformed: (\w+)", said)
    if found and found[1] == "Machine":
        machine = next(filter(None, map(_machine, words)), None)
        return MALFORMED["Machine"].replace("is not for RISC-V", f"is for {machine}, and cfg reads RISC-V") if machine else MALFORMED["Machine"]
    if found:
        return MALFORMED.get(found[1])
    if re.match(r"\w+: read fault", said):
        return next(filter(None, map(_why_unread, words)), "a file could not be read")
    if re.match(r"\w+: usage: ", said):
        return "--help explains the words"
    return next((text for name, text in OTHERS.items() if re.match(rf"\w+: {name}", said)), None)


def _machine(path: str) -> Optional[str]:
    """The name of the machine that an ELF file is for, if it is known."""
    try:
        with open(path, "rb") as file:
            head = file.read(_MACHINE_AT + 2)
    except OSError:
        return None
    if len(head) < _MACHINE_AT + 2 or head[:4] != b"\x7fELF":
        return None
    return MACHINES.get(struct.unpack_from("<H", head, _MACHINE_AT)[0])


def _why_unread(word: str) -> Optional[str]:
    """Why a word that may name a file cannot be read."""
    if word.startswith("-") and word != "-" and not os.path.exists(word) or word.isdigit() or word in ("make", "test", "graph", "functions", "blocks", "edges", "live"):
        return None
    if os.path.isdir(word):
        return f"{word} is a folder"
    try:
        with open(word, "rb"):
            return None
    except OSError as error:
        return f"{word}: {error.strerror}"
