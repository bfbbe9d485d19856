"""LLVM's disassembler, for comparisons of instructions that binutils may not know."""

from __future__ import annotations

import re
import shutil
import subprocess
import tempfile
from pathlib import Path
from typing import Dict, List, Optional, Sequence, Tuple

LEAST_VERSION = 19
RV64GC = "+m,+a,+f,+d,+c,+zicsr,+zifencei"
# The same without floats, beside which stand floats in integer registers, and pushes and pops.
WITHOUT_FLOATS = "+m,+a,+zca,+zicsr,+zifencei"


def tool(name: str) -> Optional[str]:
    """The program of this name, of version 19 or later, or None."""
    for path in (f"{name}-{LEAST_VERSION}", name):
        if shutil.which(path):
            shown = subprocess.run([path, "--version"], capture_output=True, text=True).stdout
            version = re.search(r"version (\d+)", shown)
            if version and int(version[1]) >= LEAST_VERSION:
                return path
    return None


def missing() -> Optional[str]:
    """What is not installed, or None."""
    for name in ("llvm-objcopy", "llvm-objdump"):
        if tool(name) is None:
            return f"{name} {LEAST_VERSION}"
    return None


def texts(values: Sequence[int], size: int, attributes: str, base: str = RV64GC) -> List[Optional[str]]:
    """LLVM's text of each instruction of this size in bytes, or None for one that it does not know. A
    halfword is followed by a C.NOP."""
    padding, copy, dump = b"" if size == 4 else b"\x01\x00", tool("llvm-objcopy"), tool("llvm-objdump")
    assert copy is not None and dump is not None
    with tempfile.TemporaryDirectory() as folder:
        binary, made = Path(folder) / "code", Path(folder) / "code.o"
        binary.write_bytes(b"".join(value.to_bytes(size, "little") + padding for value in values))
        subprocess.run(
            [copy, "-I", "binary", "-O", "elf64-littleriscv", "--rename-section", ".data=.text,code", binary, made],
            check=True,
        )
        shown = subprocess.run(
            [dump, "-D", "-z", f"--mattr={base},{attributes}", "-M", "no-aliases,numeric", made],
            check=True, capture_output=True, text=True,
        ).stdout
    found: Dict[int, Tuple[Optional[int], str]] = {}
    for line in shown.splitlines():
        match = re.match(r"\s*([0-9a-f]+):\s+([0-9a-f]+)\s+(.*)$", line)
        if match:
            found[int(match[1], 16)] = (int(match[2], 16), " ".join(match[3].split(" #")[0].split()))
    answers: List[Optional[str]] = []
    for place, value in enumerate(values):
        shown_value, text = found.get(4 * place, (None, ""))
        answers.append(text if shown_value == value and not text.startswith("<unknown>") else None)
    return answers
