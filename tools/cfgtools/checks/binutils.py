"""What GNU binutils say of an ELF file, for the comparisons of this folder: its sections, symbols and entry
by readelf, and its instructions by objdump."""

from __future__ import annotations

import os
import re
import shutil
import subprocess
import tempfile
from typing import Dict, Iterator, List, NamedTuple, Optional, Sequence, Set, Tuple, Union

GCC = "riscv64-unknown-elf-gcc"
READELF = ("riscv64-unknown-elf-readelf", "riscv64-linux-gnu-readelf")
OBJDUMP = ("riscv64-unknown-elf-objdump", "riscv64-linux-gnu-objdump")
OBJCOPY = ("riscv64-unknown-elf-objcopy", "riscv64-linux-gnu-objcopy")
ASSEMBLER = ("riscv64-unknown-elf-as", "riscv64-linux-gnu-as")
BARE = ["-march=rv64imac", "-mabi=lp64", "-nostdlib", "-static"]


class Section(NamedTuple):
    """The addresses of a section, and where its bytes stand in the file."""

    places: range
    offset: int


class Line(NamedTuple):
    """An instruction as objdump lists it."""

    length: int
    word: int
    mnemonic: str
    operands: List[str]


def missing(*wanted: Union[str, Sequence[str]]) -> Optional[str]:
    """The first tool that is not installed, or None; a tuple stands for any one of its tools."""
    for one in wanted:
        names = (one,) if isinstance(one, str) else one
        if not any(map(shutil.which, names)):
            return " or ".join(names)
    return None


def output(names: Sequence[str], *arguments: str) -> str:
    tool = next(filter(shutil.which, names))
    return subprocess.run([tool, *arguments], check=True, capture_output=True).stdout.decode("utf-8", "surrogateescape")


def compile_c(path: str, source: str, *options: str) -> Optional[str]:
    """Builds a program of C source text and answers its path; where this compiler cannot, prints why and answers None."""
    command = [GCC, *options, "-x", "c", "-", "-lgcc", "-o", path]
    done = subprocess.run(command, input=source, capture_output=True, text=True)
    if done.returncode != 0:
        print(done.stderr, end="")
        return None
    return path


def entry(path: str) -> int:
    found = re.search(r"Entry point address:\s+0x([0-9a-f]+)", output(READELF, "-h", path))
    assert found is not None
    return int(found[1], 16)


def _sections(path: str) -> Iterator[Tuple[str, str, Section]]:
    """The sections with bytes of the program, PROGBITS with the flag ALLOC: their indices, flags, addresses and places."""
    for line in output(READELF, "-SW", path).splitlines():
        match = re.match(r"\s*\[\s*(\d+)\]\s(.*?)\s+PROGBITS\s+([0-9a-f]{16}) ([0-9a-f]+) ([0-9a-f]+) [0-9a-f]+\s+([A-Za-z]*)\s", line)
        if match and "A" in match[6]:
            start, offset, size = (int(text, 16) for text in match.group(3, 4, 5))
            yield match[1], match[6], Section(range(start, start + size), offset)


def code_sections(path: str) -> Dict[str, Section]:
    """The code sections by index, PROGBITS with the flags ALLOC and EXECINSTR: the addresses, and where the bytes
    stand in the file."""
    return {index: section for index, flags, section in _sections(path) if "X" in flags}


def declaring_sections(path: str) -> Iterator[Section]:
    """The sections of the type 8CF60001, which declare jump tables, in the order of the table. Of what stands in none of the
    types that readelf knows it prints how far behind 80000000 the type is, where the types of programs begin."""
    for line in output(READELF, "-SW", path).splitlines():
        match = re.match(r"\s*\[\s*\d+\]\s.*?\s+LOUSER\+0x0*cf60001\s+([0-9a-f]{16}) ([0-9a-f]+) ([0-9a-f]+) ", line)
        if match:
            start, offset, size = (int(text, 16) for text in match.groups())
            yield Section(range(start, start + size), offset)


def read_only_sections(path: str) -> List[Section]:
    """The sections that are read-only data, PROGBITS with ALLOC and without WRITE, in the order of the table."""
    return [section for _, flags, section in _sections(path) if "W" not in flags]


def seeds(path: str) -> Dict[int, Optional[bytes]]:
    """The addresses of the function symbols that stand in the code section which they name, and the entry, each
    with its least name that is not empty, by the order of bytes, or None."""
    sections = code_sections(path)
    names: Dict[int, Set[bytes]] = {entry(path): set()}
    for line in output(READELF, "-sW", path).splitlines():
        match = re.match(r"\s*\d+: ([0-9a-f]{16})\s+\S+ (\S+)\s+\S+\s+\S+\s+(?:\[.*\]\s+)?(\S+) ?(.*)$", line)
        if match is None or match[2] != "FUNC" or match[3] not in sections:
            continue
        address = int(match[1], 16)
        places = sections[match[3]].places
        if address % 2 == 0 and address in places and address + 1 in places:
            names.setdefault(address, set()).add(match[4].encode("utf-8", "surrogateescape"))
    return {address: min(found - {b""}, default=None) for address, found in sorted(names.items())}


def instructions(path: str) -> Dict[int, Line]:
    """objdump's reading of each code section, without aliases, by address. It reads a copy without symbols, if one can be made:
    for each address it looks through all symbols, which takes minutes of some files."""
    with tempfile.TemporaryDirectory() as folder:
        bare = os.path.join(folder, "bare")
        tool = next(filter(shutil.which, OBJCOPY), None)
        is_made = tool and subprocess.run([tool, "--strip-all", path, bare], capture_output=True).returncode == 0
        return listed(output(OBJDUMP, "-d", "-z", "-M", "no-aliases,numeric", bare if is_made else path))


def instructions_from(path: str, address: int, section: Section) -> Dict[int, Line]:
    """objdump's reading of the bytes of a section from an address on, of 64 at the most."""
    with open(path, "rb") as file, tempfile.NamedTemporaryFile() as part:
        file.seek(section.offset + address - section.places.start)
        part.write(file.read(min(64, section.places.stop - address)))
        part.flush()
        return listed(output(OBJDUMP, "-D", "-z", "-b", "binary", "-m", "riscv:rv64", "-M", "no-aliases,numeric",
                             f"--adjust-vma={address:#x}", part.name))


def listed(text: str) -> Dict[int, Line]:
    found = {}
    for line in text.splitlines():
        match = re.match(r"\s*([0-9a-f]+):\t([0-9a-f]{4,8})(?: [0-9a-f ]*)?\t(\S+)\s*(.*)$", line)
        if match:
            operands = re.sub(r"\s*(<[^>]*>|#.*)", "", match[4])
            length, word = len(match[2]) // 2, int(match[2], 16)
            found[int(match[1], 16)] = Line(length, word, match[3], operands.split(",") if operands else [])
    return found


def knows(extension: str) -> bool:
    """Whether the assembler knows an extension, and so objdump of the same package."""
    tool = next(filter(shutil.which, ASSEMBLER))
    done = subprocess.run([tool, f"-march=rv64gc_{extension}", "-o", os.devnull, "-"], input="", capture_output=True, text=True)
    return done.returncode == 0


def texts(values: Sequence[int], extensions: Sequence[str]) -> List[Optional[str]]:
    """objdump's text of each word of four bytes in a file that names these extensions beyond RV64GC, or None for one that it does
    not know or that has an operand which it does not know, as a rounding mode."""
    named = "_".join(["rv64gc", *extensions])
    with tempfile.TemporaryDirectory() as folder:
        source, made = os.path.join(folder, "words.s"), os.path.join(folder, "words.o")
        with open(source, "w", encoding="utf-8") as file:
            file.write(f'.attribute arch, "{named}"\n')
            file.writelines(f".insn 4, {value:#x}\n" for value in values)
        output(ASSEMBLER, f"-march={named}", "-o", made, source)
        shown = output(OBJDUMP, "-d", "-z", "-M", "no-aliases,numeric", made)
    found = {}
    for line in shown.splitlines():
        match = re.match(r"\s*([0-9a-f]+):\t([0-9a-f]{8})\s*\t(.*)$", line)
        if match:
            found[int(match[1], 16)] = (int(match[2], 16), " ".join(re.sub(r"\s*(<[^>]*>|#.*)", "", match[3]).split()))
    answers = []
    for place, value in enumerate(values):
        shown_value, text = found.get(4 * place, (None, ""))
        is_known = shown_value == value and not text.startswith((".4byte", ".word", ".insn")) and "unknown" not in text
        answers.append(text if is_known else None)
    return answers
