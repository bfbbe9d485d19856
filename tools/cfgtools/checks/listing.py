"""A file as objdump lists it: what each instruction is, how long it is, and where it alone sends control.

The listing shares nothing with `cfg`: it is what the checks from outside work by. Of jump tables objdump knows nothing,
so who uses it says what a jump through a register goes through.
"""

from __future__ import annotations

import re
from typing import Dict, FrozenSet, Iterable, Mapping, NamedTuple, Optional, Set, Tuple

from cfgtools.checks import binutils
from cfgtools.checks.binutils import Line, Section
from cfgtools.elf import no_return
from cfgtools.elf.elf_file import Memory
from cfgtools.elf.landings import Landings
from cfgtools.isa import extensions
from cfgtools.isa.instructions import AWAY, Instruction, decoded

JUMPS = {"jal", "jalr", "c.j", "c.jr", "c.jalr"}
BRANCHES = {"beq", "bne", "blt", "bge", "bltu", "bgeu", "c.beqz", "c.bnez"}
STOPS = {"ebreak", "c.ebreak", "unimp", "c.unimp"}
# The instructions of RV64GC that go straight on. What is none of these and no jump is no
# instruction by this project's profile, and stops.
STRAIGHT = re.compile(
    r"lui|auipc|l[bhw]u?|ld|s[bhwd]|(add|xor|or|and|sll|srl|sra)i|sltiu?|(add|sll|srl|sra)iw|"
    r"(add|sub|sll|srl|sra|slt|sltu|xor|or|and)|(add|sub|sll|srl|sra)w|mul|mulhs?u?|divu?|remu?|mulw|(div|rem)u?w|"
    r"(lr|sc|amo(swap|add|xor|and|or|minu?|maxu?))\.[wd](\.aq|\.rl|\.aqrl)?|fence(\.i|\.tso)?|pause|ecall|csrr[wsc]i?|"
    r"c\.(nop|addi4spn|l[wd](sp)?|s[wd](sp)?|addiw?|addi16sp|li|lui|s(rl|ra|ll)i(64)?|andi|sub|xor|or|and|subw|addw|mv|add)|"
    r"f[ls][wd]|f(n?m(add|sub)|add|sub|mul|div|sqrt|sgnj[nx]?|min|max|eq|lt|le|class)\.[sd]|fmv\.[xwd]\.[xwd]|"
    r"fcvt\.([sd]|wu?|lu?)\.([sd]|wu?|lu?)|c\.f[ls]d(sp)?")


class Flow(NamedTuple):
    """Where one instruction sends control: `to` is a target, `fall` where it goes on or returns to. `targets` are those of a
    jump table, where who uses the listing knows one, and `pad` is where a call lands that throws."""

    kind: str
    to: Optional[int] = None
    fall: Optional[int] = None
    targets: Tuple[int, ...] = ()
    pad: Optional[int] = None


def by_profile(line: Line) -> Line:
    """A line of objdump's, or what this project's profile reads there. FENCE and FENCE.I with fields that the standard
    reserves are instructions, as the standard asks of implementations; objdump lists none. An instruction of floating
    point whose rounding mode is reserved is none; objdump lists it, with the mode `unknown`."""
    fences = {0x000F: "fence", 0x100F: "fence.i"}
    if line.length == 4 and line.mnemonic == ".4byte" and line.word & 0x707F in fences:
        return line._replace(mnemonic=fences[line.word & 0x707F], operands=[])
    if "unknown" in line.operands:
        return line._replace(mnemonic="none", operands=[])
    return line


def jumps(link: str, register: str) -> bool:
    """Whether a JALR that is not paired is a jump: one that writes no register, or the end of an entry of a procedure linkage
    table, `jalr t1, t3` (RISC-V psABI)."""
    return link == "x0" or (link, register) == ("x6", "x28")


def of_named(line: Line, names: FrozenSet[str]) -> Optional[Line]:
    """The line of an instruction of an extension that the file names, or None. objdump may not know it: its registers are those of
    the tables here, first the one that is written, if there is one."""
    found = extensions.decoded(line.word, names)
    if found is None or decoded(line.word) == found:
        return None
    one = Instruction(0, *found)
    read = [f"x{register}" for register in one.read]
    if one.name in AWAY:
        return line._replace(mnemonic=one.name, operands=read)
    if one.written is None:
        return line._replace(mnemonic="extension.reads", operands=read)
    written = [one.written, *one.others]
    kind = "extension" if len(written) == 1 else f"extension.{len(written)}"
    return line._replace(mnemonic=kind, operands=[*(f"x{register}" for register in written), *read])


class Listing:
    """The code sections, seeds and instructions of a file."""

    def __init__(self, path: str) -> None:
        elf = Memory(path)
        self.path, self.names = path, elf.extensions
        self._landings, self._staying = Landings(elf), no_return.that_cfg_knows(elf)
        self.sections = list(binutils.code_sections(path).values())
        self.seeds = list(binutils.seeds(path))
        self.lines: Dict[int, Line] = {}
        self.halves: Dict[int, int] = {}
        self.by_bytes: Set[int] = set()
        self._alone: Dict[int, Flow] = {}
        self.add(binutils.instructions(path))

    def line(self, address: int) -> Line:
        """What stands at a code address. Where objdump lists nothing, since two streams overlap, it reads on from there."""
        if address not in self.lines:
            self.add(self.read_from([address]))
        return self.lines.get(address) or binutils.Line(2, 0, "none", [])

    def flow_at(self, address: int) -> Flow:
        """Where the instruction at an address sends control; what is no code stops."""
        if address not in self._alone:
            self._alone[address] = self.flow(address, self.line(address)) if self.code(address) is not None else Flow("stop")
        return self._alone[address]

    def read_from(self, addresses: Iterable[int]) -> Dict[int, Line]:
        """objdump's reading from addresses on at which it lists no instruction: what it adds, by address."""
        found: Dict[int, Line] = {}
        for address in addresses:
            section = self.section(address)
            if section is not None:
                found.update(binutils.instructions_from(self.path, address, section))
        return {address: line for address, line in found.items() if address not in self.lines}

    def register_alone(self, address: int) -> Optional[str]:
        """The register through which an instruction jumps to what is in it and to nothing else, if it is no return."""
        line = self.line(address)
        if line.mnemonic == "c.jr":
            register = line.operands[0]
        elif line.mnemonic == "jalr" and line.operands[1].startswith("0(") and jumps(line.operands[0], line.operands[1][2:-1]):
            register = line.operands[1][2:-1]
        else:
            return None
        return None if register in ("x0", "x1", "x5") or self.pair(address, register, 0) is not None else register

    def add(self, lines: Mapping[int, Line]) -> None:
        """Notes lines of objdump. What is no instruction by this project's profile has two bytes."""
        for address, line in lines.items():
            line = by_profile(line)
            for i in range(0, line.length, 2):
                self.halves.setdefault(address + i, line.word >> 8 * i & 0xFFFF)
            name = line.mnemonic
            is_row = name in BRANCHES | JUMPS | STOPS or STRAIGHT.fullmatch(name) is not None
            known = is_row and not extensions.takes_away(line.word, self.names)
            of_extension = of_named(line, self.names) if self.names and not known else None
            self.lines[address] = line if known else of_extension or line._replace(length=2, mnemonic="none")

    def section(self, address: int) -> Optional[Section]:
        """The code section with both bytes of a halfword at an even address, or None."""
        around = (s for s in self.sections if address in s.places and address + 1 in s.places)
        return next(around, None) if address % 2 == 0 else None

    def code(self, address: int) -> Optional[int]:
        """The address, where it is one of code, or None."""
        return None if self.section(address) is None else address

    def upper(self, address: int) -> Optional[Tuple[str, int, bool]]:
        """The register and the upper 20 bits of the AUIPC or LUI at an address, and whether it is an AUIPC, or None.
        This project's profile asks for the four bytes alone, whether or not an instruction of objdump's starts there."""
        if address in self.lines:
            line = self.lines[address]
            if line.mnemonic not in ("auipc", "lui"):
                return None
            return line.operands[0], int(line.operands[1], 16), line.mnemonic == "auipc"
        if any(place not in self.halves for place in (address, address + 2)):
            return None
        word = self.halves[address] | self.halves[address + 2] << 16
        return (f"x{word >> 7 & 31}", word >> 12, word & 0x7F == 0x17) if word & 0x7F in (0x17, 0x37) else None

    def pair(self, address: int, register: str, offset: int) -> Optional[int]:
        """The target of a jump right behind the AUIPC or LUI of its register, or None."""
        section = self.section(address)
        upper = self.upper(address - 4) if section is not None and address - 4 in section.places else None
        if register == "x0" or upper is None or upper[0] != register:
            return None
        if address - 4 not in self.lines:
            self.by_bytes.add(address)
        base = address - 4 if upper[2] else 0
        return (base + ((upper[1] ^ 0x80000) - 0x80000 << 12) + offset) % 2**64 & ~1

    def flow(self, address: int, line: Line) -> Flow:
        """Where an instruction at an address sends control. A call may land at a pad, and does not come back from some functions."""
        found = self._alone_at(address, line)
        if found.kind not in ("call", "icall"):
            return found
        fall = None if found.kind == "call" and found.to in self._staying else found.fall
        return found._replace(fall=fall, pad=self._landings.pad_of(address + line.length))

    def _alone_at(self, address: int, line: Line) -> Flow:
        behind, name = address + line.length, line.mnemonic
        if name in BRANCHES:
            taken, fall = self.code(int(line.operands[-1], 16)), self.code(behind)
            return Flow("branch-out" if None in (taken, fall) else "branch", taken, fall)
        if name in ("jal", "c.j"):
            link = line.operands[0] if name == "jal" else "x0"
            return self.to_known(link, int(line.operands[-1], 16), behind)
        if name in ("jalr", "c.jr", "c.jalr"):
            return self.through_register(address, line, behind)
        if name in AWAY:
            kind = "return" if name.startswith("cm.pop") else "unknown" if name == "cm.jt" else "icall"
            return Flow(kind, fall=self.code(behind) if kind == "icall" else None)
        if name in STOPS or name == "none" or self.code(behind) is None:
            return Flow("stop")
        return Flow("fall", fall=behind)

    def to_known(self, link: str, address: int, behind: int) -> Flow:
        target = self.code(address)
        if link == "x0":
            return Flow("unknown" if target is None else "jump", target)
        return Flow("icall" if target is None else "call", target, self.code(behind))

    def through_register(self, address: int, line: Line, behind: int) -> Flow:
        if line.mnemonic == "jalr":
            found = re.fullmatch(r"(-?\d+)\((x\d+)\)", line.operands[1])
            assert found is not None
            link, offset, register = line.operands[0], int(found[1]), found[2]
        else:
            link, offset, register = "x0" if line.mnemonic == "c.jr" else "x1", 0, line.operands[0]
        target = self.pair(address, register, offset)
        if target is not None:
            return self.to_known(link, target, behind)
        if not jumps(link, register):
            return Flow("icall", fall=self.code(behind))
        if link == "x0" and register in ("x1", "x5"):
            return Flow("return")
        return self.through_table(address, behind, register, offset)

    def through_table(self, address: int, behind: int, register: str, offset: int) -> Flow:
        """The flow of a jump through a register that is no return: through a table, or unknown."""
        return Flow("unknown")
