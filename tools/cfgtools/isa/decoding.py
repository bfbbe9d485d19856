"""Instructions as far as the scripts that look for entries want them: where control goes, and what an integer register
gets. The decoder is that of `instructions.py`; beside it a few further extensions are recognised, as far as this needs."""

from __future__ import annotations

import functools
from typing import NamedTuple, Optional, Tuple

from cfgtools.isa import extensions
from cfgtools.isa.extensions import NONE, Names
from cfgtools.isa.instructions import AWAY, KEPT_BY_CALLS, STUB_BASE, STUB_LINK, Row, decoded, immediate, only_row

UNKNOWN = "?"
CALLER_SAVED = frozenset(range(1, 32)) - KEPT_BY_CALLS
LOAD_SIZES = {"lb": 1, "lh": 2, "lw": 4, "ld": 8, "lbu": 1, "lhu": 2, "lwu": 4}
STORES = ("sb", "sh", "sw", "sd")
# What control does not go on behind.
ENDS = (UNKNOWN, "ebreak", "mret", "sret", "cm.popret", "cm.popretz", "cm.jt")
# The instructions whose result is followed, beside loads, stores, branches and jumps. Of each other one it is said only
# whether it writes an integer register.
FOLLOWED = frozenset((
    *"lui auipc jal jalr ebreak addi slti sltiu xori ori andi slli srli srai addiw slliw srliw sraiw".split(),
    *"add sub sll slt sltu xor srl sra or and addw subw beq bne blt bge bltu bgeu sh1add sh2add sh3add".split(), *LOAD_SIZES, *STORES))


class Insn(NamedTuple):
    """An instruction. Registers that it does not have are 0, as is a result that it throws away."""

    name: str
    length: int
    rd: int = 0
    rs1: int = 0
    rs2: int = 0
    imm: int = 0

    @property
    def goes_on(self) -> bool:
        """Whether control may go on to the instruction behind, if not at once, then after a call."""
        return self.name not in ENDS and not (self.name in ("jal", "jalr") and self.rd == 0) and not self.is_stub

    @property
    def is_stub(self) -> bool:
        """Whether it is a JALR that jumps, unless it is paired, though it writes a register: the end of a stub."""
        return self.name == "jalr" and (self.rd, self.rs1) == (STUB_LINK, STUB_BASE)

    @property
    def is_call(self) -> bool:
        """Whether it is a call, as far as it alone says."""
        return self.name == "cm.jalt" or self.name in ("jal", "jalr") and self.rd != 0 and not self.is_stub


@functools.lru_cache(maxsize=1 << 20)
def decode(word: int, names: Names = NONE) -> Insn:
    """The instruction that a word of four bytes stands for, or one of two bytes, which is below 65536. The names are those of
    the extensions that the file names; some are recognised without."""
    row = only_row(word & 0x707F)
    if row is not None and not extensions.takes_away(word, names):
        return _of_row(4, word, row)
    found = extensions.decoded(word, names) if names else decoded(word)
    if found is not None:
        return _of_row(*found)
    # What is not known has two bytes by the reckoning of `cfg`.
    return (_of_extension(word) if word & 3 == 3 else None) or Insn(UNKNOWN, 2)


def _of_row(length: int, word: int, row: Row) -> Insn:
    if row.name in AWAY:
        return Insn(row.name, length)
    writes, first, second, number = _fields(row.operands)
    rd = word >> 7 & 31 if writes else 0
    if row.name not in FOLLOWED:
        return Insn("calculated" if writes else "other", length, rd)
    rs1 = word >> 15 & 31 if first else 0
    rs2 = word >> 20 & 31 if second else 0
    if not number:
        return Insn(row.name, length, rd, rs1, rs2, 0)
    # (most have this form, which `immediate` has too)
    if word & 0x7F in _PLAIN and "h" not in row.operands:
        return Insn(row.name, length, rd, rs1, rs2, (word >> 20) - (word >> 31 << 12))
    return Insn(row.name, length, rd, rs1, rs2, immediate(word, row))


# The opcodes of loads, of operations with an immediate, and of JALR.
_PLAIN = frozenset((0x03, 0x13, 0x1B, 0x67))


@functools.lru_cache(maxsize=None)
def _fields(operands: str) -> Tuple[bool, bool, bool, bool]:
    """Whether an instruction writes an integer register, reads a first and a second one, and has a number."""
    if operands.startswith("="):
        return False, False, False, False
    return "d" in operands, "s" in operands, "t" in operands, bool(set("iuhb") & set(operands))


def _of_extension(word: int) -> Optional[Insn]:
    """An instruction of no row: of the extensions V, Zfh, Zba, Zbb, Zbs, Zicond and Zacas, or of a privileged mode."""
    opcode, rd, kind, rs1, rs2 = word & 0x7F, word >> 7 & 31, word >> 12 & 7, word >> 15 & 31, word >> 20 & 31
    if opcode in (0x07, 0x27, 0x57):
        return Insn("other", 4)
    if opcode == 0x33 and word >> 25 == 0x10 and kind in (2, 4, 6):
        return Insn(f"sh{kind // 2}add", 4, rd, rs1, rs2)
    if opcode in (0x33, 0x3B) or opcode in (0x13, 0x1B) and kind in (1, 5) or opcode == 0x2F and kind in (2, 3):
        return Insn("calculated", 4, rd)
    if opcode == 0x73:
        return Insn("other", 4) if kind == 0 and word >> 25 == 9 else _PRIVILEGED.get(word)
    return None


_PRIVILEGED = {0x10500073: Insn("other", 4), 0x30200073: Insn("mret", 4), 0x10200073: Insn("sret", 4)}
