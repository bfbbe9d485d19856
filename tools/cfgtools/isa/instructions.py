"""A decoder of RV64GC, for scripts that ask what the instructions of a file do.

A compressed instruction is read as the one that it stands for, by the tables of the standard (RISC-V Unprivileged ISA,
20240411). What is no instruction of RV64GC is None.
"""

from __future__ import annotations

from typing import Dict, List, NamedTuple, Optional, Tuple

NAMES = ("zero ra sp gp tp t0 t1 t2 s0 s1 a0 a1 a2 a3 a4 a5 a6 a7 s2 s3 s4 s5 s6 s7 s8 s9 s10 s11 t3 t4 t5 t6").split()
FLOATS = ("ft0 ft1 ft2 ft3 ft4 ft5 ft6 ft7 fs0 fs1 fa0 fa1 fa2 fa3 fa4 fa5 fa6 fa7 fs2 fs3 fs4 fs5 fs6 fs7 fs8 fs9 fs10"
          " fs11 ft8 ft9 ft10 ft11").split()
ARGUMENTS = range(10, 18)
# The word of `unimp`, csrrw x0, cycle, x0.
UNIMP = 0xC0001073
# The registers of `jalr t1, t3`, with which an entry of a procedure linkage table ends (RISC-V psABI). By this project's
# profile such a JALR is a jump, though it writes a register: t1 is no link register, and nothing comes back to it.
STUB_LINK, STUB_BASE = 6, 28
# The instructions of Zcmp and Zcmt that leave: two return, one jumps to an unknown target, and one calls such a one.
AWAY = ("cm.popret", "cm.popretz", "cm.jt", "cm.jalt")
# What a call leaves as it was: sp, gp, tp and the registers s0 to s11.
KEPT_BY_CALLS = frozenset((2, 3, 4, 8, 9, *range(18, 28)))

# Each row: the name, the opcode, and the numbers in the fields funct3, funct7 and rs2, where they are fixed; a number of
# six bits in funct7 stands for `/2`. Then the operands: d, s, t are registers for integers, D, S, T, R for floats, i the
# immediate of the opcode's form, h a shift, u an upper immediate, b a target, c a CSR and z its immediate.
_ROWS = """
lui 37 - - - d,u|auipc 17 - - - d,u|jal 6f - - - d,b|jalr 67 0 - - d,i(s)
beq 63 0 - - s,t,b|bne 63 1 - - s,t,b|blt 63 4 - - s,t,b|bge 63 5 - - s,t,b|bltu 63 6 - - s,t,b|bgeu 63 7 - - s,t,b
lb 03 0 - - d,i(s)|lh 03 1 - - d,i(s)|lw 03 2 - - d,i(s)|ld 03 3 - - d,i(s)
lbu 03 4 - - d,i(s)|lhu 03 5 - - d,i(s)|lwu 03 6 - - d,i(s)
sb 23 0 - - t,i(s)|sh 23 1 - - t,i(s)|sw 23 2 - - t,i(s)|sd 23 3 - - t,i(s)
addi 13 0 - - d,s,i|slti 13 2 - - d,s,i|sltiu 13 3 - - d,s,i|xori 13 4 - - d,s,i|ori 13 6 - - d,s,i|andi 13 7 - - d,s,i
slli 13 1 0/2 - d,s,h|srli 13 5 0/2 - d,s,h|srai 13 5 20/2 - d,s,h
addiw 1b 0 - - d,s,i|slliw 1b 1 0 - d,s,h|srliw 1b 5 0 - d,s,h|sraiw 1b 5 20 - d,s,h
add 33 0 0 - d,s,t|sub 33 0 20 - d,s,t|sll 33 1 0 - d,s,t|slt 33 2 0 - d,s,t|sltu 33 3 0 - d,s,t
xor 33 4 0 - d,s,t|srl 33 5 0 - d,s,t|sra 33 5 20 - d,s,t|or 33 6 0 - d,s,t|and 33 7 0 - d,s,t
mul 33 0 1 - d,s,t|mulh 33 1 1 - d,s,t|mulhsu 33 2 1 - d,s,t|mulhu 33 3 1 - d,s,t
div 33 4 1 - d,s,t|divu 33 5 1 - d,s,t|rem 33 6 1 - d,s,t|remu 33 7 1 - d,s,t
addw 3b 0 0 - d,s,t|subw 3b 0 20 - d,s,t|sllw 3b 1 0 - d,s,t|srlw 3b 5 0 - d,s,t|sraw 3b 5 20 - d,s,t
mulw 3b 0 1 - d,s,t|divw 3b 4 1 - d,s,t|divuw 3b 5 1 - d,s,t|remw 3b 6 1 - d,s,t|remuw 3b 7 1 - d,s,t
fence 0f 0 - - |fence.i 0f 1 - - |csrrw 73 1 - - d,c,s|csrrs 73 2 - - d,c,s|csrrc 73 3 - - d,c,s
csrrwi 73 5 - - d,c,z|csrrsi 73 6 - - d,c,z|csrrci 73 7 - - d,c,z
flw 07 2 - - D,i(s)|fld 07 3 - - D,i(s)|fsw 27 2 - - T,i(s)|fsd 27 3 - - T,i(s)
"""
ATOMIC = {"amoadd": 0, "amoswap": 1, "lr": 2, "sc": 3, "amoxor": 4, "amoor": 8, "amoand": 12, "amomin": 16, "amomax": 20,
           "amominu": 24, "amomaxu": 28}
# Of floats: the name, then funct7 of the form for single precision, funct3 and rs2; F is the precision.
_FLOAT_ROWS = """
fadd.F 0 - - D,S,T|fsub.F 4 - - D,S,T|fmul.F 8 - - D,S,T|fdiv.F c - - D,S,T|fsqrt.F 2c - 0 D,S
fsgnj.F 10 0 - D,S,T|fsgnjn.F 10 1 - D,S,T|fsgnjx.F 10 2 - D,S,T|fmin.F 14 0 - D,S,T|fmax.F 14 1 - D,S,T
fle.F 50 0 - d,S,T|flt.F 50 1 - d,S,T|feq.F 50 2 - d,S,T|fclass.F 70 1 0 d,S
fcvt.w.F 60 - 0 d,S|fcvt.wu.F 60 - 1 d,S|fcvt.l.F 60 - 2 d,S|fcvt.lu.F 60 - 3 d,S
fcvt.F.w 68 - 0 D,s|fcvt.F.wu 68 - 1 D,s|fcvt.F.l 68 - 2 D,s|fcvt.F.lu 68 - 3 D,s
"""


class Row(NamedTuple):
    """A row of the table: a word is of it where `mask` leaves `match` of the word."""

    name: str
    mask: int
    match: int
    operands: str

    @property
    def lists(self) -> Optional[Tuple[Tuple[int, ...], Tuple[int, ...]]]:
        """The registers that it reads and those that it writes, where its operands list them, as `=2,8>2`."""
        if not self.operands.startswith("="):
            return None
        reads, _, writes = self.operands[1:].partition(">")
        numbers = tuple(tuple(int(one) for one in text.split(",") if one) for text in (reads, writes))
        return numbers[0], numbers[1]


def row(name: str, opcode: int, funct3: str, funct7: str, rs2: str, operands: str) -> Row:
    """A row by the numbers in its fields."""
    mask, match = 0x7F, opcode
    for text, at, ones in ((funct3, 12, 7), (funct7, 25, 0x7F), (rs2, 20, 31)):
        if text != "-":
            ones = ones & ~1 if text.endswith("/2") else ones
            mask, match = mask | ones << at, match | int(text.split("/")[0], 16) << at
    return Row(name, mask, match, operands)


def _table() -> Dict[int, List[Row]]:
    rows = [Row("ecall", 0xFFFFFFFF, 0x73, ""), Row("ebreak", 0xFFFFFFFF, 0x100073, "")]
    for item in _ROWS.strip().replace("\n", "|").split("|"):
        name, code, funct3, funct7, rs2, operands = item.split(" ")
        rows.append(row(name, int(code, 16), funct3, funct7, rs2, operands))
    for name, number in ATOMIC.items():
        for width, funct3 in (("w", "2"), ("d", "3")):
            rs2, operands = ("0", "d,(s)") if name == "lr" else ("-", "d,t,(s)")
            found = row(f"{name}.{width}", 0x2F, funct3, "-", rs2, operands)
            rows.append(found._replace(mask=found.mask | 0xF8000000, match=found.match | number << 27))
    for place, precision in enumerate("sd"):
        for item in _FLOAT_ROWS.strip().replace("\n", "|").split("|"):
            name, funct7, funct3, rs2, operands = item.split(" ")
            rows.append(row(name.replace("F", precision), 0x53, funct3, f"{int(funct7, 16) + place:x}", rs2, operands))
        for name, opcode in (("fmadd", 0x43), ("fmsub", 0x47), ("fnmsub", 0x4B), ("fnmadd", 0x4F)):
            rows.append(Row(f"{name}.{precision}", 0x0600007F, opcode | place << 25, "D,S,T,R"))
    rows += [row("fcvt.s.d", 0x53, "-", "20", "1", "D,S"), row("fcvt.d.s", 0x53, "-", "21", "0", "D,S"),
             row("fmv.x.w", 0x53, "0", "70", "0", "d,S"), row("fmv.w.x", 0x53, "0", "78", "0", "D,s"),
             row("fmv.x.d", 0x53, "0", "71", "0", "d,S"), row("fmv.d.x", 0x53, "0", "79", "0", "D,s")]
    table: Dict[int, List[Row]] = {}
    for one in rows:
        table.setdefault(one.match & 0x7F, []).append(one)
    return table


def float_rows() -> List[Row]:
    """The rows of F and D."""
    codes = (0x07, 0x27, 0x43, 0x47, 0x4B, 0x4F, 0x53)
    return [one for code in codes for one in _table()[code]]


def _by_funct3(table: Dict[int, List[Row]]) -> Dict[int, List[Row]]:
    """The rows that words of an opcode may fit, by that and the field funct3."""
    found: Dict[int, List[Row]] = {}
    for opcode, rows in table.items():
        for key in range(opcode, opcode + 0x8000, 0x1000):
            found[key] = [one for one in rows if not (one.match ^ key) & one.mask & 0x7000]
    return found


def is_rounded(word: int) -> bool:
    """Whether a word has an opcode of an operation on floats."""
    return word & 0x7F in (0x43, 0x47, 0x4B, 0x4F, 0x53)


_TABLE = _by_funct3(_table())
# The rows that the opcode and the field funct3 alone tell.
_ONLY_ROWS = {key: rows[0] for key, rows in _TABLE.items() if len(rows) == 1 and not rows[0].mask & ~0x707F and not is_rounded(key)}


def only_row(key: int) -> Optional[Row]:
    """The row of all words that have these bits in the opcode and the field funct3, if that is one for all of them."""
    return _ONLY_ROWS.get(key)


def signed(value: int, bits: int) -> int:
    """The number of two's complement that so many bits of a value are."""
    value &= (1 << bits) - 1
    return value - (1 << bits) if value >> bits - 1 else value


def immediate(word: int, row: Row) -> int:
    """The immediate of the form that the opcode of a word has."""
    opcode = word & 0x7F
    if opcode in (0x37, 0x17):
        return signed(word & 0xFFFFF000, 32)
    if opcode == 0x6F:
        return signed(word >> 20 & 0x7FE | word >> 9 & 0x800 | word & 0xFF000 | word >> 11 & 0x100000, 21)
    if opcode == 0x63:
        return signed(word >> 7 & 0x1E | word >> 20 & 0x7E0 | word << 4 & 0x800 | word >> 19 & 0x1000, 13)
    if opcode in (0x23, 0x27):
        return signed((word >> 25) << 5 | word >> 7 & 31, 12)
    return word >> 20 & 63 if "h" in row.operands else signed(word >> 20, 12)


class Instruction(NamedTuple):
    """An instruction. `word` is that of the instruction itself, which a compressed one stands for."""

    address: int
    length: int
    word: int
    row: Row

    @property
    def name(self) -> str:
        return self.row.name

    @property
    def end(self) -> int:
        return self.address + self.length

    @property
    def rd(self) -> int:
        return self.word >> 7 & 31

    @property
    def rs1(self) -> int:
        return self.word >> 15 & 31

    @property
    def rs2(self) -> int:
        return self.word >> 20 & 31

    @property
    def immediate(self) -> int:
        """The immediate of the form that the opcode has; of a branch or JAL it is relative to the address."""
        return immediate(self.word, self.row)

    @property
    def target(self) -> int:
        """Where a branch or JAL goes."""
        return (self.address + self.immediate) % 2**64

    @property
    def written(self) -> Optional[int]:
        """The register for integers that it writes, the first of several."""
        lists = self.row.lists
        if lists is not None:
            return lists[1][0] if lists[1] else None
        return self.rd or None if self.row.operands.startswith("d") else None

    @property
    def read(self) -> Tuple[int, ...]:
        """The registers for integers that it reads. AMOCAS reads its destination too, and AMOCAS.Q two pairs, of which that of
        x0 is x0 alone."""
        operands = self.row.operands
        if self.row.lists is not None:
            return self.row.lists[0]
        named = ((self.rs1,) if "s" in operands else ()) + ((self.rs2,) if "t" in operands else ())
        named += ((self.word >> 27 & 31,) if "r" in operands else ()) + ((self.rd,) if "v" in operands else ())
        if self.name == "amocas.q":
            pairs = ((first, first + 1) if first else (0,) for first in (self.rd, self.rs2))
            return (*(register for pair in pairs for register in pair), self.rs1)
        return (self.rd, *named) if self.name.startswith("amocas") else named

    @property
    def others(self) -> Tuple[int, ...]:
        """The other registers for integers that it writes: AMOCAS.Q writes a pair, and a pop several."""
        if self.row.lists is not None:
            return self.row.lists[1][1:]
        return (self.rd + 1,) if self.name == "amocas.q" and self.rd else ()

    @property
    def unknown(self) -> Tuple[int, ...]:
        """The registers of which nothing is known after it, though it is not known to write them: those of a vendor's word that
        computes nothing that is followed."""
        return (self.rd, self.rs1, self.rs2) if self.name == "vendor" else ()

    @property
    def is_load(self) -> bool:
        return self.word & 0x7F == 0x03

    @property
    def is_branch(self) -> bool:
        return self.word & 0x7F == 0x63

    @property
    def is_turn(self) -> bool:
        """Whether it is a branch, JAL or JALR."""
        return self.word & 0x7F in (0x63, 0x67, 0x6F)

    @property
    def is_stub(self) -> bool:
        """Whether it is a JALR that jumps, unless it is paired, though it writes a register."""
        return self.name == "jalr" and (self.rd, self.rs1) == (STUB_LINK, STUB_BASE)

    @property
    def is_straight(self) -> bool:
        """Whether control goes straight on behind it: it is no branch or jump, and neither EBREAK nor `unimp`."""
        return not self.is_turn and self.name not in ("ebreak", *AWAY) and self.word != UNIMP

    @property
    def text(self) -> str:
        """The instruction as an assembler reads it; the commonest short forms in the place of what they stand for."""
        return _short(self) or f"{self.name}{_order(self)} {_operands(self)}".strip()


def _order(one: Instruction) -> str:
    return ("", ".rl", ".aq", ".aqrl")[one.word >> 25 & 3] if one.word & 0x7F == 0x2F else ""


def _operands(one: Instruction) -> str:
    letters = {
        "d": NAMES[one.rd], "s": NAMES[one.rs1], "t": NAMES[one.rs2], "D": FLOATS[one.rd], "S": FLOATS[one.rs1],
        "T": FLOATS[one.rs2], "R": FLOATS[one.word >> 27 & 31], "r": NAMES[one.word >> 27 & 31], "v": "", "u": f"{one.word >> 12:#x}", "c": f"{one.word >> 20:#x}",
        "z": str(one.rs1), "h": f"{one.immediate:#x}", "i": str(one.immediate), "b": f"{one.target:x}",
    }
    if one.row.lists is not None:
        return ""
    return "".join(letters.get(letter, letter) for letter in one.row.operands)


def _short(one: Instruction) -> Optional[str]:
    rd, rs1 = NAMES[one.rd], NAMES[one.rs1]
    if one.name == "addi":
        if one.rs1 == 0:
            return f"li {rd},{one.immediate}" if one.rd else "nop" if not one.immediate else None
        return f"mv {rd},{rs1}" if one.immediate == 0 else None
    if one.name == "add" and one.rs1 == 0:
        return f"mv {rd},{NAMES[one.rs2]}"
    if one.name == "jal" and one.rd < 2:
        return f"{'jal' if one.rd else 'j'} {one.target:x}"
    if one.name == "jalr" and one.rd < 2 and one.immediate == 0:
        return "ret" if (one.rd, one.rs1) == (0, 1) else f"{'jalr' if one.rd else 'jr'} {rs1}"
    if one.is_branch and one.rs2 == 0:
        return f"{one.name}z {rs1},{one.target:x}" if one.name in ("beq", "bne", "blt", "bge") else None
    return None


# ---- compressed forms


def _bits(half: int, *places: Tuple[int, int, int]) -> int:
    """The number that parts of another make up: each its lowest bit, how many bits, and where they go."""
    found = 0
    for low, count, to in places:
        found |= (half >> low & (1 << count) - 1) << to
    return found


def _i(opcode: int, funct3: int, rd: int, rs1: int, immediate: int) -> int:
    return (immediate & 0xFFF) << 20 | rs1 << 15 | funct3 << 12 | rd << 7 | opcode


def _s(opcode: int, funct3: int, rs1: int, rs2: int, immediate: int) -> int:
    return (immediate >> 5 & 127) << 25 | rs2 << 20 | rs1 << 15 | funct3 << 12 | (immediate & 31) << 7 | opcode


def _r(opcode: int, funct3: int, funct7: int, rd: int, rs1: int, rs2: int) -> int:
    return funct7 << 25 | rs2 << 20 | rs1 << 15 | funct3 << 12 | rd << 7 | opcode


def _from_jump(rd: int, to: int) -> int:
    return _bits(to, (1, 10, 21), (11, 1, 20), (12, 8, 12), (20, 1, 31)) | rd << 7 | 0x6F


def _from_branch(funct3: int, rs1: int, to: int) -> int:
    return _bits(to, (1, 4, 8), (5, 6, 25), (11, 1, 7), (12, 1, 31)) | rs1 << 15 | funct3 << 12 | 0x63


def expanded(half: int) -> Optional[int]:
    """The word that a compressed instruction stands for."""
    return (_quadrant_0, _quadrant_1, _quadrant_2)[half & 3](half, half >> 13) if half & 3 != 3 else None


def _quadrant_0(half: int, kind: int) -> Optional[int]:
    rd, rs1 = 8 + (half >> 2 & 7), 8 + (half >> 7 & 7)
    if kind == 0:
        immediate = _bits(half, (6, 1, 2), (5, 1, 3), (11, 2, 4), (7, 4, 6))
        return _i(0x13, 0, rd, 2, immediate) if immediate else None
    of_word, of_double = _bits(half, (6, 1, 2), (10, 3, 3), (5, 1, 6)), _bits(half, (10, 3, 3), (5, 2, 6))
    loads = {1: (0x07, 3, of_double), 2: (0x03, 2, of_word), 3: (0x03, 3, of_double)}
    stores = {5: (0x27, 3, of_double), 6: (0x23, 2, of_word), 7: (0x23, 3, of_double)}
    if kind in loads:
        opcode, funct3, immediate = loads[kind]
        return _i(opcode, funct3, rd, rs1, immediate)
    if kind in stores:
        opcode, funct3, immediate = stores[kind]
        return _s(opcode, funct3, rs1, rd, immediate)
    return None


def _quadrant_1(half: int, kind: int) -> Optional[int]:
    rd, short = half >> 7 & 31, signed(_bits(half, (2, 5, 0), (12, 1, 5)), 6)
    if kind in (0, 2):
        return _i(0x13, 0, rd, rd if kind == 0 else 0, short)
    if kind == 1:
        return _i(0x1B, 0, rd, rd, short) if rd else None
    if kind == 3 and rd == 2:
        immediate = signed(_bits(half, (6, 1, 4), (2, 1, 5), (5, 1, 6), (3, 2, 7), (12, 1, 9)), 10)
        return _i(0x13, 0, 2, 2, immediate) if immediate else None
    if kind == 3:
        return (short & 0xFFFFF) << 12 | rd << 7 | 0x37 if short else None
    if kind == 4:
        return _arithmetic(half, 8 + (half >> 7 & 7), short)
    if kind == 5:
        places = ((3, 3, 1), (11, 1, 4), (2, 1, 5), (7, 1, 6), (6, 1, 7), (9, 2, 8), (8, 1, 10), (12, 1, 11))
        return _from_jump(0, signed(_bits(half, *places), 12))
    to = signed(_bits(half, (3, 2, 1), (10, 2, 3), (2, 1, 5), (5, 2, 6), (12, 1, 8)), 9)
    return _from_branch(kind - 6, 8 + (half >> 7 & 7), to)


def _arithmetic(half: int, rd: int, short: int) -> Optional[int]:
    kind = half >> 10 & 3
    if kind < 2:
        return _i(0x13, 5, rd, rd, short & 63 | kind << 10)
    if kind == 2:
        return _i(0x13, 7, rd, rd, short)
    # By bits 12, 6 and 5: sub, xor, or, and, subw, addw.
    forms = ((0x33, 0, 32), (0x33, 4, 0), (0x33, 6, 0), (0x33, 7, 0), (0x3B, 0, 32), (0x3B, 0, 0))
    which = _bits(half, (5, 2, 0), (12, 1, 2))
    return _r(*forms[which], rd, rd, 8 + (half >> 2 & 7)) if which < len(forms) else None


def _quadrant_2(half: int, kind: int) -> Optional[int]:
    rd, rs2 = half >> 7 & 31, half >> 2 & 31
    if kind == 0:
        return _i(0x13, 1, rd, rd, _bits(half, (2, 5, 0), (12, 1, 5)))
    if kind == 4:
        return _moves(half, rd, rs2)
    of_word, of_double = _bits(half, (4, 3, 2), (12, 1, 5), (2, 2, 6)), _bits(half, (5, 2, 3), (12, 1, 5), (2, 3, 6))
    loads = {1: (0x07, 3, of_double), 2: (0x03, 2, of_word), 3: (0x03, 3, of_double)}
    if kind in loads:
        opcode, funct3, immediate = loads[kind]
        return _i(opcode, funct3, rd, 2, immediate) if rd or kind == 1 else None
    to_word, to_double = _bits(half, (9, 4, 2), (7, 2, 6)), _bits(half, (10, 3, 3), (7, 3, 6))
    opcode, funct3, immediate = {5: (0x27, 3, to_double), 6: (0x23, 2, to_word), 7: (0x23, 3, to_double)}[kind]
    return _s(opcode, funct3, 2, rs2, immediate)


def _moves(half: int, rd: int, rs2: int) -> Optional[int]:
    links = half >> 12 & 1
    if rs2:
        return _r(0x33, 0, 0, rd, rd if links else 0, rs2)
    if rd:
        return _i(0x67, 0, links, rd, 0)
    return 0x100073 if links else None


# ---- decoding

_known: Dict[int, Optional[Tuple[int, int, Row]]] = {}
# The numbers of no rounding mode, in the field funct3 of an operation on floats that rounds.
NO_ROUNDING = (5, 6)


def decoded(raw: int) -> Optional[Tuple[int, int, Row]]:
    """The length, the word and the row of an instruction word of four bytes, or of one of two bytes."""
    length, word = (4, raw) if raw & 3 == 3 else (2, expanded(raw & 0xFFFF))
    if word is None:
        return None
    found = next((one for one in _TABLE.get(word & 0x707F, ()) if word & one.mask == one.match), None)
    if found is None or is_rounded(word) and not found.mask >> 12 & 7 and word >> 12 & 7 in NO_ROUNDING:
        return None
    return length, word, found


def decode(data: bytes, address: int) -> Optional[Instruction]:
    """The instruction at the beginning of some bytes, which stand at an address."""
    if len(data) < 2:
        return None
    raw = int.from_bytes(data[:4] if data[0] & 3 == 3 else data[:2], "little")
    if data[0] & 3 == 3 and len(data) < 4:
        return None
    if raw not in _known:
        _known[raw] = decoded(raw)
    found = _known[raw]
    return Instruction(address, *found) if found else None
