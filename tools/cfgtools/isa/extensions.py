"""The instructions of further extensions: which one a word is of, and how a file that names it in its attributes has them read.

The rows are those of the standard's listings (RISC-V Unprivileged ISA 20240411), as far as `cfg` decodes them, too: of
vectors a class is enough, since none of them jumps. A file says in `.riscv.attributes` which extensions it was built for
(`architecture.py`); of a file that names none, nothing more than RV64GC is decoded.
"""

from __future__ import annotations

from typing import Dict, FrozenSet, Iterator, List, NamedTuple, Optional, Tuple

from cfgtools.isa import instructions
from cfgtools.isa.instructions import Instruction, Row, row

Names = FrozenSet[str]
NONE: Names = frozenset()

# Each group: the names of which one is needed, where `+` joins those that are needed together; then rows as in
# `instructions.py`.
_GROUPS = """
zba: sh1add 33 2 10 - d,s,t|sh2add 33 4 10 - d,s,t|sh3add 33 6 10 - d,s,t|sh1add.uw 3b 2 10 - d,s,t|sh2add.uw 3b 4 10 - d,s,t
zba: sh3add.uw 3b 6 10 - d,s,t|add.uw 3b 0 4 - d,s,t|slli.uw 1b 1 4/2 - d,s,h
zbb zbkb: andn 33 7 20 - d,s,t|orn 33 6 20 - d,s,t|xnor 33 4 20 - d,s,t|rol 33 1 30 - d,s,t|ror 33 5 30 - d,s,t|rolw 3b 1 30 - d,s,t
zbb zbkb: rorw 3b 5 30 - d,s,t|rori 13 5 30/2 - d,s,h|roriw 1b 5 30 - d,s,h|rev8 13 5 35 18 d,s|zext.h 3b 4 4 0 d,s
zbb: clz 13 1 30 0 d,s|ctz 13 1 30 1 d,s|cpop 13 1 30 2 d,s|clzw 1b 1 30 0 d,s|ctzw 1b 1 30 1 d,s|cpopw 1b 1 30 2 d,s
zbb: sext.b 13 1 30 4 d,s|sext.h 13 1 30 5 d,s|min 33 4 5 - d,s,t|minu 33 5 5 - d,s,t|max 33 6 5 - d,s,t|maxu 33 7 5 - d,s,t
zbb: orc.b 13 5 14 7 d,s
zbs: bclr 33 1 24 - d,s,t|bext 33 5 24 - d,s,t|binv 33 1 34 - d,s,t|bset 33 1 14 - d,s,t
zbs: bclri 13 1 24/2 - d,s,h|bexti 13 5 24/2 - d,s,h|binvi 13 1 34/2 - d,s,h|bseti 13 1 14/2 - d,s,h
zbc zbkc: clmul 33 1 5 - d,s,t|clmulh 33 3 5 - d,s,t
zbc: clmulr 33 2 5 - d,s,t
zknd: aes64ds 33 0 1d - d,s,t|aes64dsm 33 0 1f - d,s,t|aes64im 13 1 18 0 d,s
zknd zkne: aes64ks2 33 0 3f - d,s,t
zkne: aes64es 33 0 19 - d,s,t|aes64esm 33 0 1b - d,s,t
zknh: sha256sum0 13 1 8 0 d,s|sha256sum1 13 1 8 1 d,s|sha256sig0 13 1 8 2 d,s|sha256sig1 13 1 8 3 d,s
zknh: sha512sum0 13 1 8 4 d,s|sha512sum1 13 1 8 5 d,s|sha512sig0 13 1 8 6 d,s|sha512sig1 13 1 8 7 d,s
zksh: sm3p0 13 1 8 8 d,s|sm3p1 13 1 8 9 d,s
zbkb: pack 33 4 4 - d,s,t|packh 33 7 4 - d,s,t|packw 3b 4 4 - d,s,t|brev8 13 5 34 7 d,s
zbkx: xperm4 33 2 14 - d,s,t|xperm8 33 4 14 - d,s,t
zicond: czero.eqz 33 5 7 - d,s,t|czero.nez 33 7 7 - d,s,t
zawrs: wrs.nto =00d00073|wrs.sto =01d00073
zicbom: cbo.inval 0f 2 0 0 (s) d0|cbo.clean 0f 2 0 1 (s) d0|cbo.flush 0f 2 0 2 (s) d0
zicboz: cbo.zero 0f 2 0 4 (s) d0
zfh zfhmin zfbfmin: flh 07 1 - - D,i(s)|fsh 27 1 - - T,i(s)|fmv.x.h 53 0 72 0 d,S|fmv.h.x 53 0 7a 0 D,s
zfh zfhmin: fcvt.s.h 53 - 20 2 D,S|fcvt.h.s 53 - 22 0 D,S|fcvt.d.h 53 - 21 2 D,S|fcvt.h.d 53 - 22 1 D,S
zfbfmin: fcvt.s.bf16 53 - 20 6 D,S|fcvt.bf16.s 53 - 22 8 D,S
zfa: fli.s 53 0 78 1 D,z|fli.d 53 0 79 1 D,z|fround.s 53 - 20 4 D,S|froundnx.s 53 - 20 5 D,S|fround.d 53 - 21 4 D,S|froundnx.d 53 - 21 5 D,S
zfa: fminm.s 53 2 14 - D,S,T|fmaxm.s 53 3 14 - D,S,T|fminm.d 53 2 15 - D,S,T|fmaxm.d 53 3 15 - D,S,T|fcvtmod.w.d 53 1 61 8 d,S
zfa: fleq.s 53 4 50 - d,S,T|fltq.s 53 5 50 - d,S,T|fleq.d 53 4 51 - d,S,T|fltq.d 53 5 51 - d,S,T
zfa+zfh: fround.h 53 - 22 4 D,S|froundnx.h 53 - 22 5 D,S|fminm.h 53 2 16 - D,S,T|fmaxm.h 53 3 16 - D,S,T
zfa+zfh: fleq.h 53 4 52 - d,S,T|fltq.h 53 5 52 - d,S,T
zfa+zfh zfa+zvfh: fli.h 53 0 7a 1 D,z
v: vector.arithmetic 57 0 - - |vector.arithmetic 57 1 - - |vector.arithmetic 57 2 - - |vector.arithmetic 57 3 - -
v: vector.arithmetic 57 4 - - s|vector.arithmetic 57 5 - - |vector.arithmetic 57 6 - - s|vector.crypto 77 - - -
"""
_HALF = """fadd.h 2 - - D,S,T|fsub.h 6 - - D,S,T|fmul.h a - - D,S,T|fdiv.h e - - D,S,T|fsqrt.h 2e - 0 D,S|fsgnj.h 12 0 - D,S,T|fsgnjn.h 12 1 - D,S,T
fsgnjx.h 12 2 - D,S,T|fmin.h 16 0 - D,S,T|fmax.h 16 1 - D,S,T|fle.h 52 0 - d,S,T|flt.h 52 1 - d,S,T|feq.h 52 2 - d,S,T|fclass.h 72 1 0 d,S
fcvt.w.h 62 - 0 d,S|fcvt.wu.h 62 - 1 d,S|fcvt.l.h 62 - 2 d,S|fcvt.lu.h 62 - 3 d,S|fcvt.h.w 6a - 0 D,s|fcvt.h.wu 6a - 1 D,s|fcvt.h.l 6a - 2 D,s
fcvt.h.lu 6a - 3 D,s"""
# What the manual's second volume has, of which none is decoded.
PRIVILEGED = {0x10500073: "wfi", 0x30200073: "mret", 0x10200073: "sret", 0x7B200073: "dret", 0x70200073: "mnret"}
_CUSTOM = {0x0B: "custom-0", 0x2B: "custom-1", 0x5B: "custom-2", 0x7B: "custom-3"}


class Extended(NamedTuple):
    """A row of an extension, and the names of which all of one set are needed."""

    row: Row
    needs: Tuple[Names, ...]

    def is_named(self, names: Names) -> bool:
        return any(needed <= names for needed in self.needs)

    @property
    def extension(self) -> str:
        """The extensions as a reader knows them."""
        return " or ".join(" with ".join(name.capitalize() for name in sorted(needed)) for needed in self.needs)


def _one(text: str) -> Row:
    name, *fields = text.strip().split(" ")
    if fields[0].startswith("="):
        return Row(name, 0xFFFFFFFF, int(fields[0][1:], 16), "")
    has_no_rd = fields[-1] == "d0"
    opcode, funct3, funct7, rs2, *operands = fields[:-1] if has_no_rd else fields
    found = row(name, int(opcode, 16), funct3, funct7, rs2, operands[0] if operands else "")
    return found._replace(mask=found.mask | 31 << 7) if has_no_rd else found


def _needs(text: str) -> Tuple[Names, ...]:
    return tuple(frozenset(one.split("+")) for one in text.split(" "))


def _rows() -> Iterator[Extended]:
    for line in _GROUPS.strip().split("\n"):
        names, _, items = line.partition(": ")
        yield from (Extended(_one(item), _needs(names)) for item in items.split("|"))
    for item in _HALF.replace("\n", "|").split("|"):
        name, funct7, funct3, rs2, operands = item.split(" ")
        yield Extended(row(name, 0x53, funct3, funct7, rs2, operands), _needs("zfh"))
    for name, opcode in (("fmadd.h", 0x43), ("fmsub.h", 0x47), ("fnmsub.h", 0x4B), ("fnmadd.h", 0x4F)):
        yield Extended(Row(name, 0x0600007F, opcode | 2 << 25, "D,S,T,R"), _needs("zfh"))
    for number in range(11):
        yield Extended(row("aes64ks1i", 0x13, "1", "18", f"{16 + number:x}", "d,s"), _needs("zknd zkne"))
    for number in range(4):
        yield Extended(row("sm4ed", 0x33, "0", f"{number << 5 | 0x18:x}", "-", "d,s,t"), _needs("zksed"))
        yield Extended(row("sm4ks", 0x33, "0", f"{number << 5 | 0x1A:x}", "-", "d,s,t"), _needs("zksed"))
    yield from _atomic()
    for name, width, number in (("addsl", 1, 0), ("lrw", 4, 8), ("lurw", 4, 10), ("lrd", 4, 12), ("lurd", 4, 14)):
        yield Extended(Row(f"th.{name}", 0xF800707F, number << 27 | width << 12 | 0x0B, "v,s,t"), _needs("xthead"))
    yield Extended(Row("vendor", 0x7F, 0x0B, "v,s,t"), _needs("xthead"))
    yield from (Extended(found, _needs("v")) for found in _vector())
    yield Extended(Row("mop.r", 0xB3C0707F, 0x81C04073, "d,s"), _needs("zimop"))
    yield Extended(Row("mop.rr", 0xB200707F, 0x82004073, "d,s,t"), _needs("zimop"))


def _atomic() -> Iterator[Extended]:
    numbers = {name: number for name, number in instructions.ATOMIC.items() if name.startswith("amo")}
    numbers["amocas"] = 5
    for name, number in numbers.items():
        for place, width in enumerate("bhwdq"):
            if name != "amocas" and width in "wdq":
                continue
            needs = "zabha" if name != "amocas" else "zabha+zacas" if width in "bh" else "zacas"
            yield Extended(Row(f"{name}.{width}", 0xF800707F, number << 27 | place << 12 | 0x2F, "d,t,(s)"), _needs(needs))
    for place, width in ((2, "w"), (3, "d")):
        yield Extended(Row(f"ssamoswap.{width}", 0xF800707F, 9 << 27 | place << 12 | 0x2F, "d,t,(s)"), _needs("zicfiss"))


def _vector() -> Iterator[Row]:
    """The rows of vectors that have operands of their own."""
    for name, number in (("vmv.x.s", 0), ("vcpop.m", 16), ("vfirst.m", 17)):
        yield Row(name, 0xFC0FF07F, 0x40002057 | number << 15, "d")
    yield Row("vsetvli", 0x8000707F, 0x00007057, "d,s")
    yield Row("vsetivli", 0xC000707F, 0xC0007057, "d")
    yield Row("vsetvl", 0xC000707F, 0x80007057, "d,s,t")
    for what, opcode in (("load", 0x07), ("store", 0x27)):
        for width in (0, 5, 6, 7):
            yield Row(f"vector.{what}", 0x0C00707F, 0x08000000 | width << 12 | opcode, "s,t")
            yield Row(f"vector.{what}", 0x0000707F, width << 12 | opcode, "s")


_TABLE: Dict[int, List[Extended]] = {}
for _extended in _rows():
    _TABLE.setdefault(_extended.row.match & 0x7F, []).append(_extended)


def rows_of(word: int) -> Iterator[Extended]:
    """The rows that a word of four bytes fits, those of fewer words first."""
    found = [one for one in _TABLE.get(word & 0x7F, ()) if word & one.row.mask == one.row.match and not _is_reserved(word, one.row)]
    return iter(sorted(found, key=lambda one: -bin(one.row.mask).count("1")))


def _is_reserved(word: int, found: Row) -> bool:
    """Whether a word of four bytes is none of the row, though its mask leaves the row's match."""
    if found.name == "amocas.q" and (word >> 7 & 1 or word >> 20 & 1):
        # It reads and writes pairs of registers, which begin at an even one.
        return True
    return instructions.is_rounded(word) and not found.mask >> 12 & 7 and word >> 12 & 7 in instructions.NO_ROUNDING


# ---- floats in integer registers


def _integers() -> Iterator[Extended]:
    """The rows of floats in integer registers: those of F, D and Zfh with the operands of integers."""
    halves = [one for one in _rows() if one.needs in (_needs("zfh"), _needs("zfh zfhmin"))]
    for found in instructions.float_rows():
        if found.match & 0x7F not in (0x07, 0x27) and not found.name.startswith("fmv."):
            yield Extended(found._replace(operands=found.operands.lower()), _needs("zfinx"))
    for one in halves:
        needs = "zfinx+zhinx" if one.needs == _needs("zfh") else "zfinx+zhinx zfinx+zhinxmin"
        yield Extended(one.row._replace(operands=one.row.operands.lower()), _needs(needs))
    yield Extended(Row("vector.arithmetic", 0x707F, 0x5057, "s"), _needs("zfinx+v"))
    yield Extended(Row("vfmv.f.s", 0xFC0FF07F, 0x40001057, "d"), _needs("zfinx+v"))


_INTEGERS: Dict[int, List[Extended]] = {}
for _extended in _integers():
    _INTEGERS.setdefault(_extended.row.match & 0x7F, []).append(_extended)


def takes_away(raw: int, names: Names) -> bool:
    """Whether what a file names takes an instruction of F or D away: its registers, or the encoding of a compressed one."""
    if raw & 3 != 3:
        return raw & 1 == 0 and raw >> 13 & 3 == 1 and not names.isdisjoint(("zfinx", "zcmp", "zcmt"))
    return "zfinx" in names and (instructions.is_rounded(raw) or raw & 0x7F in (0x07, 0x27) and raw >> 12 & 7 in (2, 3))


def _integer_row(word: int, names: Names) -> Optional[Row]:
    """The row of floats in integer registers that a word fits."""
    for one in _INTEGERS.get(word & 0x7F, ()) if "zfinx" in names else ():
        if one.is_named(names) and word & one.row.mask == one.row.match and not _is_reserved(word, one.row):
            return one.row
    return None


# ---- compressed forms


class Short(NamedTuple):
    """What a compressed instruction of an extension stands for: a word, and the names that it asks for."""

    word: int
    needs: Tuple[Names, ...]


def short(half: int) -> Optional[Short]:
    """What a compressed instruction of Zcb or Zcmop stands for."""
    low, high = 8 + (half >> 2 & 7), 8 + (half >> 7 & 7)
    if half & 3 == 0 and half >> 13 == 4:
        return _memory(half, low, high)
    if half & 0xFC03 == 0x9C01 and half >> 5 & 3 >= 2:
        return _register(half, low, high)
    if half & 0xF8FF == 0x6081:
        # C.MOP.n may read register n: it stands for an instruction that does so and writes x0.
        return Short((half >> 7 & 31) << 15 | 0x13, _needs("zcmop"))
    return None


def _memory(half: int, low: int, high: int) -> Optional[Short]:
    byte, double = half >> 6 & 1 | half >> 4 & 2, half >> 4 & 2
    kind, is_set = half >> 10 & 7, half >> 6 & 1
    forms = {
        (0, 0): (4, byte), (0, 1): (4, byte), (1, 0): (5, double), (1, 1): (1, double),
        (2, 0): (0, byte), (2, 1): (0, byte), (3, 0): (1, double),
    }
    if (kind, is_set) not in forms:
        return None
    funct3, offset = forms[kind, is_set]
    if kind < 2:
        return Short(offset << 20 | high << 15 | funct3 << 12 | low << 7 | 0x03, _needs("zcb"))
    return Short(low << 20 | high << 15 | funct3 << 12 | offset << 7 | 0x23, _needs("zcb"))


def _register(half: int, low: int, high: int) -> Optional[Short]:
    same = high << 15 | high << 7
    if half >> 5 & 3 == 2:
        return Short(1 << 25 | low << 20 | same | 0x33, _needs("zcb"))
    forms = {
        0: (255 << 20 | 7 << 12 | 0x13, "zcb"), 1: (0x604 << 20 | 1 << 12 | 0x13, "zcb+zbb"), 2: (4 << 25 | 4 << 12 | 0x3B, "zcb+zbb"),
        3: (0x605 << 20 | 1 << 12 | 0x13, "zcb+zbb"), 4: (4 << 25 | 0x3B, "zcb+zba"), 5: (0xFFF << 20 | 4 << 12 | 0x13, "zcb"),
    }
    number = half >> 2 & 7
    return Short(forms[number][0] | same, _needs(forms[number][1])) if number in forms else None


# Bits 12 to 8 of the instructions of Zcmp that have a list of registers.
_WITH_LIST = {0b11000: "cm.push", 0b11010: "cm.pop", 0b11100: "cm.popretz", 0b11110: "cm.popret"}


def _listed(number: int) -> Tuple[int, ...]:
    """The registers of a list of Zcmp: ra, and so many saved ones; s10 never stands alone."""
    saved = (8, 9, *range(18, 28))
    return (1, *saved[:12 if number == 15 else number - 4])


def _lists(name: str, reads: Tuple[int, ...], writes: Tuple[int, ...]) -> Row:
    return Row(name, 0, 0, "=" + ",".join(map(str, reads)) + ">" + ",".join(map(str, writes)))


def stack(half: int) -> Optional[Extended]:
    """The instruction of Zcmp or Zcmt in the place of C.FSDSP."""
    if half & 3 != 2 or half >> 13 != 5:
        return None
    name, number = _WITH_LIST.get(half >> 8 & 31), half >> 4 & 15
    if name is not None and number >= 4:
        listed = _listed(number)
        if name == "cm.push":
            return Extended(_lists(name, (2, *listed), (2,)), _needs("zcmp"))
        return Extended(_lists(name, (2,), (2, *((10,) if name == "cm.popretz" else ()), *listed)), _needs("zcmp"))
    if half >> 10 & 7 == 3 and half >> 5 & 1:
        first, second = ((8, 9, *range(18, 24))[half >> at & 7] for at in (7, 2))
        if half >> 6 & 1:
            return Extended(_lists("cm.mva01s", (first, second), (10, 11)), _needs("zcmp"))
        return Extended(_lists("cm.mvsa01", (10, 11), (first, second)), _needs("zcmp")) if first != second else None
    if half >> 10 & 7 == 0:
        jumps = half >> 7 & 7 == 0
        return Extended(_lists("cm.jt" if jumps else "cm.jalt", (), () if jumps else (1,)), _needs("zcmt"))
    return None


# ---- decoding


def decoded(raw: int, names: Names) -> Optional[Tuple[int, int, Row]]:
    """The length, the word and the row of an instruction of RV64GC, or of the extensions of these names."""
    found = None if names and takes_away(raw, names) else instructions.decoded(raw)
    if found is not None or not names:
        return found
    if raw & 3 == 3:
        integers = _integer_row(raw, names)
        one = next((one for one in rows_of(raw) if one.is_named(names)), None) if integers is None else None
        return (4, raw, integers) if integers else (4, raw, one.row) if one else None
    placed = stack(raw & 0xFFFF)
    if placed is not None and placed.is_named(names):
        return 2, raw & 0xFFFF, placed.row
    stands_for = short(raw & 0xFFFF)
    if stands_for is None or not any(needed <= names for needed in stands_for.needs):
        return None
    whole = instructions.decoded(stands_for.word)
    if whole is not None:
        return 2, stands_for.word, whole[2]
    return next((2, stands_for.word, one.row) for one in rows_of(stands_for.word))


_known: Dict[Tuple[int, Names], Optional[Tuple[int, int, Row]]] = {}


def decode(data: bytes, address: int, names: Names = NONE) -> Optional[Instruction]:
    """The instruction at the beginning of some bytes, which stand at an address, of a file with these extensions."""
    if not names:
        return instructions.decode(data, address)
    if len(data) < 2 or data[0] & 3 == 3 and len(data) < 4:
        return None
    raw = int.from_bytes(data[:4] if data[0] & 3 == 3 else data[:2], "little")
    if (raw, names) not in _known:
        _known[raw, names] = decoded(raw, names)
    found = _known[raw, names]
    return Instruction(address, *found) if found else None


# ---- what an instruction that is not decoded is


def privileged(raw: int) -> Optional[str]:
    """The name of an instruction of a privileged mode."""
    if raw & 0x7FFF == 0x73 and raw >> 25 in (0x09, 0x0B, 0x11, 0x31):
        return {0x09: "sfence.vma", 0x0B: "sinval.vma", 0x11: "hfence.vvma", 0x31: "hfence.gvma"}[raw >> 25]
    return PRIVILEGED.get(raw)


def told(raw: int) -> Optional[str]:
    """Of which extension an instruction is that is not of RV64GC, in words, where the tables here tell it."""
    if raw & 3 != 3:
        stands_for = short(raw & 0xFFFF)
        return "of the extension " + Extended(Row("", 0, 0, ""), stands_for.needs).extension if stands_for else None
    if privileged(raw) is not None:
        return "of a privileged mode"
    custom = _CUSTOM.get(raw & 0x7F)
    if custom is not None:
        return f"of an extension of a vendor ({custom})"
    found = next(rows_of(raw), None)
    return f"of the extension {found.extension}" if found else None


def shown(raw: int) -> str:
    """An instruction that is not decoded, as digits, with its name where the tables here tell it."""
    found = next(rows_of(raw), None) if raw & 3 == 3 and raw & 0x7F not in _CUSTOM else None
    name = privileged(raw) or (found.row.name if found else None)
    digits = f"{raw:08x}" if raw & 3 == 3 else f"{raw:04x}"
    return f"{digits} {name}" if name else digits


def names_needed(raw: int) -> Optional[Names]:
    """The extensions that a file names where it has an instruction, if tables here tell it: the first of several."""
    if raw & 3 != 3:
        stands_for = short(raw & 0xFFFF)
        return stands_for.needs[0] if stands_for else None
    found = next(rows_of(raw), None) if privileged(raw) is None and raw & 0x7F not in _CUSTOM else None
    return found.needs[0] if found else None
