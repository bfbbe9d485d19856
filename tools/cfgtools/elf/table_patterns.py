"""The jump tables of a file by this project's profile, worked out by the bytes of its code alone, as docs/REPORT.md says.

What registers hold on the way to a jump is followed along straight runs: after a bound test (the bounded form), from anywhere
(the open form), or from anywhere with the addresses that instructions further back have set (the hoisted form). The tables that
the file declares come between the first two.
"""

from __future__ import annotations

import bisect
from typing import Callable, Dict, FrozenSet, List, NamedTuple, Optional, Tuple, Union

from cfgtools.elf.declared_tables import Declared
from cfgtools.elf.elf_file import Elf, Memory
from cfgtools.isa.extensions import decode
from cfgtools.isa.instructions import Instruction, signed

# How many instructions a run to the jump has at most, and how far before the jump a test and a run may begin, in bytes.
MOST_INSTRUCTIONS, FARTHEST_TEST, FARTHEST_RUN = 16, 68, 64
OPEN_BOUND, DECLARED_BOUND = 1024, 65536
# How far before a run an address may be set, and before that its upper part; and a store of it before the run.
FARTHEST_PAIR, FARTHEST_UPPER, FARTHEST_STORE = 4096, 64, 64
STACK = 2
TOP = 2**64

# What a register holds: a tuple that begins with one of these words.
Value = Tuple
UNKNOWN: Value = ("unknown",)
INDEX: Value = ("index",)
HIGH: Value = ("high",)
# (an address that was set before the run began: ("far", address))
FAR = "far"
ENTRIES = ("entry", "entry and constant")


class Table(NamedTuple):
    """A jump table: `bound` is how many entries the test allows, and `targets` are those of all entries that count. An open one
    may be declared, or have an address that was set far before the jump."""

    base: int
    width: int
    added: int
    bound: int
    is_open: bool
    targets: Tuple[int, ...]
    is_declared: bool = False
    is_hoisted: bool = False


class Patterns:
    """Finds the jump tables of a file. What it asks of the file is answered by the classes that stand on it: the instructions of the
    section of a jump, words of read-only data, places of code, and the records that declare tables."""

    names: "FrozenSet[str]"

    def __init__(self) -> None:
        self._known: Dict[Tuple[int, int], Optional[Table]] = {}
        self._set: Dict[int, "Setting"] = {}
        # The first record of each jump: the address, what is added, the number of entries and their size.
        self.records: Dict[int, Tuple[int, int, int, int]] = {}

    def section_of(self, jump: int) -> "Optional[Tuple[int, bytes]]":
        """The address and the bytes of the section in which a jump stands."""
        raise NotImplementedError

    def word_at(self, at: int) -> Optional[int]:
        """The word at an address, of the first read-only section that has all of it."""
        raise NotImplementedError

    def code_at(self, address: int) -> Optional[int]:
        """The address, if it is one of code, or None."""
        raise NotImplementedError

    def table_of(self, jump: int, register: int) -> Optional[Table]:
        """The table of a jump through a register alone."""
        key = jump, register
        if key not in self._known:
            self._known[key] = self._first(jump, register) if register else None
        return self._known[key]

    def _first(self, jump: int, register: int) -> Optional[Table]:
        return self._bounded(jump, register) or self._declared(jump) or self._open(jump, register) or self._hoisted(jump, register)

    # ---- the four forms

    def _bounded(self, jump: int, register: int) -> Optional[Table]:
        for back in range(4, FARTHEST_TEST + 1, 2):
            test = self._test(jump, jump - back)
            if test is not None:
                # No other test is tried.
                index, bound = test
                if bound is None:
                    return None
                value = self._value(jump, jump - back + 4, register, False, {index: INDEX}, bound)
                return self._at(value, bound, False)
        return None

    def _open(self, jump: int, register: int) -> Optional[Table]:
        for back in range(4, FARTHEST_RUN + 1, 2):
            value = self._value(jump, jump - back, register, True, {})
            if value is not None and value[0] in ENTRIES:
                return self._at(value, OPEN_BOUND, True)
        return None

    def _hoisted(self, jump: int, register: int) -> Optional[Table]:
        for back in range(4, FARTHEST_RUN + 1, 2):
            begin = jump - back
            value = self._value(jump, begin, register, True, {}, far=lambda own, begin=begin: self._far(jump, begin, own),  # type: ignore[misc]
                                slot=lambda place, begin=begin: self._setting(jump).slot(place, begin))  # type: ignore[misc]
            found = self._at(value, OPEN_BOUND, True)
            if found is not None:
                return found._replace(is_hoisted=True)
        return None

    def _far(self, jump: int, begin: int, register: int) -> Value:
        """What a register holds where a run begins: the address that the last pair before has set, if there is one."""
        value = self._setting(jump).before(register, begin)
        return UNKNOWN if value is None else (FAR, value)

    def _setting(self, jump: int) -> "Setting":
        """What sets addresses in the section of a jump."""
        section = self.section_of(jump)
        assert section is not None
        if section[0] not in self._set:
            self._set[section[0]] = Setting(*section, self.names)
        return self._set[section[0]]

    def _declared(self, jump: int) -> Optional[Table]:
        base, added, count, width = self.records.get(jump, (0, 0, 0, 0))
        if width not in (4, 8):
            return None
        found = self._at(("entry and constant", base, width, added), min(count, DECLARED_BOUND), True)
        return found and found._replace(is_declared=True)

    def _test(self, jump: int, at: int) -> Optional[Tuple[int, Optional[int]]]:
        """The index that a bound test at an address compares, and how many of its values pass, if the limit is good."""
        one = self._whole(jump, at)
        if one is None or one.name not in ("bltu", "bgeu") or self._run(jump, at + 4) is None:
            return None
        index, limit = (one.rs2, one.rs1) if one.name == "bltu" else (one.rs1, one.rs2)
        if index == limit or 0 in (index, limit):
            return None
        constant = self._constant(jump, at, limit)
        if constant is None:
            return None
        bound = constant + 1 if one.name == "bltu" else constant
        return index, bound if constant >= 0 and bound > 0 else None

    def _constant(self, jump: int, at: int, register: int) -> Optional[int]:
        """The constant that the instruction just before an address sets a register to: the short one, else the long one."""
        half = self._half(jump, at - 2)
        short = decode(half.to_bytes(2, "little"), at - 2, self.names) if half is not None and half & 3 != 3 else None
        for one in (short, self._whole(jump, at - 4)):
            if one is not None and one.name == "addi" and one.rd == register and one.rs1 == 0:
                return one.immediate
        return None

    # ---- runs, and what registers hold

    def _half(self, jump: int, at: int) -> Optional[int]:
        """The halfword at an address of the jump's section."""
        section = self.section_of(jump)
        place = at - section[0] if section is not None else -1
        if section is None or place < 0 or place + 2 > len(section[1]):
            return None
        return section[1][place] | section[1][place + 1] << 8

    def _whole(self, jump: int, at: int) -> Optional[Instruction]:
        """The instruction of 32 bits at an address of the jump's section."""
        low, high = self._half(jump, at), self._half(jump, at + 2)
        if low is None or high is None or low & 3 != 3:
            return None
        return decode((low | high << 16).to_bytes(4, "little"), at, self.names)

    def _placed(self, jump: int, at: int) -> Optional[Instruction]:
        half = self._half(jump, at)
        if half is not None and half & 3 != 3:
            return decode(half.to_bytes(2, "little"), at, self.names)
        return self._whole(jump, at)

    def _run(self, jump: int, at: int) -> Optional[List[Instruction]]:
        """The straight instructions from an address up to the jump."""
        found: List[Instruction] = []
        while at != jump:
            one = self._placed(jump, at) if len(found) < MOST_INSTRUCTIONS else None
            if one is None or not one.is_straight:
                return None
            found.append(one)
            at = one.end
        return found

    def _value(self, jump: int, at: int, register: int, is_open: bool, held: Dict[int, Value], bound: int = 0,
               far: "Optional[Callable[[int], Value]]" = None, slot: "Optional[Callable[[int], Optional[int]]]" = None) -> Optional[Value]:
        """What a register holds at the jump after the straight run from an address. What it held before the run, and what is in a
        slot of the stack, is asked if there is somebody to ask."""
        run = self._run(jump, at)
        if run is None:
            return None

        def of(own: int) -> Value:
            if own and own not in held:
                held[own] = far(own) if far is not None else UNKNOWN
            return held[own] if own else _constant(0)

        for one in run:
            if one.name == "ecall":
                held.clear()
                far = None
            elif one.written is not None:
                value = _result(one, of, is_open, bound)
                if slot is not None and one.name == "ld" and one.rs1 == STACK and value == UNKNOWN:
                    stored = slot(one.immediate)
                    value = UNKNOWN if stored is None else (FAR, stored)
                held[one.written] = value
                held.update((other, UNKNOWN) for other in one.others)
            elif one.name in _VENDOR and one.rd:
                held[one.rd] = _vendor_result(one, of, is_open)
            held.update((spoiled, UNKNOWN) for spoiled in one.unknown)
        return of(register)

    # ---- entries

    def _at(self, value: Optional[Value], bound: int, is_open: bool) -> Optional[Table]:
        """The table whose entry a register holds, if it has a target at all."""
        if value is None or value[0] not in ENTRIES:
            return None
        _, base, width, added = value
        if base % width:
            return None
        targets: List[int] = []
        while len(targets) < bound:
            target = self._target(base + width * len(targets), width, added)
            if target is None:
                break
            targets.append(target)
        return Table(base, width, added, bound, is_open, tuple(targets)) if targets else None

    def _target(self, at: int, width: int, added: int) -> Optional[int]:
        """Where the entry at an address leads, if it is read-only data and leads to code."""
        words = [self.word_at(place) for place in range(at, at + width, 4)]
        if at >= TOP or None in words:
            return None
        entry = sum(word << 32 * place for place, word in enumerate(words) if word is not None)
        if width == 4 and entry >> 31:
            entry -= 1 << 32
        return self.code_at((entry + added) % TOP & ~1)


class Setting:
    """What sets addresses in a section of code: the pairs of each register, by rising address; and the stores to each slot of the
    stack of a register that a pair has set."""

    def __init__(self, start: int, data: bytes, names: "FrozenSet[str]") -> None:
        self._start, self._data, self._names = start, data, names
        # Of each register the places of its pairs, and the value of each.
        self._places: Dict[int, List[int]] = {}
        self._values: Dict[int, List[int]] = {}
        # Of each slot the places of such stores, where each ends, and its value.
        self._stored: Dict[int, List[Tuple[int, int, int]]] = {}
        self._read()

    def _read(self) -> None:
        data = self._data
        stores: List[Tuple[int, int, int, int]] = []
        for place in range(-self._start % 2, len(data) - 1, 2):
            low = data[place]
            if low & 0x7F == 0x13 and place + 4 <= len(data):
                self._note_pair(place, int.from_bytes(data[place:place + 4], "little"))
            elif low & 0x7F == 0x23 or low & 3 == 2 and data[place + 1] >> 5 == 7:
                self._note_store(place, stores)
        for at, end, register, slot in stores:
            value = self._before(register, at, FARTHEST_STORE)
            if value is not None:
                self._stored.setdefault(slot, []).append((at, end, value))

    def _note_pair(self, place: int, word: int) -> None:
        register, source = word >> 7 & 31, word >> 15 & 31
        value = self._upper(place, source) if word >> 12 & 7 == 0 and register and source else None
        if value is not None:
            self._places.setdefault(register, []).append(self._start + place)
            self._values.setdefault(register, []).append((value + signed(word >> 20, 12)) % TOP)

    def _upper(self, place: int, register: int) -> Optional[int]:
        """What the nearest LUI or AUIPC of a register leaves in it that ends at a place or before."""
        for back in range(2, FARTHEST_UPPER + 1, 2):
            at = place - back
            if at < 0:
                return None
            if self._data[at] & 3 != 3:
                if self._data[at] & 3 == 1 and self._data[at + 1] >> 5 == 3:
                    one = decode(self._data[at:at + 2], self._start + at, self._names)
                    if one is not None and one.name == "lui" and one.rd == register:
                        return one.immediate % TOP
            elif back >= 4 and self._data[at] & 0x7F in (0x17, 0x37):
                word = int.from_bytes(self._data[at:at + 4], "little")
                if word >> 7 & 31 == register:
                    return (signed(word & 0xFFFFF000, 32) + (self._start + at if word & 0x7F == 0x17 else 0)) % TOP
        return None

    def _note_store(self, place: int, stores: "List[Tuple[int, int, int, int]]") -> None:
        one = decode(self._data[place:place + 4], self._start + place, self._names)
        if one is not None and one.name == "sd" and one.rs1 == STACK and one.rs2:
            stores.append((one.address, one.end, one.rs2, one.immediate))

    def before(self, register: int, begin: int) -> Optional[int]:
        """The address that the last pair of a register sets which ends before a run begins."""
        return self._before(register, begin, FARTHEST_PAIR)

    def _before(self, register: int, begin: int, farthest: int) -> Optional[int]:
        places = self._places.get(register, [])
        last = bisect.bisect_right(places, begin - 4) - 1
        return self._values[register][last] if last >= 0 and places[last] >= begin - farthest else None

    def slot(self, place: int, begin: int) -> Optional[int]:
        """The address that the last such store to a slot of the stack has put there which ends before a run begins."""
        stored = self._stored.get(place, [])
        number = bisect.bisect_right(stored, (begin,)) - 1
        while number >= 0 and stored[number][0] >= begin - FARTHEST_PAIR:
            if stored[number][1] <= begin:
                return stored[number][2]
            number -= 1
        return None


class OfFile(Patterns):
    """Finds the jump tables of a file by its own headers."""

    def __init__(self, elf: Union[Elf, Memory]) -> None:
        super().__init__()
        self._elf, self.names = elf, elf.extensions
        self._declaring = Declared(elf)
        self._code = [(one, elf.data[one.offset:one.offset + one.size]) for one in elf.headers if one.is_code and one.size]
        self.records = {jump: (one.base, one.added, one.count, one.size) for jump, one in self._declaring.records.items()}

    def section_of(self, jump: int) -> Optional[Tuple[int, bytes]]:
        return next(((one.address, data) for one, data in self._code if one.address <= jump and jump + 2 <= one.end), None)

    def word_at(self, at: int) -> Optional[int]:
        return self._declaring.word(at)

    def code_at(self, address: int) -> Optional[int]:
        return address if self._elf.is_code(address) else None


def _constant(number: int) -> Value:
    return "constant", number % TOP


def _result(one: Instruction, of: "Callable[[int], Value]", is_open: bool, bound: int = 0) -> Value:
    """What an instruction leaves in the register that it writes, by what others hold."""
    if one.name in ("lui", "auipc"):
        return _constant(one.immediate + (one.address if one.name == "auipc" else 0))
    first = of(one.rs1)
    if one.name == "addiw":
        # (what LW has loaded is extended already)
        return first if one.immediate == 0 and first[0] == "entry" and first[2] == 4 else UNKNOWN
    if one.name == "addi":
        if one.immediate == 0:
            return first
        return _constant(first[1] + one.immediate) if first[0] == "constant" else UNKNOWN
    if one.name == "slli":
        return _moved(first, one.immediate, is_open)
    if one.name in _EXTENDED:
        return _extended(first, _EXTENDED[one.name], one.name == "sext.b" and not is_open and bound > 128)
    if one.name in _ADDED:
        shift, is_word = _ADDED[one.name]
        moved = _extended(first, (32, False)) if is_word else first
        moved = _moved(moved, shift, is_open) if shift else moved
        return moved if one.rs2 == 0 else _sum(moved, of(one.rs2))
    if one.name == "slli.uw":
        return _moved(_extended(first, (32, False)), one.immediate, is_open) if one.immediate else _extended(first, (32, False))
    if one.name == "srli":
        return {30: ("scaled", 4), 29: ("scaled", 8)}.get(one.immediate, UNKNOWN) if first == HIGH else UNKNOWN
    if one.name == "add":
        if 0 in (one.rs1, one.rs2):
            return first if one.rs2 == 0 else of(one.rs2)
        return _sum(first, of(one.rs2))
    if one.name in ("lw", "ld") and first[0] == "address" and first[2] == (4 if one.name == "lw" else 8):
        return "entry", (first[1] + one.immediate) % TOP, first[2], 0
    return UNKNOWN


def _vendor_result(one: Instruction, of: "Callable[[int], Value]", is_open: bool) -> Value:
    """What a word of a vendor that adds a moved index leaves in its register, or what it loads from there."""
    is_word, width = _VENDOR[one.name]
    moved, shift = of(one.rs2), one.word >> 25 & 3
    moved = _extended(moved, (32, False)) if is_word else moved
    moved = _moved(moved, shift, is_open) if shift else moved
    found = moved if one.rs1 == 0 else _sum(of(one.rs1), moved)
    if width == 0:
        return found
    return ("entry", found[1], width, 0) if found[0] == "address" and found[2] == width else UNKNOWN


# The words of a vendor whose result is followed: whether the index has 32 bits, and how many bytes are loaded.
_VENDOR = {"th.addsl": (False, 0), "th.lrw": (False, 4), "th.lurw": (True, 4), "th.lrd": (False, 8), "th.lurd": (True, 8)}
# How many bits instructions extend, and whether by the sign; and of those that move up and add, by how much, and whether of 32 bits.
_EXTENDED = {"sext.b": (8, True), "sext.h": (16, True), "zext.h": (16, False)}
_ADDED = {"add.uw": (0, True), **{f"sh{by}add{end}": (by, bool(end)) for by in (1, 2, 3) for end in ("", ".uw")}}


def _moved(value: Value, by: int, is_open: bool) -> Value:
    """A value that is moved up by some bits."""
    if value == INDEX or is_open and (value == UNKNOWN or value[0] == FAR):
        return {2: ("scaled", 4), 3: ("scaled", 8), 32: HIGH}.get(by, UNKNOWN)
    return UNKNOWN


def _extended(value: Value, form: Tuple[int, bool], is_changed: bool = False) -> Value:
    """A value whose low bits are extended: an index stays one, unless that changes it."""
    bits, is_signed = form
    if value[0] == "constant":
        low = value[1] % (1 << bits)
        return _constant(signed(low, bits) if is_signed else low)
    return value if value == INDEX and not is_changed else UNKNOWN


def _sum(first: Value, second: Value) -> Value:
    for one, other in ((first, second), (second, first)):
        if one[0] in ("constant", FAR) and other[0] == "scaled":
            return "address", one[1], other[1]
        # An entry to which a constant was added takes no other.
        if one[0] in ("constant", FAR) and other[0] == "entry":
            return "entry and constant", other[1], other[2], one[1]
    return UNKNOWN


def cuts(tables: Dict[int, Table]) -> Dict[int, int]:
    """How many entries are kept of each table inside which another one begins, by the address of its jump."""
    bases = sorted({table.base for table in tables.values()})
    found: Dict[int, int] = {}
    for jump, table in tables.items():
        count = len(table.targets)
        inside = [base for base in bases if table.base < base < table.base + table.width * count]
        if inside:
            kept = max(1, (inside[0] - table.base) // table.width)
            if kept < count:
                found[jump] = kept
    return found
