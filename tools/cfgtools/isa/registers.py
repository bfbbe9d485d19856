"""Sets of integer registers as masks, bit r for xr, and how they are shown: by the names of the calling convention."""

from __future__ import annotations

from typing import List

from cfgtools.isa.instructions import NAMES

# x1 to x31.
EVERY = 0xFFFFFFFE
# sp, gp and tp, which are no scratch registers even where nothing reads them any more: a signal may need them at any time.
RESERVED = 1 << 2 | 1 << 3 | 1 << 4
# In the order in which they are shown: temporaries, arguments, saved registers, and what else there is.
_GROUPS = [
    [5, 6, 7, 28, 29, 30, 31], list(range(10, 18)), [8, 9, *range(18, 28)], [1], [2], [3], [4],
]


def numbers(mask: int) -> List[int]:
    """The registers of a mask, rising."""
    return [r for r in range(32) if mask >> r & 1]


def names_of(mask: int) -> List[str]:
    """The names of the registers of a mask, by rising number."""
    return [NAMES[r] for r in numbers(mask)]


def free(mask: int, with_reserved: bool = False) -> int:
    """The registers that are not live where those of a mask are, without sp, gp and tp unless they are asked for."""
    return EVERY & ~mask & (EVERY if with_reserved else ~RESERVED)


def count(mask: int) -> int:
    return bin(mask).count("1")


def shown(mask: int) -> str:
    """The registers of a mask by their names, three or more in a row as the first and the last."""
    return " ".join(parts(mask)) or "none"


def parts(mask: int) -> List[str]:
    """What `shown` joins: nothing where there is no register."""
    found: List[str] = []
    for group in _GROUPS:
        row: List[int] = []
        for r in [*group, -1]:
            if r >= 0 and mask >> r & 1:
                row.append(r)
            elif row:
                ends = (NAMES[row[0]], NAMES[row[-1]])
                found += [f"{ends[0]}-{ends[1]}"] if len(row) > 2 else [NAMES[one] for one in row]
                row = []
    return found
