"""What the scripts of `tools/` stand on: a room for each subject. docs/PYTHON.md has the calls for scripts of your own.

No room imports one that imports it, and no module itself. From the ground up:

    reports      what a report of `cfg` says, and the graph that it has; names, and how far a reading is
    isa          RISC-V instructions: their decoding, and sets of registers
    making       ELF files that are made for tests and measurements
    elf          what is in an ELF file, and the copy of it that has more in it
    runs         what a run of a program went through
    entries      where `tools/add_entries` finds entries and jump tables
    explain      what a report leaves open, why, and what would help
    shown        the words that scripts take, and what they show: answers, pictures, forms of other programs
    checks       what other tools say of a file, and other methods; certificates by these
    repository   the crates of this repository, and the programs that are built of them
"""

from __future__ import annotations

from typing import Any

__version__ = "1.0"
__all__ = ["Graph", "GraphError", "graph"]


def __getattr__(name: str) -> Any:
    """What stands in other modules is read when it is asked for, so that a room can be used without the others."""
    if name in __all__:
        from cfgtools.shown import graph as found
        return getattr(found, name)
    raise AttributeError(f"module cfgtools has no attribute {name}")
