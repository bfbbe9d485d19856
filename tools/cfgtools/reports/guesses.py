"""The names that `tools/add_entries` gives to entries of which nobody says that they are functions."""

from __future__ import annotations

import re
from typing import Optional

# What may be no function: code in a gap, the place after a call that seems not to return.
_GUESS = re.compile(rb"entry_(?:gap|after)_([0-9a-f]+)|behind_([0-9a-f]+)")
# What is a function most often, and otherwise a case of a switch.
_POINTED = re.compile(rb"entry_(?:ptr|made)_([0-9a-f]+)")
_TRACED = re.compile(rb"entry_trace_([0-9a-f]+)")


def is_guess(name: Optional[bytes], entry: int) -> bool:
    """Whether a name says that its function may be none."""
    found = _GUESS.fullmatch(name or b"")
    return found is not None and int(found[1] or found[2], 16) == entry


def is_pointed(name: Optional[bytes]) -> bool:
    """Whether a name says that a pointer gave the entry."""
    return _POINTED.fullmatch(name or b"") is not None


def ends_nothing(name: Optional[bytes], entry: int) -> bool:
    """Whether a function of this name may lie inside another one, so that it does not show where the one before it ends."""
    found = _POINTED.fullmatch(name or b"") or _TRACED.fullmatch(name or b"")
    return is_guess(name, entry) or found is not None and int(found[1], 16) == entry
