"""The architecture that a file names in its attributes, and the extensions in that text.

The text is that of tag 5 in `.riscv.attributes` (RISC-V ELF psABI, "Attributes"), as `rv64i2p1_m2p0_a2p1_c2p0_zba1p0`.
What is not as it should be has no text, and is no fault of the file.
"""

from __future__ import annotations

import re
from typing import Callable, FrozenSet, NamedTuple, Optional, Set

KIND = 0x70000003
NAME = b".riscv.attributes"
WHOLE_FILE, ARCHITECTURE = 1, 5
# A version at the end of a name, the first place from which one reaches it; and one at the front, as far as it goes.
_VERSION = "([0-9]+p)?[0-9]+"
_LONGEST = "[0-9]+(p[0-9]+)?"
_STAND_FOR = {
    "b": "zba zbb zbs", "zk": "zbkb zbkc zbkx zkne zknd zknh", "zkn": "zbkb zbkc zbkx zkne zknd zknh",
    "zks": "zbkb zbkc zbkx zksed zksh", "zce": "zcb zcmp zcmt",
}
_INTEGER_FLOATS = frozenset(("zfinx", "zdinx", "zhinx", "zhinxmin"))
_FLOATS = frozenset(("zfh", "zfhmin", "zfa", "zfbfmin"))


class Part(NamedTuple):
    """A part of attributes: whether it is the one that is looked for, what stands in it, and the bytes behind it."""

    is_wanted: bool
    body: bytes
    rest: bytes


class _Broken(Exception):
    """Bytes that are no attributes."""


def text_of(data: bytes) -> Optional[str]:
    """The text of the architecture in the bytes of a section."""
    if data[:1] != b"A":
        return None
    try:
        return _wanted(_attribute, _wanted(_whole, _wanted(_subsection, data[1:]))).decode("latin-1")
    except _Broken:
        return None


def _wanted(read: Callable[[bytes], Part], data: bytes) -> bytes:
    """The first part that is looked for, if those before it are whole."""
    while data:
        part = read(data)
        if part.is_wanted:
            return part.body
        data = part.rest
    raise _Broken


def _subsection(data: bytes) -> Part:
    size = int.from_bytes(data[:4], "little")
    if not 4 <= size <= len(data):
        raise _Broken
    vendor, body = _text(data[4:size])
    return Part(vendor == b"riscv", body, data[size:])


def _whole(data: bytes) -> Part:
    tag, at = _uleb(data)
    size = int.from_bytes(data[at:at + 4], "little")
    if not at + 4 <= size <= len(data):
        raise _Broken
    return Part(tag == WHOLE_FILE, data[at + 4:size], data[size:])


def _attribute(data: bytes) -> Part:
    tag, at = _uleb(data)
    if tag % 2 == 0:
        _, size = _uleb(data[at:])
        return Part(False, b"", data[at + size:])
    text, rest = _text(data[at:])
    return Part(tag == ARCHITECTURE, text, rest)


def _uleb(data: bytes) -> "tuple[int, int]":
    """A number, and how many bytes it has."""
    value = 0
    for place, byte in enumerate(data):
        value |= (byte & 0x7F) << 7 * place
        if byte < 0x80:
            return value, place + 1
    raise _Broken


def _text(data: bytes) -> "tuple[bytes, bytes]":
    """A text that a zero byte ends, and what stands behind it."""
    end = data.find(b"\0")
    if end < 0:
        raise _Broken
    return data[:end], data[end + 1:]


def names(text: str) -> FrozenSet[str]:
    """The extensions that a text names, in lower case, and those for which a name stands: `b`, `zk`, `zkn`, `zks` and `zce`
    for their parts, each of vectors for `v`, each of floats in integer registers for `zfinx`, each of a vendor for `xthead`.
    The names that need registers of floats name nothing beside floats in integer registers."""
    text = text.lower()
    if not text.startswith("rv64") or text[4:5] not in ("i", "e", "g"):
        return frozenset()
    found: Set[str] = set()
    for part in text[4:].split("_"):
        found |= _names_of(part)
    for name, parts in _STAND_FOR.items():
        if name in found:
            found |= set(parts.split())
    for start, one in (("zve", "v"), ("xthead", "xthead")):
        if any(name.startswith(start) for name in found):
            found.add(one)
    if found & _INTEGER_FLOATS:
        found.add("zfinx")
        found -= _FLOATS
    return frozenset(found)


def _names_of(part: str) -> Set[str]:
    """The names in a part of a text: letters, each with or without a version, and one that goes to the end, less its version.
    A part with anything else in it names nothing."""
    found: Set[str] = set()
    while part:
        if part[0] in "zsx":
            return found | {re.sub(rf"{_VERSION}\Z", "", part)}
        letter = re.match(rf"[a-z]({_LONGEST})?", part)
        if letter is None:
            return set()
        found.add(part[0])
        part = part[letter.end():]
    return found


def section(text: str) -> bytes:
    """The bytes of a section that names an architecture and says no more."""
    attribute = bytes([ARCHITECTURE]) + text.encode("ascii") + b"\0"
    part = bytes([WHOLE_FILE]) + (5 + len(attribute)).to_bytes(4, "little") + attribute
    return b"A" + (10 + len(part)).to_bytes(4, "little") + b"riscv\0" + part
