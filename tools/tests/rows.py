"""The reports of some worked rows of docs/ROWS.md, in the short notation of that page, and an ELF file around code."""

from __future__ import annotations

import struct
import sys
from pathlib import Path
from typing import Dict, List, NamedTuple, Tuple

TOOLS = Path(__file__).resolve().parent.parent
MAINTAIN = TOOLS / "maintain"
sys.path.insert(0, str(TOOLS))
sys.dont_write_bytecode = True


def script_path(name: str) -> Path:
    """Where a script is: among those that users run, or among those for maintainers."""
    return next(it for it in (TOOLS / name, MAINTAIN / name) if it.is_file())


class Row(NamedTuple):
    """A function is `entry status name: blocks`, a block `start end kind` and an edge `from to kind`. `masks` has the live
    registers of the blocks at which not all of x1 to x31 are live; no block of these rows has two masks."""

    functions: str
    blocks: str
    edges: str = ""
    code: str = ""
    data: str = ""
    entry: str = "10000"
    masks: str = ""


ROWS: Dict[int, Row] = {
    # No row of that page but the example of docs/REPORT.md: a return that is taken for a jump.
    0: Row("10000 may-return -: 10000", "10000 10008 unknown", code="80970513 80820001", masks="10000 fffffbfe"),
    1: Row("10000 may-return -: 10000", "10000 10004 return", code="00008067"),
    5: Row("10000 may-return a: 10000, 10004 may-return c: 10004", "10000 10004 return, 10004 10008 return",
           code="00008067 00008067"),
    6: Row("10000 may-return -: 10000 10004 1000c", "10000 10004 fall, 10004 1000c branch, 1000c 10010 return",
           "10000 10004 fall, 10004 10004 taken, 10004 1000c fall", "00000013 FFF50513 FE051EE3 00008067"),
    7: Row("10000 may-return -: 10000 10004, 10002 may-return two: 10002 10004",
           "10000 10004 fall, 10002 10004 fall, 10004 10008 return", "10000 10004 fall, 10002 10004 fall", "00010013 00008067"),
    8: Row("10000 may-return -: 10000 10002 10004 10008",
           "10000 10004 fall, 10002 10004 fall, 10004 10008 branch, 10008 1000c return",
           "10000 10004 fall, 10002 10004 fall, 10004 10002 taken, 10004 10008 fall", "00010013 FE051FE3 00008067"),
    9: Row("10000 no-return -: 10000", "10000 10004 call", "10000 10000 call", "000000EF 00008067", masks="10000 fffffffc"),
    10: Row("10000 may-return -: 10000 10004 10008, 1000c may-return -: 1000c 10010",
            "10000 10004 branch, 10004 10008 call, 10008 1000c return, 1000c 10010 call, 10010 10014 return",
            "10000 10004 fall, 10000 10008 taken, 10004 10008 after, 10004 1000c call, 1000c 10000 call, 1000c 10010 after",
            "00050463 008000EF 00008067 FF5FF0EF 00008067", masks="10004 fffffffc, 1000c fffffffc"),
    11: Row("10000 may-return -: 10000 10008", "10000 10008 icall, 10008 10010 unknown", "10000 10008 after",
            "00100097 000080E7 00100097 00008067", masks="10000 fffffffc, 10008 fffffffc"),
    12: Row("10000 may-return -: 10000 10004", "10000 10004 branch-out, 10004 10008 jump",
            "10000 10004 fall, 10004 10004 jump", "04050063 0000006F",
            masks="10004 00000000"),
    13: Row("10000 may-return -: 10000 10008 10020 10024 10028",
            "10000 10008 branch, 10008 10020 table, 10020 10024 return, 10024 10028 return, 10028 1002c return",
            "10000 10008 fall, 10000 10028 taken, 10008 10020 table, 10008 10024 table",
            "00700793 02A7E263 00020737 00251513 00E50533 00052783 00E787B3 00078067 00008067 00008067 00008067 00008067",
            masks="10000 ffff7ffe, 10008 ffff3ffe"),
    15: Row("10000 may-return -: 10000 10008 10020 10024, 10028 may-return b: 10028 10030 10050 10054",
            "10000 10008 branch, 10008 10020 table-cut, 10020 10024 return, 10024 10028 return, 10028 10030 branch,"
            " 10030 1004c table, 10050 10054 return, 10054 10058 return",
            "10000 10008 fall, 10000 10024 taken, 10008 10020 table, 10028 10030 fall, 10028 10050 taken, 10030 10054 table",
            "00300793 02A7E063 00020737 00251513 00E50533 00052783 00E787B3 00078067 00008067 00008067 00100793 02A7E263"
            " 00020737 00870713 00251513 00E50533 00052783 00E787B3 00078067 00008067 00008067 00008067",
            masks="10000 ffff7ffe, 10008 ffff3ffe, 10028 ffff7ffe, 10030 ffff3ffe"),
    16: Row("10000 no-return -: 10000", "10000 10002 stop", code="00000000", masks="10000 00000000"),
    17: Row("10000 may-return -: 10000 10004 10008, 1000c may-return g: 1000c",
            "10000 10004 branch, 10004 10008 jump, 10008 1000c return, 1000c 10010 jump",
            "10000 10004 fall, 10000 10008 taken, 10004 10000 jump, 1000c 10000 tail", "00050463 FFDFF06F 00008067 FF5FF06F"),
    32: Row("10000 may-return -: 10000 10018 1001c", "10000 10018 table-open, 10018 1001c return, 1001c 10020 return",
            "10000 10018 table, 10000 1001c table",
            "00020737 00251513 00E50533 00052783 00E787B3 00078067 00008067 00008067", masks="10000 ffff3ffe"),
    33: Row("10000 may-return -: 10000 10008 1001c 10020 10024",
            "10000 10008 branch, 10008 1001c table, 1001c 10020 return, 10020 10024 return, 10024 10028 return",
            "10000 10008 fall, 10000 10024 taken, 10008 1001c table, 10008 10020 table",
            "00100793 02A7E063 00020737 00351513 00E50533 00053783 00078067 00008067 00008067 00008067",
            masks="10000 ffff7ffe, 10008 ffff3ffe"),
    34: Row("10000 may-return -: 10000 10018, 10020 may-return b: 10020 1003c",
            "10000 10018 table-open, 10018 1001c return, 10020 1003c table-open, 1003c 10040 return",
            "10000 10018 table, 10020 1003c table",
            "00020737 00251513 00E50533 00052783 00E787B3 00078067 00008067 00008067 00020737 00470713 00251513 00E50533"
            " 00052783 00E787B3 00078067 00008067", masks="10000 ffff3ffe, 10020 ffff3ffe"),
    40: Row("10000 may-return -: 10000", "10000 10008 return", code="00000513 00008067", masks="10000 fffffbfe"),
    41: Row("10000 no-return -: 10000", "10000 10004 jump", "10000 10000 jump", "0000006F", masks="10000 00000000"),
}


def _items(text: str) -> List[str]:
    return [item.strip() for item in text.split(",") if item.strip()]


def _lined(word: str, item: str) -> str:
    first, second, kind = item.split(" ")
    return f"{word} {int(first, 16):016x} {int(second, 16):016x} {kind}"


def sections(row: Row) -> Tuple[List[str], List[str], List[str]]:
    """The lines of functions, blocks and edges."""
    functions: List[str] = []
    for item in _items(row.functions):
        head, _, body = item.partition(": ")
        entry, status, name = head.split(" ")
        starts = body.split(" ")
        functions.append(f"function {int(entry, 16):016x} {status} {len(starts)} {name}")
        functions += [f"in {int(start, 16):016x}" for start in starts]
    blocks, edges = _items(row.blocks), _items(row.edges)
    return ([f"functions {len(_items(row.functions))}", *functions],
            [f"blocks {len(blocks)}", *(_lined("block", item) for item in blocks)],
            [f"edges {len(edges)}", *(_lined("edge", item) for item in edges)])


def lives(row: Row) -> List[str]:
    """The lines of live registers."""
    masks = dict(item.split(" ") for item in _items(row.masks))
    found: List[str] = []
    for line in sections(row)[0]:
        word, _, rest = line.partition(" ")
        found.append(f"live {rest} {masks.get(f'{int(rest, 16):x}', 'fffffffe')}" if word == "in" else line)
    return [found[0].replace("functions", "lives"), *found[1:]]


def lines(number: int, kind: str = "graph") -> List[str]:
    """The lines of a row's report of a kind."""
    row = ROWS[number]
    functions, blocks, edges = sections(row)
    parts = {"functions": [functions], "blocks": [blocks], "edges": [edges], "live": [lives(row)]}.get(kind, [functions, blocks, edges])
    return ["cfg-report 2", f"entry {int(row.entry, 16):016x}", *(line for part in parts for line in part), "end"]


def report(number: int, kind: str = "graph") -> bytes:
    return "".join(line + "\n" for line in lines(number, kind)).encode()


def elf(number: int) -> bytes:
    """A file with a row's code at 10000, and a symbol `start` there of 4 bytes."""
    code = b"".join(int(word, 16).to_bytes(4, "little") for word in ROWS[number].code.split())
    strings = b"\0start\0.text\0"
    symbols = bytes(24) + struct.pack("<IBBHQQ", 1, 2, 0, 1, 0x10000, 4)
    header = struct.pack("<4sBBBB8xHHIQQQIHHHHHH", b"\x7fELF", 2, 1, 1, 0, 2, 243, 1, 0x10000, 0,
                         64 + len(code) + len(strings) + len(symbols), 0, 64, 0, 0, 64, 4, 3)

    def section(kind: int, flags: int, address: int, at: int, size: int, link: int, entry: int) -> bytes:
        return struct.pack("<IIQQQQIIQQ", 7 if flags else 0, kind, flags, address, at, size, link, 0, 1, entry)

    at_strings, at_symbols = 64 + len(code), 64 + len(code) + len(strings)
    return (header + code + strings + symbols + bytes(64) + section(1, 6, 0x10000, 64, len(code), 0, 0)
            + section(2, 0, 0, at_symbols, len(symbols), 3, 24) + section(3, 0, 0, at_strings, len(strings), 0, 0))
