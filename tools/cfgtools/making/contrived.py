"""Makes bare ELF files that are legal and unpleasant to a builder of control-flow graphs, each for a size.

Each shape is one function of this module, and what it costs to read grows as fast as N: a builder that takes time
linear in its input takes four times as long where N is four times as great. The program is only read, never run.
`tools/maintain/contrived` writes them to files.
"""

from __future__ import annotations

import struct
from typing import Callable, Dict, List, Sequence

from cfgtools.making.hostile import (
    BREAK, CODE_AT, DATA_AT, NOP, RETURN, Halves, Symbol, add, branch, file_with, jump, short_jump, table_jump,
)

# A branch of four bytes over a jump of four: a way to the next such pair, and one to where the jump leads.
STEP = 8


def symbols_at(places: Sequence[int]) -> List[Symbol]:
    """Function symbols at these places, each the number of a halfword."""
    return [Symbol(CODE_AT + 2 * place) for place in places]


def branches_to(targets: Sequence[int]) -> Halves:
    """Code that branches to these places, by the number of a halfword from its own start, one behind the other.

    Each target is found by a jump of its own, behind which the next one is found."""
    halves: Halves = []
    for number, target in enumerate(targets):
        at = STEP * number
        halves += branch(1, 10, 11, STEP) + jump(0, 2 * target - (at + 4))
    return halves + RETURN


def run_found_by(order: Callable[[Sequence[int]], Sequence[int]], n: int) -> bytes:
    """A run of N instructions that go straight on, each the target of a branch, in this order."""
    front = n * STEP // 2 + 1
    return file_with(branches_to(order(range(front, front + n))) + NOP * n + RETURN)


def symbols(n: int) -> bytes:
    """A run with a symbol at each instruction."""
    return file_with(NOP * n + RETURN, symbols_at(range(n)))


def symbols_on_lines(n: int) -> bytes:
    """A run of which every 32nd instruction has a symbol, at a multiple of 64 bytes."""
    return file_with(NOP * n + RETURN, symbols_at(range(0, n, 32)))


def rising(n: int) -> bytes:
    """A run whose instructions are found one behind the other."""
    return run_found_by(list, n)


def falling(n: int) -> bytes:
    """A run whose instructions are found one in front of the other."""
    return run_found_by(lambda places: list(places)[::-1], n)


def last_then_rising(n: int) -> bytes:
    """A run of which the last instruction is found first, and then the others one behind the other."""
    return run_found_by(lambda places: [places[-1], *places[:-1]], n)


def one_callee(n: int) -> bytes:
    """N calls of one function, which returns."""
    halves: Halves = []
    for place in range(n):
        halves += jump(1, 4 * (n - place) + 2)
    return file_with(halves + RETURN + RETURN)


def one_callee_that_stays(n: int) -> bytes:
    """N calls, each found by a branch, of one function that never returns."""
    halves: Halves = []
    for place in range(n):
        halves += branch(1, 10, 11, STEP) + jump(1, STEP * (n - place) - 4 + 2)
    return file_with(halves + RETURN + short_jump(0))


def call_chain(n: int) -> bytes:
    """N functions, each of which calls the next one."""
    return file_with((jump(1, 6) + RETURN) * n + RETURN)


def branches_to_one(n: int) -> bytes:
    """N branches to one end."""
    return file_with(branches_to([n * STEP // 2 + 1] * n) + RETURN)


def one_table(n: int) -> bytes:
    """A table of 1,024 entries, through which N / 128 places jump."""
    jumps, entries = max(1, n // 128), 1024
    length = 2 * len(table_jump(0, 0, 0))
    halves: Halves = []
    for _ in range(jumps):
        halves += table_jump(entries - 1, DATA_AT, length - 4)
    front = jumps * length
    data = struct.pack(f"<{entries}I", *((CODE_AT + front + 2 * place - DATA_AT) % (1 << 32) for place in range(entries)))
    return file_with(halves + RETURN * entries, data=data)


def zigzag(n: int) -> bytes:
    """A body of N blocks that jump forward and back in turn, from the outermost ones inwards: whoever goes over them by
    rising or by falling addresses learns of two blocks at a time."""
    order = [place // 2 if place % 2 == 0 else n - 1 - place // 2 for place in range(n)]
    onward = dict(zip(order, order[1:]))
    halves: Halves = []
    for place in range(n):
        halves += jump(0, 4 * (onward[place] - place)) if place in onward else RETURN + NOP
    return file_with(halves)


def shared_tail(n: int) -> bytes:
    """N / 16 functions, each of which jumps to each of the same 16 blocks, which are no entries: each of these has as many
    blocks before it as there are functions, and one of these in each body. Each of the 16 sets another register."""
    count, tail = max(1, n // 16), 16
    length = STEP * tail // 2 + 1
    halves: Halves = []
    for place in range(count):
        front = (count - place) * length
        halves += branches_to([front + 2 * block for block in range(tail)])
    for block in range(tail):
        halves += add(16 + block, 0, 0)
    return file_with(halves + RETURN, symbols_at(range(0, count * length, length)))


def one_long_body(n: int) -> bytes:
    """A function of N blocks, one after another, the last of which reads a register that none of them sets."""
    return file_with(branch(0, 0, 0, 4) * n + add(0, 10, 0) + BREAK)


def waves(n: int) -> bytes:
    """A loop over N blocks and 31 detours: each leads from behind the N blocks to a place before them, where another
    register is read, and back. Each register is live everywhere, and the one read in detour k is learnt of at the N blocks
    after k ways back."""
    registers = range(1, 32)
    reads, length = [add(0, register, 0) for register in registers], 8
    front = 4 + length * len(registers)
    behind = front + 4 * n
    halves = jump(0, front)
    for place, read in enumerate(reads):
        after = behind + 4 * (place + 1) if place + 1 < len(reads) else front
        halves += read + jump(0, after - (4 + length * place + 4))
    halves += branch(0, 0, 0, 4) * n
    for place in range(len(reads)):
        halves += jump(0, 4 + length * place - (behind + 4 * place))
    return file_with(halves)


def streams(n: int) -> bytes:
    """N halfwords each of which begins an instruction of four bytes, so that two streams overlap up to the end, with a
    symbol at each."""
    return file_with([0x0013] * n + NOP * 2 + RETURN, symbols_at(range(n)))


def streams_that_meet(n: int) -> bytes:
    """Two streams that overlap and meet again, N / 16 times, with a symbol at each of their halfwords."""
    count = max(1, n // 16)
    return file_with(([0x0013] * 13 + NOP * 3) * count + RETURN, symbols_at(range(16 * count)))


def one_stream_cut(n: int) -> bytes:
    """Two streams of N halfwords, of which one goes on to the end without a start but its first, and the other has a symbol
    at each instruction: the block of the one passes the starts of all blocks of the other."""
    return file_with([0x0013] * n + NOP * 2 + RETURN, symbols_at([0, *range(1, n, 2)]))


def joins_from_afar(n: int) -> bytes:
    """N / 2 instructions of four bytes whose last two bytes are one too, with a symbol there: behind each the two meet. The
    chain of the first symbol goes through all of them, so it is a reason of each of these joins, from far above."""
    return file_with([0x0013, 0x0001] * (n // 2 + 1) + RETURN, symbols_at([0, *range(1, n, 2)]))


SORTING = """
    00002337 F403031B 406102B3 00028393 00001437 FA04041B 0083B023 FFD40413 00838393 FE239AE3 FF810593 3E800613 00028393
    0003B483 0083B503 00955663 00A3B023 0093B423 00838393 FEB394E3 FFF60613 FC061EE3 FB5FF06F
"""


def sorting() -> bytes:
    """A program that puts 1,000 falling doublewords on the stack and sorts them by exchanges, again and again. It is one
    for tools/maintain/bench to walk, and no shape: it has one size."""
    words = [int(word, 16) for word in SORTING.split()]
    return file_with([half for word in words for half in (word & 0xFFFF, word >> 16)])


SHAPES: Dict[str, Callable[[int], bytes]] = {
    shape.__name__: shape for shape in (
        symbols, symbols_on_lines, rising, falling, last_then_rising, one_callee, one_callee_that_stays, call_chain,
        branches_to_one, one_table, zigzag, shared_tail, one_long_body, waves, streams, streams_that_meet, one_stream_cut,
        joins_from_afar,
    )
}
