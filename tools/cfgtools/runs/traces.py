"""Traces: what a run has executed, from a file or from a qemu that is started for it.

A trace is read in one pass and never kept. Its lines are addresses in hexadecimal digits, or those of a log of qemu:

- `-d in_asm`: all instructions of what qemu translates, which it does when control comes there first;
- `-d exec,nochain`: the first address of each part that it runs, and with `-singlestep` of each instruction;
- `-d strace` beside these: system calls, and the signals that a thread gets.
"""

from __future__ import annotations

import contextlib
import os
import re
import select
import signal
import subprocess
import sys
import tempfile
from typing import BinaryIO, Dict, Iterator, List, NamedTuple, Optional, Tuple

from cfgtools.elf.elf_file import Memory
from cfgtools.isa.decoding import Insn, decode
from cfgtools.reports.cfg_report import ReportError
from cfgtools.reports.progress import Progress

MOST_KNOWN = 1 << 18
JUMP, RETURN, OTHER = 0, 1, 2
# How many instructions a part has at the most that qemu runs at once.
LONGEST_PART = 512

_PLAIN = re.compile(rb"\s*(?:0x)?([0-9a-fA-F]{1,16})\s*")
_TRANSLATED = re.compile(rb"0x([0-9a-f]+):\s+((?:[0-9a-f]{4} ?)+)\s")
_RUN = re.compile(rb"Trace (\d+): \S+ \[[0-9a-f]*/([0-9a-f]+)[/\]]")
_SIGNAL = b"--- SIG"
_BESIDE = (b"Linking ", b"Trace ", b"Stopped ", b"cpu_")


# ---- lines


class Step(NamedTuple):
    """An address that was executed. `length` is the instruction's in bytes, if the trace tells it. With `is_part` it is
    where a part begins that runs straight on, of which the trace has no more. A log of what was run has the number of a
    thread."""

    address: int
    length: int
    is_part: bool = False
    thread: int = 0


def _step(line: bytes) -> Optional[Step]:
    found = _TRANSLATED.match(line)
    if found:
        return Step(int(found[1], 16), len(found[2].replace(b" ", b"")) // 2)
    found = _PLAIN.fullmatch(line)
    if found:
        return Step(int(found[1], 16), 0)
    found = _RUN.match(line)
    return Step(int(found[2], 16), 0, True, int(found[1])) if found else None


class Trace:
    """The steps of a trace. If the entry is given and the program was loaded elsewhere than its file says, as a
    position-independent one is, its first address tells by how much. If a path is given, a line of no trace is an error
    that names it."""

    def __init__(self, stream: BinaryIO, entry: Optional[int] = None, path: Optional[str] = None) -> None:
        self._stream, self._path = stream, path
        self._entry = entry
        self._moved: Optional[int] = 0 if entry is None else None
        self.lines = 0

    def steps(self) -> Iterator[Step]:
        progress = Progress(lambda: f"{self.lines} lines of the trace are read")
        # A loop writes the same lines again and again.
        known: Dict[bytes, Optional[Step]] = {}
        for self.lines, line in enumerate(self._stream, 1):
            if self.lines % 4096 == 0:
                progress.step()
                if len(known) > MOST_KNOWN:
                    known.clear()
            if line not in known:
                known[line] = self._placed(_step(line), line)
            step = known[line]
            if step is not None:
                yield step

    def _placed(self, step: Optional[Step], line: bytes) -> Optional[Step]:
        """The step where the file has it."""
        if step is None:
            if self._path is not None and line.strip() and not line.startswith(_BESIDE):
                what = "no address in hexadecimal digits, and no line of a log of qemu"
                raise ReportError(f"{self._path}: line {self.lines}: {what}")
            return None
        if self._moved is None:
            assert self._entry is not None
            moved = step.address - self._entry
            self._moved = moved if moved % 4096 == 0 else 0
        return step._replace(address=step.address - self._moved)


class Log:
    """The steps of each thread, of a log of `-singlestep -d exec,nochain,strace`."""

    def __init__(self, stream: BinaryIO) -> None:
        self._stream = stream
        self.lines = 0

    def steps(self) -> Iterator[Optional[Tuple[int, int]]]:
        """The number of a thread and the address that it executes; None for a signal that comes to one of them."""
        progress = Progress(lambda: f"{self.lines} lines of the log are read")
        known: Dict[bytes, Tuple[int, int]] = {}
        for self.lines, line in enumerate(self._stream, 1):
            step = known.get(line)
            if step is not None:
                yield step
                continue
            progress.step()
            # What another thread logs may stand behind the words of a system call, on one line.
            if _SIGNAL in line:
                yield None
            found = [(int(one[1]), int(one[2], 16)) for one in _RUN.finditer(line)]
            yield from found
            if len(found) == 1:
                if len(known) > MOST_KNOWN:
                    known.clear()
                known[line] = found[0]


# ---- runs


class Run:
    """A program that is traced. `status` is what it ended with; it has none if it was stopped."""

    def __init__(self, stream: BinaryIO, process: "Optional[subprocess.Popen[bytes]]" = None) -> None:
        self.stream = stream
        self.status: Optional[int] = None
        self._process, self._is_stopped = process, False

    def stop(self) -> None:
        """Ends the program, of which no more is wanted."""
        if self._process is not None:
            self._is_stopped = True
            self._process.kill()

    def wait(self) -> None:
        if self._process is not None:
            status = self._process.wait()
            self.status = None if self._is_stopped else status


@contextlib.contextmanager
def opened(path: Optional[str], command: List[str], what: str) -> Iterator[Run]:
    """The trace of a file, of standard input for `-`, or of a command of qemu, which is started, and logs what is asked for
    into a pipe. What the program prints goes to standard error."""
    if not command:
        if path is None:
            raise ReportError("there is no trace: name a file, or a command of qemu after --")
        if path == "-":
            yield Run(sys.stdin.buffer)
        else:
            with open(path, "rb") as stream:
                yield Run(stream)
        return
    with tempfile.TemporaryDirectory() as folder:
        pipe = os.path.join(folder, "trace")
        os.mkfifo(pipe)
        end = os.open(pipe, os.O_RDONLY | os.O_NONBLOCK)
        # Ctrl-C ends the program alone, which may be one that never ends, and then what it has run is told.
        before = signal.signal(signal.SIGINT, lambda *_: None)
        try:
            started = subprocess.Popen(_traced(command, what, pipe), stdout=sys.stderr)
            with started as process, _begun(end, process) as stream:
                run = Run(stream, process)
                yield run
                run.wait()
        finally:
            signal.signal(signal.SIGINT, before)


def _traced(command: List[str], what: str, pipe: str) -> List[str]:
    """The command with the words for a log, after qemu, before which others may stand, as `timeout 5`."""
    after = next((place for place, word in enumerate(command, 1) if "qemu" in os.path.basename(word)), 1)
    return [*command[:after], "-d", what, "-D", pipe, *command[after:]]


def _begun(end: int, process: "subprocess.Popen[bytes]") -> BinaryIO:
    """The stream of a pipe, once there is something in it, or the program that writes to it has ended."""
    waiting = select.poll()
    waiting.register(end, select.POLLIN | select.POLLHUP)
    while not waiting.poll(100) and process.poll() is None:
        pass
    os.set_blocking(end, True)
    return os.fdopen(end, "rb")


# ---- arrivals through registers


class Arrivals(NamedTuple):
    """The addresses of code at which a run arrived by a jump or a call through a register, by a return, and by no instruction
    at all, as in a handler; each in the order in which they came first, with where it came from. `moves` has for each jump
    and call through a register, but for returns, all addresses to which it went, where the trace has what was run in its
    order, and not only what was run at all."""

    places: List[Dict[int, int]]
    moves: Dict[int, Dict[int, None]]


def arrivals(elf: Memory, path: str) -> Arrivals:
    """Where a run arrived, by the trace in a file."""
    found = Arrivals([{}, {}, {}], {})
    seen = set()
    before: Dict[int, Step] = {}
    with open(path, "rb") as stream:
        for step in Trace(stream, path=path).steps():
            last, at = before.get(step.thread), step.address
            pair = (last.address if last else -1, at)
            if pair not in seen:
                seen.add(pair)
                source = _source(elf, last, at) if last else -1
                kind = _arrival(elf, source, at)
                if kind is not None and elf.is_code(at):
                    found.places[kind].setdefault(at, source)
                    if kind == JUMP and not step.length:
                        found.moves.setdefault(source, {})[at] = None
            before[step.thread] = step
    return found


def _source(elf: Memory, last: Step, at: int) -> int:
    """The instruction from which control came to an address: the step before, or the last one of the part that began there. A
    part that is left before its end is left by no jump."""
    if not last.is_part:
        return last.address
    place = last.address
    for _ in range(LONGEST_PART):
        word = elf.instruction(place)
        insn = decode(word, elf.extensions) if word is not None else None
        if insn is None or insn.name[0] in "?b" or insn.name in ("jal", "jalr", "ebreak") or place + insn.length == at:
            return place
        place += insn.length
    return last.address


def _arrival(elf: Memory, last: int, at: int) -> Optional[int]:
    word = elf.instruction(last) if last >= 0 else None
    if word is None:
        return OTHER
    insn: Insn = decode(word, elf.extensions)
    if insn.name == "jalr":
        return RETURN if insn.rd == 0 and insn.rs1 in (1, 5) else JUMP
    is_next = at == last + insn.length or insn.name[0] == "?" and at == last + 4
    is_target = (insn.name[0] == "b" or insn.name == "jal") and at == last + insn.imm
    # A string of the same address twice is one instruction that was begun again.
    return None if is_next or is_target or at == last else OTHER
