"""A line on standard error now and then, if something takes long. On a terminal it is one line that gives way to answers."""

from __future__ import annotations

import os
import sys
import time
from typing import Any, Callable, TextIO

FIRST, LONGEST = 4.0, 30.0


class Progress:
    """Says how far something is, first after some seconds, then at longer intervals. `told` gives the words."""

    def __init__(self, told: Callable[[], str]) -> None:
        self._told = told
        self._wait = FIRST
        self._next = time.monotonic() + self._wait

    def step(self) -> None:
        if time.monotonic() >= self._next:
            self.say()

    def say(self) -> None:
        text = f"{os.path.basename(sys.argv[0])}: {self._told()}"
        if sys.stderr.isatty():
            _show(text)
        else:
            print(text, file=sys.stderr, flush=True)
        self._wait = min(2 * self._wait, LONGEST)
        self._next = time.monotonic() + self._wait


# Whether a line of progress stands on the terminal.
_is_shown = False


def _show(text: str) -> None:
    global _is_shown
    sys.stderr.write(f"\r\x1b[K{text[:os.get_terminal_size(sys.stderr.fileno()).columns - 1]}")
    sys.stderr.flush()
    _is_shown = True


def clear() -> None:
    """Takes the line of progress from the terminal."""
    global _is_shown
    if _is_shown:
        sys.stderr.write("\r\x1b[K")
        sys.stderr.flush()
        _is_shown = False


class Clearing:
    """A stream of text for answers, before which the line of progress is taken away."""

    def __init__(self, stream: TextIO) -> None:
        self._stream = stream

    def write(self, text: str) -> int:
        clear()
        return self._stream.write(text)

    def __getattr__(self, name: str) -> Any:
        return getattr(self._stream, name)
