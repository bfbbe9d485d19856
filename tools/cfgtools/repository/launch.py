"""The scripts of an installed package (pip install): each is a function here, by its name, that runs it."""

from __future__ import annotations

import os
import runpy
import sys
from typing import Callable

SCRIPTS = os.path.join(os.path.dirname(os.path.dirname(os.path.realpath(__file__))), "scripts")


def __getattr__(name: str) -> Callable[[], int]:
    path = os.path.join(SCRIPTS, name)
    if name.startswith("_") or not os.path.isfile(path):
        raise AttributeError(name)

    def run() -> int:
        os.environ["CFG_SCRIPT"] = os.path.basename(sys.argv[0])
        runpy.run_path(path, run_name="__main__")
        return 0

    return run
