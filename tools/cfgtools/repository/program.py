"""The programs, for scripts that run them often and look at how they end."""

from __future__ import annotations

import os
import subprocess
import sys

from cfgtools.reports import cfg_report
from cfgtools.reports.cfg_report import ReportError, TOP, program_of


PROGRAMS = ("cfg", "cfg_walk")


def built(name: str = "cfg") -> str:
    """The path of a program: what the variable CFG names, or CFG_WALK and so on, or the one that bin/build has built. If that is
    not made from the sources as they are, it is built now if the first word of the script is --build."""
    path = os.environ.get(name.upper())
    if not path:
        program_of(name)
        path = os.path.join(TOP, "crates", name, "out", name)
        build = [os.path.join(TOP, "bin", "build"), *([] if cfg_report.may_build else ["--ask"]), name]
        if subprocess.run(build, stdin=subprocess.DEVNULL, stdout=sys.stderr).returncode:
            raise ReportError(f"{name} is not built from the sources as they are; `bin/build {name}` builds it")
    status = subprocess.run([path], stdin=subprocess.DEVNULL, capture_output=True).returncode
    if status != 1:
        raise ReportError(f"{path} ended with status {status} without words, and should with 1")
    return path
