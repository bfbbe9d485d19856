"""A page of `tools/browse` in a browser without a window, Chromium, by selenium; and what its groups have to be, by the methods in Python."""

from __future__ import annotations

import os
import shutil
import time
from typing import Any, Callable, Dict, Iterator, List

from cfgtools.reports.body import Body
from cfgtools.reports.cfg_report import Function, Report, ReportError
from cfgtools.shown.groups import Groups

# What is asked of each function in the page.
with open(os.path.join(os.path.dirname(os.path.realpath(__file__)), "page_checks.js"), encoding="utf-8") as _file:
    CHECKS = _file.read()
# How long something may take on a busy machine, in seconds, and how often a browser is started anew that does not start.
PATIENCE, STARTS = 120, 3
# How many functions are asked for at once.
AT_ONCE = 100


def chromium() -> Any:
    """A browser. If there is none, the error says what is missing."""
    program, driver = shutil.which("chromium") or shutil.which("google-chrome"), shutil.which("chromedriver")
    try:
        from selenium import webdriver  # type: ignore
        from selenium.common.exceptions import WebDriverException  # type: ignore
        from selenium.webdriver.chrome.service import Service  # type: ignore
    except ImportError:
        raise ReportError("selenium is not installed for this Python") from None
    if not program or not driver:
        raise ReportError("chromium or chromedriver is not installed")
    options = webdriver.ChromeOptions()
    options.binary_location = program
    for word in ("--headless=new", "--no-sandbox", "--disable-dev-shm-usage", "--window-size=1600,1000"):
        options.add_argument(word)
    options.set_capability("goog:loggingPrefs", {"browser": "ALL", "performance": "ALL"})
    why = ""
    for _ in range(STARTS):
        try:
            found = webdriver.Chrome(options=options, service=Service(driver))
        except WebDriverException as error:
            why = str(error).splitlines()[0]
            continue
        found.set_script_timeout(PATIENCE)
        return found
    raise ReportError(f"chromium does not start: {why}")


def open_page(browser: Any, path: str, place: str = "") -> float:
    """Opens a page at a place that its address names, and says how many seconds that took."""
    browser.get("about:blank")
    begun = time.monotonic()
    browser.get(f"file://{os.path.abspath(path)}{place}")
    wait(lambda: bool(browser.execute_script("return document.body.dataset.ready")))
    return time.monotonic() - begun


def wait(is_so: Callable[[], bool]) -> bool:
    """Waits until something is so, and says whether it is."""
    end = time.monotonic() + PATIENCE
    while not is_so():
        if time.monotonic() > end:
            return False
        time.sleep(0.02)
    return True


def run(browser: Any, text: str, *words: Any) -> Any:
    """What a text in JavaScript returns, in which `page` is the page, and `words` are these."""
    whole = f"const words = arguments, done = arguments[arguments.length - 1]; started.then(async (page) => {{ {text} }}).then(done, (why) => done('' + why.stack));"
    found = browser.execute_async_script(whole, *words)
    if isinstance(found, str) and "Error" in found:
        raise ReportError(found)
    return found


def checked(browser: Any, most_blocks: int, plant: str = "") -> Iterator[Dict[str, Any]]:
    """What is wrong with each function of the page that is open, and what its groups are made of. With all its blocks a function is
    only laid out if it has no more than so many."""
    count = run(browser, "return page.program.count")
    for first in range(0, count, AT_ONCE):
        text = f"{plant}{CHECKS}return checkedFunctions(page, words[0], words[1], true, words[2])"
        yield from run(browser, text, first, min(count, first + AT_ONCE), most_blocks)


def told(report: Report, function: Function) -> Dict[str, Any]:
    """What the groups of a function are made of."""
    body, groups = Body(report, function), Groups(report, function)
    dominators = body.dominators()
    return {
        "dominators": [f"{dominators[start]:x}" if start in dominators else "-" for start in function.blocks],
        "loops": [[_shown(sorted(loop.entries)), _shown(sorted(loop.blocks))] for loop in body.loops()],
        "heads": _shown([groups.head[start] for start in function.blocks]),
        "parents": [[f"{head:x}", "-" if above is None else f"{above:x}"] for head, above in sorted(groups.parent.items())],
        "open": _shown(sorted(groups.open_at_first())),
        "grids": _shown(sorted(groups.grid_blocks)),
    }


def _shown(starts: List[int]) -> List[str]:
    return [f"{start:x}" for start in starts]
