"""The page of `tools/browse`: its data is the report again; and in a browser, if Chromium and selenium are there, it does what is
clicked and typed, without a word on the console and without a request."""

from __future__ import annotations

import json
import re
import shutil
import tempfile
import time
import unittest
from pathlib import Path
from typing import Any, Callable, Dict, List, Optional

import rows
import small
import small_page
import test_cfg_report
from cfgtools.checks import browser
from cfgtools.elf.elf_file import Elf
from cfgtools.explain.tables import Tables, numbers
from cfgtools.explain.values import Code
from cfgtools.reports.cfg_report import ReportError
from cfgtools.shown.groups import Groups
from cfgtools.shown.page import dense, packed
from small_page import HOSTILE, Made
from test_tools import InFolder

# Functions of no more blocks are laid out with all of them.
MOST_BLOCKS = 1000
# How long something may take on a busy machine, in seconds.
PATIENCE = browser.PATIENCE


def entries_of(page: str) -> Dict[str, str]:
    """The entries of tables that a page has: by the start of a block and a target, the numbers."""
    found, data = {}, small_page.unpacked(page)
    for part in (part for key, part in data.items() if key != "index"):
        for function in part:
            starts = small_page.summed(function["s"])
            sources = [place for place, count in enumerate(function["e"]) for _ in range(count)]
            for way, text in function.get("en", {}).items():
                source = sources[int(way)]
                target = starts[source] + function["l"][source] + function["et"][int(way)]
                found[f"{starts[source]:x} {target:x}"] = text
    return found


class Data(InFolder):
    """What is in a page, without a browser."""

    def page(self, *words: str) -> str:
        out = str(self.folder / "page.html")
        self.said("browse", "-o", out, *words)
        return Path(out).read_text()

    def test_rows(self) -> None:
        for number in sorted(rows.ROWS):
            path = self.row(number)
            self.assertEqual(small_page.report_of(self.page(path)), Path(path).read_text().splitlines(), f"row {number}")

    def test_landings(self) -> None:
        path = self.file("landing", test_cfg_report.Landings.TEXT)
        self.assertEqual(small_page.report_of(self.page(path)), test_cfg_report.Landings.TEXT.decode().splitlines())
        self.assertTrue(any('color=saddlebrown, style="dashed,bold"' in line for line in self.said("draw", path, "f")))

    def test_the_report_again(self) -> None:
        made = Made(self.folder)
        page = self.page("--elf", made.elf, "--lives", made.live, made.graph)
        self.assertEqual(small_page.report_of(page), Path(made.graph).read_text().splitlines())
        self.assertTrue(page == self.page("--elf", made.elf, "--lives", made.live, made.graph), "the same words give the same bytes")
        masks = {mask for part in small_page.unpacked(page)["part0"] for mask in part["m"]}
        self.assertEqual(masks, {one for function in small_page.lives(made.report).lives.values() for one in function.values()})
        self.assertEqual(entries_of(page), self.entries(made))

    def entries(self, made: Made) -> Dict[str, str]:
        """The entries of the tables, as the scripts tell them."""
        tables = Tables(Code(Elf(made.elf), made.report)).found
        return {f"{start:x} {to:x}": numbers(places) for start, table in tables.items() for to, places in table.places().items()}

    def test_planted_faults(self) -> None:
        """An edge that is left out, and a case with another number, are seen by the two comparisons above."""
        made = Made(self.folder)
        page = self.page("--elf", made.elf, made.graph)
        data = small_page.unpacked(page)["part0"]
        machine = next(part for part in data if "en" in part)
        wrong = dict(machine, en={**machine["en"], next(iter(machine["en"])): "99"})
        self.assertEqual(machine["e"][-2:], [1, 0], "the last block but one has the last edge")
        dropped = dict(machine, e=[*machine["e"][:-2], 0, 0], et=machine["et"][:-1], ek=machine["ek"][:-1])
        for fault, differs in ((wrong, lambda it: entries_of(it) != self.entries(made)),
                               (dropped, lambda it: small_page.report_of(it) != Path(made.graph).read_text().splitlines())):
            self.assertFalse(differs(page))
            self.assertTrue(differs(self.with_part(page, [fault if part is machine else part for part in data])))

    @staticmethod
    def with_part(page: str, part: List[Any]) -> str:
        """The page with another first part."""
        return re.sub(r'(id="part0">)[^<]*', lambda found: found[1] + packed(dense(part)), page)

    def test_high_addresses(self) -> None:
        high = "ffffffff80000000"
        functions = f"10000 no-return g: 10000, {high} may-return f: {high}"
        path = self.file("high", small.report(functions, f"10000 10004 call, {high} {high[:-1]}4 return", f"10000 {high} call"))
        self.assertEqual(small_page.report_of(self.page(path)), Path(path).read_text().splitlines())
        self.assertLess(max(small_page.summed(small_page.unpacked(self.page(path))["index"]["at"])), 2**53)

    def test_hostile_names(self) -> None:
        made = Made(self.folder)
        title = "<img src=x onerror=alert(1)>@DATA@.elf"
        shutil.copy(made.elf, self.folder / title)
        page = self.page("--elf", str(self.folder / title), made.graph)
        for text, is_there in ((HOSTILE, False), ("<img src", False), ("&lt;img src=x onerror=alert(1)&gt;@DATA@.elf", True)):
            self.assertEqual(text in page, is_there, text)
        self.assertIn(HOSTILE, small_page.unpacked(page)["index"]["names"])
        self.assertEqual(page.count("<script>"), len(small_page.scripts(page)))
        self.assertEqual(len(re.findall("'sha256-[^']+'", page)), len(small_page.scripts(page)) + 1)
        # Nothing of the scripts makes code or markup of a text.
        for word in ("innerHTML", "outerHTML", "insertAdjacentHTML", "document.write", "eval(", "new Function(", "http:", "https:"):
            self.assertFalse(word in page.replace("http://www.w3.org/2000/svg", ""), word)

    def test_words(self) -> None:
        made = Made(self.folder)
        self.assertEqual(self.run_main("browse", made.graph)[0], 2)
        self.assertIn("without --edges and --sure", self.run_main("browse", "--sure", "--lives", made.live, "-o", "x", made.graph)[2])
        self.assertIn("other functions", self.run_main("browse", "--lives", self.row(13, "live"), "-o", "x", made.graph)[2])
        index = small_page.unpacked(self.page("--fold", "--elf", made.elf, made.graph))["index"]
        self.assertEqual(index["has"], {"texts": True, "lives": False, "counts": False})


class InPython(InFolder):
    def test_groups(self) -> None:
        """Each group of a function has one way in, and each block is in one box."""
        made = Made(self.folder)
        for function in made.report.functions:
            groups = Groups(made.report, function)
            for head in groups.chains:
                inside = set(groups.blocks_of(head))
                ways = {to for start in function.blocks if start not in inside for to in groups.body.onward[start] if to in inside}
                self.assertLessEqual(ways, {head})
        self.assertEqual(len(Groups(made.report, made.report.function("machine")).grid_blocks), 1)

    def test_drawn_by_groups(self) -> None:
        made = Made(self.folder)
        said = self.said("draw", "--elf", made.elf, made.graph, "ladder")
        self.assertRegex(said[1], r"ladder, 124 blocks in (5\d|60) boxes, may return")
        self.assertTrue(any("peripheries=2" in line for line in said))
        whole = self.said("draw", "--all-blocks", "--elf", made.elf, made.graph, "ladder")
        self.assertEqual(sum(re.match(r" {4}b[0-9a-f]+ \[", line) is not None for line in whole), len(made.report.function("ladder").blocks))


class InBrowser(InFolder):
    """One page, of the small program with a walk through it."""

    tab: Any = None
    made: Made
    page: str
    walk: str

    @classmethod
    def setUpClass(cls) -> None:
        try:
            cls.tab = browser.chromium()
        except ReportError as why:
            raise unittest.SkipTest(f"the page is not tried in a browser: {why}") from None
        folder = tempfile.TemporaryDirectory()
        cls.addClassCleanup(folder.cleanup)
        cls.addClassCleanup(cls.tab.quit)
        cls.made = Made(Path(folder.name))
        cls.page = str(Path(folder.name) / "made.html")
        walk = Path(folder.name) / "walk"
        at = cls.made.labels
        steps = [at["main"], at["helper"], None, at["main"] + 8, at["skip"], at["ladder"]]
        walk.write_text("".join("out return\n" if step is None else f"at {step:016x}\n" for step in steps) + "end steps\n")
        cls.walk = str(walk)

    def setUp(self) -> None:
        super().setUp()
        if not Path(self.page).exists():
            self.said("browse", "--elf", self.made.elf, "--lives", self.made.live, "--walk", self.walk, "-o", self.page, self.made.graph)

    def tearDown(self) -> None:
        said = [entry for entry in self.tab.get_log("browser") if "favicon" not in entry["message"]]
        self.assertEqual(said, [], "the console")
        for entry in self.tab.get_log("performance"):
            message = json.loads(entry["message"])["message"]
            if message["method"] == "Network.requestWillBeSent":
                self.assertRegex(message["params"]["request"]["url"], r"^(file://.*\.html(#.*)?|about:blank|data:,)$")

    # ---- what a test does

    def script(self, text: str, *words: Any) -> Any:
        return browser.run(self.tab, text, *words)

    def wait(self, what: Callable[[], Any], wanted: Any = True) -> None:
        end, found = time.monotonic() + PATIENCE, what()
        while found != wanted and time.monotonic() < end:
            time.sleep(0.05)
            found = what()
        self.assertEqual(found, wanted)

    def open(self, place: str = "") -> None:
        browser.open_page(self.tab, self.page, place)

    def open_function(self, label: str, more: str = "") -> None:
        self.open(f"#f={self.made.hex(label)}{more}")

    def keys(self, *keys: str) -> None:
        from selenium.webdriver.common.action_chains import ActionChains  # type: ignore
        for key in keys:
            ActionChains(self.tab).send_keys(key).perform()

    def find(self, path: str) -> List[Any]:
        return self.tab.find_elements("css selector", path)

    def texts(self, path: str) -> List[str]:
        return self.tab.execute_script("return [...document.querySelectorAll(arguments[0])].map((one) => one.textContent)", path)

    def click(self, path: str, text: Optional[str] = None) -> None:
        found = next(one for one in self.find(path) if text is None or text in one.text)
        found.click()

    def trail(self) -> List[str]:
        return self.texts("#trail button")

    def url(self) -> str:
        return self.tab.current_url.partition("#")[2]

    def place(self) -> Dict[str, float]:
        return self.script("return page.picture.place")

    # ---- the list

    def test_search_and_enter(self) -> None:
        from selenium.webdriver.common.keys import Keys  # type: ignore
        self.open()
        self.assertEqual(self.trail(), ["main"])
        self.keys("/", "lad")
        self.wait(lambda: self.texts("#found"), ["1 function"])
        self.keys(Keys.ENTER)
        self.wait(self.trail, ["ladder"])
        self.assertEqual(self.url(), f"f={self.made.hex('ladder')}")
        self.keys("/", "other_helper")
        self.wait(lambda: [text.split(" 1")[0] for text in self.texts(".row")], ["helper (other_helper)"])
        self.tab.execute_script("arguments[0].value = ' jalr a3'; arguments[0].dispatchEvent(new Event('input'))", self.find("#search")[0])
        self.wait(lambda: self.texts("#found"), ["1 instruction"])
        self.click(".row")
        self.wait(self.trail, ["machine"])
        self.assertIn(f"b={self.made.hex('seven_more')}", self.url())

    def test_filters_and_orders(self) -> None:
        self.open()
        self.click("#filters label", "does not return")
        self.wait(lambda: [text.split(" ")[0] for text in self.texts(".row")], ["staying"])
        self.click("#filters label", "does not return")
        self.click("#filters label", "never ran")
        self.wait(lambda: "ladder" in " ".join(self.texts(".row")), False)
        self.click("#filters label", "never ran")
        self.tab.execute_script("arguments[0].value = 'callers'; arguments[0].dispatchEvent(new Event('change'))", self.find("#order")[0])
        self.wait(lambda: self.texts(".row")[0].split(" ")[0], "helper")
        self.assertIn("4 callers", self.texts(".row")[0])

    def test_callers(self) -> None:
        """Who calls a function, and the call itself."""
        self.open_function("helper")
        self.assertEqual(self.texts("#callers button"), ["main", "machine", "ladder", "tailing"])
        self.click("#callers button", "machine")
        self.wait(self.trail, ["machine"])
        self.wait(lambda: "helper" in "".join(self.texts(".line.chosen") + self.texts("#block")))

    # ---- the way back

    def test_callee_and_back(self) -> None:
        self.open_function("main")
        self.script("page.picture.move(-31, -17); return 0")
        before = self.place()
        self.click(".callee", "machine")
        self.wait(self.trail, ["machine"])
        self.tab.back()
        self.wait(self.trail, ["main"])
        self.assertEqual(self.place(), before)

    # ---- groups

    def tile(self, text: str) -> Any:
        return next(one for one in self.find(".tile") if one.text.startswith(text + "\n"))

    def test_case_and_trail(self) -> None:
        from selenium.webdriver.common.keys import Keys  # type: ignore
        self.open_function("machine")
        self.assertEqual(len(self.find(".tile")), small_page.CASES)
        self.tile("case 5").click()
        self.wait(lambda: self.texts("#block h2"), [f"Block {self.made.hex('case5')}"])
        self.keys(Keys.ENTER)
        self.wait(self.trail, ["machine", "case 5"])
        self.assertIn(f"g={self.made.hex('case5')}", self.url())
        self.assertEqual(self.texts(".box.way"), [f"to {self.made.hex('shared')}"])
        self.keys(Keys.ESCAPE)
        self.wait(self.trail, ["machine"])

    def test_open_in_place(self) -> None:
        self.open_function("machine")
        self.tile("case 5").click()
        self.keys("o")
        self.wait(lambda: len(self.find(".tile")), small_page.CASES - 1)
        self.assertIn(f"o={self.made.hex('case5')}", self.url())
        shown = self.shown()
        self.open("#" + self.url())
        self.assertEqual(self.shown(), shown, "a URL opened afresh shows the same")

    def shown(self) -> List[Any]:
        return self.script("return page.shown.items.map((item) => [item.kind, item.x, item.y, item.w, item.h, [...item.blocks]])")

    def test_folded_loop(self) -> None:
        self.open_function("machine", f"&g={self.made.hex('case7')}")
        self.assertEqual(self.trail(), ["machine", "case 7"])
        self.keys("L")
        self.wait(lambda: self.texts(".box.loop .line:first-child"), [f"loop {self.made.hex('again')}: 2 blocks"])
        self.keys("L")
        self.wait(lambda: self.find(".box.loop"), [])

    def test_all_blocks(self) -> None:
        for label in ("machine", "ladder"):
            self.open_function(label)
            self.keys("a")
            self.wait(lambda: "v=all" in self.url())
            found = self.script("return page.shown.items.flatMap((item) => [...item.blocks].map((block) => page.program.hex(page.body.starts[block]))).sort()")
            self.assertEqual(found, sorted(f"{start:x}" for start in self.made.report.function(label).blocks))
            self.assertEqual(self.texts(".box.group"), [])

    def test_listing(self) -> None:
        self.open_function("machine")
        self.keys("l")
        self.wait(lambda: [text.split(" ")[0] for text in self.texts(".part .head")], [f"{start:x}" for start in self.made.report.function("machine").blocks])

    # ---- what is known of a block

    def test_open_end(self) -> None:
        """Why a way on is unknown is said as tools/unresolved says it."""
        lines = self.said("unresolved", self.made.elf, self.made.graph)
        for label, kind in (("main", "icall"), ("unknown", "unknown"), ("machine", "icall")):
            self.open_function(label)
            places = self.texts("#open-ends li")
            self.assertTrue(any(kind in one for one in places), places)
            self.click("#open-ends li button" if label != "machine" else "#open-ends li:last-child button")
            self.wait(lambda: len(self.texts(".reason")), 1)
            reason = self.texts(".reason")[0]
            self.assertTrue(any(f" in {label}" in line and f": {reason}" in line for line in lines), (reason, lines))

    def test_free_registers(self) -> None:
        said = {line.split()[0]: " ".join(line.split()[2:]) for line in self.said("free_registers", self.made.live, "main") if line.startswith("    ")}
        self.assertGreater(len(said), 3)
        for start, registers in said.items():
            self.open_function("main", f"&b={start}")
            self.assertEqual(self.texts("#free"), [f"Free registers: {registers}"])

    def test_what_ran(self) -> None:
        self.open_function("main", f"&b={self.made.hex('skip')}")
        self.assertIn("ran 1 time", self.texts("#block")[0])
        self.assertIn("ran: 3 of 7 blocks", self.texts("#function")[0])
        self.assertGreater(len(self.find(".box.ran")), 0)
        self.open_function("machine")
        self.assertEqual(self.find(".box.ran"), [])

    # ---- for everyone

    def test_keys_alone(self) -> None:
        from selenium.webdriver.common.keys import Keys  # type: ignore
        self.open()
        self.keys("/", "machine", Keys.ENTER)
        self.wait(self.trail, ["machine"])
        self.keys(Keys.ARROW_DOWN, Keys.ARROW_DOWN, Keys.ARROW_DOWN, Keys.ARROW_DOWN)
        self.wait(lambda: len(self.find(".chosen")) > 0)
        self.script("page.select(page.body.numberAt.get(words[0])); return 0", self.made.labels["dispatch"])
        self.keys(Keys.ARROW_DOWN)
        self.wait(lambda: self.texts(".tile.chosen")[0].split("\n")[0], "case 0")
        self.keys(Keys.ARROW_RIGHT, Keys.ARROW_RIGHT, Keys.ARROW_RIGHT, Keys.ARROW_RIGHT, Keys.ARROW_RIGHT)
        self.wait(lambda: self.texts(".tile.chosen")[0].split("\n")[0], "case 5")
        self.keys(Keys.ENTER)
        self.wait(self.trail, ["machine", "case 5"])
        self.keys(Keys.ESCAPE, "0", "+", "-")
        self.wait(self.trail, ["machine"])
        self.keys("?")
        self.wait(lambda: self.tab.execute_script("return document.getElementById('help').open"))
        self.keys(Keys.ESCAPE)
        self.wait(lambda: self.tab.execute_script("return document.getElementById('help').open"), False)

    def test_spoken_labels(self) -> None:
        self.open_function("main")
        for box in self.find(".box"):
            self.assertTrue(box.get_attribute("aria-label"))

    def test_second_marks(self) -> None:
        self.open_function("main")
        self.assertGreater(len(self.find("rect.mark")), 0, "a square at the start of a branch taken")
        self.open_function("tailing")
        self.assertEqual(self.texts(".box.out"), ["helper"])
        self.assertEqual(self.tab.execute_script("return getComputedStyle(document.querySelector('path.edge.tail')).strokeWidth"), "3px")
        self.open_function("machine", f"&g={self.made.hex('case7')}")
        self.assertEqual([text.split(":")[0] for text in self.texts("#legend span")][:3], ["fall", "taken", "jump"])
        self.assertEqual(self.tab.execute_script("return document.querySelector('#legend path.after').getAttribute('stroke-dasharray')"), "12 5")

    def test_hostile_name(self) -> None:
        self.open_function("calls_hostile")
        self.assertEqual(self.texts("#callees button"), [HOSTILE])
        self.click(".callee")
        self.wait(self.trail, [HOSTILE])
        self.assertEqual(self.texts("#function h2"), [HOSTILE])
        self.assertNotEqual(self.tab.title, "taken")
        self.assertEqual(self.find("img"), [])

    # ---- every function

    def test_every_function(self) -> None:
        self.open()
        seen = 0
        for found, function in zip(browser.checked(self.tab, MOST_BLOCKS), self.made.report.functions):
            self.assertEqual(found["wrong"], [], found["name"])
            self.assertEqual(found["told"], browser.told(self.made.report, function), found["name"])
            seen += 1
        self.assertEqual(seen, len(self.made.report.functions))

    def test_faults_are_seen(self) -> None:
        """A box that is moved, a way into the middle of a group, and a block in two boxes are seen by the checks."""
        self.open_function("machine")
        plants = {
            "overlap": "const placed = layOut; layOut = (items, edges) => { const size = placed(items, edges); if (items.length > 1) items[1].x = items[0].x, items[1].y = items[0].y; return size; };",
            "runs through": "Routes.prototype._isFree = () => true;",
            "a way into": "Groups.prototype._plant_ = Groups.prototype._plant; Groups.prototype._plant = function () { this.dominators = this.dominators.map((one, block) => (one < 0 ? one : block - 1)); this._plant_(); };",
            "boxes": "const show = Shown.prototype._show; Shown.prototype._show = function (head, parent) { const found = show.call(this, head, parent); this.items[0].blocks = [...this.items[0].blocks, head]; return found; };",
        }
        for word, plant in plants.items():
            self.open_function("machine")
            found = browser.checked(self.tab, MOST_BLOCKS, plant)
            self.assertTrue(any(word in one for each in found for one in each["wrong"]), word)


if __name__ == "__main__":
    unittest.main()
