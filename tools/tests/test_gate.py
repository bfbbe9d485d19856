"""gate_times and try_edits, with a command in the place of rt."""

from __future__ import annotations

import contextlib
import json
import os
import re
import shutil
import subprocess
import sys
import tempfile
import unittest
from pathlib import Path
from typing import List, Set, Tuple
from unittest import mock

import rows
from test_tools import script

assert rows.TOOLS

# Does as the prover for a tenth of a second: `sleep` under the name `rattle`, with the words that say what it proves.
RT = """#!/bin/sh
bash -c 'exec -a rattle "$0" -c "import time; [0 for _ in range(10000000)]" --crate-name low' "$PYTHON"
echo "2 passed, 0 failed: $*"
exit 3
"""
# The help of a kit whose gate keeps what it proved, and of one whose gate does not.
HELP = '[ "$1" = help ] && { echo "rt ci %s the merge gate" >&2; exit 0; }\n'
KEEPS, FROM_NOTHING = HELP % "[--anew] [CRATE..]", HELP % ""


class GateTimes(unittest.TestCase):
    def setUp(self) -> None:
        self.gate = script("gate_times")
        folder = tempfile.TemporaryDirectory()
        self.addCleanup(folder.cleanup)
        self.folder = Path(folder.name)

    def test_what_a_process_proves_is_told_by_its_words_and_folder(self) -> None:
        words = ["/kit/bin/rattle", "check", "--crate-name", "low", "src/lib.rt"]
        cases = [
            (words, "/top/crates/low", ("low", "check")),
            ([*words, "--test"], "/top/crates/low", ("low", "tests")),
            ([*words, "--incremental", "/tmp/rt-edits-1-a/seed"], "/tmp/rt-edit-1-b", ("low", "start of edits")),
            ([*words, "--incremental", "/tmp/rt-edits-1-a/3"], "/tmp/rt-edit-1-b", ("low", "edits")),
            ([*words, "--incremental", "/tmp/rt-edits-c"], "/tmp/rt-edit-1-b", ("low", "start of edits")),
            ([*words, "--incremental", "/tmp/rt-edits-c"], "/tmp/rt-edit-1-c", ("low", "edits")),
            ([*words, "--incremental", "/tmp/rt-edits-d"], "/tmp/rt-edit-1-b", ("low", "start of edits")),
            (words, "/tmp/rt-edit-1-b", ("low", "edits")),
            (["python3", *words[1:]], "/top", None),
            (["/kit/bin/rattle", "--help"], "/top", None),
        ]
        begun: Set[str] = set()
        for given, at, told in cases:
            with self.subTest(given=given, at=at):
                self.assertEqual(self.gate.told_by(given, at, begun), told)

    def test_time_and_parent_of_a_process_whose_name_has_spaces(self) -> None:
        ticks = self.gate.TICKS
        stat = f"7 (a ) b) S 5 1 1 0 -1 0 0 0 0 0 {3 * ticks} {ticks} 9 9 20 0"
        self.assertEqual(self.gate.seconds_of(stat), (5, 4.0))

    def test_processes_that_others_started_are_found(self) -> None:
        found = {1: (0, 0.0), 2: (1, 0.0), 3: (2, 0.0), 4: (3, 0.0), 5: (1, 0.0)}
        self.assertEqual(sorted(self.gate.below(2, found)), [3, 4])

    def test_the_table_has_the_sums(self) -> None:
        seen = [self.gate.Seen(*it) for it in [("a", "check", 60.0), ("b", "check", 30.0), ("b", "tests", 90.0), ("a", "check", 1.0)]]
        lines = self.gate.table(seen)
        self.assertEqual(lines[2], "| `b` | 30 | 90 |  |  |  | 120 |")
        self.assertEqual(lines[3], "| `a` | 61 |  |  |  |  | 61 |")
        self.assertEqual(lines[4], "| all, seconds | 91 | 90 |  | 0 |  | 181 |")
        self.assertEqual(lines[5], "| all, minutes | 2 | 2 | 0 | | 0 | 3 |")

    def test_the_table_takes_the_place_of_the_last_one(self) -> None:
        text = "before\n<!-- gate -->\nold\n<!-- end -->\nafter\n"
        self.assertEqual(self.gate.put_into(text, ["new"]), "before\n<!-- gate -->\n\nnew\n\n<!-- end -->\nafter\n")
        self.assertIsNone(self.gate.put_into("no mark\n", ["new"]))

    def test_the_times_as_data(self) -> None:
        seen = [self.gate.Seen(*it) for it in [("b", "check", 30.2), ("b", "tests", 90.0), ("a", "check", 60.0), ("a", "check", 1.0), ("a", "edits", 0.1)]]
        self.assertEqual(json.loads(self.gate.data(seen)), {"a": {"check": 61}, "b": {"check": 30, "tests": 90}})
        with open(rows.TOOLS.parent / "bin" / "times.json", encoding="utf-8") as file:
            self.assertTrue(all(set(it) <= set(self.gate.COLUMNS) for it in json.load(file).values()))

    def test_the_line_of_the_sum(self) -> None:
        seen = [self.gate.Seen("a", "check", 3600.0), self.gate.Seen("b", "edits", 60.0)]
        self.assertEqual(self.gate.told_sum(seen, 1800.0), "in all 3,660 s of processor time, 61 min, in 30 min on a clock")

    def run_gate(self, script: str, *words: str) -> "Tuple[int, str]":
        rt = self.folder / "rt"
        rt.write_text(RT.replace("\n", "\n" + script, 1))
        rt.chmod(0o755)
        path = f"{self.folder}{os.pathsep}{os.environ['PATH']}"
        with tempfile.TemporaryFile("w+") as said:
            # (what the gate prints goes past sys.stdout)
            kept = os.dup(1)
            os.dup2(said.fileno(), 1)
            try:
                with mock.patch.dict(os.environ, {"PATH": path, "PYTHON": sys.executable}), mock.patch.object(sys, "argv", ["gate_times", *words]):
                    with mock.patch.object(self.gate, "PAUSE", 0.02), contextlib.redirect_stdout(said), contextlib.redirect_stderr(said):
                        status = self.gate.main()
            finally:
                os.dup2(kept, 1)
                os.close(kept)
            said.seek(0)
            return status, said.read()

    def test_it_runs_the_gate_and_ends_as_that_does(self) -> None:
        runs: List[Tuple[str, List[str], str]] = [
            (FROM_NOTHING, [], "ci"), (FROM_NOTHING, ["--anew"], "ci"), (KEEPS, [], "ci"), (KEEPS, ["--anew", "low"], "ci --anew low")]
        for text, words, asked in runs:
            with self.subTest(words=words, keeps=text == KEEPS):
                status, said = self.run_gate(text, *words)
                self.assertEqual(status, 3)
                self.assertIn(f"2 passed, 0 failed: {asked}\n", said)
                self.assertIn("| `low` |", said)
                self.assertRegex(said, r"\nin all [0-9]+ s of processor time, 0 min, in 0 min on a clock\n$")

    def test_a_gate_that_takes_no_crates(self) -> None:
        status, said = self.run_gate(FROM_NOTHING, "low")
        self.assertEqual((status, said), (2, "gate_times: the gate of this kit takes no crates\n"))


# Refuses each edit but one, with an edit that cannot be read, and keeps what it was asked. If it is told to, it tries nothing
# before it is run for two crates at once.
RT_EDITS = """#!/bin/sh
top=$(dirname "$0")
echo "$(basename "$PWD") $*" >>"$top/asked"
case $1 in
    version) echo "kit 1" ;;
    must-fail)
        touch "$top/begun-$2"
        if [ "$TWO" ]; then
            for _ in $(seq 50); do
                [ "$(ls "$top" | grep -c ^begun-)" -ge 2 ] && break
                sleep 0.1
            done
            [ "$(ls "$top" | grep -c ^begun-)" -ge 2 ] || exit 1
        fi
        for edit in crates/$2/must-fail/*; do
            name=$(basename "$edit")
            case $name in
                more-weak.edit) echo "rt: must-fail $2/$name: NOT REFUSED: the crate is still proved with this edit" ;;
                lost.edit) ;;
                *) echo "rt: must-fail $2/$name: refused, as it must be: fn x" ;;
            esac
        done
        ls crates >>"$top/asked"
        exit 1 ;;
esac
"""


class TryEdits(unittest.TestCase):
    def setUp(self) -> None:
        folder = tempfile.TemporaryDirectory()
        self.addCleanup(folder.cleanup)
        self.top = Path(folder.name)
        shutil.copytree(rows.TOOLS, self.top / "tools", ignore=shutil.ignore_patterns("tests", "__pycache__"))
        for name in ("low/src/lib.rt", "low/must-fail/one.edit", "low/out/rlib/stamp", "low/out/incremental/big", "high/src/lib.rt",
                     "high/must-fail/weak.edit", "high/more-edits/weak.edit", "high/more-edits/lost.edit", "apart/src/lib.rt",
                     "apart/more-edits/far.edit", "none/src/lib.rt"):
            self.write(f"crates/{name}", name)
        self.write("crates.txt", "low: clap\nhigh may_wait=1: low\napart:\nnone:\n")
        self.write("HANDLES", "none")
        self.write("rt", RT_EDITS)
        (self.top / "rt").chmod(0o755)

    def write(self, name: str, text: str) -> None:
        file = self.top / name
        file.parent.mkdir(parents=True, exist_ok=True)
        file.write_text(text)

    def edits(self, *words: str, **more: str) -> "subprocess.CompletedProcess[str]":
        command = [sys.executable, str(self.top / "tools" / "maintain" / "try_edits"), "--results", str(self.top / "kept"), *words]
        path = f"{self.top}{os.pathsep}{os.environ['PATH']}"
        return subprocess.run(command, env=dict(os.environ, PATH=path, **more), capture_output=True, text=True)

    def tried(self) -> List[str]:
        """The crates whose edits were tried since the last call, in the order of their names."""
        asked = (self.top / "asked").read_text() if (self.top / "asked").exists() else ""
        (self.top / "asked").write_text("")
        return sorted(re.findall("must-fail (.*)", asked))

    def test_all_edits_and_what_is_not_refused(self) -> None:
        done = self.edits()
        self.assertEqual((done.returncode, done.stderr), (1, ""))
        self.assertEqual(done.stdout.splitlines()[-3:], [
            "high/more-edits/lost.edit: it could not be tried",
            "high/more-edits/weak.edit: NOT REFUSED: the crate is still proved with this edit",
            "3 refused, 2 not",
        ])
        self.assertEqual(self.tried(), ["apart", "high", "low"])

    def test_crates_side_by_side(self) -> None:
        done = self.edits("--jobs", "2", "low", "apart", TWO="1")
        self.assertEqual((done.returncode, done.stdout.splitlines()[-1]), (0, "2 refused, 0 not"))
        for it in self.top.glob("begun-*"):
            it.unlink()
        (self.top / "crates" / "low" / "src" / "lib.rt").write_text("changed")
        done = self.edits("--jobs", "1", "low", TWO="1")
        self.assertEqual((done.returncode, done.stdout.splitlines()[-1]), (1, "0 refused, 1 not"))
        for word in ("0", "-1", "many"):
            self.assertEqual(self.edits("--jobs", word).returncode, 2)

    def test_a_library_is_built_once(self) -> None:
        self.write("crates.txt", "low: clap\nhigh may_wait=1: low\napart: low\nnone:\n")
        self.edits()
        self.assertEqual(re.findall("(.*) lib", (self.top / "asked").read_text()), ["low"])

    def test_an_edit_that_moves_has_not_changed(self) -> None:
        self.edits("apart")
        self.tried()
        (self.top / "crates" / "apart" / "must-fail").mkdir()
        (self.top / "crates" / "apart" / "more-edits" / "far.edit").rename(self.top / "crates" / "apart" / "must-fail" / "far.edit")
        self.assertEqual((self.edits("apart").returncode, self.tried()), (0, []))

    def test_it_goes_on_where_it_stopped(self) -> None:
        self.edits("low")
        self.edits("apart")
        self.tried()
        self.edits()
        self.assertEqual(self.tried(), ["high"])
        self.assertIn("5 edits, 4 of them tried before", self.edits().stdout)
        self.assertEqual(self.tried(), ["high"], "the one that could not be tried is tried again")

    def test_a_change_below_counts(self) -> None:
        self.edits()
        self.tried()
        self.write("crates/low/src/lib.rt", "changed")
        self.edits("high", "apart")
        self.assertEqual(self.tried(), ["high"])
        self.write("crates/apart/more-edits/far.edit", "changed")
        self.edits("apart", "low")
        self.assertEqual(self.tried(), ["apart", "low"])

    def test_names(self) -> None:
        done = self.edits("high/lost", "apart/more-edits/far.edit")
        self.assertEqual((done.returncode, done.stdout.splitlines()[-1]), (1, "1 refused, 1 not"))
        done = self.edits("high/must-fail/weak.edit")
        self.assertEqual((done.returncode, done.stdout.splitlines()[-1]), (0, "1 refused, 0 not"))
        for word in ("nothing", "low/two", "none"):
            done = self.edits(word)
            self.assertEqual((done.returncode, done.stdout, done.stderr), (2, "", f"try_edits: there is no edit {word}\n"))

    def test_the_copy(self) -> None:
        edits, room = script("try_edits"), self.top / "room"
        room.mkdir()
        uses = edits.uses_of(str(self.top))
        edits.put_copy(str(room), str(self.top), edits.edits_of(str(self.top), "high"), uses)
        found = sorted(str(it.relative_to(room)) for it in room.rglob("*") if it.is_file())
        self.assertEqual(found, [
            "HANDLES", "crates.txt", "crates/high/must-fail/lost.edit", "crates/high/must-fail/more-weak.edit",
            "crates/high/must-fail/weak.edit", "crates/high/src/lib.rt", "crates/low/out/rlib/stamp", "crates/low/src/lib.rt"])
        self.assertEqual((room / "crates.txt").read_text(), "low: clap\nhigh may_wait=1: low\n")


# Makes the program cfg, as the gate does, and ends with the status that is asked for.
RT_CI = """#!/bin/sh
case $1 in
    version) echo "kit 1" ;;
    ci)
        for it in $LEAVES; do
            mkdir crates/$it/out
            printf '#!/bin/sh\\necho ran\\n' >crates/$it/out/$it
            chmod 755 crates/$it/out/$it
        done
        echo "1 passed, 0 failed"
        exit "$STATUS" ;;
    *) exit 9 ;;
esac
"""
# The programs of the product, which the gate has to leave.
PRODUCT = "cfg cfg_one cfg_walk cfg_check"
OWN_TEST = "import unittest\n\nclass One(unittest.TestCase):\n    def test_one(self):\n        self.assertTrue({})\n"


class CiRun(unittest.TestCase):
    """.ci/run, with a command instead of rt."""

    def run_ci(self, status: int, passes: bool, leaves: str = PRODUCT, path: str = os.environ["PATH"]) -> "subprocess.CompletedProcess[str]":
        folder = tempfile.TemporaryDirectory()
        self.addCleanup(folder.cleanup)
        self.top = Path(folder.name)
        for name in (".ci", "bin"):
            shutil.copytree(rows.TOOLS.parent / name, self.top / name)
        (self.top / "tools" / "tests").mkdir(parents=True)
        shutil.copytree(rows.TOOLS / "cfgtools", self.top / "tools" / "cfgtools", ignore=shutil.ignore_patterns("__pycache__"))
        (self.top / "tools" / "tests" / "test_one.py").write_text(OWN_TEST.format(passes))
        for name in PRODUCT.split():
            (self.top / "crates" / name / "src").mkdir(parents=True)
            (self.top / "crates" / name / "src" / "main.rt").write_text("")
        (self.top / "crates.txt").write_text("cfg:\ncfg_one:\ncfg_walk:\ncfg_check:\n")
        (self.top / "path").mkdir()
        (self.top / "path" / "rt").write_text(RT_CI)
        (self.top / "path" / "rt").chmod(0o755)
        self.environment = dict(os.environ, PATH=f"{self.top / 'path'}{os.pathsep}{path}", STATUS=str(status), LEAVES=leaves)
        return subprocess.run([str(self.top / ".ci" / "run")], cwd="/", env=self.environment, capture_output=True, text=True)

    def test_it_ends_as_the_gate_or_the_tests_do(self) -> None:
        for status, passes, wanted in ((0, True, 0), (0, False, 1), (1, True, 1), (2, False, 2)):
            with self.subTest(status=status, passes=passes):
                done = self.run_ci(status, passes)
                self.assertEqual(done.returncode, wanted)
                self.assertEqual(done.stdout, "1 passed, 0 failed\n" + "the tests of tools/ failed\n" * (not passes))

    def test_the_programs_of_the_gate_run_without_a_build(self) -> None:
        done = self.run_ci(0, True)
        left_out = [line for line in done.stderr.splitlines() if line.startswith("the gate left no program ")]
        names = [line.split()[5].rstrip(":") for line in left_out]
        self.assertEqual(names, ["dump_instructions", "dump_files", "dump_threads"])
        ran = subprocess.run([str(self.top / "bin" / "cfg")], env=self.environment, capture_output=True, text=True)
        self.assertEqual((ran.returncode, ran.stdout, ran.stderr), (0, "ran\n", ""))

    def test_a_program_of_the_product_that_is_missing_fails(self) -> None:
        for status, wanted in ((0, 1), (2, 2)):
            with self.subTest(status=status):
                done = self.run_ci(status, True, leaves="cfg cfg_one cfg_check")
                self.assertEqual(done.returncode, wanted)
                said = "the gate left no program cfg_walk, which the tests of tools/ run"
                self.assertEqual(done.stdout.splitlines(), ["1 passed, 0 failed", said])

    def test_it_fails_without_python(self) -> None:
        with tempfile.TemporaryDirectory() as folder:
            for name in ("bash", "dirname", "mktemp", "rm", "sleep", "mkdir", "chmod", "sh"):
                os.symlink(str(shutil.which(name)), os.path.join(folder, name))
            done = self.run_ci(0, True, path=folder)
        self.assertEqual(done.returncode, 1)
        self.assertEqual(done.stdout.splitlines()[-1], "there is no python3, which the tests of tools/ need")


if __name__ == "__main__":
    unittest.main()
