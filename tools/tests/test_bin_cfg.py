"""bin/cfg and bin/cfg_walk, with another program instead of the toolchain: what it says while it builds, when it
builds anew, and how it ends. It is one whose gate keeps what it proved, and then one whose gate does not."""

from __future__ import annotations

import os
import shutil
import signal
import subprocess
import sys
import tempfile
import time
import unittest
from pathlib import Path
from typing import Callable, Dict, List, Tuple

import rows
from cfgtools.repository import words as taken

TOP = rows.TOOLS.parent
CRATES = "# a remark: no crate\nhigh: low\nlow:\ncfg may_abort=1: high low clap\ncfg_walk: low\nother: low\n"
LIBRARIES = ("low", "high", "other")
TOOL_PATH = "/usr/bin:/bin"
# With a folder `keeps` beside it: proves the crates of the folder that it is run in as `rt ci` does, if that is the top of a
# repository. Without: proves the libraries below a crate as `rt all check` does, and makes a program of `rt run`. It keeps
# its words in the file `words`, and of `rt ci` the files that it found.
TOOLCHAIN = """#!/bin/sh
top=$(cd "$(dirname "$0")/.." && pwd)
name=$(basename "$PWD")
make_program() {
    mkdir -p "$1/out"
    printf '#!/bin/sh\\necho "ran:$1:$2"; exit 3\\n' >"$1/out/$2"
    chmod +x "$1/out/$2"
}
case $1 in
    version) echo "${KIT-kit 1}"; exit ;;
    doc) echo "$top/kit/START-HERE.md"; exit ;;
    help)
        echo 'rt: proves crates' >&2
        echo '  rt ci                   the merge gate' >&2
        [ -d "$top/keeps" ] && echo '                          What a run passed is kept: --anew proves all' >&2
        echo '  rt must-fail [NAME..]   tries the edits: --anew tries all' >&2
        exit ;;
    ci)
        [ -d .git ] && [ -d "$top/keeps" ] || exit 2
        echo "ci jobs=$RT_JOBS: $(find . -type f | LC_ALL=C sort | tr '\\n' ' ')" >>"$top/words"
        echo "$PWD" >"$top/copy"
        echo 'rt: low: another run on this machine is proving the same; waiting for it' ;;
    *) echo "$name $*" >>"$top/words" ;;
esac
case $1 in
    ci)
        for each in $(sed -n 's/^\\([a-z_]*\\)[ :].*/\\1/p' crates.txt | sort -r); do
            if [ -e "$top/refuse" ]; then
                printf '== %s\\nfn low::x: not proved in %s\\nrt: %s NOT PROVED\\n0 passed, 1 failed\\n' "$each" "$PWD" "$each"
                exit 1
            fi
            [ -d "crates/$each/data" ] && continue
            printf '== %s\\nfn x: proved\\nlogic=proved functions=1\\nrt: %s proved\\nrt: %s: its tests proved\\n' "$each" "$each" "$each"
            if [ -e "$top/slow" ]; then touch "$top/slow-began"; exec sleep 60; fi
        done
        for each in crates/*/data; do
            crate=$(dirname "$each")
            name=$(basename "$crate")
            make_program "$crate" "$name"
            if [ -e "$top/keeps/$name" ] && [ ! -e "$crate/src/again" ]; then
                echo "rt: $name is kept: an earlier run proved the same"
            else
                echo "object of $name" >"$crate/out/$name.o"
                echo "rt: $name proved"
            fi
        done
        echo 'rt: note: the disk fell below 5,000 MB, so what came after is not kept'
        echo '3 passed, 0 failed' ;;
    all)
        echo 'rt: waiting for another rt to finish in crates/low'
        for each in low high; do
            [ -e "$top/refuse" ] && exit 1
            mkdir -p "$top/crates/$each/out/rlib"
            echo stamp >"$top/crates/$each/out/rlib/stamp"
            printf '== %s\\nfn x: proved\\nlogic=proved functions=1\\n' "$each"
            [ "$each" = "$name" ] && break
        done
        if [ -e "$top/slow" ]; then touch "$top/slow-began"; exec sleep 60; fi ;;
    run)
        if [ -e "$top/refuse" ]; then echo 'fn low::x: not proved' >&2; exit 1; fi
        make_program . "$name" ;;
    try)
        shift
        printf '%s\\n' "tried:" "$@"
        echo 'run=ended proved=no' >&2
        exit 5 ;;
esac
"""


class BinCfg(unittest.TestCase):
    KEEPS = True

    def setUp(self) -> None:
        folder = tempfile.TemporaryDirectory()
        self.addCleanup(folder.cleanup)
        self.top = Path(folder.name, "a folder")
        shutil.copytree(TOP / "bin", self.top / "bin", ignore=shutil.ignore_patterns("times.json"))
        shutil.copytree(rows.TOOLS / "cfgtools", self.top / "tools" / "cfgtools", ignore=shutil.ignore_patterns("__pycache__"))
        for name in ("path", "kit", "tmp", *["keeps"] * self.KEEPS):
            (self.top / name).mkdir()
        for name in (*LIBRARIES, "cfg", "cfg_walk"):
            (self.top / "crates" / name / "src").mkdir(parents=True)
            (self.top / "crates" / name / "src" / "lib.rt").write_text(f"of {name}\n")
        for name in ("cfg", "cfg_walk"):
            (self.top / "crates" / name / "data").mkdir()
            (self.top / "crates" / name / "data" / "one.elf").write_text("an ELF file\n")
            (self.top / "crates" / name / "args").write_text("10\none.elf\n" if name == "cfg_walk" else "one.elf\n")
        (self.top / "crates.txt").write_text(CRATES)
        (self.top / "HANDLES").write_text("Handles allowed: none.\n")
        rt = self.top / "path" / "rt"
        rt.write_text(TOOLCHAIN)
        rt.chmod(0o755)
        # (the Python of this test, and no rt that may stand beside it)
        (self.top / "python").mkdir()
        (self.top / "python" / "python3").symlink_to(sys.executable)
        self.no_rt = f"{self.top / 'python'}:{TOOL_PATH}"
        self.path = f"{self.top / 'path'}:{self.no_rt}"

    def run_cfg(self, *words: str, name: str = "cfg", kit: str = "kit 1", cwd: str = "/") -> "subprocess.CompletedProcess[str]":
        return subprocess.run(["sh", str(self.top / "bin" / name), *words], env=self.environment(kit), cwd=cwd, capture_output=True, text=True)

    def environment(self, kit: str = "kit 1") -> Dict[str, str]:
        of_jobs = {name: value for name, value in os.environ.items() if name != "RT_JOBS"}
        return dict(of_jobs, PATH=self.path, KIT=kit, CI="true", TMPDIR=str(self.top / "tmp"))

    def build(self, *words: str) -> "subprocess.CompletedProcess[str]":
        return subprocess.run([sys.executable, "-B", str(self.top / "bin" / "build"), *words], env=self.environment(), capture_output=True, text=True)

    def asked(self) -> str:
        """What the toolchain was asked for since the last call."""
        words = self.top / "words"
        text = words.read_text() if words.exists() else ""
        words.write_text("")
        return text

    def without_toolchain(self) -> None:
        if shutil.which("rt", path=TOOL_PATH):
            self.skipTest("rt stands in a folder of the system")
        self.path = self.no_rt

    def change(self, crate: str, text: str = "changed\n") -> None:
        """Changes a source of a crate, at a time that the note's is not."""
        source = self.top / "crates" / crate / "src" / "lib.rt"
        source.write_text(text)
        later = time.time() + 5
        os.utime(source, (later, later))

    def assert_runs_at_once(self) -> None:
        self.asked()
        done = self.run_cfg("d")
        self.assertEqual((done.returncode, done.stdout, done.stderr, self.asked()), (3, "ran:d:\n", "", ""))

    def test_first_and_later_use(self) -> None:
        done = self.run_cfg("--report=edges", "b c")
        self.assertEqual((done.returncode, done.stdout), (3, "ran:--report=edges:b c\n"))
        said = done.stderr.splitlines()
        self.assertEqual(said[0], "bin/cfg: the program is not built yet, so it is proved and built now")
        self.assertRegex(said[1], r"^bin/cfg: crates to prove: 3(, \d+ at a time)?, about a minute\. What is proved is kept$")
        self.assertIn("bin/cfg --unproved WORDS", said[2])
        self.assert_told(said[3:])
        self.assert_asked(self.asked())
        self.assert_runs_at_once()

    def assert_told(self, said: List[str]) -> None:
        self.assertEqual(said, [
            "bin/cfg: low: another run on this machine is proving the same; waiting for it",
            "bin/cfg: low is proved; 2 left, about a minute",
            "bin/cfg: high is proved; 1 left, about a minute",
            "bin/cfg: note: the disk fell below 5,000 MB, so what came after is not kept",
            "bin/cfg: built",
        ])

    def assert_asked(self, asked: str) -> None:
        """The copy has what a proof of these crates reads, and is gone."""
        of_crates = ("cfg/args", "cfg/data/one.elf", "cfg/src/lib.rt", "high/src/lib.rt", "low/src/lib.rt")
        self.assertEqual(asked, f"ci jobs=: ./HANDLES ./crates.txt {' '.join(f'./crates/{it}' for it in of_crates)} \n")
        self.assertEqual([*(self.top / "tmp").iterdir()], [])
        program = self.top / "crates" / "cfg" / "out" / "cfg"
        self.assertEqual(program.stat().st_mode & 0o111, 0o111)
        self.assertEqual(sorted(it.name for it in program.parent.iterdir()), ["cfg", "cfg.made", "cfg.o"])

    def test_for_one_worker(self) -> None:
        shutil.copytree(self.top / "crates" / "cfg", self.top / "crates" / "cfg_one")
        with (self.top / "crates.txt").open("a") as it:
            it.write("cfg_one: low\n")
        done = self.run_cfg("--", "--workers")
        self.assertEqual((done.returncode, done.stdout), (3, "ran:--:--workers\n"))
        self.assertIn("bin/cfg_one: low is proved; 1 left, ", done.stderr)
        self.assertFalse((self.top / "crates" / "cfg" / "out").exists())
        self.assertEqual(self.run_cfg("a").stderr, "")
        # The first use with --workers builds the whole one, which all later uses run.
        for words in (("--workers", "2", "a"), ("--workers=2", "a")):
            done = self.run_cfg(*words)
            self.assertEqual((done.returncode, done.stdout), (3, f"ran:{words[0]}:{words[1]}\n"))
            self.assertTrue((self.top / "crates" / "cfg" / "out" / "cfg").exists())
        self.assert_runs_at_once()
        self.assertIn("ran:a:", self.run_cfg("a", name="cfg_one").stdout)

    def test_another_program(self) -> None:
        done = self.run_cfg("10", "b c", name="cfg_walk")
        self.assertEqual((done.returncode, done.stdout), (3, "ran:10:b c\n"))
        self.assertIn("bin/cfg_walk: low is proved; 1 left, ", done.stderr)
        self.assertIn("ci jobs=: ./HANDLES" if self.KEEPS else "cfg_walk run -- 10 data/one.elf\n", self.asked())
        self.assertFalse((self.top / "crates" / "cfg" / "out").exists())

    def test_a_program_without_a_script_of_its_own(self) -> None:
        (self.top / "bin" / "cfg_walk").unlink()
        done = self.build("cfg_walk")
        self.assertEqual(done.returncode, 0)
        self.assertIn("bin/unproved cfg_walk WORDS", done.stderr)

    def test_a_source_that_has_changed(self) -> None:
        self.run_cfg("a")
        self.change("low")
        done = self.run_cfg("a")
        self.assertEqual((done.returncode, done.stdout), (3, "ran:a:\n"))
        line = "bin/cfg: the program was made from other sources (low), so it is proved and built now; `--stale` as the first word runs the old one"
        self.assertEqual(done.stderr.splitlines()[0], line)
        self.assertEqual(done.stderr.splitlines()[-1], "bin/cfg: built")

    def test_a_source_of_another_crate_and_a_proof(self) -> None:
        self.run_cfg("a")
        self.change("other")
        proof = self.top / "crates" / "low" / "proofs" / "Lib.antt"
        proof.parent.mkdir()
        proof.write_text("a lemma\n")
        self.run_cfg("a")
        self.assert_runs_at_once()

    def test_times_alone_mean_nothing(self) -> None:
        self.run_cfg("a")
        self.asked()
        source = self.top / "crates" / "low" / "src" / "lib.rt"
        later = time.time() + 0.05
        os.utime(source, (later, later))
        time.sleep(0.1)
        done = self.run_cfg("a")
        self.assertEqual((done.returncode, done.stderr), (3, ""))
        self.assertEqual(self.asked(), "")
        self.assert_runs_at_once()

    def test_a_source_that_is_gone_or_new(self) -> None:
        source = self.top / "crates" / "high" / "src"
        changes: List[Callable[[], None]] = [(source / "more.rt").touch, (source / "more.rt").unlink]
        for change in changes:
            self.run_cfg("a")
            time.sleep(0.1)
            change()
            self.assertIn("made from other sources (high)", self.run_cfg("a").stderr)
            self.assert_runs_at_once()

    def test_other_crates_and_another_kit(self) -> None:
        self.run_cfg("a")
        time.sleep(0.1)
        (self.top / "crates.txt").write_text(CRATES.replace("high low clap", "high low other"))
        self.assertIn("made from other crates", self.run_cfg("a").stderr)
        rt = self.top / "path" / "rt"
        os.utime(rt, (1, 1))
        self.assertIn("the program was made by kit 1, so", self.run_cfg("a", kit="kit 2").stderr)

    def test_the_old_program(self) -> None:
        self.run_cfg("a")
        self.change("low")
        self.asked()
        done = self.run_cfg("--stale", "a", "b")
        self.assertEqual((done.returncode, done.stdout, done.stderr, self.asked()), (3, "ran:a:b\n", "", ""))
        none = self.run_cfg("--stale", "a", name="cfg_walk")
        self.assertEqual((none.returncode, none.stdout), (70, ""))
        self.assertIn("not built yet", none.stderr)

    def test_through_a_link(self) -> None:
        link = self.top / "linked"
        link.symlink_to(self.top / "bin" / "cfg")
        for command in (["sh", str(link)], [str(link)]):
            done = subprocess.run([*command, "a"], env=self.environment(), capture_output=True, text=True)
            self.assertEqual((done.returncode, done.stdout), (3, "ran:a:\n"))

    def test_a_build_that_fails(self) -> None:
        (self.top / "refuse").touch()
        done = self.run_cfg("a")
        self.assertEqual((done.returncode, done.stdout), (70, ""))
        self.assert_says_why(done.stderr)
        self.assertEqual([*(self.top / "tmp").iterdir()], [])
        self.assertEqual(done.stderr.splitlines()[-1], "bin/cfg: the program could not be built")

    def assert_says_why(self, error: str) -> None:
        # (the copy that it was said of is gone)
        self.assertIn(f"fn low::x: not proved in {self.top}\n", error)
        self.assertIn("rt: low NOT PROVED\n0 passed, 1 failed\n", error)

    def test_a_failed_build_leaves_the_old_program_as_it_was(self) -> None:
        self.run_cfg("a")
        self.change("low")
        (self.top / "refuse").touch()
        self.assertEqual(self.run_cfg("a").returncode, 70)
        self.assertEqual(self.run_cfg("a").returncode, 70)
        self.assertEqual(self.run_cfg("--stale", "a").stdout, "ran:a:\n")

    def test_no_toolchain(self) -> None:
        self.without_toolchain()
        done = self.run_cfg("a")
        self.assertEqual(done.returncode, 70)
        self.assertIn("rt, the toolchain's command, is not on the PATH", done.stderr)

    def test_a_built_program_needs_no_toolchain(self) -> None:
        self.run_cfg("a")
        self.without_toolchain()
        self.assert_runs_at_once()
        self.change("low")
        done = self.run_cfg("a")
        self.assertEqual((done.returncode, done.stderr.count("\n")), (70, 1))
        self.assertIn("made from other sources (low), and rt, the toolchain's command, is not on the PATH, but `--stale`", done.stderr)

    def test_an_interrupt(self) -> None:
        (self.top / "slow").touch()
        command = ["sh", str(self.top / "bin" / "cfg"), "a"]
        for number in (signal.SIGTERM, signal.SIGHUP, signal.SIGINT):
            with subprocess.Popen(command, env=self.environment(), stdout=subprocess.PIPE, stderr=subprocess.PIPE, text=True) as ran:
                while not (self.top / "slow-began").exists() and ran.poll() is None:
                    time.sleep(0.01)
                ran.send_signal(number)
                out, error = ran.communicate(timeout=20)
            self.assertEqual((ran.returncode, out), (70, ""))
            self.assertIn("stopped; what is proved is kept", error.splitlines()[-1])
            self.assertEqual([*(self.top / "tmp").iterdir()], [])
            (self.top / "slow-began").unlink()
            for made in self.top.glob("crates/*/out"):
                shutil.rmtree(made)

    def test_unproved(self) -> None:
        for folder in ("one", "two"):
            (self.top / folder).mkdir()
            (self.top / folder / "a.elf").write_text(folder)
        command = [sys.executable, "-B", str(self.top / "bin" / "unproved"), "cfg", "--report", "live", "one/a.elf", "two/a.elf", "one/a.elf", "none"]
        done = subprocess.run(command, env=self.environment(), cwd=str(self.top), capture_output=True, text=True)
        self.assertEqual(done.returncode, 5)
        said = done.stderr.splitlines()
        self.assertRegex(said[0], "^bin/cfg: unproved: .* proves nothing .* 1 MiB at most$")
        self.assertEqual(said[1:], ["run=ended proved=no"])
        wanted = ["tried:", "--seconds", "600", "--data", f"a.elf={self.top}/one/a.elf", "--data", f"_a.elf={self.top}/two/a.elf",
                  "--", "--report", "live", "a.elf", "_a.elf", "a.elf", "none"]
        self.assertEqual(done.stdout.splitlines(), wanted)
        self.assertIn("--\na.elf\n", self.run_cfg("--unproved", "one/a.elf", cwd=str(self.top)).stdout)

    def test_unproved_without_a_toolchain(self) -> None:
        self.without_toolchain()
        done = self.run_cfg("--unproved", "a")
        self.assertEqual((done.returncode, done.stdout, done.stderr.count("\n")), (70, "", 1))

    WRONG = ("--workers 0 a", "--workers 65 a", "--report x a", "a b", "-x", "--make 3", "--make 4 a", "--make 4 --report edges", "--workers", "--workers 1 --workers 1 a",
             "", "--help=x", "--mak 4", "--workers=2x a", "-- a b")
    GOOD = ("--workers 1 a", "a --workers=64", "--make 4", "--make 100000 --workers 2", "-- -a", "--report live a", "-", "--workers 000000002 a")

    def test_words_before_anything_is_built(self) -> None:
        usage = "cfg: usage: cfg [--workers N] [--report KIND] FILE | cfg [--workers N] --make N\n"
        for words in self.WRONG[:4]:
            done = self.run_cfg(*words.split())
            self.assertEqual((done.returncode, done.stdout, done.stderr), (1, "", usage), words)
        for name, given, line in (("cfg_walk", ("0", "a"), "cfg_walk: usage: cfg_walk STEPS FILE\n"), ("cfg_walk", ("--unproved", "a"), "cfg_walk: usage: cfg_walk STEPS FILE\n")):
            done = self.run_cfg(*given, name=name)
            self.assertEqual((done.returncode, done.stderr), (1, line), given)
        asked: Tuple[Tuple[str, Tuple[str, ...]], ...] = (("cfg", ("--help",)), ("cfg", ("a", "-h")), ("cfg_walk", ("--help",)), ("cfg", ("--stale", "--help")))
        for name, those in asked:
            done = self.run_cfg(*those, name=name)
            self.assertEqual((done.returncode, done.stdout[:15], done.stderr), (0, f"usage: bin/{name} "[:15], ""))
        self.assertRegex(self.run_cfg("--version").stdout, "^cfg: sources of commit .*; not built\n$")
        self.assertEqual(self.asked(), "")

    def test_which_words_are_taken(self) -> None:
        for words in self.WRONG:
            self.assertFalse(taken.are_taken("cfg", words.split()), words)
        for words in self.GOOD:
            self.assertTrue(taken.are_taken("cfg", words.split()), words)
        for name, words, wanted in (("cfg_walk", "1000000 a", True), ("cfg_walk", "1000001 a", False), ("cfg_check", "make a", True),
                                    ("cfg_check", "test a b", True), ("cfg_check", "test a", False), ("cfg_check", "make a b", False)):
            self.assertEqual(taken.are_taken(name, words.split()), wanted, words)
        self.assertFalse(taken.are_taken("cfg", ["\udc80"]))

    def test_what_an_error_line_means(self) -> None:
        self.run_cfg("a")
        program = self.top / "crates" / "cfg" / "out" / "cfg"
        other = self.top / "other.elf"
        other.write_bytes(b"\x7fELF" + bytes(14) + b"\x3e\0" + bytes(60))
        for said, status, words, meaning in (
                ("malformed: Interp", 2, ("a",), "this file is dynamically linked: link it with -static or -static-pie"),
                ("malformed: Machine", 2, (str(other),), "this file is for x86-64, and cfg reads RISC-V: compile it with a cross compiler, such as riscv64-linux-gnu-gcc -static"),
                ("read fault", 3, ("--report", "live", "/nowhere/a"), "/nowhere/a: No such file or directory"),
                ("read fault", 3, ("/",), "/ is a folder")):
            program.write_text(f"#!/bin/sh\necho 'cfg: {said}' >&2; exit {status}\n")
            done = self.run_cfg("--stale", *words)
            self.assertEqual((done.returncode, done.stderr), (status, f"cfg: {said}\nbin/cfg: {meaning}\n"))

    def test_what_ends_the_script_ends_the_program(self) -> None:
        self.run_cfg("a")
        program = self.top / "crates" / "cfg" / "out" / "cfg"
        program.write_text(f"#!/bin/sh\necho $$ >'{self.top}/pid'; exec sleep 60\n")
        with subprocess.Popen(["sh", str(self.top / "bin" / "cfg"), "--stale", "a"], env=self.environment()) as ran:
            while not (self.top / "pid").exists() or not (self.top / "pid").read_text().endswith("\n"):
                time.sleep(0.01)
            ran.send_signal(signal.SIGTERM)
            self.assertNotEqual(ran.wait(timeout=20), 0)
        pid = int((self.top / "pid").read_text())
        for _ in range(200):
            if not Path(f"/proc/{pid}").exists():
                break
            time.sleep(0.02)
        self.assertFalse(Path(f"/proc/{pid}").exists())

    def note(self, *programs: str) -> None:
        done = self.build("--note-newer-than", str(self.top / "gate"), *programs)
        self.assertEqual((done.returncode, done.stdout, done.stderr), (0, "", ""))

    def test_programs_that_the_gate_has_made(self) -> None:
        (self.top / "gate").touch()
        time.sleep(0.1)
        program = self.top / "crates" / "cfg" / "out" / "cfg"
        program.parent.mkdir()
        program.write_text("#!/bin/sh\necho \"ran:$1:$2\"; exit 3\n")
        program.chmod(0o755)
        self.note("cfg", "cfg_walk")
        self.assert_runs_at_once()
        self.assertFalse((self.top / "crates" / "cfg_walk" / "out").exists())

    def test_a_gate_whose_sources_changed_tells_nothing(self) -> None:
        self.run_cfg("a")
        (self.top / "crates" / "cfg" / "out" / "cfg.made").unlink()
        (self.top / "gate").touch()
        for change in (lambda: None, lambda: self.change("low")):
            change()
            self.note("cfg")
            self.assertFalse((self.top / "crates" / "cfg" / "out" / "cfg.made").exists())
            (self.top / "crates" / "cfg" / "out" / "cfg").touch()
        self.assertIn("nothing says what the program was made from", self.run_cfg("a").stderr)

    def test_a_number_of_jobs(self) -> None:
        done = self.build("--jobs", "3", "cfg")
        self.assertIn("crates to prove: 3, 3 at a time, ", done.stderr)
        self.assertIn("ci jobs=3: " if self.KEEPS else "high all check --jobs 3\n", self.asked())

    def test_object_file(self) -> None:
        """The one beside the program is of that program, and is made if the program is not only to run."""
        if not self.KEEPS:
            self.skipTest("the toolchain makes it in place")
        made = self.top / "crates" / "cfg" / "out" / "cfg.o"
        self.run_cfg("a")
        self.assertEqual(made.read_text(), "object of cfg\n")
        (self.top / "keeps" / "cfg").touch()
        self.change("low")
        self.asked()
        self.run_cfg("a")
        self.assertFalse(made.exists())
        self.assertEqual(self.asked().count("ci jobs="), 1)
        shutil.rmtree(made.parent)
        done = self.build("cfg")
        self.assertIn("bin/cfg: the program was kept without its object file, so it is proved again", done.stderr)
        self.assertEqual((self.asked().count("ci jobs="), made.read_text()), (2, "object of cfg\n"))
        self.assert_runs_at_once()

    def test_what_lies_beside_the_sources_is_not_copied(self) -> None:
        if not self.KEEPS:
            self.skipTest("nothing is copied")
        for folder in ("out", "must-fail", "more-edits", "src/out"):
            (self.top / "crates" / "low" / folder).mkdir()
            (self.top / "crates" / "low" / folder / "a.edit").touch()
        self.run_cfg("a")
        self.assertEqual([it for it in self.asked().split() if it.endswith("a.edit")], ["./crates/low/src/out/a.edit"])

    def test_a_store_of_somebody_else(self) -> None:
        if not self.KEEPS:
            self.skipTest("there is none")
        (self.top / "rattle-kept").write_text("no folder\n")
        self.assertEqual(self.run_cfg("a").stdout, "ran:a:\n")
        self.assertIn("high all check", self.asked())


class KeepsNothing(BinCfg):
    """The same with a toolchain whose gate proves everything at each run, so that the crates are proved where they are."""

    KEEPS = False

    def assert_told(self, said: List[str]) -> None:
        self.assertEqual(said, [
            "bin/cfg: waiting for another rt to finish in crates/low",
            "bin/cfg: low is proved; 2 left, about a minute",
            "bin/cfg: high is proved; 1 left, about a minute",
            "bin/cfg: built",
        ])

    def assert_asked(self, asked: str) -> None:
        # The libraries are proved side by side, from the highest; then the program runs on its stored words.
        self.assertRegex(asked, r"^high all check --jobs \d+\ncfg run -- data/one\.elf\n")

    def assert_says_why(self, error: str) -> None:
        self.assertIn("fn low::x: not proved\n", error)
        self.assertNotIn("rt: waiting", error)

    def test_libraries_that_are_built_are_not_asked_for(self) -> None:
        self.run_cfg("10", "a", name="cfg_walk")
        self.asked()
        self.assertIn("crates to prove: 2,", self.run_cfg("a").stderr)
        self.assertIn("high all check", self.asked())
        shutil.rmtree(self.top / "crates" / "cfg" / "out")
        self.run_cfg("a")
        self.assertNotIn("all check", self.asked())


if __name__ == "__main__":
    unittest.main()
