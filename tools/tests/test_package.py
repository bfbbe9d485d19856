"""bin/package, with C programs in the place of the proved ones; and with those, if they are built."""

from __future__ import annotations

import os
import shutil
import subprocess
import sys
import tarfile
import tempfile
import unittest
from pathlib import Path
from typing import Any, List, Tuple

import rows

TOP = rows.TOOLS.parent
PROGRAMS = ("cfg", "cfg_walk", "cfg_check")
TOOL_PATH = "/usr/bin:/bin"
RT = """#!/bin/sh
case $1 in
    doc) echo "$(dirname "$0")/START-HERE.md" ;;
    version) echo 'kit 1' ;;
esac
"""
SOURCE = '#include <stdio.h>\nint other(void);\nint main(int n, char **words) { printf("%s:%s:%d\\n", NAME, n > 1 ? words[1] : "", other()); return n < 2; }\n'


def run(*command: object, path: str = os.environ["PATH"], **how: Any) -> "subprocess.CompletedProcess[str]":
    environment = {"PATH": path, "HOME": "/nowhere", "LC_ALL": "C.UTF-8"}
    return subprocess.run([str(it) for it in command], env=environment, capture_output=True, text=True, **how)


def links_statically() -> bool:
    """Whether there is a compiler with a static C library."""
    if not shutil.which("gcc"):
        return False
    with tempfile.TemporaryDirectory() as folder:
        return run("gcc", "-static", "-x", "c", "-", "-o", Path(folder) / "a", input="int main(void) { return 0; }").returncode == 0


LINKS = links_statically()


class InFolder(unittest.TestCase):
    def setUp(self) -> None:
        folder = tempfile.TemporaryDirectory()
        self.addCleanup(folder.cleanup)
        self.folder = Path(folder.name)
        # (the Python of this test, and no rt that may stand beside it)
        (self.folder / "python").mkdir()
        (self.folder / "python" / "python3").symlink_to(sys.executable)
        self.no_rt = f"{self.folder / 'python'}:{TOOL_PATH}"

    def unpacked(self, archive: str) -> Path:
        """The one folder that a package has, unpacked into an empty one."""
        room = self.folder / "unpacked"
        room.mkdir()
        with tarfile.open(archive) as it:
            it.extractall(room)
        (package,) = room.iterdir()
        self.assertEqual(archive.rpartition("/")[2], f"{package.name}.tar.gz")
        return package

    def assert_whole(self, package: Path) -> None:
        self.assertEqual({it.name for it in (package / "bin").iterdir()}, {*PROGRAMS, "install"})
        sums = run("sha256sum", "-c", "--quiet", "SUMS", cwd=package)
        self.assertEqual((sums.returncode, sums.stdout), (0, ""))
        listed = {line.split()[1][2:] for line in (package / "SUMS").read_text().splitlines()}
        found = {str(it.relative_to(package)) for it in package.rglob("*") if it.is_file()}
        self.assertEqual(found - listed, {"SUMS"})
        for name in PROGRAMS:
            # A program that needs no loader and no library has no PT_INTERP (3) among its program headers.
            data = (package / "bin" / name).read_bytes()
            at, count = int.from_bytes(data[32:40], "little"), int.from_bytes(data[56:58], "little")
            self.assertNotIn(3, [int.from_bytes(data[at + 56 * it:at + 56 * it + 4], "little") for it in range(count)])


@unittest.skipUnless(LINKS and shutil.which("git") and shutil.which("ar"), "gcc with a static C library, ar or git is not installed")
class Package(InFolder):
    def setUp(self) -> None:
        super().setUp()
        self.top, self.kit = self.folder / "a top", self.folder / "kit"
        for name in ("bin", "docs", "tools"):
            shutil.copytree(TOP / name, self.top / name, ignore=shutil.ignore_patterns("__pycache__"))
        shutil.copy(TOP / "README.md", self.top)
        (self.top / "crates.txt").write_text("".join(f"{name}: clap\n" for name in PROGRAMS))
        (self.top / ".gitignore").write_text("out/\n")
        (self.kit / "c").mkdir(parents=True)
        (self.kit / "rt").write_text(RT)
        (self.kit / "rt").chmod(0o755)
        self.path = f"{self.kit}:{os.environ['PATH']}"
        self.compile("int other(void) { return 7; }\n", self.kit / "c" / "other.o", "-c")
        for name in ("libos_c.a", "liblibc_c.a"):
            run("ar", "rc", self.kit / "c" / name, *[self.kit / "c" / "other.o"] * (name == "libos_c.a"))
        (self.folder / "since").touch()
        for name in PROGRAMS:
            self.put_program(name)
        run("git", "init", "-q", cwd=self.top)
        self.commit()

    def commit(self) -> None:
        run("git", "add", "-A", cwd=self.top)
        done = run("git", "-c", "user.name=a", "-c", "user.email=a@b", "commit", "-q", "-m", "a", cwd=self.top)
        self.assertEqual(done.returncode, 0, done.stderr)

    def compile(self, text: str, to: Path, *flags: str) -> None:
        done = run("gcc", *flags, "-x", "c", "-", "-o", to, input=text)
        self.assertEqual(done.stderr, "")

    def put_program(self, name: str) -> None:
        crate = self.top / "crates" / name
        (crate / "data").mkdir(parents=True)
        (crate / "out").mkdir()
        (crate / "data" / "one.elf").write_text("")
        (crate / "args").write_text("one.elf\n")
        (crate / "stdout").write_text(f"{name}:one.elf:7\n")
        old = os.path.getmtime(self.folder / "since") - 10
        for file in crate.rglob("*"):
            os.utime(file, (old, old))
        self.compile(SOURCE, crate / "out" / f"{name}.o", "-c", f'-DNAME="{name}"')
        shutil.copy("/bin/true", crate / "out" / name)
        (crate / "out" / name).chmod(0o755)

    def note(self) -> None:
        done = run(self.top / "bin" / "build", "--note-newer-than", self.folder / "since", *PROGRAMS, path=self.path)
        self.assertEqual((done.returncode, done.stderr), (0, ""))

    def package(self) -> "subprocess.CompletedProcess[str]":
        return run("sh", self.top / "bin" / "package", self.folder, path=self.path)

    def test_what_is_in_it(self) -> None:
        self.note()
        done = self.package()
        self.assertEqual((done.returncode, done.stdout.count("\n")), (0, 1), done.stderr)
        commit = run("git", "rev-parse", "--short=12", "HEAD", cwd=self.top).stdout.strip()
        self.assertEqual(done.stdout.strip(), f"{self.folder}/cfg-{commit}-linux-x86_64.tar.gz")
        package = self.unpacked(done.stdout.strip())
        self.assert_whole(package)
        page = (package / "README.md").read_text()
        for words in ("It was checked by kit 1.", f"as of commit {commit},", "- `cfg_check.o`: ", "- `libos_c.a`: "):
            self.assertIn(words, page)
        self.assertEqual(run(package / "bin" / "cfg", "a").stdout, "cfg:a:7\n")
        again = self.package()
        self.assertEqual(Path(again.stdout.strip()).read_bytes(), Path(done.stdout.strip()).read_bytes())

    def test_it_can_be_installed(self) -> None:
        self.note()
        package = self.unpacked(self.package().stdout.strip())
        shutil.rmtree(self.top)
        shutil.rmtree(self.kit)
        prefix = self.folder / "prefix"
        for _ in range(2):
            done = run("sh", package / "bin" / "install", prefix, path=self.no_rt)
            self.assertEqual((done.returncode, done.stderr), (0, ""))
        self.assertNotIn("left out", done.stdout)
        self.assertEqual(run(prefix / "bin" / "cfg_walk", "a", path="/nowhere").stdout, "cfg_walk:a:7\n")
        self.assertTrue((prefix / "share" / "man" / "man1" / "cfg_check.1").is_file())
        report = self.folder / "report"
        report.write_bytes(rows.report(6))
        self.assertIn("functions", run(prefix / "bin" / "cfg-summary", report, path=self.no_rt).stdout)

    def test_its_scripts_run_its_program(self) -> None:
        self.note()
        package = self.unpacked(self.package().stdout.strip())
        (self.folder / "report").write_bytes(rows.report(1))
        (self.folder / "one.elf").write_bytes(rows.elf(1))
        (package / "bin" / "cfg").unlink()
        (package / "bin" / "cfg").write_text(f"#!/bin/sh\nexec cat '{self.folder}/report'\n")
        (package / "bin" / "cfg").chmod(0o755)
        done = run(package / "tools" / "summary", self.folder / "one.elf", path=self.no_rt)
        self.assertEqual((done.returncode, done.stderr), (0, ""))
        self.assertIn("functions", done.stdout)

    def test_words(self) -> None:
        self.note()
        both: List[Tuple[object, ...]] = [("--help",), (self.folder, self.folder)]
        for words in both:
            done = run("sh", self.top / "bin" / "package", *words, path=self.path)
            self.assertEqual((done.returncode, done.stdout, done.stderr), (1, "", "usage: bin/package [FOLDER]\n"))
        here = run("sh", self.top / "bin" / "package", path=self.path, cwd=self.folder)
        self.assertEqual(here.returncode, 0, here.stderr)
        self.assertTrue(Path(here.stdout.strip()).samefile(next(self.folder.glob("*.tar.gz"))))

    def test_changes_that_are_not_committed_are_named(self) -> None:
        (self.top / "README.md").write_text("changed\n")
        self.note()
        self.assertRegex(self.package().stdout, r"/cfg-[0-9a-f]{12}-changed-linux-x86_64\.tar\.gz\n$")

    def test_sources_without_history(self) -> None:
        shutil.rmtree(self.top / ".git")
        self.note()
        self.assertEqual(self.package().stdout, f"{self.folder}/cfg-unknown-linux-x86_64.tar.gz\n")

    def test_programs_that_are_not_made_from_the_sources(self) -> None:
        done = self.package()
        self.assertEqual((done.returncode, done.stdout), (1, ""))
        self.assertIn("bin/cfg: nothing says what the program was made from\n", done.stderr)
        self.assertEqual(done.stderr.splitlines()[-1], "bin/package: bin/build cfg cfg_walk cfg_check builds them")

    def test_a_program_that_prints_something_else(self) -> None:
        (self.top / "crates" / "cfg_walk" / "stdout").write_text("else\n")
        self.commit()
        self.put_older(self.top / "crates" / "cfg_walk" / "stdout")
        self.note()
        done = self.package()
        self.assertEqual((done.returncode, done.stdout), (1, ""))
        self.assertEqual(done.stderr.splitlines()[-1], "bin/package: cfg_walk does not print its stored run")

    def test_a_program_that_ends_with_another_status(self) -> None:
        (self.top / "crates" / "cfg_walk" / "status").write_text("6\n")
        self.commit()
        self.put_older(self.top / "crates" / "cfg_walk" / "status")
        self.note()
        done = self.package()
        self.assertEqual((done.returncode, done.stdout), (1, ""))
        self.assertEqual(done.stderr.splitlines()[-1], "bin/package: cfg_walk ends its stored run with status 0")

    def put_older(self, file: Path) -> None:
        old = os.path.getmtime(self.folder / "since") - 10
        os.utime(file, (old, old))


@unittest.skipUnless(LINKS, "there is no gcc with a static C library")
class ProvedPackage(InFolder):
    """The package of the proved programs."""

    def test_it_runs_without_the_toolchain(self) -> None:
        asked = subprocess.run([TOP / "bin" / "build", "--ask", *PROGRAMS], capture_output=True, text=True)
        if asked.returncode or not shutil.which("rt"):
            self.skipTest(f"the programs are not built: {asked.stdout.splitlines()[:1]}")
        objects = [TOP / "crates" / program / "out" / f"{program}.o" for program in PROGRAMS]
        if not all(it.is_file() for it in objects):
            self.skipTest("the gate took the programs from those that it keeps, without their object files")
        done = subprocess.run(["sh", TOP / "bin" / "package", self.folder], capture_output=True, text=True)
        self.assertEqual(done.returncode, 0, done.stderr)
        package = self.unpacked(done.stdout.strip())
        self.assert_whole(package)
        elf = self.folder / "one.elf"
        for number in (1, 6, 12):
            elf.write_bytes(rows.elf(number))
            for words in ((), ("--workers", "4")):
                said = run(package / "bin" / "cfg", *words, elf, path="/nowhere")
                self.assertEqual((said.returncode, said.stderr), (0, ""))
                self.assertEqual(said.stdout.replace(" start\n", " -\n"), rows.report(number).decode())
        self.assertIn("functions", run(package / "tools" / "summary", elf, path=self.no_rt).stdout)
        certificate = self.folder / "certificate"
        certificate.write_text(run(package / "bin" / "cfg_check", "make", elf, path="/nowhere").stdout)
        told = run(package / "bin" / "cfg_check", "test", elf, certificate, path="/nowhere")
        self.assertEqual((told.returncode, told.stdout), (0, said.stdout))
        walk = run(package / "bin" / "cfg_walk", "10", elf, path="/nowhere")
        self.assertEqual((walk.returncode, walk.stderr), (0, ""))


if __name__ == "__main__":
    unittest.main()
