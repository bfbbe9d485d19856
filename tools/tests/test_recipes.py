"""The commands that docs/USING.md shows: each block of them runs as it stands, in the order of the page, with the tools that are
installed. The commands of this page's own programs are those of the repository; in the place of one that is not built, a
script of the tests stands in for `cfg`, and the blocks of the others are left out.
"""

from __future__ import annotations

import os
import re
import shutil
import subprocess
import tempfile
import unittest
from pathlib import Path
from typing import Dict, List

import rows
from cfgtools.checks import binutils
from cfgtools.elf.elf_file import Elf
from test_using import blocks

TOP = rows.TOOLS.parent
# A program that prints and ends, and calls through a register.
PROGRAM = r"""
static long call(long number, long a, long b, long c) {
    register long a7 __asm__("a7") = number, a0 __asm__("a0") = a, a1 __asm__("a1") = b, a2 __asm__("a2") = c;
    __asm__ volatile("ecall" : "+r"(a0) : "r"(a7), "r"(a1), "r"(a2) : "memory");
    return a0;
}
__attribute__((noinline)) void panic(void) { call(64, 1, (long)"panic\n", 6); }
void (*volatile chosen)(void) = panic;
int main(void) { chosen(); return 0; }
void _start(void) { call(93, main(), 0, 0); for (;;) { } }
"""
# What stands in for `cfg`, which knows no jump tables.
STAND_IN = f"""graph='{rows.TOOLS / "tests" / "stand_in.py"}' live='{rows.MAINTAIN / "compare_live"}'
[ "$1" = --report ] || exec python3 -B "$graph" "$@"
held=$(mktemp)
python3 -B "$graph" "$4" > "$held" && python3 -B "$live" --report "$held" --print "$4"
rm "$held"
"""
# What a block needs beside a shell, by a word of it.
NEEDS = {"qemu-riscv64": "qemu-riscv64", "parallel ": "parallel", "draw": "dot", "check_trace": "qemu-riscv64", "-gcc": binutils.GCC,
         "objcopy": "riscv64-unknown-elf-objcopy", "-ld ": "riscv64-unknown-elf-ld"}
PROGRAMS = ("cfg_walk", "cfg_check")
# The files that a block makes.
MAKES = re.compile(r"(?:>|-o) *([\w./]+)")


def is_built(name: str) -> bool:
    return (TOP / "crates" / name / "out" / name).exists()


@unittest.skipIf(binutils.missing(binutils.GCC, "riscv64-unknown-elf-strip"), "no compiler for RISC-V")
class Blocks(unittest.TestCase):
    def setUp(self) -> None:
        folder = tempfile.TemporaryDirectory()
        self.addCleanup(folder.cleanup)
        self.folder = Path(folder.name)
        (self.folder / "tools").symlink_to(rows.TOOLS)
        (self.folder / "bin").mkdir()
        for name in ("cfg", *PROGRAMS):
            program = TOP / "crates" / name / "out" / name
            self.script(f"bin/{name}", f'exec "{program}" "$@"' if program.exists() else STAND_IN if name == "cfg" else "exit 1")
        for name in ("sudo", "xdg-open"):
            self.script(f"bin/{name}", "exit 0")
        self.script("bin/qemu-riscv64", self.qemu())
        self.files()

    def script(self, name: str, text: str) -> None:
        path = self.folder / name
        path.write_text(f"#!/bin/sh\n{text}\n")
        path.chmod(0o755)

    def qemu(self) -> str:
        """qemu, of which the page's option for single steps may have another name."""
        found = shutil.which("qemu-riscv64") or "/bin/false"
        said = subprocess.run([found, "-help"], capture_output=True).stdout
        return f'exec {found} "$@"' if b"singlestep" in said else f'[ "$1" = -singlestep ] && shift && set -- -one-insn-per-tb "$@"\nexec {found} "$@"'

    def files(self) -> None:
        """The files that the page speaks of, and does not make."""
        def built(source: str, name: str) -> None:
            self.assertIsNotNone(binutils.compile_c(str(self.folder / name), source, "-O2", *binutils.BARE))

        (self.folder / "prog.c").write_text(blocks("c")[0])
        for name in ("program.elf", "program.debug", "old.elf"):
            built(PROGRAM, name)
        built(PROGRAM.replace("return 0;", "return 1;"), "new.elf")
        self.run_block("bin/cfg program.elf > program.report")
        (self.folder / "script").write_text("\n")
        tree = self.folder / "tree"
        for place in ("a/b_c", "a_b/c"):
            (tree / place).parent.mkdir(parents=True)
            shutil.copy(self.folder / "program.elf", tree / place)
        (tree / "a" / "text").write_text("#!/bin/sh\n")
        (tree / "a" / "text").chmod(0o755)
        code = self.folder / "code.o"
        text = ".rept 64\nnop\n.endr\n.org 0x100\n.rept 16\nj .\n.endr\n"
        subprocess.run([binutils.GCC, "-march=rv64ima", "-mabi=lp64", "-c", "-x", "assembler", "-", "-o", code], input=text, text=True, check=True)
        subprocess.run(["riscv64-unknown-elf-objcopy", "-O", "binary", "-j", ".text", code, self.folder / "image.bin"], check=True)

    def run_block(self, text: str) -> str:
        programs = {name.upper(): f"{self.folder}/bin/{name}" for name in ("cfg", *PROGRAMS)}
        environment = dict(os.environ, PATH=f"{self.folder}/bin:{os.environ['PATH']}", PYTHONDONTWRITEBYTECODE="1", **programs)
        done = subprocess.run(["sh", "-e", "-c", text], cwd=self.folder, env=environment, stdin=subprocess.DEVNULL, capture_output=True,
                              text=True, timeout=300)
        self.assertEqual(done.returncode, 0, f"{text}\n{done.stdout}\n{done.stderr}")
        return done.stdout

    def can_run(self, text: str, left_out: List[str]) -> bool:
        """Whether what a block needs is there: tools, programs, and files that a block before it makes."""
        lacking = [tool for word, tool in NEEDS.items() if word in text and not shutil.which(tool)]
        not_made = [name for name in MAKES.findall("\n".join(left_out)) if name in text.split() and not (self.folder / name).exists()]
        return not (lacking or not_made) and all(is_built(name) for name in PROGRAMS if f"bin/{name}" in text)

    def test_each_block_in_the_order_of_the_page(self) -> None:
        said: Dict[str, str] = {}
        left_out: List[str] = []
        for text in blocks("sh"):
            if text.startswith("#!"):
                self.script("one", text.split("\n", 1)[1])
                continue
            if "first.example" in text:
                text = text.replace(",8/first.example,8/second.example", "")
            if "tools/draw" in text and not shutil.which("dot"):
                # The other lines of a block make what later blocks read.
                left_out.append(text)
                text = "".join(line for line in text.splitlines(keepends=True) if "tools/draw" not in line)
            # The address is one of `choose`, by the compiler that the page was written with.
            text = text.replace("WORD..", "").replace("10150", self.address_of_choose())
            if not text.strip():
                continue
            if self.can_run(text, left_out):
                # Two builds that differ make the status 1, and a refused file among several the one of xargs.
                status = next((number for word, number in (("diff_reports", 1), ("xargs", 123)) if word in text), 0)
                said[text] = self.run_block(f"{text.rstrip()} || [ $? = {status} ]")
            else:
                left_out.append(text)
        self.check(said, left_out)

    def address_of_choose(self) -> str:
        path = self.folder / "prog.elf"
        return next(f"{one.address:x}" for one in Elf(str(path)).symbols() if one.name == "choose") if path.exists() else "10150"

    def check(self, said: Dict[str, str], left_out: List[str]) -> None:
        """What some of the blocks leave behind."""
        for name in ("choose.svg", "pictures"):
            self.assertTrue((self.folder / name).exists() or any(name in text for text in left_out), name)
        reports = sorted(str(path.relative_to(self.folder)) for path in (self.folder / "reports").rglob("*.re*"))
        self.assertEqual(reports, ["reports/tree/a/b_c.report", "reports/tree/a/text.refused", "reports/tree/a_b/c.report"])
        image = subprocess.run([shutil.which("riscv64-unknown-elf-readelf") or "", "-x", ".text", self.folder / "image.elf"], capture_output=True, text=True)
        # The image has its bytes: nothing, and then jumps.
        self.assertIn("13000000", image.stdout)
        summary = subprocess.run([rows.TOOLS / "summary", self.folder / "more.elf"], capture_output=True, text=True,
                                 env=dict(os.environ, CFG=str(self.folder / "bin" / "cfg")))
        self.assertIn("functions 17", summary.stdout)


if __name__ == "__main__":
    unittest.main()
