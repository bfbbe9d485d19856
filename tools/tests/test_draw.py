"""Pictures of large functions: parts of them, addresses inside, links, and what is said before they are made."""

from __future__ import annotations

import unittest

import small
from cfgtools.shown import picture
from test_tools import InFolder


def long_chain(count: int) -> bytes:
    """A function of so many blocks, each of which goes straight on to the next, the last of which returns."""
    starts = [0x10000 + 4 * place for place in range(count)]
    blocks = ", ".join(f"{start:x} {start + 4:x} {'return' if start == starts[-1] else 'fall'}" for start in starts)
    edges = ", ".join(f"{start:x} {start + 4:x} fall" for start in starts[:-1])
    return small.report("10000 may-return f: " + " ".join(f"{start:x}" for start in starts), blocks, edges)


class Parts(InFolder):
    def nodes(self, *words: str) -> "list[str]":
        return [line.split(" ")[4] for line in self.said("draw", *words) if line.startswith("    b") and "->" not in line]

    def test_address_inside(self) -> None:
        path = self.row(17)
        self.assertIn("digraph \"10000\" {", self.said("draw", path, "1000a"))
        self.assertIn("digraph \"g\" {", self.said("draw", path, "0x1000e"))
        self.assertEqual(self.run_main("draw", path, "10010")[0], 2)
        self.assertIn("no block has that address", self.run_main("draw", path, "10010")[2])
        self.assertIn("no function has the name or the address fffe", self.run_main("draw", path, "fffe")[2])

    def test_around(self) -> None:
        path = self.file("report", long_chain(30))
        self.assertEqual(self.nodes(path, "f", "--around", "1002a", "--depth", "1"), ["b10024", "b10028", "b1002c", "b10020", "b10030"])
        self.assertEqual(self.nodes(path, "--around", "10000", "--depth", "0"), ["b10000", "b10004"])
        said = "\n".join(self.said("draw", path, "f", "--around", "10028"))
        self.assertIn('label="f, 7 of 30 blocks, may return"', said)
        self.assertIn('b10038 [label="10038 ...", shape=plaintext', said)
        self.assertIn("no block of the function has the address 20000", self.run_main("draw", path, "f", "--around", "20000")[2])

    def test_no_instructions(self) -> None:
        elf = self.elf(6)
        self.assertIn("addi", "\n".join(self.said("draw", "--elf", elf, self.row(6), "10000")))
        said = "\n".join(self.said("draw", "--no-instructions", "--elf", elf, self.row(6), "10000"))
        self.assertNotIn("addi", said)
        self.assertIn("8 bytes", said)

    def test_links_and_folders(self) -> None:
        said = "\n".join(self.said("draw", self.row(17), "g"))
        self.assertIn('URL="10000.svg"', said)
        report = small.report("10000 may-return f: 10000 10004, 10008 may-return a/b: 10008", "10000 10004 call, 10004 10008 return, 10008 1000c return",
                              "10000 10004 after, 10000 10008 call")
        self.assertIn('URL="a=2fb.svg"', "\n".join(self.said("draw", self.file("slash", report), "f")))

    def test_long_lines(self) -> None:
        self.assertEqual((picture.cut("a" * 72), picture.cut("a" * 73)), ("a" * 72, "a" * 70 + ".."))
        self.assertEqual(picture.hover(["short", "b" * 80, "c" * 90]), [f'tooltip="{"b" * 80}\n{"c" * 90}"'])
        self.assertEqual(picture.hover(["short"]), [])

    def test_said_before(self) -> None:
        path, out = self.file("report", long_chain(500)), str(self.folder / "a.dot")
        status, said, error = self.run_main("draw", path, "f", "--all-blocks", "-o", out)
        self.assertEqual((status, said), (0, []))
        self.assertRegex(error, r"^draw: a picture of 500 blocks and 499 edges, for which dot takes .*: --around ADDRESS --depth N draws a part")
        self.assertEqual(self.run_main("draw", path, "f", "--around", "10000", "-o", out)[2], "")


if __name__ == "__main__":
    unittest.main()
