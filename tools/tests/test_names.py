"""All names of a function, what names one, and where the last instruction of a block is."""

from __future__ import annotations

import json
import shutil
import unittest

import rows
import small
from cfgtools.elf.elf_file import Elf, best_name
from cfgtools.reports import names
from test_tools import InFolder

RET = "00008067"


class Aliases(InFolder):
    def setUp(self) -> None:
        super().setUp()
        # main calls malloc, which is __libc_malloc and __malloc too: a report has the least of its names.
        code = small.code("008000EF", RET, "00150513", RET)
        symbols = [("main", 0x10000, 8), ("malloc", 0x10008, 8), ("__libc_malloc", 0x10008, 8), ("__malloc", 0x10008, 0)]
        self.path = self.file("elf", small.elf([small.Part(".text", small.CODE, 0x10000, code)], symbols))
        self.report = self.file("report", small.report("10000 may-return main: 10000 10004, 10008 may-return __libc_malloc: 10008",
                                                       "10000 10004 call, 10004 10008 return, 10008 10010 return", "10000 10004 after, 10000 10008 call"))

    def test_names_of_the_file(self) -> None:
        elf = Elf(self.path)
        self.assertEqual((elf.aliases(0x10008), elf.aliases(0x10000), elf.addresses_of("malloc")), (["__malloc", "malloc"], [], {0x10008}))

    def test_questions(self) -> None:
        self.assertEqual(self.said("query", "callers", "--elf", self.path, self.report, "malloc"), ["main at 10000, call from the block at 10000"])
        self.assertEqual(self.run_main("query", "callers", self.report, "malloc")[0], 2)
        wanted = ["10008 is in malloc, also __libc_malloc, __malloc, at 10008, in the block from 10008 to 10010, which ends with return"]
        for name in ("malloc", "__libc_malloc", "10008", "0x10008"):
            self.assertEqual(self.said("query", "where", "--elf", self.path, self.report, name), wanted)
        self.assertEqual(json.loads(self.said("query", "where", "--json", "--elf", self.path, self.report, "malloc")[0])["aliases"], ["__libc_malloc", "__malloc"])
        self.assertEqual(self.said("query", "where", self.report, "main"), ["10000 is in main at 10000, in the block from 10000 to 10004, which ends with call"])
        self.assertIn("a report has one name of each, and --elf gives the others", self.run_main("query", "where", self.report, "malloc")[2])

    def test_other_scripts(self) -> None:
        self.assertIn('label="malloc, also __libc_malloc, __malloc, 1 blocks', "\n".join(self.said("draw", "--elf", self.path, self.report, "malloc")))
        self.assertTrue(any("f10008" in line for line in self.said("call_graph", "--elf", self.path, "--to", "malloc", self.report)))
        self.assertIn("    further names 2", self.said("summary", "--elf", self.path, self.report))

    def test_the_name_that_people_say(self) -> None:
        # Of those at one address a global one before a local one, then the one with fewest underscores in front, then the shortest.
        self.assertEqual(Elf(self.path).said, {"__libc_malloc": "malloc"})
        self.assertEqual(Elf(self.path).also(0x10008), ["__libc_malloc", "__malloc"])
        # The flag says whether a name is local: `malloc` is, in some builds of glibc, and is said all the same.
        self.assertEqual(best_name([(True, "malloc"), (False, "__libc_malloc"), (False, "__malloc")]), "malloc")
        self.assertEqual(best_name([(True, "helper"), (False, "__libc_malloc")]), "__libc_malloc")
        self.assertEqual(self.said("query", "callees", "--elf", self.path, self.report, "main"), ["malloc at 10008, call from the block at 10000"])

    def test_did_you_mean(self) -> None:
        said = self.run_main("draw", self.report, "mein")[2]
        self.assertIn("no function has the name or the address mein; did you mean main?; a report has one name of each", said)
        self.assertIn("did you mean malloc?" , self.run_main("draw", "--elf", self.path, self.report, "maloc")[2])

    def test_words_in_any_order(self) -> None:
        self.assertEqual(self.run_main("draw", self.report, "-o", str(self.folder / "main.dot"), "main")[0], 0)
        self.assertEqual(self.said("query", "callers", "--elf", self.path, self.report, "--demangle", "malloc"),
                         self.said("query", "callers", self.report, "malloc", "--elf", self.path))

    def test_json(self) -> None:
        found = [json.loads(line) for line in self.said("to_json", "--elf", self.path, self.report)]
        self.assertEqual(found[2]["aliases"], ["__malloc", "malloc"])
        self.assertNotIn("aliases", found[1])
        self.assertEqual([(one["last"], one["last_length"]) for one in found if one["record"] == "block"],
                         [("0000000000010000", 4), ("0000000000010004", 4), ("000000000001000c", 4)])

    def test_a_file_is_named_once(self) -> None:
        other = self.file("other", small.elf([small.Part(".text", small.CODE, 0x20000, small.code(RET))], [], 0x20000))
        error = self.run_main("to_json", "--elf", other, self.report)[2]
        self.assertEqual(error.count(self.report), 1, error)


@unittest.skipUnless(any(map(shutil.which, names.TOOLS)), "no c++filt")
class Demangled(InFolder):
    # int top(int, int *), and Shape::area() const and Shape::area(int) of a class.
    NAMES = ("_Z3topiPi", "_ZNK5Shape4areaEv", "_ZN5Shape4areaEi")

    def setUp(self) -> None:
        super().setUp()
        functions = ", ".join(f"{0x10000 + 4 * place:x} may-return {name}: {0x10000 + 4 * place:x}" for place, name in enumerate(self.NAMES))
        self.path = self.file("report", small.report(functions, "10000 10004 return, 10004 10008 return, 10008 1000c return"))

    def test_with_arguments_and_without(self) -> None:
        for wanted in ("top", "top(int, int*)", "top(int,int*)", "_Z3topiPi"):
            self.assertIn("10000 is in ", self.said("query", "where", self.path, wanted)[0], wanted)
            self.assertIn('digraph "top', "\n".join(self.said("draw", self.path, "--demangle", wanted)))
        self.assertIn("10004 is in ", self.said("query", "where", self.path, "Shape::area() const")[0])

    def test_several(self) -> None:
        self.assertIn("2 functions are named Shape::area: give the address: Shape::area() const at 10004, Shape::area(int) at 10008",
                      self.run_main("query", "callers", self.path, "Shape::area")[2])
        self.assertIn("did you mean Shape::area?", self.run_main("query", "callers", self.path, "area")[2])


class Around(InFolder):
    def test_a_table_whose_bound_test_is_not_shown(self) -> None:
        """--depth 0 at the jump of a table leaves out the block with its bound test, which tells how many entries it has."""
        code = small.code(rows.ROWS[13].code)
        entries = small.words(0x10020 - 0x20000, 0x10024 - 0x20000)
        parts = [small.Part(".text", small.CODE, 0x10000, code), small.Part(".rodata", small.READ_ONLY, 0x20000, entries)]
        elf = self.file("elf", small.elf(parts, [("f", 0x10000, len(code))]))
        said = "\n".join(self.said("draw", "--elf", elf, self.row(13), "--around", "10008", "--depth", "0"))
        self.assertIn('b10008 -> b10020 [color=deeppink, style=solid, label="0"', said)


if __name__ == "__main__":
    unittest.main()
