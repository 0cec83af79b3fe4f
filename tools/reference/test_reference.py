#!/usr/bin/env python3
"""Tests of the reference implementation. Usage: python3 tools/reference/test_reference.py"""
import functools
import pathlib
import re
import subprocess
import tempfile
import unittest

import tools_path  # noqa: F401
import forest
from rules import check
from decode import decode
from files import Policy, scan_roots
from foxdec_graph import Graph, Region, read_graph, read_term
from full import check_full
from image import read_image
from lift import lift
from small_programs import GRAPHS, PROGRAMS, PUSHED, RETURN
from terms import add, constant, entry, nodes, pair, scale, sub, zx


@functools.lru_cache(maxsize=None)
def lifted(name, **options):
    image = read_image(PROGRAMS[name])
    return lift(image, Policy(frozenset([image.entry]), **options)).text()


def said(name, graph):
    return str(check(read_image(PROGRAMS[name]), read_graph(graph.encode())) or "valid")


def said_in_full(name, graph, **options):
    """What is said of a valid graph by the rules of a full one."""
    image = read_image(PROGRAMS[name])
    return str(check_full(image, read_graph(graph.encode()), Policy(frozenset([image.entry]), **options)) or "valid")


def with_line(graph, line, after):
    return graph.replace(after + "\n", f"{after}\n{line}\n", 1)


def without(graph, line, site=""):
    """Without the first such line, or the first one behind a site."""
    at = graph.index(f"s {site}") if site else 0
    return graph[:at] + graph[at:].replace(line + "\n", "", 1)


def changed(graph, old, new, site=""):
    at = graph.index(f"s {site}") if site else 0
    assert old in graph[at:]
    return graph[:at] + graph[at:].replace(old, new, 1)


def lines_at(graph, site):
    """The lines of a site."""
    return graph[graph.index(f"s {site} "):].split("\ns ")[0].split("\nf ")[0].split("\nend\n")[0].split("\n")


class Lifts(unittest.TestCase):
    def test_whole_graphs(self):
        for name, graph in GRAPHS.items():
            with self.subTest(name):
                self.assertEqual(lifted(name), graph)

    def test_what_is_lifted_is_valid_and_full(self):
        for name in PROGRAMS:
            for options in ({}, {"with_forks": True}):
                if name != "nops" or not options:
                    with self.subTest(name, **options):
                        graph = lifted(name, **options)
                        self.assertEqual((said(name, graph), said_in_full(name, graph, **options)), ("valid", "valid"))

    def test_a_long_function(self):
        graph = read_graph(lifted("nops").encode())
        self.assertEqual(len(graph.functions[0].sites), 16_385)

    def test_a_switch(self):
        graph = lifted("switch")
        self.assertIn("> 400086:0 400087:0 400088:0", lines_at(graph, "40007f"))
        bounds = [line for line in lines_at(graph, "400086") if line[0] == "b"]
        self.assertEqual(bounds, ["b v40007f {0x400086,0x400087,0x400088}", "b zx32(rdi0) 0..3"])
        self.assertEqual(lines_at(graph, "400088"), ["s 400088 ret", "v 0", "r rax=?", "z 32 zx32(rdi0) 3", RETURN])

    def test_a_relative_table(self):
        site = lines_at(lifted("relative table"), "40008d")
        self.assertIn("> 400090:0 400091:0", site)
        self.assertIn("r rax=v400086+0x400094 rdx=0x400094 rdi=zx32(rdi0)", site)
        self.assertIn("b v400086 {0xfffffffffffffffc,0xfffffffffffffffd}", site)

    def test_a_table_that_can_be_written(self):
        graph = read_graph(lifted("writable table").encode())
        self.assertEqual([it.address for it in graph.functions[0].sites], [0x4000b0, 0x4000b3, 0x4000b5, 0x4000b7, 0x4000c0])
        self.assertIn("s 4000b7 end unresolved", lifted("writable table"))
        image = read_image(PROGRAMS["writable table"])
        found = lift(image, Policy(frozenset({image.entry} | scan_roots(image)))).functions
        self.assertEqual([it.entry for it in found], [0x4000b0, 0x4000be, 0x4000bf, 0x4000c0])

    def test_calls_that_leave_the_graph(self):
        graph = lifted("call", externs=frozenset([0x40007e]))
        self.assertEqual(graph, changed(GRAPHS["recursion"], "call 400078", "outside"))
        self.assertIn("s 40007a end extern", lifted("jump and stop", externs=frozenset([0x40007a])))
        self.assertIn("s 400078 end unsupported", lifted("lock"))

    def test_an_entry_that_is_no_code(self):
        data = bytearray(PROGRAMS["return"])
        data[24] += 1
        image = read_image(bytes(data))
        self.assertEqual(lift(image, Policy(frozenset([image.entry]))).text(), "foxdec graph 1\nx 400079 notcode\nend\n")

    def test_a_cell_in_a_cell(self):
        self.assertEqual(lines_at(lifted("store in a cell"), "400081")[2:],
                         [RETURN, "c [rsp0-8;8]", "c .[rsp0-8;4]=zx32(rsi0)"])

    def test_three_cases_of_a_store(self):
        graph = lifted("two stores", with_forks=True)
        site = lines_at(graph, "40007b")
        self.assertEqual(site[1:3], ["p [rdx0;8] [rsp0;8]", "g [rdx0;8] [rdi0;8]"])
        self.assertEqual(site[-1], "> 40007e:0 40007e:1 40007e:2")
        self.assertEqual(lines_at(graph, "40007e")[1:], [
            "v 0", "c [rdx0|rdi0;8]=rcx0", RETURN, "v 1", "c [rdx0;8]=rcx0", RETURN, "c [rdi0;8]=rsi0",
            "v 2", "c [rdx0;8]=rcx0", RETURN])

    def test_jumps_in_loops(self):
        site = lines_at(lifted("switch in a loop"), "40007f")
        self.assertEqual((site[0], site[-1]), ("s 40007f step", "> 400086:0 400088:0"))
        graph = lifted("dispatch loop")
        site = lines_at(graph, "400080")
        self.assertEqual((site[0], site[-1]), ("s 400080 step", "> 400087:0 400089:0"))
        self.assertEqual(lines_at(graph, "400089")[0], "s 400089 ret")
        self.assertEqual(lines_at(graph, "40007b")[2:4], ["r rax=zx8(v400078)", RETURN])

    def test_a_compiled_program(self):
        graph = read_graph(lifted("compiled").encode())
        sites = [site for function in graph.functions for site in function.sites]
        self.assertEqual([(it.entry, len(it.sites)) for it in graph.functions], [(0x400078, 24), (0x4000cb, 2), (0x4000d1, 1)])
        self.assertEqual([it.address for it in sites if it.kind == "ret"], [0x4000c4, 0x4000d0])
        self.assertEqual([(it.address, list(map(str, it.kept))) for it in sites if it.kind == "call"],
                         [(0x400091, ["[rsp0;8]", "[rsp0-8;8]"]), (0x4000c5, ["[rsp0;8]", "[rsp0-8;8]"])])
        self.assertFalse([it for it in sites if it.separate])


TOP = pathlib.Path(__file__).resolve().parent.parent.parent
EXAMPLES = TOP / "examples"
MAKE_REAL = TOP / "bench" / "make_real.py"
ROW = re.compile(r"\| `./foxdec check examples/(\S+\.elf) examples/(\S+\.graph)` \| `(valid|invalid .*?)` \|")


class Examples(unittest.TestCase):
    def test_what_check_says_of_the_examples(self):
        for elf, graph, wanted in ROW.findall((EXAMPLES / "README.md").read_text()):
            with self.subTest(graph):
                image = read_image((EXAMPLES / elf).read_bytes())
                found = check(image, read_graph((EXAMPLES / graph).read_bytes()))
                self.assertEqual(str(found or "valid"), wanted)


class Makes(unittest.TestCase):
    def test_graphs_of_the_shape_of_compiled_code(self):
        for words in (["1"], ["60"], ["200", "2"], ["300", "20"]):
            with self.subTest(words), tempfile.TemporaryDirectory() as folder:
                prefix = pathlib.Path(folder) / "real"
                subprocess.run([MAKE_REAL, *words, "--to", prefix], check=True, stdout=subprocess.DEVNULL)
                image = read_image(prefix.with_suffix(".elf").read_bytes())
                text = prefix.with_suffix(".graph").read_text()
                self.assertIsNone(check(image, read_graph(text.encode())))
                self.assertEqual(lift(image, Policy(frozenset([image.entry]))).text(), text)


# A program, a change of its graph, and what is said of it.
BROKEN = [
    ("return", lambda g: changed(g, RETURN, "c [rsp0;8]=rdi0"), "invalid 400078 400078 0 0 entry"),
    ("move", lambda g: changed(g, "rax=-1", "rax=-2"), "invalid 400078 400078 0 0 register"),
    ("move", lambda g: changed(g, "> 400082:0", "> 400081:0"), "invalid 400078 400078 0 0 address"),
    ("move", lambda g: changed(g, "rax=-1", "rax=?"), "valid"),
    ("push without pop", lambda g: changed(g, "end badreturn", "ret"), "invalid 400078 400079 0 0 return"),
    ("store", lambda g: without(g, "p [rdi0;8] [rsp0;8]"), "invalid 400078 400078 0 0 cell"),
    ("store", lambda g: without(without(g, "p [rdi0;8] [rsp0;8]"), RETURN, "40007b"), "invalid 400078 40007b 0 0 return"),
    ("store", lambda g: changed(without(without(g, "p [rdi0;8] [rsp0;8]"), RETURN, "40007b"), "40007b ret",
                                "40007b end badreturn"), "valid"),
    ("push and pop", lambda g: with_line(g, "p [rsp0-8;8] [rsp0;8]", "s 400078 step"), "invalid 400078 400078 0 0 decided"),
    ("loop", lambda g: without(g, PUSHED, "400079"), "invalid 400078 400079 0 0 cell"),
    ("recursion", lambda g: without(g, "k [rsp0;8]"), "invalid 400078 400078 0 0 cell"),
    ("recursion", lambda g: changed(g, "call 400078", "call 40007d"), "invalid 400078 400078 0 0 callee"),
    ("system call", lambda g: changed(g, " r11=?", ""), "invalid 400078 400078 0 0 register"),
    ("switch", lambda g: changed(g, "> 400086:0 400087:0 400088:0", "> 400086:0 400087:0 400088:0 400089:0"),
     "invalid 400078 40007f 0 0 cases"),
    ("switch", lambda g: changed(changed(g, "0..3", "0..4"), "0..3", "0..4"), "invalid 400078 40007f 0 0 cases"),
    ("switch", lambda g: without(g, "b zx32(rdi0) 0..3", "400086"), "valid"),
    ("switch", lambda g: without(g, "z 32 zx32(rdi0) 3", "400088"), "valid"),
    ("call of a push", lambda g: g, "valid"),
    ("call of a push", lambda g: g[:g.index("f 40007e")] + "end\n", "invalid 400078 400078 0 0 callee"),
    ("call of a push", lambda g: changed(g[:g.index("f 40007e")] + "end\n", "\n" + RETURN, "\nc [rsp0;8]=rdi0", "40007d"),
     "invalid 400078 400078 0 0 callee"),
]


# A program, a change of its graph that leaves it valid, and what is said of it as a full one.
LESS_THAN_FULL = [
    ("call of a push", lambda g: g.replace("end\n", "f 400080 65536 4096\ns 400080 ret\nv 0\n" + RETURN + "\nend\n"),
     "invalid 400080 0 0 0 functions"),
    ("return", lambda g: changed(g, "65536", "65528"), "invalid 400078 0 0 0 frame"),
    ("return", lambda g: changed(g, "ret", "end badreturn"), "invalid 400078 400078 0 0 reason"),
    ("return", lambda g: changed(g, "ret", "end unsupported"), "invalid 400078 400078 0 0 reason"),
    ("return", lambda g: changed(g, "ret", "end stop"), "invalid 400078 400078 0 0 reason"),
    ("return", lambda g: changed(g, "ret", "end extern"), "invalid 400078 400078 0 0 reason"),
    ("return", lambda g: changed(g, "ret", "end unresolved"), "invalid 400078 400078 0 0 reason"),
    ("switch", lambda g: g[:g.index("s 400086 ")].replace("40007f step", "40007f end unresolved").replace(
        "> 400086:0 400087:0 400088:0\n", "") + changed(g[g.index("s 400088 "):], RETURN, "b zx32(rdi0) 4..0xffffffff\n" + RETURN),
     "invalid 400078 40007f 0 0 reason"),
    ("call of a push", lambda g: changed(g, "call 40007e", "outside"), "invalid 400078 400078 0 0 outside"),
    ("store", lambda g: BROKEN[7][1](g), "invalid 400078 400078 0 0 assumed"),
    ("two stores", lambda g: lifted("two stores", with_forks=True), "invalid 400078 40007b 0 0 forked"),
    ("return", lambda g: with_line(g, "v 1\n" + RETURN, RETURN), "invalid 400078 400078 1 0 inedge"),
    ("move", lambda g: changed(g, "rax=-1", "rax=?"), "invalid 400078 400082 0 0 exact"),
    ("switch", lambda g: without(g, "b zx32(rdi0) 0..3", "400086"), "invalid 400078 400086 0 0 exact"),
    ("switch", lambda g: without(g, "z 32 zx32(rdi0) 3", "400088"), "invalid 400078 400088 0 0 exact"),
]


class Judges(unittest.TestCase):
    def test_graphs_that_say_less_than_a_full_one(self):
        for name, change, wanted in LESS_THAN_FULL:
            with self.subTest(name, wanted=wanted):
                graph = change(lifted(name))
                self.assertEqual((said(name, graph), said_in_full(name, graph)), ("valid", wanted))

    def test_broken_rules(self):
        for name, change, wanted in BROKEN:
            with self.subTest(name, wanted=wanted):
                self.assertEqual(said(name, change(lifted(name))), wanted)

    def test_an_empty_graph(self):
        self.assertEqual(said("return", Graph().text()), "valid")


CONTEXT = forest.Context(read_image(PROGRAMS["return"]), 65_536, 4_096)


def forest_of(*lines):
    graph = GRAPHS["return"].replace(RETURN, "\n".join(lines))
    return read_graph(graph.encode()).functions[0].sites[0].vertices[0].nodes


def lines_of(level):
    return [line for node in level for line in node.lines()]


def region(at, size):
    return Region(read_term(at) if isinstance(at, str) else constant(at), size)


class KeepsMemory(unittest.TestCase):
    def test_regions_around_the_end_of_memory(self):
        high = region(-4, 8)
        answers = [forest.relate(high, region(at, 4), CONTEXT) for at in (2, 4, 0)]
        self.assertEqual(answers, ["Overlap", "Separate", "Around"])

    def test_a_store_inside_a_cell(self):
        begun = forest_of(RETURN, "c [rsp0-8;8]=rdi0")
        after = forest.store(begun, region("rsp0-8", 4), read_term("zx32(rsi0)"), CONTEXT)
        self.assertEqual(lines_of(after), [RETURN, "c [rsp0-8;8]", "c .[rsp0-8;4]=zx32(rsi0)"])

    def test_a_store_at_an_address_that_nothing_is_known_of(self):
        where, value = region("rdi0", 8), read_term("rsi0")
        self.assertEqual(lines_of(forest.store(forest_of(RETURN), where, value, CONTEXT)), ["c [rdi0;8]=rsi0"])
        apart = forest.Context(CONTEXT.image, 65_536, 4_096, ((where, region("rsp0", 8)),))
        self.assertEqual(lines_of(forest.store(forest_of(RETURN), where, value, apart)), [RETURN, "c [rdi0;8]=rsi0"])

    def test_a_load_inside_a_cell(self):
        where, value = region("rsp0", 4), read_term("zx32(v400078)")
        self.assertEqual(forest.load(forest_of(RETURN), where, None, CONTEXT), (None, forest_of(RETURN)))
        found, after = forest.load(forest_of(RETURN), where, value, CONTEXT)
        self.assertEqual((found, lines_of(after)), (value, [RETURN, "c .[rsp0;4]=zx32(v400078)"]))

    def test_one_more_name(self):
        after = forest.alias(forest_of("c [rdi0;8]=rsi0"), region("rdx0", 8), region("rdi0", 8))
        self.assertEqual(lines_of(after), ["c [rdx0|rdi0;8]=rsi0"])

    def test_terms(self):
        rax, rcx = entry(0), entry(1)
        self.assertEqual(list(map(str, [zx(32, rax), sub(rax, rcx), scale(3, rax), pair("and", rax, rcx)])),
                         ["zx32(rax0)", "rax0-rcx0", "3*rax0", "and(rax0,rcx0)"])
        much = read_term("+".join(f"v{at:x}" for at in range(31)))
        self.assertEqual((nodes(much), add(much, rax)), (32, None))


# Bytes, with the operation, its width and its length, or None.
SPELLINGS = [
    ("67E803000000", ("call", 64, 6)),
    ("F2C3", ("ret", 64, 2)),
    ("662E0F1F840000000000", ("nop", 64, 10)),
    ("64488B042528000000", ("mov", 64, 9)),
    ("F00107", None),
    ("66" * 14 + "90", ("nop", 64, 15)),
    ("66" * 15 + "90", None),
    ("6690", ("nop", 64, 2)),
    ("664190", ("xchg", 16, 3)),
    ("66664190", None),
    ("6688C0", None),
    ("C1E000", None),
    ("C1E020", None),
    ("48C1E020", ("shl", 64, 4)),
    ("D0F0", None),
    ("F3F2C3", ("ret", 64, 3)),
    ("F30F1EFA", ("nop", 64, 4)),
    ("2EF30F1EFA", None),
    ("648D00", None),
    ("64C3", None),
    ("2E648B00", None),
    ("7A00", None),
    ("63C0", None),
    ("4863C0", ("movsx", 64, 3)),
    ("8F00", None),
    ("F6E0", None),
    ("F7E0", ("mul", 32, 2)),
    ("F6C801", None),
    ("48C3", ("ret", 64, 2)),
    ("484890", None),
]


class Decodes(unittest.TestCase):
    def test_spellings(self):
        for digits, wanted in SPELLINGS:
            with self.subTest(digits):
                found = decode(bytes.fromhex(digits), 0x400078)
                self.assertEqual(found and (found.op, found.width, found.length), wanted)

    def test_operands(self):
        self.assertEqual(decode(bytes.fromhex("88E0"), 0).src.number, 0)  # AH
        self.assertEqual(type(decode(bytes.fromhex("88E0"), 0).src).__name__, "High")
        self.assertEqual(type(decode(bytes.fromhex("4088E0"), 0).src).__name__, "Reg")
        self.assertEqual(decode(bytes.fromhex("488D0501000000"), 0x10).src.offset, 0x18)
        self.assertEqual(decode(bytes.fromhex("4A8B0420"), 0).src.index, 12)
        self.assertIsNone(decode(bytes.fromhex("8B0420"), 0).src.index)


if __name__ == "__main__":
    unittest.main()
