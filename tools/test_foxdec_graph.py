#!/usr/bin/env python3
"""Tests of foxdec_graph.py and graph_picture.py, by docs/GRAPH_TEXT.md. Usage: python3 tools/test_foxdec_graph.py"""
import json
import pathlib
import unittest

from foxdec_graph import GraphFault, Range, plain, read_graph
from graph_picture import picture, read_listing

EXAMPLES = pathlib.Path(__file__).resolve().parent.parent / "examples"
HEAD = "foxdec graph 1\n"
SITE = HEAD + "f 400078 65536 4096\ns 400078 step\n"
VERTEX = SITE + "v 0\n"

# A text, with the line and the cause that it is refused with.
REFUSED = [
    ("", 1, "Unended"),
    (HEAD + "end", 2, "Unended"),
    (HEAD, 2, "Unended"),
    ("foxdec graph 2\nend\n", 1, "BadHead"),
    ("foxdec graph 1\r\nend\r\n", 1, "BadHead"),
    (HEAD + "end\nend\n", 3, "BadLine"),
    (HEAD + "v 0\n", 2, "BadLine"),
    (HEAD + "f 0x400078 0 0\n", 2, "BadLine"),
    (HEAD + "f 10000000000000000 0 0\n", 2, "BadLine"),
    (HEAD + f"f 400078 {'9' * 5000} 0\n", 2, "BadLine"),
    (HEAD + "f 0400078 0 0\n", 2, "NotCanonical"),
    (HEAD + "f 4000AB 0 0\n", 2, "NotCanonical"),
    (HEAD + "f 400078 0 1048577\n", 2, "OverLimit"),
    (HEAD + "x 2 notcode\nx 1 notcode\n", 3, "OutOfOrder"),
    (SITE + "k [rsp0;8]\n", 4, "BadLine"),
    (SITE + "p [rsp0;3] [rsp0;8]\n", 4, "BadLine"),
    (SITE + "p [rsp0-8;8] [rsp0;8]\n" * 2, 5, "OutOfOrder"),
    (SITE + "".join(f"p [{n};8] [rsp0;8]\n" for n in range(65)), 68, "OverLimit"),
    (SITE + "v 1\n", 4, "OutOfOrder"),
    (VERTEX + "end\n", 5, "BadLine"),
    (VERTEX + "c .[rsp0;8]\n", 5, "BadLine"),
    (VERTEX + "c [rsp;8]=ra\n", 5, "BadTerm"),
    (VERTEX + "r rax=zx8(1\n", 5, "BadTerm"),
    (VERTEX + f"r rax={'zx8(' * 8000}\n", 5, "BadTerm"),
    (VERTEX + f"r rax={'zx8(' * 6000}rax0{')' * 6000}\n", 5, "OverLimit"),
    (VERTEX + f"r rax={'+'.join(['rax0'] * 32)}\n", 5, "OverLimit"),
    (VERTEX + f"r rax={'+'.join(['rax0'] * 31)}\n", 5, "NotCanonical"),
    (VERTEX + "r rax=rax0\n", 5, "NotCanonical"),
    (VERTEX + "r rsp=-8+rsp0\n", 5, "NotCanonical"),
    (VERTEX + "r rax=0x10\n", 5, "NotCanonical"),
    (VERTEX + "r rcx=1 rax=2\n", 5, "OutOfOrder"),
    (VERTEX + "z 08 rax0 1\n", 5, "NotCanonical"),
    (VERTEX + "b rax0 5..4\n", 5, "OutOfOrder"),
    (VERTEX + "b rax0 {1,1}\n", 5, "OutOfOrder"),
    (VERTEX + "c [rsp0;8]\nc [rsp0;8]\n", 6, "OutOfOrder"),
    (VERTEX + "c [rsp0;8]\nc .[rsp0;4]\nc .[rsp0;4]\n", 7, "OutOfOrder"),
    (VERTEX + "> 400079:4294967296\n", 5, "BadLine"),
    (VERTEX + "> " + " ".join(["400079:0"] * 1025) + "\n", 5, "OverLimit"),
    (VERTEX + "r " + "a" * 32_767 + "\n", 5, "OverLimit"),
    (VERTEX + "r " + "a" * 32_767, 5, "OverLimit"),
]

# Terms in their one spelling, and others with that of their normal form.
CANONICAL = ["0", "-9999", "0xffffffffffffd8f0", "rax0", "-rax0", "3*rcx0+and(rax0,0xff0000)+5", "sx8(sx8(rax0))", "v400078"]
NORMAL = {"zx8(zx8(rcx0))": "zx8(rcx0)", "xor(rcx0,rcx0)": "0", "mul(3,rcx0)": "3*rcx0", "zx8(300)": "44", "sar(-16,2)": "-4"}


def texts():
    return [path for path in sorted(EXAMPLES.glob("*.graph")) if path.name not in ("faulty.graph", "push_sign.graph")]


def with_term(term):
    return (VERTEX + f"c [rsp0;8]={term}\n> 400079:0\nend\n").encode()


class Reading(unittest.TestCase):
    def test_a_text_is_refused_with_its_first_fault(self):
        for text, line, cause in REFUSED:
            with self.subTest(text=text[-80:]), self.assertRaises(GraphFault) as caught:
                read_graph(text.encode())
            self.assertEqual((caught.exception.line, caught.exception.cause), (line, cause), text[-80:])

    def test_what_is_read_is_written_again(self):
        for path in texts():
            self.assertEqual(read_graph(path.read_bytes()).text().encode(), path.read_bytes(), path.name)

    def test_a_term_has_one_spelling(self):
        for term in CANONICAL + list(NORMAL.values()):
            self.assertEqual(read_graph(with_term(term)).text().encode(), with_term(term), term)
        for term in NORMAL:
            with self.assertRaises(GraphFault, msg=term) as caught:
                read_graph(with_term(term))
            self.assertEqual(caught.exception.cause, "NotCanonical", term)

    def test_the_loop_has_its_parts(self):
        function, = read_graph((EXAMPLES / "loop.graph").read_bytes()).functions
        last = function.sites[-1]
        vertex, = last.vertices
        self.assertEqual((function.entry, last.address, last.kind), (0x400078, 0x400083, "ret"))
        self.assertEqual(vertex.bounds, [Range(vertex.flags.left, 10, 10)])
        self.assertEqual([str(node) for node in vertex.nodes], ["[rsp0;8]=ra", "[rsp0-8;8]=rbx0"])
        self.assertIsNone(function.sites[2].vertices[0].registers["rbx"])

    def test_json_has_the_words_of_the_text(self):
        function, = json.loads(json.dumps(plain(read_graph((EXAMPLES / "loop.graph").read_bytes()))))["functions"]
        site = function["sites"][4]
        self.assertEqual((function["entry"], site["address"], function["below"]), ("400078", "400080", 65536))
        self.assertEqual(site["vertices"][0]["flags"], {"width": 32, "left": "zx32(v40007b)", "right": "10"})
        self.assertEqual(site["vertices"][0]["edges"][1], {"address": "400082", "vertex": 0})


class Drawing(unittest.TestCase):
    def test_the_loop_is_drawn_with_its_instructions(self):
        graph = read_graph((EXAMPLES / "loop.graph").read_bytes())
        drawn = picture(graph, read_listing((EXAMPLES / "loop.listing").read_text()))
        for part in ["400080 jne 0x40007b", '"400078/400080:0" -> "400078/40007b:0"', "zx32(v40007b) = 10"]:
            self.assertIn(part, drawn)


if __name__ == "__main__":
    unittest.main()
