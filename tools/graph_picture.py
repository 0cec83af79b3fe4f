#!/usr/bin/env python3
"""Draws the text of a graph (docs/GRAPH_TEXT.md) as a DOT file, which Graphviz makes a picture of.

Usage: tools/graph_picture.py [--listing LISTING | --executable FILE] GRAPH >picture.dot
       dot -Tsvg picture.dot >picture.svg

LISTING is what `./foxdec show` printed of the executable, any number of its outputs one after the other; with --executable the
program, which has to be built, is asked for it. Without either a vertex has only the address of its instruction.

A frame is a function, a box a vertex: the instruction, then what is assumed, then what holds before it. A register that is
not named has what it had at the entry. A solid arrow goes where the program goes on, with the number of the case where there
are several; a dashed one to the function that is called.
"""
from __future__ import annotations

import argparse
import html
import pathlib
import subprocess
import sys

from foxdec_graph import GraphFault, OneOf, read_graph

TOP = pathlib.Path(__file__).resolve().parent.parent
PROGRAM = TOP / "crates/foxdec_main/out/foxdec_main"

GREY, GREEN, RED, BLUE, AMBER = "#e8e8e8", "#c6e7c8", "#f5c2c0", "#cfe0f5", "#ffe3a3"
COLOURS = {"step": GREY, "ret": GREEN, "end": RED, "call": BLUE, "outside": AMBER}
LEGEND = [(GREY, "goes on"), (BLUE, "calls"), (GREEN, "returns to its caller"), (RED, "ends the claim"), (AMBER, "assumed")]
UNRESOLVED = "#c02020"

HEAD = """digraph foxdec {
  graph [fontname="Courier", fontsize=11, nodesep=0.3, ranksep=0.35, labelloc=b, labeljust=l]
  node [shape=plain, fontname="Courier", fontsize=11]
  edge [fontname="Courier", fontsize=10, arrowsize=0.7]"""


# ---- what a vertex says, in words

def register_facts(registers):
    """The known registers, a line each, then the unknown ones, six a line."""
    for name, term in registers.items():
        if term is not None:
            yield f"{name} = {term}"
    unknown = [name for name, term in registers.items() if term is None]
    for first in range(0, len(unknown), 6):
        yield " ".join([*unknown[first : first + 6], "unknown"])


def bound_fact(bound):
    words = str(bound).split(" ")
    if isinstance(bound, OneOf):
        return f"{words[0]} in {words[1]}"
    low, high = words[1].split("..")
    return f"{words[0]} = {low}" if low == high else f"{low} <= {words[0]} <= {high}"


def node_facts(node, level=0):
    names = " = ".join(map(str, node.names))
    value = "unknown" if node.value is None else f"= {node.value}"
    yield f"{'  ' * level}[{names}; {node.size}] {value}"
    for inner in node.inside:
        yield from node_facts(inner, level + 1)


def facts(vertex):
    yield from register_facts(vertex.registers)
    if vertex.flags:
        yield f"flags of {vertex.flags.left} - {vertex.flags.right}, {vertex.flags.width} bits"
    for bound in vertex.bounds:
        yield bound_fact(bound)
    for node in vertex.nodes:
        yield from node_facts(node)


def assumptions(site):
    for one, other in site.separate:
        yield f"separate: {one} {other}"
    for region in site.kept:
        yield f"kept: {region}"
    if site.kind == "outside":
        yield "what is called comes back"


def cases(site):
    if site.apart:
        yield f"three cases of {site.apart[0]} and {site.apart[1]}"


def heading(site, number, listing):
    words = [f"{site.address:x}", listing.get(site.address, "")]
    if site.kind == "end":
        words.append(f"({site.reason})")
    if site.kind == "call":
        words.append(f"(calls {site.callee:x})")
    if len(site.vertices) > 1:
        words.append(f"vertex {number}")
    return " ".join(word for word in words if word)


# ---- DOT

def cell(lines, colour):
    """A row of a table with lines of text, none where there are no lines."""
    text = "".join(html.escape(line).replace("  ", "&#160;&#160;") + '<BR ALIGN="LEFT"/>' for line in lines)
    return f'<TR><TD ALIGN="LEFT" BGCOLOR="{colour}">{text}</TD></TR>' if text else ""


def table(rows):
    return f'<<TABLE BORDER="0" CELLBORDER="1" CELLSPACING="0" CELLPADDING="4">{"".join(rows)}</TABLE>>'


def node_name(function, address, number):
    return f'"{function.entry:x}/{address:x}:{number}"'


def vertex_line(function, site, number, listing):
    rows = [
        cell([heading(site, number, listing), *cases(site)], COLOURS[site.kind]),
        cell(assumptions(site), AMBER) if number == 0 else "",
        cell(facts(site.vertices[number]), "white"),
    ]
    return f"{node_name(function, site.address, number)} [label={table(rows)}]"


def site_lines(function, site, listing):
    lines = [vertex_line(function, site, number, listing) for number in range(len(site.vertices))]
    if len(lines) == 1:
        return lines
    name = f'"cluster {function.entry:x}/{site.address:x}"'
    return [f'subgraph {name} {{ label=""; style=dotted', *lines, "}"]


def edge_lines(function, site):
    for number, vertex in enumerate(site.vertices):
        for case, edge in enumerate(vertex.edges):
            label = f' [label=" case {case}"]' if len(vertex.edges) > 1 else ""
            yield f"{node_name(function, site.address, number)} -> {node_name(function, edge.address, edge.vertex)}{label}"


def call_lines(graph):
    """A dashed arrow from each call to the entry of the function that it calls, where the graph has that function."""
    entries = {function.entry: function for function in graph.functions}
    for function in graph.functions:
        for site in function.sites:
            if site.kind == "call" and site.callee in entries:
                callee = node_name(entries[site.callee], site.callee, 0)
                yield f"{node_name(function, site.address, 0)} -> {callee} [style=dashed, constraint=false]"


def function_lines(function, listing):
    if not function.sites:
        refused = table([cell([f"{function.entry:x} {function.reason}"], RED)])
        return [f"{node_name(function, function.entry, 0)} [label={refused}]"]
    title = f"function {function.entry:x}\\nframe: {function.below} bytes below,\\n{function.above} above"
    lines = [f'subgraph "cluster {function.entry:x}" {{', f'label="{title}"; labelloc=t; color=grey40; style=rounded']
    for site in function.sites:
        lines += site_lines(function, site, listing)
    for site in function.sites:
        lines += edge_lines(function, site)
    return lines + ["}"]


def missing_targets(graph):
    """The ends of edges that are no vertices of the graph: `check` calls them broken."""
    for function in graph.functions:
        known = {(site.address, number) for site in function.sites for number in range(len(site.vertices))}
        ends = {(edge.address, edge.vertex) for site in function.sites for it in site.vertices for edge in it.edges}
        for address, number in sorted(ends - known):
            text = table([cell([f"{address:x}:{number} is no vertex"], UNRESOLVED)])
            yield f"{node_name(function, address, number)} [label={text}, fontcolor=white]"


def legend():
    cells = "".join(f'<TD BGCOLOR="{colour}">{text}</TD>' for colour, text in LEGEND)
    return f'label=<<TABLE BORDER="0" CELLBORDER="1" CELLSPACING="0" CELLPADDING="4"><TR>{cells}</TR></TABLE>>'


def picture(graph, listing):
    lines = [HEAD]
    for function in graph.functions:
        lines += function_lines(function, listing)
    lines += [*missing_targets(graph), *call_lines(graph), legend(), "}"]
    return "\n".join(lines) + "\n"


# ---- instructions

def read_listing(text):
    """The instruction at each address of a listing."""
    parts = [line.split(" ", 2) for line in text.splitlines()]
    return {int(part[0], 16): part[2] for part in parts if len(part) == 3}


def asked_listing(graph, executable):
    """The instructions at the sites of a graph, as the program shows them."""
    listing = {}
    for function in graph.functions:
        for position, site in enumerate(function.sites):
            if site.address not in listing:
                count = min(len(function.sites) - position, 65_536)
                words = [PROGRAM, "show", executable, f"{site.address:x}", str(count)]
                shown = subprocess.run(words, stdout=subprocess.PIPE, check=True, text=True).stdout
                listing.update(read_listing(shown))
    return listing


def listing_of(words, graph):
    if words.listing:
        return read_listing(pathlib.Path(words.listing).read_text())
    return asked_listing(graph, words.executable) if words.executable else {}


def main():
    parser = argparse.ArgumentParser(description="Draws the text of a graph as a DOT file.")
    source = parser.add_mutually_exclusive_group()
    source.add_argument("--listing", help="a file with what `foxdec show` printed")
    source.add_argument("--executable", help="the executable, of which the built program is asked")
    parser.add_argument("graph", help="a file with the text of a graph")
    words = parser.parse_args()
    try:
        graph = read_graph(pathlib.Path(words.graph).read_bytes())
        sys.stdout.write(picture(graph, listing_of(words, graph)))
    except GraphFault as fault:
        sys.exit(f"{words.graph}: {fault}")
    except (OSError, subprocess.CalledProcessError) as error:
        sys.exit(f"tools/graph_picture.py: {error}")


if __name__ == "__main__":
    main()
