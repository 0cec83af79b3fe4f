#!/usr/bin/env python3
"""Judges a graph by the rules of docs/RULES.md, rule by rule in their written order: a second implementation beside the
proved one, from the same written rules. Slow, and for graphs that fit in memory.

Usage: tools/reference/check.py [--full [--root H ..] [--extern H ..] [--scan] [--fork]] FILE GRAPH
Prints `valid`, or `invalid FUNCTION SITE VERTEX CASE RULE`; messages and statuses are those of ./foxdec check. With --full
the graph has to be full too: what a lifter that was given the same options has to say, and not less.
"""
import argparse
import sys

import tools_path  # noqa: F401
from files import add_policy, fail, policy_of, read_file
from foxdec_graph import GraphFault, read_graph
from full import check_full
from image import FileFault, read_image
from rules import check


def main():
    parser = argparse.ArgumentParser(description="Judges a graph by its rules.")
    parser.add_argument("--full", action="store_true", help="the graph has to be full too")
    add_policy(parser)
    parser.add_argument("file")
    parser.add_argument("graph")
    words = parser.parse_args()
    try:
        image = read_image(read_file(words.file))
        graph = read_graph(read_file(words.graph))
    except FileFault as fault:
        return fail(words.file, fault, 4)
    except GraphFault as fault:
        return fail(words.graph, fault, 5)
    broken = check(image, graph)
    if broken is None and words.full:
        broken = check_full(image, graph, policy_of(image, words))
    print(broken or "valid")
    return 1 if broken else 0


if __name__ == "__main__":
    sys.exit(main())
