#!/usr/bin/env python3
"""Lifts an executable to a graph, function by function: a second implementation beside the proved one.

Usage: tools/reference/lift.py [--root H ..] [--extern H ..] [--scan] [--fork] FILE
Prints the graph text. The functions are the entry of FILE, the roots, and what they call; --scan adds each address of code
that stands as a word in data, and --fork tells apart whether a store meets a cell that is not known to be elsewhere.
"""
import argparse
import sys

import tools_path  # noqa: F401
import lines
from files import add_policy, fail, policy_of, read_file
from foxdec_graph import Graph, RefusedFunction
from image import FileFault, read_image
from rounds import ForkBroken, Lifter, TooQuiet


def lifted(image, entry, policy):
    """The rounds of a function when they are over."""
    lifter = Lifter(image, entry, policy.externs, {}).run()
    if not policy.with_forks:
        return lifter
    forks = forks_of(lifter)
    while forks:
        try:
            return Lifter(image, entry, policy.externs, forks).run()
        except ForkBroken as broken:
            forks = {address: pair for address, pair in forks.items() if address != broken.address}
        except TooQuiet:
            forks = {}
    return lifter


def forks_of(lifter):
    """For each site that gets one the pair of which three cases are told apart."""
    found = {}
    for address, says in lifter.state.says.items():
        if says.kind == "step":
            view, instr = lifter.view(address, says), lifter.instr(address)
            found[address] = lines.fork_of(view, instr, lifter.preds_at(address))
    return {address: pair for address, pair in found.items() if pair}


def lift(image, policy):
    """The graph of the roots and of all that they call."""
    waiting, done = set(policy.roots), {}
    while waiting:
        entry = waiting.pop()
        if not image.is_code(entry):
            done[entry] = RefusedFunction(entry)
            continue
        lifter = lifted(image, entry, policy)
        done[entry] = lifter.function()
        waiting |= {it for it in lifter.constant_calls() if it is not None} - policy.externs - set(done)
    return Graph([done[entry] for entry in sorted(done)])


def main():
    parser = argparse.ArgumentParser(description="Lifts an executable to a graph.")
    add_policy(parser)
    parser.add_argument("file")
    words = parser.parse_args()
    try:
        image = read_image(read_file(words.file))
    except FileFault as fault:
        return fail(words.file, fault, 4)
    sys.stdout.write(lift(image, policy_of(image, words)).text())
    return 0


if __name__ == "__main__":
    sys.exit(main())
