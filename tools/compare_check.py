#!/usr/bin/env python3
"""Compares the program's `check` with tools/reference/check.py on graphs that are changed at random.

Usage: tools/compare_check.py [--full] [--lift] [--program PATH] [--seed N] [--runs N] [--keep FOLDER] [FILE GRAPH ..]
Takes the pairs of files, or without any the examples and small programs at random with the graphs that the reference lifts.
Each run changes a graph in one to three places, of the text or of what it says, and compares output and status of both.
With --full it compares `check --full`, and with --lift what `lift` prints of small programs at random. Prints how often
they agree, by what was said, and the first differences; those are left in FOLDER where one is given.
PATH is the program; without it the one that is built in this checkout is taken, and the comparison skipped where there is none.
"""
import argparse
import collections
import pathlib
import random
import subprocess
import sys
import tempfile

TOP = pathlib.Path(__file__).resolve().parent.parent
sys.path.insert(0, str(TOP / "tools" / "reference"))
from change_graph import Changer, change_line  # noqa: E402
from elf_files import base_file  # noqa: E402
from files import Policy  # noqa: E402
from foxdec_graph import GraphFault, read_graph  # noqa: E402
from full import check_full  # noqa: E402
from image import read_image  # noqa: E402
from lift import lift  # noqa: E402
from random_code import random_code  # noqa: E402
from rules import check  # noqa: E402

BUILT = TOP / "crates" / "foxdec_main" / "out" / "foxdec_main"
SHOWN = 10
# The words are no command: this build has not the one that is compared.
NO_COMMAND = 2


def reference_says(image, text, name, is_full):
    """What stands on both outputs, and the status."""
    try:
        graph = read_graph(text.encode("latin-1"))
    except GraphFault as fault:
        return f"foxdec: {name}: {fault}\n", 5
    broken = check(image, graph)
    if is_full and broken is None:
        broken = check_full(image, graph, Policy(frozenset([image.entry])))
    return f"{broken or 'valid'}\n", 1 if broken else 0


def program_says(program, *words):
    done = subprocess.run([program, *words], capture_output=True, text=True)
    return done.stdout + done.stderr, done.returncode


def kind_of(said, status):
    if status == 5:
        return said.split()[-2]
    return said.split()[-1] if said.strip() else "nothing"


def told(said):
    """What was said, as far as it goes on a line."""
    return repr(said if len(said) < 200 else said[:200] + "..")


def changed(chance, text):
    """The text after one to three changes; some of what stands there, some of its lines."""
    for _ in range(chance.choice([1, 1, 1, 2, 3])):
        if chance.random() < 0.1:
            text = change_line(chance, text)
            continue
        try:
            graph = read_graph(text.encode("latin-1"))
        except GraphFault:
            return text
        Changer(chance, graph).run()
        text = graph.text()
    return text


class Pairs:
    """The executables and graphs that are changed."""

    def __init__(self, chance, files):
        self.chance = chance
        self.given = [(elf.read_bytes(), graph.read_text()) for elf, graph in files]
        self.is_random = not files
        if self.is_random:
            found = [(it, it.with_suffix(".graph")) for it in sorted((TOP / "examples").glob("*.elf"))]
            self.given = [(elf.read_bytes(), graph.read_text()) for elf, graph in found if graph.exists()]

    def one(self):
        if not self.is_random or self.chance.random() < 0.4:
            return self.chance.choice(self.given)
        data = base_file(random_code(self.chance))
        image = read_image(data)
        return data, lift(image, Policy(frozenset([image.entry]), with_forks=self.chance.random() < 0.3)).text()


class Comparison:
    def __init__(self, words, folder):
        self.words, self.folder = words, pathlib.Path(folder)
        self.chance = random.Random(words.seed)
        self.pairs = Pairs(self.chance, list(zip(words.files[::2], words.files[1::2])))
        self.agreed, self.unasked, self.differences = collections.Counter(), 0, []

    def run(self):
        for number in range(self.words.runs):
            if self.words.lift:
                self.compare_lift(number)
            else:
                data, text = self.pairs.one()
                self.compare(number, data, text if self.chance.random() < 0.1 else changed(self.chance, text))
        return self.tell()

    def compare(self, number, data, text):
        elf, graph = self.folder / f"{number}.elf", self.folder / f"{number}.graph"
        elf.write_bytes(data)
        graph.write_text(text)
        options = ["--full"] if self.words.full else []
        theirs = reference_says(read_image(data), text, graph, self.words.full)
        self.judge(number, program_says(self.words.program, "check", *options, elf, graph), theirs, [elf, graph])

    def compare_lift(self, number):
        elf = self.folder / f"{number}.elf"
        data, with_forks = base_file(random_code(self.chance)), self.chance.random() < 0.3
        elf.write_bytes(data)
        image = read_image(data)
        theirs = lift(image, Policy(frozenset([image.entry]), with_forks=with_forks)).text(), 0
        self.judge(number, program_says(self.words.program, "lift", *(["--fork"] if with_forks else []), elf), theirs, [elf])

    def judge(self, number, ours, theirs, files):
        """Counts an answer, and keeps the files only where it differs."""
        if ours[1] != NO_COMMAND and ours != theirs:
            self.differences.append((files[-1], ours, theirs))
            return
        if ours[1] == NO_COMMAND:
            self.unasked += 1
        else:
            self.agreed["lifted" if self.words.lift else kind_of(*theirs)] += 1
        for path in files:
            path.unlink()

    def tell(self):
        kinds = ", ".join(f"{count} {kind}" for kind, count in self.agreed.most_common())
        print(f"{sum(self.agreed.values())} agree ({kinds}), {len(self.differences)} differ, {self.unasked} not asked")
        for path, ours, theirs in self.differences[:SHOWN]:
            print(f"{path}: foxdec {told(ours[0])} ({ours[1]}), reference {told(theirs[0])} ({theirs[1]})")
        return 1 if self.differences else 0


def main():
    parser = argparse.ArgumentParser(description="Compares two checkers on graphs that are changed at random.")
    parser.add_argument("--full", action="store_true", help="compare check --full")
    parser.add_argument("--lift", action="store_true", help="compare lift")
    parser.add_argument("--program", type=pathlib.Path, default=BUILT)
    parser.add_argument("--seed", type=int, default=1)
    parser.add_argument("--runs", type=int, default=1_000)
    parser.add_argument("--keep", type=pathlib.Path, help="where the files of differences are left")
    parser.add_argument("files", type=pathlib.Path, nargs="*", help="executables, each with its graph behind it")
    words = parser.parse_args()
    if not words.program.exists():
        print("skipped: no built program")
        return 0
    if words.keep:
        words.keep.mkdir(parents=True, exist_ok=True)
        return Comparison(words, words.keep).run()
    with tempfile.TemporaryDirectory() as folder:
        return Comparison(words, folder).run()


if __name__ == "__main__":
    sys.exit(main())
