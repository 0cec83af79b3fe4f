#!/usr/bin/env python3
"""Reads the text of a graph (docs/GRAPH_TEXT.md) as plain Python objects.

From a script beside it:

    from foxdec_graph import read_graph
    graph = read_graph(pathlib.Path("examples/loop.graph").read_bytes())
    for function in graph.functions:
        for site in function.sites:
            print(f"{site.address:x} {site.kind}")

A text that is no graph raises GraphFault with the line and the cause that the program itself names. What is read is written
again by graph.text(). The reader judges the text alone: that a graph holds of an executable is what `./foxdec check` says.

Usage: tools/foxdec_graph.py [--json] GRAPH
It prints how much is in the graph, or with --json the whole graph: addresses, terms and the numbers of bounds are strings as
they stand in the text, other numbers are numbers, and what is unknown is null. Statuses and messages are those of ./foxdec.
"""
from __future__ import annotations

import argparse
import dataclasses
import functools
import json
import re
import sys
from dataclasses import dataclass, field
from typing import Dict, List, Optional, Tuple, Union

MODULUS = 1 << 64
REGISTERS = "rax rcx rdx rbx rsp rbp rsi rdi r8 r9 r10 r11 r12 r13 r14 r15".split()
FITS = ["zx8", "zx16", "zx32", "sx8", "sx16", "sx32"]
PAIRS = ["and", "or", "xor", "mul", "shr", "sar"]
REASONS = ["unresolved", "badreturn", "unsupported", "stop", "extern"]

TEXT_BYTES = 67_108_864
LINE_BYTES = 32_768
TERM_NODES = 32
FRAME_BYTES = 1_048_576
SITE_LINES = 64
VERTICES = 8
BOUNDS = 16
NUMBERS = 1_024
NODES = 64
NAMES = 8

CAUSES = {"BadHead": 1, "BadLine": 2, "BadTerm": 3, "NotCanonical": 4, "OutOfOrder": 5, "OverLimit": 6, "Unended": 7,
          "TooLong": 8}


class GraphFault(Exception):
    """The first faulty line of a text, counted from 1, and that line's first cause."""

    def __init__(self, line: int, cause: str):
        super().__init__(f"line {line}: {cause} ({CAUSES[cause]})")
        self.line = line
        self.cause = cause


class LineFault(Exception):
    """The cause of a line, before its number is known."""


def need(holds, cause):
    if not holds:
        raise LineFault(cause)


# ---- terms

def signed(number, bits=64):
    number &= (1 << bits) - 1
    return number - (1 << bits) if number >> (bits - 1) else number


def number_text(number):
    return str(number) if number < 10_000 else f"0x{number:x}"


def sign_and_size(number, is_first):
    """The sign that is printed before a number modulo 2^64, and the number behind it."""
    if number > MODULUS - 10_000:
        return "-", MODULUS - number
    return "" if is_first else "+", number


@dataclass(frozen=True)
class Symbol:
    """What a register had at the entry (`rax0`), `ra`, `fs`, or the value last named at an address (`v400078`)."""
    kind: str  # "register", "ra", "fs" or "value"
    number: int = 0  # the register's number, or the address

    def key(self):
        return 0, ["register", "ra", "fs", "value"].index(self.kind), self.number

    def __str__(self):
        if self.kind == "register":
            return REGISTERS[self.number] + "0"
        return f"v{self.number:x}" if self.kind == "value" else self.kind


@dataclass(frozen=True)
class Fit:
    """The low bits of a term, extended to 64: `zx32(T)`."""
    name: str
    term: Term

    @property
    def bits(self):
        return int(self.name[2:])

    @property
    def is_signed(self):
        return self.name[0] == "s"

    def key(self):
        return 1, FITS.index(self.name), self.term.key()

    def __str__(self):
        return f"{self.name}({self.term})"


@dataclass(frozen=True)
class Pair:
    """An operation of two terms: `and(T,T)`."""
    name: str
    left: Term
    right: Term

    def key(self):
        return 2, PAIRS.index(self.name), self.left.key(), self.right.key()

    def __str__(self):
        return f"{self.name}({self.left},{self.right})"


Atom = Union[Symbol, Fit, Pair]


@dataclass(frozen=True)
class Term:
    """A sum modulo 2^64 of a constant and of atoms with coefficients, the atoms in order."""
    constant: int = 0
    pieces: Tuple[Tuple[Atom, int], ...] = ()

    @property
    def is_constant(self):
        return not self.pieces

    def key(self):
        """Terms compare as their keys do."""
        return self.constant, tuple((atom.key(), factor) for atom, factor in self.pieces)

    def __str__(self):
        text = ""
        for atom, factor in self.pieces:
            sign, size = sign_and_size(factor, not text)
            text += sign + ("" if size == 1 else number_text(size) + "*") + str(atom)
        if self.constant or not text:
            sign, size = sign_and_size(self.constant, not text)
            text += sign + number_text(size)
        return text


def single(atom):
    return Term(0, ((atom, 1),))


def total(summands):
    """The sum of terms, each with a factor."""
    constant, factors = 0, {}
    for factor, term in summands:
        constant += factor * term.constant
        for atom, own in term.pieces:
            factors[atom] = (factors.get(atom, 0) + factor * own) % MODULUS
    kept = [piece for piece in factors.items() if piece[1]]
    return Term(constant % MODULUS, tuple(sorted(kept, key=lambda piece: piece[0].key())))


def fits_already(inner, outer):
    """Whether extending once more changes nothing: an inner extension by zeros, from no more bits than the outer one takes."""
    if not isinstance(inner, Fit) or inner.is_signed:
        return False
    return inner.bits < outer.bits or (inner.bits == outer.bits and not outer.is_signed)


def made_fit(name, term):
    """The normal form of a fit."""
    fit = Fit(name, term)
    if term.is_constant:
        low = term.constant & ((1 << fit.bits) - 1)
        return Term((signed(low, fit.bits) if fit.is_signed else low) % MODULUS)
    alone = len(term.pieces) == 1 and term == single(term.pieces[0][0])
    return term if alone and fits_already(term.pieces[0][0], fit) else single(fit)


def of_constants(name, left, right):
    return {
        "and": left & right,
        "or": left | right,
        "xor": left ^ right,
        "mul": left * right,
        "shr": left >> (right % 64),
        "sar": signed(left) >> (right % 64),
    }[name] % MODULUS


def made_pair(name, left, right):
    """The normal form of a pair."""
    if left.is_constant and right.is_constant:
        return Term(of_constants(name, left.constant, right.constant))
    if name in ("and", "or") and left == right:
        return left
    if name == "xor" and left == right:
        return Term()
    if name == "mul" and (left.is_constant or right.is_constant):
        factor, term = (left, right) if left.is_constant else (right, left)
        return total([(factor.constant, term)])
    return single(Pair(name, left, right))


def decimal_below(word, limit=MODULUS):
    """The number of decimal digits, where it is below the limit."""
    digits = word.lstrip("0") or "0"
    number = int(digits) if len(digits) <= 20 else limit
    return number if number < limit else None


def loose_number(word):
    """The number of a word, decimal or hexadecimal with any leading zeros, where it is one below 2^64."""
    if re.fullmatch("[0-9]+", word):
        return decimal_below(word)
    if re.fullmatch("0x[0-9a-fA-F]+", word) and int(word, 16) < MODULUS:
        return int(word, 16)
    return None


def symbol(word):
    if word in ("ra", "fs"):
        return Symbol(word)
    if word[-1:] == "0" and word[:-1] in REGISTERS:
        return Symbol("register", REGISTERS.index(word[:-1]))
    if re.fullmatch("v[0-9a-fA-F]+", word) and int(word[1:], 16) < MODULUS:
        return Symbol("value", int(word[1:], 16))
    raise LineFault("BadTerm")


@dataclass
class OpenCall:
    """A fit or a pair whose arguments are being read, and the sum before it."""
    name: str
    factor: int
    before: list
    arguments: list = field(default_factory=list)

    @property
    def separator(self):
        return "," if self.name in PAIRS and not self.arguments else ")"

    def made(self):
        return (made_pair if self.name in PAIRS else made_fit)(self.name, *self.arguments)


class TermParser:
    """The loose grammar of terms, without recursion: a term may be as deep as a line is long."""

    def __init__(self, text):
        self.tokens = re.findall("[0-9A-Za-z]+|.", text)
        self.at = 0
        self.nodes = 1
        self.calls = []
        self.summands = []

    def peek(self):
        return self.tokens[self.at] if self.at < len(self.tokens) else ""

    def take(self, wanted=None):
        token = self.peek()
        need(token and wanted in (None, token), "BadTerm")
        self.at += 1
        return token

    def parsed(self):
        """The normal form of the text's term, where its nodes are within the limit."""
        while True:
            if not self.opens_call() and self.ends():
                return total(self.summands)

    def opens_call(self):
        """Reads a sign and a piece, of a fit or a pair only up to its bracket, and says whether it was one of those."""
        factor = -1 if self.peek() == "-" else 1
        if self.peek() in ("+", "-"):
            self.take()
        word = self.take()
        number = loose_number(word)
        if number is not None and self.peek() != "*":
            self.summands.append((factor, Term(number)))
            return False
        if number is not None:
            self.take("*")
            factor, word = factor * number, self.take()
        self.nodes += 1
        if word not in FITS + PAIRS:
            self.summands.append((factor, single(symbol(word))))
            return False
        self.take("(")
        self.calls.append(OpenCall(word, factor, self.summands))
        self.begin_argument()
        return True

    def begin_argument(self):
        self.nodes += 1
        self.summands = []

    def ends(self):
        """Closes each call that ends after a piece, and says whether the text ends there too."""
        while self.peek() not in ("+", "-"):
            if not self.calls:
                need(not self.peek(), "BadTerm")
                return True
            call = self.calls[-1]
            separator = self.take(call.separator)
            call.arguments.append(self.within_limit(lambda: total(self.summands)))
            if separator == ",":
                self.begin_argument()
                return False
            self.calls.pop()
            self.summands = call.before + [(call.factor, self.within_limit(call.made))]
        return False

    def within_limit(self, make):
        """What is made, or 0 once there are too many nodes: the term is refused then, and may be deep."""
        return make() if self.nodes <= TERM_NODES else Term()


@functools.lru_cache(maxsize=4_096)
def read_term(text):
    """The term of a text that is its one spelling. Few terms stand in a graph, and each often."""
    parser = TermParser(text)
    term = parser.parsed()
    need(parser.nodes <= TERM_NODES, "OverLimit")
    need(str(term) == text, "NotCanonical")
    return term


# ---- graphs

@dataclass(frozen=True)
class Region:
    """So many bytes at an address."""
    term: Term
    size: int

    def key(self):
        return self.term.key(), self.size

    def __str__(self):
        return f"[{self.term};{self.size}]"


@dataclass(frozen=True)
class Flags:
    """The flags are those of left minus right at so many bits."""
    width: int
    left: Term
    right: Term

    def __str__(self):
        return f"{self.width} {self.left} {self.right}"


@dataclass(frozen=True)
class Range:
    """The term's value is low to high, unsigned."""
    term: Term
    low: int
    high: int

    @property
    def is_ordered(self):
        return self.low <= self.high

    def __str__(self):
        return f"{self.term} {number_text(self.low)}..{number_text(self.high)}"


@dataclass(frozen=True)
class OneOf:
    """The term's value is one of these numbers."""
    term: Term
    values: Tuple[int, ...]

    @property
    def is_ordered(self):
        return ascends(self.values)

    def __str__(self):
        return f"{self.term} {{{','.join(map(number_text, self.values))}}}"


@dataclass
class Node:
    """Bytes of memory: their names are equal addresses, `value` is the number in them, and `inside` what lies in them."""
    names: List[Term]
    size: int
    value: Optional[Term]
    inside: List[Node] = field(default_factory=list)

    def key(self):
        return self.names[0].key(), self.size

    def lines(self, level=0):
        yield f"c {'.' * level}{self}"
        for node in self.inside:
            yield from node.lines(level + 1)

    def __str__(self):
        value = "" if self.value is None else f"={self.value}"
        return f"[{'|'.join(map(str, self.names))};{self.size}]{value}"


@dataclass(frozen=True)
class Edge:
    """Where the program goes on, and the number of the vertex there."""
    address: int
    vertex: int

    def __str__(self):
        return f"{self.address:x}:{self.vertex}"


@dataclass
class Vertex:
    """What holds whenever the site's instruction is about to run. A register that is not in `registers` has what it had at the
    entry; one with None is unknown."""
    registers: Dict[str, Optional[Term]] = field(default_factory=dict)
    flags: Optional[Flags] = None
    bounds: List[Union[Range, OneOf]] = field(default_factory=list)
    nodes: List[Node] = field(default_factory=list)
    edges: List[Edge] = field(default_factory=list)

    def all_nodes(self):
        """The nodes, each before those inside it."""
        waiting = self.nodes[::-1]
        while waiting:
            node = waiting.pop()
            yield node
            waiting += node.inside[::-1]

    def lines(self):
        if self.registers:
            yield "r " + registers_text(self.registers)
        if self.flags:
            yield f"z {self.flags}"
        for bound in self.bounds:
            yield f"b {bound}"
        for node in self.nodes:
            yield from node.lines()
        if self.edges:
            yield "> " + " ".join(map(str, self.edges))


@dataclass
class Site:
    """An instruction by its address, and what is claimed of it."""
    address: int
    kind: str  # "step", "call", "outside", "ret" or "end"
    callee: Optional[int] = None  # the function that a call calls
    reason: Optional[str] = None  # why an end ends
    separate: List[Tuple[Region, Region]] = field(default_factory=list)
    apart: Optional[Tuple[Region, Region]] = None  # the two regions of which three cases are told apart
    kept: List[Region] = field(default_factory=list)
    vertices: List[Vertex] = field(default_factory=list)

    @property
    def has_edges(self):
        return self.kind in ("step", "call", "outside")

    def line(self):
        words = [self.kind] + ([f"{self.callee:x}"] if self.kind == "call" else []) + ([self.reason] if self.reason else [])
        return f"s {self.address:x} {' '.join(words)}"

    def lines(self):
        yield self.line()
        for one, other in self.separate:
            yield f"p {one} {other}"
        if self.apart:
            yield f"g {self.apart[0]} {self.apart[1]}"
        for region in self.kept:
            yield f"k {region}"
        for number, vertex in enumerate(self.vertices):
            yield f"v {number}"
            yield from vertex.lines()


@dataclass
class Function:
    """A function by its entry; `below` and `above` are the bytes of its frame to each side of the entry's stack pointer."""
    entry: int
    below: int
    above: int
    sites: List[Site] = field(default_factory=list)

    def lines(self):
        yield f"f {self.entry:x} {self.below} {self.above}"
        for site in self.sites:
            yield from site.lines()


@dataclass
class RefusedFunction:
    """A function that is refused, since its entry is no code; it has no sites."""
    entry: int
    reason: str = "notcode"

    @property
    def sites(self):
        return []

    def lines(self):
        yield f"x {self.entry:x} {self.reason}"


@dataclass
class Graph:
    functions: List[Union[Function, RefusedFunction]] = field(default_factory=list)

    def text(self):
        """The one text of the graph."""
        lines = [line for function in self.functions for line in function.lines()]
        return "".join(line + "\n" for line in ["foxdec graph 1", *lines, "end"])


def registers_text(registers):
    return " ".join(f"{name}={'?' if term is None else term}" for name, term in registers.items())


def ascends(keys):
    return all(one < next_one for one, next_one in zip(keys, keys[1:]))


# ---- reading

TERM = r"[^ \[\];|={}]+"
HEX = r"[0-9a-fA-F]+"
DEC = r"[0-9]+"
LOOSE = rf"(?:{DEC}|0x{HEX})"
REGION = rf"\[({TERM});({DEC})\]"
ENTRY = rf"(?:{'|'.join(REGISTERS)})={TERM}"
FORMS = {kind: re.compile(form) for kind, form in {
    "f": rf"f ({HEX}) ({DEC}) ({DEC})",
    "x": rf"x ({HEX}) notcode",
    "s": rf"s ({HEX}) (?:(step|outside|ret)|(call) ({HEX})|(end) ({'|'.join(REASONS)}))",
    "p": f"p {REGION} {REGION}",
    "g": f"g {REGION} {REGION}",
    "k": f"k {REGION}",
    "v": rf"v ({DEC})",
    "r": rf"r ({ENTRY}(?: {ENTRY})*)",
    "z": rf"z ({DEC}) ({TERM}) ({TERM})",
    "b": rf"b ({TERM}) (?:({LOOSE})\.\.({LOOSE})|\{{({LOOSE}(?:,{LOOSE})*)\}})",
    "c": rf"c (\.*)\[({TERM}(?:\|{TERM})*);({DEC})\](?:=({TERM}))?",
    ">": rf"> ({HEX}:{DEC}(?: {HEX}:{DEC})*)",
    "end": "end",
}.items()}

# The lines of a site and of a vertex, in their order, and those of a site by its kind.
OF_SITE = "spgk"
OF_VERTEX = "vrzbc>"
REPEATED = "pkbc"
ALLOWED = {"step": "pg", "call": "pk", "outside": "pk", "ret": "", "end": ""}


def address_of(word):
    need(int(word, 16) < MODULUS, "BadLine")
    return int(word, 16)


def decimal_of(word, limit=MODULUS):
    number = decimal_below(word, limit)
    need(number is not None, "BadLine")
    return number


def one_of(word, numbers):
    number = decimal_of(word)
    need(number in numbers, "BadLine")
    return number


def follows(kind, before):
    """Whether a line of this kind may stand after another of the same group, in the group's order."""
    order = OF_SITE if kind in OF_SITE else OF_VERTEX
    step = order.index(kind) - order.index(before)
    return step > 0 or (step == 0 and kind in REPEATED)


class GraphReader:
    """The graph of the lines so far."""

    def __init__(self):
        self.graph = Graph()
        self.last = "head"
        self.function = self.site = self.vertex = None
        self.path = []

    def take(self, text):
        """Takes a line that is not the first."""
        need(all(" " <= character <= "~" for character in text), "BadLine")
        kind = "end" if text == "end" else text[:1]
        found = FORMS[kind].fullmatch(text) if kind in FORMS else None
        need(found, "BadLine")
        handle = {">": self.take_edges}.get(kind) or getattr(self, f"take_{kind}")
        need(self.can_stand(kind, len(found[1]) if kind == "c" else 0), "BadLine")
        handle(text, found)
        self.last = kind

    def is_whole(self):
        """Whether the last line can be the last one of a vertex."""
        return self.last == ">" or (self.last in OF_VERTEX and not self.site.has_edges)

    def can_stand(self, kind, level):
        if kind in ("f", "x", "end"):
            return self.last in ("head", "x") or self.is_whole()
        if kind == "s":
            return self.last == "f" or self.is_whole()
        if kind == "v":
            return self.last in OF_SITE or self.is_whole()
        if kind in OF_SITE:
            return self.last in OF_SITE and kind in ALLOWED[self.site.kind] and follows(kind, self.last)
        return (self.last in OF_VERTEX and follows(kind, self.last)
                and level <= len(self.path) and (kind != ">" or self.site.has_edges))

    def take_end(self, text, found):
        pass

    def add_function(self, function, text):
        need(text == next(function.lines()), "NotCanonical")
        need(not self.graph.functions or function.entry > self.graph.functions[-1].entry, "OutOfOrder")
        self.graph.functions.append(function)

    def take_f(self, text, found):
        function = Function(address_of(found[1]), decimal_of(found[2]), decimal_of(found[3]))
        self.add_function(function, text)
        need(max(function.below, function.above) <= FRAME_BYTES, "OverLimit")
        self.function = function

    def take_x(self, text, found):
        self.add_function(RefusedFunction(address_of(found[1])), text)

    def take_s(self, text, found):
        kind = found[2] or found[3] or found[5]
        site = Site(address_of(found[1]), kind, address_of(found[4]) if found[4] else None, found[6])
        need(text == site.line(), "NotCanonical")
        need(not self.function.sites or site.address > self.function.sites[-1].address, "OutOfOrder")
        self.function.sites.append(site)
        self.site = site

    def regions(self, found):
        """The regions of a line, whose sizes are looked at before their terms."""
        words = found.groups()
        sizes = [one_of(word, (1, 2, 4, 8)) for word in words[1::2]]
        return tuple(Region(read_term(word), size) for word, size in zip(words[::2], sizes))

    def take_assumption(self, text, found):
        regions = self.regions(found)
        need(text[2:] == " ".join(map(str, regions)), "NotCanonical")
        return regions

    def take_p(self, text, found):
        pair = self.take_assumption(text, found)
        keys = [tuple(region.key() for region in pairs) for pairs in [*self.site.separate[-1:], pair]]
        need(ascends(keys), "OutOfOrder")
        need(len(self.site.separate) < SITE_LINES, "OverLimit")
        self.site.separate.append(pair)

    def take_g(self, text, found):
        self.site.apart = self.take_assumption(text, found)

    def take_k(self, text, found):
        region, = self.take_assumption(text, found)
        need(ascends([it.key() for it in [*self.site.kept[-1:], region]]), "OutOfOrder")
        need(len(self.site.kept) < SITE_LINES, "OverLimit")
        self.site.kept.append(region)

    def take_v(self, text, found):
        number = decimal_of(found[1])
        need(text == f"v {number}", "NotCanonical")
        need(number == len(self.site.vertices), "OutOfOrder")
        need(number < VERTICES, "OverLimit")
        self.vertex, self.path = Vertex(), []
        self.site.vertices.append(self.vertex)

    def take_r(self, text, found):
        entries = [entry.split("=") for entry in found[1].split(" ")]
        given = [(REGISTERS.index(name), None if word == "?" else read_term(word)) for name, word in entries]
        need(all(term != single(Symbol("register", number)) for number, term in given), "NotCanonical")
        need(ascends([number for number, _ in given]), "OutOfOrder")
        self.vertex.registers = {REGISTERS[number]: term for number, term in given}

    def take_z(self, text, found):
        width = one_of(found[1], (8, 16, 32, 64))
        flags = Flags(width, read_term(found[2]), read_term(found[3]))
        need(text == f"z {flags}", "NotCanonical")
        self.vertex.flags = flags

    def take_b(self, text, found):
        words = [found[2], found[3]] if found[2] else found[4].split(",")
        values = [loose_number(word) for word in words]
        need(None not in values, "BadLine")
        term = read_term(found[1])
        bound = Range(term, *values) if found[2] else OneOf(term, tuple(values))
        need(text == f"b {bound}", "NotCanonical")
        need(bound.is_ordered, "OutOfOrder")
        need(ascends([it.term.key() for it in [*self.vertex.bounds[-1:], bound]]), "OutOfOrder")
        need(len(words) <= NUMBERS and len(self.vertex.bounds) < BOUNDS, "OverLimit")
        self.vertex.bounds.append(bound)

    def take_c(self, text, found):
        size = one_of(found[3], (1, 2, 4, 8))
        names = [read_term(word) for word in found[2].split("|")]
        node = Node(names, size, read_term(found[4]) if found[4] else None)
        level = len(found[1])
        need(text == next(node.lines(level)), "NotCanonical")
        siblings = self.path[level - 1].inside if level else self.vertex.nodes
        others = list(self.vertex.all_nodes())
        need(ascends([name.key() for name in names]), "OutOfOrder")
        need(ascends([it.key() for it in [*siblings[-1:], node]]), "OutOfOrder")
        need(not any(size == it.size and set(names) & set(it.names) for it in others), "OutOfOrder")
        need(len(names) <= NAMES and len(others) < NODES, "OverLimit")
        siblings.append(node)
        self.path[level:] = [node]

    def take_edges(self, text, found):
        words = [word.split(":") for word in found[1].split(" ")]
        edges = [Edge(address_of(address), decimal_of(vertex, 1 << 32)) for address, vertex in words]
        need(text == "> " + " ".join(map(str, edges)), "NotCanonical")
        need(len(edges) <= NUMBERS, "OverLimit")
        self.vertex.edges = edges


def take_line(reader, number, text):
    if number > 1:
        reader.take(text)
    else:
        need(text == "foxdec graph 1", "BadHead")


def read_graph(data: bytes) -> Graph:
    """The graph of a text; GraphFault where the text is no graph's."""
    if len(data) > TEXT_BYTES:
        raise GraphFault(0, "TooLong")
    reader = GraphReader()
    *lines, rest = data.decode("latin-1").split("\n")
    for number, text in enumerate(lines, 1):
        try:
            need(len(text) <= LINE_BYTES, "OverLimit")
            take_line(reader, number, text)
        except LineFault as fault:
            raise GraphFault(number, fault.args[0]) from None
    if rest or reader.last != "end":
        raise GraphFault(len(lines) + 1, "OverLimit" if len(rest) > LINE_BYTES else "Unended")
    return reader.graph


# ---- the program

HEXADECIMAL = {"entry", "address", "callee"}
BOUND_NUMBERS = {"low", "high"}


def plain(value, name=""):
    """The value as JSON has it."""
    if value is None or isinstance(value, str):
        return value
    if isinstance(value, int):
        return f"{value:x}" if name in HEXADECIMAL else number_text(value) if name in BOUND_NUMBERS else value
    if isinstance(value, Term):
        return str(value)
    if isinstance(value, OneOf):
        return {"term": str(value.term), "values": list(map(number_text, value.values))}
    if isinstance(value, dict):
        return {key: plain(item) for key, item in value.items()}
    if isinstance(value, (list, tuple)):
        return [plain(item) for item in value]
    return {it.name: plain(getattr(value, it.name), it.name) for it in dataclasses.fields(value)}


def summary(graph):
    sites = [site for function in graph.functions for site in function.sites]
    vertices = sum(len(site.vertices) for site in sites)
    return f"{len(graph.functions)} functions, {len(sites)} sites, {vertices} vertices"


def main():
    parser = argparse.ArgumentParser(description="Reads the text of a graph.")
    parser.add_argument("--json", action="store_true", help="print the whole graph as JSON")
    parser.add_argument("graph", help="a file with the text of a graph")
    words = parser.parse_args()
    try:
        with open(words.graph, "rb") as file:
            graph = read_graph(file.read(TEXT_BYTES + 1))
    except OSError:
        print(f"foxdec: {words.graph}: read failed", file=sys.stderr)
        return 3
    except GraphFault as fault:
        print(f"foxdec: {words.graph}: {fault}", file=sys.stderr)
        return 5
    print(json.dumps(plain(graph), indent=1) if words.json else summary(graph))
    return 0


if __name__ == "__main__":
    sys.exit(main())
