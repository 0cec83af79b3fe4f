"""Predicates: what is known of registers, flags, values and memory; entailment, conjunct by conjunct; weakening."""
from dataclasses import dataclass, field
from typing import List, Optional

import forest
from foxdec_graph import REGISTERS, Flags, Node, Range, Region, Vertex
from terms import RA, Term, difference, entry

RSP = 4
SAVED = [3, 5, 12, 13, 14, 15]


@dataclass
class Pred:
    """Predicates are made anew, never changed in place."""
    regs: List[Optional[Term]] = field(default_factory=lambda: [entry(number) for number in range(16)])
    flags: Optional[Flags] = None
    bounds: List[object] = field(default_factory=list)
    forest: List[Node] = field(default_factory=list)

    def copy(self):
        return Pred(list(self.regs), self.flags, list(self.bounds), self.forest)


def entry_pred():
    return Pred(forest=[Node([entry(RSP)], 8, RA)])


def of_vertex(vertex):
    regs = [vertex.registers.get(name, entry(number)) for number, name in enumerate(REGISTERS)]
    return Pred(regs, vertex.flags, list(vertex.bounds), vertex.nodes)


def to_vertex(pred, edges):
    registers = {REGISTERS[number]: term for number, term in enumerate(pred.regs) if term != entry(number)}
    return Vertex(registers, pred.flags, list(pred.bounds), pred.forest, list(edges))


def within(narrow, wide):
    """Whether each value that the one bound allows the other allows too, as far as their forms are compared."""
    if isinstance(narrow, Range):
        return isinstance(wide, Range) and wide.low <= narrow.low and narrow.high <= wide.high
    if isinstance(wide, Range):
        return all(wide.low <= value <= wide.high for value in narrow.values)
    return set(narrow.values) <= set(wide.values)


def entails_bound(pred, bound):
    return any(it.term == bound.term and within(it, bound) for it in pred.bounds)


def counterpart(level, node):
    return next((it for it in level if it.names[0] == node.names[0] and it.size == node.size), None)


def entails_cell(node, other):
    """Whether a node says what another one says, their parents aside."""
    return set(other.names) <= set(node.names) and other.value in (None, node.value)


def missing_cell(level, others):
    for other in others:
        node = counterpart(level, other)
        if node is None or not entails_cell(node, other) or missing_cell(node.inside, other.inside):
            return True
    return False


def missing(pred, wanted):
    """The kind of the first conjunct that the one predicate lacks of the other's, or None."""
    if any(want is not None and have != want for have, want in zip(pred.regs, wanted.regs)):
        return "register"
    if wanted.flags is not None and pred.flags != wanted.flags:
        return "flags"
    if not all(entails_bound(pred, bound) for bound in wanted.bounds):
        return "bound"
    return "cell" if missing_cell(pred.forest, wanted.forest) else None


def weaken_level(level, others):
    kept = []
    for node in level:
        other = counterpart(others, node)
        if other is not None and entails_cell(other, node):
            kept.append(Node(node.names, node.size, node.value, weaken_level(node.inside, other.inside)))
    return kept


def weakened(pred, other):
    """With exactly the conjuncts that the other entails."""
    return Pred([have if have == theirs else None for have, theirs in zip(pred.regs, other.regs)],
                pred.flags if pred.flags == other.flags else None,
                [bound for bound in pred.bounds if entails_bound(other, bound)],
                weaken_level(pred.forest, other.forest))


def is_critical(node):
    return critical_region(node) is not None


def critical_region(node):
    """The region of a saved register or of the return address, by its first name in the frame."""
    if node.value != RA and node.value not in [entry(number) for number in SAVED]:
        return None
    names = [name for name in node.names if difference(name, entry(RSP)) is not None]
    return Region(names[0], node.size) if names else None


def returns(pred):
    """Whether a return here goes to the caller, with its registers as they were."""
    cell = forest.find(pred.forest, Region(entry(RSP), 8))
    return (pred.regs[RSP] == entry(RSP) and cell is not None and cell.value == RA
            and all(pred.regs[number] == entry(number) for number in SAVED))
