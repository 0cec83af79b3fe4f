"""Terms as the step rules use them: normal forms with at most 32 nodes. None stands for what is not known, and whatever is
made of it is not known either."""
import functools

import tools_path  # noqa: F401
from foxdec_graph import MODULUS, TERM_NODES, Fit, Symbol, Term, made_fit, made_pair, single, total

RA = single(Symbol("ra"))
FS = single(Symbol("fs"))


def constant(number):
    return Term(number % MODULUS)


@functools.lru_cache(maxsize=None)
def entry(register):
    """What a register had at the entry."""
    return single(Symbol("register", register))


def name(address):
    """The value last named at an address."""
    return single(Symbol("value", address))


def arguments(atom):
    """The terms inside an atom."""
    if isinstance(atom, Symbol):
        return ()
    return (atom.term,) if isinstance(atom, Fit) else (atom.left, atom.right)


@functools.lru_cache(maxsize=65_536)
def nodes(term):
    """One for the term, and for each atom one and the nodes of its arguments."""
    return 1 + sum(1 + sum(nodes(inner) for inner in arguments(atom)) for atom, _ in term.pieces)


@functools.lru_cache(maxsize=65_536)
def mentions(term, symbol):
    return any(atom == symbol or any(mentions(inner, symbol) for inner in arguments(atom)) for atom, _ in term.pieces)


def within(term):
    """The term, or None where it has too many nodes."""
    return term if nodes(term) <= TERM_NODES else None


def linear(*summands):
    """The sum of terms, each with a factor. Only the whole sum is measured."""
    return None if any(term is None for _, term in summands) else within(total(summands))


def add(left, right):
    return linear((1, left), (1, right))


def sub(left, right):
    return linear((1, left), (-1, right))


def plus(term, number):
    return linear((1, term), (1, constant(number)))


def scale(factor, term):
    return linear((factor, term))


def fit(kind, term):
    return None if term is None else within(made_fit(kind, term))


def zx(bits, term):
    """The low bits, extended by zeros; at 64 bits the term itself."""
    return term if bits == 64 else fit(f"zx{bits}", term)


def sx(bits, term):
    return term if bits == 64 else fit(f"sx{bits}", term)


def pair(kind, left, right):
    return None if left is None or right is None else within(made_pair(kind, left, right))


def difference(left, right):
    """The number that left is more than right modulo 2^64, where it is one."""
    found = total([(1, left), (-1, right)])
    return found.constant if found.is_constant else None
