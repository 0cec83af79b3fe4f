"""Memory as a forest of cells: the names of a cell are equal addresses, siblings are separate, children lie inside."""
from dataclasses import dataclass, replace
from typing import Any, Tuple

from terms import MODULUS, Term, difference, entry, mentions
from foxdec_graph import NAMES, NODES, Node, Region, signed

RSP = 4


@dataclass(frozen=True)
class Context:
    """What decides how two regions lie: the segments, the frame and the pairs that a site takes for separate."""
    image: Any
    below: int
    above: int
    separate: Tuple[Tuple[Region, Region], ...] = ()

    def without_pairs(self):
        return replace(self, separate=())


def by_difference(apart, first, second):
    """How regions of two sizes lie whose addresses are so far apart."""
    back = -apart % MODULUS
    if apart == 0 and first == second:
        return "Alias"
    if apart >= first and back >= second:
        return "Separate"
    if apart + second <= first:
        return "Around"
    return "Inside" if back + first <= second else "Overlap"


def is_in_frame(region, context):
    offset = difference(region.term, entry(RSP))
    if offset is None:
        return False
    offset = signed(offset)
    return -context.below <= offset and offset + region.size <= context.above


def is_loaded(region, context):
    return region.term.is_constant and context.image.covers(region.term.constant, region.size)


def relate(first, second, context):
    """How the first region lies to the second; `Inside` says that it lies in it."""
    apart = difference(second.term, first.term)
    if apart is not None:
        return by_difference(apart, first.size, second.size)
    for one, other in ((first, second), (second, first)):
        if is_in_frame(one, context) and is_loaded(other, context):
            return "Separate"
    listed = (first, second) in context.separate or (second, first) in context.separate
    return "Separate" if listed else "Unknown"


def relate_to_node(region, node, context):
    """By the first of the node's names that tells something."""
    answers = (relate(region, Region(one, node.size), context) for one in node.names)
    return next((answer for answer in answers if answer != "Unknown"), "Unknown")


def all_nodes(forest):
    for node in forest:
        yield node
        yield from all_nodes(node.inside)


def is_at(node, region):
    return node.size == region.size and region.term in node.names


def find(forest, region):
    return next((node for node in all_nodes(forest) if is_at(node, region)), None)


def in_order(nodes):
    return sorted(nodes, key=Node.key)


def first_around(level, region, context):
    return next((node for node in level if relate_to_node(region, node, context) == "Inside"), None)


def exchanged(level, old, new):
    return [new if node is old else node for node in level]


def has_room(forest, level_before, level_after):
    """Whether one more node may come once a level has become smaller."""
    gone = len(list(all_nodes(level_before))) - len(list(all_nodes(level_after)))
    return len(list(all_nodes(forest))) - gone < NODES


def store_found(level, region, value):
    """The level after a store to a region that is found at it or below."""
    after = []
    for node in level:
        if is_at(node, region):
            node = Node(node.names, node.size, value)
        elif find(node.inside, region):
            node = Node(node.names, node.size, None, store_found(node.inside, region, value))
        after.append(node)
    return after


def store(forest, region, value, context):
    """The forest after a store of a value, or of an unknown one."""
    if find(forest, region):
        return store_found(forest, region, value)
    return store_new(forest, forest, region, value, context)


def store_new(forest, level, region, value, context):
    around = first_around(level, region, context)
    if around:
        inside = store_new(forest, around.inside, region, value, context)
        return exchanged(level, around, Node(around.names, around.size, None, inside))
    kept = [node for node in level if relate_to_node(region, node, context) == "Separate"]
    new = [Node([region.term], region.size, value)] if has_room(forest, level, kept) else []
    return in_order(kept + new)


def load(forest, region, value, context):
    """The value that stands at a region, or the given one, which then fills the cell; and the forest after it."""
    found = find(forest, region)
    if found:
        if found.value is not None or value is None:
            return found.value, forest
        return value, fill_found(forest, region, value)
    if value is None:
        return None, forest
    after = load_new(forest, forest, region, value, context)
    return (value if find(after, region) else None), after


def fill_found(level, region, value):
    return [Node(node.names, node.size, value if is_at(node, region) else node.value,
                 fill_found(node.inside, region, value)) for node in level]


def load_new(forest, level, region, value, context):
    around = first_around(level, region, context)
    if around:
        inside = load_new(forest, around.inside, region, value, context)
        return exchanged(level, around, Node(around.names, around.size, around.value, inside))
    answers = [relate_to_node(region, node, context) for node in level]
    if any(answer not in ("Separate", "Around") for answer in answers) or not has_room(forest, level, level):
        return level
    contained = [node for node, answer in zip(level, answers) if answer == "Around"]
    apart = [node for node, answer in zip(level, answers) if answer == "Separate"]
    return in_order(apart + [Node([region.term], region.size, value, contained)])


def can_alias(forest, region, other):
    """Whether a region's address can become a name of the other's node."""
    node = find(forest, other)
    return bool(node and not find(forest, region) and region.size == other.size and len(node.names) < NAMES)


def alias(forest, region, other):
    return aliased(forest, region, other) if can_alias(forest, region, other) else forest


def aliased(level, region, other):
    after = []
    for node in level:
        names = sorted([*node.names, region.term], key=Term.key) if is_at(node, other) else node.names
        after.append(Node(names, node.size, node.value, aliased(node.inside, region, other)))
    return in_order(after)


def forget(level, symbol):
    """Without the values and the names that mention a symbol; a node without names goes with its children."""
    after = []
    for node in level:
        names = [one for one in node.names if not mentions(one, symbol)]
        value = None if node.value is not None and mentions(node.value, symbol) else node.value
        if names:
            after.append(Node(names, node.size, value, forget(node.inside, symbol)))
    return in_order(after)


def clear_values(level, keeps):
    """Without the values but those of the kept regions."""
    return [Node(node.names, node.size, node.value if any(is_at(node, region) for region in keeps) else None,
                 clear_values(node.inside, keeps)) for node in level]
