"""What a lifted site says: its kind, and the pairs and regions that its saved registers and return address ask for."""
import forest
import step
from foxdec_graph import SITE_LINES, Region
from predicate import critical_region, is_critical, returns


def store_without_pairs(view, pred, region):
    return forest.store(pred.forest, region, None, view.context.without_pairs())


def pairs_of(view, instr, preds):
    """The pairs of the site's store and a critical cell that it would remove, where nothing tells how they lie."""
    found, plain = set(), view.context.without_pairs()
    for pred in preds:
        region = step.store_region(instr, pred)
        if region is None:
            continue
        begun = step.forgotten(instr, pred)
        after = store_without_pairs(view, begun, region)
        for node in forest.all_nodes(begun.forest):
            cell = critical_region(node)
            if cell and not forest.find(after, cell) and forest.relate(region, cell, plain) == "Unknown":
                found.add((region, cell))
    return sorted(found, key=lambda pair: (pair[0].key(), pair[1].key()))[:SITE_LINES]


def critical_cells(pred):
    return {critical_region(node) for node in forest.all_nodes(pred.forest) if is_critical(node)}


def saved_of(view, instr, preds):
    """The critical cells that stand when the callee begins, in every vertex."""
    cells = [critical_cells(step.begin(view, instr, pred)) for pred in preds]
    return sorted(set.intersection(*cells), key=Region.key)[:SITE_LINES]


def constant_target(view, instr, preds):
    """The one address that is called in every vertex, or None."""
    found = {step.call_target(view, instr, pred) for pred in preds}
    return found.pop() if len(found) == 1 else None


def end_reason(instr, is_extern, preds):
    """Why a site ends, None where it goes on or returns."""
    if is_extern:
        return "extern"
    if instr is None:
        return "unsupported"
    if instr.op in step.STOPS:
        return "stop"
    return "badreturn" if instr.op == "ret" and not all(returns(pred) for pred in preds) else None


def fork_of(view, instr, preds):
    """The pair of the site's store and the first cell that it removes since nothing tells how they lie, or None."""
    region = step.store_region(instr, preds[0])
    begun = step.forgotten(instr, preds[0])
    if region is None or step.is_jump(instr):
        return None
    after = forest.store(begun.forest, region, None, view.context)
    for node in forest.all_nodes(begun.forest):
        cell = Region(node.names[0], node.size)
        if (node.size == region.size and not is_critical(node) and not forest.find(after, cell)
                and forest.relate_to_node(region, node, view.context) == "Unknown"):
            return (region, cell) if fork_stands(view, instr, preds, (region, cell)) else None
    return None


def fork_stands(view, instr, preds, pair):
    """Whether the rules `decided` and `fork` hold of a pair in every vertex."""
    if forest.relate(*pair, view.context.without_pairs()) != "Unknown":
        return False
    begun = [step.forgotten(instr, pred) for pred in preds]
    return all(forest.can_alias(pred.forest, *pair) for pred in begun)
