"""The rules of a full graph: it says what a lifter under the same policy has to say (docs/RULES.md)."""
from dataclasses import dataclass, field

import lines
import step
from decode import Imm
from foxdec_graph import RefusedFunction
from predicate import returns, weakened
from rounds import ABOVE, BELOW, on_cycles
from rules import Broken, FunctionCheck, instruction_at


def need(holds, *broken):
    if not holds:
        raise Broken(*broken)


@dataclass
class Goes:
    """Where the edges of a vertex go."""
    goes: list = field(default_factory=list)


class FullFunction(FunctionCheck):
    """The rules of one function that is not refused."""

    def __init__(self, image, function, entries, policy):
        super().__init__(image, function, entries)
        self.policy = policy
        self.edges = {}
        for site in function.sites:
            for number, vertex in enumerate(site.vertices):
                self.edges[site.address, number] = Goes([(edge.address, edge.vertex) for edge in vertex.edges])
        self.inward = {key: [] for key in self.edges}
        for key, made in self.edges.items():
            for place, target in enumerate(made.goes):
                self.inward[target].append((*key, place))
        several = {key for key in on_cycles(self.edges) if len(self.inward[key]) > 1}
        self.heads = several | {key for key in self.edges if key[0] == function.entry}

    def run(self):
        entry = self.function.entry
        need(self.image.is_code(entry), entry, "refused")
        need((self.function.below, self.function.above) == (BELOW, ABOVE), entry, "frame")
        for site in self.function.sites:
            self.check_full_site(site)

    def preds_of(self, site):
        return [self.pred(site, number) for number in range(len(site.vertices))]

    def target(self, site):
        """The constant target of a site at a call."""
        if site.kind not in ("call", "outside"):
            return None
        return lines.constant_target(self.view(site), instruction_at(self.image, site.address), self.preds_of(site))

    # -- sites

    def check_full_site(self, site):
        where = self.function.entry
        need(self.has_reason(site), where, "reason", site.address)
        target = self.target(site) if site.kind == "outside" else None
        need(target is None or target not in self.callable or target in self.policy.externs, where, "outside", site.address)
        need(not site.has_edges or self.assumes_right(site), where, "assumed", site.address)
        need(site.apart is None or self.policy.with_forks, where, "forked", site.address)
        for number in range(len(site.vertices)):
            self.check_full_vertex(site, number)

    def has_reason(self, site):
        is_extern = site.address in self.policy.externs
        if is_extern or site.reason == "extern":
            return is_extern and site.reason == "extern"
        instr, preds = instruction_at(self.image, site.address), self.preds_of(site)
        if site.reason == "unsupported":
            return instr is None
        if site.reason == "unresolved":
            return step.is_indirect(instr) and not self.should_open(site, instr, preds)
        if site.reason == "badreturn":
            return instr is not None and instr.op == "ret" and not all(returns(pred) for pred in preds)
        return site.reason != "stop" or (instr is not None and instr.op in step.STOPS)

    def should_open(self, site, instr, preds):
        """Whether every vertex resolves a jump, and its way comes neither back to it nor to an open indirect jump."""
        answers = [step.cases(self.view(site), instr, pred) for pred in preds]
        if None in answers:
            return False
        way = self.way({case.address for cases in answers for case in cases})
        opened = (self.sites[at] for at in way if at in self.sites)
        return site.address not in way and not any(
            it.kind == "step" and step.is_indirect(instruction_at(self.image, it.address)) for it in opened)

    def way(self, addresses):
        """The addresses that are reached from these, by edges where there is a site, else by the instructions."""
        found, waiting = set(), list(addresses)
        while waiting:
            address = waiting.pop()
            if address not in found:
                found.add(address)
                waiting += self.after(address)
        return found

    def after(self, address):
        if address in self.sites:
            return [edge.address for vertex in self.sites[address].vertices for edge in vertex.edges]
        instr = instruction_at(self.image, address)
        if instr is None or address in self.policy.externs:
            return []
        goes_on = [] if instr.op in ("jmp", "ret", *step.STOPS) else [instr.next]
        is_direct = instr.op in ("jmp", "jcc") and isinstance(instr.dst, Imm)
        return goes_on + ([instr.dst.value] if is_direct else [])

    def assumes_right(self, site):
        instr, view, preds = instruction_at(self.image, site.address), self.view(site), self.preds_of(site)
        if lines.pairs_of(view, instr, preds) != site.separate:
            return False
        return not step.is_call(instr) or lines.saved_of(view, instr, preds) == site.kept

    # -- vertices

    def check_full_vertex(self, site, number):
        key = site.address, number
        if key == (self.function.entry, 0):
            return
        need(self.inward[key], self.function.entry, "inedge", *key)
        is_exact = key in self.heads or self.merge(key) == self.pred(site, number)
        need(is_exact, self.function.entry, "exact", *key)

    def merge(self, key):
        """The cases of the edges to a vertex, in written order, each weakening those before it."""
        found = None
        for address, number, place in self.inward[key]:
            site = self.sites[address]
            instr = instruction_at(self.image, address)
            case = step.all_cases(self.view(site), instr, self.pred(site, number))[place].pred
            found = case if found is None else weakened(found, case)
        return found


def functions_wanted(checks, policy):
    called = {check.target(site) for check in checks for site in check.function.sites}
    return policy.roots | (called - {None} - policy.externs)


def check_full(image, graph, policy):
    """The first broken rule of a full graph, or None; the graph is valid."""
    unrefused = [it for it in graph.functions if not isinstance(it, RefusedFunction)]
    entries = {it.entry for it in unrefused}
    checks = {it.entry: FullFunction(image, it, entries, policy) for it in unrefused}
    wrong = functions_wanted(checks.values(), policy) ^ {it.entry for it in graph.functions}
    if wrong:
        return Broken(min(wrong), "functions")
    try:
        for function in graph.functions:
            if isinstance(function, RefusedFunction):
                need(not image.is_code(function.entry), function.entry, "refused")
            else:
                checks[function.entry].run()
    except Broken as broken:
        return broken
    return None
