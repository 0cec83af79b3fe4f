"""The rules of a graph in their written order, each function, site, vertex and case for itself (docs/RULES.md)."""
from dataclasses import dataclass

import step
from decode import decode
from forest import Context, relate
from foxdec_graph import RefusedFunction
from predicate import entry_pred, missing, of_vertex, returns


@dataclass
class Broken(Exception):
    """The first broken rule, and where."""
    function: int
    rule: str
    site: int = 0
    vertex: int = 0
    case: int = 0

    def __str__(self):
        return f"invalid {self.function:x} {self.site:x} {self.vertex} {self.case} {self.rule}"


def instruction_at(image, address):
    return decode(image.code_at(address), address)


def kind_fits(kind, instr):
    """Whether a site of this kind can stand at the instruction."""
    if kind == "end":
        return True
    if instr is None:
        return False
    if kind == "step":
        return instr.op not in ("call", "ret", "syscall", *step.STOPS)
    return instr.op in {"call": ("call",), "outside": ("call", "syscall"), "ret": ("ret",)}[kind]


class FunctionCheck:
    """The rules of one function; `callable` are the entries of the functions that are not refused."""

    def __init__(self, image, function, callable_entries):
        self.image, self.function, self.callable = image, function, callable_entries
        self.sites = {site.address: site for site in function.sites}
        self.preds = {}

    def pred(self, site, number):
        """A vertex's predicate, made once."""
        key = site.address, number
        if key not in self.preds:
            self.preds[key] = of_vertex(site.vertices[number])
        return self.preds[key]

    def need(self, holds, rule, site=0, vertex=0, case=0):
        if not holds:
            raise Broken(self.function.entry, rule, site, vertex, case)

    def run(self):
        entry = self.function.entry
        first = self.sites.get(entry)
        self.need(first and self.pred(first, 0) == entry_pred(), "entry", entry)
        for site in self.function.sites:
            self.check_site(site)

    def view(self, site):
        context = Context(self.image, self.function.below, self.function.above, tuple(site.separate))
        return step.View(context, site.apart, tuple(site.kept))

    def check_site(self, site):
        instr = instruction_at(self.image, site.address)
        view = self.view(site)
        self.need(kind_fits(site.kind, instr), "kind", site.address)
        self.need(site.kind != "call" or site.callee in self.callable, "callee", site.address)
        pairs = [*site.separate, *([site.apart] if site.apart else [])]
        plain = view.context.without_pairs()
        self.need(all(relate(one, other, plain) == "Unknown" for one, other in pairs), "decided", site.address)
        for number in range(len(site.vertices)):
            self.check_vertex(site, view, instr, number)

    def check_vertex(self, site, view, instr, number):
        pred = self.pred(site, number)
        where = site.address, number
        self.need(view.fork is None or step.fork_holds(view, instr, pred), "fork", *where)
        self.need(site.kind != "call" or step.call_target(view, instr, pred) == site.callee, "target", *where)
        if site.kind in ("call", "outside"):
            self.need(step.keeps_hold(view, instr, pred), "keep", *where)
        if site.has_edges:
            edges = site.vertices[number].edges
            cases = step.all_cases(view, instr, pred)
            self.need(cases is not None and len(cases) == len(edges), "cases", *where)
            for place, (case, edge) in enumerate(zip(cases, edges)):
                self.check_case(case, edge, (*where, place))
        self.need(site.kind != "ret" or returns(pred), "return", *where)

    def check_case(self, case, edge, where):
        self.need(edge.address == case.address, "address", *where)
        site = self.sites.get(edge.address)
        self.need(site and edge.vertex < len(site.vertices), "vertex", *where)
        lacked = missing(case.pred, self.pred(site, edge.vertex))
        self.need(lacked is None, lacked, *where)


def check(image, graph):
    """The first broken rule, or None."""
    entries = {it.entry for it in graph.functions if not isinstance(it, RefusedFunction)}
    try:
        for function in graph.functions:
            if not isinstance(function, RefusedFunction):
                FunctionCheck(image, function, entries).run()
    except Broken as broken:
        return broken
    return None
