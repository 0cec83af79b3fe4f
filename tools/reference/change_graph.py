"""Changes a graph at random: one or a few small changes, after which most graphs still have the form of a text."""
from dataclasses import replace

import tools_path  # noqa: F401
from foxdec_graph import REGISTERS, Edge, Flags, Node, OneOf, Range, Region, RefusedFunction, Term, Vertex
from terms import constant, entry, fit, name, pair, plus

KINDS = [("step", None), ("ret", None), ("outside", None), ("end", "stop"), ("end", "badreturn"), ("end", "extern")]


class Changer:
    """The changes, each of which may also do nothing where the graph has nothing for it."""

    def __init__(self, chance, graph):
        self.chance, self.graph = chance, graph
        self.functions = [it for it in graph.functions if not isinstance(it, RefusedFunction)]
        self.sites = [site for function in self.functions for site in function.sites]
        self.vertices = [vertex for site in self.sites for vertex in site.vertices]
        self.terms = list({term for vertex in self.vertices for term in terms_of(vertex)})

    def run(self):
        if self.vertices:
            self.chance.choice(self.CHANGES)(self)

    # -- parts

    def site(self):
        return self.chance.choice(self.sites)

    def vertex(self):
        return self.chance.choice(self.vertices)

    def some_term(self):
        """A term of the graph, or one made of such terms."""
        base = self.chance.choice([*self.terms, entry(self.chance.randrange(16)), name(self.site().address)])
        made = self.chance.choice([
            lambda: base, lambda: base, lambda: plus(base, self.chance.choice([-8, -1, 1, 8, 16])),
            lambda: fit(self.chance.choice(["zx8", "zx16", "zx32", "sx8", "sx16", "sx32"]), base),
            lambda: pair(self.chance.choice(["and", "or", "xor", "mul", "shr", "sar"]), base, self.chance.choice(self.terms or [base])),
            lambda: constant(self.chance.choice([0, 1, -1, self.site().address])),
        ])()
        return made or base

    def region(self):
        """The region of a cell, one near it, or one at any term."""
        nodes = [node for vertex in self.vertices for node in vertex.all_nodes()]
        if nodes and self.chance.random() < 0.7:
            node = self.chance.choice(nodes)
            at = self.chance.choice(node.names)
            return Region(at, node.size) if self.chance.random() < 0.7 else Region(plus(at, self.chance.choice([-8, -4, 4, 8])) or at, 4)
        return Region(self.some_term(), self.chance.choice([1, 2, 4, 8]))

    # -- predicates

    def change_register(self):
        vertex, register = self.vertex(), self.chance.choice(REGISTERS)
        term = self.chance.choice([None, self.some_term(), self.some_term()])
        registers = {**vertex.registers, register: term}
        vertex.registers = {one: registers[one] for number, one in enumerate(REGISTERS)
                            if one in registers and registers[one] != entry(number)}

    def drop_register(self):
        vertex = self.vertex()
        if vertex.registers:
            del vertex.registers[self.chance.choice(list(vertex.registers))]

    def change_flags(self):
        vertex = self.vertex()
        old = vertex.flags
        if old and self.chance.random() < 0.5:
            vertex.flags = self.chance.choice([None, replace(old, width=self.chance.choice([8, 16, 32, 64])),
                                               replace(old, right=self.some_term()), replace(old, left=self.some_term())])
        else:
            vertex.flags = Flags(self.chance.choice([8, 16, 32, 64]), self.some_term(), self.some_term())

    def change_bound(self):
        vertex = self.vertex()
        if not vertex.bounds:
            return self.add_bound()
        at = self.chance.randrange(len(vertex.bounds))
        old = vertex.bounds[at]
        if isinstance(old, Range):
            new = self.chance.choice([replace(old, low=max(old.low - 1, 0)), replace(old, high=old.high + 1), replace(old, low=old.low + 1),
                                      OneOf(old.term, (old.low, old.high))])
        else:
            kept = tuple(value for value in old.values if self.chance.random() < 0.7) or old.values
            new = self.chance.choice([OneOf(old.term, kept), Range(old.term, old.values[0], old.values[-1]),
                                      OneOf(old.term, tuple(sorted({*old.values, self.chance.randrange(8)})))])
        vertex.bounds[at] = new

    def add_bound(self):
        vertex = self.vertex()
        low = self.chance.choice([0, 1, self.chance.randrange(300)])
        new = Range(self.some_term(), low, low + self.chance.choice([0, 3, 255]))
        vertex.bounds = sorted([it for it in vertex.bounds if it.term != new.term] + [new], key=lambda it: it.term.key())

    def drop_bound(self):
        vertex = self.vertex()
        if vertex.bounds:
            vertex.bounds.remove(self.chance.choice(vertex.bounds))

    def a_level(self, vertex):
        """The nodes of the vertex or those inside one of them."""
        levels = [vertex.nodes, *(node.inside for node in vertex.all_nodes())]
        return self.chance.choice([vertex.nodes, self.chance.choice(levels)])

    def change_node(self):
        level = self.a_level(self.vertex())
        if level:
            node = self.chance.choice(level)
            change = self.chance.choice(["value", "no value", "names", "size"])
            if change == "value":
                node.value = self.some_term()
            elif change == "no value":
                node.value = None
            elif change == "size":
                node.size = self.chance.choice([1, 2, 4, 8])
            else:
                node.names = sorted({self.chance.choice(node.names), self.some_term()}, key=Term.key)
            level.sort(key=Node.key)

    def drop_node(self):
        level = self.a_level(self.vertex())
        if level:
            level.remove(self.chance.choice(level))

    def add_node(self):
        vertex, where = self.vertex(), self.region()
        level = self.a_level(vertex)
        level.append(Node([where.term], where.size, self.chance.choice([None, self.some_term()])))
        level.sort(key=Node.key)

    # -- edges and sites

    def move_edge(self):
        vertex = self.vertex()
        if vertex.edges:
            at = self.chance.randrange(len(vertex.edges))
            old = vertex.edges[at]
            new = Edge(self.chance.choice([self.site().address, old.address + 1, old.address]), self.chance.choice([0, old.vertex + 1]))
            vertex.edges[at] = new

    def resize_edges(self):
        vertex = self.vertex()
        if vertex.edges:
            at = self.chance.randrange(len(vertex.edges))
            edges = vertex.edges
            vertex.edges = self.chance.choice([edges[:at] + edges[at + 1:], edges + [edges[at]], edges[::-1], edges * 3])

    def change_kind(self):
        site = self.site()
        site.kind, site.reason = self.chance.choice(KINDS)
        site.callee = None
        if self.chance.random() < 0.3:
            site.kind, site.reason, site.callee = "call", None, self.chance.choice(self.functions).entry
        target = [Edge(self.site().address, 0)]
        for vertex in site.vertices:
            vertex.edges = (vertex.edges or target) if site.has_edges else []
        site.separate = site.separate if site.has_edges else []
        site.kept = site.kept if site.kind in ("call", "outside") else []
        site.apart = site.apart if site.kind == "step" else None

    def change_callee(self):
        calls = [site for site in self.sites if site.kind == "call"]
        if calls:
            site = self.chance.choice(calls)
            site.callee = self.chance.choice([site.callee + 1, self.chance.choice(self.graph.functions).entry])

    def change_pairs(self):
        sites = [site for site in self.sites if site.has_edges]
        site = self.chance.choice(sites) if sites else self.site()
        if site.separate and self.chance.random() < 0.5:
            site.separate.remove(self.chance.choice(site.separate))
        elif site.has_edges:
            added = self.region(), self.region()
            site.separate = sorted({*site.separate, added}, key=lambda it: (it[0].key(), it[1].key()))

    def change_kept(self):
        calls = [site for site in self.sites if site.kind in ("call", "outside")]
        if calls:
            site = self.chance.choice(calls)
            if site.kept and self.chance.random() < 0.5:
                site.kept.remove(self.chance.choice(site.kept))
            else:
                site.kept = sorted({*site.kept, self.region()}, key=Region.key)

    def change_fork(self):
        steps = [site for site in self.sites if site.kind == "step"]
        if steps:
            site = self.chance.choice(steps)
            if site.apart:
                site.apart = self.chance.choice([None, (self.region(), site.apart[1]), site.apart[::-1]])
            else:
                site.apart = self.region(), self.region()
                for vertex in site.vertices:
                    vertex.edges = vertex.edges * 3 if self.chance.random() < 0.8 else vertex.edges

    def drop_vertex(self):
        site = self.site()
        if len(site.vertices) > 1:
            site.vertices.pop(self.chance.randrange(len(site.vertices)))

    def copy_vertex(self):
        """One more vertex, which knows less or the same."""
        site, old = self.site(), self.vertex()
        new = Vertex(dict(old.registers), old.flags, list(old.bounds), [], list(site.vertices[0].edges))
        if len(site.vertices) < 8:
            site.vertices.insert(self.chance.randrange(len(site.vertices) + 1), new)

    def drop_site(self):
        function = self.chance.choice(self.functions)
        if len(function.sites) > 1:
            function.sites.remove(self.chance.choice(function.sites))

    def drop_function(self):
        if len(self.graph.functions) > 1:
            self.graph.functions.remove(self.chance.choice(self.graph.functions))

    def change_frame(self):
        function = self.chance.choice(self.functions)
        function.below = self.chance.choice([0, 8, 16, 65_536, 1_048_576])
        function.above = self.chance.choice([0, 8, 4_096])

    CHANGES = ([change_register] * 3 + [change_node, drop_node, add_node, move_edge, change_bound] * 2
               + [drop_register, change_flags, add_bound, drop_bound, resize_edges, change_kind, change_callee, change_pairs,
                  change_kept, change_fork, drop_vertex, copy_vertex, drop_site, drop_function, change_frame])


def terms_of(vertex):
    yield from (term for term in vertex.registers.values() if term is not None)
    if vertex.flags:
        yield from (vertex.flags.left, vertex.flags.right)
    yield from (bound.term for bound in vertex.bounds)
    for node in vertex.all_nodes():
        yield from node.names
        if node.value is not None:
            yield node.value


def change_line(chance, text):
    """The text with a line dropped, doubled, exchanged with the next one, or with a character changed."""
    lines = text.split("\n")
    at = chance.randrange(len(lines) - 1)
    change = chance.choice(["drop", "double", "exchange", "character"])
    if change == "drop":
        del lines[at]
    elif change == "double":
        lines.insert(at, lines[at])
    elif change == "exchange":
        lines[at:at + 2] = lines[at:at + 2][::-1]
    elif lines[at]:
        place = chance.randrange(len(lines[at]))
        lines[at] = lines[at][:place] + chance.choice("0123456789abfrspvz[];=:>. ?-+*(),") + lines[at][place + 1:]
    return "\n".join(lines)
