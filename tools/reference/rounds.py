"""The rounds of the lifter: vertices by address and tag, merges, loop heads that are weakened, jumps that are opened."""
import heapq
from dataclasses import dataclass, field
from typing import Any, Dict, List, Optional, Tuple

import lines
import step
from decode import decode
from foxdec_graph import Edge, Function, Site
from forest import Context
from predicate import Pred, entry_pred, to_vertex, weakened

BELOW, ABOVE = 65_536, 4_096
QUIET_ROUNDS = 64
Key = Tuple[int, int]


class Lost(Exception):
    """An open jump lost an edge or has a vertex that doesn't resolve it."""


class ForkBroken(Exception):
    """The rule of forks breaks at a vertex that is taken; `address` is the site."""

    def __init__(self, address):
        super().__init__(address)
        self.address = address


class TooQuiet(Exception):
    """Many rounds in a row changed something but neither an edge nor a loop head."""


@dataclass
class Made:
    """A vertex: its predicate and the cases that were made of it, each with the vertex that it goes to."""
    pred: Optional[Pred] = None
    cases: List[step.Case] = field(default_factory=list)
    goes: List[Key] = field(default_factory=list)


@dataclass
class Says:
    """What a site says beside its vertices."""
    kind: str
    callee: Optional[int] = None
    reason: Optional[str] = None
    separate: tuple = ()
    kept: tuple = ()


class State:
    """All that a put-back puts back."""

    def __init__(self, entry):
        self.made: Dict[Key, Made] = {(entry, 0): Made(entry_pred())}
        self.tags: Dict[int, List[int]] = {entry: [0]}
        self.inward: Dict[Key, set] = {(entry, 0): set()}
        self.says: Dict[int, Says] = {}
        self.open: set = set()

    def copy(self):
        new = State.__new__(State)
        new.made = {key: Made(it.pred, it.cases, it.goes) for key, it in self.made.items()}
        new.tags = {address: list(tags) for address, tags in self.tags.items()}
        new.inward = {key: set(sources) for key, sources in self.inward.items()}
        new.says, new.open = dict(self.says), set(self.open)
        return new


def on_cycles(made):
    """The vertices from which a path of edges leads back to them (Tarjan, without recursion)."""
    index, low, stack, on_stack, found = {}, {}, [], set(), set()
    for root in made:
        work = [] if root in index else [(root, iter(made[root].goes))]
        while work:
            key, rest = work[-1]
            if key not in index:
                index[key] = low[key] = len(index)
                stack.append(key)
                on_stack.add(key)
            for target in rest:
                if target not in index:
                    work.append((target, iter(made[target].goes)))
                    break
                if target in on_stack:
                    low[key] = min(low[key], index[target])
            else:
                work.pop()
                if work:
                    low[work[-1][0]] = min(low[work[-1][0]], low[key])
                if low[key] == index[key]:
                    close_component(key, stack, on_stack, made, found)
    return found


def close_component(key, stack, on_stack, made, found):
    component = []
    while not component or component[-1] != key:
        component.append(stack.pop())
        on_stack.remove(component[-1])
    if len(component) > 1 or key in made[key].goes:
        found.update(component)


class Lifter:
    """The rounds over one function."""

    def __init__(self, image, entry, externs, forks):
        self.image, self.entry, self.externs, self.forks = image, entry, externs, forks
        self.context = Context(image, BELOW, ABOVE)
        self.instrs: Dict[int, Any] = {}
        self.state = State(entry)
        self.heads = set()
        self.is_dirty = True

    # -- the program

    def instr(self, address):
        if address not in self.instrs:
            self.instrs[address] = decode(self.image.code_at(address), address)
        return self.instrs[address]

    def is_shut(self, address):
        return step.is_indirect(self.instr(address)) and address not in self.state.open and address not in self.externs

    def view(self, address, says):
        context = Context(self.image, BELOW, ABOVE, says.separate) if says.separate else self.context
        return step.View(context, self.forks.get(address), says.kept)

    # -- loop heads

    def loop_heads(self):
        if self.is_dirty:
            made = self.state.made
            several = {key for key in on_cycles(made) if len(self.state.inward[key]) > 1}
            self.heads = several | {(self.entry, tag) for tag in self.state.tags[self.entry] if tag}
            self.is_dirty = False
        return self.heads

    # -- one vertex

    def newest(self, key):
        """The newest cases of the edges to a vertex, in written order."""
        return [self.state.made[source].cases[number].pred for source, number in sorted(self.state.inward[key])]

    def renewed(self, key):
        """The predicate that a vertex gets when it is taken."""
        old = self.state.made[key].pred
        if key == (self.entry, 0):
            return old
        found = self.newest(key)
        if old is None or key not in self.loop_heads():
            old, found = found[0], found[1:]
        for one in found:
            old = weakened(old, one)
        return old

    def preds_at(self, address):
        found = (self.state.made[address, tag].pred for tag in self.state.tags[address])
        return [pred for pred in found if pred is not None]

    def said(self, address):
        """What the site says by its vertices as they stand."""
        instr, preds = self.instr(address), self.preds_at(address)
        reason = "unresolved" if self.is_shut(address) else lines.end_reason(instr, address in self.externs, preds)
        if reason:
            return Says("end", reason=reason)
        if instr.op == "ret":
            return Says("ret")
        bare = step.View(self.context, None, ())
        separate = tuple(lines.pairs_of(bare, instr, preds))
        if not step.is_call(instr):
            return Says("step", separate=separate)
        view = step.View(Context(self.image, BELOW, ABOVE, separate))
        kept = tuple(lines.saved_of(view, instr, preds))
        target = lines.constant_target(view, instr, preds)
        if target is None or target in self.externs or not self.image.is_code(target):
            return Says("outside", separate=separate, kept=kept)
        return Says("call", target, separate=separate, kept=kept)

    def cases(self, key, says):
        """The newest cases of a vertex; ForkBroken and Lost where they can't be made."""
        address, pred = key[0], self.state.made[key].pred
        if says.kind in ("end", "ret"):
            return []
        instr, view = self.instr(address), self.view(address, says)
        if view.fork and not step.fork_holds(view, instr, pred):
            raise ForkBroken(address)
        found = step.all_cases(view, instr, pred)
        if found is None:
            raise Lost
        return found

    def tag_after(self, key, number):
        if key[0] in self.forks and not step.is_jump(self.instr(key[0])):
            return number + 2
        return max(key[1], 1)

    def take(self, key):
        """Makes a vertex anew; answers whether anything changed, whether an edge was found, and whether it is a loop head
        that was weakened."""
        made, address = self.state.made[key], key[0]
        pred = self.renewed(key)
        is_new_pred = pred != made.pred
        was_none = made.pred is None
        made.pred = pred
        says = self.said(address)
        is_new_said = says != self.state.says.get(address)
        self.state.says[address] = says
        cases = self.cases(key, says)
        is_new_case = cases != made.cases
        edges = self.link(key, cases)
        head = is_new_pred and not was_none and key in self.loop_heads()
        return is_new_pred or is_new_said or is_new_case, edges, head

    def link(self, key, cases):
        """Puts a vertex's cases in place, and answers the vertices to which an edge was found."""
        made = self.state.made[key]
        goes = [(case.address, self.tag_after(key, number)) for number, case in enumerate(cases)]
        old = made.goes
        if len(old) > len(goes) or not set(old) <= set(goes):
            raise Lost
        made.cases, made.goes = cases, goes
        if goes == old:
            return []
        for number, target in enumerate(old):
            self.state.inward[target].discard((key, number))
        fresh = []
        for number, target in enumerate(goes):
            if target not in self.state.made:
                self.add_vertex(target)
            elif self.state.made[target].goes:
                self.is_dirty = True
            self.is_dirty |= target[0] == self.entry
            self.state.inward[target].add((key, number))
            fresh.append(target)
        return fresh

    def add_vertex(self, key):
        self.state.made[key] = Made()
        self.state.inward[key] = set()
        self.state.tags.setdefault(key[0], []).append(key[1])
        self.state.tags[key[0]].sort()

    # -- rounds

    def round(self):
        """Takes every vertex once; answers whether something changed, and whether an edge or a loop head did."""
        turn = Turn(self)
        changed = stirred = False
        key = (self.entry, 0)
        while key is not None:
            turn.taken.add(key)
            was = self.loop_heads()
            here, edges, head = self.take(key)
            changed |= here
            stirred |= bool(edges) or head
            turn.after(key, edges)
            if self.loop_heads() is not was:
                turn.add_heads()
            key = turn.least()
        return changed, stirred

    def settle(self):
        """Rounds until one changes nothing."""
        quiet = 0
        while True:
            changed, stirred = self.round()
            if not changed:
                return
            quiet = 0 if stirred else quiet + 1
            if self.forks and quiet >= QUIET_ROUNDS:
                raise TooQuiet

    # -- jumps

    def resolves(self, address):
        """Whether every vertex of a shut jump resolves it."""
        view = self.view(address, Says("step"))
        return all(step.cases(view, self.instr(address), pred) is not None for pred in self.preds_at(address))

    def least_to_open(self, failed):
        found = (address for address in sorted(self.state.says) if self.is_shut(address) and address not in failed)
        return next((address for address in found if self.resolves(address)), None)

    def run(self):
        self.settle()
        failed = set()
        while True:
            address = self.least_to_open(failed)
            if address is None:
                return self
            before = self.state.copy()
            self.state.open.add(address)
            try:
                self.settle()
                failed = set()
            except Lost:
                self.state, self.is_dirty = before, True
                failed.add(address)

    # -- the function

    def function(self):
        function = Function(self.entry, BELOW, ABOVE)
        numbers = {(address, tag): number for address, tags in self.state.tags.items() for number, tag in enumerate(tags)}
        for address in sorted(self.state.tags):
            says = self.state.says[address]
            site = Site(address, says.kind, says.callee, says.reason, list(says.separate), None, list(says.kept))
            site.apart = self.forks.get(address) if says.kind == "step" else None
            for tag in self.state.tags[address]:
                made = self.state.made[address, tag]
                edges = [Edge(target[0], numbers[target]) for target in made.goes]
                site.vertices.append(to_vertex(made.pred, edges))
            function.sites.append(site)
        return function

    def constant_calls(self):
        """The constant targets of the function's calls."""
        for address in self.state.tags:
            instr, says = self.instr(address), self.state.says[address]
            if instr is not None and instr.op == "call" and says.kind in ("call", "outside"):
                yield lines.constant_target(self.view(address, says), instr, self.preds_at(address))


class Turn:
    """Which vertices a round has taken, and which can be taken next."""

    def __init__(self, lifter):
        self.lifter = lifter
        self.taken = set()
        self.heap = []
        state = lifter.state
        self.waiting = {key: len({source for source, _ in sources}) for key, sources in state.inward.items()}
        self.outward = {key: set(it.goes) for key, it in state.made.items()}
        self.add_heads()

    def add_heads(self):
        for key in self.lifter.loop_heads():
            self.push(key)

    def push(self, key):
        if key not in self.taken:
            heapq.heappush(self.heap, key)

    def after(self, key, found):
        """A vertex was taken: what waits for it alone can be taken."""
        for target in self.outward.get(key, ()):
            self.waiting[target] -= 1
            if self.waiting[target] == 0:
                self.push(target)
        for target in found:
            if target not in self.waiting:
                self.waiting[target] = 0
            if self.waiting[target] == 0:
                self.push(target)

    def least(self):
        while self.heap:
            key = heapq.heappop(self.heap)
            if key not in self.taken:
                return key
        return None
