"""The symbolic step: what holds after an instruction, case by case, where a predicate holds before it (docs/STEP.md)."""
from dataclasses import dataclass, replace
from typing import Optional

import forest
from decode import High, Imm, Place, Reg
from foxdec_graph import BOUNDS, NUMBERS, Flags, OneOf, Range, Region, Symbol
from predicate import SAVED, Pred
from terms import FS, MODULUS, add, constant, difference, entry, linear, mentions, name, pair, plus, scale, sub, sx, total, zx

RAX, RCX, RDX, RSP, RBP, R11 = 0, 1, 2, 4, 5, 11
ENTRIES = [entry(number) for number in range(16)]
STOPS = ("hlt", "ud2", "int3")
READERS = ("cmp", "test", "push", "jmp")
TAKERS = ("mov", "movzx", "movsx", "pop", "leave", "xchg")
OF_RAX = ("mul", "imul1", "div", "idiv")
ARITHMETIC = ("add", "or", "adc", "sbb", "and", "sub", "xor")
SHIFTS = ("rol", "ror", "shl", "shr", "sar")
CHANGERS = ARITHMETIC + SHIFTS + OF_RAX + ("mov", "lea", "movzx", "movsx", "not", "neg", "imul2", "imul3", "inc", "dec",
                                          "pop", "bswap", "cmov", "setcc", "xchg")
FLAG_CHANGERS = ARITHMETIC + SHIFTS + OF_RAX + ("cmp", "test", "neg", "imul2", "imul3", "inc", "dec")


@dataclass(frozen=True)
class View:
    """What a site says beside its predicates."""
    context: forest.Context
    fork: Optional[tuple] = None
    keeps: tuple = ()


@dataclass
class Case:
    address: int
    pred: Pred


def loaded_operand(instr):
    """The place that an instruction reads before it writes anything, besides the stack of pop and leave."""
    if instr.op in ("lea", "nop", "setcc"):
        return None
    if instr.op == "mov":
        return instr.src if isinstance(instr.src, Place) else None
    return next((it for it in (instr.dst, instr.src) if isinstance(it, Place)), None)


def destination(instr):
    """The operand that an instruction changes; a fixed register where the row names none."""
    if instr.op in OF_RAX or instr.op == "widen":
        return Reg(RAX)
    if instr.op == "signs":
        return Reg(RDX)
    if instr.op == "leave":
        return Reg(RBP)
    return instr.dst if instr.op in CHANGERS else None


def named(instr):
    """What the site names: ("rax", None), ("loaded", None), ("register", number), ("address", None) or None."""
    if instr.op in ("call", "syscall"):
        return "rax", None
    if instr.op == "xchg" and not isinstance(instr.dst, Place):
        return None
    if instr.op in READERS and loaded_operand(instr):
        return "loaded", None
    target = instr.src if instr.op == "xchg" else destination(instr)
    if isinstance(target, (Reg, High)):
        return "register", target.number
    return ("address", None) if isinstance(target, Place) or instr.op == "push" else None


def dropped(pred, symbol):
    """Without the facts that mention a symbol."""
    def is_free(*found):
        return not any(mentions(term, symbol) for term in found)

    regs = [term if term is first or (term is not None and is_free(term)) else None
            for term, first in zip(pred.regs, ENTRIES)]
    return Pred(regs,
                pred.flags if pred.flags and is_free(pred.flags.left, pred.flags.right) else None,
                [bound for bound in pred.bounds if is_free(bound.term)],
                forest.forget(pred.forest, symbol))


def symbol_at(address):
    return Symbol("value", address)


def effective(place, regs):
    """The address of a place, or None."""
    parts = [(1, constant(place.offset))]
    if place.base is not None:
        parts.append((1, regs[place.base]))
    if place.index is not None:
        parts.append((place.scale, regs[place.index]))
    return linear(*parts, *([(1, FS)] if place.fs else []))


def low_part(regs, operand, width):
    """What a register operand has, by the register's term."""
    if isinstance(operand, High):
        return zx(8, pair("shr", regs[operand.number], constant(8)))
    return zx(width, regs[operand.number])


class Step:
    """One step of one instruction from one predicate, in the order of the rules."""

    def __init__(self, instr, pred, context):
        self.instr, self.context = instr, context
        self.pred = pred.copy()
        self.name = name(instr.address)
        self.named = named(instr)
        self.table_hit = False
        self.got_value = False
        self.load_address = None
        self.store_address = self.address_of_store()
        self.result = None
        self.old_regs = list(self.pred.regs)

    # -- addresses

    def address_of_store(self):
        """The region's address of the step's store, None where there is none or it is unknown."""
        found = None
        if self.instr.op == "push":
            found = plus(self.pred.regs[RSP], -8)
        elif self.stores():
            found = effective(self.instr.dst, self.pred.regs)
        else:
            return None
        return self.name if found is None and self.named == ("address", None) else found

    def stores(self):
        """Whether it stores; what is multiplied or divides is only read."""
        op = self.instr.op
        return op == "push" or (op in CHANGERS and op not in OF_RAX and isinstance(self.instr.dst, Place))

    def store_size(self):
        return 8 if self.instr.op == "push" else self.instr.width // 8

    def store_region(self):
        return None if self.store_address is None else Region(self.store_address, self.store_size())

    # -- operands

    def loaded(self, place, width):
        """The operand in memory, and what the load leaves in the forest."""
        self.load_address = self.address_of_load(place)
        region = None if self.load_address is None else Region(self.load_address, width // 8)
        value = self.standing(region)
        if value is not None:
            self.got_value = True
            return value
        if not self.names_load():
            return None
        value = zx(width, self.name)
        if region is not None:
            _, self.pred.forest = forest.load(self.pred.forest, region, value, self.context)
        return value

    def address_of_load(self, place):
        found = effective(place, self.old_regs)
        is_stored = self.stores() and place is self.instr.dst and self.instr.op != "push"
        return self.name if found is None and is_stored and self.named == ("address", None) else found

    def standing(self, region):
        """What stands at a region by fixed bytes or by its cell."""
        if region is None:
            return None
        if region.term.is_constant:
            fixed = self.context.image.fixed(region.term.constant, region.size)
            if fixed is not None:
                return constant(fixed)
        node = forest.find(self.pred.forest, region)
        return node.value if node else None

    def names_load(self):
        if self.instr.op in READERS:
            return True
        taker = self.instr.src if self.instr.op == "xchg" else destination(self.instr)
        return self.instr.op in TAKERS and isinstance(taker, Reg)

    def operand(self, operand, width):
        if isinstance(operand, Imm):
            return constant(operand.value)
        if isinstance(operand, Place):
            return self.loaded(operand, width)
        return None if operand is None else low_part(self.old_regs, operand, width)

    # -- results

    def operands(self):
        """The two operands as far as the instruction reads them."""
        instr, width = self.instr, self.instr.width
        if instr.op == "mov":
            return None, self.operand(instr.src, width)
        if instr.op in ("movzx", "movsx"):
            return None, self.operand(instr.src, instr.from_width)
        if instr.op == "pop":
            return None, self.loaded(Place(RSP, None, 1, 0), 64)
        if instr.op == "leave":
            return None, self.loaded(Place(RBP, None, 1, 0), 64)
        if instr.op in ("lea", "nop", "setcc"):
            return None, None
        return self.operand(instr.dst, width), self.operand(instr.src, width)

    def result_of(self, left, right):
        """The result before it is cut, None where it is unknown."""
        op = self.instr.op
        if op in ("mov", "movzx", "pop"):
            return right
        if op == "movsx":
            is_named = isinstance(self.instr.src, Place) and not self.got_value
            return None if is_named else sx(self.instr.from_width, right)
        if op == "lea":
            return effective(self.instr.src, self.old_regs)
        if op == "widen":
            bits = {64: 32, 32: 16}.get(self.instr.width)
            return None if bits is None else sx(bits, self.old_regs[RAX])
        return self.computed(op, left, right)

    def computed(self, op, left, right):
        if op in ("add", "sub"):
            return (add if op == "add" else sub)(left, right)
        if op in ("inc", "dec"):
            return plus(left, 1 if op == "inc" else -1)
        if op in ("neg", "not"):
            return linear((-1, left), (-1, constant(0 if op == "neg" else 1)))
        if op in ("and", "or", "xor", "test"):
            return pair("and" if op == "test" else op, left, right)
        if op == "imul2":
            return pair("mul", left, right)
        if op == "imul3":
            return scale(self.instr.factor, right)
        return self.shifted(op, left) if op in ("shl", "shr", "sar") else None

    def shifted(self, op, left):
        width = self.instr.width
        if not isinstance(self.instr.src, Imm):
            return None
        count = self.instr.src.value % (64 if width == 64 else 32)
        if count >= width:
            return None
        if op == "shl":
            return scale(1 << count, left)
        return pair(op, left if op == "shr" else sx(width, left), constant(count))

    # -- what is written

    def run(self):
        left, right = self.operands()
        if self.instr.op == "jmp":
            self.result = left
        else:
            self.result = zx(self.instr.width, self.result_of(left, right))
        self.apply_table()
        self.write_flags(left, right)
        self.write(left, right)
        return self

    def write(self, left, right):
        op = self.instr.op
        if op == "push":
            self.pred.regs[RSP] = plus(self.old_regs[RSP], -8)
            self.store(left)
        elif op == "xchg":
            self.write_exchange(left, right)
        elif op in ("pop", "leave"):
            base = self.old_regs[RSP if op == "pop" else RBP]
            self.pred.regs[RSP] = plus(base, 8)
            self.write_register(self.instr.dst if op == "pop" else Reg(RBP), right)
        elif self.stores():
            self.store(self.result)
        else:
            self.write_result()

    def write_result(self):
        target = destination(self.instr)
        if target is None:
            return
        self.write_register(target, self.name if self.table_hit else self.result)
        if self.instr.op in OF_RAX:
            self.pred.regs[RDX] = None

    def write_register(self, target, value):
        is_whole = isinstance(target, Reg) and self.instr.width >= 32
        self.pred.regs[target.number] = value if is_whole and value is not None else self.name

    def write_exchange(self, left, right):
        instr = self.instr
        if isinstance(instr.dst, Place):
            self.write_register(instr.src, left)
            self.store(right)
            return
        is_whole = instr.width >= 32
        self.pred.regs[instr.dst.number] = right if is_whole else None
        self.pred.regs[instr.src.number] = left if is_whole else None

    def store(self, value):
        region = self.store_region()
        self.pred.forest = forest.store(self.pred.forest, region, value, self.context) if region else []

    def write_flags(self, left, right):
        op, width = self.instr.op, self.instr.width
        if op not in FLAG_CHANGERS:
            return
        sides = None
        if op in ("cmp", "sub"):
            sides = left, right
        elif op == "neg":
            sides = constant(0), left
        elif op in ("test", "and", "or", "xor"):
            sides = self.logic_fact(width), constant(0)
        self.pred.flags = Flags(width, *sides) if sides and None not in sides else None

    def logic_fact(self, width):
        if self.result is not None:
            return self.result
        takes_name = self.instr.op != "test" and isinstance(self.instr.dst, Reg) and width >= 32
        return zx(width, self.name) if takes_name else None

    # -- tables

    def has_table(self):
        instr = self.instr
        if instr.op == "jmp":
            return isinstance(instr.dst, Place)
        widths = {"mov": (32, 64), "movzx": (32, 64), "movsx": (64,)}.get(instr.op, ())
        return instr.width in widths and isinstance(instr.dst, Reg) and isinstance(instr.src, Place)

    def apply_table(self):
        if not self.has_table() or self.load_address is None or self.got_value:
            return
        found = first_table(self.load_address, self.pred.bounds)
        if not found:
            return
        base, factor, bound = found
        size = (self.instr.from_width if self.instr.op in ("movzx", "movsx") else self.instr.width) // 8
        values = table_values(self.context.image, base, factor, bound, size, self.instr.op == "movsx")
        if values is not None:
            self.table_hit = True
            self.result = self.name
            self.pred.bounds = with_bound(self.pred.bounds, OneOf(self.name, tuple(values)))


def first_table(address, bounds):
    """The base, the scale and the bound by which an address is one of a table."""
    for bound in bounds:
        if isinstance(bound, Range):
            for factor in (1, 2, 4, 8):
                base = difference(address, total([(factor, bound.term)]))
                if base is not None:
                    return base, factor, bound
    return None


def table_values(image, base, factor, bound, size, is_signed):
    """The entries of a table, ascending, or None."""
    if bound.high - bound.low >= NUMBERS or base + factor * bound.high + size > MODULUS:
        return None
    found = [image.fixed(base + factor * at, size) for at in range(bound.low, bound.high + 1)]
    if None in found:
        return None
    top = 1 << (8 * size - 1)
    extend = (lambda it: (it - 2 * top) % MODULUS if it & top else it) if is_signed else (lambda it: it)
    return sorted({extend(it) for it in found})


def targets(image, jump, bound):
    """The addresses that a jump may have, ascending, or None."""
    base = difference(jump, bound.term)
    if base is None:
        return None
    found = sorted({(base + value) % MODULUS for value in bound.values})
    return found if all(image.is_code(it) for it in found) else None


# ---- bounds

def with_bound(bounds, new):
    """With a bound more, where there is room; a list stays, and a range is narrowed unless nothing is left."""
    old = next((it for it in bounds if it.term == new.term), None)
    if old is None:
        return sorted([*bounds, new], key=lambda it: it.term.key()) if len(bounds) < BOUNDS else bounds
    if not isinstance(old, Range):
        return bounds
    narrowed = Range(old.term, max(old.low, new.low), min(old.high, new.high))
    return [narrowed if it is old else it for it in bounds] if narrowed.is_ordered else bounds


def condition_range(cc, number, most):
    """The values of a compared number below or at the most where a condition holds, None where nothing is said."""
    ranges = {
        2: (0, number - 1),
        3: (number, most),
        6: (0, number),
        7: (number + 1, most),
        4: (number, number),
        5: (1, most) if number == 0 else (0, most - 1) if number == most else None,
    }
    found = ranges.get(cc)
    return found if found and found[0] <= found[1] and found != (0, most) else None


def after_condition(pred, cc):
    """What is known besides where the flags fulfil a condition."""
    flags = pred.flags
    if flags is None or not flags.right.is_constant or flags.left.is_constant:
        return pred
    most = (1 << flags.width) - 1
    found = condition_range(cc, flags.right.constant & most, most)
    key = zx(flags.width, flags.left)
    if found is None or key is None:
        return pred
    return replace(pred, bounds=with_bound(pred.bounds, Range(key, *found)))


# ---- cases

def is_call(instr):
    return instr.op in ("call", "syscall")


def is_jump(instr):
    return instr.op in ("jmp", "jcc")


def is_indirect(instr):
    return instr is not None and instr.op == "jmp" and not isinstance(instr.dst, Imm)


def forgotten(instr, pred):
    """The predicate without the facts that mention the site's own name."""
    return dropped(pred, symbol_at(instr.address))


def forked(view, instr, pred):
    """For each case of a site its predicate and context before anything is read."""
    if view.fork is None or is_jump(instr):
        return [(pred, view.context)]
    one, other = view.fork
    apart = replace(view.context, separate=view.context.separate + ((one, other),))
    return [(replace(pred, forest=forest.alias(pred.forest, one, other)), view.context), (pred, apart), (pred, view.context)]


def cases(view, instr, pred):
    """The cases of an instruction that is neither a call nor a return nor a stop, or None where a jump isn't resolved."""
    begun = forgotten(instr, pred)
    if instr.op == "jcc":
        return [Case(instr.dst.value, after_condition(begun, instr.cc)), Case(instr.next, after_condition(begun, instr.cc ^ 1))]
    if instr.op == "jmp":
        return jump_cases(view, instr, begun)
    return [Case(instr.next, Step(instr, start, context).run().pred) for start, context in forked(view, instr, begun)]


def jump_cases(view, instr, begun):
    if isinstance(instr.dst, Imm):
        return [Case(instr.dst.value, begun)]
    done = Step(instr, begun, view.context).run()
    if done.result is None:
        return None
    found = jump_targets(view.context.image, done.result, done.pred.bounds)
    return None if found is None else [Case(address, done.pred) for address in found]


def jump_targets(image, jump, bounds):
    if jump.is_constant and image.is_code(jump.constant):
        return [jump.constant]
    answers = (targets(image, jump, bound) for bound in bounds if isinstance(bound, OneOf))
    return next((found for found in answers if found is not None), None)


# ---- calls

def begin(view, instr, pred):
    """What holds when the callee begins."""
    begun = forgotten(instr, pred)
    if instr.op == "syscall":
        return begun
    where = plus(begun.regs[RSP], -8)
    if where is None:
        return replace(begun, forest=[])
    return replace(begun, forest=forest.store(begun.forest, Region(where, 8), constant(instr.next), view.context))


def after(view, instr, pred):
    """What holds after the return."""
    begun = begin(view, instr, pred)
    kept = set(range(16)) - {RAX, RCX, R11} if instr.op == "syscall" else {RSP, *SAVED}
    regs = [term if number in kept else None for number, term in enumerate(begun.regs)]
    regs[RAX] = name(instr.address)
    return Pred(regs, None, begun.bounds, forest.clear_values(begun.forest, view.keeps))


def keeps_hold(view, instr, pred):
    begun = begin(view, instr, pred)
    found = [forest.find(begun.forest, region) for region in view.keeps]
    return all(node is not None and node.value is not None for node in found)


def call_target(view, instr, pred):
    """The constant address that is called, or None."""
    if instr is None or instr.op != "call":
        return None
    begun = forgotten(instr, pred)
    if isinstance(instr.dst, Imm):
        return instr.dst.value
    if isinstance(instr.dst, Reg):
        term = begun.regs[instr.dst.number]
    else:
        where = effective(instr.dst, begun.regs)
        term = Step(instr, begun, view.context).standing(None if where is None else Region(where, 8))
    return term.constant if term is not None and term.is_constant else None


def store_region(instr, pred):
    """The region that the step stores to, for a call that of its push; None where there is none."""
    if instr.op not in ("call", "push") and not isinstance(instr.dst, Place):
        return None
    begun = forgotten(instr, pred)
    if instr.op == "call":
        where = plus(begun.regs[RSP], -8)
        return None if where is None else Region(where, 8)
    return Step(instr, begun, None).store_region()


def fork_holds(view, instr, pred):
    begun = forgotten(instr, pred)
    return not is_jump(instr) and forest.can_alias(begun.forest, *view.fork)


def all_cases(view, instr, pred):
    """The cases of any instruction that goes on."""
    if is_call(instr):
        return [Case(instr.next, after(view, instr, pred))]
    return cases(view, instr, pred)
