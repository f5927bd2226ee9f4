"""Goes through both codes at once: from a pair of places, one of each code, over the stretches to the next branch, call or
jump, to the pairs of places that come after it, with what has to be equal there."""
from dataclasses import dataclass, field
from typing import Optional

from suygapid.validate.machine_code import CALLER_SAVED, WRITTEN_BESIDE
from suygapid.validate.pairing import Pairs
from suygapid.validate.stretches import INVERSE, LINK, STACK, STORES, Runner, Stretch, Unknown
from suygapid.validate.values import DATA_BASE, of

ARGUMENTS, RESULTS = range(10, 18), (10, 11)
SAVED = (8, 9, *range(18, 24))
KEPT = (LINK, *SAVED)  # what a function that is called puts back, and doesn't look at
OWN = 31  # what the rewritten code alone uses, in every format


@dataclass(eq=False)
class Node:
    """A place of each code that control comes to in both, the stretches from there, the ways to it, and what has to hold
    there."""
    left: Optional[Stretch] = None
    right: Optional[Stretch] = None
    is_entry: bool = False
    incoming: list = field(default_factory=list)
    required: set = field(default_factory=set)


@dataclass
class Edge:
    """A way to a node: the node before it, and what the registers hold at its end."""
    source: Node
    left: list
    right: list


@dataclass
class Want:
    """What has to be equal in a node's stretches, for the compiler's instruction at a place. Of two addresses both are given
    as the accessed one, too."""
    node: Node
    right: object
    left: object
    place: object
    what: str
    accessed: object = None


def by_number(address, wanted):
    """The address of an access as a number where the compiler's is one, such as 0 before a trap: no object is there, and it's
    counted from the data region's beginning."""
    return address.minus(of(*DATA_BASE)) if wanted.is_number() and address.terms == {DATA_BASE: 1} else address


class Walk:
    """The nodes of two codes, what has to be equal in their stretches, and where one does what the other doesn't."""

    def __init__(self, left, right):
        self.left, self.right = left, right
        self.written = left.written(), right.written()
        self.nodes, self.wants, self.complaints = {}, [], []
        self.waiting = []
        for name, place in left.functions.items():
            self.enter(name, place, left.is_entered_from_elsewhere(name))
        self.go_on()
        for name in sorted(left.taken - left.functions.keys()):
            if (left.labels[name], right.labels.get(name)) not in self.nodes:
                self.enter(name, left.labels[name], True)
        self.go_on()

    def complain(self, place, what):
        self.complaints.append((place, what))

    def enter(self, name, place, is_entry):
        if name not in self.right.labels:
            self.complain(place, f"{name} isn't in the rewritten code")
        elif self.left.is_in(place):
            node = self.node(place, self.right.labels[name])
            node.is_entry = node.is_entry or is_entry

    def node(self, left, right):
        """The node of two places, which is looked at later if it's new."""
        if (left, right) not in self.nodes:
            self.nodes[left, right] = Node()
            self.waiting.append((left, right))
        return self.nodes[left, right]

    def go_on(self):
        while self.waiting:
            left, right = self.waiting.pop()
            try:
                self.look_at(self.nodes[left, right], left, right)
            except Unknown as unknown:
                self.complain(left, f"from here on: {unknown}, at {unknown.place.section}+{unknown.place.offset:#x}")

    def look_at(self, node, left, right):
        """Runs the stretches of a node, and goes on where they lead."""
        node.left = Runner(self.left, left, lambda number, _: of("load", number)).run()
        pairs = Pairs(node.left.accesses, self.right.objects)
        node.right = Runner(self.right, right, pairs.meet).run()
        if node.left.event.kind != "end":
            self.compare_accesses(node, pairs)
            self.compare_events(node, node.left.event, node.right.event)

    def want(self, node, right, left, place, what, accessed=None):
        self.wants.append(Want(node, right, left, place, what, accessed))

    def compare_accesses(self, node, pairs):
        if pairs.waiting:
            access = pairs.accesses[pairs.waiting[0]]
            self.complain(access.place, f"this {access.word} isn't in the rewritten code")
        elif pairs.unknown:
            place = pairs.unknown.place
            self.complain(node.left.event.place, f"the rewritten code has one {pairs.unknown.word} more before this, "
                                                 f"at {place.section}+{place.offset:#x}")
        changed = pairs.changed_places()
        if changed:
            self.complain(changed.place, f"this {changed.word} has another place among the accesses")
        for number, other in zip(pairs.order, pairs.others):
            access = pairs.accesses[number]
            address = by_number(other.address, access.address)
            self.want(node, address, access.address, access.place, "the address", accessed=access.address)
            if access.word in STORES:
                self.want(node, other.stored, access.stored, access.place, "what is stored")

    # What ends a stretch.

    def compare_events(self, node, left, right):
        kinds = left.kind, "return" if left.kind == "return" and right.kind == "indirect" else right.kind
        if kinds[0] != kinds[1] or left.target is not None and left.kind in ("call", "jump") and left.target != right.target:
            told = right.target.name if right.kind in ("call", "jump") and right.target else right.kind
            self.complain(left.place, f"the rewritten code has another {left.kind} here: {told} at "
                                      f"{right.place.section}+{right.place.offset:#x}")
        elif left.kind not in ("break", "end"):
            getattr(self, "after_" + left.kind)(node, left, right)

    def edge(self, node, targets, left=None, right=None):
        registers = left or node.left.registers, right or node.right.registers
        self.node(*targets).incoming.append(Edge(node, *registers))

    def after_loop(self, node, left, right):
        self.edge(node, (left.target, right.target))

    def after_branch(self, node, left, right):
        if right.word not in (left.word, INVERSE[left.word]):
            self.complain(left.place, f"the rewritten code has a {right.word} here")
            return
        for index in (0, 1):
            self.want(node, right.values[index], left.values[index], left.place, "what the branch compares")
        ways = [right.target, right.following]
        if right.word != left.word:
            ways.reverse()
        self.edge(node, (left.target, ways[0]))
        self.edge(node, (left.following, ways[1]))

    def want_registers(self, node, place, numbers, what):
        for number in numbers:
            self.want(node, node.right.registers[number], node.left.registers[number], place, f"{what} (x{number})")

    def after_return(self, node, left, right):
        self.want(node, right.values[0], left.values[0], left.place, "where this returns to")
        self.want_registers(node, left.place, (STACK, *SAVED), "a register at the return")
        self.want_registers(node, left.place, RESULTS, "a result")

    def after_indirect(self, node, left, right):
        """A jump by a table leads to labels of the same section whose addresses are taken; any other is to a function."""
        self.want(node, right.values[0], left.values[0], left.place, "where this jumps to")
        names = [name for name in self.left.taken if self.left.labels[name].section == left.place.section
                 and name in self.right.labels and name not in self.left.functions]
        for name in names:
            self.edge(node, (self.left.labels[name], self.right.labels[name]))
        self.want_registers(node, left.place, (STACK, *SAVED, LINK), "a register at the jump")
        self.want_registers(node, left.place, ARGUMENTS, "an argument")

    def after_jump(self, node, left, _):
        name = left.target.name
        if name in self.left.functions and name in self.right.functions:
            self.edge(node, (self.left.functions[name], self.right.functions[name]))
        else:
            self.want_registers(node, left.place, (STACK, *SAVED, LINK), "a register at the jump")
            self.want_registers(node, left.place, ARGUMENTS, "an argument")

    def after_call(self, node, left, right):
        if (left.word, right.word) != (str(LINK), str(LINK)):
            self.complain(left.place, "a call that doesn't link in ra")
            return
        name = left.target.name if left.target else None
        if left.values and right.values:
            self.want(node, right.values[0], left.values[0], left.place, "what is called")
        is_here = name in self.left.functions and name in self.right.functions
        if is_here:
            entered = [[of("kept", number) if number in KEPT else value for number, value in enumerate(registers)]
                       for registers in (node.left.registers, node.right.registers)]
            self.edge(node, (self.left.functions[name], self.right.functions[name]), *entered)
        else:
            self.want_registers(node, left.place, ARGUMENTS, "an argument")
        self.want_registers(node, left.place, (STACK,), "the stack pointer at the call")
        self.edge(node, (left.following, right.following), *self.after(node, name if is_here else None))

    def after(self, node, name):
        """What the registers hold after a call of a function of this file, or of any."""
        left, right = list(node.left.registers), list(node.right.registers)
        changed = [CALLER_SAVED, CALLER_SAVED | WRITTEN_BESIDE] if name is None else [side[name] for side in self.written]
        for number in CALLER_SAVED | WRITTEN_BESIDE:
            if number in changed[0] and number not in WRITTEN_BESIDE or number == LINK:
                left[number] = right[number] = of("after", number)
            elif number in changed[1]:
                right[number] = of("lost", number)
        right[OWN] = of("lost", OWN)
        return left, right
