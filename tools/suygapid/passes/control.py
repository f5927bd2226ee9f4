"""Where control goes from each piece of the code, and how often each piece is likely to run."""
from copy import copy
from functools import cached_property

LOOP = 8  # how often a loop is taken to go round
DEEPEST = 4  # loops around a piece that count


def labels_of(code):
    """The number of each label's piece."""
    return {piece.name: number for number, piece in enumerate(code) if piece.is_mark}


def successors(code):
    """For each piece the numbers of those that may come after it in its own function. None
    stands for elsewhere: where a jump goes to a gate, for instance."""
    at, last, following = labels_of(code), len(code) - 1, []
    for number, piece in enumerate(code):
        targets = [number + 1] if piece.goes_on and number < last else []
        if piece.is_goto:
            targets.append(at.get(piece.operands[-1]))
        following.append(targets)
    return following


def leads_back(code):
    """Whether a branch or jump leads to a label before it, without which there is no loop."""
    at = labels_of(code)
    return any(piece.is_goto and at.get(piece.operands[-1], number + 1) <= number for number, piece in enumerate(code))


def predecessors(following):
    """For each of some numbers those that it follows."""
    before = [[] for _ in following]
    for number, targets in enumerate(following):
        for target in targets:
            if target is not None:
                before[target].append(number)
    return before


def spread(values, neighbours, combine):
    """Combines the value of each number with those of its neighbours, until nothing changes."""
    values, waiting = list(values), list(range(len(values)))
    while waiting:
        number = waiting.pop()
        for other in neighbours[number]:
            new = combine(values[other], values[number])
            if new != values[other]:
                values[other] = new
                waiting.append(other)
    return values


def reachable(firsts, following):
    """What control may come to from some numbers, in an order in which each stands before those
    that follow it, but for what leads back."""
    found, waiting, order = set(firsts), [(first, iter(following[first])) for first in firsts], []
    while waiting:
        number, targets = waiting[-1]
        target = next((other for other in targets if other is not None and other not in found), None)
        if target is None:
            order.append(number)
            waiting.pop()
        else:
            found.add(target)
            waiting.append((target, iter(following[target])))
    return order[::-1]


def entries(code):
    """The pieces where control comes from anywhere: the first, and the labels that are called or
    whose address is taken, by an instruction or in the data."""
    names = spoken_of(code)
    return {0} | {number for name, number in labels_of(code).items() if name in names or code[number].taken}


def spoken_of(code):
    """The names that code calls, or of which it takes the address."""
    return {piece.operands[-1] for piece in code if piece.is_spoken}


class Blocks:
    """The code in blocks: control enters one at its first piece alone, and leaves it after its
    last."""

    def __init__(self, code):
        self.code, self.starts, is_begun = code, [], False
        self.liveness = None  # where it has been asked for
        for number, piece in enumerate(code):
            if piece.is_mark or not is_begun:
                self.starts.append(number)
            is_begun = piece.goes_on and not piece.is_goto
        self.ends = [*self.starts[1:], len(code)]
        self.bodies = [code[start:end] for start, end in zip(self.starts, self.ends)]
        self.at = {body[0].name: block for block, body in enumerate(self.bodies) if body[0].is_mark}
        self.elsewhere = []  # the blocks after which control may go elsewhere
        self.following = [self.targets(block, body[-1]) for block, body in enumerate(self.bodies)]
        self.before = predecessors(self.following)

    @cached_property
    def block_of(self):
        """By a piece's number, its block."""
        return [block for block, body in enumerate(self.bodies) for _ in body]

    @cached_property
    def entries(self):
        """The blocks to which control comes from anywhere, or from nowhere."""
        names = spoken_of(self.code)
        found = {0} | {block for name, block in self.at.items() if name in names or self.bodies[block][0].taken}
        return found | {block for block, others in enumerate(self.before) if not others}

    @cached_property
    def order(self):
        return reachable(sorted(self.entries), self.following)

    def changed(self, code):
        """The same of code of which each piece is like one of this."""
        found = copy(self)
        found.liveness = None
        found.code, found.bodies = code, [code[start:end] for start, end in zip(self.starts, self.ends)]
        return found

    def targets(self, block, last):
        """The blocks that may come after a block's last piece."""
        after = self.bodies[block + 1][0] if last.goes_on and block + 1 < len(self.bodies) else None
        found = [] if after is None or after.is_mark and after.begins_section else [block + 1]
        if last.is_goto:
            target = self.at.get(last.operands[-1])
            if target is None:
                self.elsewhere.append(block)
            else:
                found.append(target)
        return found

    def dominators(self):
        """For each block the last other one that each way from an entry to it goes through; None
        where there is none. Each comes after its own in the order, so two ways meet where the later
        of both is followed to its own, again and again."""
        rank = {block: number for number, block in enumerate(self.order)}
        found = dict.fromkeys(self.entries)
        changed = True
        while changed:
            changed = False
            for block in self.order:
                if block in self.entries:
                    continue
                ways = [other for other in self.before[block] if other in found]
                common = ways[0]
                for other in ways[1:]:
                    common = meeting(common, other, found, rank)
                if block not in found or found[block] != common:
                    found[block], changed = common, True
        return found, rank

    def loops(self):
        """By the block in which a loop begins, the blocks of the loop. A loop is what leads back
        to a block that each way to it goes through."""
        dominators, rank = self.dominators()
        ends = {}  # by the block in which a loop begins, those that lead back to it
        for block in self.order:
            for head in self.following[block]:
                above = block
                while above is not None and rank[above] > rank[head]:
                    above = dominators[above]
                if above == head:
                    ends.setdefault(head, []).append(block)
        return {head: self.body(head, blocks) for head, blocks in ends.items()}

    def body(self, head, ends):
        """The blocks of a loop, from those that lead back to its head."""
        found = {head, *ends}
        waiting = [block for block in ends if block != head]
        while waiting:
            for other in self.before[waiting.pop()]:
                if other not in found:
                    found.add(other)
                    waiting.append(other)
        return found


newest: list[Blocks] = []  # the blocks that were found last


def blocks_of(code):
    """The blocks of some code, which a pass that changes nothing leaves to the next one."""
    if not newest or newest[0].code is not code:
        newest[:] = [Blocks(code)]
    return newest[0]


def meeting(block, other, dominators, rank):
    """The last block that each way to both of two goes through, or None."""
    while block != other:
        if block is None or other is None:
            return None
        if rank[block] > rank[other]:
            block = dominators[block]
        else:
            other = dominators[other]
    return block


def weights(code):
    """How often each piece is taken to run: a factor for each loop around it."""
    blocks = Blocks(code)
    depth = [0] * len(blocks.starts)
    for inside in blocks.loops().values():
        for block in inside:
            depth[block] += 1
    return [LOOP ** min(depth[block], DEEPEST) for block in blocks.block_of]
