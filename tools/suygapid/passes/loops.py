"""The loops of a function that are entered at one label alone and call nothing."""
from collections import Counter
from dataclasses import dataclass
from itertools import accumulate

from suygapid.passes.control import DEEPEST, LOOP, Blocks, leads_back


@dataclass
class Loop:
    """A loop: the numbers of its pieces in the function's code, in order, and these pieces; the index of its head among
    them; for each the indexes of those in the loop that may come after it; how often a piece before the loop is taken to
    run, and how often each of its pieces is."""
    numbers: list
    body: list
    head: int
    following: list
    outside: int
    weights: list

    def name(self):
        return self.body[self.head].name

    def changed(self, changes):
        """The loop with other pieces in the place of some, by index."""
        parts = [changes.get(index, [piece]) for index, piece in enumerate(self.body)]
        first = [0, *accumulate(map(len, parts))]
        following = []
        for part, start, others in zip(parts, first, self.following):
            following += [*([place] for place in range(start + 1, start + len(part))), [first[other] for other in others]]
        numbers, weights = ([each for each, part in zip(values, parts) for _ in part] for values in (self.numbers, self.weights))
        body = [piece for part in parts for piece in part]
        return Loop(numbers, body, first[self.head], following, self.outside, weights)

    def exits(self):
        """The ways out: for each the index of the piece that control leaves, and the label to which it goes, or None where
        it goes on to what stands after that piece."""
        labels = {piece.name for piece in self.body if piece.is_mark}
        for index, piece in enumerate(self.body):
            if piece.is_goto and piece.operands[-1] not in labels:
                yield index, piece.operands[-1]
            if piece.goes_on and self.numbers[index + 1:index + 2] != [self.numbers[index] + 1]:
                yield index, None


def leaves_registers_alone(piece):
    return not piece.is_call and piece.word not in ("jr", "ret", "jalr", "fence")


def loops_of(code, outer):
    """The loops, the inner ones first. `outer` has the labels to which other functions lead."""
    if not leads_back(code):
        return
    blocks = Blocks(code)
    found = blocks.loops()
    depths = Counter(block for inside in found.values() for block in inside)
    for head, inside in sorted(found.items(), key=lambda item: (len(item[1]), item[0])):
        loop = loop_of(code, blocks, depths, head, inside)
        is_alone = not inside & blocks.entries and not any(piece.is_mark and piece.name in outer for piece in loop.body)
        if is_alone and loop.body[loop.head].is_mark and all(map(leaves_registers_alone, loop.body)):
            yield loop


def loop_of(code, blocks, depths, head, inside):
    numbers = [number for block in sorted(inside) for number in range(blocks.starts[block], blocks.ends[block])]
    at = {number: index for index, number in enumerate(numbers)}
    following = [[index + 1] for index in range(len(numbers))]
    for block in inside:
        following[at[blocks.ends[block] - 1]] = [at[blocks.starts[other]] for other in blocks.following[block] if other in inside]
    weights = [LOOP ** min(depths[blocks.block_of[number]], DEEPEST) for number in numbers]
    outside = LOOP ** (min(depths[head], DEEPEST) - 1)
    return Loop(numbers, [code[number] for number in numbers], at[blocks.starts[head]], following, outside, weights)
