"""How far a function moves the stack pointer down in one go: its frame, but for what it takes later and by a count that
only the run knows."""
from suygapid.passes.sizes import signed


class Frame:
    """Follows the stack pointer over a run of instructions, with the numbers that registers hold."""

    def __init__(self):
        self.numbers = {"zero": 0}
        self.depth = self.deepest = 0

    def take(self, op):
        target = op.written
        if target == "sp":
            moved = self.moved(op)
            self.depth = self.depth - moved if moved is not None else 0
            self.deepest = max(self.deepest, self.depth)
        elif target not in (None, "zero"):
            self.numbers[target] = self.number(op)

    def number(self, op):
        """The number that an instruction makes, or None where it isn't known."""
        if op.word == "li":
            return signed(int(op.operands[1]), 32)
        if op.word == "lui":
            return signed(int(op.operands[1]) << 12, 32)
        value = self.numbers.get(op.operands[1]) if op.word in ("addi", "mv") else None
        return value if value is None or op.word == "mv" else value + int(op.operands[2])

    def moved(self, op):
        """How far an instruction moves the stack pointer up, or None where that isn't known."""
        if op.word not in ("addi", "add", "sub") or "sp" not in op.operands[1:]:
            return None
        others = [name for name in op.operands[1:] if name != "sp"]
        if op.word == "addi":
            return int(others[0])
        count = self.numbers.get(others[0]) if len(others) == 1 else None
        return -count if op.word == "sub" and count is not None and op.operands[1] == "sp" else count


def deepest(ops):
    frame = Frame()
    for op in ops:
        frame.take(op)
    return frame.deepest
