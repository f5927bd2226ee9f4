"""The labels of a program's code."""
from suygapid.passes.facts import OF_MARK


class Mark:
    """A label in the code. Compilers begin the names of those inside a function with a point. Where it is `taken`, the
    data hold its address. Where it begins a section, what stands before it doesn't go on there. It has no instruction's
    word, and does nothing to registers."""
    is_mark = True
    word = ""
    operands = ()

    def __init__(self, name, inside=False, taken=False, begins_section=False):
        self.name, self.inside, self.taken, self.begins_section = name, inside, taken, begins_section

    def __eq__(self, other):
        return isinstance(other, Mark) and vars(self) == vars(other)

    def __repr__(self):
        return f"Mark{tuple(vars(self).values())}"


for fact, value in OF_MARK._asdict().items():
    setattr(Mark, fact, value)
