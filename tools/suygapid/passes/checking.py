"""Code in words for a search for mistakes: each address and each target of a jump is compared with what its masks make of it, and the
stack pointer with the heap's end. Where they differ, an `ebreak` ends the run, where the masks would lead it on with data or code
of the program's that nobody meant."""
from suygapid.passes.facts import STORES
from suygapid.passes.in_words import InWords, needs_no_masks
from suygapid.passes.typed import SINGLE

PASSES = ("known",)  # of the others some have an address masked, and so compared, elsewhere than where it is used
END = "__sfi_end"  # of the objects
HEAP_END = "__heap_end"  # holds the end of what the heap ever gave out, or of the objects: the stack has the room above


def stopped_unless(branch):
    """An `ebreak`, over which a branch with these operands leads."""
    return [f"{branch}, .+8", "ebreak"]


def is_frame(op):
    return op.written == "sp" and op.step is not None and op.step < 0


class Checking(InWords):
    is_lower = False  # whether the stack pointer was moved down and not looked at since

    @staticmethod
    def masks_of_jump(base):
        return [*InWords.masks_of_jump(base), *stopped_unless(f"beq x30, {base}")]

    def masks_of_access(self, base):
        return [*super().masks_of_access(base), *stopped_unless(f"beq x29, {base}")]

    def room_for(self, count):
        """What asks for room for so many bytes below the stack pointer."""
        parts = self.parts_of_address("x29", f"{END}+{count}", self.is_movable)
        return [it for part in parts for it in (part, *self.masks("x29", "x29"))] + stopped_unless("bgeu sp, x29")

    def look(self):
        """What compares the stack pointer with the heap's end."""
        return [f"lw x29, %lo({HEAP_END})(x26)", *self.masks("x29", "x29"), *stopped_unless("bgeu sp, x29")]

    def stopped_if_large(self, count):
        """What stops where a register holds more than the region's last offset: x27 is that, or the last address where masks are single."""
        if self.format != SINGLE:
            return stopped_unless(f"bgeu x27, {count}")
        return ["sub x29, x27, x26", *self.masks("x29", "x29"), *stopped_unless(f"bgeu x29, {count}")]

    def access(self, op, before, base):
        """One by a null pointer that the compiler knows is no access on a register."""
        if op.base == "zero" and not self.small.holds(op.offset):
            self.wide("ebreak")
        super().access(op, before, base)

    def piece(self, op, following):
        """Looks at the stack pointer after the frame is taken and registers are saved in it, so that a debugger finds the
        caller's frame. In front of a frame that gets masks, which may lead above the stack, it asks for the frame's room, too."""
        if self.is_lower and not (op.word in STORES and op.base == "sp"):
            self.look_at_stack()
        super().piece(op, following)
        self.is_lower = self.is_lower or is_frame(op)

    def label(self, name):
        self.look_at_stack()
        super().label(name)

    def look_at_stack(self):
        if self.is_lower:
            self.write(None, ["\t" + text for text in self.look()])
        self.is_lower = False

    def one(self, op, following):
        if is_frame(op) and not needs_no_masks(op, following):
            self.wide(*self.room_for(-op.step))
        if op.word == "sub" and op.written == "sp":  # by more than the region has, masks would lead anywhere in it
            self.wide(*self.stopped_if_large(op.operands[2]))
        super().one(op, following)
        if op.word in ("add", "sub") and op.written == "sp":
            self.wide(*self.look())

    def beside(self, text, begun):
        """Puts a soft item of the stack pointer beside the instruction that moves it."""
        is_asked = self.out[begun].startswith(f"\tlui x29, %hi({END}+")
        super().beside(text, begun + len(self.room_for(0)) * is_asked)
