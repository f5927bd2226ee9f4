"""GNU assembly of code in words: what each instruction becomes. docs/SOURCE.md has the table."""
from suygapid.passes.facts import DATA, LOADS
from suygapid.passes.instructions import RELATIVE, Op
from suygapid.passes.sizes import number_parts
from suygapid.passes.spelling import plain, short
from suygapid.passes.typed import SINGLE, WORDS, is_free_step, is_move, is_trapping
from suygapid.passes.writer import NORVC, RVC, Writer

# Set a data register to what another register, or itself, is in the data region.
MASKS = {WORDS: ["and x31, {1}, x27", "or {0}, x31, x26"], SINGLE: ["and {0}, {1}, x27"]}
MASKS_OF_JUMP = ["and x30, {0}, x25", "or x30, x30, x24"]


def needs_no_masks(op, following):
    """Whether an instruction is a step of a data register that the access after it makes right. A load into x0 doesn't."""
    if not is_free_step(op, following):
        return False
    return not (following.word in LOADS and following.operands[0] == "zero")


class InWords(Writer):
    """Two 16-bit forms share a word; one that would have a word alone takes 32 bits."""
    alignment = 2

    def __init__(self, *all_of_it):
        super().__init__(*all_of_it)
        self.half = None  # a 16-bit form that waits for another: where its line is, and both spellings
        self.known, self.made = {}, []  # what becomes of instructions, as `write` takes it; and what becomes of this one

    # Sizes.

    def write(self, in_half, texts):
        """Writes one form of 16 bits that may be, or what has 32 bits."""
        if in_half is None:
            self.end_word()
            self.out += texts
        elif self.half is None:
            self.out += texts
            self.half = len(self.out) - 1, in_half
        else:
            at, first = self.half
            self.out[at] = f"{RVC}\n\t{first}"
            self.out += ["\t" + in_half, NORVC]
            self.half = None

    def end_word(self):
        self.half = None

    def wide(self, *texts):
        self.made.append((None, ["\t" + text for text in texts]))

    def itself(self, op):
        self.made.append((short(op), ["\t" + plain(op)]))

    # Instructions.

    def piece(self, op, following):
        beside = following and op.written in DATA and (following.word, following.operands)
        key = op.word, op.operands, op.wide, op.address, beside
        made = self.known.get(key)
        if made is None:
            self.make(op, following)
            made = self.known[key] = self.made
            self.made = []
        for in_half, texts in made:
            self.write(in_half, texts)

    def make(self, op, following):
        """What becomes of an instruction, before the piece that follows it."""
        word = op.word
        if word in ("ret", "jr", "jalr"):
            self.jump(op)
        elif word == "la":
            self.address(op)
        elif word == "li":
            parts = number_parts(op)
            for part, after in zip(parts, [*parts[1:], following]):
                self.one(part, after)
        elif word == "call":
            self.call(op.operands[0])
        else:
            self.one(op, following)

    def address(self, op):
        """Gets an address into a register: from the data base, where it is that of a small object of this file. Masks of two steps
        make that of a data register relative to the data base; elf/moving.py does it for others."""
        register, text = op.operands
        parts = self.parts_of_address(register, text, register in DATA and op.address == RELATIVE)
        for part in [f"addi {register}, x26, %lo({text})"] if self.small.is_near(text) else parts:
            self.wide(part)
            self.mask(register)
        if op.address == RELATIVE and register not in DATA:
            self.itself(Op("add", (register, register, "x26"), None))

    def parts_of_address(self, register, text, is_relative):
        """What makes an address, but for masks, to each of which a data register's go. A single mask gives no base, so one that is relative
        to the data base has it added."""
        base = [f"add {register}, {register}, x26"] if is_relative and self.format == SINGLE else []
        return [f"lui {register}, %hi({text})", *base, f"addi {register}, {register}, %lo({text})"]

    def masks(self, target, source):
        return [text.format(target, source) for text in MASKS[self.format]]

    def mask(self, register):
        if register in DATA:
            self.wide(*self.masks(register, register))

    def jump(self, op):
        if op.word == "jalr":
            link, base = op.operands[0], op.base
        else:
            link, base = "zero", "ra" if op.word == "ret" else op.operands[0]
        self.wide(*self.masks_of_jump(base), f"jalr {link}, 0(x30)")

    @staticmethod
    def masks_of_jump(base):
        return [text.format(base) for text in MASKS_OF_JUMP]

    def masks_of_access(self, base):
        return self.masks("x29", base)

    def call(self, name):
        if self.is_weak(name):
            self.address(Op("la", ("ra", name), None, address=RELATIVE if self.is_movable else ""))
            self.wide(*self.masks_of_jump("ra"), "jalr ra, 0(x30)")
        else:
            self.wide(f"jal ra, {name}")

    def one(self, op, following):
        """An instruction that is one of the machine's, but for masks."""
        name = op.written
        if needs_no_masks(op, following):
            self.itself(op)
        elif is_move(op):
            self.wide(*self.masks(name, self.source(op)))
        elif op.masked_base:
            self.access(op, self.masks_of_access(op.masked_base), "x29")
        elif is_trapping(op, self.format):
            self.access(op, self.masks_of_access("zero"), "x29")
        elif op.is_access and op.base == "zero":
            self.access(op, [], "x26")
        else:
            self.itself(op)
            self.mask(name)

    @staticmethod
    def source(op):
        """What a data register is set to."""
        if op.word == "li" or op.word == "addi" and op.operands[1] == "zero":
            return "zero"
        return op.operands[2] if op.word == "add" else op.operands[1]

    def access(self, op, before, base):
        offset = self.small.text(op.offset)
        self.wide(*before, f"{op.word} {op.operands[0]}, {offset}({base})")
        self.mask(op.written)
