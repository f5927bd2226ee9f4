"""GNU assembly of code in bundles of 16 bytes, the first two formats: what each instruction becomes. docs/SOURCE.md has the
table. `as` keeps the bundles: `.p2align 4,,N-1` before a group of N bytes pads where the group would cross a bundle's end,
and `.fill` before a call makes it end its bundle. How many nops that takes is the affair of the pass `packing`."""
from suygapid.passes.instructions import NEAR, RELATIVE, Op
from suygapid.passes.shown import MOVES
from suygapid.passes.sizes import number_parts
from suygapid.passes.spelling import plain, short
from suygapid.passes.writer import NORVC, RVC, Writer

MASKS_OF_ACCESS = ["and x31, {0}, x27", "or x31, x31, x26"]
MASKS_OF_STACK = ["and sp, sp, x27", "or sp, sp, x26"]
MASKS_OF_JUMP = ["and x31, {0}, x25", "or x31, x31, x24"]


class Frame:
    """Whether debuggers find a function's frame by the stack pointer, as the directives tell that were written."""

    def __init__(self):
        self.is_on_stack, self.kept = False, []

    def take(self, text):
        word, *operands = text.replace(",", " ").split()
        if word in (".cfi_def_cfa", ".cfi_def_cfa_register"):
            self.is_on_stack = operands[0] in ("2", "sp", "x2")
        elif word == ".cfi_remember_state":
            self.kept.append(self.is_on_stack)
        elif word == ".cfi_restore_state":
            self.is_on_stack = self.kept.pop()
        elif word in (".cfi_startproc", ".cfi_endproc"):
            self.is_on_stack = word == ".cfi_startproc"


class InBundles(Writer):
    """In the second format `sp` is a stack pointer, on which accesses need no masks."""
    alignment = 4
    count = 0  # the section's number

    def __init__(self, *all_of_it):
        super().__init__(*all_of_it)
        self.has_stack = self.format == 2
        self.frame, self.keeper = Frame(), None

    def begin_section(self, number):
        self.count = number
        self.out.append(f".Lsfi_begin{number}:")

    def label(self, name):
        self.out.append("\t.p2align 4")
        super().label(name)

    def soft(self, text):
        super().soft(text)
        self.frame.take(text)

    def beside(self, text, begun):
        super().beside(text, begun)
        self.frame.take(text)

    def tell_frame(self, target, source):
        """Has debuggers find the frame by the register that keeps the stack pointer, while `pointing` has another one."""
        if source == "sp":
            self.keeper = target
        if source == "sp" or (target, source) == ("sp", self.keeper):
            self.out += [f"\t.cfi_def_cfa_register {target}"] * self.frame.is_on_stack

    def group(self, *texts, ends=False):
        """Instructions of 32 bits in one bundle, at its end where they are a call."""
        size = 4 * len(texts)
        if ends:
            self.out.append(f"\t.fill ((-(. - .Lsfi_begin{self.count}) - {size}) & 15) / 2, 2, 1")
        else:
            self.out.append(f"\t.p2align 4,,{size - 1}")
        self.out += ["\t" + text for text in texts]

    def itself(self, op):
        in_half = short(op)
        if in_half is None:
            self.group(plain(op))
        else:
            self.out += [RVC, "\t" + in_half, NORVC]

    def piece(self, op, following):
        word, operands = op.word, op.operands
        if word in ("ret", "jr", "jalr"):
            self.jump(op)
        elif word == "call":
            self.call(operands[0])
        elif word == "jal":
            self.group(plain(op), ends=op.is_call)
        elif word == "la":
            self.address(op)
        elif word == "li":
            for part in number_parts(op):
                self.one(part)
        else:
            self.one(op)
        if op.place is None and word in MOVES:
            self.tell_frame(operands[0], operands[-1])

    def address(self, op):
        """Gets an address into a register. Masks make that of `sp` relative to the data base."""
        register, text = op.operands
        masks = self.masks_after(register)
        if op.address == NEAR:
            self.group(f"addi {register}, x26, %lo({text})", *masks)
        elif op.address == RELATIVE and not masks:
            self.relative(register, text, op.wide)
        else:
            self.group(f"lui {register}, %hi({text})", *masks)
            self.group(f"addi {register}, {register}, %lo({text})", *masks)

    def relative(self, register, text, is_wide):
        """An address in a region, and the region's base: elf/moving.py makes both of the address as it is linked."""
        upper = f"lui {register}, %hi({text})"
        if is_wide:
            self.group(upper, f"add {register}, {register}, x26")
        else:
            self.out += ["\t.p2align 4,,5", "\t" + upper, RVC, f"\tc.add {register}, x26", NORVC]
        self.group(f"addi {register}, {register}, %lo({text})")

    def one(self, op):
        name = op.written
        offset, base = (op.offset, op.base) if op.is_access else (0, None)
        if op.is_access and not (self.has_stack and base == "sp"):
            self.access(op)
        elif self.small.holds(offset):
            self.group(f"{op.word} {op.operands[0]}, {self.small.text(offset)}({base})")
        elif self.masks_after(name):
            self.group(plain(op), *self.masks_after(name))
        else:
            self.itself(op)

    def masks_after(self, name):
        return MASKS_OF_STACK if self.has_stack and name == "sp" else []

    def access(self, op):
        offset, base = op.offset, op.base
        masks = [text.format(base) for text in MASKS_OF_ACCESS]
        self.group(*masks, f"{op.word} {op.operands[0]}, {self.small.text(offset)}(x31)")

    def jump(self, op):
        offset, base = (op.offset, op.base) if op.word == "jalr" else (0, "ra" if op.word == "ret" else op.operands[0])
        link = op.operands[0] if op.word == "jalr" else "zero"
        sums = [f"addi x31, {base}, {offset}"] if offset else []
        masks = [text.format("x31" if offset else base) for text in MASKS_OF_JUMP]
        self.group(*sums, *masks, f"jalr {link}, 0(x31)", ends=op.is_call)

    def call(self, name):
        if not self.is_weak(name):
            self.group(f"jal ra, {name}", ends=True)
            return
        self.address(Op("la", ("ra", name), None, address=RELATIVE if self.is_movable else ""))
        self.group(*(text.format("ra") for text in MASKS_OF_JUMP), "jalr ra, 0(x31)", ends=True)
