"""Turns one instruction of the compiler's assembly into the instructions that the passes work on."""
from suygapid.passes.assembly import Refused, Statement
from suygapid.passes.facts import LOADS, SHAPES, STORES, Facts, facts_of
from suygapid.passes.operands import (
    MEMORY, PART, is_register, is_stack_pointer, is_symbol, lower, number, number_or_none, register, symbol, upper)


RELATIVE = "relative"  # to the base of a region, which the linker's step chooses (elf/moving.py)
NEAR = "near"  # to the data base, by the number in one `addi`


class Op:
    """An instruction of the source language. Its operands are texts. It has what its word and operands tell of it (`Facts`)."""
    __slots__ = ("word", "operands", "place", "wide", "pointed", "address", "there", *Facts._fields)
    is_mark = False

    def __init__(self, word, operands, place, wide=False, pointed=False, address=""):
        self.word, self.operands, self.place = word, operands, place
        self.wide = wide  # it has 32 bits, also where it has a 16-bit form
        self.pointed = pointed  # it is an access on `sp` that points elsewhere than to the stack
        self.address = address  # of `la` in a program that can be moved, the way to the address: RELATIVE or NEAR
        self.there = None  # where it leads to another part (`parts`), the registers that may be read there, as bits
        (self.written, self.values, self.reads, self.writes, self.read_bits, self.written_bits, self.needs, self.has_effect,
         self.is_access, self.offset, self.base, self.masked_base, self.step, self.is_branch, self.is_call, self.is_jump,
         self.is_goto, self.goes_on, self.is_spoken, self.is_barrier) = facts_of(word, operands)

    def key(self):
        return self.word, self.operands, self.place, self.wide, self.pointed, self.address

    def __eq__(self, other):
        return isinstance(other, Op) and self.key() == other.key()

    def __repr__(self):
        return f"Op{self.key()}"


def replace(op, **changes):
    """An instruction with some of its attributes changed."""
    changed = changes.get
    return Op(changed("word", op.word), changed("operands", op.operands), op.place, changed("wide", op.wide),
              changed("pointed", op.pointed), changed("address", op.address))


# The assembler takes these with a number as the last operand, too.
WITH_NUMBER = {"add": "addi", "slt": "slti", "sltu": "sltiu", "xor": "xori", "or": "ori", "and": "andi",
               "sll": "slli", "srl": "srli", "sra": "srai"}

# Pseudo-instructions by the instructions that they stand for, as the RISC-V assembly manual lists them.
PSEUDO = {
    "not": ["xori {0}, {1}, -1"],
    "neg": ["sub {0}, zero, {1}"],
    "seqz": ["sltiu {0}, {1}, 1"],
    "snez": ["sltu {0}, zero, {1}"],
    "sltz": ["slt {0}, {1}, zero"],
    "sgtz": ["slt {0}, zero, {1}"],
    "sgt": ["slt {0}, {2}, {1}"],
    "sgtu": ["sltu {0}, {2}, {1}"],
    "sext.b": ["slli {0}, {1}, 24", "srai {0}, {0}, 24"],
    "sext.h": ["slli {0}, {1}, 16", "srai {0}, {0}, 16"],
    "zext.b": ["andi {0}, {1}, 255"],
    "zext.h": ["slli {0}, {1}, 16", "srli {0}, {0}, 16"],
    "bgt": ["blt {1}, {0}, {2}"],
    "ble": ["bge {1}, {0}, {2}"],
    "bgtu": ["bltu {1}, {0}, {2}"],
    "bleu": ["bgeu {1}, {0}, {2}"],
    "bltz": ["blt {0}, zero, {1}"],
    "bgez": ["bge {0}, zero, {1}"],
    "blez": ["bge zero, {0}, {1}"],
    "bgtz": ["blt zero, {0}, {1}"],
    "tail": ["j {0}"],
    "jump": ["j {0}"],
    "lla": ["la {0}, {1}"],
    "unimp": ["ebreak"],
}
OPERANDS_OF_PSEUDO = {"sgt": 3, "sgtu": 3, "bgt": 3, "ble": 3, "bgtu": 3, "bleu": 3, "tail": 1, "unimp": 0}

WHY_REFUSED = {
    "ecall": "a sandbox calls its host through gates alone",
    "fence.i": "code can't change",
    "auipc": "an address is taken by la, or by %pcrel_hi",
}
REFUSED_BEGINNINGS = {
    "csr": "the sandbox has no control registers", "rd": "the sandbox has no counters",
    "f": "there is no floating point", "amo": "there are no atomic instructions",
    "lr.": "there are no atomic instructions", "sc.": "there are no atomic instructions",
    "c.": "16-bit forms are chosen by the option rvc",
}


def why_refused(word):
    if word in WHY_REFUSED:
        return WHY_REFUSED[word]
    beginnings = [why for beginning, why in REFUSED_BEGINNINGS.items() if word.startswith(beginning)]
    return beginnings[0] if beginnings else "it is no instruction of RV32IM"


class Converter:
    """Converts the instructions of one file. It knows what each label of an `auipc` of a `%pcrel_hi` stands for."""

    def __init__(self, pcrel=None):
        self.pcrel = pcrel or {}
        self.known = {}  # by an operand's kind and text, what is written for it

    def convert(self, statement):
        """The instructions of the source language that do what this one does."""
        if statement.word in ("fence", "fence.tso"):
            return [Op("fence", (), statement.place)]
        if SHAPES.get(statement.word) in ("RRR", "RR") and all(map(is_register, statement.operands)):
            return [self.plain(statement)]
        rewritten = self.rewritten(statement)
        if rewritten is not None:
            return [op for other in rewritten for op in self.convert(other)]
        if statement.word not in SHAPES:
            raise Refused(statement.place, f"{statement.word}: {why_refused(statement.word)}")
        return [self.plain(statement)]

    def rewritten(self, statement):
        """The instructions that this one is short for, or None where it stands for itself."""
        for way in (self.pseudo, self.with_number, self.jump, self.address_part, self.symbolic_access,
                    self.stack_pointer_load):
            texts = way(statement)
            if texts is not None:
                return [self.statement(text, statement.place) for text in texts]
        return None

    @staticmethod
    def statement(text, place):
        word, _, rest = text.partition(" ")
        return Statement(word, tuple(rest.split(", ")) if rest else (), place)

    @staticmethod
    def pseudo(statement):
        if statement.word not in PSEUDO:
            return None
        wanted = OPERANDS_OF_PSEUDO.get(statement.word, 2)
        if len(statement.operands) != wanted:
            raise Refused(statement.place, f"{statement.word} has {wanted} operands")
        return [text.format(*statement.operands) for text in PSEUDO[statement.word]]

    @staticmethod
    def with_number(statement):
        operands = statement.operands
        if statement.word not in WITH_NUMBER or len(operands) != 3 or is_register(operands[2]):
            return None
        return ["{3} {0}, {1}, {2}".format(*operands, WITH_NUMBER[statement.word])]

    @staticmethod
    def jump(statement):
        """The assembler's other spellings of `ret`, `jal` and `jalr`."""
        word, operands = statement.word, statement.operands
        if word == "jal" and len(operands) == 1:
            return [f"call {operands[0]}"]
        if word == "call" and len(operands) == 2:
            return ["jal {0}, {1}".format(*operands)]
        if word == "jr" and operands in (("ra",), ("x1",)):
            return ["ret"]
        if word == "jalr" and len(operands) == 1:
            return [f"jalr ra, 0({operands[0]})"]
        if word == "jalr" and len(operands) == 3:
            return ["jalr {0}, {2}({1})".format(*operands)]
        if word == "jalr" and len(operands) == 2 and is_register(operands[1]):
            return ["jalr {0}, 0({1})".format(*operands)]
        return None

    def address_part(self, statement):
        """Addresses in two parts. The upper part becomes an address near the whole, and the lower part what is left of
        the addend, so that their sum stays the same."""
        last = statement.operands[-1] if statement.operands else ""
        if "%" not in last:
            return None
        memory = MEMORY.fullmatch(last)
        base = memory.group(2) if memory and PART.fullmatch(memory.group(1)) else None
        part = PART.fullmatch(memory.group(1) if base else last)
        if part is None:
            return None
        whole = self.whole(part, statement.place)
        first, *middle = statement.operands[:-1] or [None]
        if first is None:
            raise Refused(statement.place, f"{last} alone in {statement.word}")
        if part.group(1).endswith("lo") and base:
            return [f"{statement.word} {first}, {lower(whole)}({base})"]
        if part.group(1).endswith("lo") and statement.word == "addi" and len(middle) == 1:
            return self.register_plus(first, middle[0], lower(whole))
        if part.group(1).endswith("hi") and statement.word in ("lui", "auipc"):
            return [f"la {first}, {upper(whole)}"]
        raise Refused(statement.place, f"{last} in {statement.word}")

    @staticmethod
    def register_plus(target, base, count):
        """A register plus a number, by no instruction where nothing changes."""
        if count:
            return [f"addi {target}, {base}, {count}"]
        return [] if target == base else [f"mv {target}, {base}"]

    def whole(self, part, place):
        """The symbol that an operand such as `%lo(name+4)` speaks of."""
        if part.group(1) != "pcrel_lo":
            return symbol(part.group(2), place)
        if part.group(2) not in self.pcrel:
            raise Refused(place, f"{part.group(2)} is no label of an auipc")
        return self.pcrel[part.group(2)]

    @staticmethod
    def symbolic_access(statement):
        """A load `lw rd, name` or a store `sw rs, name, rt`."""
        word, operands = statement.word, statement.operands
        if word in LOADS and len(operands) == 2 and is_symbol(operands[1]):
            return ["la {0}, {1}".format(*operands), "{2} {0}, 0({0})".format(*operands, word)]
        if word in STORES and len(operands) == 3:
            return ["la {2}, {1}".format(*operands), "{3} {0}, 0({2})".format(*operands, word)]
        return None

    @staticmethod
    def stack_pointer_load(statement):
        """A load of the stack pointer: the second format has it on the stack pointer itself alone."""
        if statement.word != "lw" or len(statement.operands) != 2 or not is_stack_pointer(statement.operands[0]):
            return None
        memory = MEMORY.fullmatch(statement.operands[1])
        if memory is None or is_stack_pointer(memory.group(2)):
            return None
        return [f"mv sp, {memory.group(2)}", f"lw sp, {memory.group(1)}(sp)"]

    def plain(self, statement):
        shape = SHAPES[statement.word]
        if len(shape) != len(statement.operands):
            raise Refused(statement.place, f"{statement.word} has {len(shape)} operands")
        operands = tuple([self.operand(pair, statement.place) for pair in zip(shape, statement.operands)])
        return Op(statement.word, operands, statement.place)

    def operand(self, pair, place):
        """An operand's own spelling, by its kind and text."""
        found = self.known.get(pair)
        if found is None:
            kind, text = pair
            found = self.known[pair] = str(OPERANDS[kind](text, place))
        return found


def memory_operand(text, place):
    match = MEMORY.fullmatch(text)
    if match is None:
        raise Refused(place, f"{text!r} is no number and base register")
    offset = number(match.group(1) or "0", place, -2048, 2047)
    return f"{offset}({register(match.group(2), place)})"


def target(text, place):
    if not is_symbol(text):
        raise Refused(place, f"{text!r} is no label")
    found = symbol(text, place)
    if found.addend:
        raise Refused(place, f"a jump to {text}, which is no label")
    return found


def address(text, place):
    if number_or_none(text) is not None:
        raise Refused(place, f"la of the number {text}")
    return symbol(text, place)


def ranged(low, high):
    return lambda text, place: str(number(text, place, low, high))


OPERANDS = {
    "R": register,
    "I": ranged(-2048, 2047),
    "S": ranged(0, 31),
    "M": memory_operand,
    "J": target,
    "U": ranged(0, 0xfffff),
    "N": ranged(-2 ** 31, 2 ** 32 - 1),
    "A": address,
}
