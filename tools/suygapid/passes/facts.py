"""What the word and the operands of an instruction tell of it: found once for each, since compiled code repeats them."""
from functools import lru_cache
from typing import NamedTuple, Optional

from suygapid.passes.operands import ABI_NAMES, MEMORY, REGISTERS


def words(shape, text):
    return dict.fromkeys(text.split(), shape)


# The operands of each instruction: Register, Immediate of 12 bits, Shift amount, Memory, Jump's target, Upper part,
# Number of 32 bits, Address of a symbol.
SHAPES = {
    **words("RRR", "add sub sll slt sltu xor srl sra or and mul mulh mulhsu mulhu div divu rem remu"),
    **words("RRI", "addi slti sltiu xori ori andi"),
    **words("RRS", "slli srli srai"),
    **words("RM", "lb lh lw lbu lhu sb sh sw jalr"),
    **words("RRJ", "beq bne blt bge bltu bgeu"),
    **words("RJ", "beqz bnez jal"),
    **words("J", "j call"),
    **words("R", "jr"),
    **words("RR", "mv"),
    **words("", "nop ret ebreak"),
    "lui": "RU", "li": "RN", "la": "RA",
}
LOADS = ("lb", "lh", "lw", "lbu", "lhu")
STORES = ("sb", "sh", "sw")
ACCESSES = frozenset(LOADS + STORES)
# Those that write their first operand.
WRITING = frozenset(word for word, shape in SHAPES.items()
                    if shape[:1] == "R" and "J" not in shape and word not in STORES + ("jr",)) | {"jal"}
INVERSE = {"beq": "bne", "bne": "beq", "blt": "bge", "bge": "blt", "bltu": "bgeu", "bgeu": "bltu",
           "beqz": "bnez", "bnez": "beqz"}

# What is the same after a return as before the call.
SAVED = {"sp", "gp", "tp", "s0", "s1", "s2", "s3", "s4", "s5", "s6", "s7"}
ARGUMENTS = {"a0", "a1", "a2", "a3", "a4", "a5", "a6", "a7", "t2"}  # t2 is the static chain
RESULTS = {"a0", "a1"}
EVERYTHING = frozenset(ABI_NAMES) - {"zero"}
AFTER_RETURN = frozenset({"ra"} | RESULTS | SAVED)
FOR_CALL = frozenset(ARGUMENTS | SAVED)
WITHOUT_EFFECT = ("la", "li", "lui", "mv", "addi", "add", "sub", "slli")  # but for the register that they write

ADDRESSES = ("gp", "tp", "t6")  # the data registers of code in words that compilers leave alone: the last one where masks are single
DATA = ("sp", *ADDRESSES)
MASKED = "t4"  # the one that has the masked base of an access on another register


class Facts(NamedTuple):
    """What an instruction does with registers, and with control. A value is what it reads other than as the base of an
    address: what a store stores is one. Bit n of a number stands for register n; `needs` has those that hold their values
    where it is reached, whatever comes after it. It has an effect where it may do more than write a register other than
    `sp`. In code in words `masked_base` is the base of an access that gets masks. A step is the number k of `addi d, d, k`."""
    written: Optional[str] = None
    values: frozenset = frozenset()
    reads: frozenset = frozenset()
    writes: frozenset = frozenset()
    read_bits: int = 0
    written_bits: int = 0
    needs: int = 0
    has_effect: bool = True
    is_access: bool = False
    offset: int = 0  # of an access or a `jalr`, as its base
    base: Optional[str] = None
    masked_base: Optional[str] = None
    step: Optional[int] = None
    is_branch: bool = False
    is_call: bool = False
    is_jump: bool = False  # to a name, and no call
    is_goto: bool = False  # a branch or such a jump
    goes_on: bool = True  # control may go on to what stands after it
    is_spoken: bool = False  # it calls its last operand, or takes the address of that
    is_barrier: bool = True  # nothing changes places with it


OF_MARK = Facts()


@lru_cache(maxsize=None)
def bits(names):
    """Registers as a number: bit n stands for register n."""
    return sum(1 << REGISTERS[name] for name in names)


@lru_cache(maxsize=None)
def registers(names):
    """What these texts name beside `zero`, None being no register: as a set, and as a number."""
    found = frozenset(names) - {None, "zero"}
    return found, bits(found)


@lru_cache(maxsize=None)
def memory_parts(text):
    """The offset and the base register of a memory operand such as `4(a0)`."""
    match = MEMORY.fullmatch(text)
    return int(match.group(1)), match.group(2)


def written_by(word, operands):
    """The register that an instruction writes, or None."""
    if word in WRITING:
        return operands[0]
    return "ra" if word == "call" else None


def needed_by(word, is_call, reads):
    if word == "ret":
        return AFTER_RETURN
    if is_call:
        return reads | FOR_CALL
    return EVERYTHING if word in ("jr", "jalr", "ebreak") else reads


@lru_cache(maxsize=None)
def facts_of(word, operands):
    shape, written = SHAPES.get(word, ""), written_by(word, operands)
    kinds = list(zip(shape, operands))[written is not None:]
    offset, base = memory_parts(operands[1]) if "M" in shape else (0, None)
    values = ("ra",) if word == "ret" else tuple([text for kind, text in kinds if kind == "R"])
    (reads, read_bits), (writes, written_bits) = registers((*values, base)), registers((written,))
    is_call = word == "call" or word in ("jal", "jalr") and written != "zero"
    is_branch, is_jump = word in INVERSE, word == "j" or word == "jal" and written == "zero"
    goes_on = not (is_jump or word in ("ret", "jr", "ebreak") or word == "jalr" and written == "zero")
    is_masked = word in ACCESSES and base not in ("zero", MASKED, *DATA)
    return Facts(
        written, registers(values)[0], reads, writes, read_bits, written_bits, bits(needed_by(word, is_call, reads)),
        word not in WITHOUT_EFFECT or writes in (set(), {"sp"}), word in ACCESSES, offset, base, base if is_masked else None,
        int(operands[2]) if word == "addi" and operands[0] == operands[1] else None,
        is_branch, is_call, is_jump, is_branch or is_jump, goes_on, word == "la" or is_call and word != "jalr",
        not goes_on or is_branch or is_call or word == "fence")
