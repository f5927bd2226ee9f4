"""Instructions of RV32IMC from their bits, as the RISC-V manual's volume I lays them out (chapters 2, 12 and 26).

fuzz/test_fuzz.py compares this with the decoder of tools/second_checker.py, which shares nothing with it.
"""
from typing import NamedTuple, Optional

MASK = 0xFFFFFFFF
LOAD_OF = {0: "lb", 1: "lh", 2: "lw", 4: "lbu", 5: "lhu"}  # these by their field `funct3`
STORE_OF = {0: "sb", 1: "sh", 2: "sw"}
BRANCH_OF = {0: "beq", 1: "bne", 4: "blt", 5: "bge", 6: "bltu", 7: "bgeu"}
LOADS, STORES, BRANCHES = (tuple(it.values()) for it in (LOAD_OF, STORE_OF, BRANCH_OF))
COMPUTATIONS = {(0, 0): "add", (0, 1): "sll", (0, 2): "slt", (0, 3): "sltu", (0, 4): "xor", (0, 5): "srl", (0, 6): "or",
                (0, 7): "and", (32, 0): "sub", (32, 5): "sra", (1, 0): "mul", (1, 1): "mulh", (1, 2): "mulhsu", (1, 3): "mulhu",
                (1, 4): "div", (1, 5): "divu", (1, 6): "rem", (1, 7): "remu"}
# The computations with a number, by those on registers that they do.
ON_REGISTERS = {"addi": "add", "slli": "sll", "slti": "slt", "sltiu": "sltu", "xori": "xor", "srli": "srl", "srai": "sra",
                "ori": "or", "andi": "and"}
WITH_NUMBER = {name: number for number, name in ON_REGISTERS.items()}
WIDTHS = {"lb": 1, "lh": 2, "lw": 4, "lbu": 1, "lhu": 2, "sb": 1, "sh": 2, "sw": 4}  # the bytes of an access


class Instruction(NamedTuple):
    """An instruction by the manual's name of its form of 32 bits, with the bytes that it has, the numbers of its registers, and
    its immediate, which is that of all 32 bits in lui and auipc."""
    op: str
    size: int
    rd: int = 0
    rs1: int = 0
    rs2: int = 0
    number: int = 0


def signed(value: int, width: int = 32) -> int:
    return (value & (1 << width) - 1) - ((value >> width - 1 & 1) << width)


def field(value: int, high: int, low: int) -> int:
    return value >> low & (1 << high - low + 1) - 1


def gathered(value: int, *places: tuple[int, int, int]) -> int:
    """A number made of fields: of each the highest and the lowest bit, and where the lowest goes."""
    return sum(field(value, high, low) << to for high, low, to in places)


def decode(content: bytes, place: int = 0) -> Optional[Instruction]:
    """The instruction at a place, or None where the bytes spell none or it isn't whole."""
    code = content[place:place + 4]
    if len(code) < 2 or code[0] & 3 == 3 and len(code) < 4:
        return None
    return decode32(int.from_bytes(code, "little")) if code[0] & 3 == 3 else decode16(int.from_bytes(code[:2], "little"))


def decode32(word: int) -> Optional[Instruction]:
    opcode, rd, three, rs1, rs2, seven = (field(word, *it) for it in ((6, 0), (11, 7), (14, 12), (19, 15), (24, 20), (31, 25)))
    number = signed(word >> 20, 12)
    if opcode in (0x37, 0x17):
        return Instruction("lui" if opcode == 0x37 else "auipc", 4, rd, number=word & 0xFFFFF000)
    if opcode == 0x6F:
        return Instruction("jal", 4, rd, number=signed(gathered(word, (31, 31, 20), (19, 12, 12), (20, 20, 11), (30, 21, 1)), 21))
    if opcode == 0x67 and three == 0:
        return Instruction("jalr", 4, rd, rs1, number=number)
    if opcode == 0x63 and three in BRANCH_OF:
        offset = signed(gathered(word, (31, 31, 12), (7, 7, 11), (30, 25, 5), (11, 8, 1)), 13)
        return Instruction(BRANCH_OF[three], 4, 0, rs1, rs2, offset)
    if opcode == 0x03 and three in LOAD_OF:
        return Instruction(LOAD_OF[three], 4, rd, rs1, number=number)
    if opcode == 0x23 and three in STORE_OF:
        return Instruction(STORE_OF[three], 4, 0, rs1, rs2, signed(seven << 5 | rd, 12))
    if opcode == 0x13 and three not in (1, 5):
        return Instruction(WITH_NUMBER[COMPUTATIONS[0, three]], 4, rd, rs1, number=number)
    if opcode == 0x13 and (seven, three) in ((0, 1), (0, 5), (32, 5)):
        return Instruction(WITH_NUMBER[COMPUTATIONS[seven, three]], 4, rd, rs1, number=rs2)
    if opcode == 0x33 and (seven, three) in COMPUTATIONS:
        return Instruction(COMPUTATIONS[seven, three], 4, rd, rs1, rs2)
    if opcode == 0x0F and three == 0:
        return Instruction("fence", 4)
    return {0x73: Instruction("ecall", 4), 0x100073: Instruction("ebreak", 4)}.get(word)


def decode16(half: int) -> Optional[Instruction]:
    """The instruction of a halfword whose low two bits aren't 11, by its quadrant and its three highest bits."""
    return (_access, _computation, _on_any_register)[half & 3](half, half >> 13)


def _access(half, three):
    """Quadrant 0: accesses on a register, and c.addi4spn."""
    low, high = 8 + field(half, 4, 2), 8 + field(half, 9, 7)
    offset = gathered(half, (5, 5, 6), (12, 10, 3), (6, 6, 2))
    if three == 0:
        number = gathered(half, (10, 7, 6), (12, 11, 4), (5, 5, 3), (6, 6, 2))
        return Instruction("addi", 2, low, 2, number=number) if number else None
    return {2: Instruction("lw", 2, low, high, number=offset), 6: Instruction("sw", 2, 0, high, low, offset)}.get(three)


def _computation(half, three):
    """Quadrant 1: sums with numbers, jumps and branches."""
    rd, high, number = field(half, 11, 7), 8 + field(half, 9, 7), signed(gathered(half, (12, 12, 5), (6, 2, 0)), 6)
    if three in (0, 2):
        return Instruction("addi", 2, rd, 0 if three else rd, number=number)
    if three in (1, 5):
        places = (12, 12, 11), (8, 8, 10), (10, 9, 8), (6, 6, 7), (7, 7, 6), (2, 2, 5), (11, 11, 4), (5, 3, 1)
        return Instruction("jal", 2, int(three == 1), number=signed(gathered(half, *places), 12))
    if three == 3 and number == 0:
        return None
    if three == 3 and rd == 2:
        number = signed(gathered(half, (12, 12, 9), (4, 3, 7), (5, 5, 6), (2, 2, 5), (6, 6, 4)), 10)
        return Instruction("addi", 2, 2, 2, number=number)
    if three == 3:
        return Instruction("lui", 2, rd, number=number << 12 & MASK)
    if three == 4:
        return _on_near_registers(half, high, number)
    offset = signed(gathered(half, (12, 12, 8), (6, 5, 6), (2, 2, 5), (11, 10, 3), (4, 3, 1)), 9)
    return Instruction("beq" if three == 6 else "bne", 2, 0, high, 0, offset)


def _on_near_registers(half, high, number):
    """c.srli, c.srai, c.andi, and the four of two registers."""
    kind = field(half, 11, 10)
    if kind == 2:
        return Instruction("andi", 2, high, high, number=number)
    if half >> 12 & 1:
        return None
    if kind == 3:
        return Instruction(("sub", "xor", "or", "and")[field(half, 6, 5)], 2, high, high, 8 + field(half, 4, 2))
    return Instruction("srai" if kind else "srli", 2, high, high, number=number & 31)


def _on_any_register(half, three):
    """Quadrant 2: shifts, accesses on the stack pointer, and forms of two registers."""
    rd, rs2, bit = field(half, 11, 7), field(half, 6, 2), half >> 12 & 1
    if three == 0 and not bit:
        return Instruction("slli", 2, rd, rd, number=rs2)
    if three == 2 and rd:
        return Instruction("lw", 2, rd, 2, number=gathered(half, (3, 2, 6), (12, 12, 5), (6, 4, 2)))
    if three == 6:
        return Instruction("sw", 2, 0, 2, rs2, gathered(half, (8, 7, 6), (12, 9, 2)))
    if three == 4 and rs2:
        return Instruction("add", 2, rd, rd if bit else 0, rs2)
    if three == 4 and rd:
        return Instruction("jalr", 2, bit, rd)
    return Instruction("ebreak", 2) if three == 4 and bit else None
