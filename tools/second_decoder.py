"""The instructions that bytes spell, by the RISC-V manual's chapters RV32I, M and C alone: the decoder of tools/second_checker.py.

It wants Python alone, imports nothing of this repository, and nothing is proved of it.
"""
import collections

Instruction = collections.namedtuple("Instruction", "size name rd rs1 rs2 number", defaults=(0, 0, 0, 0))

LOADS = {0: "lb", 1: "lh", 2: "lw", 4: "lbu", 5: "lhu"}
STORES = {0: "sb", 1: "sh", 2: "sw"}
BRANCHES = {0: "beq", 1: "bne", 4: "blt", 5: "bge", 6: "bltu", 7: "bgeu"}
IMMEDIATES = {0: "addi", 2: "slti", 3: "sltiu", 4: "xori", 6: "ori", 7: "andi"}
SHIFTS = {(1, 0): "slli", (5, 0): "srli", (5, 32): "srai"}
REGISTERS = {(number, 0): name for number, name in enumerate("add sll slt sltu xor srl or and".split())}
REGISTERS |= {(number, 1): name for number, name in enumerate("mul mulh mulhsu mulhu div divu rem remu".split())}
REGISTERS |= {(0, 32): "sub", (5, 32): "sra"}
LAST_NAMES = {"ebreak", "jal", "jalr"}


def bits(number, high, low):
    return number >> low & (1 << high - low + 1) - 1


def signed(number, width):
    return number - (1 << width) if number >> width - 1 else number


def placed(half, *places):
    """The number whose bits stand scattered in a halfword: each place is (high, low, lowest bit in the number)."""
    return sum(bits(half, high, low) << to for high, low, to in places)


def wide(word):
    """The instruction of 32 bits that a word spells; None where it spells none."""
    rd, three, rs1, rs2, seven = bits(word, 11, 7), bits(word, 14, 12), bits(word, 19, 15), bits(word, 24, 20), word >> 25
    number = signed(word >> 20, 12)
    match word & 127:
        case 0x37 | 0x17:
            return Instruction(4, "lui" if word & 32 else "auipc", rd, number=word >> 12)
        case 0x6F:
            far = placed(word, (31, 31, 20), (19, 12, 12), (20, 20, 11), (30, 21, 1))
            return Instruction(4, "jal", rd, number=signed(far, 21))
        case 0x67 if three == 0:
            return Instruction(4, "jalr", rd, rs1, number=number)
        case 0x63 if three in BRANCHES:
            near = placed(word, (31, 31, 12), (7, 7, 11), (30, 25, 5), (11, 8, 1))
            return Instruction(4, BRANCHES[three], 0, rs1, rs2, signed(near, 13))
        case 0x03 if three in LOADS:
            return Instruction(4, LOADS[three], rd, rs1, number=number)
        case 0x23 if three in STORES:
            return Instruction(4, STORES[three], 0, rs1, rs2, signed(seven << 5 | rd, 12))
        case 0x13 if three in IMMEDIATES:
            return Instruction(4, IMMEDIATES[three], rd, rs1, number=number)
        case 0x13 if (three, seven) in SHIFTS:
            return Instruction(4, SHIFTS[three, seven], rd, rs1, number=rs2)
        case 0x33 if (three, seven) in REGISTERS:
            return Instruction(4, REGISTERS[three, seven], rd, rs1, rs2)
        case 0x0F if three == 0:
            return Instruction(4, "fence", rd, rs1, number=word >> 20)
    return {0x73: Instruction(4, "ecall"), 0x100073: Instruction(4, "ebreak")}.get(word)


def short(half):
    """The instruction that a halfword whose low two bits aren't 11 stands for; None where it stands for none."""
    return (quadrant0, quadrant1, quadrant2)[half & 3](half, half >> 13)


def made(name, rd=0, rs1=0, rs2=0, number=0):
    return Instruction(2, name, rd, rs1, rs2, number)


def quadrant0(half, three):
    low, base = 8 + bits(half, 4, 2), 8 + bits(half, 9, 7)
    offset = placed(half, (5, 5, 6), (12, 10, 3), (6, 6, 2))
    if three == 0:
        number = placed(half, (10, 7, 6), (12, 11, 4), (5, 5, 3), (6, 6, 2))
        return made("addi", low, 2, number=number) if number else None
    if three == 2:
        return made("lw", low, base, number=offset)
    return made("sw", 0, base, low, offset) if three == 6 else None


def quadrant1(half, three):
    rd, low = bits(half, 11, 7), 8 + bits(half, 9, 7)
    number = signed(placed(half, (12, 12, 5), (6, 2, 0)), 6)
    if three in (1, 5):
        far = placed(half, (12, 12, 11), (8, 8, 10), (10, 9, 8), (6, 6, 7), (7, 7, 6), (2, 2, 5), (11, 11, 4), (5, 3, 1))
        return made("jal", 1 if three == 1 else 0, number=signed(far, 12))
    if three in (6, 7):
        near = placed(half, (12, 12, 8), (6, 5, 6), (2, 2, 5), (11, 10, 3), (4, 3, 1))
        return made("beq" if three == 6 else "bne", 0, low, 0, signed(near, 9))
    if three == 0:
        return made("addi", rd, rd, number=number)
    if three == 2:
        return made("addi", rd, 0, number=number)
    if three == 3 and rd == 2:
        number = signed(placed(half, (12, 12, 9), (4, 3, 7), (5, 5, 6), (2, 2, 5), (6, 6, 4)), 10)
        return made("addi", 2, 2, number=number) if number else None
    if three == 3:
        return made("lui", rd, number=number & 0xFFFFF) if number else None
    return computation(half, low, number)


def computation(half, low, number):
    """The row of quadrant 1 on a register from x8 to x15 and a number or another of these."""
    kind = bits(half, 11, 10)
    if kind == 2:
        return made("andi", low, low, number=number)
    if bits(half, 12, 12):
        return None
    if kind < 2:
        return made(("srli", "srai")[kind], low, low, number=number)
    return made(("sub", "xor", "or", "and")[bits(half, 6, 5)], low, low, 8 + bits(half, 4, 2))


def quadrant2(half, three):
    rd, rs2, high = bits(half, 11, 7), bits(half, 6, 2), bits(half, 12, 12)
    if three == 0:
        return None if high else made("slli", rd, rd, number=rs2)
    if three == 2:
        return made("lw", rd, 2, number=placed(half, (3, 2, 6), (12, 12, 5), (6, 4, 2))) if rd else None
    if three == 6:
        return made("sw", 0, 2, rs2, placed(half, (8, 7, 6), (12, 9, 2)))
    if three != 4:
        return None
    if rs2:
        return made("add", rd, rd if high else 0, rs2)
    if rd:
        return made("jalr", high, rd)
    return made("ebreak") if high else None


def front(data, place, limit):
    """The instruction at a place, of bytes that end at limit, or the rule that breaks where there is none."""
    half = int.from_bytes(data[place : place + 2], "little")
    if half & 3 != 3:
        return short(half) or "V1"
    if half & 31 == 31:
        return "V1"
    if place + 4 > limit:
        return "V2"
    return wide(int.from_bytes(data[place : place + 4], "little")) or "V1"


def written(it):
    """The register that an instruction writes; 0 for none. Of a fence the manual names rd, but none is written."""
    return 0 if it.name == "fence" else it.rd


def is_load(it):
    return it.name in LOADS.values()


def is_access(it):
    return is_load(it) or it.name in STORES.values()


def is_mask(it, name, rd, rs1, rs2):
    """Whether it is `name rd, rs1, rs2`. None stands for any register rs1."""
    return it is not None and (it.name, it.rd, it.rs2) == (name, rd, rs2) and rs1 in (None, it.rs1)


def spelled(it):
    """The text of an instruction, with numeric registers and no aliases."""
    rd, rs1, rs2, number = f"x{it.rd}", f"x{it.rs1}", f"x{it.rs2}", it.number
    if it.name in ("lui", "auipc"):
        words = [rd, f"0x{number:x}"]
    elif it.name == "fence":
        words = [str(number), rd, rs1]
    elif it.name in ("ecall", "ebreak"):
        return it.name
    elif it.name == "jal":
        words = [rd, str(number)]
    elif it.name in BRANCHES.values():
        words = [rs1, rs2, str(number)]
    elif it.name in STORES.values():
        words = [rs2, f"{number}({rs1})"]
    elif it.name == "jalr" or is_load(it):
        words = [rd, f"{number}({rs1})"]
    else:
        words = [rd, rs1, rs2 if it.name in REGISTERS.values() else str(number)]
    return f"{it.name} {', '.join(words)}"
