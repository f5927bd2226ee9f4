"""Words of RV32IM from their fields, by the formats of the RISC-V manual's volume I (chapter 2)."""


def r_type(seven: int, rs2: int, rs1: int, three: int, rd: int, opcode: int = 0x33) -> int:
    return seven << 25 | rs2 << 20 | rs1 << 15 | three << 12 | rd << 7 | opcode


def i_type(number: int, rs1: int, three: int, rd: int, opcode: int) -> int:
    return (number & 0xFFF) << 20 | rs1 << 15 | three << 12 | rd << 7 | opcode


def s_type(number: int, rs2: int, rs1: int, three: int) -> int:
    """A store."""
    return r_type(number >> 5 & 127, rs2, rs1, three, number & 31, 0x23)


def b_type(offset: int, rs2: int, rs1: int, three: int) -> int:
    """A branch."""
    return r_type((offset >> 12 & 1) << 6 | offset >> 5 & 63, rs2, rs1, three, offset & 30 | offset >> 11 & 1, 0x63)


def u_type(number: int, rd: int, opcode: int) -> int:
    """lui or auipc, of the 20 upper bits."""
    return (number & 0xFFFFF) << 12 | rd << 7 | opcode


def jal(offset: int, rd: int) -> int:
    upper = (offset >> 20 & 1) << 19 | (offset >> 1 & 0x3FF) << 9 | (offset >> 11 & 1) << 8 | offset >> 12 & 0xFF
    return u_type(upper, rd, 0x6F)
