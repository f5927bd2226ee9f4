/* Instructions of RV32IM and their 16-bit forms as the rows of sfi_native.h, by the manual (volume I: the instruction listings, and
   "C" for compressed instructions). They are those of accepted images: of other words some come out as what they resemble.
   Nothing of this file is proved. */
#ifndef SFI_NATIVE_DECODE_H
#define SFI_NATIVE_DECODE_H
#include "sfi_native.h"

/* So many bits of a word, from that one on. */
static sfi_u32 sfi_field(sfi_u32 word, int from, int count) {
    return word >> from & ((1u << count) - 1);
}

/* A number of so many bits, with its sign. */
static sfi_i32 sfi_signed(sfi_u32 value, int bits) {
    return (sfi_i32)(value << (32 - bits)) >> (32 - bits);
}

static struct sfi_row sfi_row_of(sfi_u32 kind, sfi_u32 rd, sfi_u32 rs1, sfi_u32 rs2, sfi_i32 number) {
    const struct sfi_row row = { kind, 4, rd, rs1, rs2, number };
    return row;
}

/* One that isn't there. */
static struct sfi_row sfi_no_row(void) {
    const struct sfi_row row = { 0, 0, 0, 0, 0, 0 };
    return row;
}

/* ---- 32 bits: by opcode, funct3 and funct7 */

static struct sfi_row sfi_read_op(sfi_u32 word, sfi_u32 rd, sfi_u32 rs1, sfi_u32 rs2) {
    static const uint8_t first[8] = { SFI_KIND_add, SFI_KIND_sll, SFI_KIND_slt, SFI_KIND_sltu, SFI_KIND_xor, SFI_KIND_srl, SFI_KIND_or, SFI_KIND_and };
    static const uint8_t products[8] = { SFI_KIND_mul, SFI_KIND_mulh, SFI_KIND_mulhsu, SFI_KIND_mulhu, SFI_KIND_div, SFI_KIND_divu, SFI_KIND_rem, SFI_KIND_remu };
    const sfi_u32 funct3 = sfi_field(word, 12, 3);
    switch (word >> 25) {
    case 0: return sfi_row_of(first[funct3], rd, rs1, rs2, 0);
    case 1: return sfi_row_of(products[funct3], rd, rs1, rs2, 0);
    case 32: return sfi_row_of(funct3 == 0 ? SFI_KIND_sub : SFI_KIND_sra, rd, rs1, rs2, 0);
    default: return sfi_no_row();
    }
}

static struct sfi_row sfi_read_immediate(sfi_u32 word, sfi_u32 rd, sfi_u32 rs1) {
    static const uint8_t kinds[8] = { SFI_KIND_addi, SFI_KIND_slli, SFI_KIND_slti, SFI_KIND_sltiu, SFI_KIND_xori, SFI_KIND_srli, SFI_KIND_ori, SFI_KIND_andi };
    const sfi_u32 funct3 = sfi_field(word, 12, 3);
    if (funct3 == 5 && word >> 25 == 32)
        return sfi_row_of(SFI_KIND_srai, rd, rs1, 0, (sfi_i32)sfi_field(word, 20, 5));
    return sfi_row_of(kinds[funct3], rd, rs1, 0, (sfi_i32)word >> 20);
}

static struct sfi_row sfi_read_load(sfi_u32 word, sfi_u32 rd, sfi_u32 rs1) {
    static const uint8_t kinds[8] = { SFI_KIND_lb, SFI_KIND_lh, SFI_KIND_lw, SFI_KIND_lw, SFI_KIND_lbu, SFI_KIND_lhu, SFI_KIND_lw, SFI_KIND_lw };
    return sfi_row_of(kinds[sfi_field(word, 12, 3)], rd, rs1, 0, (sfi_i32)word >> 20);
}

static struct sfi_row sfi_read_store(sfi_u32 word, sfi_u32 rs1, sfi_u32 rs2) {
    static const uint8_t kinds[4] = { SFI_KIND_sb, SFI_KIND_sh, SFI_KIND_sw, SFI_KIND_sw };
    return sfi_row_of(kinds[sfi_field(word, 12, 2)], 0, rs1, rs2, sfi_signed(word >> 25 << 5 | sfi_field(word, 7, 5), 12));
}

static struct sfi_row sfi_read_branch(sfi_u32 word, sfi_u32 pc, sfi_u32 rs1, sfi_u32 rs2) {
    static const uint8_t kinds[8] = { SFI_KIND_beq, SFI_KIND_bne, SFI_KIND_beq, SFI_KIND_bne, SFI_KIND_blt, SFI_KIND_bge, SFI_KIND_bltu, SFI_KIND_bgeu };
    const sfi_u32 offset = word >> 31 << 12 | sfi_field(word, 7, 1) << 11 | sfi_field(word, 25, 6) << 5 | sfi_field(word, 8, 4) << 1;
    return sfi_row_of(kinds[sfi_field(word, 12, 3)], 0, rs1, rs2, (sfi_i32)(pc + (sfi_u32)sfi_signed(offset, 13)));
}

static struct sfi_row sfi_read_jal(sfi_u32 word, sfi_u32 pc, sfi_u32 rd) {
    const sfi_u32 offset = word >> 31 << 20 | sfi_field(word, 12, 8) << 12 | sfi_field(word, 20, 1) << 11 | sfi_field(word, 21, 10) << 1;
    return sfi_row_of(SFI_KIND_jal, rd, 0, 0, (sfi_i32)(pc + (sfi_u32)sfi_signed(offset, 21)));
}

static struct sfi_row sfi_read_word(sfi_u32 word, sfi_u32 pc) {
    const sfi_u32 rd = sfi_field(word, 7, 5), rs1 = sfi_field(word, 15, 5), rs2 = sfi_field(word, 20, 5);
    switch (sfi_field(word, 0, 7)) {
    case 0x33: return sfi_read_op(word, rd, rs1, rs2);
    case 0x13: return sfi_read_immediate(word, rd, rs1);
    case 0x03: return sfi_read_load(word, rd, rs1);
    case 0x23: return sfi_read_store(word, rs1, rs2);
    case 0x63: return sfi_read_branch(word, pc, rs1, rs2);
    case 0x6f: return sfi_read_jal(word, pc, rd);
    case 0x67: return sfi_row_of(SFI_KIND_jalr, rd, rs1, 0, (sfi_i32)word >> 20);
    case 0x37: return sfi_row_of(SFI_KIND_lui, rd, 0, 0, (sfi_i32)(word >> 12));
    case 0x17: return sfi_row_of(SFI_KIND_auipc, rd, 0, 0, (sfi_i32)(word >> 12));
    case 0x0f: return sfi_row_of(SFI_KIND_fence, 0, 0, 0, 0);
    case 0x73: return sfi_row_of(rs2 == 0 ? SFI_KIND_ecall : SFI_KIND_ebreak, 0, 0, 0, 0);
    default: return sfi_no_row();
    }
}

/* ---- 16 bits: by the two lowest and the three highest. Each form is named as the manual does. */

/* The offsets of c.lw and c.sw, and of c.j and c.jal. */
static sfi_i32 sfi_word_offset(sfi_u32 half) {
    return (sfi_i32)(sfi_field(half, 10, 3) << 3 | sfi_field(half, 6, 1) << 2 | sfi_field(half, 5, 1) << 6);
}

static sfi_i32 sfi_jump_offset(sfi_u32 half) {
    return sfi_signed(sfi_field(half, 12, 1) << 11 | sfi_field(half, 11, 1) << 4 | sfi_field(half, 9, 2) << 8 | sfi_field(half, 8, 1) << 10 |
        sfi_field(half, 7, 1) << 6 | sfi_field(half, 6, 1) << 7 | sfi_field(half, 3, 3) << 1 | sfi_field(half, 2, 1) << 5, 12);
}

/* c.srli, c.srai, c.andi, c.sub, c.xor, c.or, c.and */
static struct sfi_row sfi_read_arithmetic(sfi_u32 half, sfi_u32 rd, sfi_u32 rs2, sfi_i32 number) {
    static const uint8_t kinds[4] = { SFI_KIND_sub, SFI_KIND_xor, SFI_KIND_or, SFI_KIND_and };
    switch (sfi_field(half, 10, 2)) {
    case 0: return sfi_row_of(SFI_KIND_srli, rd, rd, 0, number & 31);
    case 1: return sfi_row_of(SFI_KIND_srai, rd, rd, 0, number & 31);
    case 2: return sfi_row_of(SFI_KIND_andi, rd, rd, 0, number);
    default: return sfi_row_of(kinds[sfi_field(half, 5, 2)], rd, rd, rs2, 0);
    }
}

/* c.lui, and c.addi16sp where it is of x2 */
static struct sfi_row sfi_read_upper(sfi_u32 half, sfi_u32 rd, sfi_i32 number) {
    const sfi_u32 offset = sfi_field(half, 12, 1) << 9 | sfi_field(half, 6, 1) << 4 | sfi_field(half, 5, 1) << 6 | sfi_field(half, 3, 2) << 7 |
        sfi_field(half, 2, 1) << 5;
    return rd == 2 ? sfi_row_of(SFI_KIND_addi, 2, 2, 0, sfi_signed(offset, 10)) : sfi_row_of(SFI_KIND_lui, rd, 0, 0, number & 0xfffff);
}

/* c.jr, c.mv, c.ebreak, c.jalr, c.add */
static struct sfi_row sfi_read_moves(sfi_u32 half, sfi_u32 rd, sfi_u32 rs2) {
    const sfi_u32 links = sfi_field(half, 12, 1);
    if (rs2 != 0)
        return sfi_row_of(SFI_KIND_add, rd, links ? rd : 0, rs2, 0);
    return rd == 0 ? sfi_row_of(SFI_KIND_ebreak, 0, 0, 0, 0) : sfi_row_of(SFI_KIND_jalr, links, rd, 0, 0);
}

static struct sfi_row sfi_read_low(sfi_u32 half) {
    const sfi_u32 rd = 8 + sfi_field(half, 2, 3), rs1 = 8 + sfi_field(half, 7, 3);
    const sfi_u32 from_stack = sfi_field(half, 11, 2) << 4 | sfi_field(half, 7, 4) << 6 | sfi_field(half, 6, 1) << 2 | sfi_field(half, 5, 1) << 3;
    switch (half >> 13) {
    case 0: return sfi_row_of(SFI_KIND_addi, rd, 2, 0, (sfi_i32)from_stack);  /* c.addi4spn */
    case 2: return sfi_row_of(SFI_KIND_lw, rd, rs1, 0, sfi_word_offset(half));
    case 6: return sfi_row_of(SFI_KIND_sw, 0, rs1, rd, sfi_word_offset(half));
    default: return sfi_no_row();
    }
}

static struct sfi_row sfi_read_middle(sfi_u32 half, sfi_u32 pc) {
    const sfi_u32 rd = sfi_field(half, 7, 5), small = 8 + sfi_field(half, 7, 3), jump = pc + (sfi_u32)sfi_jump_offset(half);
    const sfi_i32 number = sfi_signed(sfi_field(half, 12, 1) << 5 | sfi_field(half, 2, 5), 6);
    const sfi_u32 branch = pc + (sfi_u32)sfi_signed(sfi_field(half, 12, 1) << 8 | sfi_field(half, 10, 2) << 3 | sfi_field(half, 5, 2) << 6 |
        sfi_field(half, 3, 2) << 1 | sfi_field(half, 2, 1) << 5, 9);
    switch (half >> 13) {
    case 0: return sfi_row_of(SFI_KIND_addi, rd, rd, 0, number);
    case 1: return sfi_row_of(SFI_KIND_jal, 1, 0, 0, (sfi_i32)jump);
    case 2: return sfi_row_of(SFI_KIND_addi, rd, 0, 0, number);  /* c.li */
    case 3: return sfi_read_upper(half, rd, number);
    case 4: return sfi_read_arithmetic(half, small, 8 + sfi_field(half, 2, 3), number);
    case 5: return sfi_row_of(SFI_KIND_jal, 0, 0, 0, (sfi_i32)jump);
    default: return sfi_row_of(half >> 13 == 6 ? SFI_KIND_beq : SFI_KIND_bne, 0, small, 0, (sfi_i32)branch);
    }
}

static struct sfi_row sfi_read_high(sfi_u32 half) {
    const sfi_u32 rd = sfi_field(half, 7, 5), rs2 = sfi_field(half, 2, 5);
    switch (half >> 13) {
    case 0: return sfi_row_of(SFI_KIND_slli, rd, rd, 0, (sfi_i32)rs2);
    case 2: return sfi_row_of(SFI_KIND_lw, rd, 2, 0, (sfi_i32)(sfi_field(half, 12, 1) << 5 | sfi_field(half, 4, 3) << 2 | sfi_field(half, 2, 2) << 6));
    case 4: return sfi_read_moves(half, rd, rs2);
    case 6: return sfi_row_of(SFI_KIND_sw, 0, 2, rs2, (sfi_i32)(sfi_field(half, 9, 4) << 2 | sfi_field(half, 7, 2) << 6));
    default: return sfi_no_row();
    }
}

/* The row of the instruction at pc, whose bytes begin there. Of 16 bits it doesn't look at more. */
static struct sfi_row sfi_decode(const uint8_t *bytes, sfi_u32 pc) {
    const sfi_u32 half = bytes[0] | (sfi_u32)bytes[1] << 8;
    struct sfi_row row;
    switch (half & 3) {
    case 0: row = sfi_read_low(half); break;
    case 1: row = sfi_read_middle(half, pc); break;
    case 2: row = sfi_read_high(half); break;
    default: return sfi_read_word(half | (sfi_u32)bytes[2] << 16 | (sfi_u32)bytes[3] << 24, pc);
    }
    row.size = row.size ? 2 : 0;
    return row;
}
#endif
