/* Classes of instructions, by their first halfwords: found by switches on the fields, or looked up in a table of all (-DCLASS_TABLE),
   which is filled by the same switches. Part of checker.c. */

/* Odd where the instruction has 32 bits. Of four of these the second halfword says whether they decode: COMPUTE, on two registers;
   LEFT and RIGHT, shifts by a number; SYSTEM, ecall and ebreak. */
enum { SHORT_PLAIN, WIDE_PLAIN, SHORT_ACCESS, WIDE_ACCESS, SHORT_JUMP, WIDE_JUMP, SHORT_JAL, WIDE_JAL, SHORT_BRANCH, WIDE_BRANCH,
    SHORT_STACK, WIDE_COMPUTE, SHORT_BREAK, WIDE_LEFT, ILLEGAL, WIDE_RIGHT, WIDE_SYSTEM = 17,
    CLASS = 31, WRITES_STACK = 32, WRITES_RESERVED = 64 };

/* The class with what the rules say of the register that is written. x2 matters in the second format alone. */
INLINE u32 writing(u32 class, u32 rd, int format) {
    return class | (is_reserved(rd) ? WRITES_RESERVED : 0) | (format == 2 && rd == 2 ? WRITES_STACK : 0);
}

/* c.srli, c.srai, c.andi, c.sub, c.xor, c.or, c.and */
INLINE u32 short_computation(u32 h) { return bits(h, 11, 10) == 2 || bits(h, 12, 12) == 0 ? SHORT_PLAIN : ILLEGAL; }

/* c.jr, c.jalr, c.mv, c.add, c.ebreak */
INLINE u32 short_move_or_jump(u32 h, u32 rd, int format) {
    if (bits(h, 6, 2) != 0)
        return writing(SHORT_PLAIN, rd, format);
    if (rd != 0)
        return SHORT_JUMP;
    return bits(h, 12, 12) ? SHORT_BREAK : ILLEGAL;
}

/* c.lui and c.addi16sp both want a number */
INLINE u32 short_upper(u32 h, u32 rd, int format) {
    return bits(h, 12, 12) || bits(h, 6, 2) ? writing(SHORT_PLAIN, rd, format) : ILLEGAL;
}

/* c.lwsp and c.swsp: free in the second format */
INLINE u32 stack_access(int format) { return format == 2 ? SHORT_PLAIN : SHORT_STACK; }

INLINE u32 class_of_short(u32 h, int format) {
    u32 rd = bits(h, 11, 7);
    switch (bits(h, 1, 0) << 3 | bits(h, 15, 13)) {
    case 0: return bits(h, 12, 5) ? SHORT_PLAIN : ILLEGAL;
    case 2: case 6: return SHORT_ACCESS;
    case 8: case 10: return writing(SHORT_PLAIN, rd, format);
    case 9: case 13: return SHORT_JAL;
    case 11: return short_upper(h, rd, format);
    case 12: return short_computation(h);
    case 14: case 15: return SHORT_BRANCH;
    case 16: return bits(h, 12, 12) ? ILLEGAL : writing(SHORT_PLAIN, rd, format);
    case 18: return rd ? writing(stack_access(format), rd, format) : ILLEGAL;
    case 20: return short_move_or_jump(h, rd, format);
    case 22: return stack_access(format);
    default: return ILLEGAL;
    }
}

/* By the first half of a word. */
INLINE u32 class_of_wide(u32 h, int format) {
    u32 three = bits(h, 14, 12), rd = bits(h, 11, 7);
    switch (bits(h, 6, 0)) {
    case 0x37: case 0x17: return writing(WIDE_PLAIN, rd, format);
    case 0x6f: return writing(WIDE_JAL, rd, format);
    case 0x67: return three == 0 ? writing(WIDE_JUMP, rd, format) : ILLEGAL;
    case 0x63: return (three & 6) != 2 ? WIDE_BRANCH : ILLEGAL;
    case 0x03: return three != 3 && three < 6 ? writing(WIDE_ACCESS, rd, format) : ILLEGAL;
    case 0x23: return three < 3 ? WIDE_ACCESS : ILLEGAL;
    case 0x13: return writing(three == 1 ? WIDE_LEFT : three == 5 ? WIDE_RIGHT : WIDE_PLAIN, rd, format);
    case 0x33: return writing(WIDE_COMPUTE, rd, format);
    case 0x0f: return three == 0 ? WIDE_PLAIN : ILLEGAL;
    case 0x73: return h == 0x73 ? WIDE_SYSTEM : ILLEGAL;
    default: return ILLEGAL;
    }
}

INLINE u32 class_by_switches(u32 h, int format) { return bits(h, 1, 0) == 3 ? class_of_wide(h, format) : class_of_short(h, format); }

#ifdef CLASS_TABLE
static u8 classes[2][65536];

static void fill_classes(void) {
    for (u32 h = 0; h < 65536; h++) {
        classes[0][h] = (u8)class_by_switches(h, 1);
        classes[1][h] = (u8)class_by_switches(h, 2);
    }
}

INLINE u32 class_of(u32 h, int format) { return classes[format - 1][h]; }
#else
static void fill_classes(void) {}

INLINE u32 class_of(u32 h, int format) { return class_by_switches(h, format); }
#endif
