/* Fields of instructions, as the RISC-V manual has them, and the pairs of masks. Part of checker.c. */
#include <stdbool.h>
#include <stdint.h>
#include <string.h>

#define INLINE static inline __attribute__((always_inline))

typedef uint8_t u8;
typedef uint16_t u16;
typedef uint32_t u32;
typedef uint64_t u64;

INLINE u32 bits(u32 value, int high, int low) { return value >> low & ((2u << (high - low)) - 1); }

INLINE u32 signed_bits(u32 value, int width) { return (u32)((int32_t)(value << (32 - width)) >> (32 - width)); }

/* The machine is little-endian, as the image is. */
INLINE u32 half_at(const u8 *at) {
    u16 half;
    memcpy(&half, at, 2);
    return half;
}

INLINE u32 word_at(const u8 *at) {
    u32 word;
    memcpy(&word, at, 4);
    return word;
}

INLINE u32 jal_offset(u32 w) {
    return signed_bits(bits(w, 31, 31) << 20 | bits(w, 19, 12) << 12 | bits(w, 20, 20) << 11 | bits(w, 30, 21) << 1, 21);
}

INLINE u32 branch_offset(u32 w) {
    return signed_bits(bits(w, 31, 31) << 12 | bits(w, 7, 7) << 11 | bits(w, 30, 25) << 5 | bits(w, 11, 8) << 1, 13);
}

/* Of c.j and c.jal. */
INLINE u32 short_jal_offset(u32 h) {
    return signed_bits(bits(h, 12, 12) << 11 | bits(h, 8, 8) << 10 | bits(h, 10, 9) << 8 | bits(h, 6, 6) << 7 | bits(h, 7, 7) << 6
        | bits(h, 2, 2) << 5 | bits(h, 11, 11) << 4 | bits(h, 5, 3) << 1, 12);
}

/* Of c.beqz and c.bnez. */
INLINE u32 short_branch_offset(u32 h) {
    return signed_bits(bits(h, 12, 12) << 8 | bits(h, 6, 5) << 6 | bits(h, 2, 2) << 5 | bits(h, 11, 10) << 3 | bits(h, 4, 3) << 1, 9);
}

/* x24 to x27 */
INLINE bool is_reserved(u32 x) { return (x & ~3u) == 24; }

/* and t, a, mask with any a */
INLINE bool is_mask(u32 w, u32 t, u32 mask) { return (w & ~(31u << 15)) == (mask << 20 | 7u << 12 | t << 7 | 0x33); }

/* or t, t, base */
INLINE bool is_base(u32 w, u32 t, u32 base) { return w == (base << 20 | t << 15 | 6u << 12 | t << 7 | 0x33); }
