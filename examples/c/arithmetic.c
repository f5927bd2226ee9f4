/* Prints sums over what 64-bit arithmetic, counts of bits and the memory functions answer for pseudo-random operands.
   Natively they are the processor's and the C library's; in a sandbox those of tools/suygapid/runtime. */
#include "gates.h"
#include "numbers.h"

typedef unsigned long long u64;
typedef long long s64;

void *memcpy(void *, const void *, __SIZE_TYPE__);
void *memmove(void *, const void *, __SIZE_TYPE__);
void *memset(void *, int, __SIZE_TYPE__);
int memcmp(const void *, const void *, __SIZE_TYPE__);

#ifdef __riscv
u64 __ashldi3(u64, int);
u64 __lshrdi3(u64, int);
s64 __ashrdi3(s64, int);
u64 __muldi3(u64, u64);
#else
#define __ashldi3(number, by) ((number) << (by))
#define __lshrdi3(number, by) ((number) >> (by))
#define __ashrdi3(number, by) ((s64)(number) >> (by))
#define __muldi3(left, right) ((left) * (right))
#endif

enum { ROUNDS = 2000, ROOM = 64 };

static u64 seed = 88172645463325252;
static unsigned char left[ROOM], right[ROOM];

/* Marsaglia's xorshift, of 2003. */
static u64 next(void) {
    seed ^= seed << 13;
    seed ^= seed >> 7;
    seed ^= seed << 17;
    return seed;
}

/* A number of any length, so that small and large ones come as often. */
static u64 operand(void) {
    u64 number = next();
    return number >> (next() & 63);
}

static u64 mixed(u64 sum, u64 value) {
    return (sum ^ value) * 0x100000001b3;
}

static u64 divisions(void) {
    u64 sum = 0;
    for (int i = 0; i < ROUNDS; i++) {
        u64 dividend = operand(), divisor = operand() | 1;
        sum = mixed(mixed(sum, dividend / divisor), dividend % divisor);
    }
    return sum;
}

static u64 signed_divisions(void) {
    u64 sum = 0;
    for (int i = 0; i < ROUNDS; i++) {
        s64 dividend = i % 2 ? -operand() : operand(), divisor = i % 3 ? -(operand() | 2) : operand() | 1;
        sum = mixed(mixed(sum, dividend / divisor), dividend % divisor);
    }
    return mixed(sum, -0x7fffffffffffffff / (s64)(operand() | 1));
}

static u64 shifts_and_products(void) {
    u64 sum = 0;
    for (int i = 0; i < ROUNDS; i++) {
        u64 number = operand(), factor = operand();
        int by = i & 63;
        sum = mixed(mixed(sum, __ashldi3(number, by)), __lshrdi3(number, by));
        sum = mixed(mixed(sum, __ashrdi3(0 - number, by)), __muldi3(number, factor));
    }
    return sum;
}

static u64 bits(void) {
    u64 sum = 0;
    for (int i = 0; i < ROUNDS; i++) {
        u64 number = operand();
        unsigned low = (unsigned)number | 1u << 31 >> (i & 31);
        sum = mixed(sum, __builtin_clz(low) * 4096 + __builtin_ctz(low) * 64 + __builtin_popcount(number));
        sum = mixed(mixed(sum, __builtin_bswap32(number)), __builtin_bswap64(number));
    }
    return sum;
}

static u64 blocks(void) {
    u64 sum = 0;
    for (int i = 0; i < ROUNDS; i++) {
        u64 choice = next();
        unsigned from = choice & 15, to = choice >> 4 & 15, count = choice >> 8 & 31;
        memset(left + to, i, count);
        memcpy(right + from, left + to, count);
        memmove(left + from, left + to, count);
        right[choice >> 16 & 63] ^= choice >> 24;
        int order = memcmp(left, right, 48);
        sum = mixed(sum, (order > 0) - (order < 0));
    }
    for (int i = 0; i < ROOM; i++)
        sum = mixed(sum, left[i] * 256 + right[i]);
    return sum;
}

static void put_sum(u64 sum) {
    put_number((s64)sum);
    put("\n", 1);
}

int main(void) {
    put_sum(divisions());
    put_sum(signed_divisions());
    put_sum(shifts_and_products());
    put_sum(bits());
    put_sum(blocks());
    return 0;
}
