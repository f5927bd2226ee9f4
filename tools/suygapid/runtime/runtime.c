/* The functions that gcc and clang call by themselves when they compile C for RV32IMC. Each program gets those that it
   calls. The names and what they do are those of the C library and of libgcc. */
typedef unsigned size;
typedef unsigned long long u64;
typedef long long s64;
typedef unsigned u32;

void *memcpy(void *restrict to, const void *restrict from, size count) {
    unsigned char *target = to;
    const unsigned char *source = from;
    if ((((u32)target | (u32)source) & 3) == 0)
        for (; count >= 4; count -= 4, target += 4, source += 4)
            *(u32 *)target = *(const u32 *)source;
    while (count--)
        *target++ = *source++;
    return to;
}

void *memmove(void *to, const void *from, size count) {
    unsigned char *target = to;
    const unsigned char *source = from;
    if (target <= source)
        return memcpy(to, from, count);
    while (count--)
        target[count] = source[count];
    return to;
}

void *memset(void *to, int value, size count) {
    unsigned char *target = to;
    u32 word = (unsigned char)value * 0x01010101u;
    for (; count && (u32)target & 3; count--)
        *target++ = value;
    for (; count >= 4; count -= 4, target += 4)
        *(u32 *)target = word;
    while (count--)
        *target++ = value;
    return to;
}

int memcmp(const void *left, const void *right, size count) {
    const unsigned char *a = left, *b = right;
    for (; count; count--, a++, b++)
        if (*a != *b)
            return *a - *b;
    return 0;
}

size strlen(const char *text) {
    const char *end = text;
    while (*end)
        end++;
    return end - text;
}

/* Numbers of 64 bits by their halves of 32. */

static u64 joined(u32 high, u32 low) {
    union { u32 half[2]; u64 whole; } number;
    number.half[0] = low;
    number.half[1] = high;
    return number.whole;
}

static u32 high_half(u64 number) {
    union { u64 whole; u32 half[2]; } halves;
    halves.whole = number;
    return halves.half[1];
}

u64 __ashldi3(u64 number, int by) {
    u32 high = high_half(number), low = number;
    if (by == 0)
        return number;
    return by >= 32 ? joined(low << (by - 32), 0) : joined(high << by | low >> (32 - by), low << by);
}

u64 __lshrdi3(u64 number, int by) {
    u32 high = high_half(number), low = number;
    if (by == 0)
        return number;
    return by >= 32 ? joined(0, high >> (by - 32)) : joined(high >> by, low >> by | high << (32 - by));
}

s64 __ashrdi3(s64 number, int by) {
    u32 high = high_half(number), low = number;
    if (by == 0)
        return number;
    if (by >= 32)
        return joined((int)high >> 31, (int)high >> (by - 32));
    return joined((int)high >> by, low >> by | high << (32 - by));
}

/* The product of two halves, which is two instructions and no call of __muldi3. */
static u64 product(u32 a, u32 b) {
    return (u64)a * b;
}

u64 __muldi3(u64 a, u64 b) {
    u64 low = product(a, b);
    return joined(high_half(low) + (u32)a * high_half(b) + high_half(a) * (u32)b, low);
}

/* The product of a number and one half. */
static u64 times(u64 number, u32 factor) {
    u64 low = product(number, factor);
    return joined(high_half(low) + high_half(number) * factor, low);
}

#define INLINE static inline __attribute__((always_inline))

/* What a division answers: the quotient or the remainder, below 0 where the sign's first bit is 1. */
typedef struct {
    int wants_remainder, sign;
} Wanted;

INLINE u64 signed_number(Wanted wanted, u64 number) {
    return wanted.sign < 0 ? -number : number;
}

INLINE u64 signed_half(Wanted wanted, u32 number) {
    return wanted.sign < 0 ? joined(-(number != 0), -number) : number;
}

/* The quotient by a divisor of at most 16 bits, or the remainder. */
INLINE u64 divided_by_16_bits(u32 high, u32 low, u32 divisor, Wanted wanted) {
    u32 first = high % divisor << 16 | low >> 16, second = first % divisor << 16 | (low & 0xffff);
    if (wanted.wants_remainder)
        return signed_half(wanted, second % divisor);
    return signed_number(wanted, joined(high / divisor, (first / divisor << 16) + second / divisor));
}

/* By one of 17 to 31 bits, in two digits of 16. The divisor gets its first bits by a product with the power of two over its upper
   part and one, as algorithm D has it (Knuth, The Art of Computer Programming, volume 2, 4.3.1), and so does what is divided: that
   takes fewer steps than to find how far to shift. By the divisor's upper part and one a digit is too small by less than four, and
   where the divisor d has 31 bits by less than 1 + 2^31 / d. So what is left is below 2^32, and is divided once more. */
INLINE u64 divided_by_31_bits(u32 high, u32 low, u32 divisor, Wanted wanted) {
    u32 factor = 65536 / ((divisor >> 16) + 1), upper = (divisor * factor >> 16) + 1;
    u32 left = high % divisor, digit = left * factor / upper, quotient;
    left = (left << 16 | low >> 16) - digit * divisor;
    quotient = ((digit + left / divisor) << 16) + left % divisor * factor / upper;
    left = low - quotient * divisor;
    if (wanted.wants_remainder)
        return signed_half(wanted, left % divisor);
    return signed_number(wanted, joined(high / divisor, quotient + left / divisor));
}

/* The next 16 bits of a quotient by a divisor whose first bit is 1, and what is left then in `*left`: `next` are the next 16
   bits of the dividend. A digit by the divisor's upper half alone may be one or two too large, as algorithm D has it. */
INLINE u32 digit_of(u32 *left, u32 next, u32 divisor) {
    u32 upper = divisor >> 16, digit = *left / upper, less = digit * (divisor & 0xffff), rest = *left % upper << 16 | next;
    if (rest < less) {
        digit--;
        rest += divisor;
        if (rest >= divisor && rest < less) {
            digit--;
            rest += divisor;
        }
    }
    *left = rest - less;
    return digit;
}

/* By one of 32 bits. */
INLINE u64 divided_by_32_bits(u32 high, u32 low, u32 divisor, Wanted wanted) {
    u32 left = high % divisor, digit = digit_of(&left, low >> 16, divisor);
    digit = digit << 16 | digit_of(&left, low & 0xffff, divisor);
    return wanted.wants_remainder ? signed_half(wanted, left) : signed_number(wanted, joined(high / divisor, digit));
}

/* By one of 33 to 48 bits. A factor gives the divisor its first bit, and the 16 bits from there on give 2^64 over the divisor to some
   15 bits, of which a step of Newton's makes nearly 30. Neither is too large, so the first quotient is too small, by less than a
   dozen; and that of what is left then, by its upper half, is right or one too small. */
INLINE u64 divided_by_48_bits(u64 dividend, u64 divisor, Wanted wanted) {
    u32 factor = ~0u / (high_half(divisor) + 1), upper = high_half(times(divisor, factor)) >> 16;
    u32 inverse = high_half(product(factor << 1, ~0u / (upper + 1) << 15)), quotient, more;
    inverse += high_half(product(inverse, ~high_half(times(divisor, inverse))));
    quotient = high_half(product(high_half(dividend), inverse));
    dividend -= times(divisor, quotient);
    if (high_half(dividend) >= high_half(divisor)) {
        more = high_half(product(high_half(dividend), inverse)) + 1;
        quotient += more;
        dividend -= times(divisor, more);
        if ((int)high_half(dividend) < 0) {
            dividend += divisor;
            quotient--;
        }
    }
    return wanted.wants_remainder ? signed_number(wanted, dividend) : signed_half(wanted, quotient);
}

/* By one of more: that by its upper half and one is right or one too small. */
INLINE u64 divided_by_64_bits(u64 dividend, u64 divisor, Wanted wanted) {
    u32 most = high_half(divisor) + 1, quotient = most ? high_half(dividend) / most : 0;
    dividend -= times(divisor, quotient);
    if (dividend >= divisor) {
        dividend -= divisor;
        quotient++;
    }
    return wanted.wants_remainder ? signed_number(wanted, dividend) : signed_half(wanted, quotient);
}

static __attribute__((noinline)) u64 divided_by_more(u64 dividend, u64 divisor, int sign, int wants_remainder) {
    Wanted wanted = {wants_remainder, sign};
    return high_half(divisor) >> 16 ? divided_by_64_bits(dividend, divisor, wanted)
                                    : divided_by_48_bits(dividend, divisor, wanted);
}

/* By one of at most 32 bits. Division by 0 answers all ones, with the dividend as remainder, as the machine's own instructions
   do. */
static __attribute__((noinline)) u64 divided_by_half(u64 dividend, u32 below, int wants_remainder, int sign) {
    Wanted wanted = {wants_remainder, sign};
    u32 high = high_half(dividend), low = dividend;
    if (!below)
        return wants_remainder ? signed_number(wanted, dividend) : (u64)-1;
    if (!high)
        return signed_half(wanted, wants_remainder ? low % below : low / below);
    if (!(below >> 16))
        return divided_by_16_bits(high, low, below, wanted);
    return (int)below < 0 ? divided_by_32_bits(high, low, below, wanted) : divided_by_31_bits(high, low, below, wanted);
}

/* The quotient of two numbers, or the remainder. */
INLINE u64 divided(u64 dividend, u64 divisor, int wants_remainder, int sign) {
    return high_half(divisor) ? divided_by_more(dividend, divisor, sign, wants_remainder)
                              : divided_by_half(dividend, divisor, wants_remainder, sign);
}

u64 __udivdi3(u64 dividend, u64 divisor) {
    return divided(dividend, divisor, 0, 0);
}

u64 __umoddi3(u64 dividend, u64 divisor) {
    return divided(dividend, divisor, 1, 0);
}

/* A number without its sign, as a number of 64 bits that all count. Neither sign is likelier. */
static u64 magnitude(s64 number) {
    return __builtin_expect_with_probability(number < 0, 1, 0.5) ? -(u64)number : (u64)number;
}

s64 __divdi3(s64 dividend, s64 divisor) {
    return divided(magnitude(dividend), magnitude(divisor), 0, high_half(dividend) ^ high_half(divisor));
}

/* A remainder has the sign of the dividend. */
s64 __moddi3(s64 dividend, s64 divisor) {
    return divided(magnitude(dividend), magnitude(divisor), 1, high_half(dividend));
}

/* Counts of bits: `__builtin_clz` and the like. Of 0 the first and the last bit are behind all bits, where C asks for
   nothing. */

__attribute__((noinline)) int __clzsi2(u32 number) {
    int count = 32;
    if (number >> 16)
        number >>= 16, count -= 16;
    if (number >> 8)
        number >>= 8, count -= 8;
    if (number >> 4)
        number >>= 4, count -= 4;
    if (number >> 2)
        number >>= 2, count -= 2;
    return count - (number >> 1) - (number != 0);
}

int __clzdi2(u64 number) {
    u32 high = high_half(number);
    return high ? __clzsi2(high) : 32 + __clzsi2(number);
}

int __ctzsi2(u32 number) {
    return number ? 31 - __clzsi2(number & -number) : 32;
}

int __ctzdi2(u64 number) {
    return (u32)number ? __ctzsi2(number) : 32 + __ctzsi2(high_half(number));
}

/* The number of the first bit from below, from 1, and 0 for 0. */
int __ffssi2(u32 number) {
    return number ? __ctzsi2(number) + 1 : 0;
}

int __ffsdi2(u64 number) {
    return number ? __ctzdi2(number) + 1 : 0;
}

/* How many bits after the sign are equal to it. */
int __clrsbsi2(int number) {
    return __clzsi2(number ^ number >> 31) - 1;
}

int __clrsbdi2(s64 number) {
    int high = high_half(number), sign = high >> 31;
    return high == sign ? 31 + __clzsi2((u32)number ^ sign) : __clrsbsi2(high);
}

int __popcountsi2(u32 number) {
    int count = 0;
    for (; number; number &= number - 1)
        count++;
    return count;
}

int __popcountdi2(u64 number) {
    return __popcountsi2(number) + __popcountsi2(high_half(number));
}

int __paritysi2(u32 number) {
    return __popcountsi2(number) & 1;
}

int __paritydi2(u64 number) {
    return __paritysi2((u32)number ^ high_half(number));
}

u32 __bswapsi2(u32 number) {
    return number << 24 | (number & 0xff00) << 8 | (number >> 8 & 0xff00) | number >> 24;
}

u64 __bswapdi2(u64 number) {
    return joined(__bswapsi2(number), __bswapsi2(high_half(number)));
}

/* C++: a call of a virtual function that no class defines, and memory from the C library's malloc. */

void __cxa_pure_virtual(void) {
    __builtin_trap();
}

void *malloc(size count);
void free(void *memory);

void *new_object(size count) __asm__("_Znwj");
void *new_array(size count) __asm__("_Znaj");
void delete_object(void *memory) __asm__("_ZdlPv");
void delete_array(void *memory) __asm__("_ZdaPv");
void delete_object_of(void *memory, size count) __asm__("_ZdlPvj");
void delete_array_of(void *memory, size count) __asm__("_ZdaPvj");

void *new_object(size count) {
    void *memory = malloc(count ? count : 1);
    if (!memory)
        __builtin_trap();
    return memory;
}

void *new_array(size count) {
    return new_object(count);
}

void delete_object(void *memory) {
    free(memory);
}

void delete_array(void *memory) {
    free(memory);
}

void delete_object_of(void *memory, size count) {
    (void)count;
    free(memory);
}

void delete_array_of(void *memory, size count) {
    (void)count;
    free(memory);
}
