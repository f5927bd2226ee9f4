"""Tests of sums, differences, products, quotients and square roots of doubles, and of integers as doubles: suygapid/library/double*.c
and newlib_glue/sqrt.c there: `tools/unit_tests.py tools`. The wanted bits are those of this machine's own floating point. They
are skipped where a compiler, GCC's sources or the program isn't there."""
import subprocess

from testing import COMPILERS, FLOATS, SFI, SFI_CC, TOOLS, Folder, by_turns, formats_due, needs, needs_a_compiler, needs_program

FOLDER = TOOLS / "suygapid" / "library"
SHARED, DOUBLES, QUOTIENTS, CONVERSIONS = (FOLDER / name for name in ("doubles.h", "doubles.c", "double_quotients.c",
                                                                     "double_conversions.c"))
ROOTS = FOLDER / "newlib_glue" / "sqrt.c"
FILES = (SHARED, DOUBLES, QUOTIENTS, CONVERSIONS, ROOTS)

# Pairs of numbers: `edge` has each of some exponents with each of some digits, `choose` takes random ones of ten kinds.
# `integer` takes numbers of all lengths, their negatives, such as have few digits, and such as are near halves of a digit.
NUMBERS = r'''
typedef unsigned long long bits;
#define DIGITS (1ull << 52)
static const bits digits[] = {0, 1, DIGITS / 2, DIGITS - 1, DIGITS - 2, DIGITS / 2 - 1, DIGITS / 2 + 1, 0x6a09e667f3bcd,
    0x5555555555555, 1ull << 32, 0xffffffff, 2, 3};
static const short exponents[] = {0, 1, 2, 1022, 1023, 1024, 2046, 2047, 53, 54, 1054, 1055, 1075, 1076, 1077, 1078, 52,
    500, 511, 512, 970, 1500, 1535, 1536};
static bits state = 88172645463325252ull;
static bits next(void) { return state ^= state << 13, state ^= state >> 7, state ^= state << 17; }
static bits edge(int place, int of_digits) {
    int sign = place & 1;
    place /= 2;
    return (bits)sign << 63 | (bits)exponents[place / of_digits] << 52 | digits[place % of_digits];
}
static bits with(bits number, unsigned exponent) { return (number & ~(0x7ffull << 52)) | (bits)(exponent & 0x7ff) << 52; }
static bits few(bits number, int count) { return number & (~0ull << 52 - count); }
static void choose(int kind, bits *a, bits *b) {
    bits x = next(), y = next(), z = next();
    unsigned exponent = z & 0x7ff, near = 1000 + (z >> 16 & 63), from = z >> 22 & 63, count = (z >> 28) % 52;
    *a = x, *b = y;
    switch (kind % 10) {
    case 0: return;                                                              /* any bits */
    case 1: *a = with(x, near), *b = with(y, near - from); return;               /* distances from 0 to 63 */
    case 2: *a = with(x, near), *b = *a ^ 1ull << 63 ^ y >> 12 >> count; return; /* cancellations */
    case 3: *a = with(few(x, count), near), *b = with(few(y, from % 52), near - from + 32); return; /* halves */
    case 4: *a = with(x >> 12 >> count, z >> 62), *b = with(y, near); return;    /* the least numbers */
    case 5: *a = with(x, exponent), *b = with(y, 1023 + from - 60 - exponent); return; /* products that are as small */
    case 6: *a = with(x, exponent | 1024), *b = with(y, 3069 + from % 8 - 4 - (exponent | 1024)); return; /* or large */
    case 7: *a = with(x | DIGITS - 1 >> count, near), *b = with(y | DIGITS - 1 >> from % 52, near - from % 3); return;
    case 8: *a = with(few(x, count), exponent), *b = with(few(y, from % 52), exponent + 1021 + from); return; /* or quotients */
    case 9: *a = with(x, exponent | 1024), *b = with(y, (exponent | 1024) - 1020 - from % 8); return; /* small, large */
    }
}
static bits integer(int kind) {
    bits x = next(), y = next();
    switch (kind & 3) {
    case 0: return x >> (y & 63);
    case 1: return -(x >> (y & 63));
    case 2: return x & ~0ull << (y & 63);
    default: return ((x >> 11 | DIGITS) * 2 + 1 << (y & 15) % 10) + (y >> 8) % 3 - 1;
    }
}
'''

# Compares the C functions, compiled for this machine, with the machine's own. Prints how many answers are right.
NATIVE = NUMBERS + r'''
#include <math.h>
#include <stdio.h>
#include <stdlib.h>
#include <string.h>
bits sum(bits a, bits b), difference(bits a, bits b), product(bits a, bits b), ratio(bits a, bits b);
bits of_int(int a), of_unsigned(unsigned a), of_long_long(long long a), of_bits(bits a);
double root(double a);
float short_root(float a);
static long right;
static double value(bits number) { double answer; memcpy(&answer, &number, 8); return answer; }
static bits of(double number) { bits answer; memcpy(&answer, &number, 8); return answer; }
static void compare(char sign, bits a, bits b, bits found, double wanted) {
    bits exact = isnan(wanted) ? 0x7ff8000000000000 : of(wanted);
    if (found != exact) {
        printf("%llx %c %llx: %llx in place of %llx\n", a, sign, b, found, exact);
        exit(1);
    }
    right++;
}
static void try(bits a, bits b) {
    volatile double x = value(a), y = value(b);
    compare('+', a, b, sum(a, b), x + y), compare('-', a, b, difference(a, b), x - y);
    compare('*', a, b, product(a, b), x * y), compare('/', a, b, ratio(a, b), x / y);
}
/* The quotient of two numbers below 2^53 that is nearly an odd number's half: what it lacks, or has above it, is `left` of the
   divisor, an odd number. */
static void try_near_half(bits x, bits y, int left) {
    bits by = x >> 11 | DIGITS | 1, inverse = by, odd;
    for (int k = 0; k < 6; k++)
        inverse *= 2 - by * inverse;
    odd = inverse * left & (1ull << 54) - 1;
    odd = (unsigned __int128)odd * by - left >> 54;
    odd = of((double)odd), by = of((double)by);
    try(with(odd, (odd >> 52) + (y & 63)) | y >> 63 << 63, by);
    try(with(odd, y >> 32 & 15), with(by, (y >> 36 & 63) + 1000)); /* mostly small */
}
static void try_integer(bits a) {
    compare('i', a, 0, of_int(a), (int)a), compare('u', a, 0, of_unsigned(a), (unsigned)a);
    compare('l', a, 0, of_long_long(a), (long long)a), compare('b', a, 0, of_bits(a), a);
}
static void try_root(bits a) {
    union { unsigned bits; float value; } number = {a};
    double long_root = root(value(a)), root_of_float = short_root(number.value);
    compare('r', a, 0, isnan(long_root) ? 0x7ff8000000000000 : of(long_root), sqrt(value(a)));
    compare('f', a, 0, isnan(root_of_float) ? 0x7ff8000000000000 : of(root_of_float), sqrtf(number.value));
}
int main(int count, char **words) {
    int edges = sizeof exponents / sizeof *exponents * (sizeof digits / sizeof *digits) * 2;
    for (int k = 0; k < edges; k++) {
        bits a = edge(k, sizeof digits / sizeof *digits);
        for (int j = 0; j < edges; j++)
            try(a, edge(j, sizeof digits / sizeof *digits));
        try_root(a), try_root(a + 1), try_root(a - 1);
    }
    for (int k = 0; k < 64; k++)
        for (bits j = 0; j < 64; j++) { /* one digit, or two, and what is next to them */
            bits a = 1ull << k ^ 1ull << j;
            for (int next_to = -2; next_to <= 2; next_to++)
                try_integer(a + next_to), try_integer(-a + next_to), try_integer((1ull << k) + next_to + (j << 11));
        }
    for (long k = atol(words[1]); k > 0; k--) {
        bits a, b, small = next() >> 38, square = of((double)(small * small));
        choose(k, &a, &b);
        try(a, b), try(b, a), try_root(a), try_root(b), try_root(a >> 1), try_root(square), try_root(square - 1);
        square = of((a >> 11 | 1) * (double)(a >> 11 | 1)); /* near the square of what is halfway between two doubles */
        try_root(square), try_root(square - 1), try_root(square + 1);
        try_near_half(a, next(), (int)(next() & 15) * 2 - 15), try_integer(integer(k)), try_integer(next());
    }
    printf("%ld right\n", right);
    return 0;
}
'''
NAMES = {"__adddf3": "sum", "__subdf3": "difference", "__muldf3": "product", "__divdf3": "ratio",
         "__floatsidf": "of_int", "__floatunsidf": "of_unsigned", "__floatdidf": "of_long_long", "__floatundidf": "of_bits",
         "__ieee754_sqrt": "root", "__ieee754_sqrtf": "short_root"}

# Puts what comes of pairs of numbers, mixed. In a sandbox the one NaN has to be that of libgcc.
MIXED = NUMBERS + r'''
#ifdef NATIVE
#include <math.h>
#include <unistd.h>
static int put(const void *from, unsigned count) { return write(1, from, count); }
#define __ieee754_sqrt sqrt
#define __ieee754_sqrtf sqrtf
#else
#include "gates.h"
double __ieee754_sqrt(double);
float __ieee754_sqrtf(float);
#endif
static bits mixed;
static void say(double number) {
    union { double value; bits all; } answer = {number};
#ifdef NATIVE
    if (number != number)
        answer.all = 0x7ff8000000000000;
#endif
    mixed = (mixed << 7 | mixed >> 57) ^ answer.all;
}
static void try(bits a, bits b) {
    volatile bits first = a, second = b; /* what the compiler doesn't know it doesn't compute */
    union { bits all; double value; } x = {first}, y = {second};
    say(x.value + y.value), say(x.value - y.value), say(x.value * y.value), say(x.value / y.value);
}
static void try_integer(bits a) {
    volatile bits first = a;
    say((int)first), say((unsigned)first), say((long long)first), say(first);
}
static void try_root(bits a) {
    volatile bits first = a;
    union { bits all; double value; } x = {first};
    union { unsigned all; float value; } y = {first >> 32};
    say(__ieee754_sqrt(x.value));
    if (y.value == y.value)
        say(__ieee754_sqrtf(y.value));
}
static void end(void) {
    unsigned char bytes[8];
    for (int k = 0; k < 8; k++)
        bytes[k] = mixed >> 8 * k;
    put(bytes, 8);
}
int main(void) {
    for (int k = 0; k < 64; k++) { /* 8 exponents, 4 digits */
        bits a = edge(k, 4), b;
        for (int j = 0; j < 64; j++)
            try(a, edge(j, 4));
        try_root(a);
        for (int kind = 0; kind < 32; kind++)
            choose(kind, &a, &b), try(a, b), try_root(a), try_integer(integer(kind));
        end();
    }
    return 0;
}
'''

# What has to be found: in a file, a text, and what takes its place.
MISTAKES = {
    "a product forgets its last digits": (DOUBLES, "high, low, rest, last);", "high, low, rest, 0);"),
    "a sum that carries forgets its last digit": (DOUBLES, " | (rest & 1)", ""),
    "a far number loses its last digits": (DOUBLES, " | (by_low << 1 << (31 - distance) ? 1 : 0)", ""),
    "halves go up": (SHARED, "low &= ~1u;", ";"),
    "a borrow is lost": (DOUBLES, " + (kept < (rest != 0))", ""),
    "a number below the least normal one forgets its last digits": (SHARED, "(u32)behind | rest | beyond", "0"),
    "sums become too large without being infinite": (DOUBLES, "++exponent == INFINITE", "++exponent < 0"),
    "a quotient isn't rounded": (QUOTIENTS, "second += (", "second += 0 * ("),
    "a quotient goes up too early": (QUOTIENTS, "(second * 2 + 1) * by -", "(second * 2 + 1) * by - 8 -"),
    "a quotient goes up too late": (QUOTIENTS, "(second * 2 + 1) * by -", "(second * 2 + 1) * by + 8 -"),
    "a quotient's first digits are too many": (QUOTIENTS, "to_two) << 1) - 2", "to_two) << 1) + 30"),
    "a quotient has the dividend's sign": (QUOTIENTS, "upper = (high ^ by_high) & SIGN", "upper = high & SIGN"),
    "a quotient by 0 has no sign": (QUOTIENTS, "return infinite(sign);", "return infinite(0);"),
    "0 by 0 is 0": (QUOTIENTS, "(!size || size == infinity)", "size == infinity"),
    "a small quotient forgets that something is left": (QUOTIENTS, "remainder != 0)", "0)"),
    "a small quotient is rounded twice": (QUOTIENTS, "quotient - (remainder < 0), remainder < 0 ? ~0u : 0, remainder != 0",
                                          "quotient, 0, 0"),
    "a negative integer becomes positive": (CONVERSIONS, "of_word(-low, MINUS)", "of_word(-low, PLUS)"),
    "a long integer is cut": (CONVERSIONS, "size << 21, 0);", "0, 0);"),
    "2^31 is negative": (CONVERSIONS, "return value & SIGN ? of_word(value, PLUS) :", "return"),
    "-2^32 is 0": (CONVERSIONS, "high == ~0u && low", "high == ~0u"),
    "a root isn't rounded": (ROOTS, "root += (", "root += 0 * ("),
    "roots go up too early": (ROOTS, "root * root + root -", "root * root + root / 2 -"),
}


class Doubles(Folder):
    def program(self, text, *more):
        """The program of a text and of files beside it, for this machine."""
        path = self.path("native")
        names = [f"-D{name}={own}" for name, own in NAMES.items()] if more else ["-DNATIVE"]
        subprocess.run(["gcc", "-O2", "-w", *names, self.write("native.c", text), *more, "-lm", "-o", path], check=True)
        return path

    def against_the_machine(self, count, changed=None, old="", new=""):
        """What the comparison says, of functions of which one file may have another text."""
        copies = []
        for file in FILES:
            text = file.read_text(encoding="utf-8")
            if file == changed:
                self.assertEqual(text.count(old), 1, old)
                text = text.replace(old, new)
            copies.append(self.write(file.name, text))
        program = self.program(NATIVE, *(it for it in copies if it.endswith(".c")))
        return subprocess.run([program, str(count)], capture_output=True, check=False).stdout.decode()

    @needs("gcc")
    def test_natively(self):
        self.assertRegex(self.against_the_machine(1000000), r"^\d+ right\n$")

    @needs("gcc")
    def test_mistakes_are_found(self):
        for mistake, change in by_turns(MISTAKES.items(), 8):
            self.assertRegex(self.against_the_machine(300000, *change), " in place of ", mistake)

    @needs_program
    @needs_a_compiler
    @needs("gcc", FLOATS)
    def test_in_a_sandbox(self):
        wanted = subprocess.run([self.program(MIXED)], stdout=subprocess.PIPE, check=True).stdout.hex()
        path = self.write("mixed.c", MIXED)
        for number, compiler in enumerate(COMPILERS):
            for image_format in formats_due(number, 4):
                words = [SFI_CC, "--program", SFI, "--cc", compiler, "-w", path, str(ROOTS), "--format", image_format]
                image = subprocess.run(words, stdout=subprocess.PIPE, check=True).stdout
                run = subprocess.run([SFI, "run", "--rounds", "20", "--quantum", "1000000"], input=image, stdout=subprocess.PIPE, check=True)
                self.assertRegex(run.stdout.decode(), f"exit=0 .*out={wanted}\n$", f"{compiler} {image_format}")
