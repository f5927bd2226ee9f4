"""Tests of the functions that compilers call by themselves: `tools/unit_tests.py tools/suygapid/passes`. C programs give
their native answers, by gcc and by clang, in the usual format, and by turns in others. They are skipped where a compiler or the program isn't there."""
import random
import re
import struct
import subprocess

from testing import COMPILERS, SFI, SFI_CC, Folder, formats_due, needs, needs_a_compiler, needs_program

# `say` mixes each answer into a sum and counts it; the program puts all sums of 64 bits, the lowest byte first.
FRAME = r'''
typedef unsigned long long u8;
typedef long long s8;
#ifdef NATIVE
#include <unistd.h>
static int put(const void *bytes, unsigned count) { return write(1, bytes, count); }
#else
#include "gates.h"
#endif
static u8 sum;
static __attribute__((noinline)) void say(s8 answer) { sum = (sum << 7 | sum >> 57) ^ (u8)answer; }
static void end(void) {
    unsigned char bytes[8];
    for (int k = 0; k < 8; k++)
        bytes[k] = sum >> 8 * k;
    put(bytes, 8);
}
'''

NUMBERS = FRAME + r'''
static const u8 some[] = {0, 1, 2, 3, 9, 10, 255, 65535, 65536, 65537, 0x7fffffff, 0x80000000, 0xfffffffe, 0xffffffff,
    0x100000000, 0x100000001, 0x1ffffffff, 0x123456789abcdef, 0x7fffffffffffffff, 0x8000000000000000, 0x8000000000000001,
    0xfffffffe00000001, 0xffffffff00000000, 0xffffffff7fffffff, 0xfffffffffffffffe, 0xffffffffffffffff, 0x8000ffff00000000,
    0xffff800000000000, 0x10000fffeffff};
enum { COUNT = sizeof some / sizeof some[0] };
static void divide(u8 a, u8 b) {
    if (!b)
        return;
    say(a / b), say(a % b), say(a * b);
    if (a != 1ull << 63 || b != -1ull)
        say((s8)a / (s8)b), say((s8)a % (s8)b);
    end();
}
static void bits(u8 a, unsigned b) {
    say(__builtin_ffsll(a)), say(__builtin_ffs(b)), say(__builtin_clrsbll(a)), say(__builtin_clrsb(b));
    say(__builtin_popcountll(a)), say(__builtin_popcount(b)), say(__builtin_parityll(a)), say(__builtin_parity(b));
    say(__builtin_bswap64(a)), say(__builtin_bswap32(b));
    if (a)
        say(__builtin_clzll(a)), say(__builtin_ctzll(a));
    if (b)
        say(__builtin_clz(b)), say(__builtin_ctz(b));
    for (int by = 0; by < 64; by += 7)
        say(a << by), say(a >> by), say((s8)a >> by);
    end();
}
int main(void) {
    volatile int last = COUNT;
    u8 random = 88172645463325252ull;
    for (int k = 0; k < last; k++) {
        bits(some[k], some[k]), bits(some[k], some[k] >> 32);
        for (int j = 0; j < last; j++)
            divide(some[k], some[j]);
    }
    for (int k = 0; k < 100; k++) {
        u8 other = random;
        random ^= random << 13, random ^= random >> 7, random ^= random << 17;
        divide(random >> (k & 31), other >> (k * 7 & 63)), bits(random >> (k & 63), other);
    }
    return 0;
}
'''

# Puts the quotients and remainders, without signs and with them, of the pairs of numbers that it gets.
QUOTIENTS = r'''
#include "gates.h"
typedef unsigned long long u8;
typedef long long s8;
int main(void) {
    u8 pair[2], found[4];
    while (get(pair, 16) == 16) {
        found[0] = pair[0] / pair[1], found[1] = pair[0] % pair[1];
        found[2] = (s8)pair[0] / (s8)pair[1], found[3] = (s8)pair[0] % (s8)pair[1];
        put(found, 32);
    }
    return 0;
}
'''
ALL = 1 << 64
CORNERS = {(one + by) % ALL for place in range(65) for one in (1 << place, -1 << place) for by in (-1, 0, 1)} - {0}


def pairs():
    """Numbers around each power of two with each other, others of any length, and quotients that are just whole."""
    pick = random.Random(1)
    yield from ((one, other) for one in CORNERS for other in CORNERS if pick.random() < 0.2)
    for _ in range(100_000):
        one, other = ((pick.getrandbits(64) >> pick.randrange(64)) | 1 for _ in range(2))
        yield pick.choice((one, one * other % ALL, (one * other - 1) % ALL)), other


def signed(number):
    return number - ALL if number >> 63 else number


def quotient(one, other):
    """As C has it, towards 0."""
    found = abs(one) // abs(other)
    return found if (one < 0) == (other < 0) else -found


def answers(one, other):
    first, second = signed(one), signed(other)
    found = quotient(first, second)
    return one // other, one % other, found % ALL, (first - found * second) % ALL


# Does one operation on the pair of numbers that it gets.
ONE = r'''
#include "gates.h"
int main(void) {
    long long pair[2];
    get(pair, 16);
    return (int)(pair[0] OPERATION pair[1]);
}
'''
# By divisors of up to 16, 17 to 31, 32, 33 to 48 and more bits: of eight million pairs one that takes most, and its most steps.
DEAREST = {(0x36e933fd3d9757d3, 0xffffffffffffffff): 42, (0xfffffc271eca920b, 0xfffffffffffe0001): 55, (0xcdadad02ac2c5dac, 0x9f27fb1b): 63,
           (0xfff3a2b30fe1cf7a, 0xfffffffe74563087): 76, (0xfff8fffffffffff8, 0xfffeffffffffffff): 50}

OPERATIONS = {"add": 5, "sub": 9, "or": 0x55, "and": 0xfe, "xor": 0x81, "nand": 0x3c}
AFTERWARDS = [
    "__atomic_load_n(p, 5)", "__atomic_exchange_n(p, (T)42, 5)", "__atomic_compare_exchange_n(p, &y, (T)1, 0, 5, 5)", "y",
    "__atomic_compare_exchange_n(p, &y, (T)-1, 0, 5, 5)", "x", "__sync_bool_compare_and_swap(p, (T)-1, (T)3)",
    "__sync_bool_compare_and_swap(p, (T)-1, (T)4)", "__sync_val_compare_and_swap(p, (T)3, (T)-5)",
    "__sync_val_compare_and_swap(p, (T)3, (T)6)", "__sync_lock_test_and_set(p, (T)9)"]
TYPES = ["signed char", "unsigned char", "short", "unsigned short", "int", "unsigned", "s8", "u8"]


def atomics():
    """A program that tries each operation on numbers of each type; gcc does nothing for a release of 8 bytes."""
    forms = ["__sync_fetch_and_{}(p, (T){})", "__sync_{}_and_fetch(p, (T){})", "__atomic_fetch_{}(p, (T){}, 5)",
             "__atomic_{}_fetch(p, (T){}, 5)"]
    says = [f"say({form.format(*operation)});" for form in forms for operation in OPERATIONS.items()]
    says += ["__atomic_store_n(p, (T)-100, 5);", *(f"say({text});" for text in AFTERWARDS),
             "if (sizeof x < 8) __sync_lock_release(p), say(x);"]
    body = "\n    ".join(["T x = (T)-3, y = 7, *p = &x;", *says, "end();"])
    functions = [f"#define T {name}\nstatic void try{number}(void) {{\n    {body}\n}}\n#undef T\n"
                 for number, name in enumerate(TYPES)]
    calls = " ".join(f"try{number}();" for number in range(len(TYPES)))
    return FRAME + "".join(functions) + f"int main(void) {{ {calls} return 0; }}\n"


# On structures, and what C11 has. The machine of gcc has no atomic instructions for them.
OBJECTS = FRAME + r'''
#include <stdatomic.h>
struct three { int a, b, c, d; };
static _Atomic struct three shared;
int main(void) {
    struct three one = {1, 2, 3, 4}, two = {1, 2, 3, 4}, four = {4, 5, 6, 7}, old;
    atomic_flag flag = ATOMIC_FLAG_INIT;
    atomic_int number = 5;
    int right = 0;
    atomic_store(&shared, one);
    old = atomic_exchange(&shared, four);
    right += old.a == 1 && old.d == 4;
    right += !atomic_compare_exchange_strong(&shared, &two, one) && two.a == 4 && two.d == 7;
    right += atomic_compare_exchange_strong(&shared, &two, one);
    old = atomic_load(&shared);
    right += old.a == 1 && old.d == 4;
    right += !atomic_flag_test_and_set(&flag);
    right += atomic_flag_test_and_set(&flag);
    atomic_flag_clear(&flag);
    right += !atomic_flag_test_and_set(&flag);
    number += 3;
    atomic_thread_fence(memory_order_seq_cst);
    right += ++number == 9 && atomic_is_lock_free(&number);
    return right;
}
'''

# Functions that keep one register, some and all, beside an array.
FRAMES = FRAME + r'''
static unsigned state = 7;
__attribute__((noinline)) unsigned next(void) { return state = state * 1103515245 + 12345; }
__attribute__((noinline)) unsigned few(unsigned a) { unsigned x = next(); return (next() ^ x) + a; }
__attribute__((noinline)) unsigned some(unsigned a, unsigned b) { unsigned x = few(a), y = few(b); return few(x + b) ^ few(y) ^ x * y; }
__attribute__((noinline)) unsigned many(unsigned a, unsigned b, unsigned c, unsigned d, unsigned e, unsigned f) {
    unsigned p = next(), q = few(a), r = next(), s = some(b, p);
    for (unsigned k = 0; k < 5; k++)
        p += next() * q + r * few(k) + a * s, q ^= b + c * d, r -= e ^ f;
    return p ^ q ^ r ^ s ^ a ^ b ^ c ^ d ^ e ^ f;
}
__attribute__((noinline)) unsigned array(unsigned n) {
    volatile unsigned of[600];
    for (unsigned k = 0; k < n; k++)
        of[k] = few(k);
    return of[n - 1] + many(of[0], of[1], of[2], of[3], 4, 5);
}
int main(void) {
    for (unsigned k = 0; k < 20; k++)
        say(many(k, state, k * 3, 7, state >> 3, k) + array(10 + k));
    end();
    return 0;
}
'''

# Writes as many bytes into an array of twelve as the first of the input says.
OVERFLOW = r'''
#include "gates.h"
static __attribute__((noinline)) void fill(char *to, int count) {
    for (int k = 0; k < count; k++)
        to[k] = count - 1 - k;
}
static __attribute__((noinline)) int filled(int count) {
    char room[12];
    fill(room, count);
    return room[3];
}
int main(void) {
    char count;
    get(&count, 1);
    return filled(count) + 1;
}
'''


@needs_program
@needs_a_compiler
class Runtime(Folder):
    def native(self, text):
        """What the program puts where it is compiled for this machine."""
        path = self.path("native")
        words = ["gcc", "-O1", "-w", "-DNATIVE", "-x", "c", "-", "-o", path]
        subprocess.run(words, input=text.encode(), stderr=subprocess.DEVNULL, check=True)
        return subprocess.run([path], stdout=subprocess.PIPE, check=True).stdout.hex()

    def compare(self, text, wanted, options=((), ("-O0",)), given="00"):
        path = self.write("program.c", text)
        ways = [(compiler, more) for more in options for compiler in COMPILERS]
        for number, (compiler, more) in enumerate(ways):
            for image_format in formats_due(number, len(ways)):
                words = [SFI_CC, "--program", SFI, "--cc", compiler, "-w", path, *more, "--format", image_format]
                image = subprocess.run(words, stdout=subprocess.PIPE, stderr=subprocess.PIPE, check=True).stdout
                run = [SFI, "run", "--rounds", "10", "--quantum", "1000000", "--input", given]
                found = subprocess.run(run, input=image, stdout=subprocess.PIPE, check=True, text=False).stdout.decode()
                self.assertRegex(found, wanted, f"{compiler} {more}, format {image_format}")

    @needs("gcc")
    def test_numbers(self):
        self.compare(NUMBERS, f"exit=0 .*out={self.native(NUMBERS)}\n$")

    def test_quotients(self):
        """100,000 and more by what Python's integers answer."""
        path, given = self.write("program.c", QUOTIENTS), list(pairs())
        numbers, wanted = b"".join(struct.pack("<2Q", *pair) for pair in given), [struct.pack("<4Q", *answers(*pair)) for pair in given]
        for compiler in COMPILERS:
            words = [SFI_CC, "--program", SFI, "--cc", compiler, "-o", self.path("program.image"), path]
            subprocess.run(words, check=True)
            found = subprocess.run([SFI, "exec", self.path("program.image")], input=numbers, capture_output=True, check=True).stdout
            wrong = [pair for place, pair in enumerate(given) if found[32 * place:32 * place + 32] != wanted[place]]
            self.assertEqual((len(found), wrong[:3]), (32 * len(given), []), compiler)

    def test_steps_of_signed_quotients(self):
        """With the call, and beside a sum."""
        path, steps = self.write("program.c", ONE), {}
        for operation in "+/%":
            words = [SFI_CC, "--program", SFI, "-O2", f"-DOPERATION={operation}", path]
            image = subprocess.run(words, stdout=subprocess.PIPE, check=True).stdout
            for pair in DEAREST:
                run = [SFI, "run", "--input", struct.pack("<2Q", *pair).hex()]
                line = subprocess.run(run, input=image, stdout=subprocess.PIPE, check=True).stdout.decode()
                steps[operation, pair] = int(re.search(r"steps=(\d+)", line)[1])
        for pair, most in DEAREST.items():
            for operation in "/%":
                self.assertLessEqual(steps[operation, pair] - steps["+", pair], most, (operation, pair))

    @needs("gcc")
    def test_atomics(self):
        self.compare(atomics(), f"exit=0 .*out={self.native(atomics())}\n$")

    def test_atomic_objects(self):
        self.compare(OBJECTS, "exit=8 ", ((),))

    @needs("gcc")
    def test_save_restore(self):
        """Frames of each size, by the functions that keep registers."""
        options = (("-msave-restore",), ("-msave-restore", "-Os"), ("-msave-restore", "-O1", "-fno-omit-frame-pointer"))
        self.compare(FRAMES, f"exit=0 .*out={self.native(FRAMES)}\n$", options)

    def test_stack_protector(self):
        """An array that has overflowed, also by one byte, a zero, ends the program by an ebreak."""
        protected = (("-fstack-protector-strong",), ("-fstack-protector-all", "-O0"))
        for count, wanted in ((12, "exit=9 "), (13, "trap=Break "), (16, "trap=Break ")):
            self.compare(OVERFLOW, wanted, protected, f"{count:02x}")
