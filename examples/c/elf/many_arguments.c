/* A call of a function that no other file calls, with more words than registers take arguments: LLVM has a calling
   convention of its own for such, whose registers are the sandbox's. */
static __attribute__((noinline)) int mixed(int a, int b, int c, int d, int e, int f, int g, int h, int i, int j, int k,
                                           int l, int m) {
    static volatile int mix;
    return mix = a - 2 * b + 3 * c - 4 * d + 5 * e - 6 * f + 7 * g - 8 * h + 9 * i - 10 * j + 11 * k - 12 * l + 13 * m;
}

int main(void) {
    volatile int one = 1, nine = 9;
    return mixed(one, nine, 2, one, 4, nine, 6, one, 8, nine, 10, one, 12);
}
