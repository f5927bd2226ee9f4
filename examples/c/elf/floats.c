/* Answers 42 where products, quotients and conversions of floating point are those of IEEE 754. */
volatile double seven = 3.5, third = 3;
volatile float single = 3;
volatile long double wide = 10;

int main(void) {
    union { double value; unsigned long long bits; } quotient = {1 / third};
    union { float value; unsigned bits; } short_quotient = {1 / single};
    if ((int)(seven * 2) != 7 || quotient.bits != 0x3fd5555555555555 || short_quotient.bits != 0x3eaaaaab)
        return 1;
    return wide / 4 == 2.5 && (unsigned long long)(wide * 1e10) == 100000000000 ? 42 : 2;
}
