/* A loop whose pointer the passes keep in a register of theirs: at no time may gdb show another value than C's. */
int numbers[16];

__attribute__((noinline)) int sum(const int *at, int count) {
    int total = 0;
    for (const int *end = at + count; at != end; at++) {
        if (*at > 3)
            total += *at;
        total ^= at[1];
    }
    return total;
}

int main(void) {
    for (int i = 0; i < 16; i++)
        numbers[i] = i;
    return sum(numbers, 12);
}
