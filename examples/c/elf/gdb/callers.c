/* Traps in a function that the library calls: a debugger finds the way back to main. */
#include <stdlib.h>

static int numbers[3] = {3, 1, 2};

__attribute__((noinline)) static int compare(const void *left, const void *right) {
    if (*(const int *)left == 1 || *(const int *)right == 1)
        __builtin_trap();
    return *(const int *)left - *(const int *)right;
}

int main(void) {
    qsort(numbers, 3, sizeof numbers[0], compare);
    return 0;
}
