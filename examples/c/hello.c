/* Greets by the small C library, which sfi-cc takes by itself. */
#include <stdio.h>

int main(void) {
    printf("Hello, world\n");
    return 0;
}
