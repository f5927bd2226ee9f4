/* A program of examples/c, compiled with -Dmain=program -Dget=given -Dput=taken, is run -DTIMES=N times over the bytes that the
   file INPUT lists (translated.py). The program exits with a checksum of what it puts, or with -DNATIVE prints it. */
#ifdef NATIVE
#include <stdio.h>
#endif

extern int program(void);
static const unsigned char input[] = {
#include INPUT
};
static unsigned place, sum;

long given(void *bytes, unsigned length) {
    unsigned char *to = bytes;
    const unsigned left = sizeof input - 1 - place, count = length < left ? length : left; /* the list ends in a zero more */
    for (unsigned k = 0; k < count; k++)
        to[k] = input[place + k];
    place += count;
    return (long)count;
}

long taken(const void *bytes, unsigned length) {
    const unsigned char *from = bytes;
    for (unsigned k = 0; k < length; k++)
        sum = sum * 31 + from[k];
    return (long)length;
}

int main(void) {
    for (int k = 0; k < TIMES; k++) {
        place = 0;
        const int code = program(); /* which changes the sum, and so goes first */
        sum = sum * 31 + (unsigned)code;
    }
#ifdef NATIVE
    printf("%u\n", sum);
    return 0;
#else
    return (int)sum;
#endif
}
