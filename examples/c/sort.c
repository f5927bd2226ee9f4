/* Sorts the decimal numbers of its input by heapsort (Williams, 1964), one a line, ascending; a word `down` among them
   makes it descending. Exits with how many there are, modulo 256. The order is a function that is called by its address. */
#include "gates.h"
#include "numbers.h"

enum { MOST = 4096, MOST_BYTES = 65536 };

typedef int order(int, int);

static char text[MOST_BYTES];
static int numbers[MOST];

static int ascending(int a, int b) {
    return a < b;
}

static int descending(int a, int b) {
    return b < a;
}

static void sift(int *heap, int at, int count, order *before) {
    int value = heap[at];
    for (;;) {
        int child = 2 * at + 1;
        if (child >= count)
            break;
        if (child + 1 < count && before(heap[child], heap[child + 1]))
            child++;
        if (!before(value, heap[child]))
            break;
        heap[at] = heap[child];
        at = child;
    }
    heap[at] = value;
}

static void sort(int *values, int count, order *before) {
    for (int at = count / 2; at-- > 0;)
        sift(values, at, count, before);
    while (count > 1) {
        int last = values[--count];
        values[count] = values[0];
        values[0] = last;
        sift(values, 0, count, before);
    }
}

static int is_digit(char c) {
    return c >= '0' && c <= '9';
}

/* Reads the numbers of the text, and answers how many there are. A word that begins with d sets the order. */
static int read_numbers(const char *at, const char *end, order **before) {
    int count = 0;
    while (at < end && count < MOST) {
        int negative = *at == '-';
        unsigned value = 0;
        if (*at == 'd')
            *before = descending;
        at += negative;
        if (at >= end || !is_digit(*at)) {
            at += !negative;
            continue;
        }
        for (; at < end && is_digit(*at); at++)
            value = value * 10 + (*at - '0');
        numbers[count++] = negative ? -value : value;
    }
    return count;
}

int main(void) {
    order *before = ascending;
    long length = 0, more;
    while (length < MOST_BYTES && (more = get(text + length, MOST_BYTES - length)) > 0)
        length += more;
    int count = read_numbers(text, text + length, &before);
    sort(numbers, count, before);
    for (int i = 0; i < count; i++) {
        put_number(numbers[i]);
        put("\n", 1);
    }
    return count & 255;
}
