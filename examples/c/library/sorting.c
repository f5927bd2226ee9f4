/* qsort of stdlib.h, by heapsort (Knuth, The Art of Computer Programming, volume 3, 5.2.3): in place, and without
   calling itself. */
#include "library.h"
#include <stdlib.h>

struct array {
    unsigned char *bytes;
    size_t size; /* of an element */
    int (*compare)(const void *, const void *);
};

static void exchange(unsigned char *left, unsigned char *right, size_t size) {
    for (; size; size--, left++, right++) {
        unsigned char kept = *left;
        *left = *right;
        *right = kept;
    }
}

static int is_less(struct array array, size_t left, size_t right) {
    return array.compare(array.bytes + left * array.size, array.bytes + right * array.size) < 0;
}

/* Of the first `count` elements, lets the one at `root` sink below those that are larger. */
static void sink(struct array array, size_t root, size_t count) {
    for (size_t child; (child = 2 * root + 1) < count; root = child) {
        if (child + 1 < count && is_less(array, child, child + 1))
            child++;
        if (!is_less(array, root, child))
            return;
        exchange(array.bytes + root * array.size, array.bytes + child * array.size, array.size);
    }
}

OWN_GOES_FIRST void qsort(void *bytes, size_t count, size_t size, int (*compare)(const void *, const void *)) {
    struct array array = {bytes, size, compare};
    for (size_t root = count / 2; root; root--)
        sink(array, root - 1, count);
    for (; count > 1; count--) {
        exchange(array.bytes, array.bytes + (count - 1) * size, size);
        sink(array, 0, count - 1);
    }
}
