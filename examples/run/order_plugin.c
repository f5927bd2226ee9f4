/* A plug-in that sorts numbers by an order of its host's, and has a function by which the host orders. */
#include "gates.h"
#include <stdlib.h>

SFI_IMPORT int compare(int a, int b); /* the host's: below 0 where a comes first, above 0 where b does */

SFI_EXPORT int numbers[8];

static int by_host(const void *a, const void *b) { return compare(*(const int *)a, *(const int *)b); }

SFI_EXPORT void sort(int count) { qsort(numbers, count, sizeof *numbers, by_host); }

SFI_EXPORT int digit(int number) { return number % 10; }
