/* How fast sfi_c_check is on an image in memory: scan IMAGE REPEATS prints the megabytes (10^6) of image a second, by the
   processor time of the best of five groups of REPEATS calls. Ends in 1 where the image isn't accepted. */
#include "sfi.h"
#include <stdio.h>
#include <stdlib.h>
#include <time.h>

static uint8_t image[1 << 26];

static double seconds(void) {
    struct timespec now;
    clock_gettime(CLOCK_PROCESS_CPUTIME_ID, &now);
    return (double)now.tv_sec + (double)now.tv_nsec / 1e9;
}

int main(int count, char **words) {
    FILE *file = count == 3 ? fopen(words[1], "rb") : NULL;
    if (!file)
        return 3;
    size_t length = fread(image, 1, sizeof image, file);
    int repeats = atoi(words[2]);
    double best = 1e9;
    for (int group = 0; group < 5; group++) {
        double begun = seconds();
        for (int k = 0; k < repeats; k++) {
            struct sfi_verdict verdict;
            if (sfi_c_check(image, length, &verdict) != SFI_ACCEPTED)
                return 1;
        }
        double taken = seconds() - begun;
        best = taken < best ? taken : best;
    }
    printf("%.1f MB/s\n", (double)length * repeats / 1e6 / best);
    return 0;
}
