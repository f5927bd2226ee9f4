/* A checker of images in plain C, a yardstick for `sfi check` and for the library. It is UNTRUSTED: nothing is proved of it, it is used
   for measuring alone, and no image should be run because it accepts it. It tests the layout and the rules of code in bundles.

       gcc -O2 [-DCLASS_TABLE] -o checker bench/checker.c

   Instructions are classified by switches on their fields, or with -DCLASS_TABLE by a table of 65,536 classes, indexed by an
   instruction's first 16 bits (of a word its opcode, rd, funct3 and a bit of rs1).

       checker IMAGE                   the verdict's line, as `sfi check --raw` prints it
       checker --list IMAGE            before it a line for each finding, of sandbox, address and rule, as `sfi check --report` begins it
       checker --many FILE             a verdict's line for each image of the file, where each stands behind its length in four bytes
       checker --bench IMAGE REPEATS   megabytes (10^6) of image a second, by the processor time of the best of five groups of REPEATS
                                       checks; ends in 1 where the image isn't accepted

   Else it ends in 0 where it accepts, in 1 where a rule is broken, in 2 where the layout isn't right (--many: in 0), and in 3 where it
   doesn't know the words or can't read the file. */
#include <stdio.h>
#include <stdlib.h>
#include <time.h>

#include "checker_fields.h"
#include "checker_classes.h"
#include "checker_scan.h"
#include "checker_layout.h"

static u8 bytes[1 << 26];

static int status_of(const Check *c) { return c->fault ? 2 : c->findings.count ? 1 : 0; }

static void print_verdict(const Check *c) {
    static const char *const names[] = {"", "Magic", "Count", "Short", "Code", "Data", "GuardRoom", "Start", "Gates", "Init", "Overlap",
        "Trailing"};
    const Finding *first = &c->findings.first;
    if (c->fault)
        printf("layout fault %u %s\n", c->fault, names[c->fault]);
    else if (c->findings.count)
        printf("refused findings=%u first=V%u sandbox=%u at=%08x\n", c->findings.count, first->rule, first->sandbox, first->address);
    else
        printf("accepted sandboxes=%u bundles=%u\n", c->sandboxes, c->bundles);
}

static double seconds(void) {
    struct timespec now;
    clock_gettime(CLOCK_PROCESS_CPUTIME_ID, &now);
    return (double)now.tv_sec + (double)now.tv_nsec / 1e9;
}

/* The processor time of `repeats` checks, or a negative number where the image isn't accepted. */
static double time_of(size_t length, int repeats) {
    double begun = seconds();
    for (int k = 0; k < repeats; k++) {
        Check c = check(bytes, length, false);
        if (status_of(&c) != 0)
            return -1;
    }
    return seconds() - begun;
}

static int bench(size_t length, int repeats) {
    double best = 1e9;
    for (int group = 0; group < 5; group++) {
        double taken = time_of(length, repeats);
        if (taken < 0)
            return 1;
        best = taken < best ? taken : best;
    }
    printf("%.1f MB/s\n", (double)length * repeats / 1e6 / best);
    return 0;
}

/* The findings are listed by a second check: an image may break rules before a fault of its layout, which goes before them. */
static int judge(size_t length, bool is_listed) {
    Check c = check(bytes, length, false);
    if (is_listed && c.fault == 0)
        check(bytes, length, true);
    print_verdict(&c);
    return status_of(&c);
}

static int judge_many(size_t length) {
    for (size_t at = 0; at + 4 <= length;) {
        size_t size = word_at(bytes + at), left = length - at - 4;
        if (size > left)
            return 3;
        Check c = check(bytes + at + 4, size, false);
        print_verdict(&c);
        at += 4 + size;
    }
    return 0;
}

int main(int count, char **words) {
    bool has_option = count > 2;
    FILE *file = count > 1 ? fopen(words[has_option ? 2 : 1], "rb") : NULL;
    if (!file)
        return 3;
    size_t length = fread(bytes, 1, sizeof bytes, file);
    fill_classes();
    if (!has_option)
        return judge(length, false);
    if (strcmp(words[1], "--list") == 0)
        return judge(length, true);
    if (strcmp(words[1], "--many") == 0)
        return judge_many(length);
    return strcmp(words[1], "--bench") == 0 && count == 4 ? bench(length, atoi(words[3])) : 3;
}
