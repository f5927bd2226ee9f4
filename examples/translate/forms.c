/* Does lines of a translation (forms.py): for each `struct given` on standard input a `struct found`. */
#include <stdio.h>
#include <stdlib.h>
#include "sfi_native.h"

enum { DATA_SIZE = 256 };
enum { FUNCTION_WAY, STEP_WAY, TURN_WAY, MANY_WAY };

struct given {
    sfi_u32 way, pc, left, x[32];
    uint8_t data[DATA_SIZE];
};

struct found {
    sfi_u32 how, at, pc, left, x[32];
    uint8_t data[DATA_SIZE];
};

/* Data that a sanitizer watches. */
static uint8_t *new_data(void) {
    uint8_t *const data = calloc(1, DATA_SIZE);
    if (data == NULL)
        exit(4);
    return data;
}

static void do_lines(const struct given *given, struct found *found) {
    const struct sfi_sandbox *s = &sfi_sandboxes[SFI_SANDBOXES - 1];
    struct sfi_hart hart = {.pc = given->pc, .left = given->left};
    hart.data = new_data();
    memcpy(hart.x, given->x, sizeof hart.x);
    memcpy(hart.data, given->data, DATA_SIZE);
    found->at = 0;
    if (given->way == FUNCTION_WAY)
        found->how = (sfi_u32)s->functions[given->pc / SFI_PART - s->code / SFI_PART](&hart);
    else if (given->way == STEP_WAY)
        found->how = (sfi_u32)sfi_step(s, &hart, &found->at);
    else
        found->how = (sfi_u32)sfi_turn(s, &hart, &found->at);
    found->pc = hart.pc;
    found->left = hart.left;
    memcpy(found->x, hart.x, sizeof found->x);
    memcpy(found->data, hart.data, DATA_SIZE);
    free(hart.data);
}

static sfi_u32 number(void) {
    static sfi_u32 last = 1;
    last ^= last << 13;
    last ^= last >> 17;
    return last ^= last << 5;
}

/* A number that is small, at an end of the data, or any. */
static sfi_u32 word(const struct sfi_sandbox *s) {
    const sfi_u32 kind = number() % 4, some = number();
    return kind == 0 ? some % 600 - 300 : kind == 1 ? s->data + some % 8 - 4 : kind == 2 ? s->data + DATA_SIZE - 4 + some % 8 : some;
}

/* In how many of so many random states (left) the line at pc does something else in its function than in sfi_step. */
static sfi_u32 differing(const struct given *given) {
    const struct sfi_sandbox *s = &sfi_sandboxes[SFI_SANDBOXES - 1];
    uint8_t *const stepped_data = new_data(), *const done_data = new_data();
    sfi_u32 count = 0, at;
    for (sfi_u32 k = 0; k < given->left; k++) {
        struct sfi_hart stepped = {.pc = given->pc, .left = SFI_MOST, .data = stepped_data}, done;
        for (int r = 1; r < 32; r++)
            stepped.x[r] = r >= 24 && r <= 27 && !(s->single && r == 26) ? given->x[r] : word(s);
        stepped_data[number() % DATA_SIZE] = (uint8_t)number();
        done = stepped;
        done.data = memcpy(done_data, stepped_data, DATA_SIZE);
        const int is_next = sfi_step(s, &stepped, &at) == SFI_NEXT;
        const int is_left = s->functions[given->pc / SFI_PART - s->code / SFI_PART](&done);
        count += !(is_next || is_left) || stepped.pc != done.pc || stepped.left != done.left ||
            memcmp(stepped.x, done.x, sizeof done.x) || memcmp(stepped_data, done_data, DATA_SIZE);
    }
    free(stepped_data);
    free(done_data);
    return count;
}

int main(void) {
    static struct given given;
    static struct found found;
    while (fread(&given, sizeof given, 1, stdin) == 1) {
        if (given.way == MANY_WAY)
            found.how = differing(&given);
        else
            do_lines(&given, &found);
        fwrite(&found, sizeof found, 1, stdout);
    }
    return 0;
}
