/* The host of `sfi run` (docs/GATES.md), its options and its lines, for a translated image.

       sfi translate < IMAGE.hex > image.c &&
       gcc -O2 -I crates/sfi_translate/include -I . -DSFI_TEXT='"image.c"' examples/translate/sfi_console.c -o image &&
       ./image --rounds N --quantum Q --input HEX

   `sfi translate --whole` prints both in one, made by tools/whole_translation.py. */
#include <stdio.h>
#include <stdlib.h>
#include "sfi_native.h"
#include "sfi_services.h"

static const char *const CAUSES[] = { "", "", "Load", "Store", "Break", "Fetch" };

struct running {
    struct sfi_hart hart;
    int is_ready;
    char state[32];
    uint64_t steps;
};
static struct running running[SFI_SANDBOXES];
static struct sfi_session sessions[SFI_SANDBOXES];
static struct sfi_console console = { NULL, 0, SFI_OUTPUT_MOST, SFI_SANDBOXES, sessions };

/* Answers a call; 0 where the turn ends. */
static int answer(sfi_u32 number, const struct sfi_sandbox *s, sfi_u32 service) {
    struct running *it = &running[number];
    sfi_u32 *const a = it->hart.x + 10;
    struct sfi_console_call call = { number, service, a[0], a[1], it->hart.data, s->data, s->data_size };
    it->hart.left--;
    if (service == SFI_EXIT_SERVICE) {
        sprintf(it->state, "exit=%u", (unsigned)a[0]);
        return it->is_ready = 0;
    }
    it->hart.pc += 4;
    if (service == SFI_YIELD_SERVICE)
        return 0;
    sfi_console_reply(&console, &call);
    a[0] = call.a0;
    a[1] = call.a1;
    return 1;
}

static void take_turn(sfi_u32 number, sfi_u32 quantum) {
    const struct sfi_sandbox *s = &sfi_sandboxes[number];
    struct running *it = &running[number];
    sfi_u32 at = 0, service = 0;
    int how;
    it->hart.left = quantum;
    while ((how = sfi_turn(s, &it->hart, &at)) == SFI_CALL) {
        for (sfi_u32 k = 0; k < s->gates; k++)
            if (s->gate[k].address == it->hart.pc)
                service = s->gate[k].service;
        if (!answer(number, s, service))
            break;
    }
    if (how != SFI_NEXT && how != SFI_CALL) {
        sprintf(it->state, "trap=%s at=%08x", CAUSES[how], (unsigned)at);
        it->is_ready = 0;
    }
    it->steps += quantum - it->hart.left;
}

static void begin(sfi_u32 number) {
    const struct sfi_sandbox *s = &sfi_sandboxes[number];
    struct running *it = &running[number];
    strcpy(it->state, "ready");
    it->is_ready = 1;
    it->hart.data = calloc(1, s->data_size);
    sessions[number].output = malloc(SFI_OUTPUT_MOST);
    if (it->hart.data == NULL || sessions[number].output == NULL)
        exit(4);
    memcpy(it->hart.data, s->first_data, s->init);
    sfi_begin(s, &it->hart, s->start);
}

static void usage(void) {
    fprintf(stderr, "options: --rounds N (1 to 10000), --quantum Q (1 to 1000000), --input HEX\n");
    exit(3);
}

/* The number that the digits spell, from 1 to `most`. */
static sfi_u32 number_of(const char *digits, unsigned long most) {
    char *end;
    const unsigned long number = strtoul(digits, &end, 10);
    if (*digits < '0' || *digits > '9' || *end != 0 || number < 1 || number > most)
        usage();
    return (sfi_u32)number;
}

static void read_input(const char *digits) {
    const size_t count = strlen(digits);
    uint8_t *input = malloc(count / 2 + 1);
    unsigned byte;
    if (count % 2 != 0 || strspn(digits, "0123456789abcdefABCDEF") != count) {
        fprintf(stderr, "--input takes pairs of hexadecimal digits\n");
        exit(2);
    }
    if (input == NULL)
        exit(4);
    console.input = input;
    for (; sscanf(digits, "%2x", &byte) == 1; digits += 2)
        input[console.input_length++] = (uint8_t)byte;
}

int main(int count, char **words) {
    sfi_u32 rounds = 1, quantum = 1000;
    for (int k = 1; k < count; k += 2) {
        if (k + 1 == count)
            usage();
        if (strcmp(words[k], "--rounds") == 0)
            rounds = number_of(words[k + 1], 10000);
        else if (strcmp(words[k], "--quantum") == 0)
            quantum = number_of(words[k + 1], 1000000);
        else if (strcmp(words[k], "--input") == 0)
            read_input(words[k + 1]);
        else
            usage();
    }
    for (sfi_u32 number = 0; number < SFI_SANDBOXES; number++)
        begin(number);
    for (; rounds; rounds--)
        for (sfi_u32 number = 0; number < SFI_SANDBOXES; number++)
            if (running[number].is_ready)
                take_turn(number, quantum);
    for (sfi_u32 number = 0; number < SFI_SANDBOXES; number++) {
        const struct running *it = &running[number];
        printf("sandbox=%u %s steps=%llu out=", (unsigned)number, it->state, (unsigned long long)it->steps);
        for (size_t k = 0; k < sessions[number].written; k++)
            printf("%02x", sessions[number].output[k]);
        printf("\n");
        free(it->hart.data);
    }
    return 0;
}
