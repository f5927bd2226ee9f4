/* Calls a plug-in as a function: turn.s turns a text round, and has the host put it into upper case.
 *
 *     function IMAGE TEXT ..
 */
#include "host.h"
#include <ctype.h>
#include <inttypes.h>
#include <string.h>

enum { EXIT, UPPER, STEPS = 10000, LONGEST = 256 };

/* A text of the sandbox is put into upper case, in a copy of the host's own. */
static uint32_t upper(struct sfi_run_world *world, uint32_t i, uint32_t at, uint32_t length) {
    uint8_t text[LONGEST];
    if (!sfi_run_read(world, i, at, length, text, sizeof text))
        return UINT32_MAX;
    for (uint32_t k = 0; k < length; k++)
        text[k] = (uint8_t)toupper(text[k]);
    sfi_run_write(world, i, at, text, length);
    return length;
}

static bool serve(struct sfi_run_world *world, uint32_t i, const struct sfi_run_event *call, void *context) {
    (void)context;
    if (call->number == EXIT)
        return sfi_run_exit(world, i, call->a0);
    return sfi_run_reply(world, i, upper(world, i, call->a0, call->a1), call->a1);
}

/* Calls the function on a text, which gets what it makes of it: whether it returned. */
static bool call(struct sfi_run_world *world, uint32_t function, char *text, uint64_t *number) {
    struct sfi_run_region data;
    uint32_t length = (uint32_t)strlen(text);
    sfi_run_data(world, 0, &data);
    const uint32_t arguments[8] = {data.base, length};
    return sfi_run_write(world, 0, data.base, (uint8_t *)text, length) &&
           sfi_run_function(world, 0, function, arguments, STEPS, serve, NULL, number) == SFI_RUN_RETURNED &&
           sfi_run_read(world, 0, data.base, length, (uint8_t *)text, length);
}

int main(int count, char **words) {
    struct sfi_run_world world = SFI_RUN_NO_WORLD;
    struct sfi_run_registers registers;
    struct sfi_run_event event;
    uint64_t number;
    if (count < 2)
        return 3;
    load_file(words[1], &world);
    sfi_run_registers(&world, 0, &registers);
    sfi_run_serve(&world, 0, STEPS, serve, NULL, &event); /* it exits at its start; the function is the bundle after that */
    for (int k = 2; k < count; k++) {
        if (!call(&world, registers.pc + 16, words[k], &number)) {
            fprintf(stderr, "the plug-in didn't return\n");
            return 1;
        }
        printf("%s %" PRIu32 "\n", words[k], (uint32_t)number);
    }
    sfi_run_free(&world);
    return 0;
}
