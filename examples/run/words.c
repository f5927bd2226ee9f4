/* Calls functions of a plug-in in C: words_plugin.c begins each word of a text with a capital letter, and asks the host for
 * its price. Then one is entered that never ends, and is cut off.
 *
 *     words IMAGE TEXT ..
 */
#include "host.h"
#include <inttypes.h>
#include <string.h>

enum { EXIT = 0, PRICE = 2, STEPS = 10000 };

static bool serve(struct sfi_run_world *world, uint32_t i, const struct sfi_run_event *call, void *context) {
    (void)context;
    if (call->number == EXIT)
        return sfi_run_exit(world, i, call->a0);
    return sfi_run_reply(world, i, call->number == PRICE ? 10 * call->a0 + call->a1 : UINT32_MAX, call->a1);
}

/* Runs the plug-in for STEPS steps in all, however often it calls: how it stands then. */
static uint32_t run(struct sfi_run_world *world, struct sfi_run_event *event) {
    return sfi_run_serve(world, 0, STEPS, serve, NULL, event);
}

/* What the plug-in's table says. It may say anything: each call below answers whether it holds. */
struct table {
    uint32_t capitalize, ask_forever, text, room;
};

static uint32_t word(const uint8_t *bytes) {
    return (uint32_t)bytes[0] | (uint32_t)bytes[1] << 8 | (uint32_t)bytes[2] << 16 | (uint32_t)bytes[3] << 24;
}

static bool find(struct sfi_run_world *world, struct table *table) {
    struct sfi_run_event event;
    uint8_t bytes[16];
    if (run(world, &event) != SFI_RUN_EXITED || !sfi_run_read(world, 0, event.number, sizeof bytes, bytes, sizeof bytes))
        return false;
    *table = (struct table){word(bytes), word(bytes + 4), word(bytes + 8), word(bytes + 12)};
    return true;
}

static bool capitalize(struct sfi_run_world *world, const struct table *table, char *text, uint64_t *number) {
    size_t length = strlen(text);
    const uint32_t arguments[8] = {table->text, (uint32_t)length};
    return length <= table->room && sfi_run_write(world, 0, table->text, (uint8_t *)text, length) &&
           sfi_run_function(world, 0, table->capitalize, arguments, STEPS, serve, NULL, number) == SFI_RUN_RETURNED &&
           sfi_run_read(world, 0, table->text, length, (uint8_t *)text, length);
}

int main(int count, char **words) {
    struct sfi_run_world world = SFI_RUN_NO_WORLD;
    struct sfi_run_event event;
    struct table table;
    uint64_t number;
    if (count < 2)
        return 3;
    load_file(words[1], &world);
    bool is_done = find(&world, &table);
    for (int k = 2; is_done && k < count; k++)
        if ((is_done = capitalize(&world, &table, words[k], &number)))
            printf("%s %" PRIu32 "\n", words[k], (uint32_t)number);
    if (is_done && (is_done = sfi_run_enter(&world, 0, table.ask_forever, (uint32_t[8]){0}))) {
        const char *ended = run(&world, &event) == SFI_RUN_EXITED ? "exited" : "cut off";
        printf("%s after %" PRIu64 " steps\n", ended, sfi_run_steps(&world, 0));
    }
    if (!is_done)
        fprintf(stderr, "the plug-in didn't do as it should\n");
    sfi_run_free(&world);
    return is_done ? 0 : 1;
}
