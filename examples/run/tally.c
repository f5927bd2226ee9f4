/* Hands a plug-in numbers, of which it keeps a sum; at the word "new" it begins anew, as for another client.
 *
 *     tally IMAGE NUMBER|new ..    # IMAGE is that of tally.s
 */
#include "host.h"
#include <inttypes.h>
#include <string.h>

enum { STEPS = 1000 };

/* The plug-in as it is loaded, before its first run. */
static bool begin(struct sfi_run_world *world) {
    return sfi_run_reset(world, 0) && sfi_run_stop(world, 0);
}

static bool add(struct sfi_run_world *world, uint32_t start, uint32_t number) {
    const uint32_t arguments[8] = {number};
    uint64_t sum;
    bool is_done = sfi_run_function(world, 0, start, arguments, STEPS, NULL, NULL, &sum) == SFI_RUN_RETURNED;
    if (is_done)
        printf("%" PRIu32 "\n", (uint32_t)sum);
    return is_done;
}

int main(int count, char **words) {
    struct sfi_run_world world = SFI_RUN_NO_WORLD;
    struct sfi_run_registers registers;
    if (count < 2)
        return 3;
    load_file(words[1], &world);
    bool is_done = sfi_run_registers(&world, 0, &registers) && begin(&world);
    for (int k = 2; is_done && k < count; k++)
        is_done = strcmp(words[k], "new") ? add(&world, registers.pc, (uint32_t)strtoul(words[k], NULL, 10)) : begin(&world);
    sfi_run_free(&world);
    return is_done ? 0 : 1;
}
