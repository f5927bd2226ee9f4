/* What hosts share that compare two worlds of one image: numbers at random, the same answers, and whether sandboxes stand alike. */
#include "host.h"
#include <string.h>

enum { PIECE = 1 << 16 };

static inline void wanted(bool is_so, const char *what) {
    if (is_so)
        return;
    printf("not so: %s\n", what);
    exit(1);
}

static inline uint32_t any(void) {
    static uint64_t state = 88172645463325252u; /* Marsaglia's xorshift64, 2003 */
    state ^= state << 13, state ^= state >> 7, state ^= state << 17;
    return (uint32_t)(state >> 16);
}

/* Answers by what the sandbox passed, and writes into its data. */
static inline bool answers(struct sfi_run_world *world, uint32_t i, const struct sfi_run_event *call, void *context) {
    struct sfi_run_region data;
    const uint8_t byte = (uint8_t)(call->a1 * 7 + call->pc);
    (void)context;
    if (call->number == 0)
        return sfi_run_exit(world, i, call->a0);
    return sfi_run_data(world, i, &data) && sfi_run_write(world, i, data.base + call->a0 % data.size, &byte, 1) &&
           sfi_run_reply(world, i, call->a0 * 2654435761u + call->number, call->a1 + call->a2);
}

/* Whether these data of two sandboxes are the same. */
static inline bool have_alike(struct sfi_run_world *one, struct sfi_run_world *other, uint32_t i, struct sfi_run_region data) {
    uint8_t bytes[PIECE], others[PIECE];
    for (uint32_t at = 0; at < data.size; at += PIECE) {
        const uint32_t length = data.size - at < PIECE ? data.size - at : PIECE;
        if (!sfi_run_read(one, i, data.base + at, length, bytes, PIECE) || !sfi_run_read(other, i, data.base + at, length, others, PIECE) ||
            memcmp(bytes, others, length))
            return false;
    }
    return true;
}

/* Whether two sandboxes of one image stand alike, but for their steps. */
static inline bool stand_alike(struct sfi_run_world *one, struct sfi_run_world *other, uint32_t i) {
    struct sfi_run_event event, also;
    struct sfi_run_registers registers, those;
    struct sfi_run_region data;
    sfi_run_event(one, i, &event), sfi_run_event(other, i, &also);
    return sfi_run_registers(one, i, &registers) && sfi_run_registers(other, i, &those) && sfi_run_data(one, i, &data) &&
           !memcmp(&event, &also, sizeof event) && !memcmp(&registers, &those, sizeof registers) && have_alike(one, other, i, data);
}
