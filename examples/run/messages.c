/* Two plug-ins exchange words through the host, and one of them doesn't end: squares.s.
 *
 *     messages IMAGE [ROUNDS [QUANTUM]]
 *
 * Each round has a turn of each. When the first has exited, or the rounds are used, what still runs is cut off.
 */
#include "host.h"
#include <inttypes.h>

enum { EXIT = 0, YIELD = 3, POST = 4, TAKE = 5, ROOM = 16 };

static struct mail {
    uint32_t word, sender;
} mail[16][ROOM];
static uint32_t waiting[16];

static uint32_t post(uint32_t from, uint32_t to, uint32_t word, uint32_t sandboxes) {
    if (to >= sandboxes || waiting[to] == ROOM)
        return UINT32_MAX;
    printf("%" PRIu32 " -> %" PRIu32 ": %" PRIu32 "\n", from, to, word);
    mail[to][waiting[to]++] = (struct mail){word, from + 1};
    return 0;
}

static struct mail take(uint32_t i) {
    struct mail oldest = {0, 0};
    if (waiting[i] > 0) {
        oldest = mail[i][0];
        waiting[i]--;
        for (uint32_t k = 0; k < waiting[i]; k++)
            mail[i][k] = mail[i][k + 1];
    }
    return oldest;
}

/* Replies to a call. Whether the turn goes on. */
static bool serve(struct sfi_run_world *world, uint32_t i, const struct sfi_run_event *call, void *context) {
    (void)context;
    struct mail reply = {UINT32_MAX, call->a1};
    if (call->number == EXIT)
        return !sfi_run_exit(world, i, call->a0);
    if (call->number == POST)
        reply.word = post(i, call->a0, call->a1, (uint32_t)sfi_run_count(world));
    else if (call->number == TAKE)
        reply = take(i);
    else if (call->number == YIELD)
        reply.word = call->a0;
    return sfi_run_reply(world, i, reply.word, reply.sender) && call->number != YIELD;
}

int main(int count, char **words) {
    struct sfi_run_world world = SFI_RUN_NO_WORLD;
    struct sfi_run_event event;
    if (count < 2)
        return 3;
    load_file(words[1], &world);
    long rounds = count > 2 ? atol(words[2]) : 20, quantum = count > 3 ? atol(words[3]) : 100;
    uint32_t sandboxes = (uint32_t)sfi_run_count(&world);
    for (; rounds > 0 && sfi_run_event(&world, 0, &event) != SFI_RUN_EXITED; rounds--)
        for (uint32_t i = 0; i < sandboxes; i++)
            sfi_run_serve(&world, i, (uint64_t)quantum, serve, NULL, &event);
    for (uint32_t i = 0; i < sandboxes; i++)
        if (sfi_run_event(&world, i, &event) == SFI_RUN_EXITED)
            printf("%" PRIu32 " exited with %" PRIu32 "\n", i, event.number);
        else
            printf("%" PRIu32 " is cut off after %" PRIu64 " steps\n", i, sfi_run_steps(&world, i));
    sfi_run_free(&world);
    return 0;
}
