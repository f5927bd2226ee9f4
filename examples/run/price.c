/* What price.py measures.
 *
 *     price IMAGE turn TIMES STEPS     # a sandbox takes TIMES turns of STEPS steps each, and each call gets a reply
 *     price IMAGE read TIMES LENGTH    # LENGTH bytes of its data are read, TIMES times
 *     price IMAGE write TIMES LENGTH   # they are written
 *     price IMAGE load TIMES 0         # the image is loaded TIMES times more
 *     price IMAGE end TIMES STEPS      # TIMES runs of an endless loop, which another thread ends; then as many which a time ends
 *
 * Of runs that are ended it prints how many microseconds later each returned.
 */
#include "host.h"
#include "sfi_run_limit.h"
#include <inttypes.h>
#include <pthread.h>

static uint8_t bytes[1 << 20];
static struct sfi_run_limit limit = SFI_RUN_NO_LIMIT;
static uint64_t ended; /* when */

static void turn(struct sfi_run_world *world, uint32_t steps) {
    struct sfi_run_event event;
    if (sfi_run_turn(world, 0, steps, &event) == SFI_RUN_CALL)
        sfi_run_reply(world, 0, event.a0, event.a1);
}

static void *end_soon(void *nanoseconds) {
    const struct timespec soon = {0, *(long *)nanoseconds};
    nanosleep(&soon, NULL);
    ended = sfi_run_limit_clock();
    sfi_run_limit_end(&limit);
    return NULL;
}

/* One run, which ends after so many nanoseconds by a time, or by another thread. */
static void run_up_to_an_end(struct sfi_run_world *world, uint32_t steps, long after, bool by_time) {
    struct sfi_run_watch watch = sfi_run_limit_watch(&limit);
    struct sfi_run_event event;
    pthread_t thread;
    watch.steps = steps;
    sfi_run_limit_renew(&limit);
    if (by_time)
        sfi_run_limit_time(&limit, (uint64_t)after), ended = limit.deadline;
    else
        pthread_create(&thread, NULL, end_soon, &after);
    sfi_run_serve_watched(world, 0, UINT64_MAX, NULL, NULL, &watch, &event);
    const uint64_t now = sfi_run_limit_clock();
    if (!by_time)
        pthread_join(thread, NULL);
    printf("%.3f\n", (double)(now - ended) / 1000);
}

int main(int count, char **words) {
    struct sfi_run_world world = SFI_RUN_NO_WORLD;
    struct sfi_run_region data;
    if (count != 5)
        return 3;
    load_file(words[1], &world);
    sfi_run_data(&world, 0, &data);
    char what = words[2][0];
    uint32_t number = (uint32_t)atol(words[4]);
    for (long times = atol(words[3]); times > 0; times--)
        switch (what) {
        case 't': turn(&world, number); break;
        case 'r': sfi_run_read(&world, 0, data.base, number, bytes, sizeof bytes); break;
        case 'w': sfi_run_write(&world, 0, data.base, bytes, number); break;
        case 'e':
            run_up_to_an_end(&world, number, 2000000 + times * 7919 % 1000000, false);
            run_up_to_an_end(&world, number, 2000000 + times * 7919 % 1000000, true);
            break;
        default: load_file(words[1], &world);
        }
    printf("%" PRIu64 "\n", sfi_run_steps(&world, 0));
    sfi_run_free(&world);
    return 0;
}
