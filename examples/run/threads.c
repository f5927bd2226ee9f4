/* One world that several threads use, a call at a time and in any order: each call is made under a lock, whoever loaded the
 * world. The threads have small stacks.
 *
 *     threads IMAGE STEPS    # runs sandbox 0 for STEPS steps in turns of 10, with each call answered by its own words
 */
#include "host.h"
#include <inttypes.h>
#include <pthread.h>

enum { THREADS = 4, STACK = 65536 };

static pthread_mutex_t lock = PTHREAD_MUTEX_INITIALIZER;
static struct sfi_run_world world = SFI_RUN_NO_WORLD;
static const char *name;
static uint64_t end;

/* A turn of 10 steps, or of those that are left: whether there were any. */
static bool take_some(void) {
    struct sfi_run_event event;
    pthread_mutex_lock(&lock);
    uint64_t done = sfi_run_steps(&world, 0), left = end - done;
    if (left > 0 && sfi_run_turn(&world, 0, left < 10 ? (uint32_t)left : 10, &event) == SFI_RUN_CALL &&
        sfi_run_steps(&world, 0) < end)
        sfi_run_reply(&world, 0, event.a0, event.a1);
    pthread_mutex_unlock(&lock);
    return left > 0;
}

static void *begin(void *unused) {
    load_file(name, &world);
    return unused;
}

static void *run(void *unused) {
    while (take_some())
        continue;
    return unused;
}

static void *finish(void *unused) {
    printf("%" PRIu64 " steps\n", sfi_run_steps(&world, 0));
    sfi_run_stop(&world, 0);
    sfi_run_free(&world);
    return unused;
}

static void start(pthread_t *thread, void *(*does)(void *)) {
    pthread_attr_t attributes;
    if (pthread_attr_init(&attributes) || pthread_attr_setstacksize(&attributes, STACK) ||
        pthread_create(thread, &attributes, does, NULL))
        exit(7);
    pthread_attr_destroy(&attributes);
}

static void in_thread(void *(*does)(void *)) {
    pthread_t thread;
    start(&thread, does);
    pthread_join(thread, NULL);
}

int main(int count, char **words) {
    pthread_t threads[THREADS];
    if (count != 3)
        return 3;
    name = words[1], end = (uint64_t)atol(words[2]);
    in_thread(begin);
    for (int k = 0; k < THREADS; k++)
        start(&threads[k], run);
    for (int k = 0; k < THREADS; k++)
        pthread_join(threads[k], NULL);
    in_thread(finish);
    return 0;
}
