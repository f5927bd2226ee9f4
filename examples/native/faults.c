/* A host with a fault of its own, beside those of a plug-in that accesses a guard zone. It loads the plug-in, has its turn,
 * faults, and has the turn once more.
 *
 *     faults IMAGE info|plain|none|ignore|raise|ignore-raise [LIBRARY]
 *
 * Before it loads the plug-in it handles SIGSEGV, with or without what is known of the fault, or doesn't: it has no handler
 * (none), or ignores the signal (ignore). `raise` sends the signal, in place of the fault. It prints how each turn ended, and how
 * many faults its handler has got. LIBRARY is another copy of the library, which loads the plug-in after the first; then the first does again.
 */
#include "../run/host.h"
#include <dlfcn.h>
#include <inttypes.h>
#include <setjmp.h>
#include <signal.h>
#include <string.h>

enum { STEPS = 1000 };

static sigjmp_buf after;
static volatile sig_atomic_t faults, is_told;
static int *volatile nowhere; /* NULL */

static void plain(int number) {
    (void)number;
    faults++;
    siglongjmp(after, 1);
}

static void with_info(int number, siginfo_t *info, void *context) {
    (void)context;
    is_told = info->si_signo == SIGSEGV && info->si_addr == (void *)nowhere;
    plain(number);
}

static void handle(const char *how) {
    struct sigaction action;
    memset(&action, 0, sizeof action);
    if (strcmp(how, "info") == 0) {
        action.sa_sigaction = with_info;
        action.sa_flags = SA_SIGINFO;
    } else if (strcmp(how, "plain") == 0) {
        action.sa_handler = plain;
    } else {
        action.sa_handler = strncmp(how, "ignore", 6) == 0 ? SIG_IGN : SIG_DFL;
    }
    sigaction(SIGSEGV, &action, NULL);
}

static void take_turn(struct sfi_run_world *world) {
    struct sfi_run_event event;
    sfi_run_reset(world, 0);
    sfi_run_turn(world, 0, STEPS, &event);
    printf("kind=%" PRIu32 " cause=%" PRIu32 " at=%08" PRIx32 " faults=%d told=%d\n", event.kind, event.number, event.a0, (int)faults,
           (int)is_told);
    fflush(stdout);
}

static void load_other(const char *library, const char *image) {
    static uint8_t bytes[1 << 16];
    FILE *const file = fopen(image, "rb");
    const size_t length = file != NULL ? fread(bytes, 1, sizeof bytes, file) : 0;
    static struct sfi_run_world world;
    void *const opened = dlopen(library, RTLD_NOW | RTLD_LOCAL);
    uint32_t (*load)(const uint8_t *, size_t, struct sfi_run_world *, struct sfi_verdict *) = NULL;
    struct sfi_verdict verdict;
    if (opened != NULL)
        *(void **)&load = dlsym(opened, "sfi_run_load");
    if (load == NULL || load(bytes, length, &world, &verdict) != SFI_RUN_LOADED) {
        fprintf(stderr, "%s can't be loaded\n", library);
        exit(5);
    }
}

int main(int count, char **words) {
    struct sfi_run_world world = SFI_RUN_NO_WORLD;
    if (count != 3 && count != 4)
        return 3;
    handle(words[2]);
    load_file(words[1], &world);
    if (count == 4) {
        load_other(words[3], words[1]);
        load_file(words[1], &world);
    }
    take_turn(&world);
    if (sigsetjmp(after, 1) == 0) {
        if (strstr(words[2], "raise"))
            raise(SIGSEGV);
        else
            *nowhere = 1;
        printf("it goes on\n");
    }
    take_turn(&world);
    sfi_run_free(&world);
    return 0;
}
