/* The data of a sandbox in a window of closed addresses, and the faults of the processor there, for hosts on Linux: a handler of SIGSEGV
   and SIGBUS, which leaves to others what isn't an access of a sandbox. Nothing of this file is proved. */
#ifndef SFI_NATIVE_GUARDS_H
#define SFI_NATIVE_GUARDS_H
#include <signal.h>
#include <sys/mman.h>
#include <ucontext.h>
#include "sfi_native.h"
#ifndef REG_RIP
#error "guard zones want _GNU_SOURCE defined before the first header"
#endif

enum { SFI_ZONE = 4096 };  /* the bytes of a guard zone (docs/IMAGE.md), and of a page */
/* Made and not freed: each takes 2 or 3 of the 65530 maps that Linux gives a process, and where masks are single 4 GiB of its 128 TiB. */
enum { SFI_DATA_MOST = 20000 };
static size_t sfi_data_count;

/* Whether the fault at that address is one of a sandbox's access: then the registers are where it goes on. An includer has it. */
static int sfi_takes_fault(uintptr_t address, greg_t registers[]);

static struct sigaction sfi_handlers_before[2];  /* of SIGSEGV and SIGBUS */

/* Does what would be done without this file's handler, by the flags and the mask of the one before: the mask ends with the signal. */
static void sfi_hand_on(struct sigaction *before, int number, siginfo_t *info, void *context) {
    struct sigaction other = *before;
    const int is_sent = info->si_code <= 0;
    if (other.sa_handler == SIG_IGN && is_sent)
        return;
    if (other.sa_handler == SIG_DFL || other.sa_handler == SIG_IGN) {  /* a fault comes again */
        sigaction(number, &other, NULL);
        if (is_sent)
            raise(number);
        return;
    }
    if (other.sa_flags & (int)SA_RESETHAND)
        before->sa_handler = SIG_DFL;
    if (!(other.sa_flags & SA_NODEFER))
        sigaddset(&other.sa_mask, number);
    sigprocmask(SIG_BLOCK, &other.sa_mask, NULL);
    if (other.sa_flags & SA_SIGINFO)
        other.sa_sigaction(number, info, context);
    else
        other.sa_handler(number);
}

static void sfi_on_fault(int number, siginfo_t *info, void *context) {
    greg_t *const registers = ((ucontext_t *)context)->uc_mcontext.gregs;
    if (info->si_code <= 0 || !sfi_takes_fault((uintptr_t)info->si_addr, registers))
        sfi_hand_on(&sfi_handlers_before[number == SIGBUS], number, info, context);
}

/* What is there stays known before it is replaced, as another thread may fault meanwhile, and what is this file's own isn't taken for it,
   should a call before this one have replaced one of the two alone. */
static int sfi_replace_handlers(const struct sigaction *own) {
    static const int numbers[2] = { SIGSEGV, SIGBUS };
    for (int k = 0; k < 2; k++) {
        struct sigaction there;
        if (sigaction(numbers[k], NULL, &there))
            return -1;
        if (!(there.sa_flags & SA_SIGINFO) || there.sa_sigaction != own->sa_sigaction)
            sfi_handlers_before[k] = there;
    }
    return sigaction(SIGSEGV, own, NULL) || sigaction(SIGBUS, own, NULL);
}

/* Handles faults, from the first call on. What isn't a sandbox's fault goes to the handler that was there then. It is set once:
   one that is set later may hand on to it, and a fault of neither would go round. SA_NODEFER: another handler may jump away. */
static int sfi_handle_faults(void) {
    enum { NOT_YET, BEGUN, DONE };
    static int state;
    struct sigaction own = { .sa_flags = SA_SIGINFO | SA_ONSTACK | SA_NODEFER };
    own.sa_sigaction = sfi_on_fault;
    int before = NOT_YET;
    if (__atomic_compare_exchange_n(&state, &before, BEGUN, 0, __ATOMIC_ACQ_REL, __ATOMIC_ACQUIRE))
        __atomic_store_n(&state, sfi_replace_handlers(&own) ? NOT_YET : DONE, __ATOMIC_RELEASE);
    while ((before = __atomic_load_n(&state, __ATOMIC_ACQUIRE)) == BEGUN)
        ;  /* another thread's call */
    return before == DONE ? 0 : -1;
}

static size_t sfi_room_of(const struct sfi_sandbox *s) {
    return ((size_t)s->data_size + SFI_ZONE - 1) / SFI_ZONE * SFI_ZONE;
}

/* What is closed but for the data in it: a guard zone on each side of these. Native code of single masks adds any number of 32 bits to
   the place of address 0: for it all 2^32 addresses are closed, and a guard zone on each side of them (`window`, specs/Layout.antt). */
struct sfi_window { size_t below, size; };  /* the bytes below the data, and all */
static struct sfi_window sfi_window_of(const struct sfi_sandbox *s, int has_code) {
    if (has_code && s->single)
        return (struct sfi_window){ SFI_ZONE + (size_t)s->data, ((size_t)1 << 32) + 2 * SFI_ZONE };
    return (struct sfi_window){ SFI_ZONE, sfi_room_of(s) + 2 * SFI_ZONE };
}

/* Data of zeros in their window, or NULL. */
static uint8_t *sfi_map_data(const struct sfi_sandbox *s, int has_code) {
    const struct sfi_window window = sfi_window_of(s, has_code);
    uint8_t *const all = mmap(NULL, window.size, PROT_NONE, MAP_PRIVATE | MAP_ANONYMOUS | MAP_NORESERVE, -1, 0);
    if (all == MAP_FAILED)
        return NULL;
    if (mprotect(all + window.below, sfi_room_of(s), PROT_READ | PROT_WRITE) || sfi_handle_faults()) {
        munmap(all, window.size);
        return NULL;
    }
    return all + window.below;
}

/* The same, or NULL also where as many are there as may be: the host keeps maps of its own. `has_code`: whether native code is to run
   with them, and not steps of the host alone, which test accesses. */
static uint8_t *sfi_new_data(const struct sfi_sandbox *s, int has_code) {
    const size_t count = __atomic_add_fetch(&sfi_data_count, 1, __ATOMIC_RELAXED);
    uint8_t *const data = count > SFI_DATA_MOST ? NULL : sfi_map_data(s, has_code);
    if (data == NULL)
        __atomic_sub_fetch(&sfi_data_count, 1, __ATOMIC_RELAXED);
    return data;
}

static void sfi_free_data(const struct sfi_sandbox *s, int has_code, uint8_t *data) {
    const struct sfi_window window = sfi_window_of(s, has_code);
    if (data == NULL)
        return;
    munmap(data - window.below, window.size);
    __atomic_sub_fetch(&sfi_data_count, 1, __ATOMIC_RELAXED);
}
#endif
