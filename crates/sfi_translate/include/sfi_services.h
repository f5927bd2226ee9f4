/*
 * The services of the console of `sfi run` (docs/GATES.md), for hosts in C99 or C++. A host fills in `struct sfi_console` and,
 * for each call, `struct sfi_console_call`; it answers exit and yield, which end a turn. It includes string.h, or declares
 * memcpy, before this file. Nothing here is proved.
 */
#ifndef SFI_SERVICES_H
#define SFI_SERVICES_H

#include <stdbool.h>
#include <stddef.h>
#include <stdint.h>

enum sfi_service { SFI_EXIT_SERVICE, SFI_PUT_SERVICE, SFI_GET_SERVICE, SFI_YIELD_SERVICE, SFI_POST_SERVICE, SFI_TAKE_SERVICE,
                   SFI_SERVICES };
enum { SFI_HANDED_MOST = 65536, SFI_OUTPUT_MOST = 1048576, SFI_MAILBOX_MOST = 16 };
static const uint32_t SFI_CALL_REFUSED = UINT32_MAX; /* a0 of a refused call */

struct sfi_message {
    uint32_t word, sender;
};

/* What is kept of a sandbox. At first all is 0 but `output`, which has room for what is put. */
struct sfi_session {
    uint8_t *output;
    size_t written, taken; /* bytes of the output, and bytes read of the input */
    uint32_t waiting;
    struct sfi_message mailbox[SFI_MAILBOX_MOST]; /* the oldest first */
};

struct sfi_console {
    const uint8_t *input;
    size_t input_length, output_most;
    uint32_t count; /* of sandboxes */
    struct sfi_session *sessions;
};

/* a0 and a1 are the call's arguments, and then the reply. `data` is where the caller's data region lies in the host's memory. */
struct sfi_console_call {
    uint32_t caller, service, a0, a1;
    uint8_t *data;
    uint32_t data_base, data_size;
};

/* Whether the caller's data region has the a1 bytes from a0 on, and one call may hand over as many. */
static inline bool sfi_may_hand(const struct sfi_console_call *call) {
    const uint32_t offset = call->a0 - call->data_base, count = call->a1;
    return count <= SFI_HANDED_MOST && (count == 0 || (offset < call->data_size && count <= call->data_size - offset));
}

static inline bool sfi_may_put(const struct sfi_console *console, const struct sfi_console_call *call) {
    return sfi_may_hand(call) && call->a1 <= console->output_most - console->sessions[call->caller].written;
}

static inline uint32_t sfi_put(struct sfi_console *console, const struct sfi_console_call *call) {
    struct sfi_session *own = &console->sessions[call->caller];
    if (!sfi_may_put(console, call))
        return SFI_CALL_REFUSED;
    if (call->a1)
        memcpy(own->output + own->written, call->data + (call->a0 - call->data_base), call->a1);
    own->written += call->a1;
    return call->a1;
}

static inline uint32_t sfi_get(struct sfi_console *console, const struct sfi_console_call *call) {
    struct sfi_session *own = &console->sessions[call->caller];
    const size_t left = console->input_length - own->taken;
    const uint32_t count = call->a1 < left ? call->a1 : (uint32_t)left;
    if (!sfi_may_hand(call))
        return SFI_CALL_REFUSED;
    if (count)
        memcpy(call->data + (call->a0 - call->data_base), console->input + own->taken, count);
    own->taken += count;
    return count;
}

static inline uint32_t sfi_post(struct sfi_console *console, const struct sfi_console_call *call) {
    if (call->a0 >= console->count)
        return SFI_CALL_REFUSED;
    struct sfi_session *to = &console->sessions[call->a0];
    if (to->waiting == SFI_MAILBOX_MOST)
        return 1;
    to->mailbox[to->waiting].word = call->a1;
    to->mailbox[to->waiting++].sender = call->caller;
    return 0;
}

static inline void sfi_take(struct sfi_session *own, struct sfi_console_call *call) {
    call->a0 = call->a1 = 0;
    if (own->waiting == 0)
        return;
    call->a0 = own->mailbox[0].word;
    call->a1 = own->mailbox[0].sender + 1;
    own->waiting--;
    for (uint32_t k = 0; k < own->waiting; k++)
        own->mailbox[k] = own->mailbox[k + 1];
}

/* Replies to a call of another service than exit and yield. A caller that the console doesn't know is refused. */
static inline void sfi_console_reply(struct sfi_console *console, struct sfi_console_call *call) {
    if (call->caller >= console->count)
        call->a0 = SFI_CALL_REFUSED;
    else if (call->service == SFI_PUT_SERVICE)
        call->a0 = sfi_put(console, call);
    else if (call->service == SFI_GET_SERVICE)
        call->a0 = sfi_get(console, call);
    else if (call->service == SFI_POST_SERVICE)
        call->a0 = sfi_post(console, call);
    else if (call->service == SFI_TAKE_SERVICE)
        sfi_take(&console->sessions[call->caller], call);
    else
        call->a0 = SFI_CALL_REFUSED;
}

#endif
