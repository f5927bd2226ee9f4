/* The services of a host, as the console of `sfi run` answers them (docs/GATES.md). A vendor's own
   host has a file with other services in the place of this one. */
#include "host.h"

enum service { EXIT, PUT, GET, YIELD, POST, TAKE };
static const uint32_t FAILED = UINT32_MAX;

static uint32_t least(uint32_t a, uint32_t b) {
    return a < b ? a : b;
}

/* put and get move CALL_BYTES_MOST bytes at a time: the call is made again for the rest, and an interrupt can
   come before it. Only a call that is over writes a0. */
static enum sfi_device_outcome moved(struct plugin *caller, struct sfi_device_call *call, uint32_t piece, uint32_t length) {
    caller->moved += piece;
    if (caller->moved < length)
        return SFI_DEVICE_GOES_ON;
    caller->moved = 0;
    call->a0 = length;
    return SFI_DEVICE_REPLIED;
}

static enum sfi_device_outcome fails(struct sfi_device_call *call) {
    call->a0 = FAILED;
    return SFI_DEVICE_REPLIED;
}

static enum sfi_device_outcome move_nothing(struct sfi_device_call *call) {
    call->a0 = 0;
    return SFI_DEVICE_REPLIED;
}

static __attribute__((noinline)) enum sfi_device_outcome put_bytes(struct plugin *caller, struct sfi_device_call *call) {
    uint32_t length = call->a1, left = length - caller->moved, piece = least(left, CALL_BYTES_MOST);
    const uint8_t *bytes = sfi_device_own_bytes(&caller->sandbox, call->a0, length);
    if (bytes == NULL || length > PUT_MOST || left > OUTPUT_MOST - caller->output_length)
        return fails(call);
    memcpy(caller->output + caller->output_length, bytes + caller->moved, piece);
    caller->output_length += piece;
    return moved(caller, call, piece, length);
}

static enum sfi_device_outcome put(void *host, struct sfi_device_sandbox *caller, struct sfi_device_call *call) {
    (void)host;
    return call->a1 == 0 ? move_nothing(call) : put_bytes((struct plugin *)caller, call);
}

static enum sfi_device_outcome get(void *host, struct sfi_device_sandbox *sandbox, struct sfi_device_call *call) {
    const struct world *world = host;
    struct plugin *caller = (struct plugin *)sandbox;
    if (call->a1 == 0)
        return move_nothing(call);
    uint32_t input = world->arguments->input_length - caller->input_read + caller->moved;
    uint32_t length = least(call->a1, input), piece = least(length - caller->moved, CALL_BYTES_MOST);
    uint8_t *bytes = sfi_device_own_bytes(sandbox, call->a0, call->a1);
    if (bytes == NULL || call->a1 > PUT_MOST)
        return fails(call);
    memcpy(bytes + caller->moved, world->input + caller->input_read, piece);
    caller->input_read += piece;
    return moved(caller, call, piece, length);
}

static enum sfi_device_outcome post(void *host, struct sfi_device_sandbox *sandbox, struct sfi_device_call *call) {
    struct world *world = host;
    if (call->a0 >= world->count)
        return fails(call);
    struct plugin *to = &world->plugins[call->a0];
    bool is_full = to->letter_count == MAILBOX_WORDS;
    if (!is_full)
        to->mailbox[to->letter_count++] = (struct letter){number_of(world, sandbox), call->a1};
    call->a0 = is_full;
    return SFI_DEVICE_REPLIED;
}

static enum sfi_device_outcome take(void *host, struct sfi_device_sandbox *sandbox, struct sfi_device_call *call) {
    struct plugin *caller = (struct plugin *)sandbox;
    (void)host;
    call->a0 = call->a1 = 0;
    if (caller->letter_count == 0)
        return SFI_DEVICE_REPLIED;
    call->a0 = caller->mailbox[0].word;
    call->a1 = caller->mailbox[0].sender + 1;
    caller->letter_count--;
    for (uint32_t k = 0; k < caller->letter_count; k++)
        caller->mailbox[k] = caller->mailbox[k + 1];
    return SFI_DEVICE_REPLIED;
}

sfi_device_service *const services[] = {
    [EXIT] = sfi_device_exit, [PUT] = put, [GET] = get, [YIELD] = sfi_device_yield, [POST] = post, [TAKE] = take
};
const uint32_t service_count = sizeof services / sizeof services[0];
