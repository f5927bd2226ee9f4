/* Linked with --wrap=sfi_device_enter: refuses to go on where a sandbox, or anything else on the way into it and back, has changed a
   byte of the host's memory but its frame, and the 256 bytes below this function's frame. */
#include "host.h"
#include "internal.h"

enum { BELOW = 256 };
static volatile uint32_t stack, before; /* the frame of the function that enters; the sum when the host was left */
uint32_t __real_sfi_device_enter(struct sfi_device_frame *frame);
uint32_t __wrap_sfi_device_enter(struct sfi_device_frame *frame);

static uint32_t sum_between(uint32_t from, uint32_t to, uint32_t sum) {
    for (; from < to; from++)
        sum = sum * 31 + *(const volatile uint8_t *)from;
    return sum;
}

/* Neither of these own two, which change once it is taken. */
static uint32_t sum_beside(const struct sfi_device_frame *frame) {
    uint32_t first = (uint32_t)frame, last = (uint32_t)(frame + 1), kept = before, sum;
    before = 0;
    sum = sum_between(HOST_RAM, first < stack ? first : HOST_RAM, 0);
    sum = sum_between(first < stack ? last : HOST_RAM, stack - BELOW, sum);
    before = kept;
    return sum_between(stack, RAM_END, sum);
}

static void compare(const struct sfi_device_frame *frame) {
    if (sum_beside(frame) != before)
        refuse("the host's memory isn't as it was before a sandbox ran");
}

uint32_t __wrap_sfi_device_enter(struct sfi_device_frame *frame) {
    stack = (uint32_t)__builtin_frame_address(0);
    before = sum_beside(frame);
    uint32_t cause = __real_sfi_device_enter(frame);
    compare(frame);
    return cause;
}

struct sfi_device_frame *sfi_device_answer(struct sfi_device_frame *frame) {
    compare(frame);
    struct sfi_device_frame *answered = sfi_device_answer_call(frame);
    before = sum_beside(frame);
    return answered;
}
