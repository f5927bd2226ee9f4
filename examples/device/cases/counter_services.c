/* Services of a vendor's own: 0 exits with a0; 1 adds the word at a0 to a counter, and answers it. */
#include "host.h"

static uint32_t counter;

static enum sfi_device_outcome add(void *host, struct sfi_device_sandbox *caller, struct sfi_device_call *call) {
    const uint8_t *word = sfi_device_own_bytes(caller, call->a0, 4);
    (void)host;
    call->a0 = word == NULL ? UINT32_MAX : (counter += sfi_device_word_at(word));
    return SFI_DEVICE_REPLIED;
}

sfi_device_service *const services[] = {sfi_device_exit, add};
const uint32_t service_count = sizeof services / sizeof services[0];
