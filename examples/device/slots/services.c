/* What a plug-in can ask: it exits, puts bytes into its output, yields, and reports that it works. */
#include "slots.h"

enum service { EXIT, PUT, YIELD = 3, REPORT };
static const uint32_t FAILED = UINT32_MAX;

static enum sfi_device_outcome put(void *host, struct sfi_device_sandbox *sandbox, struct sfi_device_call *call) {
    struct plugin *caller = (struct plugin *)sandbox;
    const uint8_t *bytes = sfi_device_own_bytes(sandbox, call->a0, call->a1);
    (void)host;
    if (bytes == NULL || call->a1 > OUTPUT_MOST - caller->output_length || call->a1 > CALL_BYTES_MOST) {
        call->a0 = FAILED;
        return SFI_DEVICE_REPLIED;
    }
    memcpy(caller->output + caller->output_length, bytes, call->a1);
    caller->output_length += call->a1;
    call->a0 = call->a1;
    return SFI_DEVICE_REPLIED;
}

static enum sfi_device_outcome report(void *host, struct sfi_device_sandbox *sandbox, struct sfi_device_call *call) {
    uint32_t number = number_of(host, sandbox);
    sfi_device_confirm_slot(&slots, number);
    call->a0 = sfi_device_current(&slots, number)->number;
    return SFI_DEVICE_REPLIED;
}

sfi_device_service *const services[] = {[EXIT] = sfi_device_exit, [PUT] = put, [YIELD] = sfi_device_yield, [REPORT] = report};
const uint32_t service_count = sizeof services / sizeof services[0];
