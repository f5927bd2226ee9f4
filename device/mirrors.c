/* That each end of a sandbox's data is a byte of its own. Where a chip decodes addresses in part, its memory is mirrored:
   a store to one address changes another one, in code or in the host, and no rule that the checker knows keeps a
   sandbox from that. Decoding leaves out higher bits of addresses, so this looks at each byte of code and of the host
   whose address has the same low bits. */
#include "internal.h"

enum { APART = 256 }; /* a chip decodes as many low bits as distinguish these addresses */

/* Nothing is stored elsewhere in between. */
static bool changes(volatile uint8_t *byte, const volatile uint8_t *other) {
    uint8_t before = *other;
    *byte ^= UINT8_MAX;
    bool changed = *other != before;
    *byte ^= UINT8_MAX;
    return changed;
}

/* `own` is where the host has the byte. */
static struct sfi_device_fault try_byte(uint32_t byte, uint32_t own, const struct sfi_device_span *span) {
    for (uint32_t offset = (byte - span->from) % APART; offset < span->size; offset += APART) {
        uint32_t other = span->from + offset;
        if (other != own && changes((volatile uint8_t *)byte, (const volatile uint8_t *)other))
            return (struct sfi_device_fault){SFI_DEVICE_IS_MIRRORED, byte, other};
    }
    return (struct sfi_device_fault){SFI_DEVICE_DONE, 0, 0};
}

struct sfi_device_fault sfi_device_try_mirrors(const struct sfi_device_part *part, const struct sfi_device_span spans[],
                                               uint32_t count, uint32_t (*host_address)(uint32_t address)) {
    const uint32_t ends[] = {part->data_base, part->data_base + part->data_size - 1};
    for (uint32_t k = 0; k < 2 * count; k++) {
        uint32_t byte = ends[k % 2];
        struct sfi_device_fault fault = try_byte(byte, host_address ? host_address(byte) : byte, &spans[k / 2]);
        if (fault.status != SFI_DEVICE_DONE)
            return fault;
    }
    return (struct sfi_device_fault){SFI_DEVICE_DONE, 0, 0};
}
