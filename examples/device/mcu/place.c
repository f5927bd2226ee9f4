/* Where the sandboxes of an image are on a chip without paging, and its timer. Code lies in flash, at the
   places that `sfi build --at` gave it, and data in memory. */
#include "../host.h"

#ifndef NO_PMP
_Static_assert(3 * SANDBOXES_MOST <= PMP_ENTRIES, "chip.h: each sandbox takes three entries");
#endif

/* The guard zone below CHIP_RAM is nobody's: chip.h sees to that. */
static bool data_is_free(const struct sfi_device_part *part) {
    return part->data_base >= CHIP_RAM && part->data_size <= HOST_RAM - CHIP_RAM &&
           part->data_base - CHIP_RAM <= HOST_RAM - CHIP_RAM - part->data_size &&
           HOST_RAM - part->data_base - part->data_size >= SFI_DEVICE_GUARD_ZONE;
}

/* Sandboxes run the bytes that flash has, and the image's are those that were checked. */
bool sfi_device_is_code_in_place(const struct sfi_device_part *part) {
    if (part->code_base < FLASH_CODE || part->code_size > FLASH_ARGUMENTS - FLASH_CODE ||
        part->code_base > FLASH_ARGUMENTS - part->code_size)
        return false;
    return sfi_device_are_same((const uint8_t *)CODE_AS_DATA(part->code_base), part->code, part->code_size);
}

extern const uint8_t text_end[]; /* of the host's code and constants */

void test_mirrors(uint32_t number, const struct sfi_device_part *part) {
    const struct sfi_device_span spans[] = {
        {CHIP_RAM, RAM_END - CHIP_RAM}, {FLASH_HOST, (uint32_t)text_end - FLASH_HOST},
        {CODE_AS_DATA(FLASH_CODE), FLASH_ARGUMENTS - FLASH_CODE}, {FLASH_IMAGE, FLASH_INPUT - FLASH_IMAGE}
    };
    refuse_fault(number, sfi_device_try_mirrors(part, spans, sizeof spans / sizeof spans[0], NULL));
}

void place(uint32_t number, const struct sfi_device_part *part) {
    if (!data_is_free(part))
        refuse_sandbox(number, "there is no memory for its data and guard zones");
    if (!sfi_device_is_code_in_place(part))
        refuse_sandbox(number, "its code isn't in the flash");
    test_mirrors(number, part);
    memset((uint8_t *)part->data_base, 0, part->data_size);
    memcpy((uint8_t *)part->data_base, part->first, part->first_count);
    refuse_fault(number, sfi_device_close_guards(number, part));
}

static uint64_t now(void) {
    const volatile uint32_t *time = (const volatile uint32_t *)TIME;
    uint32_t low, high;
    do {
        high = time[1];
        low = time[0];
    } while (high != time[1]);
    return (uint64_t)high << 32 | low;
}

/* The lower half first becomes its largest, so that no time between the old and the new one is set. */
void interrupt_after(uint32_t ticks) {
    volatile uint32_t *due = (volatile uint32_t *)TIMER_DUE;
    uint64_t time = now() + ticks;
    due[0] = UINT32_MAX;
    due[1] = (uint32_t)(time >> 32);
    due[0] = (uint32_t)time;
#ifdef TIMER_STATE
    *(volatile uint32_t *)TIMER_STATE = 1;
#endif
}
