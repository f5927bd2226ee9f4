/* In the place of pmp.c, pmp.S and ../guards.c, for a chip without physical memory protection: nothing closes the guard zones,
   so they have to be memory of nobody else, and a sandbox may read and write there. Code in bundles gets no further even so,
   which is proved (`sfi_safety`'s `Facts::clean_runs_safely_as`). Code in words does: each of its steps leads further from
   the data where no access traps: so only of a part that says that its format is one of bundles guards are done. */
#include "../internal.h"

struct sfi_device_fault sfi_device_close_guards(uint32_t number, const struct sfi_device_part *part) {
    (void)number;
    if (part->format == SFI_DEVICE_FORMAT_OF_SINGLE_MASKS)
        return (struct sfi_device_fault){SFI_DEVICE_NO_ZONE_AT_ZERO, 0, 0};
    if (part->format != SFI_DEVICE_FORMAT_1 && part->format != SFI_DEVICE_FORMAT_2)
        return (struct sfi_device_fault){SFI_DEVICE_NO_GUARDS, 0, 0};
    return (struct sfi_device_fault){SFI_DEVICE_DONE, 0, 0};
}

struct sfi_device_fault sfi_device_write_protection(void) {
    return (struct sfi_device_fault){SFI_DEVICE_DONE, 0, 0};
}

struct sfi_device_fault sfi_device_try_guards(const struct sfi_device_firmware *firmware, const struct sfi_device_part *part) {
    (void)firmware, (void)part; /* no access there traps */
    return (struct sfi_device_fault){SFI_DEVICE_DONE, 0, 0};
}
