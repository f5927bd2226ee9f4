/* Physical memory protection. A lower entry goes before a higher one. What was written is read back:
   an entry may be locked, or not there, or of coarser addresses. */
#include "../internal.h"
#include "../privileged.h"

enum { ENTRIES_EACH = 3 };

struct entries {
    uint32_t addresses[SFI_DEVICE_PMP_ENTRIES];
    uint8_t configurations[SFI_DEVICE_PMP_ENTRIES] __attribute__((aligned(4)));
};
static struct entries wanted;
static uint32_t count; /* of the first entries, up to the last that is wanted */

/* pmp.S */
void sfi_device_pmp_write(const uint32_t addresses[], const uint8_t configurations[]);
void sfi_device_pmp_read(uint32_t addresses[], uint8_t configurations[]);
uint32_t sfi_device_pmp_rules(void);

enum sfi_device_status sfi_device_protect(uint32_t entry, uint64_t address, uint8_t configuration) {
    if (entry >= SFI_DEVICE_PMP_ENTRIES)
        return SFI_DEVICE_NO_ENTRY;
    wanted.addresses[entry] = (uint32_t)(address >> 2);
    wanted.configurations[entry] = configuration;
    if (count <= entry)
        count = entry + 1;
    return SFI_DEVICE_DONE;
}

/* The address of an entry PMP_NAPOT has a 0 and then as many ones at the end as the size asks for. */
uint32_t sfi_device_power_of_two(uint32_t base, uint32_t size) {
    return base | (size / 2 - 1);
}

struct sfi_device_fault sfi_device_write_protection(void) {
    struct entries found;
    if (sfi_device_pmp_rules() != 0)
        return (struct sfi_device_fault){SFI_DEVICE_OTHER_RULES, 0, 0};
    memset(&found, 0xff, sizeof found);
    sfi_device_pmp_write(wanted.addresses, wanted.configurations);
    sfi_device_pmp_read(found.addresses, found.configurations);
    for (uint32_t entry = 0; entry < count; entry++)
        if (found.addresses[entry] != wanted.addresses[entry] ||
            found.configurations[entry] != wanted.configurations[entry])
            return (struct sfi_device_fault){SFI_DEVICE_ENTRY_DIFFERS, 0, entry};
    return (struct sfi_device_fault){SFI_DEVICE_DONE, 0, 0};
}

/* Locked entries hold in M-mode, where host and sandboxes run, and the first entry that fits decides:
   the data region is open, and the rest from the first address of the lower guard zone to the last of
   the upper one is closed. Low addresses stay as they are, with the boot ROM and devices that many chips
   have there: so no sandbox of the fourth format. */
struct sfi_device_fault sfi_device_close_guards(uint32_t number, const struct sfi_device_part *part) {
    uint32_t entry = ENTRIES_EACH * number;
    uint64_t data_end = (uint64_t)part->data_base + part->data_size; /* the upper guard zone may end at 2^32 */
    if (number >= SFI_DEVICE_PMP_ENTRIES / ENTRIES_EACH)
        return (struct sfi_device_fault){SFI_DEVICE_NO_ENTRY, 0, 0};
    if (part->format == SFI_DEVICE_FORMAT_OF_SINGLE_MASKS)
        return (struct sfi_device_fault){SFI_DEVICE_NO_ZONE_AT_ZERO, 0, 0};
    if (!sfi_device_is_data(part->data_base, part->data_size))
        return (struct sfi_device_fault){SFI_DEVICE_BAD_PLACE, 0, 0}; /* of 0 bytes the first entry would open all */
    sfi_device_protect(entry, sfi_device_power_of_two(part->data_base, part->data_size),
                       PMP_LOCKED | PMP_NAPOT | PMP_R | PMP_W);
    sfi_device_protect(entry + 1, part->data_base - SFI_DEVICE_GUARD_ZONE, PMP_LOCKED | PMP_OFF);
    sfi_device_protect(entry + 2, data_end + SFI_DEVICE_GUARD_ZONE, PMP_LOCKED | PMP_TOR);
    return (struct sfi_device_fault){SFI_DEVICE_DONE, 0, 0};
}
