/* What traps, whatever was written to make it trap: each sandbox's guard zones and data, at both ends. A
   load does what one of the sandbox would do, in the same mode and through the same handler. */
#include "internal.h"
#include "privileged.h"

/* The byte at a1; then a call, as of a gate. */
extern const uint32_t sfi_device_load_byte[];
__asm__(".text\n .balign 4\nsfi_device_load_byte: lbu t0, 0(a1)\n ecall\n");

/* The cause that came to the host, at the load itself or after it. */
struct trap {
    uint32_t cause;
    bool at_load;
};

static struct trap trap_of(const struct sfi_device_firmware *firmware, uint32_t address) {
    struct sfi_device_frame frame = {.pc = (uint32_t)sfi_device_load_byte};
    uint32_t cause;
    frame.x[A1] = address;
    do {
        if (firmware->interrupt_after)
            firmware->interrupt_after(UINT32_MAX); /* it may have been due */
        cause = sfi_device_enter(&frame);
    } while (cause == CAUSE_TIMER);
    return (struct trap){cause, frame.pc == (uint32_t)sfi_device_load_byte};
}

static bool is_of_guard(struct trap trap) {
    return trap.at_load && (trap.cause == CAUSE_LOAD_ACCESS || trap.cause == CAUSE_LOAD_PAGE);
}

/* Of the fourth format the first and the last of the addresses that its masks and steps leave below the data, and of the last ones. */
static struct sfi_device_fault try_zone_at_zero(const struct sfi_device_firmware *firmware, const struct sfi_device_part *part) {
    const uint32_t places[] = {0, part->data_size - 1, part->data_size + SFI_DEVICE_GUARD_ZONE - 1, UINT32_MAX - SFI_DEVICE_GUARD_ZONE + 1,
                               UINT32_MAX};
    for (uint32_t k = 0; part->format == SFI_DEVICE_FORMAT_OF_SINGLE_MASKS && k < sizeof places / sizeof places[0]; k++)
        if (!is_of_guard(trap_of(firmware, places[k])))
            return (struct sfi_device_fault){SFI_DEVICE_GUARD_IS_OPEN, places[k], 0};
    return (struct sfi_device_fault){SFI_DEVICE_DONE, 0, 0};
}

struct sfi_device_fault sfi_device_try_guards(const struct sfi_device_firmware *firmware, const struct sfi_device_part *part) {
    uint32_t data = part->data_base, data_end = data + part->data_size;
    const struct {
        uint32_t address;
        enum sfi_device_status fault;
    } places[] = {
        {data - SFI_DEVICE_GUARD_ZONE, SFI_DEVICE_GUARD_IS_OPEN}, {data - 1, SFI_DEVICE_GUARD_IS_OPEN},
        {data, SFI_DEVICE_DATA_IS_CLOSED}, {data_end - 1, SFI_DEVICE_DATA_IS_CLOSED},
        {data_end, SFI_DEVICE_GUARD_IS_OPEN}, {data_end + SFI_DEVICE_GUARD_ZONE - 1, SFI_DEVICE_GUARD_IS_OPEN}
    };
    for (uint32_t k = 0; k < sizeof places / sizeof places[0]; k++) {
        struct trap trap = trap_of(firmware, places[k].address);
        if (places[k].fault == SFI_DEVICE_GUARD_IS_OPEN ? !is_of_guard(trap) : trap.cause != CAUSE_ECALL)
            return (struct sfi_device_fault){places[k].fault, places[k].address, 0};
    }
    return try_zone_at_zero(firmware, part);
}
